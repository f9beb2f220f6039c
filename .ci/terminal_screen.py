"""A terminal as the program's users have it: bytes go in, and rows of cells can be read.

It knows what the program may write and nothing else: the placement, the clearing of the screen, three looks, and text; and of what stands
around a session the terminal's other screen, and whether there is a cursor.
"""
import re
import unicodedata

PLAIN, BOLD, REVERSE = "plain", "bold", "reverse"
LOOKS = {b"0": PLAIN, b"": PLAIN, b"1": BOLD, b"7": REVERSE}
SEQUENCE = re.compile(rb"\x1b\[(\??[0-9;]*)([A-Za-z])")


def columns_of(character):
    """How many cells a character takes: a mark that joins the one before it takes none."""
    if unicodedata.combining(character) or unicodedata.category(character) in ("Mn", "Me", "Cf"):
        return 0
    return 2 if unicodedata.east_asian_width(character) in "WF" else 1


class Screen:
    """The cells of a terminal after bytes; a cell is its text and how it looks."""

    def __init__(self, lines, columns, written=b""):
        self.lines, self.columns = lines, columns
        self.look, self.at = PLAIN, (0, 0)
        self.unread = []
        self.first, self.has_cursor = None, True
        self.clear()
        self.read(written)

    def clear(self):
        self.cells = [[(" ", PLAIN)] * self.columns for _ in range(self.lines)]

    def read(self, written):
        """Reads bytes; what it doesn't know is kept in `unread`."""
        place = 0
        while place < len(written):
            found = SEQUENCE.match(written, place)
            if found:
                self.obey(found.group(1), found.group(2), found.group(0))
                place = found.end()
                continue
            end = written.find(b"\x1b", place + 1)
            end = len(written) if end < 0 else end
            self.show(written[place:end])
            place = end

    def obey(self, numbers, final, whole):
        if final == b"H":
            row, column = (list(map(int, filter(None, numbers.split(b";")))) + [1, 1])[:2]
            self.at = (row - 1, column - 1)
        elif final == b"J" and numbers == b"2":
            self.clear()
        elif final == b"m" and numbers in LOOKS:
            self.look = LOOKS[numbers]
        elif numbers == b"?25" and final in b"hl":
            self.has_cursor = final == b"h"
        elif numbers == b"?1049" and final in b"hl":
            self.change(final == b"h")
        else:
            self.unread.append(whole)

    def change(self, to_other):
        """Goes to the other screen, which is blank then, or back to the first one."""
        if to_other and self.first is None:
            self.first = self.cells, self.at
            self.clear()
        elif not to_other and self.first is not None:
            (self.cells, self.at), self.first = self.first, None

    def show(self, text):
        for character in text.decode("utf-8", "replace"):
            row, column = self.at
            wide = columns_of(character)
            if ord(character) < 32 or row >= self.lines or column + wide > self.columns:
                self.unread.append(character.encode())
                continue
            if wide == 0:
                if column > 0:
                    shown, look = self.cells[row][column - 1]
                    self.cells[row][column - 1] = (shown + character, look)
                continue
            self.cells[row][column] = (character, self.look)
            if wide == 2:
                self.cells[row][column + 1] = ("", self.look)
            self.at = (row, column + wide)

    def row(self, number):
        """The text of a row, counted from 1."""
        return "".join(text for text, _ in self.cells[number - 1])

    def rows(self):
        return [self.row(number + 1) for number in range(self.lines)]

    def looks(self, number):
        """How the cells of a row look: `r` reverse, `b` bold, a blank where plain."""
        letters = {PLAIN: " ", BOLD: "b", REVERSE: "r"}
        return "".join(letters[look] for _, look in self.cells[number - 1])
