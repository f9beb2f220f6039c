"""What stands on the screen, written by hand from the rules of the screen, and compared cell by cell.

Two panels: the left has half of the columns, the right the rest. The first row of a panel is its folder filled with `-`, the
second its heading, then come the items, the current name, and a line below. An item is a letter for its kind, its name, its
size and its time. The last row but one tells of live jobs, the last one names the ten keys.

While a file is viewed the first row is its path, the last one names the viewer's keys, and all between is the page.
"""

KEY_BAR = "1Help  2Menu  3View  4Edit  5Copy  6RenMov7Mkdir 8Delete9PullDn10Quit  "
VIEWER_BAR = "1Help  2Wrap  3Quit  4Hex   5Goto  6      7Search8      9      10Quit  "


def cut(text, columns):
    """A text in so many columns: filled with blanks, or cut with a tilde (for text of one column a character)."""
    return text.ljust(columns) if len(text) <= columns else text[: columns - 1] + "~"


def path_line(path, columns):
    """A path in a line of so many columns: where it is wider, a tilde and as much of its end as fits."""
    return path if len(path) <= columns else "~" + path[len(path) - columns + 1 :]


# The heading of the columns; the first row of a folder that isn't the root; and a time that is told by its year.
HEADING = (" ", "Name", "Size   ", "Modify time ")
PARENT = ("/", "..", "UP--DIR", " " * 12)
LONG_AGO = 981158400
YEAR = "Feb  3  2001"


def file_row(name, size):
    """A file that may not be executed, and that was changed long ago."""
    return " ", name, f"{size:7}", YEAR


def row(inside, letter, name, size, time):
    """A row of a panel. The name has the columns that the letter, two bars, seven for the size and twelve for the time leave,
    and one at least; what doesn't fit then is cut off."""
    text = letter + cut(name, max(inside - 22, 1)) + "|" + size + "|" + time
    return text[:inside].ljust(inside)


def pane(lines, columns, folder, items, current):
    """The rows of a panel down to its lower edge."""
    inside = columns - 2
    title = folder if len(folder) <= inside else cut(folder, inside)
    shown = [row(inside, *item) for item in items[: lines - 6]]
    shown += [" " * inside] * (lines - 6 - len(shown))
    rows = ["+" + title.ljust(inside, "-") + "+", "|" + row(inside, *HEADING) + "|"]
    rows += ["|" + item + "|" for item in shown]
    return rows + ["|" + cut(current, inside) + "|", "+" + "-" * inside + "+"]


def frame(lines, columns, left, right, jobs=""):
    """The rows of the whole screen; each side is a folder, its items, and the current name."""
    half = columns // 2
    sides = zip(pane(lines, half, *left), pane(lines, columns - half, *right))
    return ["".join(side) for side in sides] + [jobs.ljust(columns), cut(KEY_BAR, columns)]


def page(lines, columns, title, text):
    """The rows of the screen while a file is viewed: its path, as many lines of text as there is room for, and the viewer's keys."""
    shown = [cut(line, columns) for line in text[: lines - 2]]
    shown += [" " * columns] * (lines - 2 - len(shown))
    return [cut(title, columns)] + shown + [cut(VIEWER_BAR, columns)]


def with_box(rows, box):
    """The same with the lines of a box over it, in the middle. A line that begins with a slash is a path."""
    lines, columns = len(rows), len(rows[0])
    inside = min(columns - 4, 60)
    edge = "+" + "-" * (inside + 2) + "+"
    fitted = [path_line(line, inside) if line.startswith("/") else line for line in box]
    painted = [edge] + ["| " + cut(line, inside) + " |" for line in fitted] + [edge]
    first = (lines - len(painted)) // 2
    start = (columns - inside - 4) // 2
    rows = list(rows)
    for number, line in enumerate(painted):
        row = rows[first + number]
        rows[first + number] = row[:start] + line + row[start + len(line) :]
    return rows


# Written out whole once, so that the functions above are compared with what a person sees: 10 lines of 40 columns, the folder
# `/f` with the files `a` and `b.txt` of three bytes in both panels, the cursor of the left one on the first row. A name has one
# column there, and of a time seven are left.
SMALL = [
    "+/f----------------++/f----------------+",
    "| ~|Size   |Modify || ~|Size   |Modify |",
    "|/~|UP--DIR|       ||/~|UP--DIR|       |",
    "| a|      3|Feb  3 || a|      3|Feb  3 |",
    "| ~|      3|Feb  3 || ~|      3|Feb  3 |",
    "|                  ||                  |",
    "|..                ||..                |",
    "+------------------++------------------+",
    "                                        ",
    "1Help  2Menu  3View  4Edit  5Copy  6Ren~",
]
SMALL_LOOKS = [
    "rrrrrrrrrrrrrrrrrrrr                    ",
    "                                        ",
    " rrrrrrrrrrrrrrrrrr                     ",
    "                                        ",
    "                                        ",
    "                                        ",
    "                                        ",
    "                                        ",
    "                                        ",
    "                                        ",
]

# The viewer in the same size, on `/f/v` of ten lines with a number each.
SMALL_PAGE = [
    "/f/v                                    ",
    "line 1                                  ",
    "line 2                                  ",
    "line 3                                  ",
    "line 4                                  ",
    "line 5                                  ",
    "line 6                                  ",
    "line 7                                  ",
    "line 8                                  ",
    "1Help  2Wrap  3Quit  4Hex   5Goto  6   ~",
]
