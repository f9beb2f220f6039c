"""A home of 5,000 things, and which of its rows a panel shows, worked out from the rules of listings.

A row stands for `..`, then come the folders and the links to them, then the rest, each group by name, or by size and then by name.
One name is not UTF-8: it is in no row, and is counted beside the current name.
"""
import os

from frames import LONG_AGO, YEAR

THINGS = 5000
NO_TEXT = b"caf\xe9"


class Thing:
    """What a row shows of a thing: the letter of its kind, its name and its size."""

    def __init__(self, letter, name, size):
        self.letter, self.name, self.size = letter, name, size

    def is_folder(self):
        return self.letter in "/~"


def make_thing(folder, number):
    """The thing of this number: hidden files, wide names, links to the folder `work`, links that lead nowhere, and files of few sizes."""
    kind, size = number % 10, number % 7 * 1000
    if kind in (2, 3):
        letter, name, target = [("~", f"to{number:04}", "work"), ("!", f"gone{number:04}", "nowhere")][kind - 2]
        os.symlink(target, os.path.join(folder, name))
        os.utime(os.path.join(folder, name), (LONG_AGO, LONG_AGO), follow_symlinks=False)
        return Thing(letter, name, len(target))
    name = {0: f".h{number:04}", 1: f"日本{number:04}"}.get(kind, f"f{number:04}")
    with open(os.path.join(folder, name), "wb") as file:
        file.truncate(size)
    os.utime(os.path.join(folder, name), (LONG_AGO, LONG_AGO))
    return Thing(" ", name, size)


def make_home(folder):
    """Makes the home, and answers what rows show of it."""
    work = os.path.join(folder, "work")
    os.makedirs(work)
    os.utime(work, (LONG_AGO, LONG_AGO))
    open(os.path.join(os.fsencode(folder), NO_TEXT), "w").close()
    things = [make_thing(folder, number) for number in range(THINGS - 2)]
    return [Thing("/", "work", os.stat(work).st_size)] + things


def fitted(text, columns):
    """A text in so many columns, where a character of the wide names has two."""
    return text + " " * (columns - len(text) - sum(character in "日本" for character in text))


def rows_of(things, by_size=False, reverse=False):
    """The rows of a panel of 38 columns: `..`, folders, and the rest."""
    key = lambda thing: (thing.size if by_size else 0, thing.name.encode())
    groups = [sorted((it for it in things if it.is_folder() == folders), key=key, reverse=reverse) for folders in (True, False)]
    rows = [f"{thing.letter}{fitted(thing.name, 16)}|{thing.size:7}|{YEAR}" for group in groups for thing in group]
    return ["/" + "..".ljust(16) + "|UP--DIR|" + " " * 12] + rows


def name_row(name):
    """The current name, with the number of names that no row shows."""
    count = " 1 unnamed"
    return fitted(name, 38 - len(count)) + count
