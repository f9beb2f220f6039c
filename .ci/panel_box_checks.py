"""Checks of what is set and tagged by the boxes of a panel, and of a big home."""
import os

from big_home import make_home, name_row, rows_of
from frames import LONG_AGO, with_box
from terminal_run import DOWN, EMPTY, END, ENTER, ESCAPE, F10, F9, HIDDEN, HOME, TAB, left_panel, make_file, run

OPTIONS = ["Listing full", "Listing brief", "Listing user", "Sort name", "Sort extension", "Sort size", "Sort time", "Unsorted",
           "Reverse", "Filter", "Shell patterns"]


def option(name):
    """The keys that choose an option: F9, the row of that name, Enter."""
    return F9 + DOWN * OPTIONS.index(name) + ENTER


def bold_names(screen):
    """The names in the left panel that are tagged."""
    rows = [(row[2:16].strip(), screen.looks(number + 1)[1:39]) for number, row in enumerate(screen.rows()[:20])]
    return [name for name, looks in rows if "b" in looks]


def names_in(screen):
    """The names in the left panel."""
    return [row[1:15].strip() for row in left_panel(screen)[1]]


def check_panel_boxes(program, base, check):
    """Names tagged by a pattern, another order, format and filter, all by boxes; hidden names, and two panels compared."""
    here, there = os.path.join(base, "bh"), os.path.join(base, "bt")
    os.makedirs(os.path.join(here, "z"))
    os.mkdir(there)
    for number, (name, size) in enumerate([("a.c", 3), ("n.h", 1), ("b.c", 2), (".hid", 4)]):
        for folder in (here, there):
            path = os.path.join(folder, name)
            make_file(path, size, 0o644)
            os.utime(path, (LONG_AGO + number, LONG_AGO + number))

    keys = [b"+", EMPTY + b"*.c", ENTER, b"*", b"-", ENTER, b"+", EMPTY + b"[a", ENTER, ENTER, ESCAPE]
    status, told, same = run(program, [here, there], keys + [F10])
    screens = told.screens
    check("boxes of patterns end well", status == 0 and same and len(screens) == len(keys) + 1)
    plain = screens[0].rows()
    check("`+` asks what to tag, with a star at first", screens[1].rows() == with_box(plain, ["Select", "*"]))
    check("a pattern tags what it finds", bold_names(screens[3]) == ["a.c", "b.c"] and screens[3].rows() == plain)
    check("and `*` turns the tags round", bold_names(screens[4]) == [".hid", "n.h"])
    check("`-` asks what not to tag", screens[5].rows() == with_box(plain, ["Unselect", "*"]))
    check("and all tags are gone", bold_names(screens[6]) == [])
    below = with_box(plain, ["Select", "[a"])
    check("what is no pattern is refused, over its box", screens[9].rows() == with_box(below, ["bad pattern"]))
    check("where it can be mended", screens[10].rows() == below and screens[11].rows() == plain)

    keys = [F9, ESCAPE, option("Sort time"), option("Reverse"), option("Sort size"), option("Reverse")]
    _, told, _ = run(program, [here, there], keys + [F10])
    screens = told.screens
    check("F9 lists the options", screens[1].rows() == with_box(plain, ["Options"] + OPTIONS))
    check("the panel can be sorted by time", names_in(screens[3]) == ["..", "z", "a.c", "n.h", "b.c", ".hid"])
    check("and the order turned round", names_in(screens[4]) == ["..", "z", ".hid", "b.c", "n.h", "a.c"])
    check("which stays with another order", names_in(screens[5]) == ["..", "z", ".hid", "a.c", "b.c", "n.h"])
    check("until it is turned back", names_in(screens[6]) == ["..", "z", "n.h", "b.c", "a.c", ".hid"])

    keys = [option("Listing user"), EMPTY + b"half nam", ENTER, ENTER, EMPTY + b"half perm | name", ENTER]
    keys += [option("Listing brief"), option("Listing user"), ESCAPE, option("Listing full")]
    _, told, _ = run(program, [here, there], keys + [F10])
    screens = told.screens
    check("the format is asked for", screens[1].rows() == with_box(plain, ["Format", "half type name | size | mtime"]))
    below = with_box(plain, ["Format", "half nam"])
    check("one at fault is refused with its position", screens[3].rows() == with_box(below, ["position 5 is wrong"]))
    rows = left_panel(screens[6])[1]
    check("a format of the user's is shown", rows[1:3] == ["drwxr-xr-x|z", "-rw-r--r--|.hid"])
    check("brief shows names alone", left_panel(screens[7])[1][1].startswith("/z"))
    check("and the format is kept", "half perm | name" in screens[8].rows()[12])
    check("the full one comes back", screens[10].rows() == plain)

    keys = [option("Filter"), b"*.c", ENTER, option("Filter"), EMPTY, ENTER]
    _, told, _ = run(program, [here, there], keys + [F10])
    screens = told.screens
    check("the filter is asked for", screens[1].rows() == with_box(plain, ["Filter", ""]))
    check("it leaves the folders and what it finds", names_in(screens[3]) == ["..", "z", "a.c", "b.c"])
    check("its text is kept", screens[4].rows() == with_box(screens[3].rows(), ["Filter", "*.c"]))
    check("and an empty one takes it away", screens[6].rows() == plain)

    keys = [option("Shell patterns"), b"+", EMPTY + b"^[ab]", ENTER, option("Shell patterns"), b"\\", ENTER]
    _, told, _ = run(program, [here, there], keys + [F10])
    check("regular expressions tag too", bold_names(told.screens[4]) == ["a.c", "b.c"])
    check("and shell patterns come back", bold_names(told.screens[7]) == [])

    _, told, _ = run(program, [here, there], [HIDDEN, HIDDEN, F10])
    screens = told.screens
    right = lambda screen: [row[41:79] for row in screen.rows()]
    check("M-. shows hidden names in no panel", names_in(screens[1]) == ["..", "z", "a.c", "b.c", "n.h"] and not any(".hid" in row for row in right(screens[1])))
    check("and again in both", screens[2].rows() == plain)

    make_file(os.path.join(there, "a.c"), 5, 0o644)
    os.utime(os.path.join(there, "a.c"), (LONG_AGO, LONG_AGO))
    os.utime(os.path.join(there, "n.h"), (LONG_AGO + 9, LONG_AGO + 9))
    os.remove(os.path.join(there, "b.c"))
    _, told, _ = run(program, [here, there], [b"\x18", b"d", b"\x18", b"*", TAB, b"\x18\x18", b"d", F10])
    screens = told.screens
    right_bold = lambda screen: [row[42:55].strip() for number, row in enumerate(screen.rows()[:20]) if "b" in screen.looks(number + 1)[41:79]]
    check("nothing is to be seen of C-x", screens[1].rows() == plain or screens[1].rows() == screens[0].rows())
    check("C-x d tags what differs in both panels", bold_names(screens[2]) == ["a.c", "b.c"] and right_bold(screens[2]) == ["a.c", "n.h"])
    check("behind C-x another key does nothing", bold_names(screens[4]) == bold_names(screens[2]))


def check_big_home(program, base, check):
    """A home of 5,000 hidden, wide and linked names, and one that is not UTF-8: both ends of its list, in several orders."""
    folder = os.path.join(base, "home")
    things = make_home(folder)
    plain = lambda thing: not thing.name.startswith(".")
    ends_in_5 = lambda thing: thing.is_folder() or thing.name.endswith("5")
    keys = [END, option("Sort size") + HOME, END, option("Reverse") + HOME, END, option("Reverse") + option("Sort name") + HIDDEN + HOME, END]
    keys += [HIDDEN + option("Filter") + b"*5" + ENTER + HOME, END]
    wanted = [("by name", rows_of(things)), ("by size", rows_of(things, by_size=True)), ("by size reversed", rows_of(things, by_size=True, reverse=True))]
    wanted += [("without hidden names", rows_of(list(filter(plain, things)))), ("filtered", rows_of(list(filter(ends_in_5, things))))]
    status, told, same = run(program, [folder, base], keys + [F10])
    check("the panel of a big home ends well", status == 0 and same and len(told.screens) == len(keys) + 1)
    shown = [["".join(text for text, _ in cells[1:39]) for cells in screen.cells[2:21]] for screen in told.screens]
    shown += [[]] * (len(keys) + 1 - len(shown))
    for at, (order, rows) in enumerate(wanted):
        check(f"a big home {order}: the first rows", shown[2 * at] == rows[:18] + [name_row("..")])
        check(f"a big home {order}: the last rows", shown[2 * at + 1] == rows[-18:] + [name_row(rows[-1][1:].split("|")[0].strip())])
