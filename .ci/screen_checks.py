"""Checks of what stands on the screen: frames, the viewer, searches and the panels."""
import os
import shutil

from frames import LONG_AGO, PARENT, SMALL, SMALL_LOOKS, SMALL_PAGE, file_row, frame, page, with_box
from terminal_run import (
    AGAIN, BACK, DOWN, EMPTY, END, ENTER, ESCAPE, F1, F10, F3, F5, F7, F8, FIND, FORWARD, HELP, HOME, INSERT,
    SWAP, TAB, UP, USAGE, left_panel, make_file, run, screens_of, start,
)


def half_reverse(rows, row, columns):
    """How the cells look where the left panel is current, with the cursor in this row."""
    half = columns // 2
    looks = [" " * columns] * rows
    looks[0] = "r" * half + " " * (columns - half)
    looks[row - 1] = " " + "r" * (half - 2) + " " * (columns - half + 1)
    return looks


def check_frames(program, base, check):
    """What stands on the screen, at three sizes of a terminal, started without words in a folder."""
    folder = os.path.join(base, "f")
    os.mkdir(folder)
    for name in ("a", "b.txt"):
        make_file(os.path.join(folder, name), 3, 0o644)
    items = [PARENT, file_row("a", 3), file_row("b.txt", 3)]
    check("the frame of ten lines is as written out", frame(10, 40, ("/f", items, ".."), ("/f", items, "..")) == SMALL)
    check("and so are its looks", half_reverse(10, 3, 40) == SMALL_LOOKS)

    def wanted(size, current):
        return frame(*size, (folder, items, current), (folder, items, ".."))

    for size in [(24, 80), (50, 132), (10, 40)]:
        what = f"on {size[0]} lines of {size[1]} columns"
        status, screens, same = screens_of(program, [], [DOWN, F8, ESCAPE, F5, ESCAPE], size, inside=folder)
        check(f"{what} it starts without words, and ends", status == 0 and same and len(screens) == 6)
        opening, moved, asks, shut, mask, _ = screens + [None] * (6 - len(screens))
        looks = lambda screen: [screen.looks(row + 1) for row in range(size[0])]
        check(f"{what} the opening frame stands", opening.rows() == wanted(size, "..") and looks(opening) == half_reverse(size[0], 3, size[1]))
        check(f"{what} Down moves the cursor", moved.rows() == wanted(size, "a") and looks(moved) == half_reverse(size[0], 4, size[1]))
        box = ["Delete 1 things?", "a", "y Delete  g Background  n No"]
        check(f"{what} F8 asks", asks.rows() == with_box(wanted(size, "a"), box))
        check(f"{what} Escape shuts the box", shut.rows() == moved.rows() and looks(shut) == looks(moved))
        check(f"{what} F5 asks for the mask", mask.rows() == with_box(wanted(size, "a"), ["Source mask for a", "*"]))
        check(f"{what} all that is written is read", all(not screen.unread for screen in screens))

    for surroundings, size in [({"LINES": "9", "COLUMNS": "80"}, (24, 80)), ({"LINES": "10", "COLUMNS": "40"}, (10, 40))]:
        _, screens, _ = screens_of(program, [], [], size, inside=folder, surroundings=surroundings)
        check(f"{surroundings} is {size[0]} lines", screens[0].rows() == wanted(size, ".."))

    _, told, _ = run(program, [folder], [F1, ENTER, F10])
    opening, help_shown, shut = (screen.rows() for screen in told.screens[:3])
    check("F1 shows the help, each line whole", help_shown == with_box(opening, HELP) and shut == opening)

    check_cursor(program, base, check)


def check_cursor(program, base, check):
    """The cursor's keys in a folder of more names than a panel has lines, and what they put."""
    folder = os.path.join(base, "many")
    os.mkdir(folder)
    names = [f"{number:02}" for number in range(40)]
    for name in names:
        make_file(os.path.join(folder, name), 0, 0o644)
    items = [PARENT] + [file_row(name, 0) for name in names]
    size = (24, 80)
    _, told, _ = run(program, [folder, base], [END, UP, TAB, TAB, F10], size)
    opening, end, up, other, back = told.screens[:5]
    left = lambda screen: [row[:40] for row in screen.rows()[:22]]
    pane = lambda first, current: [row[:40] for row in frame(*size, (folder, items[first:], current), (folder, [], ""))[:22]]
    check("the first names are shown", left(opening) == pane(0, ".."))
    check("End shows the last ones", left(end) == pane(len(items) - 18, "39"))
    check("Up moves the cursor alone", left(up) == pane(len(items) - 18, "38"))
    title = lambda screen: screen.looks(1)
    check("Tab makes the other panel current", title(other) == " " * 40 + "r" * 40 and title(back) == title(up))

    _, told, _ = run(program, [folder], [DOWN, DOWN, b"x", b"\x1b[", b"B", F10], size)
    _, first, second, nothing, begun, third = (after - before for before, after in zip([0] + told.counts, told.counts))
    check("Down puts at most 200 bytes", all(0 < count <= 200 for count in (first, second, third)))
    check("a key that changes nothing puts none, and neither does half a key", nothing == 0 and begun == 0)


def check_viewer(program, base, check):
    """F3 on real files, and the viewer alone by `-v`: what stands on the screen after each key."""
    folder = os.path.join(base, "viewed")
    os.makedirs(os.path.join(folder, "in"))
    path, text = os.path.join(folder, "v"), [f"line {number}" for number in range(1, 101)]
    with open(path, "w") as file:
        file.write("".join(line + "\n" for line in text))
    os.symlink("v", os.path.join(folder, "w"))
    os.symlink("nowhere", os.path.join(folder, "x"))
    check("the page of ten lines is as written out", page(10, 40, "/f/v", text[:10]) == SMALL_PAGE)
    size = (24, 80)
    wanted = lambda first: page(*size, path, text[first:])
    title = lambda screen: screen.looks(1) == "r" * 80 and all(not screen.looks(row).strip() for row in range(2, 25))

    found = [F3, END, HOME, F7, b"6", b"6", ENTER, b"q", F10]
    status, told, same = run(program, [folder, base], [DOWN, DOWN] + found, size)
    before, first, end, home, asks, _, typed, searched, left, *_ = told.screens[2:] + [None] * 9
    check("F3 shows the first page", status == 0 and same and first.rows() == wanted(0) and title(first))
    check("End shows the last one", end.rows() == wanted(78) and home.rows() == wanted(0))
    check("F7 asks for a text", asks.rows() == with_box(wanted(0), ["Search", ""]) and typed.rows() == with_box(wanted(0), ["Search", "66"]))
    check("what is found becomes the first row", searched.rows() == wanted(65) and title(searched))
    check("q comes back to the panels, and the cursor stands where it stood", left.rows() == before.rows() and left.looks(5) == before.looks(5))
    check("all that is written is read", all(not screen.unread for screen in told.screens))

    status, told, _ = run(program, [folder, base], [DOWN, F3, F10], size)
    check("F3 on a folder enters it", status == 0 and left_panel(told.screens[2])[0] == os.path.join(folder, "in"))
    status, told, _ = run(program, [folder, base], [DOWN, DOWN, DOWN, F3, F10, F10], size)
    check("F3 follows a link", status == 0 and told.screens[4].rows() == wanted(0))
    status, told, _ = run(program, [folder, base], [END, F3, ENTER, F10], size)
    box = ["no such file or folder", os.path.join(folder, "nowhere")]
    opening = told.screens[1].rows()
    check("F3 on a link to nothing tells why", status == 0 and told.screens[2].rows() == with_box(opening, box) and told.screens[3].rows() == opening)

    for words, inside in [(["-v", path], base), (["-v", "v"], folder), (["-v", "w"], folder), (["-v../viewed/v"], folder)]:
        status, told, same = run(program, words, [DOWN, b"q", DOWN], size, inside=inside)
        check(f"{words} shows the file alone, and q ends", status == 0 and same and [screen.rows() for screen in told.screens[:2]] == [wanted(0), wanted(1)])
        check(f"{words} shows no panel", b"UP--DIR" not in told and b"Menu" not in told)
    status, told, same = run(program, ["-v", path], [b"\x1bOQ", F10], (10, 40), inside=folder)
    check("-v ends by F10, on a small screen too", status == 0 and same and told.screens[0].rows() == page(10, 40, path, text))
    for words, line in [
        (["-v", "/nowhere"], b"mc: /nowhere: no such file or folder"),
        (["-v", "nowhere"], b"mc: nowhere: no such file or folder"),
        (["-v", "x"], b"mc: x: no such file or folder"),
        (["-v", "in"], b"mc: in: is a folder"),
        (["-v", "v/y"], b"mc: v/y: not a folder"),
        (["-v", "/dev/null"], b"mc: /dev/null: special file"),
    ]:
        status, told, same = run(program, words, [], inside=folder)
        check(f"{words} is refused in its line", status == 2 and same and told.written.startswith(line) and b"\x1b[" not in told.written)
    for words in (["-v", "v", folder], ["-v", "v", "-e", "v"], ["-v"], ["-v", "v", "-P", "v"]):
        status, told, same = run(program, words, [], inside=folder)
        check(f"{words} are no words of the profile, or not built", status == 1 and same and told.written == USAGE + b"\r\n")


def check_find(program, base, check):
    """M-? on real files: the lines that ask, the list of what is found, and the panel behind it."""
    folder = os.path.join(base, "sought")
    deep, many = os.path.join(folder, "in", "deep"), os.path.join(base, "numbered")
    os.makedirs(deep)
    os.mkdir(many)
    for name, text in [("a.c", "one\n"), ("in/b.c", "a needle\n"), ("in/deep/needle", "two\n")]:
        with open(os.path.join(folder, name), "w") as file:
            file.write(text)
        os.utime(os.path.join(folder, name), (LONG_AGO, LONG_AGO))
    numbered = [f"{number:03}" for number in range(250)]
    for name in numbered:
        open(os.path.join(many, name), "w").close()
    crowd = [os.path.join(base, "crowd", f"{number:03}") for number in range(600)]
    os.mkdir(os.path.join(base, "crowd"))
    for path in crowd:
        open(path, "w").close()
    below = [os.path.join(folder, name) for name in ("a.c", "in", "in/b.c", "in/deep", "in/deep/needle")]
    size = (24, 80)

    status, told, same = run(program, [folder, deep], [FIND, ENTER, ENTER, ENTER, END, ENTER, F10], size)
    opened, start, names, content, found, _, went, *_ = [screen.rows() for screen in told.screens] + [None] * 7
    check("M-? asks where to start", status == 0 and same and start == with_box(opened, ["Find from", "."]))
    check("then it asks for names and a content", names == with_box(opened, ["Name pattern", "*"]) and content == with_box(opened, ["Content", ""]))
    check("each path below is listed once", found == with_box(opened, ["Found 5"] + below))
    inside = [PARENT, file_row("needle", 4)]
    check("Enter goes to the path's folder, the cursor on its name", went == frame(*size, (deep, inside, "needle"), (deep, inside, "..")))
    twin = "in/" + "deep-" * 14
    os.makedirs(os.path.join(folder, twin))
    for name in ("one", "other"):
        open(os.path.join(folder, twin, name), "w").close()
    status, deeper, _ = run(program, [folder, deep], [FIND, ENTER, EMPTY + b"o*", ENTER, ENTER, F10, F10], size)
    opened, *_, listed, _ = [screen.rows() for screen in deeper.screens]
    check("two files deep in one folder differ in the list", listed == with_box(opened, ["Found 2"] + [os.path.join(folder, twin, name) for name in ("one", "other")]))
    shutil.rmtree(os.path.join(folder, twin))
    check("the current path is in reverse", told.screens[4].looks(11)[10:70] == "r" * 60)

    status, told, _ = run(program, [folder, deep], [FIND, ENTER, EMPTY + b"*.c", ENTER, b"needle", ENTER, b"\x03", ESCAPE, F10], size)
    opened, *_, found, stopped, left = [screen.rows() for screen in told.screens]
    check("a content is sought in the files of a name", status == 0 and found == with_box(opened, ["Found 1", below[2]]))
    check("a search that has ended stays as it is, and Escape leaves it", stopped == found and left == opened)

    status, told, _ = run(program, [folder, deep], [FIND, EMPTY + b"none", ENTER, ENTER, F10, F10], size)
    opened, _, typed, refused, again, left = [screen.rows() for screen in told.screens]
    check("a start to which no way leads is refused", refused == with_box(typed, ["no such file or folder", os.path.join(folder, "none")]))
    check("and can be mended", status == 0 and typed == again == with_box(opened, ["Find from", "none"]) and left == opened)

    status, told, _ = run(program, [folder, deep], [FIND, ENTER, EMPTY + b"[", ENTER, ENTER, F10, F10], size)
    typed, refused, again = [screen.rows() for screen in told.screens[3:6]]
    check("a text that is no pattern is refused", status == 0 and refused == with_box(typed, ["bad pattern"]) and again == typed)

    status, told, _ = run(program, [folder, deep], [FIND, EMPTY + b"../numbered", ENTER, ENTER, ENTER, F10, F10], size)
    opened, *_, found, left = [screen.rows() for screen in told.screens]
    check("a page of many paths is shown", status == 0 and found == with_box(opened, ["Found 250"] + [os.path.join(many, name) for name in numbered[:18]]) and left == opened)

    # The search makes two steps for each thing, and asks after a thousand whether C-c waits.
    sought = [FIND, EMPTY + b"../crowd", ENTER, ENTER]
    status, told, _ = run(program, [folder, deep], sought + [ENTER + b"\x03", END, F10, F10], size)
    opened, *_, found, last, left = [screen.rows() for screen in told.screens]
    check("C-c stops a search, and what was found stays", status == 0 and found == with_box(opened, ["Found 500, stopped"] + crowd[:18]) and left == opened)
    check("a stopped list is a list as any", last == with_box(opened, ["Found 500, stopped"] + crowd[482:500]))
    status, told, _ = run(program, [folder, deep], sought + [ENTER + DOWN + b"\x03", F10, F10], size)
    opened, *_, found, left = [screen.rows() for screen in told.screens]
    check("behind another key C-c waits for the end of the search", status == 0 and found == with_box(opened, ["Found 600"] + crowd[:18]) and left == opened)

    status, told, _ = run(program, [folder, base], [FIND, EMPTY + b"a.c", ENTER, ENTER, ENTER, ENTER, F10], size)
    opened, *_, found, left = [screen.rows() for screen in told.screens]
    check("a start that is no folder is skipped", status == 0 and found == with_box(opened, ["Found 0, skipped 1"]) and left == opened)

    gone = lambda _: shutil.rmtree(deep)
    status, told, _ = run(program, [folder, base], [FIND, ENTER, EMPTY + b"needle", ENTER, ENTER, gone, ENTER, ENTER, F10, F10], size)
    opened, *_, found, _, refused, again, left = [screen.rows() for screen in told.screens]
    check("a folder that went since is told", found == with_box(opened, ["Found 1", below[4]]) and refused == with_box(found, ["no such file or folder", deep]))
    check("and the list stands as before", status == 0 and again == found and left == opened)


def check_panels(program, base, check):
    """Through folders and back, tags, and a folder that can't be entered."""
    top = os.path.join(base, "w")
    os.makedirs(os.path.join(top, "one", "two", "three"))
    make_file(os.path.join(top, "one", "two", "f"), 3, 0o644)
    os.symlink("one/two", os.path.join(top, "to"))
    os.symlink("round", os.path.join(top, "round"))
    path = lambda *names: os.path.join(top, *names)

    keys = [DOWN, ENTER, DOWN, ENTER, DOWN, ENTER, ENTER, HOME, ENTER, HOME, ENTER, BACK, BACK, FORWARD]
    status, told, same = run(program, [top, base], keys + [F10])
    seen = [left_panel(screen) for screen in told.screens]
    check("a walk through folders ends well", status == 0 and same and len(seen) == len(keys) + 1)
    seen += [("", [], "")] * (len(keys) + 1 - len(seen))
    places = [(folder, current) for folder, _, current in seen]
    check("Enter goes down three folders", [places[2], places[4], places[6]] == [(path("one"), ".."), (path("one", "two"), ".."), (path("one", "two", "three"), "..")])
    up = [(path("one", "two"), "three"), (path("one"), "two"), (top, "one")]
    check("and up again, onto the folder that was left", [places[7], places[9], places[11]] == up)
    check("M-y goes back, M-u forward", [folder for folder, _ in places[12:]] == [path("one"), path("one", "two"), path("one")])

    _, told, _ = run(program, [top, base], [DOWN, DOWN, ENTER, HOME, ENTER, F10])
    along = left_panel(told.screens[3])
    check("a link to a folder is entered", along[0] == path("one", "two") and [row[1:3] for row in along[1]] == ["..", "th", "f "])
    check("and `..` leads to the folder above", left_panel(told.screens[5])[0] == path("one"))
    rows = left_panel(told.screens[0])[1]
    check("folders come first, and links to them are among them", [row[0] for row in rows] == ["/", "/", "~", "!"])

    for word, names in [("to", ["one", "two"]), ("one/../to/three", ["one", "two", "three"])]:
        _, told, _ = run(program, [path(word), base], [F10])
        check(f"a start path leads along links: {word}", left_panel(told.screens[0])[0] == path(*names))
    status, told, same = run(program, [path("round"), base], [])
    check("a link to itself is refused at the start", status == 2 and f"mc: {path('round')}: too many links".encode() in told and same)

    inside = path("one", "two")
    make_file(os.path.join(inside, "g"), 3, 0o644)
    remove = lambda _: os.remove(os.path.join(inside, "g"))
    _, told, _ = run(program, [inside, base], [END, UP, INSERT, remove, AGAIN, UP, SWAP, F10])
    look = lambda screen, name: next(screen.looks(row + 1) for row in range(24) if screen.rows()[row][2:4] == name)
    tagged, kept, swapped = told.screens[3], told.screens[6], told.screens[7]
    check("Insert tags a name and moves down", "b" in look(tagged, "f ") and left_panel(tagged)[2] == "g")
    check("C-r reads the folder again, and keeps the tag", len(left_panel(kept)[1]) == 3 and "b" in look(kept, "f "))
    check("C-u swaps the panels", left_panel(swapped)[0] == base and swapped.rows()[0][41:].startswith(inside))
    make_file(os.path.join(inside, "g"), 3, 0o644)
    status, _, _ = run(program, [inside, base], [END, INSERT, UP, F8, ENTER, F10])
    check("the tagged name is deleted, and not the current one", status == 0 and sorted(os.listdir(inside)) == ["f", "three"])
