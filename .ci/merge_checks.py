"""Checks of folders that are copied onto folders: they are merged, and each file or link that is there already is asked about."""
import os
import time

from several_checks import folder_with
from terminal_run import DOWN, ENTER, F10, F5, F8, INSERT, make_file, run, things_at

FOLDERS, FILES = 8, 25
MODES = [0o755, 0o644, 0o600, 0o444, 0o750, 0o640]
OLD, NEW = 1_000_000_000, int(time.time()) + 100_000


def put(path, text, second, mode=None):
    """A file with this text, last changed at this second."""
    if os.path.exists(path):
        mode = os.lstat(path).st_mode & 0o7777
        os.chmod(path, 0o600)
    with open(path, "w") as file:
        file.write(text)
    os.chmod(path, mode)
    os.utime(path, (second, second))


def files_in(top):
    """The path of each file below a folder, from there, in the order of names."""
    found = [os.path.relpath(os.path.join(folder, name), top) for folder, _, names in os.walk(top) for name in names]
    return sorted(path for path in found if not os.path.islink(os.path.join(top, path)))


def texts_in(top):
    return {path: open(os.path.join(top, path)).read() for path in files_in(top)}


def tree_of_files(top):
    """200 files in folders, with links, modes from 000 on and wide names."""
    os.mkdir(top)
    modes = MODES + ([0o000] if os.geteuid() == 0 else [])
    for number in range(FOLDERS):
        folder = os.path.join(top, f"{'資料' if number % 2 else 'd'}{number}")
        os.makedirs(os.path.join(folder, "in"))
        for place in range(FILES):
            inner = "in" if place % 5 == 4 else ""
            name = f"文書{place:02}" if place % 7 == 3 else f"f{place:02}"
            put(os.path.join(folder, inner, name), f"{number} {place}", OLD, modes[(number + place) % len(modes)])
        os.symlink("f00", os.path.join(folder, "way"))
    for number, mode in enumerate([0o755, 0o700, 0o555]):
        os.chmod(os.path.join(top, sorted(os.listdir(top))[number]), mode)


def change(top, text):
    """Each third file gets another size and is newer, each third is newer with as many bytes, the others are older with as many. Says which are which."""
    grown, newer, older = [], [], []
    for number, path in enumerate(files_in(top)):
        was = open(os.path.join(top, path)).read()
        kind = [grown, newer, older][number % 3]
        kind.append(path)
        new = was + text if kind is grown else text[0] + was[1:]
        put(os.path.join(top, path), new, OLD - 100 if kind is older else NEW)
    return grown, newer, older


def point(path, text, second):
    """A link that says this, last changed at this second."""
    os.remove(path)
    os.symlink(text, path)
    os.utime(path, (second, second), follow_symlinks=False)


def check_tree_over_itself(program, base, check):
    """A tree is copied, and copied again over itself under each answer for all, and deleted."""
    source, target = os.path.join(base, "whole"), folder_with(base, "onto", {})
    os.mkdir(source)
    top, copy = os.path.join(source, "tree"), os.path.join(target, "tree")
    tree_of_files(top)
    status, _, same = run(program, [source, target], [DOWN, F5, ENTER, ENTER, F10], patience=180)
    check("a tree of 200 files is copied", status == 0 and same and len(files_in(copy)) == FOLDERS * FILES and things_at(copy) == things_at(top))

    os.chmod(os.path.join(copy, "d0"), 0o711)
    put(os.path.join(copy, "d0", "own"), "own", OLD, 0o600)
    # For each letter what a link says now, when it was changed, and what the one at its target says afterwards.
    links = {"a": ("f01", OLD, "f01"), "u": ("f02", NEW + 100, "f02"), "o": ("in/f04", NEW + 100, "f02"), "s": ("in/f04", OLD, "in/f04")}
    for letter in "auos":
        before = texts_in(copy)
        grown, newer, older = change(top, letter * 3)
        says, second, says_then = links[letter]
        point(os.path.join(top, "d0", "way"), says, second)
        taken = {"a": grown + newer + older, "u": grown + newer, "o": [], "s": [path for path in files_in(top) if len(before[path]) != len(texts_in(top)[path])]}[letter]
        status, told, same = run(program, [source, target], [DOWN, F5, ENTER, ENTER, letter.encode(), F10], patience=180)
        now, given = texts_in(copy), texts_in(top)
        check(f"a tree is merged with itself, and {letter} asks no more", status == 0 and same and b"Target exists" in told and b"target is of another kind" not in told)
        check(f"{letter} replaces just what it is to", all(now[path] == (given if path in taken else before)[path] for path in given))
        check(f"{letter} replaces a link as it does a file", os.readlink(os.path.join(copy, "d0", "way")) == says_then)
        check(f"nothing else is changed by {letter}", now["d0/own"] == "own" and os.lstat(os.path.join(copy, "d0")).st_mode & 0o7777 == 0o711)
        check(f"no part is left by {letter}", sorted(now) == sorted([*given, "d0/own"]))
    status, _, same = run(program, [target, source], [DOWN, F8, b"y", F10])
    check("the tree is deleted", status == 0 and same and os.listdir(target) == [])


def check_merged_folders(program, base, check):
    """What a merge asks about, and what it doesn't."""
    check_tree_over_itself(program, base, check)

    source = folder_with(base, "merged", {"d": {"a": 3, "e": {"b": 5}}, "f": 7})
    target = folder_with(base, "into", {"d": {"a": 9, "e": {"c": 1}}, "f": 2})
    there = os.path.join(target, "d", "a")
    tag = [DOWN, INSERT, INSERT]
    status, told, same = run(program, [source, target], tag + [F5, ENTER, ENTER, b"n", b"y", F10])
    box = ["Target exists", there[:60], "source 3 bytes, target 9 bytes"]
    check("a folder onto a folder isn't asked about, a file in it is", status == 0 and same and all(any(line in row for row in told.screens[6].rows()) for line in box))
    sizes = {path: os.lstat(os.path.join(target, path)).st_size for path in files_in(target)}
    check("what is answered holds for that file, and for one that is tagged beside the folder", sizes == {"d/a": 9, "d/e/b": 5, "d/e/c": 1, "f": 7})

    source = folder_with(base, "one kind", {"d": {"x": {"y": 3}, "z": 4}})
    target = folder_with(base, "another", {"d": {"x": 5}})
    status, told, _ = run(program, [source, target], [DOWN, F5, ENTER, ENTER, b"s", F10])
    left = things_at(target)[1]["d"][1]
    check("a folder doesn't replace a file, and what comes after it is copied", status == 0 and b"target is of another kind" in told and sorted(left) == ["x", "z"] and len(left["x"][0]) == 5)
