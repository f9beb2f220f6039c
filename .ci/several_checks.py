"""Checks of jobs on several tagged things: they are worked one after another, by one job."""
import os
import stat

from frames import with_box
from terminal_run import DOWN, EMPTY, ENTER, F10, F5, F8, INSERT, MODE, make_file, run, things_at


def folder_with(base, name, things):
    """A new folder that holds these: a file of so many bytes, a link with this text, a folder with such things, or a pipe."""
    folder = os.path.join(base, name)
    os.mkdir(folder)
    for thing, what in things.items():
        path = os.path.join(folder, thing)
        if isinstance(what, int):
            make_file(path, what, 0o640)
        elif isinstance(what, str):
            os.symlink(what, path)
        elif isinstance(what, dict):
            folder_with(folder, thing, what)
        else:
            os.mkfifo(path)
    return folder


def check_several_copies(program, base, check):
    """Files, links and folders are copied together, by their names alone, or under the names that masks make."""
    source = folder_with(base, "several", {"d": {"x": 65537, "way": "x"}, "a.c": 3, "b.c": 0, "l": "nowhere"})
    before = things_at(source)[1]
    tag = [DOWN] + 4 * [INSERT]
    target = folder_with(base, "all of several", {})
    status, _, same = run(program, [source, target], tag + [F5, ENTER, ENTER, F10])
    check("all that is tagged is copied", status == 0 and same and things_at(target)[1] == before)
    check("and stays as it was", things_at(source)[1] == before)
    make_file(os.path.join(target, "a.c"), 9, 0o600)
    there = things_at(target)[1]
    status, told, same = run(program, [source, target], tag + [F5, ENTER, ENTER, b"o", F10])
    check("what is there is asked about where several are copied, and one answer keeps it all", status == 0 and same and b"Target exists" in told and things_at(target)[1] == there)
    status, told, _ = run(program, [source, target], tag + [F5, ENTER, ENTER, b"n", b"n", b"y", b"b", F10])
    check("each is asked about in turn, the link in the folder first", status == 0 and b"target is of another kind" not in told and things_at(target)[1] == before)

    target = folder_with(base, "some of several", {})
    status, _, _ = run(program, [source, target], tag + [F5, EMPTY + b"*.c", ENTER, EMPTY + b"../some of several/\\1.old", ENTER, F10])
    check("what doesn't match the mask is left out, the rest is named by it", status == 0 and things_at(target)[1] == {"a.old": before["a.c"], "b.old": before["b.c"]})

    target = folder_with(base, "none of several", {})
    status, told, _ = run(program, [source, target], tag + [F5, EMPTY + b"*.c", ENTER, EMPTY + b"../none of several/one\\9", ENTER, ENTER, F10, F10])
    refused = status == 0 and b"bad mask" in told
    status, told, _ = run(program, [source, target], tag + [F5, EMPTY + b"?.c", ENTER, EMPTY + b"../none of several/on\\0e\\0", ENTER, F10])
    named = sorted(os.listdir(target)) == ["ona.cea.c", "onb.ceb.c"]
    check("a mask that asks for what was not taken is refused, another names each", refused and named)
    target = folder_with(base, "two to one", {})
    status, told, _ = run(program, [source, target], tag + [F5, EMPTY + b"?.*", ENTER, EMPTY + b"../two to one/\\2", ENTER, ENTER, F10, F10])
    check("two files to one target are refused", status == 0 and b"two files, one target" in told and os.listdir(target) == [])


def check_skips_of_several(program, base, check):
    """What is skipped once and for all is not asked about again at a later thing, and an abort leaves the rest."""
    for keys, left in [([b"a"], ["f", "z"]), ([b"s", b"s"], ["f", "z"]), ([b"s", b"b"], ["f"]), ([b"b"], [])]:
        source = folder_with(base, "pipes", {"e": None, "f": 3, "g": None, "z": 5})
        target = folder_with(base, "no pipes", {})
        status, told, same = run(program, [source, target], [DOWN] + 4 * [INSERT] + [F5, ENTER, ENTER] + keys + [F10])
        what = " ".join(key.decode() for key in keys)
        check(f"pipes among tagged files are asked about, and {what} is done", status == 0 and same and b"special file" in told and sorted(os.listdir(target)) == left)
        for folder in (source, target):
            for name in os.listdir(folder):
                os.remove(os.path.join(folder, name))
            os.rmdir(folder)


def check_skips_past_a_question(program, base, check):
    """What is skipped once and for all is skipped, too, behind a file that is asked about."""
    source = folder_with(base, "between pipes", {"e": None, "f": 3, "g": None, "h": "f", "i": None})
    target = folder_with(base, "a question between", {"f": 5, "h": "e"})
    status, told, same = run(program, [source, target], [DOWN] + 5 * [INSERT] + [F5, ENTER, ENTER, b"a", b"y", b"n", F10])
    check("after `a` no pipe is asked about, before and behind a question", status == 0 and same and sorted(os.listdir(target)) == ["f", "h"])
    check("the file was replaced, and the link kept", os.lstat(os.path.join(target, "f")).st_size == 3 and os.readlink(os.path.join(target, "h")) == "e")


def check_several_things(program, base, check):
    """F5, F8 and C-x c on all that is tagged."""
    check_several_copies(program, base, check)
    check_skips_of_several(program, base, check)
    check_skips_past_a_question(program, base, check)

    folder = folder_with(base, "gone", {"d": {"x": 3, "y": {"z": 0}}, "a": 3, "b": 5, "l": "a"})
    tag = [DOWN, INSERT, INSERT, DOWN, INSERT]  # the folder, the first file and the link
    status, told, _ = run(program, [folder, base], tag + [F8, b"n", F10])
    before, asks = told.screens[5:7]
    check("F8 asks whether to delete so many things", asks.rows() == with_box(before.rows(), ["Delete 3 things?", "d and 2 more", "y Delete  g Background  n No"]))
    check("and `n` deletes none", status == 0 and sorted(os.listdir(folder)) == ["a", "b", "d", "l"])
    status, _, same = run(program, [folder, base], tag + [F8, b"y", F10])
    check("all that is tagged is deleted, and nothing else", status == 0 and same and os.listdir(folder) == ["b"])

    folder = folder_with(base, "given", {"d": {}, "a": 3, "b": 5})
    modes = lambda: [stat.S_IMODE(os.lstat(os.path.join(folder, name)).st_mode) for name in ("d", "a", "b")]
    status, _, same = run(program, [folder, base], [DOWN, INSERT, INSERT] + MODE + [b"0", b"7", b"0", b"0", ENTER, F10])
    check("all that is tagged is given the mode", status == 0 and same and modes() == [0o700, 0o700, 0o640])
