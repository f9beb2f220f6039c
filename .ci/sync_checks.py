"""Checks of what real files are given, call by call: each sync is there, before the renaming or the removal that it guards."""
import os
import re
import shutil
import subprocess

from several_checks import folder_with
from terminal_run import COPY, DOWN, ENTER, F10, F6, F8, run

MOVE = [DOWN, F6, ENTER, ENTER]
DELETE = [DOWN, F8, b"y"]
PART = ".mc.1.0.part"
# Calls that name an open file, and calls that name paths, with the words that they are told by.
OF_FILES = {"write": "write", "pwrite64": "write", "fsync": "sync", "fdatasync": "sync the bytes of", "syncfs": "sync the disk of"}
OF_PATHS = {
    "rename": "rename", "renameat": "rename", "renameat2": "rename", "unlink": "remove", "unlinkat": "remove", "rmdir": "remove",
    "mkdir": "make", "mkdirat": "make", "symlink": "link", "symlinkat": "link",
}


def whole_lines(log):
    """The calls of a log, each in one line; one that was cut by a call of another thread is put together where it ended."""
    begun = {}
    for line in log.splitlines():
        thread, _, call = line.partition(" ")
        call = call.strip()
        if call.endswith("<unfinished ...>"):
            begun[thread] = call.removesuffix("<unfinished ...>")
        elif call.startswith("<... "):
            yield begun.pop(thread, "") + call.partition(" resumed>")[2]
        else:
            yield call


def calls_in(log, base):
    """The calls in a folder that were done, in their order: a word and the paths from there. Writes in a row to one file are one."""
    told = []
    for line in whole_lines(log):
        met = re.match(r"(\w+)\((.*)\)\s+= \d", line)
        if met is None:
            continue
        name, words = met.groups()
        if name in OF_FILES:
            word, paths = OF_FILES[name], re.findall(r"^\d+<([^>]*)>", words)
        else:
            word, paths = OF_PATHS[name], re.findall(r'"([^"]*)"', words)
        paths = [os.path.relpath(path, base) for path in paths if path.startswith(base + "/")]
        call = " ".join([word] + paths)
        if paths and not (word == "write" and told[-1:] == [call]):
            told.append(call)
    return told


def can_trace():
    """Whether calls of programs can be told here."""
    if shutil.which("strace") is None:
        return False
    return subprocess.run(["strace", "-f", "-o", os.devnull, "true"], stderr=subprocess.DEVNULL).returncode == 0


def check_syncs(program, base, check):
    """A copy, an overwriting, a deletion and a move by keys, of files and of folders, each with all its calls that change or sync."""
    if not can_trace():
        print("no strace, or no leave to trace: whether each sync is there was not tried")
        return
    log = os.path.join(base, "calls")
    traced = ",".join([*OF_FILES, *OF_PATHS])
    base = os.path.join(os.path.realpath(base), "synced")
    os.mkdir(base)

    def calls(things, there, keys):
        """The calls of the keys in a folder with these things, where those are in the other panel's."""
        source, target = folder_with(base, "s", things), folder_with(base, "t", there)
        words = ["-f", "-y", "-s", "4096", "-e", f"trace={traced}", "-o", log, program, source, target]
        status, _, same = run(shutil.which("strace"), words, keys + [F10])
        with open(log, encoding="utf-8", errors="replace") as file:
            told = calls_in(file.read(), base)
        for folder in (source, target):
            shutil.rmtree(folder)
        return told if status == 0 and same else None

    def check_calls(what, things, there, keys, wanted):
        told = calls(things, there, keys)
        check(f"{what} is synced where it must be: {told}", told == wanted)

    placed = [f"write t/{PART}", f"sync t/{PART}", f"rename t/{PART} t/x", "sync t"]
    check_calls("a copy", {"x": 70000}, {}, COPY, placed)
    check_calls("an overwriting", {"x": 70000}, {"x": 3}, COPY + [b"y"], placed)
    check_calls("an empty file's copy", {"x": 0}, {}, COPY, placed[1:])
    within = [call.replace(" t", " t/d") for call in placed]
    check_calls("a folder's copy", {"d": {"x": 70000}}, {}, COPY, ["make t/d", "sync t"] + within)
    check_calls("a copy onto a folder", {"d": {"x": 70000}}, {"d": {}}, COPY, within)
    check_calls("a deletion", {"x": 3}, {}, DELETE, ["remove s/x", "sync s"])
    check_calls("a folder's deletion", {"d": {"x": 3}}, {}, DELETE, ["remove s/d/x", "remove s/d", "sync s"])
    moved = ["rename s/x t/x", "sync t", "sync s"]
    check_calls("a move", {"x": 3}, {}, MOVE, moved)
    check_calls("a move over a file", {"x": 3}, {"x": 5}, MOVE + [b"y"], moved)
    inner = [call.replace(" t", " t/d").replace(" s", " s/d") for call in moved]
    check_calls("a move onto a folder", {"d": {"x": 3}}, {"d": {}}, MOVE, inner + ["remove s/d", "sync s"])
    os.rmdir(base)
