"""Checks of jobs by keys: copies, new folders, links, modes and deletions, with the files looked at afterwards."""
import os
import shutil
import stat
import subprocess

from frames import with_box
from terminal_run import (
    COPY, DOWN, EMPTY, END, ENTER, ESCAPE, F10, F5, F7, F8, INSERT, LINK, MODE, TAB, UP, facts, for_somebody,
    left_panel, make_file, run, things_at,
)


def check_copies(program, base, check):
    """Copies by keys on real files."""
    for size, mode in [(0, 0o640), (65536, 0o644), (65537, 0o640), (5, 0o444)]:
        source, target = (os.path.join(base, f"{side}{size}") for side in "st")
        os.mkdir(source)
        os.mkdir(target)
        make_file(os.path.join(source, "x"), size, mode)
        before = facts(os.path.join(source, "x"))
        status, _, same = run(program, [source, target], COPY + [F10])
        what = f"a file of {size} bytes and mode {mode:o}"
        check(f"{what} is copied", status == 0 and same and facts(os.path.join(target, "x")) == before)
        check(f"{what} stays, and no part does", facts(os.path.join(source, "x")) == before and os.listdir(target) == ["x"])

    source, target = os.path.join(base, "s"), os.path.join(base, "t")
    os.mkdir(source)
    os.mkdir(target)
    make_file(os.path.join(source, "x"), 9, 0o640)
    make_file(os.path.join(target, "x"), 3, 0o600)
    status, told, _ = run(program, [source, source], COPY + [ENTER, F10, F10])
    check("no file is copied onto itself", status == 0 and os.listdir(source) == ["x"] and b"same file" in told)
    beside = os.path.join(source, "x.x")
    status, _, _ = run(program, [source, target], [DOWN, F5, EMPTY + b"?*", ENTER, EMPTY + b"\\0.\\1", ENTER, F10])
    check("a copy comes beside its file under the name that masks make", status == 0 and facts(beside) == facts(os.path.join(source, "x")))
    os.remove(beside)
    for mask, words in [(b"*.c", "nothing selected"), (b"[", "bad mask")]:
        status, told, _ = run(program, [source, target], [DOWN, F5, EMPTY + mask, ENTER, ENTER, ENTER, F10, F10])
        asked, refused, again, left = [screen.rows() for screen in told.screens[4:8]]
        check(f"the source mask {mask.decode()} is refused", status == 0 and refused == with_box(asked, [words]))
        check("and the destination is asked for again", again == asked and left == told.screens[1].rows())

    os.remove(os.path.join(target, "x"))
    make_file(os.path.join(source, "x"), 100000, 0o640)
    status, told, _ = run(program, [source, target], COPY + [b"s", F10], largest=70000)
    check("a file that can't be written is skipped", status == 0 and os.listdir(target) == [] and b"r Retry  s Skip" in told)
    status, _, _ = run(program, [source, target], COPY + [b"b", F10], largest=70000)
    check("its copy can be aborted", status == 0 and os.listdir(target) == [])
    status, _, _ = run(program, [source, target], COPY + [F10, F10], largest=70000)
    check("its box can be shut, and the end aborts", status == 0 and os.listdir(target) == [])

    taken = [f".mc.1.{number}.part" for number in range(1000)]
    for name in taken:
        make_file(os.path.join(target, name), 0, 0o600)
    status, told, _ = run(program, [source, target], COPY + [b"s", F10])
    check("with no free part name a copy is skipped", status == 0 and sorted(os.listdir(target)) == sorted(taken) and b"no free part name" in told)

    small = os.path.join(base, "small")
    os.mkdir(small)
    if subprocess.run(["mount", "-t", "tmpfs", "-o", "size=64k", "tmpfs", small], stderr=subprocess.DEVNULL).returncode != 0:
        print("no mount of its own could be made: a full one was not tried")
        return
    try:
        status, told, _ = run(program, [source, small], COPY + [b"s", F10])
        check("on a full mount a copy is skipped", status == 0 and os.listdir(small) == [] and b"no space left" in told)
        subprocess.run(["mount", "-o", "remount,ro", small], check=True)
        status, told, _ = run(program, [source, small], COPY + [b"s", F10])
        check("on a read-only mount a copy is denied", status == 0 and os.listdir(small) == [] and b"permission denied" in told)
    finally:
        subprocess.run(["umount", small], check=True)


def check_questions(program, base, check):
    """Where a file or a link stands at a file's target it is asked whether it is to be replaced, and each letter answers."""
    source, target = (os.path.join(base, f"{side} of questions") for side in ("source", "target"))
    new, there = os.path.join(source, "x"), os.path.join(target, "x")
    os.mkdir(source)
    os.mkdir(target)

    def answered(keys, size=9, age=0, link=None):
        """What stands at the target after these keys, and whether it is the copy: a file of this size stood there, so many seconds older."""
        make_file(new, 9, 0o640)
        if link is None:
            make_file(there, size, 0o600)
            os.utime(there, (os.stat(new).st_mtime - age,) * 2)
        else:
            os.symlink(link, there)
        wanted, old = facts(new), things_at(target)[1]["x"]
        status, told, same = run(program, [source, target], COPY + keys + [F10])
        left = things_at(target)[1]
        fine = status == 0 and same and list(left) == ["x"] and facts(new) == wanted
        os.remove(there)
        os.remove(new)
        return told, fine, left.get("x") == wanted, left.get("x") == old

    told, fine, copied, _ = answered([b"y"], size=3)
    box = ["Target exists", there, "source 9 bytes, target 3 bytes", "y Yes  n No  a All  u Update", "o None  s Size differs  b Abort"]
    check("a question shows the target and both sizes", told.screens[4].rows()[:-2] == with_box(told.screens[1].rows(), box)[:-2])
    check("a file is replaced after Yes", fine and copied)
    for keys, size, age, what in [
        ([ENTER], 3, 0, "Enter"), ([b"a"], 3, 0, "All"), ([b"u"], 9, 100, "Update, an older one"), ([b"s"], 3, 0, "Size differs, one of another size"),
        ([b"r", b"k", F5, b"y"], 3, 0, "other keys and Yes"), ([ESCAPE, b"\x18", b"j", ENTER, b"y"], 3, 0, "Escape, C-x j and Yes"),
    ]:
        _, fine, copied, _ = answered(keys, size, age)
        check(f"a file is replaced after {what}", fine and copied)
    for keys, size, age, what in [
        ([b"n"], 3, 0, "No"), ([b"o"], 3, 0, "None"), ([b"u"], 3, -100, "Update, a newer one"), ([b"s"], 9, 100, "Size differs, one of the same size"),
        ([b"b"], 3, 0, "Abort"), ([F10], 3, 0, "F10 and the end"),
    ]:
        _, fine, _, kept = answered(keys, size, age)
        check(f"a file stays after {what}", fine and kept)
    _, fine, copied, _ = answered([b"y"], link="nowhere")
    check("a link is replaced as a file is, and not what it leads to", fine and copied and not os.path.exists(os.path.join(target, "nowhere")))

    for keys, left in [
        ([b"y", b"n"], "xo"), ([b"n", b"y"], "oy"), ([b"a"], "xy"), ([b"n", b"a"], "oy"), ([b"o"], "oo"), ([b"u"], "xo"), ([b"s"], "oy"), ([b"y", b"b"], "xo"),
    ]:
        for name, size, old_size, age in [("x", 9, 9, 100), ("y", 7, 3, -100)]:
            make_file(os.path.join(source, name), size, 0o640)
            make_file(os.path.join(target, name), old_size, 0o600)
            os.utime(os.path.join(target, name), (os.stat(new).st_mtime - age,) * 2)
        status, _, same = run(program, [source, target], [DOWN, INSERT, INSERT, F5, ENTER, ENTER] + keys + [F10])
        modes = [facts(os.path.join(target, name))[1] for name in "xy"]
        wanted = [0o600 if what == "o" else 0o640 for what in left]
        what = " ".join(key.decode() for key in keys)
        check(f"of two files those are replaced that {what} says", status == 0 and same and modes == wanted and sorted(os.listdir(target)) == ["x", "y"])
    for folder in (source, target):
        os.remove(os.path.join(folder, "y"))

    os.remove(there)
    os.mkdir(there)
    make_file(new, 9, 0o640)
    status, told, _ = run(program, [source, target], COPY + [b"s", F10])
    check("a folder at the target is no question", status == 0 and b"target is of another kind" in told and os.path.isdir(there))


def check_questions_of_links(program, base, check):
    """Where a link comes onto a file or a link it is asked about as a file is; onto a folder it is a trouble."""
    source, target = (os.path.join(base, f"{side} of linked questions") for side in ("source", "target"))
    for folder in (source, target):
        os.mkdir(folder)
    new, there = os.path.join(source, "l"), os.path.join(target, "l")
    os.symlink("new", new)

    def answered(key, stands):
        """What stands at the target after this key, where a file, a link or a folder stood there."""
        if stands == "file":
            make_file(there, 9, 0o600)
        elif stands == "link":
            os.symlink("old one", there)
        else:
            os.mkdir(there)
        before = things_at(there)
        status, told, same = run(program, [source, target], COPY + [key, F10])
        left = things_at(there)
        if stands == "folder":
            os.rmdir(there)
        else:
            os.remove(there)
        return told, status == 0 and same and os.listdir(target) == [], left, before

    told, fine, left, _ = answered(b"y", "link")
    check("a link onto a link is asked about, with both sizes", fine and any("source 3 bytes, target 7 bytes" in row for row in told.screens[4].rows()))
    check("and replaces it after Yes", left == "new")
    for key, stands, copied in [(b"n", "link", False), (b"a", "link", True), (b"o", "link", False), (b"s", "link", True), (b"y", "file", True), (b"n", "file", False), (b"b", "file", False)]:
        _, fine, left, before = answered(key, stands)
        check(f"a link onto a {stands}: {key.decode()}", fine and left == ("new" if copied else before))
    told, fine, left, before = answered(b"s", "folder")
    check("a link onto a folder is no question", fine and b"target is of another kind" in told and left == before)


def check_copied_folders(program, base, check):
    """Folders and links are copied by keys, with all that lies in them and nothing that a link leads to."""
    source, target, ways = (os.path.join(base, f"{what} of folders") for what in ("source", "target", "ways"))
    top = os.path.join(source, "top")
    wide, shut = os.path.join(top, "漢字 é"), os.path.join(top, "shut")
    own = [source, target, ways]  # which somebody who isn't root couldn't remove as they stand
    for folder in (wide, shut, target, ways):
        os.makedirs(folder)
    for path, size, mode in [((top, "x"), 65537, 0o640), ((wide, "表"), 5, 0o444), ((wide, "none"), 0, 0o600), ((shut, "in"), 2, 0o644)]:
        make_file(os.path.join(*path), size, mode)
    os.symlink("../x", os.path.join(wide, "up"))
    os.symlink(base, os.path.join(top, "way"))
    for folder, mode in [(wide, 0o1750), (shut, 0o077 if os.geteuid() == 0 else 0o500), (top, 0o555)]:
        os.chmod(folder, mode)
    before = things_at(top)
    status, told, same = run(program, [source, target], [DOWN, F5, ESCAPE, F5, ENTER, ESCAPE, F10])
    asks, shut_box = told.screens[2:4]
    check("F5 on a folder asks for the mask, and each box can be shut", status == 0 and same and asks.rows() == with_box(told.screens[1].rows(), ["Source mask for top", "*"]) and shut_box.rows() == told.screens[1].rows() and os.listdir(target) == [])
    status, _, same = run(program, [source, target], COPY + [F10])
    check("a folder is copied with all that lies in it", status == 0 and same and os.listdir(target) == ["top"] and things_at(os.path.join(target, "top")) == before)
    check("and stays as it was", things_at(source)[1] == {"top": before})
    for words, keys in [(b"inside itself", [source, top]), (b"same file", [source, source])]:
        status, told, _ = run(program, keys, COPY + [ENTER, F10, F10])
        check(f"a folder is not copied: {words.decode()}", status == 0 and words in told and things_at(top) == before and os.listdir(target) == ["top"])
    status, told, same = run(program, [source, target], COPY + [b"o", F10])
    check("a folder onto itself is merged, and what lies in it stays where it is not to be replaced", status == 0 and same and b"Target exists" in told and things_at(os.path.join(target, "top")) == before)
    status, told, _ = run(program, [source, target], [F5, ENTER, DOWN, F5, EMPTY + b"*", ENTER, EMPTY + b"../ways of folders/\\0.\\0", ENTER, F10])
    check("on `..` nothing is selected, and a mask names the copy of a folder", status == 0 and b"nothing selected" in told and things_at(ways)[1] == {"top.top": before})

    check_questions_of_links(program, base, check)

    for name, text in [("l", "nowhere"), ("w", top)]:
        source, target = (os.path.join(base, f"{side} of {name}") for side in ("source", "target"))
        os.mkdir(source)
        os.mkdir(target)
        os.symlink(text, os.path.join(source, name))
        status, _, same = run(program, [source, target], COPY + [F10])
        check(f"a link that says {text} is copied as a link", status == 0 and same and things_at(source)[1] == things_at(target)[1] == {name: text})

    source = os.path.join(base, "source of pipes")
    os.makedirs(os.path.join(source, "top", "inner"))
    for path in ("top/b", "top/inner/d", "top/z"):
        make_file(os.path.join(source, path), 3, 0o640)
    for path in ("c", "top/c", "top/inner/e"):
        os.mkfifo(os.path.join(source, path))
    os.chmod(os.path.join(source, "top"), 0o550)
    file = facts(os.path.join(source, "top", "b"))
    inner = {"inner": (0o755, {"d": file})}
    whole, begun = (0o550, {"b": file, "z": file, **inner}), (0o750, {"b": file})
    for keys, left in [([b"s", b"s"], whole), ([b"a"], whole), ([b"r", b"s", b"b"], (0o750, {"b": file, **inner})), ([b"b"], begun), ([ESCAPE], begun)]:
        target = os.path.join(base, "target of pipes")
        os.mkdir(target)
        status, told, same = run(program, [source, target], COPY + keys + [F10])
        what = " ".join("Escape" if key == ESCAPE else key.decode() for key in keys)
        check(f"a pipe in a copied folder is asked about, and {what} is done", status == 0 and same and b"special file" in told and things_at(target)[1] == {"top": left})
        os.chmod(os.path.join(target, "top"), 0o700)
        shutil.rmtree(target)
    os.mkdir(target)
    status, told, _ = run(program, [source, target], [END, F5, ENTER, ENTER, b"s", F10])
    check("a pipe is not copied", status == 0 and b"special file" in told and os.listdir(target) == [])
    for folder in own + [os.path.join(base, "source of pipes")]:
        for path, _, _ in os.walk(folder):
            os.chmod(path, 0o700)


def check_new_folders(program, base, check):
    """Folders that are made by keys, and what is refused."""
    folder, other = os.path.join(base, "holds"), os.path.join(base, "other holds")
    os.mkdir(folder)
    os.mkdir(other)
    make_file(os.path.join(folder, "a"), 3, 0o644)
    status, told, same = run(program, [folder, other], [DOWN, F7, b"new", ENTER, F10])
    asks, typed, made = told.screens[2:5]
    check("F7 asks for a new folder", asks.rows() == with_box(told.screens[1].rows(), ["Make folder", ""]))
    check("what is typed stands in the line", typed.rows() == with_box(told.screens[1].rows(), ["Make folder", "new"]))
    mode = stat.S_IMODE(os.stat(os.path.join(folder, "new")).st_mode) if os.path.isdir(os.path.join(folder, "new")) else None
    check("F7 makes a folder", status == 0 and same and mode == 0o755 and os.listdir(other) == [])
    check("the panel shows it, with the cursor on the name where it was", [row[:4].rstrip() for row in left_panel(made)[1]] == ["/..", "/new", " a"] and left_panel(made)[2] == "a")

    status, _, _ = run(program, [folder, other], [TAB, F7, b"below", ENTER, F7, os.fsencode(os.path.join(folder, "new", "in")), ENTER, F10])
    check("it is made in the current panel's folder, or where the path leads", status == 0 and os.listdir(other) == ["below"] and os.listdir(os.path.join(folder, "new")) == ["in"])

    for typed, words in [(b"a", b"already there"), (b"new", b"already there"), (b"no/such", b"no such file or folder"), (b"a/in", b"not a folder"), (b"~/in", b"bad name"), (b"in/", b"bad name")]:
        status, told, _ = run(program, [folder, other], [F7, typed, ENTER, ENTER, F10, F10], surroundings={"HOME": "no/home"})
        check(f"{typed.decode()} is refused", status == 0 and words in told and sorted(os.listdir(folder)) == ["a", "new"] and facts(os.path.join(folder, "a"))[1] == 0o644)

    home = os.path.join(base, "own home")
    os.mkdir(home)
    keys = [F7, b"~/in", ENTER, END, F5, ENTER, EMPTY + b"~/", ENTER, F10]
    status, _, _ = run(program, [folder, other], keys, surroundings={"HOME": home})
    copied = facts(os.path.join(home, "a")) == facts(os.path.join(folder, "a"))
    check("a tilde stands for HOME in what is made and copied", status == 0 and copied and sorted(os.listdir(home)) == ["a", "in"] and sorted(os.listdir(folder)) == ["a", "new"])


def check_links(program, base, check):
    """Links that are made by keys, what they say, and what is refused."""
    folder, other = os.path.join(base, "linked"), os.path.join(base, "other linked")
    os.mkdir(folder)
    os.mkdir(other)
    path = os.path.join(folder, "a")
    make_file(path, 3, 0o644)
    status, told, same = run(program, [folder, other], [DOWN] + LINK + [ENTER, b"l", ENTER, F10])
    before, _, says, asks, typed, made = told.screens[1:7]
    check("C-x s asks what a link is to say", says.rows() == with_box(before.rows(), ["Link text", path]))
    check("and then for its name", asks.rows() == with_box(before.rows(), ["Link name", ""]) and typed.rows() == with_box(before.rows(), ["Link name", "l"]))
    check("C-x s makes a link", status == 0 and same and os.readlink(os.path.join(folder, "l")) == path and os.listdir(other) == [])
    check("the panel shows it, with the cursor where it was", [row[:4].rstrip() for row in left_panel(made)[1]] == ["/..", " a", "@l"] and left_panel(made)[2] == "a")

    keys = LINK + [ENTER, b"../other linked/up", ENTER] + LINK + [EMPTY + b"~/nowhere", ENTER, os.fsencode(os.path.join(other, "n")), ENTER, F10]
    status, _, _ = run(program, [folder, other], keys)
    texts = {name: os.readlink(os.path.join(other, name)) for name in os.listdir(other)}
    check("a link says what was typed, on `..` at first the folder's path, and is made where its name leads", status == 0 and texts == {"up": folder, "n": "~/nowhere"})

    refused = [(b"", [b"n"], b"bad link text"), (b"t" * 4096, [b"n"], b"bad link text"), (b"t", [b"a"], b"already there"), (b"t", [], b"bad name")]
    refused += [(b"t", [b"no/such"], b"no such file or folder"), (b"t", [b"a/in"], b"not a folder"), (b"t", [b"~/in"], b"bad name")]
    for text, name, words in refused:
        keys = LINK + [EMPTY + text, ENTER] + name + [ENTER, ENTER, F10, F10]
        status, told, _ = run(program, [folder, other], keys, surroundings={"HOME": "no/home"})
        check(f"a link is refused: {words.decode()}", status == 0 and words in told and sorted(os.listdir(folder)) == ["a", "l"])

    for keys in [LINK + [ESCAPE], LINK + [ENTER, b"n", ESCAPE], LINK + [F10]]:
        status, told, _ = run(program, [folder, other], keys + [F10])
        check("each line is shut without a link", status == 0 and told.screens[len(keys)].rows() == told.screens[0].rows() and sorted(os.listdir(folder)) == ["a", "l"])


def check_modes(program, base, check):
    """Modes that are given by keys, of a file and of a folder, and what has none."""
    folder = os.path.join(base, "modes")
    os.makedirs(os.path.join(folder, "d"))
    make_file(os.path.join(folder, "x"), 3, 0o644)
    os.symlink("x", os.path.join(folder, "l"))
    mode = lambda name: stat.S_IMODE(os.lstat(os.path.join(folder, name)).st_mode)
    status, told, same = run(program, [folder, base], [END] + MODE + [b"0", b"6", b"0", b"0", ENTER, F10])
    before, _, asks, *_, typed, given = told.screens[1:9]
    check("C-x c asks for a mode", asks.rows() == with_box(before.rows(), ["Mode", "-rw-r--r--", "0644"]))
    check("digits are shifted in", typed.rows() == with_box(before.rows(), ["Mode", "-rw-------", "0600"]))
    check("Enter gives it", status == 0 and same and mode("x") == 0o600 and given.rows() == before.rows())

    status, _, _ = run(program, [folder, base], [DOWN] + MODE + [b"1", b"7", b"5", b"0", ENTER, F10])
    check("a folder is given a mode, with its sticky bit", status == 0 and mode("d") == 0o1750)

    for keys, words in [([END, UP] + MODE + [ENTER, b"s"], b"special file"), (MODE + [ENTER], b"nothing selected"), ([END] + MODE + [b"7", ESCAPE], b"Mode")]:
        status, told, _ = run(program, [folder, base], keys + [F10])
        check(f"no mode is given: {words.decode()}", status == 0 and words in told and mode("x") == 0o600 and mode("d") == 0o1750)


def check_set_id_bits(program, base, check):
    """The system takes set-id bits from a file at a write by somebody who isn't root."""
    user, program = for_somebody(program, base)
    for mode in (0o4755, 0o2755, 0o6711):
        folders = [os.path.join(base, f"{side}{mode:o}") for side in "st"]
        for folder in folders:
            os.mkdir(folder)
        file = os.path.join(folders[0], "x")
        make_file(file, 70000, 0o644)
        if user is not None:
            for path in folders + [file]:
                os.chown(path, user, user)
        os.chmod(file, mode)
        status, _, _ = run(program, folders, COPY + [F10], user=user)
        check(f"a copy keeps mode {mode:o}", status == 0 and facts(os.path.join(folders[1], "x")) == facts(file))

    if user is None:
        print("this isn't root: a copy of a stranger's program was not tried")
        return
    for owner, mode, wanted in [(user, 0o4755, 0o755), (user, 0o6711, 0o711), (user, 0o1644, 0o1644), (os.geteuid(), 0o4755, 0o4755)]:
        folders = [os.path.join(base, f"{side}{mode:o} of {owner}") for side in "st"]
        for folder in folders:
            os.mkdir(folder)
        file = os.path.join(folders[0], "x")
        make_file(file, 9, 0o644)
        os.chown(file, owner, owner)
        os.chmod(file, mode)
        status, _, _ = run(program, folders, COPY + [F10])
        check(f"root's copy of a file of user {owner} with mode {mode:o} has {wanted:o}", status == 0 and facts(os.path.join(folders[1], "x"))[1] == wanted)
        check("and the file keeps its own", facts(file)[1] == mode)


def check_folders(program, base, check):
    """A folder is deleted with all that lies in it, and nothing that its links lead to."""
    beside, folder = os.path.join(base, "beside"), os.path.join(base, "folders")
    os.mkdir(beside)
    make_file(os.path.join(beside, "x"), 3, 0o600)
    before = facts(os.path.join(beside, "x"))
    for number in range(10):
        inner = os.path.join(folder, "top", f"漢字 {number}", "in")
        os.makedirs(inner)
        for at in range(18):
            make_file(os.path.join(inner, f"f{at}"), at, (at * 0o25) & 0o755)
        os.symlink(os.path.join(beside, "x"), os.path.join(inner, "link"))
        os.symlink(beside, os.path.join(inner, "way"))
        os.mkfifo(os.path.join(inner, "pipe"))
        os.chmod(os.path.join(folder, "top", f"漢字 {number}"), 0o700 | number)
    make_file(os.path.join(folder, "u"), 1, 0o644)
    status, _, same = run(program, [folder], [DOWN, F8, F10, F10])
    check("a box that is shut deletes no folder", status == 0 and same and sorted(os.listdir(folder)) == ["top", "u"])
    status, _, same = run(program, [folder], [DOWN, F8, ENTER, F10])
    check("a folder is deleted with all that lies in it", status == 0 and same and os.listdir(folder) == ["u"])
    check("what its links lead to stays", os.listdir(beside) == ["x"] and facts(os.path.join(beside, "x")) == before)


def check_kept_folder(program, base, check):
    """What can't be removed is asked about; where it is skipped, it stays with the folders around it, and all else goes."""
    user, program = for_somebody(program, base)
    folder = os.path.join(base, "kept")
    top, shut, other = (os.path.join(folder, "top", *names) for names in ([], ["m"], ["z"]))
    for inner in (shut, other):
        os.makedirs(inner)
        make_file(os.path.join(inner, "x"), 2, 0o644)
    make_file(os.path.join(top, "a"), 2, 0o644)
    os.chmod(shut, 0o500)
    if user is not None:
        for path in (folder, top, shut, other):
            os.chown(path, user, user)
    status, told, same = run(program, [folder], [DOWN, F8, ENTER, b"s", F10], user=user)
    check("what can't be removed is asked about", b"permission denied" in told and os.fsencode(os.path.join(shut, "x")) in told)
    check("what is skipped stays, with the folders around it", status == 0 and same and os.listdir(top) == ["m"] and os.listdir(shut) == ["x"])
