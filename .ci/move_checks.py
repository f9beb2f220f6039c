"""Checks of F6: things are renamed, folders with all that lies in them, what stands at a target is asked about, a folder is merged with one; other mounts are troubles."""
import os
import shutil
import subprocess
import tempfile

from frames import LONG_AGO, with_box
from several_checks import folder_with
from terminal_run import (
    DOWN, EMPTY, END, ENTER, ESCAPE, F10, F6, F8, INSERT, for_somebody, left_panel, make_file, run, things_at, without_sync,
)

MOVE = [DOWN, F6, ENTER, ENTER]


def place(base, name, sources, targets):
    """Two new folders that hold these things."""
    return folder_with(base, f"{name} from", sources), folder_with(base, f"{name} to", targets)


def things_in(folder):
    """What lies in a folder, and the number by which the system knows it: what is renamed keeps that, and a copy has another one."""
    return {name: (os.lstat(os.path.join(folder, name)).st_ino, things_at(os.path.join(folder, name))) for name in os.listdir(folder)}


def shows(told, before, box):
    """Whether this box stood over these rows at some moment; the line of the jobs and that of the keys apart."""
    wanted = with_box(before.rows(), box)[:-2]
    return any(screen.rows()[:-2] == wanted for screen in told.screens)


def tagged(count):
    """The first things of a panel are tagged, and moved."""
    return [DOWN] + count * [INSERT] + [F6, ENTER, ENTER]


def check_moved_files(program, base, check):
    """A file by keys, and several under the names that masks make."""
    source, target = place(base, "move", {"x": 70000}, {})
    before = things_in(source)
    status, told, same = run(program, [source, target], MOVE + [F10])
    plain, moved = told.screens[1], told.screens[-1]
    check("F6 asks for the mask, then for the destination", shows(told, plain, ["Source mask for x", "*"]) and shows(told, plain, ["Move to", target + "/"]))
    check("a file is moved, and is the same file still", status == 0 and same and things_in(source) == {} and things_in(target) == before)
    check("the panel shows that it is gone", [row[:4].rstrip() for row in left_panel(moved)[1]] == ["/.."])

    source, target = place(base, "names", {"a.c": 3, "b.c": 0, "c": 5, "l": "a.c"}, {})
    before = things_in(source)
    tag = [DOWN] + 4 * [INSERT]
    status, _, same = run(program, [source, target], tag + [F6, EMPTY + b"*.c", ENTER, EMPTY + b"\\1.old", ENTER, F10])
    renamed = {{"a.c": "a.old", "b.c": "b.old"}.get(name, name): thing for name, thing in before.items()}
    check("what the mask matches is renamed in its folder, and nothing else", status == 0 and same and things_in(source) == renamed)
    status, _, same = run(program, [source, target], tag + [F6, ENTER, EMPTY + b"../names to/*.\\1", ENTER, F10])
    check("all that is tagged is moved under such names, a link among it", status == 0 and same and things_in(source) == {} and things_in(target) == {f"{name}.{name}": thing for name, thing in renamed.items()})

    source, target = place(base, "left", {"d": {}, "x": 3}, {})
    before = things_in(source)
    for keys in [[F6, ENTER], [DOWN, F6, ESCAPE], [DOWN, F6, ENTER, ESCAPE]]:
        status, _, same = run(program, [source, target], keys + [F10])
        check(f"nothing is moved after {len(keys)} keys", status == 0 and same and things_in(source) == before and things_in(target) == {})
    for words, folders, first in [(b"same file", [source, source], [END]), (b"inside itself", [source, os.path.join(source, "d")], [DOWN])]:
        status, told, _ = run(program, folders, first + MOVE[1:] + [ENTER, F10, F10])
        check(f"nothing is moved: {words.decode()}", status == 0 and words in told and things_in(source) == before)


def check_moves_over_files(program, base, check):
    """Where a file stands at the target each letter answers."""
    source, target = place(base, "asked", {}, {})

    def put(name, size, old_size, age):
        make_file(os.path.join(source, name), size, 0o640)
        make_file(os.path.join(target, name), old_size, 0o600)
        os.utime(os.path.join(target, name), (LONG_AGO - age,) * 2)

    def moved(keys, names, goes):
        """Whether just these went, and replaced what stood there."""
        new, old = things_in(source), things_in(target)
        status, told, same = run(program, [source, target], tagged(names) + keys + [F10])
        went = things_in(source) == {name: thing for name, thing in new.items() if name not in goes}
        stands = things_in(target) == {name: (new if name in goes else old)[name] for name in old}
        for folder in (source, target):
            for name in os.listdir(folder):
                os.remove(os.path.join(folder, name))
        return status == 0 and same and went and stands and b"Target exists" in told

    for keys, old_size, age, goes in [
        ([b"y"], 3, 0, "x"), ([ENTER], 3, 0, "x"), ([b"a"], 3, 0, "x"), ([b"u"], 9, 100, "x"), ([b"s"], 3, 0, "x"), ([b"r", b"k", F6, b"y"], 3, 0, "x"),
        ([ESCAPE, b"\x18", b"j", ENTER, b"y"], 3, 0, "x"), ([b"n"], 3, 0, ""), ([b"o"], 3, 0, ""), ([b"u"], 3, -100, ""), ([b"s"], 9, 100, ""), ([b"b"], 3, 0, ""), ([F10], 3, 0, ""),
    ]:
        put("x", 9, old_size, age)
        check(f"a file comes over one of {old_size} bytes, by age {age}: {keys}", moved(keys, 1, goes))
    for keys, goes in [
        ([b"y", b"n"], "x"), ([b"n", b"y"], "y"), ([b"a"], "xy"), ([b"n", b"a"], "y"), ([b"o"], ""), ([b"u"], "x"), ([b"s"], "y"), ([b"y", b"b"], "x"),
    ]:
        put("x", 9, 9, 100)
        put("y", 7, 3, -100)
        check(f"of two files those are moved that are answered so: {keys}", moved(keys, 2, goes))

    put("x", 9, 3, 0)
    _, told, _ = run(program, [source, target], MOVE + [F10, F10])
    box = ["Target exists", os.path.join(target, "x"), "source 9 bytes, target 3 bytes", "y Yes  n No  a All  u Update", "o None  s Size differs  b Abort"]
    check("the question of a move shows the target and both sizes", shows(told, told.screens[1], box))

    source, target = place(base, "one file", {"x": 9}, {})
    os.link(os.path.join(source, "x"), os.path.join(target, "x"))
    before = things_in(source)
    status, _, same = run(program, [source, target], MOVE + [b"y", F10])
    check("where both are names of one file, both stay", status == 0 and same and things_in(source) == before == things_in(target))


def check_moved_links(program, base, check):
    """A link and a pipe are moved as they are, also over a file; nothing comes over a pipe or a folder."""
    beside = folder_with(base, "led to", {"y": 3})
    source, target = place(base, "links", {"k": "far", "l": "somewhere", "p": None, "q": None, "w": beside}, {"k": "old", "l": 5, "p": 7})
    before = things_in(source)
    status, _, same = run(program, [source, target], tagged(5) + [b"y", b"n", b"a", F10])
    left = {name: thing for name, thing in things_in(target).items() if name != "l"}
    check("links and pipes are moved, over a file where that was answered", status == 0 and same and list(things_in(source)) == ["l"] and left == {name: thing for name, thing in before.items() if name != "l"})
    check("and nothing that a link leads to", things_at(beside)[1]["y"] is not None and os.listdir(beside) == ["y"])

    for name, what in [("pipe", None), ("folder", {"y": 3})]:
        source, target = place(base, f"over a {name}", {"x": 3, "z": 5}, {"x": what})
        before, stands = things_in(source), things_in(target)
        status, told, same = run(program, [source, target], tagged(2) + [b"s", F10])
        said = b"target is of another kind" in told and os.fsencode(os.path.join(target, "x")) in told
        check(f"nothing comes over a {name}, and the next file is moved", status == 0 and same and said and things_in(source) == {"x": before["x"]} and things_in(target) == {**stands, "z": before["z"]})


def check_moved_folders(program, base, check):
    """A folder goes with all that lies in it, and is the same folder still."""
    source, target = place(base, "folders", {"d": {"x": 70000, "e": {"l": "x", "p": None}}, "e": {}, "f": 5}, {})
    before = things_in(source)
    status, _, same = run(program, [source, target], tagged(3) + [F10])
    check("folders are moved among files, with all that lies in them", status == 0 and same and things_in(source) == {} and things_in(target) == before)
    status, _, same = run(program, [target, source], [DOWN, F6, ENTER, EMPTY + b"*.old", ENTER, F10])
    renamed = {"d.old" if name == "d" else name: thing for name, thing in before.items()}
    check("a folder is renamed where it is", status == 0 and same and things_in(source) == {} and things_in(target) == renamed)
    status, _, same = run(program, [target, source], [DOWN, F6, ENTER, EMPTY + b"e/", ENTER, F10])
    check("a folder is moved into the one beside it", status == 0 and same and things_in(os.path.join(target, "e")) == {"d.old": before["d"]})


def check_merged_moves(program, base, check):
    """A folder that comes onto a folder is merged with it: what lies in it is moved, and it is removed where nothing stays."""
    rounds = 0

    def merged(sources, targets, keys, names=1):
        """The folders before and after, whether the session went well, and what it told. Many things are moved at once if they are tagged."""
        nonlocal rounds
        rounds += 1
        source, target = place(base, f"merged {rounds}", sources, targets)
        before, stood = things_in(source), things_in(target)
        first = MOVE if names == 1 else tagged(names)
        status, told, same = run(program, [source, target], first + keys + [F10])
        return source, target, before, stood, status == 0 and same, told

    inside = {"x": 3, "y": 5}
    source, target, before, stood, well, told = merged({"d": inside}, {"d": {"y": 7}}, [b"n"])
    sizes = {name: os.lstat(os.path.join(target, "d", name)).st_size for name in os.listdir(os.path.join(target, "d"))}
    check("a merge moves what is not there, and keeps what was answered so", well and sizes == {"x": 3, "y": 7} and list(before["d"][1][1]) != [] and os.listdir(os.path.join(source, "d")) == ["y"])
    check("the folder that is left is kept without a question, and the file alone is asked about", b"directory not empty" not in told and sum(b"Target exists" in bytes("\n".join(screen.rows()), "utf-8") for screen in told.screens) >= 1)
    for keys in [[b"y"], [b"a"], [ENTER], [b"s"]]:
        source, target, before, stood, well, _ = merged({"d": inside}, {"d": {"y": 7, "z": 1}}, keys)
        now = {name: os.lstat(os.path.join(target, "d", name)).st_size for name in os.listdir(os.path.join(target, "d"))}
        check(f"a merge moves all, and the emptied folder is gone: {keys}", well and os.listdir(source) == [] and now == {"x": 3, "y": 5, "z": 1})
        check(f"the folder at the target is the same one: {keys}", os.lstat(os.path.join(target, "d")).st_ino == stood["d"][0])

    deep = {"d": {"e": {"k": {"m": 3}, "l": "m"}, "f": {}, "g": {"h": 5}}, "z": 1}
    source, target, before, _, well, _ = merged(deep, {"d": {"e": {"k": {"n": 7}}, "f": {}}}, [], 2)
    kept = things_at(target)[1]
    check("folders are merged as deep as they stand on both sides, and others go whole", well and os.listdir(source) == [] and sorted(kept) == ["d", "z"] and sorted(kept["d"][1]) == ["e", "f", "g"] and sorted(kept["d"][1]["e"][1]["k"][1]) == ["m", "n"])
    check("what goes whole is the same still", os.lstat(os.path.join(target, "d", "g")).st_ino is not None and kept["d"][1]["g"][1]["h"] == before["d"][1][1]["g"][1]["h"])

    source, target, _, _, well, told = merged({"d": {"x": 3, "y": {"in": 1}, "z": 5}, "e": {"w": 1}}, {"d": {"x": {}, "y": 4}, "e": {"w": {}}}, [b"a"], 2)
    left = things_at(source)[1]
    check("what is in trouble in a merge is skipped with all that meets the same, also in a later folder", well and sorted(left) == ["d", "e"] and sorted(left["d"][1]) == ["x", "y"] and sorted(left["e"][1]) == ["w"] and "z" in things_at(target)[1]["d"][1])
    check("and it is told once", b"target is of another kind" in told)

    source, target, _, _, well, _ = merged({"d": {"w": 1, "x": 3, "y": 5}}, {"d": {"x": 7, "y": 9}}, [b"y", b"b"])
    check("an abort in a merge leaves what was moved, and all else", well and os.listdir(os.path.join(source, "d")) == ["y"] and sorted(os.listdir(os.path.join(target, "d"))) == ["w", "x", "y"])

    source, target = place(base, "no names", {"d": {"x": 3}}, {"d": {}})
    with open(os.path.join(os.fsencode(source), b"d", b"\xff"), "wb"):
        pass
    status, told, same = run(program, [source, target], MOVE + [b"s", F10])
    check("a folder with a name that is no text isn't merged", status == 0 and same and b"can't be shown" in told and len(os.listdir(os.path.join(source, "d"))) == 2 and os.listdir(os.path.join(target, "d")) == [])


def check_mount_within(program, base, check):
    """A folder in which another mount begins is moved as any, and the mount goes along."""
    source, target = place(base, "mount within", {"d": {"m": {}}}, {})
    mount, moved = os.path.join(source, "d", "m"), os.path.join(target, "d", "m")
    if subprocess.run(["mount", "-t", "tmpfs", "tmpfs", mount], stderr=subprocess.DEVNULL).returncode != 0:
        print("no mount can be made: the move of a folder with one in it was not tried")
        return
    make_file(os.path.join(mount, "x"), 3, 0o640)
    status, _, same = run(program, [source, target], MOVE + [F10])
    check("a mount goes along with the folder in which it begins", status == 0 and same and things_in(source) == {} and os.path.ismount(moved) and os.listdir(moved) == ["x"])
    subprocess.run(["umount", moved if os.path.ismount(moved) else mount], check=True)


def other_mounts(base):
    """Folders on other mounts: one that is made here, where it can be, and one in the memory of the system, where that is."""
    own = os.path.join(base, "own mount")
    os.mkdir(own)
    if subprocess.run(["mount", "-t", "tmpfs", "tmpfs", own], stderr=subprocess.DEVNULL).returncode == 0:
        yield own
        subprocess.run(["umount", own], check=True)
    shared = "/dev/shm"
    if os.path.isdir(shared) and os.access(shared, os.W_OK) and os.stat(shared).st_dev != os.stat(base).st_dev:
        with tempfile.TemporaryDirectory(dir=shared) as folder:
            yield folder


def check_twin_on_other_mount(program, base, target, check):
    """A folder, be it empty, isn't merged with the one of its name on another mount."""
    source = folder_with(base, "mount from", {})
    twin = os.path.join(target, "d")
    os.mkdir(os.path.join(source, "d"))
    os.mkdir(twin)
    status, told, same = run(program, [source, target], [DOWN, F6, ENTER, ENTER, b"s", F10])
    said = b"other mount" in told and os.fsencode(twin) in told
    check(f"nor is a folder merged with one there ({target})", status == 0 and same and said and os.listdir(source) == ["d"] and os.listdir(target) == ["d"])
    os.rmdir(twin)
    shutil.rmtree(source)


def check_other_mounts(program, base, check):
    """Nothing is moved to another mount yet."""
    tried = False
    for target in other_mounts(base):
        source = folder_with(base, "mount from", {"x": 3, "y": 5})
        before = things_in(source)
        status, told, same = run(program, [source, target], tagged(2) + [b"s", b"a", F10])
        said = b"other mount" in told and os.fsencode(os.path.join(target, "x")) in told
        check(f"to another mount nothing is moved ({target})", status == 0 and same and said and things_in(source) == before and os.listdir(target) == [])
        shutil.rmtree(source)
        check_twin_on_other_mount(program, base, target, check)
        tried = True
    if not tried:
        print("there is no other mount: a move to one was not tried")


def check_barred_moves(program, base, check):
    """A folder that may not be changed bars the renaming, and one that may not be read its sync, where there is no `sync`."""
    user, program = for_somebody(program, base)
    commands = without_sync(base)

    def owned(name, sources):
        source, target = place(base, name, sources, {})
        if user is not None:
            for path in [source, target] + [os.path.join(source, thing) for thing in sources]:
                os.chown(path, user, user)
        return source, target, things_in(source)

    source, target, before = owned("fixed", {"x": 3})
    os.chmod(source, 0o500)
    status, told, same = run(program, [source, target], MOVE + [b"s", F10], user=user)
    os.chmod(source, 0o700)
    check("out of a folder that may not be changed nothing is moved", status == 0 and same and b"permission denied" in told and things_in(source) == before and os.listdir(target) == [])

    source, target, before = owned("closed", {"x": 3})
    shut, mended = (lambda _: os.chmod(target, 0o300)), (lambda _: os.chmod(target, 0o700))
    status, told, same = run(program, [source, target], [DOWN, F6, ENTER, shut, ENTER, b"s", b"a", mended, b"r", F10], user=user, folders=commands)
    check("where the sync of the target's folder is refused a retry makes it", status == 0 and same and b"r Retry  b Abort" in told and things_in(source) == {} and things_in(target) == before)

    source, target, before = owned("dirty", {"x": 3, "y": 5})
    shut, mended = (lambda _: os.chmod(target, 0o300)), (lambda _: os.chmod(target, 0o700))
    # The look after the abort can't read the target's folder: Enter closes the message.
    first = [DOWN, F6, ENTER, shut, ENTER, b"b", ENTER]
    status, told, same = run(program, [source, target], first + [END, F8, ENTER, mended, b"r", F10], user=user, folders=commands)
    check("after an abort the next job syncs that folder first", status == 0 and same and sum("r Retry  b Abort" in row for screen in told.screens for row in screen.rows()) > 1 and things_in(source) == {} and things_in(target) == {"x": before["x"]})


def check_moves(program, base, check):
    """F6, by keys on real files."""
    check_moved_files(program, base, check)
    check_moves_over_files(program, base, check)
    check_moved_links(program, base, check)
    check_moved_folders(program, base, check)
    check_merged_moves(program, base, check)
    check_mount_within(program, base, check)
    check_other_mounts(program, base, check)
    check_barred_moves(program, base, check)
