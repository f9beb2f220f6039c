"""Checks of jobs in trouble: what is refused, answered, left, and told."""
import os
import stat

from frames import with_box
from terminal_run import (
    COPY, DOWN, EMPTY, END, ENTER, ESCAPE, F10, F5, F7, F8, INSERT, MODE, facts, for_somebody, make_file, run, things_at,
    without_sync,
)


def check_barred_mode(program, base, check):
    """Of what can't be read, a mode that would bar its sync too is refused, and the next job needn't wait."""
    user, program = for_somebody(program, base)
    folder = os.path.join(base, "barred")
    file = os.path.join(folder, "x")
    os.mkdir(folder)
    make_file(file, 2, 0o200)
    make_file(os.path.join(folder, "y"), 2, 0o644)
    if user is not None:
        for path in (folder, file):
            os.chown(path, user, user)
    keys = [DOWN] + MODE + [b"0", b"1", b"0", b"0", ENTER, b"s", DOWN, F8, ENTER, F10]
    status, told, same = run(program, [folder], keys, user=user)
    check("a mode that would bar its sync is refused", b"permission denied" in told and stat.S_IMODE(os.stat(file).st_mode) == 0o200)
    check("and no later job waits for it", status == 0 and same and os.listdir(folder) == ["x"])


def check_closed_folder(program, base, check):
    """A folder that may not be read is refused, over the panel as it was."""
    user, program = for_somebody(program, base)
    top = os.path.join(base, "closed")
    os.makedirs(os.path.join(top, "in"))
    os.chmod(os.path.join(top, "in"), 0o700)
    if user is None:
        os.chmod(os.path.join(top, "in"), 0o000)
    _, told, _ = run(program, [top, top], [DOWN, ENTER, ENTER, F10], user=user)
    before, refused, after = told.screens[1:4]
    box = ["permission denied", os.path.join(top, "in")]
    check("a folder that may not be read is refused", refused.rows() == with_box(before.rows(), box))
    check("and the panel stays as it was", after.rows() == before.rows())


def check_drop_box(program, base, check):
    """A folder that may be written and not read takes a copy, and no later job waits for its sync."""
    user, program = for_somebody(program, base)
    folder, box = os.path.join(base, "source of the box"), os.path.join(base, "box")
    for place in (folder, box):
        os.mkdir(place)
        if user is not None:
            os.chown(place, user, user)
    make_file(os.path.join(folder, "x"), 9, 0o644)
    if user is not None:
        os.chown(os.path.join(folder, "x"), user, user)
    wanted = facts(os.path.join(folder, "x"))
    os.chmod(box, 0o1333)
    keys = [DOWN, F5, ENTER, EMPTY + os.fsencode(box) + b"/", ENTER, F8, ENTER, F10]
    status, told, same = run(program, [folder], keys, user=user)
    os.chmod(box, 0o700)
    check("a folder that may not be read takes a copy", status == 0 and same and things_at(box)[1] == {"x": wanted})
    check("and the next job isn't asked for its sync", os.listdir(folder) == [] and b"permission denied" not in told)


def check_long_path(program, base, check):
    """A path is cut in front in its box."""
    folder = os.path.join(base, "l" * 60, "m" * 60)
    os.makedirs(folder)
    make_file(os.path.join(folder, "x"), 1, 0o644)
    make_file(os.path.join(base, "l" * 60, "x"), 1, 0o644)
    _, told, _ = run(program, [os.path.join(base, "l" * 60), folder], [END, F5, ENTER, ENTER, ENTER, F10, F10])
    rows = [row for screen in told.screens for row in screen.rows()]
    cut = "~" + os.path.join(folder, "x")[-59:]
    check("a long path is cut in front in its box", any(f"| {cut} |" in row for row in rows))


def check_path_too_long(program, base, check):
    """A thing whose path would be too long can't be chosen, nor others with it: a message says so."""
    folder = os.path.join(base, "deep")
    os.mkdir(folder)
    while len(folder) < 3900:
        folder = os.path.join(folder, "d" * min(255, 3900 - len(folder)))
        os.mkdir(folder)
    held = os.open(folder, os.O_RDONLY | os.O_DIRECTORY)
    for name in ["a", "x" * 250]:
        os.close(os.open(name, os.O_WRONLY | os.O_CREAT, 0o644, dir_fd=held))
    for what, chosen in [("alone", [END]), ("with another thing", [DOWN, INSERT, INSERT])]:
        for keys in [[F8], [F5], MODE]:
            status, told, same = run(program, [folder, base], chosen + keys + [ENTER, F10])
            said = b"path too long" in told and status == 0 and same
            check(f"{what} a thing whose path is too long can't be chosen by {keys[-1]!r}", said and len(os.listdir(held)) == 2)
    os.close(held)


def check_dirty_folder(program, base, check):
    """A folder that may be changed and not read can't be synced where there is no `sync`: what an aborted deletion left there comes first."""
    user, program = for_somebody(program, base)
    commands = without_sync(base)

    for name, mode, left in [("left", 0o300, ["y"]), ("mended", 0o700, [])]:
        folder = os.path.join(base, name)
        os.mkdir(folder)
        for file in "xy":
            make_file(os.path.join(folder, file), 2, 0o644)
        os.chmod(folder, 0o700)
        if user is not None:
            os.chown(folder, user, user)
        shut, mended = (lambda _: os.chmod(folder, 0o300)), (lambda _: os.chmod(folder, mode))
        # The look after the abort can't read the folder: Enter closes the message.
        first = [DOWN, F8, shut, ENTER, b"b", ENTER, lambda _: os.chmod(folder, 0o700), DOWN]
        status, told, same = run(program, [folder], first + [F8, mended, ENTER, F10, F10], user=user, folders=commands)
        os.chmod(folder, 0o700)
        what = f"a folder that an aborted job left, of mode {mode:o} then,"
        check(f"{what} comes before the next deletion", status == 0 and same and os.listdir(folder) == left)
        check(f"{what} has its box", b"r Retry  b Abort" in told)


def check_unread_folder(program, base, check):
    """A folder that may not be read is asked about where one around it is copied; where it is skipped, all else is copied."""
    user, program = for_somebody(program, base)
    source, target = (os.path.join(base, f"{side} of an unread one") for side in ("source", "target"))
    top, shut = os.path.join(source, "top"), os.path.join(source, "top", "shut")
    os.makedirs(shut)
    os.mkdir(target)
    files = [os.path.join(*path) for path in ((top, "a"), (shut, "x"), (top, "z"))]
    for path in files:
        make_file(path, 5, 0o640)
    os.chmod(shut, 0o300)
    if user is not None:
        for path in (source, target, top, shut, *files):
            os.chown(path, user, user)
    status, told, same = run(program, [source, target], COPY + [b"s", F10], user=user)
    os.chmod(shut, 0o700)
    file = facts(files[0])
    check("a folder in a copied one that may not be read is asked about", b"permission denied" in told and os.fsencode(shut) in told)
    check("where it is skipped all else is copied", status == 0 and same and things_at(target)[1] == {"top": (0o755, {"a": file, "z": file})})


def file_and_target(base, names, size, user):
    """Two new folders of these names, the first with a file `x` of so many bytes; all are the user's, where one is named."""
    source, target = (os.path.join(base, name) for name in names)
    file = os.path.join(source, "x")
    os.mkdir(source)
    os.mkdir(target)
    make_file(file, size, 0o640)
    if user is not None:
        for path in (source, target, file):
            os.chown(path, user, user)
    return source, target, file


def check_part_left(program, base, check):
    """A part that can't be removed is told; a message is closed by Enter, not by F10."""
    user, program = for_somebody(program, base)
    source, target, _ = file_and_target(base, ("source of a part", "target of a part"), 100000, user)
    shut = lambda _: os.chmod(target, 0o500)
    status, told, same = run(program, [source, target], COPY + [shut, b"b", F10, ENTER, F10], largest=70000, user=user)
    os.chmod(target, 0o700)
    part = os.path.join(target, ".mc.1.0.part")
    is_told = b"| part left " in told and b"| " + part.encode() + b" " in told
    check("a part that stays is told", status == 0 and same and os.path.exists(part) and is_told)
    check("and once more behind the session", told.written.rstrip().endswith(b"mc: part left: " + part.encode()))


def check_list_of_jobs(program, base, check):
    """A trouble whose box was shut is reached by the list of the jobs, and answered."""
    user, program = for_somebody(program, base)
    source, target, file = file_and_target(base, ("listed", "shut"), 5, user)
    os.chmod(target, 0o500)
    listed = [b"\x18", b"j"]
    tried = [F5, ENTER, ENTER, ENTER, F10, F7, b"n", ENTER, ENTER, F10, F8, ENTER, ENTER, F10]
    keys = listed + [ENTER] + COPY + [ESCAPE] + tried + listed + [ENTER, b"b"] + listed + [F10, F10]
    status, told, same = run(program, [source, target], keys, user=user)
    empty, plain, asked, shut, jobs, again, aborted, none = (told.screens[at].rows() for at in (2, 3, 7, 8, 24, 25, 26, 28))
    check("where no job is live the list is empty", empty == with_box(plain, ["Jobs"]) and none == with_box(aborted, ["Jobs"]))
    check("while one is live no other is begun", all(any("too many jobs" in row for row in told.screens[at].rows()) for at in (11, 16, 20)))
    check("and what was typed can be left", all(told.screens[at].rows() == shut for at in (13, 18, 22)))
    check("a live job is listed", jobs == with_box(shut, ["Jobs", f"1 trouble copy {file}"]))
    check("Enter opens its trouble again", any("permission denied" in row for row in asked) and again == asked)
    check("and that is answered", status == 0 and same and os.listdir(target) == [] and not any("in trouble" in row for row in aborted))
