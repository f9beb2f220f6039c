"""Checks of how the program starts and ends: its words, the terminal, and signals."""
import os
import shutil
import signal
import termios
import time

from terminal_run import DOWN, END, ENTER, F10, F8, KEYS, UP, USAGE, make_file, run
from terminal_screen import Screen


def check_stty(program, base, check):
    """What is asked of `stty`, by one that writes it down."""
    real = shutil.which("stty")
    said = os.path.join(base, "said")
    for asked, broken in [("the modes", ":"), ("nothing", 'test "$1" = -g && exit 1')]:
        folder = os.path.join(base, f"commands of {asked}")
        os.mkdir(folder)
        with open(os.path.join(folder, "stty"), "w") as file:
            file.write(f'#!/bin/sh\necho "$1" >>{said}\n{broken}\nexec {real} "$@"\n')
        os.chmod(file.name, 0o755)
        folders = folder + os.pathsep + os.environ["PATH"]
        for words, want in ([["-x"], 1], [["-e", "a"], 1], [["a", "b", "c"], 1], [["-V"], 0], [["-h"], 0]):
            status, _, _ = run(program, words, [], folders=folders)
            check(f"the words {words} touch no terminal", status == want and not os.path.exists(said))
        status, _, same = run(program, ["/"], [F10], folders=folders)
        with open(said) as file:
            lines = file.read().split()
        os.remove(said)
        ends_sane = lines[-1] == "sane"
        check(f"where stty says {asked}", status == 0 and lines[:2] == ["-g", "size"] and ends_sane != same and len(lines) == 3)


def check_signals(starter, base, check):
    """After a signal the terminal is as it was, and what comes next stands on a line of its own."""

    def below(process):
        with open(f"/proc/{process}/task/{process}/children") as file:
            return [int(number) for number in file.read().split()]

    aims = [
        ("the starter", lambda process, sent: os.kill(process, sent)),
        ("the program", lambda process, sent: os.kill(below(process)[0], sent)),
        ("both", lambda process, sent: os.killpg(process, sent)),
    ]
    to_all = [(sent, aim) for sent in (signal.SIGTERM, signal.SIGHUP, signal.SIGINT) for aim in aims]
    to_starter = [(sent, aims[0]) for sent in (signal.SIGQUIT, signal.SIGPIPE, signal.SIGUSR1, signal.SIGALRM)]
    for sent, (name, aim) in to_all + to_starter:
        status, told, same = run(starter, [base], [DOWN, lambda process: aim(process, sent)])
        ended = status is not None and status > 128
        check(f"{sent.name} to {name}: the terminal is as it was", ended and same and is_given_back(told))
    status, _, same = run(starter, [base], [DOWN, F10])
    check("the starter ends with the program's status", status == 0 and same)
    status, told, same = run(starter, ["-e", "x"], [])
    check("and says what the program says", status == 1 and USAGE in told and same)


def is_given_back(told):
    """Whether the terminal shows a cursor and its first screen, on which no frame was drawn."""
    screen = Screen(*told.size, told.written)
    return screen.first is None and screen.has_cursor and not any("1Help" in row for row in screen.rows())


def modes_of(process):
    """The modes of the terminal on which a process runs."""
    terminal = os.open(f"/proc/{process}/fd/0", os.O_RDONLY | os.O_NOCTTY)
    try:
        return termios.tcgetattr(terminal)
    finally:
        os.close(terminal)


def is_stopped(process):
    """Whether a process comes to a stop within five seconds."""
    for _ in range(50):
        with open(f"/proc/{process}/stat") as file:
            if file.read().rpartition(")")[2].split()[0] == "T":
                return True
        time.sleep(0.1)
    return False


def check_stop(starter, base, check):
    """SIGTSTP gives the terminal back until SIGCONT, behind which it is raw again."""
    seen = {}

    def stop(process):
        seen["raw"] = modes_of(process)
        os.kill(process, signal.SIGTSTP)
        seen["stopped"] = is_stopped(process) and modes_of(process)

    def go_on(process):
        os.kill(process, signal.SIGCONT)

    def look(process):
        seen["again"] = modes_of(process)

    status, told, same = run(starter, [base], [DOWN, stop, go_on, look, UP, F10])
    _, stopped, _, again = (told.screens + [None] * 5)[1:5]
    check("a stop gives the terminal back", stopped.first is None and stopped.has_cursor and seen["stopped"] != seen["raw"])
    check("then it is raw again, on the other screen", again.first is not None and not again.has_cursor and seen["again"] == seen["raw"])
    check("and F10 ends the session", status == 0 and same and is_given_back(told))


def check_words(program, starter, base, check):
    """No words, relative folders, and the words that ask for no session."""
    folder = os.path.join(base, "words")
    os.makedirs(os.path.join(folder, "below"))
    inner = os.path.join(folder, "below")
    for words, there in [([], folder), (["below"], inner), (["./below/../below//"], inner), (["-b", "--", "below"], inner), (["../words"], folder)]:
        make_file(os.path.join(there, "!first"), 1, 0o644)
        status, _, same = run(starter, words, [END, F8, ENTER, F10], inside=folder)
        check(f"{words} start in {os.path.basename(there)}", status == 0 and same and not os.path.exists(os.path.join(there, "!first")))
    status, told, same = run(starter, ["nowhere"], [], inside=folder)
    check("a relative folder is named as it was typed", status == 2 and same and b"mc: nowhere: no such file or folder" in told)
    for words, want, lines in [
        (["-V"], 0, b"mc profile 1\r\n"),
        (["-h"], 0, USAGE + b"\r\n" + KEYS + b"\r\n"),
        (["-V", "-h", "below"], 0, USAGE + b"\r\n" + KEYS + b"\r\n"),
        (["-e", "x"], 1, USAGE + b"\r\n"),
        (["--drill", "1"], 1, USAGE + b"\r\n"),
    ]:
        status, told, same = run(program, words, [], inside=folder)
        check(f"{words} print their lines alone", status == want and same and told.written == lines)


def check_screens(program, base, check):
    """The session stands on the terminal's other screen, without a cursor; a line that is printed in place of one doesn't."""
    status, told, same = run(program, [base], [DOWN, F10])
    during, after = told.screens[0], Screen(*told.size, told.written)
    check("the session stands on the other screen, without a cursor", during.first is not None and not during.has_cursor)
    check("both are given back", status == 0 and same and is_given_back(told) and not after.unread)
    status, told, _ = run(program, ["/nowhere"], [])
    check("a refused start leaves no screen", status == 2 and b"\x1b" not in told.written)
