"""The program on a terminal, as the scripts beside use it: all keys are sent at once, and what the run took is measured."""
import os
import pty
import select
import sys
import time

DOWN, F5, F6, F8, F10, ENTER = b"\x1b[B", b"\x1b[15~", b"\x1b[17~", b"\x1b[19~", b"\x1b[21~", b"\r"
TOP = os.path.dirname(os.path.dirname(os.path.abspath(__file__)))


def built(given=None):
    """The program: the one that is given, or that of this folder."""
    program = os.path.abspath(given) if given else os.path.join(TOP, "crates/mc/out/mc")
    if not os.path.exists(program):
        sys.exit("first: .ci/run")
    return program


def resident(child, before):
    """The most KiB that the program has had in memory so far."""
    try:
        with open(f"/proc/{child}/status") as status:
            for line in status:
                if line.startswith("VmHWM:"):
                    return int(line.split()[1])
    except OSError:
        pass
    return before


def by_keys(program, words, keys, watched=False, around=(), seconds=None):
    """Runs the program on a terminal; all keys are sent at once. Answers milliseconds, status and, if watched, resident KiB.

    `around` are the words of a command that starts the program, as `strace`. After so many `seconds` from the keys on, if they are
    given, the program is killed, and the status is that of the signal.
    """
    begin = time.monotonic()
    child, terminal = pty.fork()
    if child == 0:
        os.environ.update(LINES="24", COLUMNS="80")
        command = [*around, program, *words]
        os.execvp(command[0], command)
    end, status, most = None, None, 0
    while status is None:
        if select.select([terminal], [], [], 0.002)[0]:
            try:
                shown = os.read(terminal, 65536)
            except OSError:
                shown = b""
            if end is None and shown:
                os.write(terminal, b"".join(keys))
                end = time.monotonic() + (seconds or float("inf"))
        if end is not None and watched:
            most = resident(child, most)
        if end is not None and time.monotonic() > end:
            os.kill(child, 9)
        done, how = os.waitpid(child, os.WNOHANG)
        if done:
            status = os.waitstatus_to_exitcode(how)
    os.close(terminal)
    return (time.monotonic() - begin) * 1000, status, most
