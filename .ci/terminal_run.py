"""Runs the built program on a pseudo-terminal: the keys, what it told, and what stands on the disk afterwards."""
import fcntl
import os
import pty
import resource
import select
import shutil
import signal
import stat
import struct
import termios
import time

from frames import LONG_AGO
from terminal_screen import Screen

UP, DOWN, HOME, END, TAB, INSERT = b"\x1b[A", b"\x1b[B", b"\x1b[H", b"\x1b[F", b"\t", b"\x1b[2~"
BACK, FORWARD, AGAIN, SWAP = b"\x1by", b"\x1bu", b"\x12", b"\x15"
F1, F3, F5, F6, F7, F8, F9, F10, ENTER, ESCAPE = b"\x1bOP", b"\x1bOR", b"\x1b[15~", b"\x1b[17~", b"\x1b[18~", b"\x1b[19~", b"\x1b[20~", b"\x1b[21~", b"\r", b"\x1b\x1b"
EMPTY, HIDDEN, FIND = b"\x15", b"\x1b.", b"\x1b?"
LINK, MODE = [b"\x18", b"s"], [b"\x18", b"c"]
COPY = [DOWN, F5, ENTER, ENTER]
USAGE = b"usage: mc [-b] [-V] [-h] [-P FILE] [-v FILE | -e FILE | --drill N | DIR1 [DIR2]]"
KEYS = b"F1 help  F2 menu  F3 view  F4 edit  F5 copy  F6 move  F7 mkdir  F8 delete  F9 options  F10 quit"
HELP = [
    "usage: mc [-b] [-V] [-h] [-P FILE]",
    "       [-v FILE | -e FILE | --drill N | DIR1 [DIR2]]",
    "F1 help  F2 menu  F3 view  F4 edit  F5 copy",
    "F6 move  F7 mkdir  F8 delete  F9 options  F10 quit",
]
PATIENCE = 20.0
SOMEBODY = 65534


def read_some(terminal, seconds):
    ready, _, _ = select.select([terminal], [], [], seconds)
    if not ready:
        return b""
    try:
        return os.read(terminal, 65536)
    except OSError:  # the other side is closed
        return b""


def own_terminal(size):
    """A terminal with settings that `stty sane` takes away: text of UTF-8, and an erase key of the user's own."""
    ours, theirs = pty.openpty()
    fcntl.ioctl(theirs, termios.TIOCSWINSZ, struct.pack("HHHH", *size, 0, 0))
    modes = termios.tcgetattr(theirs)
    modes[0] |= getattr(termios, "IUTF8", 0x4000)
    modes[6][termios.VERASE] = b"\x08"
    termios.tcsetattr(theirs, termios.TCSANOW, modes)
    return ours, theirs, termios.tcgetattr(theirs)


def start(program, words, ours, theirs, largest=None, user=None, folders=None, inside=None, surroundings=()):
    """Starts the program on a terminal, of which it is the session's leader."""
    child = os.fork()
    if child != 0:
        return child
    try:
        os.close(ours)
        os.setsid()
        for stream in (0, 1, 2):
            os.dup2(theirs, stream)
        fcntl.ioctl(0, termios.TIOCSCTTY, 0)
        os.close(theirs)
        signal.signal(signal.SIGPIPE, signal.SIG_DFL)  # Python ignores it, and a shell can't trap what was ignored before it
        if largest is not None:
            signal.signal(signal.SIGXFSZ, signal.SIG_IGN)
            resource.setrlimit(resource.RLIMIT_FSIZE, (largest, largest))
        if user is not None:
            os.setgroups([])
            os.setgid(user)
            os.setuid(user)
        if folders is not None:
            os.environ["PATH"] = folders
        if inside is not None:
            os.chdir(inside)
        for name in ("LINES", "COLUMNS"):
            os.environ.pop(name, None)
        os.environ.update(surroundings)
        os.execv(program, [program] + words)
    finally:  # a child that can't become the program goes no further
        os._exit(127)


class Told:
    """What a run told: the bytes that it wrote, and at each moment at which it was quiet their number, and the screen."""

    def __init__(self, size):
        self.size, self.written, self.counts, self.screens = size, b"", [], []

    def keep(self):
        self.counts.append(len(self.written))
        self.screens.append(Screen(*self.size, self.written))

    def __contains__(self, text):
        """Whether a text was printed, or stood in a row."""
        return text in self.written or any(text.decode() in row for screen in self.screens for row in screen.rows())


def run(program, words, keys, size=(24, 80), patience=PATIENCE, **settings):
    """Runs the program on a terminal of its own; each key is sent once the screen has been quiet for a moment.

    Answers the exit status, what it told, and whether the terminal is as it was. In place of a key may stand what is to be
    done then; it is given the number of the process. With `largest` no file of the program may have more bytes than that;
    with `user` it runs as that user; `folders` is where it looks for commands; it runs `inside` a folder, with these
    `surroundings`.
    """
    ours, theirs, before = own_terminal(size)
    child = start(program, words, ours, theirs, **settings)
    told, status, waiting = Told(size), None, list(keys)
    end = time.monotonic() + patience
    while status is None and time.monotonic() < end:
        got = read_some(ours, 0.2)
        told.written += got
        if not got and waiting and told.written:
            told.keep()
            key = waiting.pop(0)
            if callable(key):
                key(child)
            else:
                os.write(ours, key)
        done, how = os.waitpid(child, os.WNOHANG)
        if done:
            status = os.waitstatus_to_exitcode(how)
    if status is None:
        os.kill(child, 9)
        os.waitpid(child, 0)
    same = termios.tcgetattr(theirs) == before
    while True:
        got = read_some(ours, 0.1)
        if not got:
            break
        told.written += got
    os.close(ours)
    os.close(theirs)
    return status, told, same


def screens_of(program, words, keys, size, **settings):
    """The screen after each of these keys, and how many bytes each took; then the program is ended."""
    status, told, same = run(program, words, keys + [F10], size, **settings)
    return status, told.screens, same


def left_panel(screen):
    """What stands on the screen of the left panel: its folder, its rows without blanks at the end, and the current name."""
    rows = [row[1:39].rstrip() for row in screen.rows()]
    return rows[0].rstrip("-"), [row for row in rows[2:20] if row], rows[20]


def make_file(path, size, mode):
    with open(path, "wb") as file:
        file.write(bytes(i % 251 for i in range(size)))
    os.chmod(path, mode)
    os.utime(path, (LONG_AGO, LONG_AGO))


def facts(path):
    """The bytes and the mode of a file, or none where it isn't there."""
    if not os.path.exists(path):
        return None
    with open(path, "rb") as file:
        return file.read(), stat.S_IMODE(os.stat(path).st_mode)


def things_at(path):
    """What stands at a path: the mode and the bytes of a file, the text of a link, the mode of a folder and what lies in it."""
    mode = os.lstat(path).st_mode
    if stat.S_ISLNK(mode):
        return os.readlink(path)
    if stat.S_ISDIR(mode):
        return stat.S_IMODE(mode), {name: things_at(os.path.join(path, name)) for name in os.listdir(path)}
    return facts(path) if stat.S_ISREG(mode) else "special"


def without_sync(base):
    """A folder of commands in which the program finds all that it runs but `sync`: there a folder that may not be read can't be synced."""
    folder = os.path.join(base, "commands without sync")
    if not os.path.isdir(folder):
        os.mkdir(folder)
        for name in ("sh", "stty"):
            os.symlink(shutil.which(name), os.path.join(folder, name))
    return folder


def for_somebody(program, base):
    """Somebody as whom the program runs where this is root, who may read and remove all; and the program where he may run it."""
    if os.geteuid() != 0:
        return None, program
    os.chmod(base, 0o755)
    copy = shutil.copy(program, os.path.join(base, "program"))
    os.chmod(copy, 0o755)
    return SOMEBODY, copy
