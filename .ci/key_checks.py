"""Checks of the keys as terminals spell them."""
import os

from terminal_run import DOWN, ENTER, F10, F3, F8, make_file, run

# How terminals spell F1, F3, Home and End, as their terminfo has it.
SPELLINGS = {
    "xterm": (b"\x1bOP", b"\x1bOR", b"\x1bOH", b"\x1bOF"),
    "tmux": (b"\x1bOP", b"\x1bOR", b"\x1b[1~", b"\x1b[4~"),
    "putty": (b"\x1b[11~", b"\x1b[13~", b"\x1b[1~", b"\x1b[4~"),
    "rxvt": (b"\x1b[11~", b"\x1b[13~", b"\x1b[7~", b"\x1b[8~"),
}


def check_keys_of_terminals(program, base, check):
    """F1, F3, Home and End of each terminal do what they do on xterm."""
    folder = os.path.join(base, "keys of terminals")
    os.mkdir(folder)
    for name in ("a", "b"):
        make_file(os.path.join(folder, name), 3, 0o644)
    wanted = None
    for name, (help_key, view, home, end) in SPELLINGS.items():
        keys = [end, home, help_key, ENTER, end, view, F10, F10]
        status, told, same = run(program, [folder], keys)
        screens = [screen.rows() for screen in told.screens]
        wanted = wanted or screens
        check(f"{name} spells F1, F3, Home and End", status == 0 and same and screens == wanted and len(set(map(tuple, screens))) == 4)


def write_over(process):
    """Writes over the terminal of a process, as another program would."""
    terminal = os.open(f"/proc/{process}/fd/1", os.O_WRONLY | os.O_NOCTTY)
    os.write(terminal, b"\x1b[3;5H\x1b[7m# # #\x1b[20;1Hfrom others")
    os.close(terminal)


def check_redraw(program, base, check):
    """C-l draws all anew, in each mode and box, and takes C-x back."""
    folder = os.path.join(base, "drawn anew")
    os.mkdir(folder)
    make_file(os.path.join(folder, "a"), 300, 0o644)
    for name, keys, end in [
        ("in the panels", [DOWN], [F10]),
        ("in a box", [DOWN, F8], [F10, F10]),
        ("in a line", [b"+", b"x"], [F10, F10]),
        ("in the viewer", [DOWN, F3], [F10, F10]),
        ("behind a message", [b"\x1b?", b"\x15", b"/nowhere", ENTER, ENTER, ENTER], [ENTER, F10, F10]),
    ]:
        status, told, same = run(program, [folder], [*keys, write_over, b"\x0c", *end])
        before, disturbed, anew = [(screen.rows(), [screen.looks(row + 1) for row in range(24)]) for screen in told.screens[len(keys) : len(keys) + 3]]
        check(f"C-l draws all anew {name}", status == 0 and same and anew == before != disturbed)
    status, told, same = run(program, [folder], [DOWN, b"\x18", b"\x0c", b"c", F10])
    check("C-l takes C-x back", status == 0 and same and told.screens[4].rows() == told.screens[1].rows())
