"""Tries the built program on a pseudo-terminal, as a person would: keys in, files looked at afterwards.

Usage: terminal_check.py PROGRAM STARTER. The starter, `./mc`, starts the program and puts the terminal back after a signal.
Needs the standard library of Python 3 alone. What stands on the screen is compared with frames.py, cell by cell.
"""
import os
import shutil
import sys
import tempfile

from build_checks import check_builds
from job_checks import (
    check_copied_folders, check_copies, check_folders, check_kept_folder, check_links, check_modes, check_questions,
    check_new_folders, check_set_id_bits,
)
from key_checks import check_keys_of_terminals, check_redraw
from merge_checks import check_merged_folders
from move_checks import check_moves
from panel_box_checks import check_big_home, check_panel_boxes
from screen_checks import check_find, check_frames, check_panels, check_viewer
from several_checks import check_several_things
from start_checks import check_screens, check_signals, check_stop, check_stty, check_words
from sync_checks import check_syncs
from terminal_run import DOWN, ENTER, F10, F8, USAGE, run
from trouble_checks import (
    check_barred_mode, check_closed_folder, check_dirty_folder, check_drop_box, check_list_of_jobs, check_long_path,
    check_part_left, check_path_too_long, check_unread_folder,
)


def main():
    program, starter = os.path.abspath(sys.argv[1]), os.path.abspath(sys.argv[2])
    base = os.environ["HOME"] = tempfile.mkdtemp()
    passed, failed = 0, 0

    def check(name, holds):
        nonlocal passed, failed
        if holds:
            passed += 1
        else:
            failed += 1
            print("FAILED:", name)

    try:
        folder = os.path.join(base, "a")
        os.mkdir(folder)
        with open(os.path.join(folder, "x"), "w") as file:
            file.write("hi")
        status, _, same = run(program, [folder], [DOWN, F8, F10, F10])
        check("a box that is shut deletes nothing", status == 0 and os.listdir(folder) == ["x"] and same)
        status, told, same = run(program, [folder], [DOWN, F8, ENTER, F10])
        check("the status is 0", status == 0)
        check("the name was shown", b"x" in told)
        check("the file is deleted", os.listdir(folder) == [])
        check("the terminal is as it was", same)

        check_folders(program, base, check)
        check_kept_folder(program, base, check)
        check_copies(program, base, check)
        check_questions(program, base, check)
        check_copied_folders(program, base, check)
        check_several_things(program, base, check)
        check_merged_folders(program, base, check)
        check_moves(program, base, check)
        check_frames(program, base, check)
        check_viewer(program, base, check)
        check_keys_of_terminals(program, base, check)
        check_redraw(program, base, check)
        check_find(program, base, check)
        check_panels(program, base, check)
        check_panel_boxes(program, base, check)
        check_big_home(program, base, check)
        check_new_folders(program, base, check)
        check_links(program, base, check)
        check_modes(program, base, check)
        check_barred_mode(program, base, check)
        check_closed_folder(program, base, check)
        check_drop_box(program, base, check)
        check_long_path(program, base, check)
        check_path_too_long(program, base, check)
        check_dirty_folder(program, base, check)
        check_unread_folder(program, base, check)
        check_part_left(program, base, check)
        check_list_of_jobs(program, base, check)
        check_set_id_bits(program, base, check)
        check_syncs(program, base, check)
        check_stty(program, base, check)
        check_words(program, starter, base, check)
        check_screens(program, base, check)
        check_signals(starter, base, check)
        check_stop(starter, base, check)
        check_builds(starter, base, check)

        for words, want, line in [
            ([os.path.join(base, "nowhere")], 2, b"no such file or folder"),
            (["/nowhere"], 2, b"mc: /nowhere: no such file or folder"),
            (["/no\x1b[31mwhere\n"], 2, b"mc: /no?[31mwhere?: no such file or folder"),
            ([os.path.join(base, "file")], 2, b"not a folder"),
            (["-x"], 1, USAGE),
            (["-b", "-b"], 1, USAGE),
            ([folder, folder, folder], 1, USAGE),
            ([folder, "relative"], 2, b"mc: relative: no such file or folder"),
            ([folder, "/nowhere"], 2, b"mc: /nowhere: no such file or folder"),
            ([b"/\xff".decode("utf-8", "surrogateescape")], 1, USAGE),
        ]:
            if words and words[0].endswith("/file"):
                open(words[0], "w").close()
            status, told, same = run(program, words, [])
            check(f"{words} ends with {want}", status == want and line in told and same)
    finally:
        shutil.rmtree(base)
    print(f"terminal: {passed} passed, {failed} failed")
    return 1 if failed else 0


sys.exit(main())
