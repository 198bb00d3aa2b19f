"""What happens to the file of a history of example_sql, for tools/prompt_checks."""
import os
import resource
import signal
import stat
import subprocess
import time

from prompt_session import want
from sql_cases import PEOPLE, PROGRAM, UP, Database, kept_in, with_file

# A file of a history: a line, one that is not UTF-8, one with a wrong escape, and one that is cut off, and what ends that.
DAMAGED = b"select 'kept';\nselect '\xff';\nselect '\\q';\nselect 'cut o"
CUT_END = b"\\-\\"
# How many lines example_sql keeps.
KEPT = 1000


@with_file
def sql_history_is_kept(path):
    history = f"{path}-history"
    with Database(path, history=history) as session:
        session.type(PEOPLE)
        session.type(b"select name\rfrom people;\r")
        session.ask(b"select 'a\\b' as text;\r", b"a\\b\r\n(1 row)\r\n")
        session.quit()
    with open(history, "ab") as file:
        file.write(b"select 'cut off")
    with Database(path, history=history) as session:
        want(session.shown.count(b"lines that can't be read: 1\r\n") == 1, f"it says {session.shown}")
        session.ask(UP + UP + UP + b"\r", b"Ann\r\n(1 row)\r\n")
        session.quit()
    kept = kept_in(history)
    want(kept == PEOPLE.split(b"\r")[:2] + [b"select name\\nfrom people;", b"select 'a\\\\b' as text;", b".quit",
                                            b"select 'cut off" + CUT_END, b"select name\\nfrom people;", b".quit"],
         f"the file has {kept}")
    with Database(path, history=history) as session:
        session.ask(UP + UP + b"\r", b"Ann\r\n(1 row)\r\n")
        session.quit()


def go_on_in_memory(path, history, told):
    """Wants a text to be told once, that the history can't be written too, and that it goes on in memory."""
    with Database(path, history=history) as session:
        for text in (told, b"the history can't be written"):
            want(session.shown.count(text) == 1, f"it says {session.shown}")
        session.type(PEOPLE)
        session.ask(b"select name from people;\r", b"Ann\r\n(1 row)\r\n")
        session.ask(UP + b"\r", b"Ann\r\n(1 row)\r\n")
        want(session.shown.count(b"the history can't be written") == 1, "it says so twice")
        session.type(b"drop table people;\r")
        session.quit()


@with_file
def sql_history_that_is_not_written(path):
    go_on_in_memory(path, f"{path}-none/history", b"it is kept up to the end of the session")


@with_file
def sql_history_that_is_a_folder(path):
    os.mkdir(f"{path}-history")
    go_on_in_memory(path, f"{path}-history", b"the history: the file can't be read")
    want(os.listdir(f"{path}-history") == [], "something is written into it")


@with_file
def sql_history_that_is_not_read(path):
    history = f"{path}-history"
    os.symlink(history, f"{path}-loop")
    os.symlink(f"{path}-loop", history)
    for refused in (history, "/proc/self/mem"):
        go_on_in_memory(path, refused, b"the history: the file can't be read")
    if os.geteuid() != 0:
        with open(f"{path}-closed", "wb") as file:
            file.write(DAMAGED)
        os.chmod(f"{path}-closed", 0o200)
        go_on_in_memory(path, f"{path}-closed", b"the history: the file can't be read")
        want(os.path.getsize(f"{path}-closed") == len(DAMAGED), "it is written")


@with_file
def sql_history_that_is_damaged(path):
    history = f"{path}-history"
    with open(history, "wb") as file:
        file.write(DAMAGED)
    with Database(path, history=history) as session:
        want(session.shown.count(b"the history: lines that can't be read: 3\r\n") == 1, f"it says {session.shown}")
        session.ask(UP + b"\r", b"kept\r\n(1 row)\r\n")
        session.quit()
    with open(history, "rb") as file:
        kept = file.read()
    want(kept == DAMAGED + CUT_END + b"\nselect 'kept';\n.quit\n", f"the file has {kept}")


@with_file
def sql_history_is_private(path):
    history = f"{path}-history"
    for mode in (0o600, 0o640):
        with Database(path, history=history) as session:
            session.ask(b"select 1 as one;\r", b"  1\r\n(1 row)\r\n")
            session.quit()
        found = stat.S_IMODE(os.stat(history).st_mode)
        want(found == mode, f"its mode is {found:o}, and not {mode:o}")
        os.chmod(history, 0o640)


@with_file
def sql_history_that_is_no_file(path):
    os.mkfifo(f"{path}-fifo")
    os.symlink(f"{path}-fifo", f"{path}-link")
    for refused in (f"{path}-fifo", f"{path}-link", "/dev/zero", "/dev/null"):
        go_on_in_memory(path, refused, b"the history: the file can't be read")


@with_file
def sql_history_with_empty_lines(path):
    history = f"{path}-history"
    with open(history, "wb") as file:
        file.write(b"\n\nselect 'kept';\n\n\n")
    with Database(path, history=history) as session:
        want(b"the history:" not in session.shown, f"it says {session.shown}")
        session.ask(UP + b"\r", b"kept\r\n(1 row)\r\n")
        session.quit()


def write_lines(history, texts):
    """Writes the file of a history."""
    with open(history, "w", encoding="utf-8") as file:
        file.writelines(f"{text}\n" for text in texts)


@with_file
def sql_history_of_a_million_lines(path):
    history = f"{path}-history"
    used = []
    for count in (0, 1_000_000):
        for number in (lambda line: line, lambda line: line % 700, lambda line: 7):
            write_lines(history, (f"select {number(line)} as n;" for line in range(count)))
            before = resource.getrusage(resource.RUSAGE_CHILDREN)
            with Database(path, history=history) as session:
                session.quit()
            after = resource.getrusage(resource.RUSAGE_CHILDREN)
            used.append(sum(after[:2]) - sum(before[:2]))
    for more in (it - min(used[:3]) for it in used[3:]):
        want(more < 0.2, f"it takes {more:.2f} seconds more than without lines")


@with_file
def sql_history_of_long_lines(path):
    history = f"{path}-history"
    with open(history, "wb") as file:
        # a line of 500 MB, which takes no room
        file.write(b"select 'kept';\n")
        file.seek(500_000_000)
        file.write(b"\nselect 'last';\n")
    with Database(path, history=history) as session:
        session.ask(UP + b"\r", b"last\r\n(1 row)\r\n")
        session.quit()
        peak = resource.getrusage(resource.RUSAGE_CHILDREN).ru_maxrss
        want(peak < 300_000, f"it takes {peak} KB of memory")


@with_file
def sql_history_is_written_anew(path):
    """A file that is several times as long as what is kept is written anew, and a link to it stays one."""
    history, link = f"{path}-history", f"{path}-link"
    lines = [f"select {line % 3000} as n;" for line in range(10_000)]
    write_lines(history, lines)
    os.chmod(history, 0o640)
    os.symlink(history, link)
    with Database(path, history=link) as session:
        session.ask(UP + b"\r", b"999\r\n(1 row)\r\n")
        session.quit()
    kept = [it.decode() for it in kept_in(history)]
    want(kept == lines[-KEPT:] + [lines[-1], ".quit"], f"the file has {len(kept)} lines: {kept[:3]} .. {kept[-3:]}")
    want(os.path.islink(link) and stat.S_IMODE(os.stat(history).st_mode) == 0o640, "it is another file now")
    left = [it for it in os.listdir(os.path.dirname(path)) if it.endswith("being-written")]
    want(not left, f"left behind: {left}")


@with_file
def sql_history_of_two_sessions(path):
    """A file that another session has open is not written anew: what that one writes is not lost."""
    history = f"{path}-history"
    with Database(f"{path}-first", history=history) as first:
        first.ask(b"select 'before' as text;\r", b"before\r\n(1 row)\r\n")
        with open(history, "ab") as file:
            file.write(b"".join(b"select %d as n;\n" % line for line in range(10_000)))
        with Database(f"{path}-second", history=history) as second:
            second.ask(UP + b"\r", b"9999\r\n(1 row)\r\n")
            first.ask(b"select 'meanwhile' as text;\r", b"meanwhile\r\n(1 row)\r\n")
            second.quit()
        want(len(kept_in(history)) == 10_004, f"the file has {len(kept_in(history))} lines")
        first.quit()
    with Database(f"{path}-third", history=history) as third:
        third.quit()
    kept = kept_in(history)
    want(len(kept) == KEPT + 1 and b"select 'meanwhile' as text;" in kept, f"the file has {len(kept)} lines: {kept[-5:]}")


@with_file
def sql_history_that_is_locked(path):
    history = f"{path}-history"
    write_lines(history, ["select 'kept' as text;"])
    keeper = subprocess.Popen(["flock", "-x", history, "sleep", "20"])
    time.sleep(0.3)
    try:
        with Database(path, history=history) as session:
            want(session.shown.count(b"the history can't be written") == 1, f"it says {session.shown}")
            session.ask(UP + b"\r", b"kept\r\n(1 row)\r\n")
            session.quit()
    finally:
        keeper.kill()
        keeper.wait()
    want(kept_in(history) == [b"select 'kept' as text;"], "it is written")


HISTORY_CHECKS = [
    sql_history_is_kept, sql_history_that_is_not_written, sql_history_that_is_a_folder, sql_history_that_is_not_read,
    sql_history_that_is_damaged, sql_history_is_private, sql_history_that_is_no_file, sql_history_with_empty_lines,
    sql_history_of_a_million_lines, sql_history_of_long_lines, sql_history_is_written_anew, sql_history_of_two_sessions,
    sql_history_that_is_locked,
]
