"""What people do at example_sql's terminal, for tools/prompt_checks."""
import os
import re
import shutil
import signal
import sqlite3
import subprocess
import tempfile

from prompt_session import LIMIT, PASTE_END, PASTE_START, ROOT, Session, want

START = f"{ROOT}/tools/at_terminal"
PROGRAM = f"{ROOT}/crates/example_sql/out/example_sql"
# A blank beside a prompt may be a move, where nothing stood before.
PROMPT, GOES_ON = b"sql> ", b"...>"
UP, RIGHT, CTRL_A, CTRL_C, CTRL_D, CTRL_F, CTRL_R = b"\x1b[A", b"\x1b[C", b"\x01", b"\x03", b"\x04", b"\x06", b"\x12"
PEOPLE = b"create table people (id integer primary key, name text);\rinsert into people (name) values ('Ann');\r"
STYLES = re.compile(rb"\x1b\[[0-9;]*m")


class Database(Session):
    """example_sql at a terminal of its own, over a file, with a file of its history where one is named."""

    def __init__(self, path, cols=80, history=None):
        options = ("-history", history) if history else ()
        super().__init__((START, PROGRAM, *options, path), PROGRAM, cols=cols, ready=PROMPT)

    def ask(self, keys, shown):
        """Types keys, wants this text to be shown, and returns all that was shown up to the next prompt."""
        since = len(self.shown)
        self.type(keys)
        self.wait_for(shown, since)
        self.wait_for(PROMPT, self.shown.index(shown, since))
        return self.shown[since:]

    def quit(self):
        """Ends it as people do."""
        self.type(b".quit\r")
        self.end(0)


def kept_in(history):
    """The lines of the file of a history."""
    with open(history, "rb") as file:
        return file.read().splitlines()


def rows_of(path, query):
    """The rows that Python's sqlite3 finds in a file, which has to be whole."""
    connection = sqlite3.connect(path)
    try:
        want(connection.execute("PRAGMA integrity_check").fetchall() == [("ok",)], "the file is not whole")
        return connection.execute(query).fetchall()
    finally:
        connection.close()


def with_file(check):
    """A check of sessions over one file, which begins with none."""
    def run():
        with tempfile.TemporaryDirectory() as room:
            check(f"{room}/some.db")
    run.__name__ = check.__name__
    return run


@with_file
def sql_wide_texts_are_cut(path):
    """A text that is wider than the terminal hides no column behind it."""
    with Database(path, cols=40) as session:
        wide = b"0123456789" * 10
        rows = session.ask(b"select '" + wide + b"' as wide, 'seen' as behind;\r", b"(1 row)")
        want("012345678901234567890123456789…"[:30].encode() in rows and b" | seen\r\n" in rows, f"it shows {rows}")
        session.quit()


def sql_errors_have_pictures():
    """A control character of a script does nothing at the terminal that shows its errors."""
    ran = subprocess.run([PROGRAM, ":memory:"], input=b"select no \x1b]0;title\x07\xc2\x9b;\n", capture_output=True,
                         timeout=LIMIT, check=False)
    want(ran.stderr.startswith(b"line 1: ") and not re.search(rb"[\x00-\x09\x0b-\x1f]|\xc2[\x80-\x9f]", ran.stderr),
         f"it tells {ran.stderr}")


@with_file
def sql_in_a_paste(path):
    """What a terminal reports within a pasted text makes no mark of what is around it: nothing of the text runs."""
    with Database(path) as session:
        session.type(PEOPLE)
        session.type(PASTE_START + b"-- harmless \x1b[20\x1b[5;5R1~\rdrop table people;\r.quit\r" + PASTE_END)
        session.wait_for(b"people;")
        session.ask(CTRL_C + b"select name from people;\r", b"\r\nAnn\r\n")
        session.quit()


@with_file
def sql_of_several_lines(path):
    history = f"{path}-history"
    with Database(path, history=history) as session:
        session.type(b"create table people (\r")
        session.wait_for(GOES_ON)
        session.type(b"id integer primary key,\rname text);\r")
        session.ask(b"insert into people (name) -- one of them\rvalues ('Ann'),\r('Bo'); select * from people;\r",
                    b"id | name\r\n---+-----\r\n 1 | Ann\r\n 2 | Bo\r\n(2 rows)\r\n")
        session.ask(b"select id, name -- all\r from people\rwhere id = 2;\r", b" 2 | Bo\r\n(1 row)\r\n")
        session.ask(UP + b"\r", b" 2 | Bo\r\n(1 row)\r\n")
        session.quit()
    kept = kept_in(history)
    recalled = b"select id, name -- all\\n from people\\nwhere id = 2;"
    want(kept[-3:] == [recalled] * 2 + [b".quit"], f"the history has {kept}")
    want(rows_of(path, "SELECT * FROM people") == [(1, "Ann"), (2, "Bo")], "the rows are not in the file")


@with_file
def sql_quotes_over_lines(path):
    history = f"{path}-history"
    with Database(path, history=history) as session:
        session.ask(b"select 'a\rb' as text;\r", b"a\xe2\x90\x8ab\r\n(1 row)\r\n")
        session.ask(UP + b"\r", b"a\xe2\x90\x8ab\r\n(1 row)\r\n")
        session.quit()
    kept = kept_in(history)
    want(kept == [b"select 'a\\nb' as text;"] * 2 + [b".quit"], f"the history has {kept}")


@with_file
def sql_pasted_rows(path):
    with Database(path) as session:
        session.type(PEOPLE + b"insert into people (name) values ('Bo');\r")
        session.type(PASTE_START + b"delete from people -- careful\rwhere id = 1;" + PASTE_END + b"\r")
        session.ask(b"select count(*) as n from people;\r", b"n\r\n-\r\n1\r\n(1 row)\r\n")
        script = b"create table pets (a);\r\ninsert into pets values (7);\r\nselect a from pets;\r\n"
        session.ask(PASTE_START + script + PASTE_END + b"\r", b"a\r\n-\r\n7\r\n(1 row)\r\n")
        session.quit()
    want(rows_of(path, "SELECT name FROM people") == [("Bo",)], "a comment went on in the next row")


@with_file
def sql_unfinished_statement_is_abandoned(path):
    history = f"{path}-history"
    with open(history, "wb") as file:
        file.write(b"delete from people\n")
    with Database(path, history=history) as session:
        session.type(PEOPLE)
        for end in (CTRL_C, CTRL_D):
            since = len(session.shown)
            session.type(CTRL_R + b"delete\r")
            session.wait_for(GOES_ON, since)
            session.type(end)
        session.end(0)
    want(rows_of(path, "SELECT name FROM people") == [("Ann",)], "a statement ran that has no end")


@with_file
def sql_names_are_completed(path):
    with Database(path) as session:
        session.type(PEOPLE)
        session.ask(b"SELECT NA\t FROM peo\t;\r", b"name\r\n----\r\nAnn\r\n(1 row)\r\n")
        session.ask(b"create table cities (town text);\rsel\t town from cit\t;\r", b"(0 rows)\r\n")
        session.ask(b"drop table cities;\r.tables\r", b"people\r\n")
        session.quit()
    with Database(path) as session:
        session.ask(b"select count(*) as n from peo\t;\r", b"1\r\n(1 row)\r\n")
        session.quit()


@with_file
def sql_columns_of_the_tables_that_are_named(path):
    with Database(path) as session:
        session.type(PEOPLE + b"create table pets (id integer, \"nick name\" text);\r")
        session.ask(b"insert into pets values (1, 'Tom');\r.tables\r", b"people\r\npets\r\n")
        session.ask(b"select  from pets;" + CTRL_A + CTRL_F * 7 + b"n\t\r\r", b"nick name\r\n---------\r\nTom\r\n")
        session.type(b"select id\r")
        session.wait_for(GOES_ON)
        session.ask(b"from people where na\t = 'Ann';\r", b" 1\r\n(1 row)\r\n")
        session.ask(b"select 'na\tn' as text;\r", b"text\r\n")
        session.quit()


@with_file
def sql_names_stand_in_a_menu(path):
    with Database(path) as session:
        session.type(PEOPLE + b"create table pets (id integer, age integer);\r")
        session.ask(b".tables\r", b"people\r\npets\r\n")
        since = len(session.shown)
        session.type(b"select * from pe\t")
        session.wait_for(b"pets", since)
        session.type(b"\t")
        session.ask(b" where id = 1;\r", b"(0 rows)\r\n")
        menus = STYLES.sub(b"", session.shown[since:]).count(b"people  pets")
        want(menus == 2, f"a menu is shown {menus} times in {session.shown[since:]}")
        session.quit()


@with_file
def sql_hint_is_taken(path):
    with Database(path) as session:
        session.type(PEOPLE)
        session.ask(b"select name from people;\r", b"Ann\r\n(1 row)\r\n")
        since = len(session.shown)
        session.type(b"sel")
        session.wait_for(b"ect name from people;", since)
        session.ask(RIGHT + b"\r", b"Ann\r\n(1 row)\r\n")
        session.quit()


@with_file
def sql_error_is_edited(path):
    with Database(path) as session:
        session.tells_errors = True
        session.type(PEOPLE)
        session.ask(b"selct name from people;\r", b"Error: ")
        session.ask(UP + CTRL_A + CTRL_F * 3 + b"e\r", b"Ann\r\n(1 row)\r\n")
        session.quit()


@with_file
def sql_statement_is_abandoned(path):
    with Database(path) as session:
        session.type(PEOPLE + b"delete from people\r")
        session.wait_for(GOES_ON)
        session.type(b"where id" + CTRL_C)
        session.ask(b"select count(*) as n from people;\r", b"n\r\n-\r\n1\r\n(1 row)\r\n")
        session.quit()


@with_file
def sql_size_within_a_line(path):
    with Database(path) as session:
        session.type(b"select 'abcdefghij'")
        session.wait_for(b"j'")
        session.resize(24, 20)
        session.wait_for_size()
        session.ask(b" as a, 'klmnopqrst' as b;\r", "abcdefg… | klmnopq…\r\n(1 row)\r\n".encode())
        session.quit()


@with_file
def sql_end_of_input(path):
    with Database(path) as session:
        session.ask(b"xselect 1 as one;" + CTRL_A + CTRL_D + b"\r", b"  1\r\n(1 row)\r\n")
        session.type(CTRL_D)
        session.end(0)


@with_file
def sql_controls_are_pictures(path):
    connection = sqlite3.connect(path)
    connection.execute("CREATE TABLE t (a /* \x1b]0;title\x07 */, \"nasty\x1b]0;column\x07\")")
    connection.execute("CREATE TABLE \"name\x1b]0;table\x07\" (c)")
    connection.commit()
    connection.close()
    with Database(path) as session:
        session.ask(b"select sql from sqlite_schema where name = 't';\r", b"title")
        session.ask(b"select * from na\t\x15select c from t where na\t\x15.tables\r", b"t\r\n")
        want(b"\x1b]" not in session.shown and b"\x07" not in session.shown, f"a control is sent: {session.shown}")
        session.quit()


@with_file
def sql_signal(path):
    with Database(path) as session:
        session.ask(PEOPLE + b"select * from people;\r", b"(1 row)\r\n")
        session.type(b"insert into people")
        session.wait_for(b"people")
        os.kill(session.child, signal.SIGTERM)
        session.end(143)
    want(rows_of(path, "SELECT name FROM people") == [("Ann",)], "the rows are not in the file")


@with_file
def sql_no_database(path):
    with open(path, "w", encoding="utf-8") as file:
        file.write("no database " * 100)
    session = Session((START, PROGRAM, path), PROGRAM, ready=None)
    with session:
        session.end(1)
        want(path.encode() in session.shown, f"it says {session.shown}")
        want(b"\r" in session.shown[session.shown.rindex(b"\n"):], "the error ends within a row")


def play(path, script, *options, folder=None):
    """Plays a script on a file. Returns how it ended."""
    return subprocess.run([PROGRAM, *options, path], input=script.encode(), capture_output=True, timeout=LIMIT, check=False, cwd=folder)


@with_file
def sql_file_alone_has_all(path):
    copy = f"{path}.copy"
    for end in (".quit", "", "selct;"):
        ran = play(path, f"create table if not exists t (a); insert into t values (1);\n{end}")
        want(ran.returncode == (end == "selct;"), f"the status is {ran.returncode}")
        shutil.copyfile(path, copy)
    want(rows_of(copy, "SELECT a FROM t") == [(1,)] * 3, "a copy of the file lacks rows")
    with Database(path) as session:
        session.ask(b"insert into t values (2);\rselect count(*) as n from t;\r", b"4\r\n(1 row)\r\n")
        session.quit()
    shutil.copyfile(path, copy)
    want(len(rows_of(copy, "SELECT a FROM t")) == 4, "a copy lacks what was typed")


@with_file
def sql_dump_with_triggers(path):
    other = sqlite3.connect(":memory:")
    other.executescript("""create table t (a integer primary key, b text); create table log (c);
        insert into t (b) values ('x; end;'), ('y');
        create trigger seen after insert on t begin insert into log values (new.a); delete from log where c < 0; end;
        create temp trigger passing before delete on t begin select raise(abort, 'no'); end;
        create view v as select a from t;""")
    dump = "".join(f"{line}\n" for line in other.iterdump()).replace("COMMIT;", "insert into log values (7);\nCOMMIT;")
    other.close()
    ran = play(path, dump)
    lines = ran.stderr.decode().splitlines()
    want(ran.returncode == 1 and len(lines) == 1, f"status {ran.returncode}, errors {lines}")
    want("triggers are not supported: CREATE TRIGGER seen" in lines[0], f"it says {lines}")
    want(rows_of(path, "SELECT a, b FROM t") == [(1, "x; end;"), (2, "y")], "the rows differ")
    want(rows_of(path, "SELECT c FROM log") == [(7,)], "a statement of a trigger was run")


@with_file
def sql_errors_of_scripts(path):
    script = "create table t (a);\n\ninsert into u\n  values (1); select 2 as two;\n.nonsense\nselect 3 as last"
    ran = play(path, script)
    want(ran.returncode == 1, f"the status is {ran.returncode}")
    want(ran.stdout == b"two\n---\n  2\n(1 row)\nlast\n----\n   3\n(1 row)\n", f"it wrote {ran.stdout}")
    lines = ran.stderr.decode().splitlines()
    want(len(lines) == 2 and lines[0].startswith("line 3: ") and lines[0].endswith(": insert into u values (1);"), f"errors: {lines}")
    want(lines[1].startswith("line 5: ") and lines[1].endswith(": .nonsense"), f"errors: {lines}")


@with_file
def sql_wrong_arguments(path):
    for words in (["-nonsense", path], [path, "more"], [path, "-bails"], []):
        ran = subprocess.run([PROGRAM, *words], stdin=subprocess.DEVNULL, capture_output=True, timeout=LIMIT, check=False)
        want((ran.returncode, ran.stdout) == (2, b"") and b"usage" in ran.stderr, f"{words}: status {ran.returncode}")
    want(not os.path.exists(path), "the file was made")


def sql_statement_of_many_rows():
    rows = ",\n".join(f"({number})" for number in range(16_000))
    ran = play(":memory:", f"create table t (n integer);\ninsert into t values\n{rows};\nselect count(*) as n from t;\n")
    want((ran.returncode, ran.stderr) == (0, b"") and ran.stdout.split()[-3:] == [b"16000", b"(1", b"row)"], f"it wrote {ran.stdout[-80:]}")


def sql_table_of_many_rows():
    """A table is printed as its rows are read: the program does not keep them."""
    tables = "".join(f"create table {name} (n integer);\ninsert into {name} values {', '.join(f'({n})' for n in range(rows))};\n"
                     for name, rows in (("a", 1_000), ("b", 300)))
    with subprocess.Popen([PROGRAM, ":memory:"], stdin=subprocess.PIPE, stdout=subprocess.PIPE) as started:
        started.stdin.write(f"{tables}select a.n, b.n from a, b;\n".encode())
        started.stdin.flush()
        wrote = 0
        for line in started.stdout:
            wrote += 1
            if line == b"(300000 rows)\n":
                break
        want(wrote == 300_003, f"it wrote {wrote} lines")
        with open(f"/proc/{started.pid}/status", encoding="utf-8") as file:
            most = int(re.search(r"VmHWM:\s+(\d+) kB", file.read()).group(1))
        started.stdin.close()
    want(started.returncode == 0, f"the status is {started.returncode}")
    want(most <= 20_000, f"it took {most} KB")


SQL_CHECKS = [
    sql_of_several_lines, sql_quotes_over_lines, sql_pasted_rows, sql_in_a_paste, sql_wide_texts_are_cut,
    sql_errors_have_pictures, sql_names_are_completed, sql_columns_of_the_tables_that_are_named,
    sql_names_stand_in_a_menu, sql_hint_is_taken, sql_error_is_edited,
    sql_statement_is_abandoned, sql_unfinished_statement_is_abandoned, sql_size_within_a_line, sql_end_of_input,
    sql_controls_are_pictures, sql_signal, sql_no_database, sql_file_alone_has_all, sql_dump_with_triggers,
    sql_errors_of_scripts, sql_wrong_arguments, sql_statement_of_many_rows, sql_table_of_many_rows,
]
