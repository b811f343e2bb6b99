"""Cases of files whose offsets are kept in a database (`DB`) while the program is killed, is down, or shares the database."""
import collections
import os
import random
import shutil
import sqlite3
import subprocess
import tempfile
import threading
import time

from live_followed import LOGROTATE, come, configuration, is_once_in_order, rename, write, written
from live_room import PATIENCE, Collector, Program, free_port, holds, until
from live_stored import KILLS, chunks_in, killed

IN_FILES = """    storage.path chunks
    storage.sync full
"""
WITH_DB = """    DB offsets
    storage.type filesystem
"""
# The bytes of each line, and the most that a turn reads of a file.
LENGTH, MOST_READ = len(b"line 0000000\n"), 1_048_576
KEEPER_FAULT = 11


def lines_of(first, end):
    return b"".join(b"line %07d\n" % number for number in range(first, end))


def append(room, program, data, name="app.log"):
    with open(program.path(name), "ab") as file:
        file.write(data)
    room.give(program.folder)


def offset_in(program, database="offsets", path="app.log"):
    """The offset that a database has for a path; None if it has none, or is only half made. sqlite3 gets a copy, as it changes the
    files."""
    with tempfile.TemporaryDirectory() as folder:
        for end in ("", "-wal"):
            if os.path.exists(program.path(database + end)):
                shutil.copyfile(program.path(database + end), f"{folder}/{database}{end}")
        connection = sqlite3.connect(f"{folder}/{database}")
        try:
            row = connection.execute("SELECT place FROM place WHERE path = ?", (path,)).fetchone()
        except sqlite3.DatabaseError:
            row = None
        finally:
            connection.close()
    return row and row[0]


class Writer:
    """Appends numbered lines to a file, a few or many at a time and cut anywhere, until it is stopped."""

    def __init__(self, path):
        self.path, self.lines, self.stopping = path, 0, False
        self.thread = threading.Thread(target=self.work, daemon=True)
        self.thread.start()

    def work(self):
        chance, rest = random.Random(11), b""
        with open(self.path, "ab", buffering=0) as file:
            while not self.stopping:
                first = self.lines
                self.lines += 4_000 if chance.random() < 0.01 else chance.randrange(1, 20)
                rest += lines_of(first, self.lines)
                cut = chance.randrange(len(rest) + 1)
                file.write(rest[:cut])
                rest = rest[cut:]
                time.sleep(0.002)
            file.write(rest)

    def stop(self):
        self.stopping = True
        self.thread.join(PATIENCE)
        return self.lines


def killed_again_and_again(room, text):
    """The program is killed at random moments while its file grows, of which every third one is after a put. Returns the number of
    lines, and the offset after each kill."""
    chance, offsets = random.Random(7), [None]
    folder = os.path.join(room.path, "follower")
    os.makedirs(folder)
    writer = Writer(os.path.join(folder, "app.log"))
    for turn in range(KILLS):
        with Program(room, "follower", text) as program:
            if turn % 3 == 2:
                until(lambda: (offset_in(program) or 0) > (offsets[-1] or 0), "an offset is put", 20)
            time.sleep(0.6 * chance.random())
            holds(program.process.poll() is None, f"the program ended early: {program.stderr().decode(errors='replace')}")
            killed(program)
        offsets.append(offset_in(program))
    return writer.stop(), offsets[1:]


def look_at_offsets(offsets):
    known = [offset for offset in offsets if offset is not None]
    holds(known, f"no offset was put in {KILLS} runs")
    holds(known == offsets[len(offsets) - len(known) :], f"an offset is gone: {offsets}")
    holds(known == sorted(known), f"offsets fall: {offsets}")
    holds(all(offset % LENGTH == 0 for offset in known), f"an offset is within a line: {offsets}")


def look_at_repeats(numbers, offsets):
    """A line comes again only after a kill, if it is behind the offset then, and in what one turn reads from there."""
    counts = collections.Counter(numbers)
    begun = [offset or 0 for offset in offsets]
    for number, times in counts.items():
        at = number * LENGTH
        struck = sum(offset <= at < offset + MOST_READ for offset in begun) if times > 1 else 0
        holds(times <= 1 + struck, f"line {number} at {at} came {times} times, with kills at offsets {offsets}")
    return sum(times - 1 for times in counts.values())


def a_follower_is_killed(room):
    """Each line comes at least once, however often the program is killed. Nobody listens meanwhile, so chunks stay in files."""
    port = free_port()
    text = configuration(port, IN_FILES, WITH_DB)
    lines, offsets = killed_again_and_again(room, text)
    look_at_offsets(offsets)
    collector = Collector(port)
    collector.open()
    with Program(room, "follower", text) as program:
        until(lambda: len(set(come(collector))) >= lines, f"all {lines} lines come", 60)
        until(lambda: not chunks_in(program), "no file of a chunk is left", 60)
        status = program.stop()
    collector.close()
    holds(status == 0, f"status {status}: {program.stderr().decode(errors='replace')}")
    numbers = come(collector)
    holds(set(numbers) == set(range(lines)), f"of {lines} lines {len(set(numbers))} came")
    repeats = look_at_repeats(numbers, offsets)
    holds(offset_in(program) == lines * LENGTH, f"the last offset is {offset_in(program)}, of {lines * LENGTH}")
    print(f"live a_follower_is_killed: {lines} lines, {repeats} came again after {KILLS} kills", flush=True)


PRINTED = """[SERVICE]
    Flush 0.2
[INPUT]
    Name tail
    Path {path}
    DB {db}
    Read_from_Head On
    Tag app
[INPUT]
    Name stdin
    Tag end
[OUTPUT]
    Name stdout
    Match app
"""


def is_refused(program, reason):
    """The run has ended with the status of a keeper fault, wrote no report, and told the reason."""
    status, told = program.end(), program.stderr().decode().splitlines()
    holds(status == KEEPER_FAULT, f"status {status}, wanted {KEEPER_FAULT}: {told}")
    holds(told[-1] == "keeper fault" and program.stdout() == b"", f"standard error has {told}, standard output {program.stdout()!r}")
    reasons = [line for line in told[:-1] if "[error] [files] offsets of followed files aren't kept in " in line]
    holds(len(reasons) == 1 and reason in reasons[0], f"the reason isn't told: {told}")


def a_database_has_one_run(room):
    """While a run has the database, another one is refused. It gets the database after the first has ended."""
    with Program(room, "first", PRINTED.format(path="app.log", db="offsets"), files={"app.log": "line 1\n"}) as first:
        until(lambda: b"line 1" in first.stdout(), "the first run reads", 20)
        text = PRINTED.format(path="other.log", db=first.path("offsets"))
        with Program(room, "second", text, files={"other.log": "line 2\n"}) as second:
            is_refused(second, f"{first.path('offsets')}: database is locked")
        holds(first.process.poll() is None, "the first run ended")
        killed(first)
    with Program(room, "second", text) as second:
        until(lambda: b"line 2" in second.stdout(), "the second run reads", 20)
        holds(second.stop() == 0, f"it ended with {second.stderr().decode(errors='replace')}")
    holds((offset_in(first), offset_in(first, path="other.log")) == (7, 7), "both offsets are in the database")


def an_offset_is_forgotten(room):
    """sqlite3 removes an offset when no run has the database. Then the file is read as one that is new."""
    text = PRINTED.format(path="app.log", db="offsets")
    for turn, lines in enumerate((b"line 1\n", b"line 2\n", b"line 3\n")):
        with Program(room, "forgotten", text) as program:
            append(room, program, lines)
            until(lambda: b"line %d" % (turn + 1) in program.stdout(), "the new line comes", 20)
            status, came = program.stop(), program.stdout()
        holds(status == 0, f"status {status}: {program.stderr().decode(errors='replace')}")
        holds((b"line 1" in came) == (turn != 1), f"run {turn} printed {came!r}")
        if turn == 1:
            connection = sqlite3.connect(program.path("offsets"))
            with connection:
                connection.execute("DELETE FROM place WHERE path = 'app.log'")
            connection.close()


def what_is_no_database(room):
    """The run ends at its start, and says why."""
    databases = {"a_folder": ".", "in_no_folder": "none/offsets", "without_rights": "shut/offsets", "text": "app.log"}
    for name, db in databases.items():
        os.makedirs(os.path.join(room.path, name, "shut"), exist_ok=True)
        os.chmod(os.path.join(room.path, name, "shut"), 0o500)
        with Program(room, name, PRINTED.format(path="app.log", db=db), files={"app.log": "line 1\n" * 1_000}) as program:
            is_refused(program, f" aren't kept in {db}: ")


def rotate_by_hand(room, program, how, first):
    """Appends 500 lines and rotates, as the program is down. Returns the number of the next line."""
    if how == "copied and truncated":
        shutil.copyfile(program.path("app.log"), program.path("app.log.1"))
        os.truncate(program.path("app.log"), 0)
        return first
    append(room, program, lines_of(first, first + 500))
    if how != "nothing":
        rename(program)
    return first + 500


def rotate_by_logrotate(tool, how):
    def rotate(room, program, _how, first):
        if how != "copytruncate":
            append(room, program, lines_of(first, first + 500))
            first += 500
        os.chmod(program.folder, 0o755)
        with open(program.path("rotate.conf"), "w") as file:
            file.write(LOGROTATE.format(log=program.path("app.log"), how=how + (" 0644" if how == "create" else ""), su="su root root" if os.geteuid() == 0 else "", script=""))
        os.chmod(program.path("rotate.conf"), 0o644)
        subprocess.run([tool, "-f", "-s", program.path("rotate.state"), program.path("rotate.conf")], check=True)
        return first

    return rotate


def down_and_rotated(room, name, how, rotate, more, ends):
    """A run reads 1,000 lines and ends. Then the file is rotated, and `more` lines stand in the new one. The next run reads all of
    them, in order, and none again."""
    collector = Collector(free_port())
    collector.open()
    text = configuration(collector.port, IN_FILES, WITH_DB)
    with Program(room, name, text) as program:
        append(room, program, lines_of(0, 1_000))
        until(lambda: len(come(collector)) >= 1_000 and offset_in(program) == 1_000 * LENGTH, f"{how}: the first lines come", 20)
        ends(program)
    end = rotate(room, program, how, 1_000)
    append(room, program, lines_of(end, end + more))
    with Program(room, name, text) as program:
        until(lambda: len(come(collector)) >= end + more, f"{how}: all lines come", 20)
        time.sleep(1.5)
        status = program.stop()
    collector.close()
    holds(status == 0, f"{how}: status {status}: {program.stderr().decode(errors='replace')}")
    numbers = come(collector)
    is_once_in_order(numbers, how)
    holds(len(numbers) == end + more, f"{how}: {len(numbers)} lines came, of {end + more}")


def rotated_while_down(room):
    """By hand, after a stop and after a kill. The new file is longer than the old one was, but where that was truncated."""
    for number, how in enumerate(("nothing", "renamed", "copied and truncated")):
        for ends in (Program.stop, killed):
            more = 500 if how == "copied and truncated" else 3_000
            down_and_rotated(room, f"down{number}_{ends.__name__}", how, rotate_by_hand, more, ends)


def rotated_while_down_by_logrotate(room):
    tool = shutil.which("logrotate") or shutil.which("logrotate", path="/usr/sbin")
    if not tool:
        print("live rotated_while_down_by_logrotate: logrotate isn't installed", flush=True)
        return
    for how in ("create", "nocreate", "copytruncate"):
        down_and_rotated(room, f"down_{how}", how, rotate_by_logrotate(tool, how), 500 if how == "copytruncate" else 3_000, killed)


def rotated_twice_while_down(room):
    """Both the file in which the last run ended and the one that has the path now are read."""
    collector = Collector(free_port())
    collector.open()
    text = configuration(collector.port, IN_FILES, WITH_DB)
    with Program(room, "twice", text) as program:
        append(room, program, lines_of(0, 1_000))
        until(lambda: offset_in(program) == 1_000 * LENGTH, "the first lines are read", 20)
        killed(program)
    for first in (1_000, 2_000):
        append(room, program, lines_of(first, first + 1_000))
        rename(program)
    append(room, program, lines_of(3_000, 4_000))
    wanted = {*range(2_000), *range(3_000, 4_000)}
    with Program(room, "twice", text) as program:
        until(lambda: set(come(collector)) >= wanted, "lines of both files come", 20)
        status = program.stop()
    collector.close()
    holds(status == 0, f"status {status}: {program.stderr().decode(errors='replace')}")


def killed_while_it_is_rotated(room):
    """The program is killed soon after each rename, while the old file still grows. No line is lost."""
    chance, collector = random.Random(5), Collector(free_port())
    collector.open()
    text = configuration(collector.port, IN_FILES, WITH_DB)
    folder = os.path.join(room.path, "struck")
    os.makedirs(folder)
    open(os.path.join(folder, "app.log"), "wb").close()
    with Program(room, "struck", text) as program:
        killed(program)
    writer = write(program, 0, 100_000, 0.001, "told")
    try:
        for _ in range(4):
            with Program(room, "struck", text) as program:
                time.sleep(2.5)
                rename(program)
                time.sleep(0.3 * chance.random())
                killed(program)
            time.sleep(0.2 * chance.random())
            writer.send_signal(1)
            until(lambda: os.path.exists(program.path("app.log")), "the writer has a new file", 20)
    finally:
        writer.kill()
        writer.wait()
    stands = written(program)
    with Program(room, "struck", text) as program:
        until(lambda: set(come(collector)) >= stands, f"all {len(stands)} lines come", 30)
        status = program.stop()
    collector.close()
    holds(status == 0, f"status {status}: {program.stderr().decode(errors='replace')}")


TABLE_OF_FLUENT_BIT = """CREATE TABLE in_tail_files (
    id INTEGER PRIMARY KEY, name TEXT NOT NULL, offset INTEGER, inode INTEGER, created INTEGER, rotated INTEGER DEFAULT 0)"""


def offsets_of_fluent_bit(room):
    """A database of Fluent Bit is taken over: reading goes on at its offset. Its own table stays as it is."""
    folder = os.path.join(room.path, "fluent_bit")
    os.makedirs(folder)
    path = os.path.join(folder, "app.log")
    with open(path, "wb") as file:
        file.write(lines_of(0, 100))
    row = (path, 40 * LENGTH, os.stat(path).st_ino, 0)
    connection = sqlite3.connect(f"{folder}/offsets")
    connection.execute("PRAGMA journal_mode = WAL")
    connection.execute(TABLE_OF_FLUENT_BIT)
    connection.execute("INSERT INTO in_tail_files (name, offset, inode, created) VALUES (?, ?, ?, ?)", row)
    connection.commit()
    connection.close()
    for numbers in (range(40, 100), range(100, 120)):
        with Program(room, "fluent_bit", PRINTED.format(path=path, db="offsets")) as program:
            until(lambda: b"line %07d" % numbers[-1] in program.stdout(), "the last line comes", 20)
            status, came = program.stop(), [int(line[-9:-2]) for line in program.stdout().splitlines() if b'"log":"line ' in line]
        holds(status == 0, f"status {status}: {program.stderr().decode(errors='replace')}")
        holds(came == [*numbers], f"the lines that came are {came}")
        append(room, program, lines_of(100, 120) if numbers[0] == 40 else b"")
    connection = sqlite3.connect(f"{folder}/offsets")
    kept = connection.execute("SELECT name, offset, inode, created FROM in_tail_files").fetchall()
    connection.close()
    holds(kept == [row], f"the table of Fluent Bit has {kept}")


CASES = (
    a_follower_is_killed,
    a_database_has_one_run,
    an_offset_is_forgotten,
    what_is_no_database,
    rotated_while_down,
    rotated_while_down_by_logrotate,
    rotated_twice_while_down,
    killed_while_it_is_rotated,
    offsets_of_fluent_bit,
)
