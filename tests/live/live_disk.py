"""Live runs and their storage folder: who owns it, who may look, and what happens when it takes no more."""
import os
import re
import socket
import subprocess
import threading
import time

from live_room import HOST, NOBODY, PATIENCE, Collector, Program, free_port, holds, until
from live_stored import STORED, Sender, killed, send_message

DISK_FAULT = 4


def stored(port, collector, folder="chunks", flush="0.2"):
    return STORED.format(port=port, collector=collector, more="").replace("storage.path chunks", f"storage.path {folder}").replace("Flush 0.2", f"Flush {flush}")


def ends_with_disk_fault(program):
    begun = time.monotonic()
    status, told = program.end(), program.stderr().decode(errors="replace").splitlines()
    holds(status == DISK_FAULT and told[-1] == "disk fault", f"it ended with {status}: {told}")
    holds(any("[storage]" in line for line in told[:-1]), f"the log doesn't say why: {told}")
    holds(time.monotonic() - begun < 5, "it didn't end at once")


def unwritable_folder(room):
    """A run whose storage folder can't be made, locked or written ends at its start."""
    for name, mode in (("shut", 0o500), ("file", None)):
        path = os.path.join(room.path, f"unwritable_{name}")
        if mode is None:
            open(path, "w").close()
        else:
            os.mkdir(path, mode)
            room.give(path)
            os.chmod(path, mode)
        for folder in (path, f"{path}/below"):
            with Program(room, f"unwritable_run_{name}", stored(free_port(), free_port(), folder)) as program:
                ends_with_disk_fault(program)


def a_folder_has_one_run(room):
    """A second run on the folder ends at its start, and the first goes on. Once that has ended, another takes the folder."""
    port, collector = free_port(), free_port()
    with Program(room, "first", stored(port, collector)) as first:
        with first.connect(port) as link:
            send_message(link, 1)
            with Program(room, "second", stored(free_port(), collector, first.path("chunks"))) as second:
                ends_with_disk_fault(second)
                holds(b"as another run has it" in second.stderr(), f"the log doesn't say why: {second.stderr()!r}")
            send_message(link, 2)
        killed(first)
        other = free_port()
        with Program(room, "second", stored(other, collector, first.path("chunks"))) as second:
            second.connect(other).close()
            killed(second)


def a_busy_folder_is_listed(room):
    """Files come and go while a folder is listed a hundred times."""
    collector, port = Collector(free_port()), free_port()
    collector.open()
    who = {"user": NOBODY, "group": NOBODY, "extra_groups": []} if os.geteuid() == 0 else {}
    with Program(room, "busy", stored(port, collector.port, flush="0.05")) as program:
        program.connect(port).close()
        sender = Sender(port)
        until(lambda: sender.acknowledged > 10, "messages are acknowledged")
        for number in range(100):
            found = subprocess.run([room.program, "list", "-p", "chunks"], cwd=program.folder, capture_output=True, timeout=PATIENCE, **who)
            holds(found.returncode == 0 and not found.stderr, f"listing {number} ended with {found.returncode}: {found.stderr!r}")
            holds(found.stdout.decode().splitlines()[-1].startswith("files "), f"listing {number} gave {found.stdout!r}")
        killed(program)
        sender.stop()
    collector.close()


def a_listing_makes_nothing(room):
    """A listing of a folder that isn't there makes nothing, and one beside a lock that is held takes none."""
    with Program(room, "looked_at", stored(free_port(), free_port(), "other")) as program:
        found = subprocess.run([room.program, "list", "-p", "nowhere"], cwd=program.folder, capture_output=True, timeout=PATIENCE)
        holds((found.returncode, found.stdout, found.stderr) == (0, b"files 0\n", b""), f"it gave {found}")
        holds(not os.path.exists(program.path("nowhere")), "the folder was made")
        killed(program)


def files_are_private(room):
    """Whatever the mask of the process is, folders of chunks and their files are for their owner alone."""
    port = free_port()
    with Program(room, "private", stored(port, free_port(), "deep/chunks"), before="umask 0") as program:
        with program.connect(port) as link:
            send_message(link, 1)
        killed(program)
        folders = [at for at, _, _ in os.walk(program.path("deep"))]
        files = [os.path.join(at, name) for at, _, names in os.walk(program.path("deep")) for name in names]
        holds(len(folders) == 3 and len(files) == 2, f"there are {folders} and {files}")
        modes = {path: oct(os.stat(path).st_mode & 0o777) for path in folders + files}
        holds(all(modes[path] == "0o700" for path in folders) and all(modes[path] == "0o600" for path in files), f"the modes are {modes}")


def an_output_has_another_name(room):
    """Chunks name an output in their files. A run whose outputs have other names says so once."""
    port, collector = free_port(), free_port()
    with Program(room, "renamed", stored(port, collector)) as program:
        with program.connect(port) as link:
            send_message(link, 1)
            send_message(link, 2)
        killed(program)
    other = free_port()
    named = stored(other, collector).replace("Format json_lines", "Format json_lines\n    storage.id another")
    with Program(room, "renamed", named) as program:
        program.connect(other).close()
        strangers = [line for line in program.stderr().decode().splitlines() if "that the configuration doesn't have" in line]
        killed(program)
    wanted = "[ warn] [storage] chunk files name outputs that the configuration doesn't have: tcp.0"
    holds(len(strangers) == 1 and strangers[0].endswith(wanted), f"the log has {strangers}")


FULL = """[SERVICE]
    Flush 1
    Grace 20
    storage.path full/chunks
    storage.sync full
    scheduler.base 1
    scheduler.cap 1
[INPUT]
    Name forward
    Listen 127.0.0.1
    Port {forward}
    storage.type filesystem
[INPUT]
    Name tcp
    Listen 127.0.0.1
    Port {tcp}
    storage.type filesystem
[INPUT]
    Name tail
    Path followed.log
    Read_from_Head On
    Parser json
    Tag followed
    storage.type filesystem
[INPUT]
    Name stdin
[OUTPUT]
    Name tcp
    Match *
    Host 127.0.0.1
    Port {collector}
    Format json_lines
    Retry_Limit no_limits
"""

# How long the disk is full, and after how many seconds inputs are held back.
FULL_SECONDS, HELD_AFTER = 5, 1.5


class Lines:
    """Writes a hundred numbered lines a second, and keeps when."""

    def __init__(self, write):
        self.write, self.times, self.stopping = write, [], False
        self.thread = threading.Thread(target=self.work, daemon=True)
        self.thread.start()

    def work(self):
        while not self.stopping:
            number = len(self.times)
            self.times.append(time.monotonic())
            self.write(number)
            time.sleep(0.01)

    def stop(self):
        self.stopping = True
        self.thread.join(PATIENCE)
        holds(not self.thread.is_alive(), "a writer is stuck")


class Forward:
    """A forward peer: sends a message until it is acknowledged, over another connection where one breaks."""

    def __init__(self, port):
        self.port, self.link, self.acknowledged = port, None, []

    def __call__(self, number):
        while len(self.acknowledged) <= number:
            try:
                if not self.link:
                    self.link = socket.create_connection((HOST, self.port), timeout=PATIENCE)
                send_message(self.link, number)
                self.acknowledged.append(number)
            except OSError:
                self.link = None
                time.sleep(0.02)


def mounted(folder):
    """Whether a small file system could be mounted at the folder."""
    os.mkdir(folder)
    if os.geteuid() != 0:
        return False
    return subprocess.run(["mount", "-t", "tmpfs", "-o", "size=16m", "tmpfs", folder], stderr=subprocess.DEVNULL).returncode == 0


def fill(path):
    """Fills the file system to its last byte."""
    with open(path, "wb", buffering=0) as file:
        for size, most in ((65_536, 1_000_000), (4_096, 16), (1, 4_096)):
            try:
                for _ in range(most):
                    file.write(b"x" * size)
            except OSError:
                pass


def arrived(collector):
    """The numbers that came, by their sender's word."""
    lines = [line for stream in list(collector.streams) for line in bytes(stream).split(b"\n")[:-1]]
    found = {"n": set(), "line": set(), "tail": set()}
    for line in lines:
        one = re.fullmatch(rb'\{"date":[0-9.]+,"(n|line|tail)":([0-9]+)\}', line)
        holds(one, f"a line came that nobody sent: {line[:200]!r}")
        found[one[1].decode()].add(int(one[2]))
    return found


def outage(room, program, ports, collector):
    """Lines come by all inputs, and the disk is full for some seconds. Gives what was sent when, and when the disk was full."""
    log = open(program.path("followed.log"), "ab", buffering=0)
    forward, tcp = Forward(ports[0]), program.connect(ports[1])
    acknowledged = forward.acknowledged
    senders = {
        "n": Lines(forward),
        "line": Lines(lambda number: tcp.sendall(b'{"line":%d}\n' % number)),
        "tail": Lines(lambda number: log.write(b'{"tail":%d}\n' % number)),
    }
    time.sleep(1)
    filler = program.path("full/filler")
    fill(filler)
    full_at = time.monotonic()
    time.sleep(HELD_AFTER)
    held = len(acknowledged)
    time.sleep(FULL_SECONDS - HELD_AFTER)
    holds(len(acknowledged) == held, "messages are acknowledged while the disk is full")
    os.remove(filler)
    until(lambda: len(acknowledged) > held + 50, "messages are acknowledged again", 20)
    for sender in senders.values():
        sender.stop()
    return {word: sender.times for word, sender in senders.items()}, full_at, acknowledged


def a_disk_is_full_for_a_while(room):
    """Nothing is refused, and what comes waits with its sender."""
    forward, tcp, collector = free_port(), free_port(), Collector(free_port())
    folder = os.path.join(room.path, "outage")
    os.mkdir(folder)
    if not mounted(f"{folder}/full"):
        print("live a_disk_is_full_for_a_while: skipped, as no file system can be mounted here", flush=True)
        return
    try:
        parsers = "[PARSER]\n    Name json\n    Format json\n"
        configuration = FULL.format(forward=forward, tcp=tcp, collector=collector.port).replace("Grace 20\n", "Grace 20\n    Parsers_File parsers.conf\n")
        with Program(room, "outage", configuration, files={"parsers.conf": parsers, "followed.log": ""}) as program:
            sent, full_at, acknowledged = outage(room, program, (forward, tcp), collector)
            collector.open()
            late = {word: {number for number, at in enumerate(times) if at > full_at + HELD_AFTER} for word, times in sent.items()}
            until(lambda: all(late[word] <= arrived(collector)[word] for word in late), "all lines come that were sent when the disk was full", 60)
            until(lambda: not chunks_in_full(program), "no file of a chunk is left", 60)
            status = program.stop()
            report = program.stdout().decode()
        collector.close()
        holds(status == 0, f"status {status}: {program.stderr().decode(errors='replace')}")
        why = rb"inputs are held back, as a write failed: full/chunks/\S+ can't be (created|written): No space left on device"
        holds(re.search(why, program.stderr()), f"the log doesn't say why inputs are held back: {program.stderr()!r}")
        found = arrived(collector)
        holds(set(acknowledged) <= found["n"], "an acknowledged message is lost")
        refused = sum(int(one) for one in re.findall(r"refused ([0-9]+)", report))
        holds(refused == 0, f"{refused} batches were refused: {report}")
        lost = {word: len(times) - len(found[word]) for word, times in sent.items()}
        holds(not any(lost.values()), f"lost are {lost}")
    finally:
        subprocess.run(["umount", "-l", f"{folder}/full"])


def a_run_starts_without_room(room):
    """A run that finds less room than its reserve has says so, and takes messages once there is room."""
    port = free_port()
    folder = os.path.join(room.path, "without_room")
    os.mkdir(folder)
    if not mounted(f"{folder}/full"):
        print("live a_run_starts_without_room: skipped, as no file system can be mounted here", flush=True)
        return
    try:
        filler, room_left = f"{folder}/full/filler", os.statvfs(f"{folder}/full")
        with open(filler, "wb") as file:
            file.write(bytes(room_left.f_bavail * room_left.f_frsize - 1_000_000))
        with Program(room, "without_room", stored(port, free_port(), "full/chunks")) as program:
            why = rb"inputs are held back, as a write failed: full/chunks/\.lock can't be filled with the 4194304 bytes of the reserve: No space left on device"
            until(lambda: re.search(why, program.stderr()), "the log says why inputs are held back", 10)
            os.remove(filler)
            until(lambda: b"inputs go on, as there is room again" in program.stderr(), "inputs go on", 10)
            with program.connect(port) as link:
                send_message(link, 1)
            killed(program)
    finally:
        subprocess.run(["umount", "-l", f"{folder}/full"])


def chunks_in_full(program):
    return [name for _, _, names in os.walk(program.path("full/chunks")) for name in names if name.endswith(".flb")]


CASES = (unwritable_folder, a_folder_has_one_run, a_busy_folder_is_listed, a_listing_makes_nothing, files_are_private, an_output_has_another_name, a_disk_is_full_for_a_while, a_run_starts_without_room)
