"""Lets single calls of the built program fail, one in each run: on its storage folder, on a file that it follows, on a database of
offsets, on the files of its configuration, and on standard output.

On the storage folder: a run is killed and leaves chunks in files. Over these a run takes lines over tcp and forward messages,
each of which is sent until it is acknowledged, into files; there is a file output, and later a collector. One call of this run
fails. It must end with the status of a disk fault, at its start, or go on, count a fault, acknowledge each message, and end with
status 0. A write that finds the disk full must be made again in the room of the reserve: no fault is counted, and no batch is
refused. A second run without failures then ends with nothing pending. Each message that was acknowledged must have reached the
collector and the output file, over the runs together, and no line may come that wasn't sent.

On a followed file: the failure is counted, and each line comes once. On a database of offsets: a run ends at its start with the
status of a keeper fault, or tells the failure and puts the offset again; a second run goes on from it, so each line comes once
over both. On a file of the configuration or a schedule: the status is
that of a file fault. On standard output: what is written is a prefix, and the status that of an output fault; an event that isn't
taken is printed again.

Each pass counts the calls of a run first and then lets each of them fail in a run of its own. It prints a line for each pass,
and one for each wrong run, with the number of its call. The status is 1 if a run is wrong, and with `--unmade` if none is.
"""
import argparse
import collections
import concurrent.futures
import dataclasses
import errno
import os
import subprocess
import sys
import tempfile

import failing_files
import failing_storage
from failing import Failure, calls_in, failed_of, short
from live_room import Failed, Room

HERE = os.path.dirname(os.path.realpath(__file__))
# Runs wait most of their time.
THREADS = 16
EIO, ENOSPC = Failure(), Failure(error=errno.ENOSPC, kind="write")


def options_of(words):
    parser = argparse.ArgumentParser(prog="tests/call_failure/run", description=__doc__, formatter_class=argparse.RawDescriptionHelpFormatter)
    parser.add_argument("--program", required=True, help="the built program")
    parser.add_argument("--runs", type=int, default=1_000, metavar="N", help="at most so many runs of a pass: every second, third, .. call fails where there are more (%(default)s)")
    parser.add_argument("--from", dest="first", type=int, default=1, metavar="N", help="the first call that fails (%(default)s)")
    parser.add_argument("--upto", type=int, metavar="N", help="the last one, in place of the last of the run")
    parser.add_argument("--unmade", action="store_true", help="in place of all passes, writes to the storage folder say that they were made and aren't: this must be noticed")
    parser.add_argument("--list", action="store_true", help="print each call that failed, and the status")
    parser.add_argument("names", nargs="*", metavar="PASS", help="passes whose names begin so; without names, all")
    return parser.parse_args(words)


def passes(room, unmade):
    """The passes: a name, how a call fails, and what makes a run in which it does."""
    found = failing_storage.found_by(room)

    def stored(name, failure):
        return failing_storage.tried(room, name, found, failure)

    def run_of(make, *words):
        return lambda name, failure: make(room, name, *words, failure)

    if unmade:
        return {"storage_unmade": (Failure(kind="write", unmade=True), stored)}
    lists = ("list", "-p", "../earlier/chunks")
    return {
        "storage": (EIO, stored),
        "storage_made": (Failure(made=True), stored),
        "storage_full": (ENOSPC, stored),
        "followed_file": (EIO, run_of(failing_files.tried_followed)),
        "offsets": (EIO, run_of(failing_files.tried_offsets)),
        "offsets_made": (Failure(made=True), run_of(failing_files.tried_offsets)),
        "offsets_full": (ENOSPC, run_of(failing_files.tried_offsets)),
        "configuration": (EIO, run_of(failing_files.tried_read)),
        "replay_to_stdout": (EIO, run_of(failing_files.tried_output, failing_files.REPLAY)),
        "list_to_stdout": (EIO, run_of(failing_files.tried_output, lists)),
        "gen_to_stdout": (ENOSPC, run_of(failing_files.tried_output, ("gen", "-n", "500"))),
        "run_to_stdout": (EIO, run_of(failing_files.tried_printed)),
    }


class Pass:
    """Runs in each of which another call fails."""

    def __init__(self, name, failure, make, options):
        self.name, self.failure, self.make, self.options = name, failure, make, options
        self.results, self.wrong = collections.Counter(), 0

    def one(self, at):
        """A run, and what is wrong with it."""
        failure = dataclasses.replace(self.failure, at=at)
        try:
            status, calls = self.make(f"{self.name}.{at}", failure)
            return at, status, calls, None
        except (Failed, OSError, subprocess.TimeoutExpired) as error:
            return at, None, [], str(error)

    def note(self, room, at, status, calls, wrong):
        call = failed_of(calls)
        if wrong:
            self.wrong += 1
            print(f"{self.name}: call {at}: {wrong}", flush=True)
            failed = failed_of(calls_in(f"{room.path}/{self.name}.{at}/calls"))
            print(f"    which is {short(failed, room.path)}" if failed else "    which wasn't reached", flush=True)
        else:
            self.results["not reached" if at and not call else status] += 1
        if self.options.list and call:
            print(f"{self.name}: call {at}, {short(call, room.path)}: status {status}", flush=True)

    def make_all(self, room, threads):
        """Counts the calls of a run without failures, and lets each of them fail."""
        _, _, calls, wrong = self.one(0)
        if wrong or not calls:
            self.wrong += 1
            print(f"{self.name}: without a failure: {wrong or 'no call is counted'}", flush=True)
            return
        upto = min(len(calls), self.options.upto or len(calls))
        first = self.options.first
        tries = range(first, upto + 1, max(1, -(-(upto - first + 1) // self.options.runs)))
        for result in threads.map(self.one, tries):
            self.note(room, *result)
        ends = ", ".join(f"{count} {'not reached' if end == 'not reached' else f'with status {end}'}" for end, count in sorted(self.results.items(), key=str))
        print(f"{self.name}: {self.failure.told()}: {len(calls)} calls, {len(tries)} runs: {ends}, {self.wrong} wrong", flush=True)


def main(words):
    options = options_of(words)
    wrong = 0
    with tempfile.TemporaryDirectory(prefix="fwd-calls-") as path, concurrent.futures.ThreadPoolExecutor(THREADS) as threads:
        room = Room(path, options.program)
        subprocess.run(["cc", "-O1", "-shared", "-fPIC", "-o", f"{path}/call_failure.so", f"{HERE}/call_failure.c", "-ldl"], check=True)
        os.chmod(f"{path}/call_failure.so", 0o755)
        for name, (failure, make) in passes(room, options.unmade).items():
            if not options.names or any(name.startswith(begin) for begin in options.names):
                one = Pass(name, failure, make, options)
                one.make_all(room, threads)
                wrong += one.wrong
    print(f"call_failure: {wrong} wrong")
    return 1 if bool(wrong) != options.unmade else 0


if __name__ == "__main__":
    sys.exit(main(sys.argv[1:]))
