"""Runs the program live among hostile peers, each case with a good peer beside them, and prints a table of figures.

usage: tests/hostile/run [options] [CASE..]

It ends by itself, stops each program that it started by its process id, and prints `N passed, M known, K failed` last.
"""
import argparse
import resource
import sys
import tempfile

import hostile_forward
import hostile_keys
import hostile_lines
import hostile_outputs
from hostile_case import page, table, told, tried
from live_room import Room

CASES = hostile_lines.CASES + hostile_forward.CASES + hostile_outputs.CASES + hostile_keys.CASES


def options_of(words):
    parser = argparse.ArgumentParser(prog="tests/hostile/run", description=__doc__, formatter_class=argparse.RawDescriptionHelpFormatter)
    parser.add_argument("--program", required=True, help="the built program")
    parser.add_argument("--seconds", type=float, default=8, help="how long an attack takes (%(default)s)")
    parser.add_argument("--silent", type=int, default=1_000, help="how many peers are silent at once (%(default)s)")
    parser.add_argument("--row-seconds", type=float, default=20, help="how long connections come one after another (%(default)s)")
    parser.add_argument("--row-connections", type=int, default=0, help="how many come, in place of a time")
    parser.add_argument("--stream-bytes", type=int, default=1_000_000_000, help="bytes without a line feed (%(default)s)")
    parser.add_argument("--page", action="store_true", help="print the table as tests/hostile/results.md has it")
    parser.add_argument("cases", nargs="*", metavar="CASE", help="only these: " + ", ".join(it.name for it in CASES) + "; unless they are named, not those that take minutes: " + ", ".join(it.name for it in CASES if it.slow))
    return parser.parse_args(words)


def main(words):
    options = options_of(words)
    most = resource.getrlimit(resource.RLIMIT_NOFILE)[1]
    resource.setrlimit(resource.RLIMIT_NOFILE, (most, most))
    rows = []
    with tempfile.TemporaryDirectory(prefix="fwd-hostile-") as path:
        room = Room(path, options.program)
        for case in CASES:
            if case.name in options.cases or not (options.cases or case.slow):
                rows.append(tried(case, room, options))
                told(rows[-1])
    (page if options.page else table)(rows)
    verdicts = [row.verdict for row in rows]
    print(f"{verdicts.count('passed')} passed, {verdicts.count('known')} known, {verdicts.count('FAILED')} failed")
    return 1 if "FAILED" in verdicts else 0


sys.exit(main(sys.argv[1:]))
