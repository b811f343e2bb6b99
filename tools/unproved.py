"""Runs the program by `rt try`, which compiles the same sources without proving them.

usage: unproved.py WORDS..

The run gets a folder of its own, with copies of the files below the current folder that the words and the configuration name;
files that it writes are not kept. Its text and its status are those of the program.
"""
import os
import re
import subprocess
import sys

TOP = os.path.dirname(os.path.dirname(os.path.realpath(__file__)))
# The names that `rt try` keeps for itself in the folder of a run.
RESERVED = ("program", "stdin", "stdout", "stderr", "case")
SECONDS = 600
# How much of what the configuration names is copied.
FILES, BYTES = 2_000, 64 << 20
BUILD = "`./fwd build` proves and builds the program"


class Unfit(Exception):
    """Why these words need the built program."""


class Given:
    """The files that a run is given: their paths, by the names that they have for the run."""

    def __init__(self, takes_folders):
        self.takes_folders, self.files, self.bytes = takes_folders, {}, 0

    def add(self, path):
        """Adds a file below the current folder, and returns whether it was not there yet."""
        name = os.path.normpath(path)
        if name in self.files:
            return False
        if name.split("/")[0] in RESERVED or "=" in name:
            raise Unfit(f"a run without proof cannot be given a file named {name}")
        self.files[name] = os.path.realpath(path)
        self.bytes += os.path.getsize(path)
        if len(self.files) > FILES or self.bytes > BYTES:
            raise Unfit("the configuration names more files than a run without proof is given")
        return True

    def add_named(self, path):
        """Adds a file of the configuration, and the files and folders that its text names, and those that theirs name."""
        if not is_below(path) or not os.path.isfile(path):
            return
        waiting = [path]
        while waiting:
            file = waiting.pop()
            if not self.add(file):
                continue
            text = text_of(file)
            check_variables(file, text)
            lines = [line.strip() for line in text.splitlines() if not line.lstrip().startswith("#")]
            for word in {*" ".join(lines).split(), *(line.partition(" ")[2].strip() for line in lines)}:
                waiting += self.named(file, word)

    def named(self, file, word):
        """Returns the files that a word of the text of this file names."""
        if os.path.isabs(word) or "\0" in word:
            return []
        # An included file is looked for beside the one that names it, any other in the current folder.
        found = {os.path.normpath(word), os.path.normpath(os.path.join(os.path.dirname(file), word))}
        paths = []
        for path in sorted(found):
            if path.split("/")[0] in (".", *RESERVED):
                continue
            if os.path.isdir(path) and is_below(path) and self.takes_folders:
                paths += [f"{at}/{name}" for at, _, names in os.walk(path) for name in names]
            elif os.path.isfile(path) and is_below(path):
                paths.append(path)
            elif os.path.isfile(path):
                raise Unfit(f"{file} names {word}, which is not below the current folder")
        return paths


def is_below(path):
    return not os.path.isabs(path) and os.path.normpath(path).split("/")[0] not in ("..", ".")


def text_of(path):
    with open(path, encoding="utf-8", errors="replace") as file:
        return file.read(1 << 20)


def check_variables(file, text):
    """A run without proof has no environment."""
    unset = {*re.findall(r"\$\{([^}]*)\}", text)} - {*re.findall(r"(?m)^\s*@SET\s+(\w+)=", text)}
    if unset & {*os.environ}:
        raise Unfit(f"{file} takes {sorted(unset & {*os.environ})[0]} from the environment, which a run without proof does not have")


def prepare(words):
    """Returns the words of a run without proof, and the files that it is given."""
    if not words or words[0] not in ("run", "replay", "list", "gen"):
        raise Unfit("these words are no run, replay, list or gen")
    if words[0] == "run" and "-n" not in words:
        raise Unfit("a run that does not end by itself (-n TICKS) needs the built program")
    if "--record" in words:
        raise Unfit("a run without proof keeps no file that it writes, and so no record")
    # A replay has its disk in memory, and reads only the files of the configuration and the schedule.
    given, words = Given(words[0] == "run"), [*words]
    for at in range(2, len(words)):
        option, word = words[at - 1], words[at]
        if option == "-p":
            words[at] = os.path.realpath(word)
        elif option in ("-c", "-s") and not is_below(word):
            words[at] = os.path.realpath(word)
        elif option == "-c":
            given.add_named(word)
        elif option == "-s" and os.path.isfile(word):
            given.add(word)
    return words, given.files


def command(words, files, more=()):
    """Returns the command, for the folder of the crate fwd. The interpreter cannot run a program that has words, so it gets one step."""
    told = ["rt", "try", "--steps", "1", "--seconds", str(SECONDS), *more]
    for name, path in files.items():
        told += ["--data", f"{name}={path}"]
    return [*told, "--", *words]


def result_of(said):
    """Returns the status of the program and what it wrote to standard error, of what `rt try` says of a run, or None."""
    found = re.search(r"(?s)\A(.*?)(?:interpreter: [^\n]*\n)?checked: ended status=(\d+)\n(?:races: [^\n]*\n)?run=ended status=\2 [^\n]*\n\Z", said)
    return found and (int(found[2]), re.sub(r"(?m)^rt: a check will refuse this: .*\n", "", found[1]))


def main(words):
    try:
        words, files = prepare(words)
    except Unfit as why:
        print(f"fwd: {why}; {BUILD}", file=sys.stderr)
        return 1
    print(f"fwd: compiling without proof, which takes about four minutes, and then running; {BUILD}", file=sys.stderr, flush=True)
    stdin = None if words[0] == "run" else subprocess.DEVNULL
    ran = subprocess.run(command(words, files), cwd=f"{TOP}/crates/fwd", stdin=stdin, stderr=subprocess.PIPE, errors="replace")
    result = result_of(ran.stderr)
    if not result:
        print(f"{ran.stderr}fwd: the run without proof gave no answer; {BUILD}", file=sys.stderr)
        return 1
    print(result[1], end="", file=sys.stderr)
    return result[0]


if __name__ == "__main__":
    sys.exit(main(sys.argv[1:]))
