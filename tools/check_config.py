"""Tries a configuration by a dry run, and says which inputs, filters and outputs match nothing.

usage: check_config.py COMMAND.. -- FILE

COMMAND runs the program. The dry run is a replay of an empty schedule, so it opens no socket and no storage folder. The first
line says that the configuration is taken, and each further one what matches nothing, or which path of a followed file has a blank
at its edge; or the program's refusal comes on standard error, with the text of the line that is refused, or with the file that
can't be read. The status is 0 if the configuration is taken and 1 if not.
"""
import os
import re
import subprocess
import sys
import tempfile

USAGE = "usage: fwd check FILE"
# How deep included files may include others.
DEPTH = 8
BLANKS = " \t"


class Section:
    def __init__(self, name, place):
        self.name, self.place, self.entries = name.lower(), place, []

    def last(self, key, otherwise=None):
        """Returns the value of the last entry of this key."""
        return ([value for name, value, _ in self.entries if name == key] or [otherwise])[-1]


class Reader:
    """Reads a configuration as the program does, without refusing anything: that has been the program's part."""

    def __init__(self, path):
        self.sections, self.variables, self.unread = [], {}, []
        self.read(path, path, 0)
        named = [entry for it in self.sections if it.name == "service" for entry in it.entries if entry[0] == "parsers_file"]
        for _, value, place in named:
            self.read(beside(place, value), f"{place} names {value}", 1)

    def read(self, path, named, depth):
        """Reads a file that is named there. A file that can't be read is noted with the reason."""
        try:
            with open(path, "rb") as file:
                lines = file.read().decode().split("\n")
        except OSError as error:
            self.unread.append(f"{named}: {error.strerror}")
            return
        except UnicodeDecodeError:
            return
        for number, line in enumerate(lines, 1):
            self.take(line.removesuffix("\r").strip(BLANKS), f"{path}:{number}", depth)

    def take(self, line, place, depth):
        key, value = (re.split(f"[{BLANKS}]+", line, maxsplit=1) + [""])[:2]
        if not line or line.startswith("#"):
            return
        if key.lower() == "@include":
            if depth < DEPTH:
                path = self.replaced(value)
                self.read(beside(place, path), f"{place} names {path}", depth + 1)
        elif key.lower() == "@set":
            name, _, text = value.partition("=")
            self.variables[name] = self.replaced(text)
        elif line.startswith("["):
            self.sections.append(Section(line[1:-1], place))
        elif self.sections:
            self.sections[-1].entries.append((key.lower(), self.replaced(value), place))

    def replaced(self, value):
        """Returns the value with its variables replaced."""
        text_of = lambda found: self.variables.get(found[1], os.environ.get(found[1], ""))
        return re.sub(r"\$\{([^}]*)\}", text_of, value)


def beside(place, path):
    """Returns a path that stands at this place of a file: it is relative to the folder of that file."""
    return os.path.join(os.path.dirname(place), path)


def instances(sections, kind):
    """Gives the sections of a kind, each with its instance's name: the plugin, a dot and its number among those of the plugin."""
    counts = {}
    for section in sections:
        if section.name == kind:
            plugin = section.last("name", "").lower()
            counts[plugin] = counts.get(plugin, -1) + 1
            yield f"{plugin}.{counts[plugin]}", section


def is_match(glob, tag):
    """Returns whether a glob, in which `*` stands for any text, matches a tag. None is the tag of a forward message, which may be any."""
    return tag is None or bool(re.fullmatch(".*".join(map(re.escape, glob.split("*"))), tag, re.DOTALL))


def unmatched(sections):
    """Gives a line for each input, filter and output that matches nothing."""
    tags, globs = [], [section.last("match", "*") for _, section in instances(sections, "output")]
    for name, section in instances(sections, "input"):
        tag = section.last("tag", None if name.startswith("forward.") else name)
        tags.append(tag)
        if not any(is_match(glob, tag) for glob in globs):
            yield f"{section.place}: input {name}: no output matches" + (f" its tag {tag}" if tag is not None else "")
    for kind in ("filter", "output"):
        for name, section in instances(sections, kind):
            glob = section.last("match", "*")
            if not any(is_match(glob, tag) for tag in tags):
                yield f"{section.place}: {kind} {name}: Match {glob} matches no input"


def padded_paths(sections):
    """Gives a line for each path of a tail input with a blank beside its comma: the blank belongs to the name of the file."""
    for name, section in instances(sections, "input"):
        for path in section.last("path", "").split(",") if name.startswith("tail.") else ():
            if path != path.strip(BLANKS):
                yield f'{section.place}: input {name}: the blank beside a comma of Path belongs to the name of the file "{path}"'


def dry_run(command, file):
    """Runs the program, and returns its status and its last line on standard error. The lines before it go on to standard error."""
    with tempfile.NamedTemporaryFile(prefix="fwd-check-") as schedule:
        words = [*command, "replay", "-c", file, "-s", schedule.name]
        ran = subprocess.Popen(words, stdin=subprocess.DEVNULL, stdout=subprocess.DEVNULL, stderr=subprocess.PIPE, text=True, errors="replace")
        last = ""
        for line in ran.stderr:
            if line.startswith("fwd: "):
                print(line, end="", file=sys.stderr, flush=True)
            else:
                last = line.rstrip("\n")
        return ran.wait(), last


def refused_line(refusal):
    """Returns the text of the line that a refusal names, with its place, or nothing."""
    found = re.search(r" at (.+):(\d+)$", refusal)
    try:
        with open(found[1], encoding="utf-8") as file:
            return f"{found[1]}:{found[2]}: {file.read().split(chr(10))[int(found[2]) - 1].strip()}" if int(found[2]) else ""
    except (TypeError, OSError, UnicodeDecodeError, IndexError):
        return ""


def main(words):
    if "--" not in words or len(words) - words.index("--") != 2 or words[-1].startswith("-"):
        print(USAGE, file=sys.stderr)
        return 1
    command, file = words[: words.index("--")], words[-1]
    status, refusal = dry_run(command, file)
    if status:
        reasons = Reader(file).unread if refusal == "file fault" else [refused_line(refusal)]
        for line in (refusal, *reasons):
            print(line, end="\n" if line else "", file=sys.stderr)
        return 1
    print(f"{file}: taken")
    sections = Reader(file).sections
    for line in (*unmatched(sections), *padded_paths(sections)):
        print(line)
    return 0


if __name__ == "__main__":
    sys.exit(main(sys.argv[1:]))
