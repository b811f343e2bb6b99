"""The pages, and what they have: blocks of code, commands, words."""
import re
from pathlib import Path

TOP = Path(__file__).resolve().parents[2]
PAGES = [TOP / "README.md", *sorted((TOP / "docs").glob("*.md"))]
# Pages that tests and measurements keep, whose links and paths are checked too.
OTHERS = [TOP / "bench/results.md", TOP / "tests/hostile/results.md"]
# What a command of the repository or of the machine begins with.
COMMAND = re.compile(
    r"(?:\./fwd|\./check|fwd|rt|(?:tests|tools|bench)/[\w/]+|sudo|systemctl|journalctl|curl|env|iconv|rsvg-convert)(?: |$)")
LIST = re.compile(r"<!-- list: (\w+) -->\n.*?<!-- end -->\n?", re.S)


def name_of(page):
    return str(page.relative_to(TOP))


def blocks(text):
    """Returns the blocks of code of a page, each as a list of lines without the indent."""
    found, waiting = [[]], []
    for line in text.splitlines():
        if line.startswith("    "):
            found[-1] += [*waiting, line[4:]] if found[-1] else [line[4:]]
            waiting = []
        elif line.strip() or not found[-1]:
            found.append([])
            waiting = []
        else:
            waiting.append("")
    return [block for block in found if block]


def outputs(text):
    """Returns the commands of a page that stand after a `$ `, each with the lines that it prints."""
    found = []
    for block in blocks(text):
        for line in block:
            if line.startswith("$ "):
                found.append((line[2:], []))
            elif block[0].startswith("$ "):
                found[-1][1].append(line)
    return found


def commands(text):
    """Returns the commands of a page: in blocks, where a remark may follow after three blanks, and in backticks."""
    lines = [re.split(r" {3,}", line.removeprefix("$ "))[0] for block in blocks(text) for line in block]
    outside = LIST.sub("", re.sub(r"^    .*$", "", text, flags=re.M))
    words = [word for word in re.findall(r"`([^`\n]+)`", outside) if not word.endswith("/")]
    return [command for command in dict.fromkeys([*lines, *words]) if COMMAND.match(command)]


def word_count(text):
    """Returns how many words a page has outside blocks of code and lists that are printed from the code."""
    text = re.sub(r"^    .*$", "", LIST.sub("", text), flags=re.M)
    return sum(1 for word in text.split() if re.search(r"\w", word))
