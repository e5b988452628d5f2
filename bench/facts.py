"""Facts of the documents, by name: bench/facts.txt.

A line of it is a value or a text. Values:

    NAME = constant FILE CONSTANT           a constant of a source file
    NAME = product NAME NAME ..             of values above
    NAME = count PATTERN                    how many files match
    NAME = measured COMMIT, COMMAND: VALUE  what a command measured at a commit

A text is DOCUMENT: words with {NAME}, which stand so in the document, on one line or several. A number has a comma behind
its thousands; {NAME:plain} has none. An empty line and a line that begins with # say nothing.
"""

import dataclasses
import glob
import os
import re

TOP = os.path.dirname(os.path.dirname(os.path.abspath(__file__)))
FILE = os.path.join(TOP, "bench", "facts.txt")
LIMITS = "crates/ksm_base/src/limits.rt"
VALUE = re.compile(r"(\w+) = (constant|product|count|measured) (.*)")
MEASURED = re.compile(r"([0-9a-f]{7,8}), (.+): (\S+)")


@dataclasses.dataclass
class Facts:
    """The values by name, the texts with their document and the commits of their figures, and what is wrong with the file."""
    values: dict = dataclasses.field(default_factory=dict)
    commits: dict = dataclasses.field(default_factory=dict)
    texts: list = dataclasses.field(default_factory=list)
    wrong: list = dataclasses.field(default_factory=list)

    def add_value(self, name, kind, rest):
        if kind == "measured":
            commit, _, value = MEASURED.fullmatch(rest).groups()
            self.commits[name] = commit
            self.values[name] = value
        elif kind == "constant":
            path, constant = rest.split()
            self.values[name] = constant_of(path, constant)
        elif kind == "count":
            self.values[name] = len(glob.glob(os.path.join(TOP, rest), recursive=True))
        else:
            self.values[name] = 1
            for factor in rest.split():
                self.values[name] *= int(self.values.get(factor, factor))

    def add_text(self, document, text):
        names = re.findall(r"\{(\w+)(?::plain)?\}", text)
        told = re.sub(r"\{(\w+)(:plain)?\}", lambda name: shown(self.values[name[1]], bool(name[2])), text)
        self.texts.append((document, told, {self.commits[name] for name in names if name in self.commits}))


def shown(value, is_plain):
    """A value as a text has it."""
    return f"{value:,}" if isinstance(value, int) and not is_plain else str(value)


def constant_of(path, name):
    """The value of a constant: a number, a power of two, or another constant of the file, or of the limits, times or plus a
    number."""
    with open(os.path.join(TOP, path), encoding="utf-8") as file:
        text = file.read()
    found = re.search(rf"const {name}: \w+ = ([^;]+);", text)
    if not found and path != LIMITS:
        return constant_of(LIMITS, name)
    if not found:
        raise KeyError(f"{path} has no constant {name}")
    words = re.sub(r"\b[A-Z][A-Z_0-9]+\b", lambda other: str(constant_of(path, other[0])), found[1]).replace("_", "")
    words = re.sub(r"\bas \w+", "", re.sub(r"(?<=\d)[ui](8|16|32|64|size)\b", "", words))
    if not re.fullmatch(r"[\d\s<>*+()-]+", words):
        raise KeyError(f"{path}: {name} is no number: {found[1]}")
    return eval(words)  # pylint: disable=eval-used


def read():
    """The facts of the file."""
    facts = Facts()
    with open(FILE, encoding="utf-8") as file:
        for number, line in enumerate(file.read().split("\n"), 1):
            if not line or line.startswith("#"):
                continue
            try:
                value = VALUE.fullmatch(line)
                if value:
                    facts.add_value(*value.groups())
                else:
                    facts.add_text(*line.split(": ", 1))
            except (KeyError, AttributeError, OSError, TypeError) as error:
                facts.wrong.append(f"bench/facts.txt:{number}: {error}")
    return facts
