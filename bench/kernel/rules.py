"""Judges a script by a model of mm/ksm.c that has a switch for each difference (ksmd.py, linux.py, switches.py).

A script is explained where each reply of Linux is the model's with no switch on, and each reply of ksmbook the model's
with a set of switches on; the smallest such set names what differs. `prune` counts too: Linux has none, so with
`stale-dropped` off nothing is dropped. Where a line is outside the model, `differences` has to have both replies. Of a
lookup only its form is tested, and a line for Linux alone has no reply of ksmbook's.

Where the kernel would read memory that it freed, a script is cut: no reply is foretold behind that.
"""

import collections
import dataclasses
import os
import re

import machine
import talk
from linux import Linux
from switches import SWITCHES, switches_of, version_of

DIFFERENCES = os.path.join(machine.HERE, "differences")
REPORTED = "use-after-free"  # docs/reports
PAGE = os.path.join(talk.TOP, "docs", "KERNEL.md")
FORMS = {
    "find": r"held \d+ \d+|gone [123]|busy|refused (?:10|12|13)",
    "equal": r"(?:held|differs) \d+ \d+|gone [123]|busy|refused (?:10|12|13)",
    "look": r"[0-9a-f]+|refused (?:12|14)",
    "leave": r"ok|refused (?:12|14)",
    "audit": r"audit(?: (?:found:\d+:[0-9a-f]+|gone:[123]|busy))+|refused 13",
}


def is_for(kernels, version):
    """Tells whether an entry is for a kernel: `all`, a line of kernels as 6.1, or all lines from one on as 6.12-."""
    if kernels == "all":
        return True
    first = version_of(kernels.removesuffix("-") + ".0")
    return version == first or kernels.endswith("-") and version > first


def entries(version):
    """The entries of `differences` that are for a kernel, as words and the text behind them."""
    with open(PAGE, encoding="utf-8") as file:
        page = file.read()
    with open(DIFFERENCES, encoding="ascii") as file:
        found = [entry.rstrip("\n").split(None, 3) for entry in file if entry.strip() and not entry.startswith("#")]
    for kind, kernels, name, text in found:
        if f"`{name}`" not in page:
            raise machine.Trouble(f"{PAGE} has no {name}")
        if is_for(kernels, version):
            yield kind, name, text


def known_replies(version):
    """Both replies to lines outside the model, by script and line, each with the name of the difference."""
    known = collections.defaultdict(dict)
    for kind, name, text in entries(version):
        if kind == "replies":
            script, number, replies = text.split(None, 2)
            known[script][int(number)] = name, *replies.split(" | ")
    return known


def needs(version):
    """The switches that kept scripts are to need, by script."""
    found = collections.defaultdict(set)
    for kind, name, script in entries(version):
        if kind == "needs":
            found[script].add(name)
    return found


@dataclasses.dataclass
class Script:
    """A script: its lines with ksmbook's replies by number, what is set up, and the kernel's version. `is_patched` says
    that the kernel empties all unstable trees as a pass begins."""
    answers: dict
    knobs: list
    version: tuple
    is_patched: bool = False

    def told(self, switches=frozenset(), of_linux=False):
        """The model's replies with some switches on, None where it tells none; and the line, counted from 0, at which
        the kernel would read freed memory."""
        kernel, texts = self.model(switches, of_linux)
        return [kernel.reply(text) for text in texts], kernel.freed_at

    def model(self, switches, of_linux):
        """A model of the kernel with some switches on, and the lines for it."""
        texts = [answer.line if of_linux else answer.asked for answer in self.answers.values()]
        return Linux(texts, self.knobs, self.version, switches | ({REPORTED} if self.is_patched else set())), texts

    def has(self, switches, replies):
        """Tells whether these are the model's replies with some switches on, and use-after-free."""
        kernel, texts = self.model(switches | {REPORTED}, of_linux=False)
        return all(kernel.reply(text) == reply for text, reply in zip(texts, replies))

    def cut(self):
        """The same without the lines from which on the kernel would read freed memory, and the first of these."""
        _, freed_at = self.told(of_linux=True)
        if freed_at is None:
            return self, None
        numbers = list(self.answers)
        kept = {number: self.answers[number] for number in numbers[:freed_at]}
        return dataclasses.replace(self, answers=kept), numbers[freed_at]

    def smallest(self, ours):
        """A set of switches that makes the kernel's replies ksmbook's, of which none can be left out. It has at
        most one where such a set is enough."""
        has = sorted(switches_of(self.version) - {REPORTED}, key=list(SWITCHES).index)
        for few in [frozenset(), *(frozenset([name]) for name in has)]:
            if self.has(few, ours):
                return few
        kept, before = frozenset(has), None
        while kept != before:
            before = kept
            for name in reversed(has):
                if name in kept and self.has(kept - {name}, ours):
                    kept -= {name}
        return kept


@dataclasses.dataclass
class Verdict:
    """What became of a script: the switches that it needs, the lines that differ as texts, the first reply that is
    unexplained as a text, how many replies the model told, and the line from which on the script was cut."""
    names: frozenset = frozenset()
    differing: list = dataclasses.field(default_factory=list)
    unexplained: str | None = None
    told: int = 0
    cut_at: int | None = None

    def kind(self):
        """What the verdict is counted as."""
        return "unexplained" if self.unexplained else "explained" if self.names or self.differing else "equal"

    def __str__(self):
        cut = f"; cut at line {self.cut_at}: {REPORTED}" if self.cut_at else ""
        if self.unexplained:
            return f"UNEXPLAINED: {self.unexplained}{cut}"
        if not self.names and not self.differing:
            return f"equal{cut}"
        more = f", and {len(self.differing) - 1} more" if len(self.differing) > 1 else ""
        first = f": {self.differing[0]}{more}" if self.differing else ""
        return f"explained by {', '.join(sorted(self.names))}{first}{cut}"


def why_unexplained(answer, theirs, linux, ours, known):
    """Why the two replies to a line are unexplained, or nothing."""
    if known:
        _, *replies = known
        return None if [answer.reply, theirs] == replies else "otherwise in `differences`"
    if linux is None or ours is None:
        return None if answer.is_same(theirs) else "the model does not have this line"
    if theirs != linux:
        return f"Linux is to reply `{linux}`"
    if answer.has_no_reply():
        form = FORMS.get(answer.typed.split()[0])
        return None if not form or re.fullmatch(form, answer.reply) else "ksmbook's reply is none to a lookup"
    return None if answer.reply == ours else f"ksmbook is to reply `{ours}`"


def verdict(script, replies, known, cut_at=None, models=None, has_names=True):
    """Judges a script by Linux's replies. `known` is what lines outside the model are to be replied, `models` the
    model's replies with no switch on and with all, where they are there already. `has_names` says that the smallest set
    of switches is looked for."""
    found = Verdict(cut_at=cut_at)
    if len(replies) != len(script.answers):
        found.unexplained = f"ksmbook has {len(script.answers)} replies, Linux {len(replies)}"
        return found
    linux, ours = models or (script.told(of_linux=True)[0], script.told(frozenset(SWITCHES))[0])
    names = set()
    for (number, answer), theirs, one, other in zip(script.answers.items(), replies, linux, ours):
        both = f"line {number}: ksmbook `{answer.reply}`, Linux `{theirs}`"
        why = why_unexplained(answer, theirs, one, other, known.get(number))
        found.told += one is not None
        if why:
            found.unexplained = f"{both}; {why}"
            return found
        if theirs != other if answer.is_alone() else not answer.is_same(theirs):
            found.differing.append(both)
        names |= {known[number][0]} if number in known else set()
    if has_names:
        found.names = frozenset(names) if known else script.smallest(ours)
    return found
