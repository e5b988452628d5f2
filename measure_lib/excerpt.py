"""Some of the pages as a script of ksmbook, whose counters are proved, and what it counts beside what the
formulas give.

A page of the book begins with a frame of its own, and a table has few, so some contents are taken: in the order
of their keyed digests, which is random and knows nothing of how often a content is there, each with all of its
pages, until the room is used. Contents of many pages would use all of it, or never fit: zeroes and the heaviest
are told apart, and a part of their pages is taken, half of the room together. In the script contents are numbered,
0 being zeroes; nothing of them, digests included, is in it.

The limits 256 and 1,024 bind contents of more pages than a table has frames. Such are laid in scripts of their own,
batch by batch, each merged before the next comes.
"""

import collections
import dataclasses
import heapq
import os
import subprocess
from collections.abc import Iterator

from .census import Census, Content, frames_once, merged, stretches
from .look import Look
from .piles import Owners
from .report import Checked
from .savings import Saving, Setting, grid, saving
from .trouble import NOT_AS_PROVED, Trouble

TOP = os.path.dirname(os.path.dirname(os.path.abspath(__file__)))
# ksmbook, where a checkout builds it, or where the package has it
PROGRAMS = [os.path.join(TOP, "crates", "ksm_tool", "out", "ksm_tool"),
            os.path.join(os.path.dirname(os.path.dirname(TOP)), "bin", "ksmbook")]
# the same of a host's size, which has room for all pages
HOST_PROGRAMS = [os.path.join(TOP, "release", "out", "host", "ksmbook-host"),
                 os.path.join(os.path.dirname(os.path.dirname(TOP)), "bin", "ksmbook-host")]


def built(paths: list[str]) -> str | None:
    """The first of these programs that is there."""
    return next((path for path in paths if os.access(path, os.X_OK)), None)


PROGRAM = built(PROGRAMS) or PROGRAMS[0]
# a table of ksmbook: nodes, and frames of each. Pages leave some over: while all are unmerged, a frame serves pages
# of its node and of others until the last of them has its own, so of several nodes less than half is used
MOST_NODES, FRAMES, ROOM_ALONE, ROOM = 4, 256, 240, 120
# a content of more pages is heavy, and so many contents are told apart
HEAVY, APART = 30, 4
# digits of a page's content
DIGITS = 128
PASSES = 4
# pages of contents that the limits from the least on bind, the most that are laid, and of a batch
LEAST_LARGE, BETWEEN, LARGE, LARGEST, BATCH = 256, 300, 1100, 2500, 100


@dataclasses.dataclass
class Excerpt:
    """Contents with their owners, and the nodes that they lie on by their numbers in the book."""
    nodes: list[int]
    contents: list[tuple[int, Owners]] = dataclasses.field(default_factory=list)
    apart: int = 0
    heaviest: int = 0

    def pages(self) -> int:
        """The pages of the excerpt."""
        return sum(sum(owners.values()) for _, owners in self.contents)

    def census(self) -> Census:
        """The census of the excerpt, on the nodes of the book."""
        census = Census([])
        for number, owners in self.contents:
            census.add(Content(owners), number == 0)
        return census

    def on_node(self, node: int) -> int:
        """The pages of a node."""
        return sum(times for _, owners in self.contents for (_, on), times in owners.items() if on == node)

    def room(self) -> int:
        """The most pages of a node."""
        return ROOM_ALONE if len(self.nodes) == 1 else ROOM

    def options(self) -> list[str]:
        """The options of ksmbook for it."""
        return ["--nodes", str(len(self.nodes)), "--frames", str(FRAMES)]


def cut(owners: Owners, nodes: list[int], most: int) -> Owners:
    """Of a content at most so many pages of each node."""
    room, part = dict.fromkeys(nodes, most), {}
    for (owner, node), times in owners.items():
        if taken := min(times, room.get(node, 0)):
            part[owner, node] = taken
            room[node] -= taken
    return part


def fits(excerpt: Excerpt, owners: Owners) -> bool:
    """Tells whether a content has room on each of its nodes."""
    return all(excerpt.on_node(node) + sum(times for (_, on), times in owners.items() if on == node) <= excerpt.room()
               for node in {on for _, on in owners})


def excerpt_of(look: Look, census: Census) -> Excerpt:
    """The excerpt of all pages, on the nodes that have most of them."""
    on = look.pages_by_node()
    nodes = sorted(sorted(on, key=on.get, reverse=True)[:MOST_NODES])
    return taken_of(census, nodes, light(look, nodes))


def taken_of(census: Census, nodes: list[int], others: Iterator[Owners]) -> Excerpt:
    """The excerpt of a census, on these nodes, and of the owners of contents that are not heavy."""
    taken = Excerpt(nodes)
    heavy = sorted((content for content in census.heaviest if content.copies > HEAVY and not content.is_zero),
                   reverse=True)
    apart = [(0, census.empty.owners)] * bool(census.empty.owners) + [
        (number, content.owners) for number, content in enumerate(heavy, 1)]
    taken.apart = min(len(apart), APART)
    taken.heaviest = max((round(content.copies) for content in census.heaviest), default=0)
    for number, owners in apart[:APART]:
        taken.contents.append((number, cut(owners, taken.nodes, taken.room() // (2 * taken.apart))))
    for number, owners in enumerate(others, APART + 1):
        if not fits(taken, owners):
            break
        taken.contents.append((number, owners))
    return taken


def contents_of(look: Look, number: int) -> dict[int, Content]:
    """The first contents of a pile, in the order of the digests."""
    contents: dict[int, Content] = collections.defaultdict(Content)
    frames_once(Census([]), look, number, contents)
    merged(look, number, contents, HEAVY)
    own = list(stretches(look, look.pile("own", number)))
    digests = set(contents).union(*(digests for _, _, digests, _ in own))
    wanted = set(heapq.nsmallest(MOST_NODES * ROOM_ALONE, digests))
    for owner, node, digests, _ in own:
        for digest, times in collections.Counter(filter(wanted.__contains__, digests)).items():
            contents[digest].add(owner, node, times)
    return {digest: contents[digest] for digest in sorted(wanted)}


def light(look: Look, nodes: list[int]) -> Iterator[Owners]:
    """The owners of the contents that are not heavy, on these nodes, in the order of the digests."""
    for number in range(look.piles):
        for digest, content in contents_of(look, number).items():
            there = {(owner, node): times for (owner, node), times in content.owners.items() if node in nodes}
            if there and digest != look.reader.zeroes and sum(content.owners.values()) <= HEAVY:
                yield there


def registrations(excerpt: Excerpt) -> Iterator[str]:
    """A line for each page: a guest is a process."""
    page = 0
    for number, owners in excerpt.contents:
        for (owner, node), times in owners.items():
            for _ in range(times):
                yield f"reg {owner} {page} {excerpt.nodes.index(node)} {number:0{DIGITS}x}"
                page += 1


def settled(setting: Setting, visits: int) -> list[str]:
    """The lines that unmerge all, set the knobs, merge, and ask for the counters."""
    return ["set run 2", *(f"set {knob} {value}" for knob, value in dataclasses.asdict(setting).items()), "set run 1",
            f"scan {visits}", "stat", "show ksm_zero_pages"]


def script_of(excerpt: Excerpt) -> list[str]:
    """The script: the pages, and for each setting what it comes to."""
    lines = list(registrations(excerpt))
    visits = PASSES * len(lines)
    for setting in grid(len(excerpt.nodes)):
        lines += settled(setting, visits)
    return lines


def counted(replies: list[str]) -> list[dict[str, int]]:
    """The counters that the replies tell, setting by setting."""
    found = []
    for stat, zero in zip(replies, replies[1:]):
        if stat.startswith("stat "):
            counters = {name: int(value) for name, value in (word.split("=") for word in stat.split()[1:])}
            found.append({**counters, "ksm_zero_pages": int(zero)})
    return found


def wanted(told: Saving) -> dict[str, int]:
    """The counters that the formulas give."""
    return {"shared": told.pages_shared, "sharing": told.pages_sharing, "unshared": told.pages_unshared,
            "ksm_zero_pages": told.ksm_zero_pages}


def large_of(taken: Excerpt) -> Excerpt:
    """Contents that the limits bind: zeroes, one of as many pages as the heaviest has, if that is a number the book
    has time for, and one between the limits."""
    most = min(max(taken.heaviest, LARGE), LARGEST)
    return Excerpt([0], [(number, {(number, 0): pages}) for number, pages in enumerate((BETWEEN, most, BETWEEN + 1))])


def batches(taken: Excerpt, setting: Setting) -> list[str]:
    """The lines that set the knobs, and lay the pages batch by batch, each merged before the next comes."""
    lines = [f"set {knob} {value}" for knob, value in dataclasses.asdict(setting).items()] + ["set run 1"]
    pages = list(registrations(taken))
    for first in range(0, len(pages), BATCH):
        laid = pages[first:first + BATCH]
        lines += [*laid, f"scan {PASSES * (first + len(laid))}"]
    return [*lines, "stat", "show ksm_zero_pages"]


def run(taken: Excerpt, lines: list[str], settings: list[Setting]) -> None:
    """Has the proved book carry the lines out, and compares its counters with those of the formulas, setting by
    setting. Trouble where they differ."""
    ran = subprocess.run([PROGRAM, *taken.options()], input="".join(f"{line}\n" for line in lines),
                         capture_output=True, text=True, check=False)
    found = counted(ran.stdout.splitlines())
    if ran.returncode or len(found) != len(settings):
        last = "".join(ran.stdout.splitlines()[-1:])
        raise Trouble(f"ksmbook did not count the excerpt: status {ran.returncode}, last reply {last!r}",
                      NOT_AS_PROVED)
    census = taken.census()
    for setting, counters in zip(settings, found):
        by_formula = wanted(saving(setting, census))
        if any(counters[name] != value for name, value in by_formula.items()):
            raise Trouble(f"with {setting} the proved book counts {counters} of the excerpt, "
                          f"the formulas {by_formula}", NOT_AS_PROVED)


def check(taken: Excerpt) -> Checked:
    """Has the proved book count the excerpt, with each setting, and contents that the large limits bind. Trouble
    where the counters are others than those of the formulas."""
    settings = grid(len(taken.nodes))
    run(taken, script_of(taken), settings)
    large = large_of(taken)
    binding = [setting for setting in grid(1) if setting.max_page_sharing >= LEAST_LARGE]
    for setting in binding:
        run(large, batches(large, setting), [setting])
    most = max(pages for _, owners in large.contents for pages in owners.values())
    return Checked(taken.pages(), taken.apart, len(settings) + len(binding), most)


def is_built() -> bool:
    """Tells whether there is a proved and built program."""
    return os.access(PROGRAM, os.X_OK)
