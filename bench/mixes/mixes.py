"""Mixes of memory, each the pages of some processes, that `measure` is tried on."""

import dataclasses
import random

# a page that is mapped from a file and only read, and one that is written then
READ, WRITTEN = "read", "written"


@dataclasses.dataclass(frozen=True)
class Page:
    """A page by the number of its content, 0 being zeroes, and its node; of a file, whether it is written."""
    content: int
    node: int = 0
    of_file: str = ""


@dataclasses.dataclass(frozen=True)
class Mix:
    """A name, and for each process its pages. With `common` pages the first process is the others' parent, which wrote
    these before it forked them, and all have their own pages at one address. Pages may be made of huge ones, and so
    many of each process's first are pinned by io_uring."""
    name: str
    processes: list[list[Page]]
    common: tuple[Page, ...] = ()
    is_huge: bool = False
    pinned: int = 0

    def pages(self) -> list[Page]:
        """All pages, process by process."""
        return [page for pages in self.processes for page in pages]


def different(count: int, begin: int) -> list[Page]:
    """Pages none of which is equal to another."""
    return [Page(begin + i) for i in range(count)]


def dealt(pages: list[Page], processes: int, seed: int) -> list[list[Page]]:
    """The pages in an order of chance, dealt out to so many processes."""
    mixed = list(pages)
    random.Random(seed).shuffle(mixed)
    return [mixed[first::processes] for first in range(processes)]


def zipf(heaviest: int, groups: int, begin: int) -> list[Page]:
    """Groups of equal pages whose sizes fall as Zipf's law has it: the k-th is a k-th of the heaviest."""
    return [Page(begin + k) for k in range(1, groups + 1) for _ in range(max(heaviest // k, 1))]


def on_nodes(pages: list[Page], seed: int) -> list[Page]:
    """The same pages, each on one of two nodes by chance."""
    chance = random.Random(seed)
    return [dataclasses.replace(page, node=chance.randrange(2)) for page in pages]


def of_files() -> list[list[Page]]:
    """Anonymous pages, and pages of a file that read the same: those only read are the page cache's, those
    written are not."""
    mapped = [Page(9000 + i % 40, of_file=READ if i % 4 else WRITTEN) for i in range(1200)]
    return [dealt([Page(9000 + i % 40) for i in range(900)] + different(300, 20000), 1, 3)[0] + mapped,
            dealt([Page(9000 + i % 60) for i in range(900)], 1, 4)[0] + mapped]


def of_workers(workers: int, equal: int, different_: int) -> list[list[Page]]:
    """Workers that have some contents in common and some alone."""
    return [[Page(7000 + i) for i in range(equal)] + different(different_, 100000 + 1000 * number)
            for number in range(workers)]


def of_huge_pages(zeroes: int, equal: int) -> list[Page]:
    """Four huge pages with so many zeroes each, and so many contents that all of them have."""
    return [page for number in range(4)
            for page in ([Page(0)] * zeroes + [Page(8000 + i) for i in range(equal)]
                         + different(512 - zeroes - equal, 100000 + 1000 * number))]


# only a kernel tells what becomes of these
HARD = [
    Mix("60 workers at one address", of_workers(60, 60, 30), common=tuple(different(50, 90000))),
    Mix("forks that have copies", of_workers(4, 100, 50), common=tuple(Page(7000 + i) for i in range(100))),
    Mix("huge pages without zeroes", [of_huge_pages(0, 300), of_huge_pages(0, 200)], is_huge=True),
    Mix("huge pages with zeroes", [of_huge_pages(100, 200), of_huge_pages(200, 100)], is_huge=True),
    Mix("pinned pages", [[Page(7000 + i) for i in range(700)], [Page(7000 + i) for i in range(700)]], pinned=300),
]

MIXES = [
    Mix("none equal", [different(1500, 1000), different(1500, 5000)]),
    Mix("all equal", [[Page(7)] * 1200, [Page(7)] * 1201]),
    Mix("10,000 pages of one content", [[Page(7)] * 10000 + different(400, 1000), different(200, 5000)]),
    Mix("10,000 pages of zeroes", [[Page(0)] * 6000 + different(300, 1000), [Page(0)] * 4000 + different(300, 5000)]),
    Mix("groups with Zipf sizes", dealt(zipf(900, 1400, 1000) + [Page(0)] * 250, 3, 1)),
    Mix("file mappings beside", of_files()),
    Mix("two nodes", [on_nodes(pages, seed) for seed, pages in
                      enumerate(dealt(zipf(700, 500, 1000) + [Page(0)] * 600 + different(300, 50000), 2, 2))]),
]
