"""All that is told, as one value."""

import dataclasses

from .areas import LeftOut
from .census import Census, Heavy, census_of
from .figures import Figure, Figures, figures_of
from .kernel import Kernel
from .look import Look, Seen
from .savings import Setting, grid, on_nodes
from .units import PAGE, megabytes

# how many processes the table tells one by one unless more are asked for, and the matrix
MOST_ROWS, MOST_IN_MATRIX = 12, 8
# the kernel's own settings where nobody changed them
DEFAULTS = Setting(256, 0, 1)


@dataclasses.dataclass
class Effort:
    """What it took: seconds of the clock and of all processors, workers, bytes of digests for each page read, and
    the seconds between two looks."""
    seconds: float
    processor: float
    workers: int
    digest_bytes: float
    again: float | None


@dataclasses.dataclass
class Laid:
    """A setting with which the proved book merged all pages, what it counts then, and what is counted here."""
    max_page_sharing: int
    use_zero_pages: int
    merge_across_nodes: int
    counted: dict[str, int]
    here: dict[str, int]


@dataclasses.dataclass
class Checked:
    """The excerpt that the proved book counted: its pages and settings, those that two further limits were tried
    with, and the contents told apart; or why there was none. Or all pages, with a row for each setting, the frames of
    the book, and how many settings wanted more; or why these were not laid."""
    pages: int = 0
    apart: int = 0
    settings: int = 0
    large: int = 0
    why_not: str = ""
    laid: list[Laid] = dataclasses.field(default_factory=list)
    frames: int = 0
    unfit: int = 0
    why_not_all: str = ""


@dataclasses.dataclass
class Report:
    """Everything that text, JSON and HTML tell."""
    kernel: Kernel
    only_marked: bool
    seen: list[Seen]
    refused: int
    left_out: LeftOut
    nodes_from: str
    are_frames_told: bool
    are_zeroes_told: bool
    figures: Figures
    by_node: dict[int, int]
    split: int
    shown: list[int]
    effort: Effort
    checked: Checked
    rows: int = MOST_ROWS

    @property
    def census(self) -> Census:
        """The census that the tables are from."""
        return self.figures.census

    @property
    def pages(self) -> float:
        """All pages, as many as there would be without KSM; each frame of a fork once."""
        return self.figures.pages

    @property
    def ended(self) -> list[Seen]:
        """The processes that ended while they were read."""
        return [seen for seen in self.seen if seen.has_ended]

    @property
    def already(self) -> float:
        """The pages that KSM saves among these processes by now."""
        return self.census.merged_pages - self.census.merged_frames + self.census.zeroed

    def alive(self) -> list[tuple[int, Seen]]:
        """The processes that were read, by their numbers."""
        return [(owner, seen) for owner, seen in enumerate(self.seen) if not seen.has_ended]

    def by_size(self) -> list[tuple[int, Seen]]:
        """The processes that were read, those with most memory first."""
        return sorted(self.alive(), key=lambda pair: -pair[1].pages)

    def answer(self) -> Figure:
        """What the machine's own setting saves."""
        now = setting_of(self.kernel)
        return next(figure for figure in self.figures.settings if figure.told.setting == now)

    def best(self) -> Figure:
        """What the best setting of the grid saves, after its cost; of equals the first."""
        return max(self.figures.settings, key=lambda of: of.told.saved * PAGE - of.told.cost)

    def recommended(self) -> Figure:
        """The setting that is worth to be switched on: the best one, if it saves over 1 MB and 1% more than the
        machine's own."""
        now, best = self.answer(), self.best()
        is_better = best.told.saved > 1.01 * now.told.saved and megabytes(best.told.saved - now.told.saved) > 1
        return best if is_better else now

    def total(self, name: str) -> int:
        """A count of each process, added up."""
        return sum(getattr(seen.counts, name) for _, seen in self.alive())

    def total_huge(self) -> int:
        """The pages of all processes that are parts of huge pages."""
        return sum(seen.space.huge for _, seen in self.alive())

    def maybe_pinned(self) -> int:
        """The pages that are pinned, of which it is not known which they are: those would not merge."""
        return sum(max(seen.pinned.pages - seen.counts.pinned, 0) for _, seen in self.alive()
                   if not seen.pinned.is_whole)

    def heaviest(self) -> list[Heavy]:
        """The heaviest contents, heaviest first."""
        return sorted(self.census.heaviest, key=lambda heavy: (-heavy.copies, heavy.number))

    def seconds_to_settle(self) -> float | None:
        """How long ksmd takes for two passes, as it is set; None where that is not known."""
        visits, pause = self.kernel.ksm.get("pages_to_scan"), self.kernel.ksm.get("sleep_millisecs")
        return 2 * self.answer().told.places * (pause / 1000) / visits if visits and pause else None


def setting_of(kernel: Kernel) -> Setting:
    """How the machine is set. On one node merge_across_nodes makes no difference, and is told as 1."""
    knobs = dataclasses.asdict(DEFAULTS)
    knobs.update((name, value) for name, value in kernel.ksm.items() if name in knobs)
    if len(kernel.nodes) == 1:
        knobs["merge_across_nodes"] = 1
    return Setting(**knobs)


def told_settings(kernel: Kernel) -> list[Setting]:
    """The settings of the grid, and the machine's own in its place among them."""
    return sorted({*grid(len(kernel.nodes)), setting_of(kernel)},
                  key=lambda of: (-of.merge_across_nodes, of.use_zero_pages, of.max_page_sharing))


def nodes_from(look: Look) -> str:
    """Where the nodes of the pages are from."""
    if len(look.nodes) == 1:
        return "the machine has one node"
    if look.are_nodes_told():
        return "numa_maps and move_pages"
    return "not told for each page: those are counted on the first node"


def report_of(look: Look, kernel: Kernel, refused: int, effort: Effort, rows: int = MOST_ROWS) -> Report:
    """What was seen, told; all but the check by the proved book."""
    alive = [owner for owner, seen in enumerate(look.seen) if not seen.has_ended]
    shown = sorted(alive, key=lambda owner: -look.seen[owner].pages)[:MOST_IN_MATRIX]
    now = setting_of(kernel)
    census = census_of(look, shown, now.max_page_sharing)
    figures = figures_of(look, census, told_settings(kernel), kernel)
    left_out = LeftOut()
    for owner in alive:
        left_out.add(look.seen[owner].space.left_out)
    for owner in alive:
        seen, zeroed = look.seen[owner], look.zeroed.get(owner, 0)
        seen.pages += zeroed - round(figures.census.again[owner])
        seen.space.marked += zeroed
    by_node = on_nodes(figures.census, now.max_page_sharing) if len(kernel.nodes) > 1 else {}
    return Report(kernel, look.only_marked, look.seen, refused, left_out, nodes_from(look), look.frames.are_told,
                  look.are_zeroes_told(), figures, by_node, look.zeroes("split").total(), shown, effort, Checked(),
                  rows)
