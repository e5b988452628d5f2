"""What each setting saves, as far as it is known: exactly where all was read; between two bounds where a sample was
taken, or where the reading was interrupted.

A sample takes contents by chance, each with all of its pages, so what it saves for each of its pages is an estimate
of the same of all, whose error follows from what its contents differ by. Where an interruption left blocks unread
the bounds are those of all ways to share that fit what was met.
"""

import dataclasses
import math

from .census import Census
from .estimate import ERRORS, Estimate, met_of
from .kernel import Kernel
from .look import Look
from .sampling import SURE
from .savings import Saving, Setting, saving

# the most that a content's chance of being missed counts
MOST_MISSED = 0.9
WHOLE, SAMPLE, INTERRUPTED, CUT = "whole", "sample", "interrupted", "cut"


@dataclasses.dataclass
class Figure:
    """What a setting saves, and in pages the least and the most that it may be."""
    told: Saving
    low: float
    high: float


@dataclasses.dataclass
class Figures:
    """All settings; how they are known; the part of the memory that was read, and of the contents that was taken;
    the pages that there are; and the census that the tables are from."""
    kind: str
    read: float
    taken: float
    pages: float
    census: Census
    settings: list[Figure]

    @property
    def is_exact(self) -> bool:
        """Tells whether all pages were counted."""
        return self.kind == WHOLE


def missed(copies: int, first: float) -> float:
    """For a content of so many copies that was taken for sure, how many of its kind were not, since the blocks that
    were read first had too few of them."""
    chance = sum(math.comb(copies, times) * first ** times * (1 - first) ** (copies - times)
                 for times in range(min(SURE, copies + 1)))
    return min(chance, MOST_MISSED) / (1 - min(chance, MOST_MISSED))


def error_of_sample(light: Census, setting: Setting, look: Look, times: float) -> float:
    """The standard error of what the contents save that a sample takes by chance: by what those taken differ by from
    their mean, and by what those would count that may have been missed."""
    limit, pages, part = setting.max_page_sharing, light.pages(), look.sampler.part
    if not pages:
        return 0.0

    def saved(copies: int) -> int:
        return copies - math.ceil(copies / limit)

    rate = sum(saved(copies) * contents for copies, contents in light.together.items()) / pages
    squares = sum(contents * (saved(copies) - rate * copies) ** 2 for copies, contents in light.together.items())
    heavy = sum(contents * missed(copies, look.sampler.first) * (saved(copies) - rate * copies) ** 2
                for copies, contents in light.sure.together.items())
    return math.sqrt((1 - part) * (squares * times * times + heavy / part))


def of_sample(look: Look, light: Census, settings: list[Setting], split: int) -> Figures:
    """The figures of a sample: contents taken for sure as they are, the others as many times as they stand for."""
    sure, part = light.sure, look.sampler.part
    known = sure.pages() - sure.zeroed + sure.empty.again + sure.mapped_again()
    met, taken = sum(seen.pages for seen in look.seen), light.pages() + light.mapped_again()
    times = max(met - known, 0) / taken if taken else 0.0
    whole = Census([])
    whole.shown = light.shown
    for other in sure, light.scaled(times):
        whole.merge(other)
    whole.zeroed = sure.zeroed
    figures = []
    for setting in settings:
        told = saving(setting, whole, len(look.seen), split, beside(look))
        off = ERRORS * error_of_sample(light, setting, look, times)
        figures.append(Figure(told, max(told.saved - off, 0), told.saved + off))
    return Figures(CUT if look.is_interrupted else SAMPLE, look.part_read(), part, whole.pages(), whole, figures)


def of_interrupted(look: Look, census: Census, settings: list[Setting], split: int) -> Figures:
    """The figures of what was read before an interruption."""
    places = census.pages() - census.zeroed + census.mapped_again() + census.empty.again
    part = min(max(places / max(look.pages(), 1), 1e-6), 1.0)
    pages = (census.pages() - census.zeroed) / part
    blocks = places / look.plan.whole
    by_trees = {across: Estimate(met_of(look, not across), pages, part, look.rounds, blocks)
                for across in {setting.merge_across_nodes for setting in settings}}
    figures = []
    for setting in settings:
        told = saving(setting, census, len(look.seen), split, beside(look)).scaled(1 / part)
        low, high = by_trees[setting.merge_across_nodes].saved(setting)
        told.merged = (low + high) / 2 - told.ksm_zero_pages - told.split
        figures.append(Figure(told, low, high))
    return Figures(INTERRUPTED, part, 1.0, pages, census, figures)


def beside(look: Look) -> int:
    """The pages that the scan meets and does not merge."""
    return sum(seen.counts.pinned + seen.counts.changed for seen in look.seen if not seen.has_ended)


def figures_of(look: Look, census: Census, settings: list[Setting], kernel: Kernel) -> Figures:
    """What each of these settings saves."""
    split = look.zeroes("split").total() if kernel.splits_zeroes() else 0
    if look.sampler:
        return of_sample(look, census, settings, split)
    if look.is_interrupted:
        return of_interrupted(look, census, settings, split)
    told = [saving(setting, census, len(look.seen), split, beside(look)) for setting in settings]
    return Figures(WHOLE, 1.0, 1.0, census.pages(), census, [Figure(one, one.saved, one.saved) for one in told])
