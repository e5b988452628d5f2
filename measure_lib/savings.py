"""What each setting of KSM saves, and what that costs.

Once the scan has gone over pages that stay as they are, those of one content (and with `merge_across_nodes` 0
of one node) are merged as far as `max_page_sharing` allows: of n pages and a limit of m stay as many frames as
m goes into n, rounded up. A last page that is alone beyond full frames stays as it is. With `use_zero_pages` 1
no frame stays of pages of zeroes; and where the kernel splits a huge page, some kernels give its zeroes back
whatever KSM's settings are, and no counter of KSM has them.

The kernel counts places, not frames: of a frame that k processes map since a fork, each place is one page to
`pages_sharing` once it is merged, and k to the limit.
"""

import collections
import dataclasses

from .census import Census

LIMITS = (2, 16, 256, 1024)
# bytes of a reverse-map item (one for each place that the scan met), of a stable node (one for each KSM page, and for
# each content that has several), and of a process that is scanned, on a 64-bit kernel: struct ksm_rmap_item, struct
# ksm_stable_node and struct ksm_mm_slot of mm/ksm.c
ITEM_BYTES, NODE_BYTES, SLOT_BYTES = 64, 64, 64


@dataclasses.dataclass(frozen=True)
class Setting:
    """The knobs that decide what is merged, by the kernel's names."""
    max_page_sharing: int
    use_zero_pages: int
    merge_across_nodes: int


@dataclasses.dataclass
class Saving:
    """What the kernel's counters come to with a setting: KSM pages, places saved by them, pages left alone,
    pages mapped from the page of zeroes; contents that have several KSM pages; and in frames what is saved, what of
    that are zeroes that a split gives back, and what may be less, as the order of the scan has it. `places` are all
    that the scan meets, of so many processes."""
    setting: Setting
    places: int
    processes: int = 0
    pages_shared: int = 0
    pages_sharing: int = 0
    pages_unshared: int = 0
    ksm_zero_pages: int = 0
    chains: int = 0
    merged: int = 0
    split: int = 0
    by_order: int = 0

    def add(self, copies: int, contents: int, again: int = 0) -> None:
        """Adds contents with so many copies each, whose frames so many places map again since a fork."""
        limit = self.setting.max_page_sharing
        full, rest = divmod(copies, limit)
        shared, saved = full + (rest > 1), copies - full - (rest > 0)
        self.pages_shared += shared * contents
        self.merged += saved * contents
        self.pages_sharing += (saved + again * (copies > 1)) * contents
        self.pages_unshared += (rest == 1) * contents
        self.chains += (shared > 1) * contents
        if again and copies > 1 and copies + again > limit:
            more = -(-(copies + again) // limit) + again - (copies - saved)
            self.by_order += min(saved, more) * contents

    def scaled(self, by: float) -> "Saving":
        """The same of so many times as much memory."""
        numbers = {field.name: getattr(self, field.name) * by for field in dataclasses.fields(self)
                   if field.name not in ("setting", "processes")}
        return dataclasses.replace(self, **numbers)

    @property
    def saved(self) -> int:
        """The pages of memory that are saved."""
        return self.merged + self.ksm_zero_pages + self.split

    @property
    def cost(self) -> int:
        """The bytes of the kernel's own that it takes at most."""
        return (self.places * ITEM_BYTES + (self.pages_shared + self.chains) * NODE_BYTES
                + self.processes * SLOT_BYTES)


def grid(nodes: int) -> list[Setting]:
    """The settings that are told. On one node `merge_across_nodes` makes no difference."""
    return [Setting(limit, zero, across)
            for across in ((1, 0) if nodes > 1 else (1,)) for zero in (0, 1) for limit in LIMITS]


def histogram(census: Census, across: int) -> "collections.Counter[int]":
    """The contents by their copies: of all nodes, or of each by itself."""
    if across:
        return census.together
    found: collections.Counter[int] = collections.Counter()
    for by_copies in census.histograms.values():
        found.update(by_copies)
    return found


def saving(setting: Setting, census: Census, processes: int = 0, split: int = 0, beside: int = 0) -> Saving:
    """What a setting saves. Of the zeroes so many are given back as their huge pages are split, which is done where
    two are: none is left to KSM's counters. The scan meets so many pages beside, which do not merge."""
    told = Saving(setting, census.pages() + census.mapped_again() + census.empty.again + beside, processes)
    for copies, contents in histogram(census, setting.merge_across_nodes).items():
        told.add(copies, contents)
    for (copies, again), contents in census.forked.items():
        told.add(copies, -contents)
        told.add(copies, contents, again)
    add_zeroes(told, census, split)
    return told


def add_zeroes(told: Saving, census: Census, split: int) -> None:
    """Adds the pages of zeroes."""
    by_node, again = census.zeroes_by_node(), census.empty.again
    told.split = split if split > 1 or told.setting.use_zero_pages else 0
    left = by_node.total() - told.split
    if told.setting.use_zero_pages:
        told.ksm_zero_pages = left
    elif told.setting.merge_across_nodes:
        if left:
            told.add(left, 1, again)
    else:
        given = told.split
        for copies in sorted(by_node.values(), reverse=True):
            less = min(given, copies)
            given -= less
            if copies > less:
                told.add(copies - less, 1)


def on_nodes(census: Census, limit: int) -> dict[int, int]:
    """The frames that merging each node by itself saves, node by node: `merge_across_nodes` 0."""
    found = {}
    zeroes = census.zeroes_by_node()
    for node in sorted({*census.histograms, *zeroes}):
        told = Saving(Setting(limit, 0, 0), 0)
        for copies, contents in census.histograms[node].items():
            told.add(copies, contents)
        if zeroes[node]:
            told.add(zeroes[node], 1)
        found[node] = told.merged
    return found
