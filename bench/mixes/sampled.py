"""Ten mixes of memory, sampled and read as a whole: whether the whole lies within the bounds of the sample, and how
far these are apart."""

import json
import random
from collections.abc import Callable, Iterator

import behaviour
import holder
from mixes import Mix, Page, different

PERCENT = 5
# bounds of a figure are less far apart than this part of it
WIDEST = 0.25
MARK = 1 << 40


def mixed(pages: list[Page], processes: int) -> list[list[Page]]:
    """Pages in an order of chance, dealt out."""
    random.Random(len(pages)).shuffle(pages)
    return [pages[first::processes] for first in range(processes)]


def copies(count: int, of: int) -> list[Page]:
    """So many pages, of contents with so many copies each."""
    return [Page(MARK * of + i // of) for i in range(count)]


def zipf(count: int) -> list[Page]:
    """So many pages, the k-th content of which has a k-th of the copies of the first."""
    heaviest, found = count // 10, []
    for k in range(1, count):
        found += [Page(MARK + k)] * max(heaviest // k, 1)
        if len(found) >= count:
            break
    return found[:count]


def in_runs(count: int) -> list[Page]:
    """Zeroes in runs among pages that differ."""
    return [Page(0) if i % 1000 < 300 else Page(MARK + i) for i in range(count)]


def clones(count: int, guests: int) -> list[list[Page]]:
    """Guests that began as copies of one image, whose first half they still have in the same order."""
    half = count // guests // 2
    return [different(half, MARK) + different(half, 2 * MARK + guest * half) for guest in range(guests)]


def mixes(count: int) -> Iterator[Mix]:
    """The ten, of so many pages each."""
    def mix(name: str, make: Callable[[], list[list[Page]]]) -> Mix:
        return Mix(name, make())

    alone = different(count // 2, 10 * MARK)
    yield mix("pairs", lambda: mixed(copies(count // 2, 2) + alone, 3))
    yield mix("few pairs", lambda: mixed(copies(count // 5, 2) + different(count, 10 * MARK), 3))
    yield mix("threes", lambda: mixed(copies(count // 2, 3) + alone, 3))
    yield mix("eight copies", lambda: mixed(copies(count // 2, 8) + alone, 8))
    yield mix("fifty copies", lambda: mixed(copies(count // 2, 50) + alone, 4))
    yield mix("two to thirty copies", lambda: mixed(
        [page for of in range(2, 31) for page in copies(count // 50, of)] + alone, 4))
    yield mix("Zipf", lambda: mixed(zipf(count // 2) + alone, 4))
    yield mix("a few heavy contents", lambda: mixed([Page(MARK + i % 3) for i in range(count // 3)] + alone, 4))
    yield mix("zeroes in runs", lambda: [in_runs(count // 2), in_runs(count // 2)])
    yield mix("clones of one image", lambda: clones(count, 4))


def tried(mix: Mix) -> tuple[bool, bool]:
    """Measures a mix as a whole and by a sample: whether the whole lies within the bounds for each setting, and
    whether these are near enough to each other."""
    children = holder.start_all(mix, is_bound=False)
    words = ["--mergeable", "--no-check", "--json"]
    try:
        whole, part = (json.loads(behaviour.measure(*words, *more, *map(str, children)).stdout)
                       for more in ([], ["--sample", str(PERCENT)]))
    finally:
        holder.end_all(children)
    pairs = list(zip(whole["settings"], part["settings"]))
    within = [of["saved_from_mb"] <= row["saved_mb"] <= of["saved_to_mb"] for row, of in pairs]
    width = max((of["saved_to_mb"] - of["saved_from_mb"]) / max(of["saved_mb"], 1) for _, of in pairs)
    efforts = [told["effort"] for told in (whole, part)]
    print(f"{mix.name}: {whole['pages']:,} pages, {sum(within)} of {len(within)} settings within their bounds, which "
          f"are at most {100 * width:.1f}% of the figure apart; processors' seconds {efforts[0]['processor']:.1f} and "
          f"{efforts[1]['processor']:.1f}, bytes a page {efforts[0]['digest_bytes']:.1f} and "
          f"{efforts[1]['digest_bytes']:.1f}", flush=True)
    return all(within), width < WIDEST


def all_tried(megabytes: int) -> bool:
    """Tries the ten mixes, of so many megabytes each. True where the whole lies within in nine of them, and all bounds
    are near enough."""
    told = [tried(mix) for mix in mixes(megabytes << 8)]
    count = sum(is_within for is_within, _ in told)
    print(f"{count} of {len(told)} within, {sum(is_near for _, is_near in told)} near")
    return count >= 9 and all(is_near for _, is_near in told)
