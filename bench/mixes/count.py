"""A direct count of what merging comes to: the pages are read one by one, and put on frames one by one."""

import collections
import mmap

from mixes import READ, Mix

PAGE = mmap.PAGESIZE


def read_directly(mix: Mix, children: dict[int, list[int]]) -> list[tuple[bytes, int]]:
    """The bytes and the node of each page that the children hold and the scan may take."""
    found = []
    for (pid, begins), pages in zip(children.items(), mix.processes):
        parts = [page for page in pages if not page.of_file], [page for page in pages if page.of_file]
        with open(f"/proc/{pid}/mem", "rb", 0) as memory:
            for begin, part in zip(begins, parts):
                for at, page in enumerate(part):
                    memory.seek(begin + at * PAGE)
                    if page.of_file != READ:
                        found.append((memory.read(PAGE), page.node))
    return found


class Tree:
    """The merged frames and the waiting pages of one tree."""

    def __init__(self):
        self.frames: dict[bytes, list[int]] = collections.defaultdict(list)
        self.waiting: set[bytes] = set()

    def add(self, content: bytes, limit: int) -> None:
        """A page comes: to a frame with room, to a page that waits, or to wait."""
        frames = self.frames[content]
        if frames and frames[-1] < limit:
            frames[-1] += 1
        elif content in self.waiting:
            self.waiting.remove(content)
            frames.append(2)
        else:
            self.waiting.add(content)

    def counters(self) -> tuple[int, int, int]:
        """Frames, pages beyond the first of each, and pages that wait."""
        sizes = [size for frames in self.frames.values() for size in frames]
        return len(sizes), sum(sizes) - len(sizes), len(self.waiting)


def counted(pages: list[tuple[bytes, int]], setting: dict[str, int]) -> dict[str, int]:
    """The counters that the pages come to with a setting."""
    trees: dict[int, Tree] = collections.defaultdict(Tree)
    zeroes = 0
    for content, node in pages:
        if setting["use_zero_pages"] and not any(content):
            zeroes += 1
        else:
            trees[0 if setting["merge_across_nodes"] else node].add(content, setting["max_page_sharing"])
    of_trees = [tree.counters() for tree in trees.values()]
    shared, sharing, unshared = (sum(numbers) for numbers in zip((0, 0, 0), *of_trees))
    return {"pages_shared": shared, "pages_sharing": sharing, "pages_unshared": unshared, "ksm_zero_pages": zeroes}
