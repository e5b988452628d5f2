"""What the pages of a random script are, round by round, as far as its restrictions need it."""

import collections
import dataclasses

NODES = 2


@dataclasses.dataclass(eq=False)
class Page:
    """A registered page. `is_zeroed` says that it is mapped from the zero page, and `had` are the contents that it had
    since it was registered."""
    guest: int
    number: int
    node: int
    content: str
    is_mergeable: bool = True
    is_zeroed: bool = False
    had: set = dataclasses.field(default_factory=set)

    def __str__(self):
        return f"{self.guest} {self.number}"


@dataclasses.dataclass
class Crowd:
    """The pages of a content that may have more pages than the limit, by their dups: how many dups are full,
    the items of the one with room, and whether a page waits."""
    full: int = 0
    part: int = 0
    waits: int = 0

    def come(self, count, limit):
        """So many pages come: they fill the dup with room, and then new ones."""
        if self.part:
            taken = min(count, limit - self.part)
            self.part, count = self.part + taken, count - taken
            if self.part == limit:
                self.full, self.part = self.full + 1, 0
        count += self.waits
        self.waits = 0
        if self.part or not count:
            return
        self.full += count // limit
        rest = count % limit
        self.part, self.waits = (rest, 0) if rest > 1 else (0, rest)

    def leave(self, limit):
        """A page leaves, where each dup is full. The page that waits takes its place."""
        if self.waits:
            self.waits = 0
        else:
            self.full, self.part = self.full - 1, limit - 1


class Round:
    """What the lines of a round did: the pages that came to a content and went from one."""

    def __init__(self):
        self.came = collections.Counter()
        self.went = collections.Counter()
        self.touched = set()
        self.left = {}
        self.is_fresh = True


class Pages:
    """The pages that are registered, those that are merged, and what the round did so far."""

    def __init__(self, crowd_contents, zeroes):
        self.crowd_contents = crowd_contents
        self.zeroes = zeroes
        self.pages = {}
        self.merged = collections.defaultdict(set)
        self.crowds = collections.defaultdict(Crowd)
        self.across, self.limit, self.zero_knob = 1, 256, 0
        self.round = Round()

    def tree(self, node):
        """The tree of a node."""
        return 0 if self.across else node

    def key(self, page, content=None):
        """The tree and the content by which a page is found: its own, or another one."""
        return self.tree(page.node), content or page.content

    def is_crowd(self, content):
        """Tells whether more pages than the limit may have the content."""
        return content in self.crowd_contents

    def has_dup(self, key):
        """Tells whether there is a dup."""
        crowd = self.crowds.get(key, Crowd())
        return bool(self.merged[key] or crowd.full or crowd.part)

    def is_shared(self):
        """Tells whether there is any dup."""
        return any(self.has_dup(key) for key in {*self.merged, *self.crowds})

    def has_merged_zeroes(self):
        """Tells whether pages of zeroes are merged with each other."""
        return any(pages for (_, content), pages in self.merged.items() if content == self.zeroes)

    def count_of(self, content):
        """Pages that have a content, or had it when the round began, and those that came to it."""
        return self.round.came[content] + sum(
            content == page.content and page not in self.round.touched for page in self.pages.values()
        ) + self.round.went[content]

    def own_pages(self, guest):
        """The pages of a guest."""
        return [page for page in self.pages.values() if page.guest == guest]

    def mergeable_count(self):
        """How many pages are mergeable."""
        return sum(page.is_mergeable for page in self.pages.values())

    def note_leaving(self, page):
        """A page goes from its content."""
        key = self.key(page)
        page.is_zeroed = False
        self.merged[key].discard(page)
        self.round.touched.add(page)
        self.round.went[page.content] += 1
        self.round.went[key] += 1
        if self.is_crowd(page.content):
            self.round.is_fresh = False

    def note_coming(self, page):
        """A page comes to its content."""
        key = self.key(page)
        if self.has_dup(key) or page.content in page.had:
            self.round.is_fresh = False
        page.had.add(page.content)
        self.round.touched.add(page)
        self.round.came[page.content] += 1
        self.round.came[key] += 1

    def limit_is_set(self, value):
        """max_page_sharing is set, where that is allowed."""
        if value >= 2 and not self.is_shared():
            self.limit = value

    def across_is_set(self, value):
        """Pages of other trees come to each other."""
        if value >= 2 or self.is_shared():
            return
        self.across = value
        self.merged.clear()
        self.crowds.clear()
        for page in self.pages.values():
            if page.is_mergeable and self.is_crowd(page.content):
                self.round.came[self.key(page)] += 1

    def settle(self):
        """What the pages are after two passes."""
        members = collections.defaultdict(list)
        for page in self.pages.values():
            if page.is_mergeable and page.content == self.zeroes and page not in self.merged[self.key(page)]:
                page.is_zeroed |= self.zero_knob == 1
            if page.is_mergeable and not page.is_zeroed:
                members[self.key(page)].append(page)
        for key in {*members, *self.merged}:
            pages = members[key]
            if not self.is_crowd(key[1]):
                self.merged[key] = set(pages) if self.merged[key] or len(pages) > 1 else set()
        for content in self.crowd_contents:
            for node in range(NODES):
                self.settle_crowd((node, content))
        self.round = Round()

    def settle_crowd(self, key):
        """What the pages of a crowded content are after two passes."""
        if self.round.went[key]:
            self.crowds[key].leave(self.limit)
        self.crowds[key].come(self.round.came[key], self.limit)
