"""What ksmd does, as mm/ksm.c of Linux 6.1 to 7.3 has it, with a switch for each difference from ksmbook (switches.py).

Each method names the function of mm/ksm.c that it follows. `self.linux(NAME)` asks whether the model does there what
the kernel does; else it does what ksmbook does. Not here: swap and huge pages. Where a merged page makes a dup with
another, or a page that is held from outside would be merged, Unknown is raised. Freed is raised where the kernel would
read memory that it freed: it searches an unstable tree that was not emptied when the pass began.
"""

import dataclasses

from switches import switches_of
from tree import Node, Tree

NODES = 2
PLACES = 512  # of ksmbook, as compare starts it


class Unknown(Exception):
    """What the model does not have."""


class Freed(Unknown):
    """The kernel would read memory that it freed."""


@dataclasses.dataclass(eq=False)
class Frame:
    """A frame of memory: how many pages are mapped from it, how often it is held from outside, and its stable node once
    it is merged."""
    node: int
    mapped: int = 0
    holds: int = 0
    dup: "Dup | None" = None


ZERO_PAGE = Frame(-1)


@dataclasses.dataclass(eq=False)
class Page:
    """A place of a guest's memory, which may have no frame. `checksum` is kept where its item is not, `first_frame` is
    the frame that it was registered on."""
    guest: int
    number: int
    home: int = 0
    content: str = ""
    frame: Frame | None = None
    first_frame: Frame | None = None
    is_registered: bool = False
    is_mergeable: bool = False
    item: "Item | None" = None
    checksum: str | None = None

    def is_there(self):
        """Tells whether the scan meets it."""
        return self.is_mergeable and self.frame is not None and not self.is_zeroed()

    def is_merged(self):
        """Tells whether it is mapped from a stable node's frame."""
        return self.frame is not None and self.frame.dup is not None

    def is_zeroed(self):
        """Tells whether it is mapped from the zero page."""
        return self.frame is ZERO_PAGE

    def set_frame(self, frame):
        """Maps another frame, or none."""
        if self.frame:
            self.frame.mapped -= 1
        if frame:
            frame.mapped += 1
        self.frame = frame

    def copy(self):
        """The page of a copy of its process."""
        copy = dataclasses.replace(self, frame=None, item=None, checksum=None)
        copy.set_frame(self.frame)
        return copy


@dataclasses.dataclass(eq=False)
class Item:
    """struct ksm_rmap_item. `waits` is the item's place in an unstable tree: its node, the tree's node and the pass.
    `is_touched` says that the page was written, dropped or moved since the item came to its dup or to wait."""
    page: Page
    checksum: str | None = None
    age: int = 0
    skips: int = 0
    dup: "Dup | None" = None
    waits: tuple | None = None
    is_touched: bool = False


@dataclasses.dataclass(eq=False)
class Dup:
    """struct ksm_stable_node: a frame and its items. It is linked in a chain, or else in the tree of a memory node, or
    else listed as one that migrates from tree to tree. `number` and `place` are ksmbook's."""
    frame: Frame
    content: str
    tree: int
    number: int
    place: int
    items: list = dataclasses.field(default_factory=list)
    chain: "Chain | None" = None
    node: Node | None = None
    migrates: bool = False


@dataclasses.dataclass(eq=False)
class Chain:
    """A chain of dups of one content, the newest first."""
    node: Node
    dups: list = dataclasses.field(default_factory=list)

    def add(self, dup):
        """stable_node_chain_add_dup"""
        dup.chain = self
        self.dups.insert(0, dup)


class Ksmd:
    """The kernel's KSM over the pages of some guests, a list each in order. `switches` are those that are on."""

    def __init__(self, guests, zeroes, version, switches=frozenset()):
        self.guests, self.zeroes, self.is_61 = guests, zeroes, version < (6, 4)
        self.off = switches_of(version) - frozenset(switches)
        self.knobs = {"run": 0, "merge_across_nodes": 1, "max_page_sharing": 256, "use_zero_pages": 0,
                      "smart_scan": 0, "stable_node_chains_prune_millisecs": 0}
        self.stable, self.unstable, self.emptied = [Tree(), Tree()], [Tree(), Tree()], [None, None]
        self.passes, self.chains, self.migrating, self.dups, self.made = 0, [], [], [], 0
        self.steps, self.visited = None, None

    def linux(self, name):
        """Tells whether a difference is as in Linux."""
        return name in self.off

    # The stable tree.

    def tree_of(self, frame):
        """get_kpfn_nid"""
        return 0 if self.knobs["merge_across_nodes"] else frame.node

    def item_count(self, dup):
        """The items of a dup; in ksmbook without those whose page has left it."""
        if self.linux("late-room"):
            return len(dup.items)
        return sum(item.page.frame is dup.frame for item in dup.items)

    def has_room(self, dup, offset=0):
        """__is_page_sharing_candidate"""
        return 0 < self.item_count(dup) and self.item_count(dup) + offset < self.knobs["max_page_sharing"]

    def is_there(self, dup):
        """ksm_get_folio: a dup whose frame went is taken down. In ksmbook it stays."""
        if dup.frame.mapped or not self.linux("stale-dropped"):
            return True
        self.take_down(dup)
        return False

    def take_down(self, dup):
        """remove_node_from_stable_tree"""
        for item in list(dup.items):
            self.leave(item)
        self.unlink(dup)
        self.dups.remove(dup)

    def leave(self, item):
        """An item is listed from its dup no longer. From 7.3 on what is known of its page is lost: these fields have
        another number meanwhile."""
        item.dup.items.remove(item)
        item.dup = None
        if self.linux("merge-forgets"):
            item.checksum, item.age, item.skips = None, 0, 0

    def unlink(self, dup):
        """stable_node_dup_del, and list_del of one that migrates"""
        if dup.migrates:
            self.migrating.remove(dup)
        elif dup.chain:
            dup.chain.dups.remove(dup)
            if not self.linux("stale-dropped"):
                self.collapse(dup.chain, dup.tree)
        else:
            self.stable[dup.tree].erase(dup.node)
        dup.migrates, dup.chain, dup.node = False, None, None

    def collapse(self, chain, tree):
        """A chain of one dup becomes a plain node, and one of none goes."""
        if len(chain.dups) > 1:
            return
        self.chains.remove(chain)
        if not chain.dups:
            self.stable[tree].erase(chain.node)
        for dup in chain.dups:
            dup.chain, dup.node, chain.node.value = None, chain.node, dup

    def migrate(self, dup):
        """A dup that lies on another node than its tree's goes to the list `migrate_nodes`."""
        self.unlink(dup)
        dup.migrates = True
        self.migrating.append(dup)

    def take_off(self, item):
        """remove_rmap_item_from_tree"""
        if item.dup and self.is_there(item.dup):
            self.leave(item)
        elif item.waits and item.waits[2] == self.passes:
            self.unstable[item.waits[1]].erase(item.waits[0])
        item.waits = None

    def comes_before(self, dup, found):
        """Tells whether a dup is to be joined rather than the one that was found before it in a chain."""
        if not self.has_room(dup) or not found or not self.has_room(found):
            return not found or self.has_room(dup)
        ours, theirs = (self.item_count(dup), -dup.number), (self.item_count(found), -found.number)
        return ours[0] > theirs[0] if self.linux("tie-to-newest") else ours > theirs

    def fullest(self, chain, prunes):
        """stable_node_dup: of the dups with room the one with the most items, or any; none where all went."""
        found = None
        for dup in list(chain.dups):
            if not self.is_there(dup) or not self.comes_before(dup, found):
                continue
            found = dup
            if not prunes and self.has_room(found) and self.linux("first-with-room"):
                break
        return found

    def pick(self, tree, node, prunes):
        """__stable_node_chain: a dup of a node's, none where all went."""
        if isinstance(node.value, Dup):
            return node.value if self.is_there(node.value) else None
        chain = node.value
        found = self.fullest(chain, prunes)
        if chain not in self.chains:
            return found
        if len(chain.dups) == 0 or len(chain.dups) == 1 and (not self.is_61 or prunes and self.has_room(found)):
            self.collapse(chain, tree)
        elif chain.dups[0] is not found and self.has_room(found, 1):
            chain.dups.remove(found)
            chain.dups.insert(0, found)
        return found

    def find(self, tree, content, prunes):
        """The node of a content and a dup of it; or no node, and the node and the side where one would hang. What went
        is taken down on the way, and the search begins again."""
        parent, side, node = None, 0, self.stable[tree].root
        while node:
            dup = self.pick(tree, node, prunes)
            if not dup:
                return self.find(tree, content, prunes)
            if dup.content == content:
                return node, dup
            parent, side = node, int(content > dup.content)
            node = node.kids[side]
        return None, (parent, side)

    def search(self, page):
        """stable_tree_search: a dup that has room. A page's own dup is filed where it migrates; and a dup that is found
        on another node than its tree's leaves the tree."""
        own, tree = page.frame.dup, self.tree_of(page.frame)
        node, dup = self.find(tree, page.content, not self.knobs["stable_node_chains_prune_millisecs"])
        if node and not (own and page.frame.mapped > 1):
            if not self.has_room(dup):
                return None
            if self.tree_of(dup.frame) == dup.tree:
                return dup
            self.migrate(dup)
            node, dup = self.find(tree, page.content, False) if own else (None, None)
        if own:
            self.link(own, tree, node, dup)
        return own if own and self.has_room(own) else None

    def link(self, dup, tree, node, place):
        """Files a dup: in a chain where its content has a node in the tree already, and else at a place of the tree."""
        if dup.migrates:
            self.unlink(dup)
        dup.tree = tree
        if not node:
            dup.node = Node(dup)
            self.stable[tree].link(dup.node, *place)
            return
        if isinstance(node.value, Dup):
            first, node.value = node.value, Chain(node)
            self.chains.append(node.value)
            node.value.add(first)
        node.value.add(dup)

    def insert(self, page):
        """stable_tree_insert: a new dup, on the page's frame. ksmbook has so many places: else a stale dup goes."""
        free = set(range(PLACES)) - {dup.place for dup in self.dups}
        if not free and not self.linux("stale-dropped"):
            self.take_down(min((dup for dup in self.dups if not dup.frame.mapped), key=lambda dup: dup.place))
            return self.insert(page)
        tree = self.tree_of(page.frame)
        node, place = self.find(tree, page.content, False)
        page.frame.dup = Dup(page.frame, page.content, tree, self.made, min(free, default=PLACES))
        self.made += 1
        self.dups.append(page.frame.dup)
        self.link(page.frame.dup, tree, node, place)
        return page.frame.dup

    def prune(self):
        """Drops each stale dup, as ksmbook does. How many there were."""
        if self.linux("stale-dropped"):
            return 0
        stale = [dup for dup in self.dups if not dup.frame.mapped]
        for dup in stale:
            self.take_down(dup)
        return len(stale)

    # A visit.

    def join(self, item, dup):
        """try_to_merge_with_ksm_page and stable_tree_append"""
        self.map(item.page, dup.frame)
        item.dup, item.is_touched = dup, False
        dup.items.insert(0, item)

    def map(self, page, frame):
        """try_to_merge_one_page: nobody but those that map the page may hold it."""
        if page.frame.holds and page.frame is not frame:
            raise Unknown("a page that is held from outside")
        page.set_frame(frame)

    def has_changed(self, item):
        """Compares the checksum, and keeps it."""
        has_changed, item.checksum = item.checksum != item.page.content, item.page.content
        return has_changed

    def becomes_zero(self, item):
        """try_to_merge_with_zero_page. The item stays: it goes when the scan next comes past the page (`walk`)."""
        if not self.knobs["use_zero_pages"] or item.page.content != self.zeroes:
            return False
        self.map(item.page, ZERO_PAGE)
        return True

    def waiting(self, item, tree):
        """unstable_tree_search_insert: the item that waits and has the same bytes, or none; or a place to wait at. No
        place where the search ends at a page that is not there, has the same frame, or is equal and on another node.
        The tree is not in order where pages were written since they came to it."""
        content, parent, side, node = item.page.content, None, 0, self.unstable[tree].root
        if node and self.emptied[tree] != self.passes and self.linux("use-after-free"):
            raise Freed("an unstable tree that was not emptied")
        while node:
            other = node.value
            if not other.page.is_there() or other.page.frame is item.page.frame:
                return None, None
            if other.page.content == content:
                return (other, None) if self.tree_of(other.page.frame) == tree else (None, None)
            parent, side = node, int(content > other.page.content)
            node = node.kids[side]
        return None, (parent, side)

    def waiting_here(self, item, tree):
        """The same in ksmbook: a page waits as it was when it came, until it is written, dropped or moved."""
        for page in self.all_pages():
            other = page.item
            if other and other.waits and other.waits[1:] == (tree, self.passes) and not other.is_touched:
                if page.is_there() and page.content == item.page.content and page.frame is not item.page.frame:
                    return other, None
        return None, (None, 0)

    def meet(self, item):
        """A page waits, or makes a dup with one that waits."""
        tree = self.tree_of(item.page.frame)
        search = self.waiting if self.linux("waits-written") else self.waiting_here
        other, place = search(item, tree)
        if other:
            if other.page.is_merged() or item.page.is_merged():
                raise Unknown("a merged page makes a dup")
            self.take_off(other)
            dup = self.insert(item.page if self.linux("frame-kept") else other.page)
            self.join(other, dup)
            self.join(item, dup)
        elif place:
            self.wait(item, tree, place)

    def wait(self, item, tree, place):
        """An item comes to an unstable tree."""
        if not self.unstable[tree].root:
            self.emptied[tree] = self.passes
        if not self.linux("waits-written"):
            self.unstable[tree], place = Tree(), (None, 0)
        item.waits, item.is_touched = (Node(item), tree, self.passes), False
        self.unstable[tree].link(item.waits[0], *place)

    def is_done_early(self, item):
        """What 6.12 and later do before they search the stable tree, for a page that is not merged."""
        if self.linux("changed-first"):
            self.take_off(item)
            if self.has_changed(item):
                return True
        is_unchanged = item.checksum == item.page.content
        return self.linux("zero-first") and is_unchanged and self.becomes_zero(item)

    def is_done_late(self, item, own):
        """What 6.1 and ksmbook do behind it."""
        is_late = self.is_61 or not own
        if is_late and not self.linux("changed-first") and self.has_changed(item):
            return True
        return is_late and not self.linux("zero-first") and self.becomes_zero(item)

    def visit(self, item):
        """cmp_and_merge_page"""
        own = item.page.frame.dup
        if own and not own.migrates and self.tree_of(own.frame) != own.tree:
            self.migrate(own)
        elif not own and self.is_done_early(item):
            self.take_off(item)
            return
        dup = own if own and not own.migrates else self.search(item.page)
        if own and item.dup is own and (dup is own or not dup and not self.linux("dup-crosses")):
            return
        self.take_off(item)
        if dup:
            self.join(item, dup)
        elif not self.is_done_late(item, own):
            self.meet(item)

    def is_skipped(self, item):
        """should_skip_rmap_item and skip_age: of visits 0, 1, 2, .. to an item 0, 1, 2, 3, 5, 8, 13, 22, 31 and so on
        are made. Nothing but a new item begins anew: no write does."""
        if not self.linux("skipped") or not self.knobs["smart_scan"] or item.page.is_merged():
            return False
        if item.dup and self.linux("merge-forgets"):
            return False
        age = item.age
        item.age = min(age + 1, 255)
        if age < 3:
            return False
        if not item.skips:
            item.skips = 1 if age <= 3 else 2 if age <= 5 else 4 if age <= 8 else 8
            return False
        item.skips -= 1
        self.take_off(item)
        return True

    # The scan.

    def all_pages(self):
        """The pages of all guests, and of their copies."""
        return [page for pages in self.guests for page in pages]

    def forget(self, page):
        """Frees an item. ksmbook still knows of a page that is mapped from the zero page that it did not change."""
        if page.is_zeroed() and not self.linux("zero-forgets"):
            page.checksum = page.item.checksum
        self.take_off(page.item)
        page.item = None

    def begin_pass(self):
        """The beginning of scan_get_next_rmap_item. The kernel empties as many trees as are in use now."""
        are_all = not self.linux("use-after-free") or not self.knobs["merge_across_nodes"]
        for tree in range(NODES if are_all else 1):
            self.unstable[tree], self.emptied[tree] = Tree(), self.passes
        for item in self.items() if not self.linux("waits-longer") else []:
            item.waits = None
        for dup in list(self.migrating) if not self.knobs["merge_across_nodes"] else []:
            self.is_there(dup)

    def is_visited(self, page):
        """Tells whether a step of the scan is for the page."""
        return page.is_there() or page.is_mergeable and page.is_zeroed() and not self.linux("zero-visited")

    def walk(self):
        """scan_get_next_rmap_item: a pass, a step a visit. Items of pages that are not there, or are mapped from the
        zero page, go where the scan comes to the next page, or to the guest's end."""
        self.begin_pass()
        for pages in self.guests:
            left_behind = []
            for page in pages:
                self.visited = page
                if not page.is_there():
                    left_behind += [page] if page.item else []
                    if self.is_visited(page):
                        yield
                    continue
                while left_behind:
                    self.forget(left_behind.pop(0))
                page.item = page.item or Item(page, page.checksum)
                page.checksum = None
                if not self.is_skipped(page.item):
                    self.visit(page.item)
                    yield
            while left_behind:
                self.forget(left_behind.pop(0))

    def step(self):
        """A step of the scan. False where the pass ends without one."""
        if not self.steps:
            self.steps = self.walk()
        if next(self.steps, self) is not self:
            return True
        self.passes, self.steps = self.passes + 1, None
        return False

    def scan(self, steps):
        """ksm_do_scan: so many steps at most. It stops where the pass ends."""
        for _ in range(steps):
            if not self.step():
                return

    def scan_on(self, visits, in_a_pass):
        """A scan of ksmbook's: a pass ends with the visit of its last page, and the scan goes on into the next."""
        while visits > 0:
            was_at_start = not self.steps
            if not self.step():
                visits -= in_a_pass if was_at_start else 0
                continue
            visits -= 1
            pages = self.all_pages()
            if not any(map(self.is_visited, pages[pages.index(self.visited) + 1:])):
                self.step()

    # What guests do with their pages.

    def store(self, page, content):
        """Writes a page. What is shared gets a frame of its own, on the page's home."""
        if content != page.content and not self.linux("checksum-kept"):
            self.forget_checksum(page)
        page.content = content
        self.touch(page)
        if not page.frame or page.is_merged() or page.is_zeroed() or page.frame.mapped > 1:
            page.set_frame(Frame(page.home))

    def drop(self, page):
        """Drops a page."""
        if not self.linux("checksum-kept"):
            self.forget_checksum(page)
        self.touch(page)
        page.set_frame(None)
        page.checksum, page.is_registered = None, False

    def move(self, page, node):
        """Moves a page to a node."""
        if page.home != node:
            self.touch(page)
            page.home = node
            page.set_frame(Frame(node))

    def touch(self, page):
        """Notes that a page was written, dropped or moved."""
        if page.item:
            page.item.is_touched = True

    def forget_checksum(self, page):
        """Forgets what the page had when it was visited."""
        page.checksum = None
        if page.item:
            page.item.checksum = None

    def unmerge(self, page):
        """unmerge_ksm_pages for a page, which is mergeable no longer."""
        self.break_ksm(page)
        page.checksum, page.is_mergeable = None, False
        if page.item and not self.linux("unmerged-late"):
            self.forget(page)
            page.checksum = None

    def break_ksm(self, page):
        """A page that is shared gets a frame of its own. In 6.1 the zero page stays."""
        if page.is_merged() or page.is_zeroed() and not self.linux("zero-kept"):
            page.set_frame(Frame(page.home))

    def unmerge_all(self):
        """unmerge_and_remove_all_rmap_items"""
        for page in self.all_pages():
            if page.is_mergeable:
                self.break_ksm(page)
            page.checksum = None
            if page.item and self.linux("run-two-forgets"):
                self.forget(page)
            elif page.item:
                self.take_off(page.item)
                page.item.checksum = None
        self.emptied = [None, None]
        self.steps = None
        if self.linux("run-two-forgets"):
            self.passes = 0
        if self.linux("stale-dropped"):
            self.forget_dups()

    def forget_dups(self):
        """remove_all_stable_nodes, where none has an item of a page that is still there."""
        for item in self.items():
            item.dup = None
        self.stable, self.chains, self.migrating, self.dups = [Tree(), Tree()], [], [], []

    def fork(self, guest):
        """Copies a guest, at whose place the scan is not. ksmbook has no copies."""
        if self.steps:
            raise Unknown("a fork in a pass")
        if self.linux("forked-over"):
            self.guests.append([page.copy() for pages in self.guests for page in pages if page.guest == guest])

    # The files of sysfs.

    def items(self):
        """All items, of pages that are not there too."""
        return [page.item for page in self.all_pages() if page.item]

    def is_refused(self, name, value):
        """Tells whether a knob has no such value."""
        is_open = self.linux("knob-ranges")
        ranges = {"run": (0, 2), "merge_across_nodes": (0, 1), "use_zero_pages": (0, 1),
                  "max_page_sharing": (2, value if is_open else 1024),
                  "pages_to_scan": (0, value) if is_open else (1, 1000000)}
        least, most = ranges.get(name, (0, value))
        return not least <= value <= most

    def write(self, name, value):
        """Writes a knob. False where it is busy, None where there is no such value."""
        if self.is_refused(name, value):
            return None
        if name in ("merge_across_nodes", "max_page_sharing") and value != self.knobs[name]:
            if self.counters()["shared"]:
                return False
            self.forget_dups()
            if name == "merge_across_nodes" and not self.linux("waits-across"):
                self.empty_trees()
        if name == "run" and value == 2 and self.knobs["run"] != 2:
            self.unmerge_all()
        self.knobs[name] = value
        return True

    def empty_trees(self):
        """No page waits any longer."""
        self.unstable = [Tree(), Tree()]
        for item in self.items():
            item.waits = None

    def place_of(self, page):
        """What a page counts as: none where it counts nowhere."""
        item = page.item
        is_gone = not page.is_registered and not self.linux("counted-late")
        if not item or is_gone:
            is_met = page.is_registered and page.is_mergeable and not page.is_zeroed()
            return "volatile" if is_met and not self.linux("met-late") else None
        is_as_it_was = self.linux("counted-late") or not item.is_touched
        if item.dup and is_as_it_was:
            return item.dup
        if item.waits and is_as_it_was:
            return "unshared"
        return None if page.is_zeroed() and not self.linux("zero-volatile") else "volatile"

    def counters(self):
        """The counters, by their names in a reply to `stat`."""
        places = [self.place_of(page) for page in self.all_pages()]
        dups = [place for place in places if isinstance(place, Dup)]
        shared = len(set(map(id, dups)))
        return {"shared": shared, "sharing": len(dups) - shared, "unshared": places.count("unshared"),
                "volatile": places.count("volatile"), "chains": len(self.chains),
                "dups": sum(len(chain.dups) for chain in self.chains), "full_scans": self.passes}
