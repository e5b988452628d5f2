"""What is to be replied to a script: the lines of the driver (bench/kernel/driver) over the model of ksmd.

With no switch on these are Linux's replies, with all of them on ksmbook's.
"""

import talk
from ksmd import NODES, Freed, Ksmd, Page, Unknown

PAGE_DIGITS = 16 * talk.page_words()


def whole(digits):
    """A content with all its digits."""
    return digits if len(digits) == PAGE_DIGITS else digits * (PAGE_DIGITS // 2)


class Linux:
    """A kernel of a version that runs one script, with some switches on. `lines` are all its lines, as Linux gets them;
    `knobs` is what is set up. `freed_at` is the line at which the kernel would read memory that it freed, counted from
    0."""

    def __init__(self, lines, knobs, version, switches=frozenset()):
        names = {(int(words[1]), int(words[2])) for words in map(str.split, lines) if words[0] == "reg"}
        self.pages = {name: Page(*name) for name in sorted(names)}
        guests = {guest: [page for page in self.pages.values() if page.guest == guest] for guest, _ in self.pages}
        self.ksmd = Ksmd(list(guests.values()), whole("00"), version, switches)
        for name, value in knobs:
            self.ksmd.write(name, value)
        self.visits, self.at_pass_start, self.held = 100, True, None
        self.is_unknown, self.count, self.freed_at = False, 0, None

    def reply(self, line):
        """What is replied to a line, or None from the first line on that the model does not have."""
        word, *words = line.split(" ")
        try:
            if self.is_unknown or not hasattr(self, f"do_{word}"):
                raise Unknown(word)
            return getattr(self, f"do_{word}")(*words)
        except Unknown as unknown:
            if isinstance(unknown, Freed) and not self.is_unknown:
                self.freed_at = self.count
            self.is_unknown = True
            return None
        finally:
            self.count += 1

    def linux(self, name):
        """Tells whether a difference is as in Linux."""
        return self.ksmd.linux(name)

    def registered(self, guest, number):
        """A page that is registered, or none."""
        page = self.pages.get((int(guest), int(number)))
        return page if page and page.is_registered else None

    def shared(self):
        """The pages that have no frame of their own."""
        return [page for page in self.pages.values() if page.is_registered and (page.is_merged() or page.is_zeroed())]

    def of_guest(self, guest):
        """The places of a guest, where one of its pages is registered."""
        own = [page for page in self.pages.values() if page.guest == int(guest)]
        return own if any(page.is_registered for page in own) else []

    def on_frame(self, frame):
        """The pages that are mapped from a frame."""
        return [f"{page.guest}:{page.number}" for page in self.pages.values()
                if page.is_registered and page.frame is frame]

    # Pages.

    def do_reg(self, guest, number, node, digits):
        """Registers a page."""
        page = self.pages[int(guest), int(number)]
        if int(node) >= NODES:
            return "refused 11"
        if page.is_registered:
            return "refused 3"
        page.home, page.is_registered, page.is_mergeable = int(node), True, True
        page.content = whole(digits)
        self.ksmd.store(page, page.content)
        page.first_frame = page.frame
        return "ok"

    def do_put(self, guest, number, digits):
        """Stores to a page."""
        page = self.registered(guest, number)
        if not page:
            return "refused 2"
        self.ksmd.store(page, whole(digits))
        return "ok"

    def do_drop(self, guest, number):
        """Drops a page."""
        page = self.registered(guest, number)
        if not page:
            return "refused 2"
        self.ksmd.drop(page)
        return "ok"

    def do_get(self, guest, number):
        """Reads a page."""
        page = self.registered(guest, number)
        return page.content if page else "refused 2"

    def do_move(self, guest, number, node):
        """Moves a page to a node."""
        page = self.registered(guest, number)
        if int(node) >= NODES:
            return "refused 11"
        if not page:
            return "refused 2"
        self.ksmd.move(page, int(node))
        return "ok"

    def do_unmerge(self, guest):
        """Unmerges a guest."""
        own, before = self.of_guest(guest), len(self.shared())
        if not own:
            return "refused 2"
        for page in own:
            self.ksmd.unmerge(page)
        return f"unmerged {before - len(self.shared())}"

    def do_mergeable(self, guest):
        """Makes a guest mergeable."""
        own = self.of_guest(guest)
        for page in own:
            page.is_mergeable = True
        return "ok" if own else "refused 2"

    # Places. A line names one by a page that is merged there.

    def at_place(self, place):
        """The page that names a place, where it is merged."""
        page = self.registered(*place.split(":")) if ":" in place else None
        return page if page and page.is_merged() else None

    def do_ticket(self, guest, number):
        """The place of a page."""
        page = self.registered(guest, number)
        if not page:
            return "refused 2"
        return f"place {self.on_frame(page.frame)[0]}" if page.is_merged() else "private"

    def do_rmap(self, place):
        """The pages of a place."""
        page = self.at_place(place)
        return " ".join(["rmap", *self.on_frame(page.frame)]) if page else "refused 10"

    def do_movedup(self, place, node):
        """Migrates the frame of a place."""
        page = self.at_place(place)
        if int(node) >= NODES:
            return "refused 11"
        if not page:
            return "refused 10"
        if not self.ksmd.knobs["merge_across_nodes"] and page.frame.dup.tree != int(node) \
                and not self.linux("dup-crosses"):
            return "refused 9"
        if page.frame.holds and self.linux("held-page"):
            return "refused 8"
        page.frame.node = int(node)
        return "ok"

    # The scan and the knobs.

    def do_scan(self, wanted=None):
        """Whole passes, and then a batch of the steps that are left."""
        wanted = left = int(wanted) if wanted else self.visits
        in_a_pass = sum(page.is_registered and page.is_mergeable for page in self.pages.values())
        if self.ksmd.knobs["run"] != 1:
            return "refused 5"
        if not in_a_pass and wanted:
            if self.linux("idle-pass"):
                self.ksmd.scan(1 << 20)
            return "scanned 0"
        if self.linux("pass-ends-late"):
            self.scan_in_batches(left, in_a_pass)
        else:
            self.ksmd.scan_on(left, in_a_pass)
        return f"scanned {wanted}"

    def scan_in_batches(self, left, in_a_pass):
        """A batch does not go on into the next pass."""
        while self.at_pass_start and left and left >= in_a_pass:
            self.ksmd.scan(1 << 20)
            left -= in_a_pass
        if left:
            passes = self.ksmd.passes
            self.ksmd.scan(left)
            self.at_pass_start = self.ksmd.passes != passes

    def do_set(self, name, value):
        """Writes a knob."""
        before = len(self.shared())
        if name == "pages_to_scan":
            if self.ksmd.is_refused(name, int(value)):
                return "refused 7"
            self.visits = int(value)
            return "ok"
        is_written = self.ksmd.write(name, int(value))
        if not is_written:
            return "refused 7" if is_written is None else "refused 6"
        if (name, value) != ("run", "2"):
            return "ok"
        self.at_pass_start = True
        return f"unmerged {before - len(self.shared())}"

    def do_show(self, name):
        """Reads a knob."""
        if name == "pages_to_scan":
            return str(self.visits)
        if name == "ksm_zero_pages" and self.linux("zero-uncounted"):
            return "-1"
        if name == "ksm_zero_pages":
            return str(sum(page.is_zeroed() for page in self.ksmd.all_pages()))
        if name not in self.ksmd.knobs:
            raise Unknown(name)
        return str(self.ksmd.knobs[name])

    def do_stat(self):
        """The counters."""
        return " ".join(["stat", *(f"{name}={value}" for name, value in self.ksmd.counters().items())])

    def do_nothing(self):
        """A line that Linux does not have."""
        return "-"

    def do_prune(self):
        """Drops stale dups, where that is as in ksmbook."""
        return f"pruned {self.ksmd.prune()}"

    # Lines for Linux alone.

    def do_frames(self):
        """Where the pages lie."""
        pages = [page for page in self.pages.values() if page.is_registered]
        first = {id(page.first_frame): f"{page.guest}:{page.number}" for page in reversed(self.pages.values())}
        where = [f"{page.guest}:{page.number}={first.get(id(page.frame), 'new')}" for page in pages]
        return " ".join(["frames", *where])

    def do_fork(self, guest):
        """Copies a guest's process."""
        if not self.of_guest(guest):
            return "refused 2"
        self.ksmd.fork(int(guest))
        return "ok"

    def do_hold(self, guest, number):
        """Takes a reference from outside."""
        page = self.registered(guest, number)
        if not page:
            return "refused 2"
        if not page.is_merged() or self.held:
            raise Unknown("hold")
        self.held, page.frame.holds = (page.frame, page.content), page.frame.holds + 1
        return "ok"

    def do_look(self):
        """What the reference reads."""
        return self.held[1] if self.held else "nothing is held"

    def do_leave(self):
        """Ends the reference."""
        if self.held:
            self.held[0].holds -= 1
        self.held = None
        return "ok"
