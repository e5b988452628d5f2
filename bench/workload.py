"""Writes scripts for measuring, the same script each time.

A work is a generator: it lays its pages and yields, and yields again after each round. Where nothing else is said, its
pages lie on four nodes of 256 frames.
"""

import itertools
import random

import collide
import talk

NODES = 4
OPTIONS = ["--nodes", str(NODES), "--frames", "256"]
PAGES = NODES * 256
# The pages of the works with many of them, the pages of a guest there, and the guest behind all others.
MANY = 100_000
PER_GUEST = 100
LAST_GUEST = 65_535
# A small table, whose frames are scarce, with all the passes that there may be.
SCARCE_FRAMES = 32
SCARCE_OPTIONS = ["--nodes", str(NODES), "--frames", str(SCARCE_FRAMES), "--passes", "16"]
ALL_PASSES = [*OPTIONS, "--passes", "16"]


class Script:
    """A script on its way to a file, whose lines, visits and rounds are counted.

    Its pages are numbered: number i is page i // 4 of guest i % 4, and is at home on node i % 4.
    """

    def __init__(self, file, pages):
        self.file = file
        self.pages = pages
        self.lines = 0
        self.visits = 0
        self.rounds = 0
        self.numbers = random.Random(pages)

    def add(self, line):
        self.file.write(line + "\n")
        self.lines += 1

    def name(self, number):
        return f"{number % NODES} {number // NODES}"

    def register(self, number, content):
        self.add(f"reg {self.name(number)} {number % NODES} {content:02x}")

    def store(self, number, content):
        self.add(f"put {self.name(number)} {content:02x}")

    def store_words(self, number, words):
        """Stores words at random, hardly two pages alike."""
        self.add(f"put {self.name(number)} {self.random_digits(words)}")

    def random_digits(self, words):
        return f"{self.numbers.getrandbits(64 * words):0{16 * words}x}"

    def read(self, number):
        self.add(f"get {self.name(number)}")

    def drop(self, number):
        self.add(f"drop {self.name(number)}")

    def begin(self, limit=None):
        """Lets the scan run, and dups have so many items at most."""
        if limit:
            self.add(f"set max_page_sharing {limit}")
        self.add("set run 1")

    def one_pass(self):
        self.scan(self.pages)

    def two_passes(self):
        self.scan(2 * self.pages)

    def scan(self, visits):
        self.add(f"scan {visits}")
        self.visits += visits

    def any_page(self):
        return self.numbers.randrange(self.pages)

    def any_content(self):
        """One of sixteen."""
        return self.numbers.randrange(1, 17)


def write(file, work, pages, is_enough):
    """Writes the rounds of a work behind what it lays, until there is enough of it."""
    script = Script(file, pages)
    for _ in work(script):
        if is_enough(script):
            return script
        script.rounds += 1
    return script


def write_round(script):
    """Stores to three pages in 32, which break sharing, and two passes, which merge again."""
    for _ in range(script.pages * 3 // 32):
        script.store(script.any_page(), script.any_content())
    script.two_passes()


def write_rest(script):
    """What comes after some eight thousand visits, whatever the number of pages."""
    number = script.any_page()
    script.drop(number)
    script.register(number, script.any_content())
    script.add("prune")
    script.add("stat")


def merging(script):
    """Rounds of stores and passes. Each content has a chain of two or three full dups."""
    script.begin(limit=max(2, script.pages * 3 // 128))
    for number in range(script.pages):
        script.register(number, script.any_content())
    script.two_passes()
    while True:
        yield
        for _ in range(4 * PAGES // script.pages):
            write_round(script)
        write_rest(script)


def settled(script):
    """Long scans in which nothing changes: of each eight pages seven are one dup, and one waits."""
    script.begin()
    for number in range(script.pages):
        script.register(number, number // 8 + (128 if number % 8 == 7 else 0))
    script.two_passes()
    script.add("stat")
    while True:
        yield
        script.scan(100_000)


def stores(script):
    """Stores and reads in equal parts, on pages of their own."""
    for number in range(script.pages):
        script.register(number, number % 256)
    while True:
        yield
        script.store(script.any_page(), script.numbers.randrange(256))
        script.read(script.any_page())


def full_stores(script):
    """The same with every digit of a page written."""
    words = talk.page_words()
    for number in range(script.pages):
        script.register(number, number % 256)
    while True:
        yield
        script.store_words(script.any_page(), words)
        script.read(script.any_page())


def counting(script):
    """Three lines of `stat` for each store, among pages merged in chains, and two passes now and then."""
    script.begin(limit=4)
    for number in range(script.pages):
        script.register(number, script.numbers.randrange(64))
    script.two_passes()
    while True:
        yield
        for _ in range(256):
            script.store(script.any_page(), script.numbers.randrange(64))
            for _ in range(3):
                script.add("stat")
        script.two_passes()
        script.add("prune")


def lay_shared_places(script):
    """Merges the pages by four in pairs: as many dups as half the pages, at the first places."""
    script.begin(limit=2)
    for number in range(script.pages):
        script.register(number, number // 4)
    script.two_passes()


def lookups(script):
    """Lookups of places that merged pages share, a few of them empty, each read and left."""
    lay_shared_places(script)
    while True:
        yield
        reader, place = script.numbers.randrange(2), script.numbers.randrange(script.pages * 17 // 32)
        if script.numbers.randrange(5) == 0:
            script.add(f"equal {reader} {place} {script.numbers.randrange(256):02x}")
        else:
            script.add(f"find {reader} {place}")
        script.add(f"look {reader}")
        script.add(f"leave {reader}")


def broken_scans(script):
    """Long scans, with a store to a merged page between: seven in eight pages merged in chains, one waiting."""
    script.begin(limit=4)
    for number in range(script.pages):
        script.register(number, 16 + number // 8 if number % 8 == 7 else script.numbers.randrange(4))
    script.two_passes()
    while True:
        yield
        script.scan(100_000)
        number = 8 * script.numbers.randrange(script.pages // 8) + script.numbers.randrange(7)
        script.store(number, script.numbers.randrange(4))


def lay_unlike(script, contents):
    """Registers pages with the contents, as many as there are pages, and lets all of them wait."""
    script.begin()
    for number, content in zip(range(script.pages), contents):
        script.add(f"reg {script.name(number)} {number % NODES} {content}")
    script.two_passes()


def random_contents(script):
    """Contents at random, hardly two alike."""
    words = talk.page_words()
    while True:
        yield script.random_digits(words)


def waiting(script):
    """Pages that are all different and wait: a store of another content, and a pass."""
    words = talk.page_words()
    lay_unlike(script, random_contents(script))
    while True:
        yield
        script.store_words(script.any_page(), words)
        script.one_pass()


def waiting_beside_prunes(script):
    """The same with a prune between store and pass, as a kernel prunes every two seconds."""
    words = talk.page_words()
    lay_unlike(script, random_contents(script))
    while True:
        yield
        script.store_words(script.any_page(), words)
        script.add("prune")
        script.one_pass()


def long_chain(script):
    """One content in dups of two items each: sixteen stores of it, which copy the page, and a pass, which merges it again."""
    script.begin(limit=2)
    for number in range(script.pages):
        script.register(number, 7)
    script.two_passes()
    while True:
        yield
        for _ in range(16):
            script.store(script.any_page(), 7)
        script.one_pass()


def reads_of_all(script):
    """Each page is read in turn, half of them merged."""
    script.begin()
    for number in range(script.pages):
        script.add(f"reg {script.name(number)} {number % NODES} "
                   + (f"{number // 8:02x}" if number % 2 else script.random_digits(talk.page_words())))
    script.two_passes()
    while True:
        yield
        for number in range(script.pages):
            script.read(number)


def tickets(script):
    """At which place a page is merged, asked of pages by four in pairs."""
    lay_shared_places(script)
    while True:
        yield
        script.add(f"ticket {script.name(script.any_page())}")


def empty_lines(script):
    while True:
        yield
        script.add("")


def mappers(script):
    """Which pages are merged at a place: all, which left it and came back in no order."""
    script.begin(limit=1024)
    for number in range(script.pages):
        script.register(number, 7)
    script.two_passes()
    for _ in range(script.pages):
        script.store(script.any_page(), 7)
        script.one_pass()
    while True:
        yield
        script.add("rmap 0")


def audits(script):
    """Audits by all passes, a store between."""
    lay_shared_places(script)
    while True:
        yield
        script.add("audit")
        script.store(script.any_page(), script.numbers.randrange(256))


def nothing(script):
    """No line at all."""
    yield


def many_name(number):
    """The pages of works with many of them: number i is page i % 100 of guest i // 100."""
    return f"{number // PER_GUEST} {number % PER_GUEST}"


def register_many(script, number, content):
    script.add(f"reg {many_name(number)} {number % NODES} {content:02x}")


def lay_dups(script, contents):
    """Merges a pair of each content in the first guests, with a page behind all others that has no equal. The scan is left
    behind the pairs, so that a page registered there and visited at once joins a dup, as long as one of its content is open."""
    script.begin(limit=1024)
    script.add(f"reg {LAST_GUEST} 0 0 {script.random_digits(talk.page_words())}")
    for content in range(contents):
        for i in (0, 1):
            register_many(script, 2 * content + i, content)
    script.scan(2 * (2 * contents + 1) + 2 * contents)


def mixed_contents(script, contents, count):
    """So many contents, the first of them the most often (Zipf)."""
    weights = list(itertools.accumulate(1 / (1 + i) for i in range(contents)))
    return script.numbers.choices(range(contents), cum_weights=weights, k=count)


def guests(script):
    """A thousand guests come, a hundred pages each of 200 contents mixed by Zipf, with `scan 100` behind each guest and two passes
    behind twenty, as dups fill up; then a store and `scan 100` in turn."""
    contents = 200
    lay_dups(script, contents)
    for guest in range(2 * contents // PER_GUEST, MANY // PER_GUEST):
        yield
        for page, content in enumerate(mixed_contents(script, contents, PER_GUEST)):
            register_many(script, guest * PER_GUEST + page, content)
        script.scan(100)
        if guest % 20 == 19:
            script.scan(2 * ((guest + 1) * PER_GUEST + 1))
    while True:
        yield
        (content,) = mixed_contents(script, contents, 1)
        script.add(f"put {many_name(script.numbers.randrange(MANY))} {content:02x}")
        script.scan(100)


def one_broken(script):
    """Among 100,000 merged pages of 100 contents one is stored to, and a pass merges it again."""
    contents = 100
    lay_dups(script, contents)
    for first in range(2 * contents, MANY, PER_GUEST):
        for number in range(first, first + PER_GUEST):
            register_many(script, number, number % contents)
        script.scan(PER_GUEST)
    script.scan(1 + 2 * (MANY + 1))
    while True:
        yield
        script.add(f"put {many_name(script.numbers.randrange(MANY))} {script.numbers.randrange(contents):02x}")
        script.scan(MANY + 1)


def scarce(script):
    """Few frames, and sixteen passes that each hold one through fifteen rounds: stores and moves, some of which find no frame
    free, and a pass."""
    contents = 96
    script.begin()
    numbers = script.numbers
    for number in range(script.pages):
        script.register(number, number % contents)
        if number % 8 == 7:
            script.scan(2 * (number + 1))
    for turn in itertools.count():
        yield
        reader, place = turn % 16, numbers.randrange(contents)
        script.add(f"leave {reader}")
        script.add(f"find {reader} {place}")
        for _ in range(12):
            script.store(script.any_page(), numbers.randrange(contents))
        script.add(f"move {script.name(script.any_page())} {numbers.randrange(NODES)}")
        script.add(f"movedup {numbers.randrange(contents)} {numbers.randrange(NODES)}")
        script.one_pass()


def many_contents(script):
    """Each round stores 256 contents that were never there, and two passes let them wait: 20,480 contents in 80 rounds."""
    words = talk.page_words()
    lay_unlike(script, random_contents(script))
    while True:
        yield
        for _ in range(256):
            script.store_words(script.any_page(), words)
        script.two_passes()


def come_and_go(script):
    """Twenty guests of a hundred pages, 200 contents mixed by Zipf: the oldest goes, a new one comes, and a scan of two passes."""
    lay_dups(script, 200)
    pages = 2 * 200 + 1
    for guest in itertools.count(1_000):
        yield
        if guest >= 1_020:
            for page in range(PER_GUEST):
                script.add(f"drop {guest - 20} {page}")
        for page, content in enumerate(mixed_contents(script, 200, PER_GUEST)):
            script.add(f"reg {guest} {page} {page % NODES} {content:02x}")
        pages += PER_GUEST if guest < 1_020 else 0
        script.scan(2 * pages)


def one_page_guests(script):
    """Guests of one page each come from the last number down, as many in a round as there are pages; all merge as they come."""
    script.begin(limit=1024)
    for page in range(2):
        script.add(f"reg {LAST_GUEST} {page} 0 07")
    script.scan(6)
    for first in itertools.count(LAST_GUEST - 1, -script.pages):
        yield
        for guest in range(first, first - script.pages, -1):
            script.add(f"reg {guest} 0 {guest % NODES} {guest % 64:02x}")
            if guest % 64 == 0:
                script.scan(128)
        script.scan(2)


def guests_in_turn(script, numbers):
    """Guests of one page each come in the order of their numbers, two hundred in a round, and a scan merges what it can."""
    script.begin(limit=1024)
    for count, guest in enumerate(numbers):
        if count % 200 == 0:
            yield
        script.add(f"reg {guest} 0 {guest % NODES} {guest % 64:02x}")
        if count % 200 == 199:
            script.scan(400)
    yield


def guests_upward(script):
    """65,000 guests from the first up. Most find no frame."""
    return guests_in_turn(script, range(65_000))


def guests_downward(script):
    """The same from the last down."""
    return guests_in_turn(script, reversed(range(65_000)))


def lay_one_guest(script):
    """Merges the pages of guest 0, sixteen of them in each dup."""
    script.begin(limit=16)
    for page in range(script.pages):
        script.add(f"reg 0 {page} {page % NODES} {page % 50:02x}")
    script.two_passes()


def mergeable_again(script):
    """A guest whose pages are mergeable already is made mergeable."""
    lay_one_guest(script)
    while True:
        yield
        script.add("mergeable 0")


def unmerging(script):
    """A guest is unmerged and made mergeable, and two passes merge it again."""
    lay_one_guest(script)
    while True:
        yield
        script.add("unmerge 0")
        script.add("mergeable 0")
        script.two_passes()


def run_two(script):
    """`set run 2` unmerges every page; the scan runs again, and two passes merge them."""
    lay_one_guest(script)
    while True:
        yield
        script.add("set run 2")
        script.add("set run 1")
        script.two_passes()


def across_nodes(script):
    """The knob `merge_across_nodes` is set and set back over pages that wait, with a pass after each."""
    lay_unlike(script, random_contents(script))
    while True:
        yield
        for value in (0, 1):
            script.add(f"set merge_across_nodes {value}")
            script.one_pass()


def zero_pages(script):
    """Empty pages become zero pages; a sixteenth of them is stored to, half of that with zeroes, and two passes follow."""
    script.add("set use_zero_pages 1")
    script.begin()
    for number in range(script.pages):
        script.register(number, 0)
    script.two_passes()
    while True:
        yield
        for turn in range(script.pages // 16):
            script.store(script.any_page(), turn % 2)
        script.two_passes()


def shows(script):
    """The values of the knobs are asked for."""
    knobs = ("run", "pages_to_scan", "merge_across_nodes", "max_page_sharing", "use_zero_pages", "ksm_zero_pages")
    for knob in itertools.cycle(knobs):
        yield
        script.add(f"show {knob}")


def prunes(script):
    """The two pages of a dup are stored to, which leaves it stale; it is pruned, and two passes merge the pages again."""
    lay_shared_places(script)
    while True:
        yield
        number = script.any_page() // 4 * 4
        for other in range(number, number + 4):
            script.store(other, 255)
        script.add("prune")
        for other in range(number, number + 4):
            script.store(other, number // 4 % 255)
        script.one_pass()


def moves_of_dups(script):
    """A dup moves to a frame of another node, and back."""
    lay_shared_places(script)
    while True:
        yield
        place = script.numbers.randrange(script.pages // 4)
        script.add(f"movedup {place} {script.numbers.randrange(NODES)}")


def moves(script):
    """A merged page moves to another node, and a pass merges it again."""
    lay_one_guest(script)
    while True:
        yield
        script.add(f"move 0 {script.any_page()} {script.numbers.randrange(NODES)}")
        script.add("scan 1")


def registers(script):
    """A page is dropped and registered again, merged pages among them."""
    lay_shared_places(script)
    while True:
        yield
        number = script.any_page()
        script.drop(number)
        script.register(number, number // 4)


def mixed(script):
    """Every command, those of single pages most often, over pages that merge."""
    lay_shared_places(script)
    names = [script.name(number) for number in range(script.pages)]
    kinds = [
        (40, lambda: f"put {pick()} {script.any_content():02x}"), (20, lambda: f"get {pick()}"), (6, lambda: f"ticket {pick()}"),
        (4, lambda: f"drop {pick()}"), (6, lambda: f"reg {pick()} {node()} {script.any_content():02x}"),
        (4, lambda: f"move {pick()} {node()}"), (4, lambda: f"movedup {place()} {node()}"), (4, lambda: f"rmap {place()}"),
        (4, lambda: f"find 0 {place()}"), (4, lambda: "look 0"), (4, lambda: "leave 0"), (10, lambda: "scan 100"),
        (2, lambda: "prune"), (4, lambda: "stat"), (2, lambda: "show run"), (1, lambda: f"set pages_to_scan {script.any_content()}"),
    ]

    def pick():
        return script.numbers.choice(names)

    def node():
        return script.numbers.randrange(NODES)

    def place():
        return script.numbers.randrange(script.pages // 2)

    for write_line in script.numbers.choices([kind[1] for kind in kinds], [kind[0] for kind in kinds], k=1 << 20):
        yield
        script.add(write_line())


def stores_alone(script):
    """Stores of one value, on pages of their own."""
    for number in range(script.pages):
        script.register(number, number % 256)
    while True:
        yield
        script.store(script.any_page(), script.numbers.randrange(256))


def registered_and_read(script, names, contents):
    """Stores and reads in equal parts on pages of these names, once two passes went over them."""
    script.begin()
    for number, (name, content) in enumerate(zip(names, contents)):
        script.add(f"reg {name} {number % NODES} {content}")
    script.two_passes()
    while True:
        yield
        script.add(f"put {script.numbers.choice(names)} {script.numbers.randrange(256):02x}")
        script.add(f"get {script.numbers.choice(names)}")


def pages_at_random(script):
    """Stores and reads of pages of one guest whose numbers are at random."""
    names = [f"0 {page}" for page in script.numbers.sample(range(collide.PAGES), script.pages)]
    return registered_and_read(script, names, random_contents(script))


def pages_that_collide(script):
    """The same of pages that are looked for at one place of a map with the kit's hasher."""
    names = [f"0 {page}" for page in collide.pages(script.pages)]
    return registered_and_read(script, names, random_contents(script))


def pages_in_a_slot(script):
    """The same of pages that have one slot in ksmbook's table of keys."""
    names = [f"0 {page}" for page in collide.in_a_slot(script.pages)]
    return registered_and_read(script, names, random_contents(script))


def passes_over(script, contents):
    """Passes over pages of these contents, which wait; a store in each puts one of them again."""
    lay_unlike(script, contents)
    while True:
        yield
        number = script.any_page()
        script.add(f"put {script.name(number)} {contents[number]}")
        script.one_pass()


def contents_at_random(script):
    """Passes over pages that wait, with contents at random."""
    contents = list(itertools.islice(random_contents(script), script.pages))
    return passes_over(script, contents)


def contents_that_collide(script):
    """The same with contents of one hash."""
    return passes_over(script, list(collide.contents(script.pages)))


def contents_in_a_place(script):
    """The same with contents of one place in the unstable tree, so that all but a few stand in its map."""
    return passes_over(script, list(collide.contents_in_a_place(script.pages)))
