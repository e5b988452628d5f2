"""All pages that were read, laid before the proved book, and what it counts beside what the formulas give.

A page of the book has a frame of its own until it is merged, and a table has so many frames. So pages come process by
process, in batches, each of which is merged before the next comes: what is wanted is a frame for each content that is
left, and one for each page of a batch. The content of a page is its digest, which the book compares by itself; the
lines go to the program alone.

Where the machine has one node, its pages are dealt out to as many nodes of the book as have the frames, which makes no
difference to what is merged. Frames of a fork are laid once, as they are counted.
"""

import array
import collections
import copy
import dataclasses
import math
import re
import subprocess
import threading
from collections.abc import Callable, Iterator

from .census import Census, stretches
from .excerpt import DIGITS, PASSES, counted, wanted
from .look import Look
from .progress import BAR, Progress
from .report import Checked, Laid
from .savings import Saving, Setting, grid, histogram, saving
from .trouble import NOT_AS_PROVED, Trouble
from .units import MEGABYTE, as_time

# what a page takes in the book, and a frame, at most, in bytes (bench/host measures both)
PAGE_BYTES, FRAME_BYTES = 460, 350
# the pages of a batch, and the fewest that are worth a scan
BATCH, LEAST_BATCH = 1 << 16, 32
DIGEST_DIGITS = 16
# stands before a digest, so that no content is zeroes
MARK = "1"
NO_FRAME = b"refused 4"
LIMITS = re.compile(r"(NUMA nodes|Frames of each node),\s+1 to\s+([\d,]+)")

Digests = dict[int, dict[int, "array.array[int]"]]
Page = tuple[int, int, int, str]


class NoRoom(Exception):
    """Why the book has no room for the pages, in a sentence."""


@dataclasses.dataclass(frozen=True)
class Table:
    """A table of the book: nodes, and frames of each; and whether any node will do for a page."""
    nodes: int
    frames: int
    is_dealt_out: bool

    @property
    def total(self) -> int:
        """The frames of all nodes."""
        return self.nodes * self.frames

    def bytes(self, pages: int) -> int:
        """What the book takes at most with so many pages."""
        return pages * PAGE_BYTES + self.total * FRAME_BYTES


def limits_of(program: str) -> tuple[int, int]:
    """The most nodes and frames of a node that a program has, as its help says."""
    try:
        told = subprocess.run([program, "--help"], capture_output=True, text=True, check=False)
    except OSError as error:
        raise Trouble(f"{program} can't be run: {error.strerror}") from None
    found = {name: int(most.replace(",", "")) for name, most in LIMITS.findall(told.stdout + told.stderr)}
    if len(found) != 2:
        raise Trouble(f"{program} does not tell its limits as ksmbook does")
    return found["NUMA nodes"], found["Frames of each node"]


def digests_of(look: Look) -> Digests:
    """The digests of all pages by process and node; of a frame of a fork those of the first process."""
    found: Digests = collections.defaultdict(lambda: collections.defaultdict(lambda: array.array("q")))
    for number in range(look.piles):
        for kind in "own", "merged":
            for owner, node, digests, _ in stretches(look, look.pile(kind, number)):
                found[owner][node].extend(digests)
        met = set()
        forked = sorted(stretches(look, look.pile("forked", number)), key=lambda one: one[0])
        for owner, node, digests, seconds in forked:
            for frame in zip(digests, seconds):
                if frame not in met:
                    met.add(frame)
                    found[owner][node].append(frame[0])
    zero = array.array("q", [look.reader.zeroes])
    for (owner, node), times in look.zeroes("empty").items():
        found[owner][node].extend(zero * times)
    for owner, times in look.zeroed.items():
        found[owner][look.nodes[0]].extend(zero * times)
    return found


def pages_of(digests: Digests, zeroes: int, places: dict[int, int]) -> Iterator[Page]:
    """Each page: its process, its number there, the place of its node and its content, in the order in which they are
    laid."""
    for owner in sorted(digests):
        page = 0
        for node, of in sorted(digests[owner].items()):
            for digest in of:
                content = "0" if digest == zeroes else f"{digest & (1 << 64) - 1:0{DIGEST_DIGITS}x}"
                yield owner, page, places[node], content
                page += 1


def line_of(page: Page, node: int) -> str:
    """The line that registers a page on a node of the book."""
    owner, number, _, content = page
    digits = "00" if content == "0" else f"{MARK:0<{DIGITS - DIGEST_DIGITS}}{content}"
    return f"reg {owner} {number} {node} {digits}"


def frames_left(setting: Setting, census: Census) -> int:
    """The frames that are in use once all is merged, about."""
    limit, across, zeroes = setting.max_page_sharing, setting.merge_across_nodes, census.zeroes_by_node()
    by_tree = [] if setting.use_zero_pages else [zeroes.total()] if across else list(zeroes.values())
    contents = [*histogram(census, across).items(), *((copies, 1) for copies in by_tree)]
    return sum(-(-copies // limit) * times for copies, times in contents)


def table_for(limits: tuple[int, int], nodes: int, frames: int) -> Table:
    """A table of so many frames, or the largest that there is, for the pages of so many nodes."""
    most_nodes, most_frames = limits
    if nodes > most_nodes:
        raise NoRoom(f"the pages lie on {nodes} nodes, and the book has {most_nodes}")
    if nodes > 1:
        return Table(nodes, min(most_frames, frames), False)
    dealt = min(most_nodes, -(-frames // most_frames))
    return Table(dealt, min(most_frames, -(-frames // dealt)), True)


def available() -> int:
    """The bytes of memory that are free for a program."""
    with open("/proc/meminfo", encoding="ascii") as file:
        told = dict(line.split(":") for line in file)
    return int(told["MemAvailable"].split()[0]) * 1024


class Book:
    """The proved program with a table, asked many lines at a time."""

    def __init__(self, program: str, table: Table):
        words = [program, "--nodes", str(table.nodes), "--frames", str(table.frames)]
        # it ends with this program, whose end closes its input
        self.process = subprocess.Popen(  # pylint: disable=consider-using-with
            words, stdin=subprocess.PIPE, stdout=subprocess.PIPE, stderr=subprocess.DEVNULL)

    def write(self, text: bytes) -> None:
        """Sends lines. Where the program ended the replies tell."""
        try:
            self.process.stdin.write(text)
            self.process.stdin.flush()
        except BrokenPipeError:
            pass

    def ask(self, lines: list[str]) -> list[bytes]:
        """The replies to these lines, which are written by a thread while they are read."""
        text = "".join(f"{line}\n" for line in lines).encode()
        writer = threading.Thread(target=self.write, args=(text,), daemon=True)
        writer.start()
        replies = [self.process.stdout.readline() for _ in lines]
        writer.join()
        if replies and not replies[-1]:
            raise Trouble(f"ksmbook ended with status {self.process.wait()} while the pages were laid", NOT_AS_PROVED)
        return replies

    def close(self) -> None:
        """Ends the program."""
        self.process.stdin.close()
        self.process.stdout.close()
        self.process.wait()

    def kill(self) -> None:
        """Ends the program at once."""
        self.process.kill()
        self.process.wait()


class Laying:
    """The laying of all pages with one setting."""

    def __init__(self, book: Book, table: Table, advance: Callable[[int], None]):
        self.book, self.table, self.advance = book, table, advance
        self.laid = 0

    def node_of(self, page: Page, turn: int) -> int:
        """The node of the book for a page, where it was refused so many times."""
        _, number, place, _ = page
        return (number + turn) % self.table.nodes if self.table.is_dealt_out else place

    def register(self, pages: list[Page], turn: int) -> list[Page]:
        """Registers pages; those for which there was no frame."""
        replies = self.book.ask([line_of(page, self.node_of(page, turn)) for page in pages])
        refused = []
        for page, reply in zip(pages, replies):
            if reply.startswith(NO_FRAME):
                refused.append(page)
            elif reply != b"ok\n":
                raise Trouble(f"ksmbook did not register a page: {reply.decode()!r}", NOT_AS_PROVED)
        self.laid += len(pages) - len(refused)
        return refused

    def lay(self, pages: list[Page]) -> None:
        """Lays a batch and merges it. A page that has no frame is tried again behind that."""
        left = pages
        for turn in range(2 * self.table.nodes):
            before = len(left)
            left = self.register(left, turn)
            self.book.ask([f"scan {PASSES * self.laid}"])
            self.advance(before - len(left))
            if not left:
                return
        raise NoRoom(f"the book has no frame left after {self.laid:,} pages")


def in_batches(pages: Iterator[Page], size: int) -> Iterator[list[Page]]:
    """The pages, so many at a time."""
    batch = []
    for page in pages:
        batch.append(page)
        if len(batch) == size:
            yield batch
            batch = []
    if batch:
        yield batch


def without_forks(census: Census) -> Census:
    """The census of frames: what maps one again since a fork is not laid."""
    found = copy.copy(census)
    found.forked, found.again = collections.Counter(), collections.Counter()
    found.empty = dataclasses.replace(census.empty, again=0)
    return found


class Whole:
    """All pages of a look, and the table for them."""

    def __init__(self, look: Look, census: Census, program: str):
        self.look, self.program, self.census = look, program, without_forks(census)
        self.pages = round(self.census.pages())
        nodes = sorted(look.pages_by_node()) or [look.nodes[0]]
        self.places = {node: place for place, node in enumerate(nodes)}
        # zeroes that are told by their number alone count on the first node of the machine
        self.places.setdefault(look.nodes[0], 0)
        settings = grid(len(nodes))
        most = max(frames_left(setting, self.census) for setting in settings) + BATCH
        self.table = table_for(limits_of(program), len(nodes), max(min(most, self.pages), 1))
        self.settings = [setting for setting in settings if self.room_for(setting)]
        self.unfit = len(settings) - len(self.settings)

    def batch(self, setting: Setting) -> int:
        """The pages of a batch: as many as there are frames beside those that stay."""
        return min(BATCH, self.pages, self.table.total - frames_left(setting, self.census))

    def room_for(self, setting: Setting) -> bool:
        """Tells whether the table has the frames that a setting leaves, and some for a batch."""
        return self.batch(setting) >= min(LEAST_BATCH, self.pages)

    def check_room(self) -> None:
        """Refuses pages for which there are not the frames, or not the memory."""
        if not self.settings:
            least = min(frames_left(setting, self.census) for setting in grid(len(self.places)))
            raise NoRoom(f"the {self.pages:,} pages leave {least:,} frames in use, and the book has "
                         f"{self.table.total:,}")
        takes, free = self.table.bytes(self.pages), available()
        if takes > free:
            raise NoRoom(f"the book would take {math.ceil(takes / MEGABYTE):,} MB for them, and "
                         f"{free // MEGABYTE:,} MB of memory are free")

    def told(self) -> str:
        """What will be done, and what it takes."""
        more = f" ({self.unfit} more want more frames than there are)" * (self.unfit > 0)
        return (f"the proved book is given {self.pages:,} pages with each of {len(self.settings)} settings{more}, on "
                f"{self.table.total:,} frames: {math.ceil(self.table.bytes(self.pages) / MEGABYTE):,} MB at most "
                f"({PAGE_BYTES} bytes a page, {FRAME_BYTES} a frame)")

    def count(self, setting: Setting, digests: Digests, advance: Callable[[int], None]) -> dict[str, int]:
        """Lays all pages with a setting; the counters of the book then."""
        book = Book(self.program, self.table)
        try:
            book.ask([*(f"set {knob} {value}" for knob, value in dataclasses.asdict(setting).items()), "set run 1"])
            laying = Laying(book, self.table, advance)
            for batch in in_batches(pages_of(digests, self.look.reader.zeroes, self.places), self.batch(setting)):
                laying.lay(batch)
            if laying.laid != self.pages:
                raise Trouble(f"{laying.laid:,} pages were laid, and {self.pages:,} are counted", NOT_AS_PROVED)
            found = counted([reply.decode().strip() for reply in book.ask(["stat", "show ksm_zero_pages"])])[0]
            book.close()
            return found
        except BaseException:
            book.kill()
            raise


class Bar:
    """How much of the laying is done, where standard error is a terminal."""

    def __init__(self, pages: int, settings: int):
        self.progress, self.settings, self.pages = Progress(pages), settings, pages
        self.setting = self.laid = 0

    def advance(self, pages: int) -> None:
        """So many pages more are laid."""
        self.laid += pages
        if self.progress.is_shown:
            part = self.laid / max(self.pages * self.settings, 1)
            self.progress.draw(f"[{'#' * round(BAR * part):.<{BAR}}] {100 * part:3.0f}%  the proved book, setting "
                               f"{self.setting + 1} of {self.settings}  {self.left(part)}")

    def left(self, part: float) -> str:
        """How long it takes still."""
        return f"{as_time(self.progress.seconds() * (1 - part) / part)} left" if part else ""


def formula(setting: Setting, census: Census) -> dict[str, int]:
    """The counters that the formulas give."""
    told: Saving = saving(setting, census)
    return {name: round(value) for name, value in wanted(told).items()}


def check(look: Look, census: Census, program: str, say: Callable[[str], None]) -> Checked:
    """Has the proved book merge all pages with each setting for which it has the frames. Trouble where its counters are
    others than those of the formulas; NoRoom where it has not the frames or the memory for any."""
    whole = Whole(look, census, program)
    whole.check_room()
    say(whole.told())
    digests, rows = digests_of(look), []
    bar = Bar(whole.pages, len(whole.settings))
    try:
        for bar.setting, setting in enumerate(whole.settings):
            counters, here = whole.count(setting, digests, bar.advance), formula(setting, whole.census)
            if any(counters[name] != value for name, value in here.items()):
                raise Trouble(f"with {setting} the proved book counts {counters} of all pages, the formulas {here}",
                              NOT_AS_PROVED)
            rows.append(Laid(**dataclasses.asdict(setting), counted={name: counters[name] for name in here}, here=here))
    finally:
        bar.progress.clear()
    return Checked(whole.pages, settings=len(rows), laid=rows, frames=whole.table.total, unfit=whole.unfit)
