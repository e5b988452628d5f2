"""What `measure` does where something comes between, each as a function that fails by an assertion."""

import collections
import itertools
import json
import mmap
import os
import random
import re
import secrets
import signal
import subprocess
import sys
import tempfile
import time
import types
from collections.abc import Callable

import holder
from mixes import Page

TOP = os.path.dirname(os.path.dirname(os.path.dirname(os.path.abspath(__file__))))
sys.path.insert(0, TOP)
from measure_lib import choosing, excerpt, processes, program  # pylint: disable=wrong-import-position
from measure_lib import savings, units, whole  # pylint: disable=wrong-import-position
from measure_lib.census import Census, Content, census_of  # pylint: disable=wrong-import-position
from measure_lib.estimate import Estimate, Met  # pylint: disable=wrong-import-position
from measure_lib.look import Look  # pylint: disable=wrong-import-position
from measure_lib.piles import Pile, block_of, tag_of  # pylint: disable=wrong-import-position
from measure_lib.trouble import NOT_AS_PROVED, Ended, Trouble  # pylint: disable=wrong-import-position

MEASURE = os.path.join(TOP, "measure")
NOBODY = 65534
WIDTH = 80
PAGE = mmap.PAGESIZE


def measure(*words: str, **more) -> subprocess.CompletedProcess[str]:
    """A run of the program."""
    return subprocess.run([MEASURE, "--hurry", *words], capture_output=True, text=True, check=False, **more)


class Meanwhile:
    """In the place of the progress bar: does something once the first pages were read."""
    is_shown = False

    def __init__(self, deed: Callable[[], None]):
        self.deeds = [deed]

    def advance(self, _pages: int, _name: str) -> None:
        """Pages were read."""
        if self.deeds:
            self.deeds.pop()()

    def wait(self, _seconds: float) -> None:
        """The time between two looks."""
        self.advance(0, "")


def holding(pages: list[Page], deed: Callable[[mmap.mmap], None] | None = None) -> int:
    """A child that holds pages, and at a signal does something to them and signals back that it is done."""
    signal.pthread_sigmask(signal.SIG_BLOCK, {signal.SIGUSR1, signal.SIGUSR2})
    child = os.fork()
    if not child:
        held = holder.stretch(pages, is_bound=False)
        os.kill(os.getppid(), signal.SIGUSR2)
        signal.sigwait({signal.SIGUSR1})
        kept = deed(held) if deed else None
        os.kill(os.getppid(), signal.SIGUSR2)
        signal.sigwait({signal.SIGUSR1})
        os._exit(bool(kept))
    signal.sigwait({signal.SIGUSR2})
    return child


def has_done(child: int) -> None:
    """Has a child do what it is there for."""
    os.kill(child, signal.SIGUSR1)
    signal.sigwait({signal.SIGUSR2})


def end(child: int) -> None:
    """Ends a child."""
    os.kill(child, signal.SIGKILL)
    os.waitpid(child, 0)


def chosen(*children: int) -> list[processes.Process]:
    """The children as processes to be read."""
    return choosing.by_number(list(children))


def one_that_ends() -> str:
    """A process that ends while it is read is left out whole, and the others are counted."""
    gone, stays = holding([Page(1 + i % 9) for i in range(900)]), holding([Page(1 + i % 9) for i in range(90)])
    look = Look(chosen(gone, stays), only_marked=True)
    look.once(Meanwhile(lambda: end(gone)))
    end(stays)
    first, second = look.seen
    assert first.has_ended and not first.pages and second.pages == 90 and not second.has_ended, look.seen
    assert census_of(look, [], 256).pages() == 90
    return "a process that ends while it is read is left out, and the other's 90 pages are counted"


def one_that_ended_before() -> str:
    """Processes that end before their turn, or between two looks, are left out whole, and the others are counted."""
    gone, later, stays = (holding([Page(1 + i % 9) for i in range(count)]) for count in (50, 70, 90))
    chosen_ones = chosen(gone, later, stays)
    end(gone)
    once, twice = Look(chosen_ones, only_marked=True), Look(chosen_ones, only_marked=True)
    once.once(Meanwhile(lambda: None))
    twice.twice(0.1, Waiting(lambda: end(later)))
    end(stays)
    assert [(seen.has_ended, seen.pages) for seen in once.seen] == [(True, 0), (False, 70), (False, 90)], once.seen
    assert [(seen.has_ended, seen.pages) for seen in twice.seen] == [(True, 0), (True, 0), (False, 90)], twice.seen
    return "a process that ended before it was read, or between two looks, is left out, and the others are counted"


def one_that_grows() -> str:
    """A process that grows while it is read is told."""
    child = holding([Page(1 + i) for i in range(600)], lambda _: holder.stretch([Page(5)] * 700, is_bound=False))
    look = Look(chosen(child), only_marked=True)
    look.once(Meanwhile(lambda: has_done(child)))
    end(child)
    assert look.seen[0].pages >= 600 and look.seen[0].grown == 700, look.seen
    return "a process that grows by 700 pages while it is read is told"


def pages_that_change() -> str:
    """Pages that change between two looks are not counted."""
    def change(held: mmap.mmap) -> None:
        for at in range(40):
            held[at * PAGE + 5] = 77
    child = holding([Page(1 + i % 50) for i in range(500)], change)
    look = Look(chosen(child), only_marked=True)
    look.twice(0.1, Waiting(lambda: has_done(child)))
    end(child)
    assert (look.seen[0].counts.changed, look.seen[0].pages) == (40, 460), look.seen
    return "40 pages that change between two looks are not counted, 460 are"


class Waiting(Meanwhile):
    """Does something between two looks."""

    def advance(self, _pages: int, _name: str) -> None:
        """Pages were read."""

    def wait(self, _seconds: float) -> None:
        """The time between two looks."""
        self.deeds.pop()()


def frames_of_a_fork() -> str:
    """Frames that a process has in common with its child are counted once, and the kernel's own page of zeroes
    is not."""
    ready, wire = os.pipe()
    parent = os.fork()
    if not parent:
        held = holder.stretch([Page(1 + i) for i in range(300)], is_bound=False)
        untouched = mmap.mmap(-1, 200 * PAGE, flags=mmap.MAP_PRIVATE | mmap.MAP_ANONYMOUS)
        untouched.madvise(mmap.MADV_MERGEABLE)
        read = [untouched[at * PAGE] for at in range(1, 200)]
        untouched[0] = 1
        child = os.fork()
        if child:
            os.write(wire, f"{child}\n".encode())
        while held and read:
            signal.pause()
    child = int(os.read(ready, 20))
    look = Look(chosen(parent, child), only_marked=True)
    look.once(Meanwhile(lambda: None))
    census = census_of(look, [], 256)
    os.kill(child, signal.SIGKILL)
    end(parent)
    assert (census.mapped_again(), census.pages()) == (301, 301), (census.mapped_again(), census.pages())
    return "301 frames of a parent and its child are counted once, 199 pages of the kernel's own zeroes not at all"


def as_nobody(words: list[str]) -> tuple[int, str]:
    """The program run by a user who may read no process of others: its status, and what it says."""
    ready, wire = os.pipe()
    child = os.fork()
    if not child:
        os.dup2(wire, 1)
        os.dup2(wire, 2)
        if os.geteuid() == 0:
            os.setgroups([])
            os.setgid(NOBODY)
            os.setuid(NOBODY)
        status = program.run(words)
        sys.stdout.flush()
        os._exit(status)
    os.close(wire)
    with open(ready, encoding="utf-8") as said:
        text = said.read()
    return os.waitstatus_to_exitcode(os.waitpid(child, 0)[1]), text


def without_permission() -> str:
    """Whoever may not read is told what to do, and the status is 1."""
    with open("/proc/1/comm", encoding="utf-8") as name:
        first = name.read().strip()
    for words in ["1"], ["--name", first]:
        status, said = as_nobody(words)
        assert status == 1 and "may not be read" in said and "sudo" in said, (status, said)
    return "without permission a sentence says what to do, status 1"


def statuses() -> str:
    """Each status but the one of a book that disagrees, and the sentences."""
    nowhere = os.path.join(TOP, "measure", "no such folder")
    for words, status, said in [([], 2, "--all"), (["--all", "1"], 2, "--all"), (["x"], 2, "PID"),
                                (["999999999"], 1, "no process"), (["--name", "no such name"], 1, "no process"),
                                (["--again", "0", "1"], 2, "again"),
                                (["--html", nowhere, str(os.getpid())], 3, "written")]:
        run = measure(*words)
        assert run.returncode == status and said in run.stderr and not run.stdout, (words, run)
    with open("/dev/full", "w", encoding="ascii") as full:
        run = subprocess.run([MEASURE, "--no-check", str(os.getpid())], stdout=full, stderr=subprocess.PIPE,
                             check=False)
    assert run.returncode == 3, run
    return "statuses 1, 2 and 3 have their sentences"


def nothing_of_contents() -> str:
    """No output has a content, or a digest, of what was read; text has 80 columns, and the page needs nothing else."""
    secret = secrets.randbits(63)
    child = holding([Page(secret)] * 40 + [Page(secret + 1 + i) for i in range(200)])
    with tempfile.TemporaryDirectory() as folder:
        page, script = (os.path.join(folder, name) for name in ("page.html", "script.ksm"))
        text = measure("--html", page, "--script", script, str(child))
        told = measure("--json", "--no-check", str(child))
        outputs = [text.stdout, text.stderr, told.stdout]
        for path in page, script:
            with open(path, encoding="utf-8") as file:
                outputs.append(file.read())
    end(child)
    assert text.returncode == told.returncode == 0, (text, told)
    # a child has zeroes of its own, as many as its parent's heap left
    heaviest = [heavy["copies"] for heavy in json.loads(told.stdout)["heaviest"] if not heavy["is_zeroes"]]
    assert heaviest[0] == 40, told
    for output in outputs:
        assert f"{secret:x}" not in output.lower() and str(secret) not in output
    assert not re.search(r"\b[0-9a-f]{32}\b", "".join(outputs[:4])), "a digest"
    assert all(len(line) <= WIDTH for line in (text.stdout + measure("--help").stdout).splitlines()), "a long line"
    assert not re.search(r"(src|href)=|url\(|https?:|<script", outputs[3]), "the page needs something else"
    return "no output has a content or a digest; text and help fit 80 columns; the page needs nothing else"


def census_on_nodes(nodes: int, seed: int) -> tuple[Census, list[excerpt.Owners]]:
    """Contents of chance on so many nodes, some of them heavy, and the light ones among them."""
    chance, census, light = random.Random(seed), Census([]), []
    for number in range(400):
        content = Content()
        for _ in range(chance.choice([1, 1, 2, 3, 5, 20, 31, 200, 700]) if number else 100):
            content.add(chance.randrange(5), chance.randrange(nodes), 1)
        census.add(content, is_zero=number == 0)
        if number and sum(content.owners.values()) <= excerpt.HEAVY:
            light.append(content.owners)
    return census, light


def book_counts(nodes: int) -> int:
    """Has the book count an excerpt of contents of chance on so many nodes. How many settings there were."""
    census, light = census_on_nodes(nodes, nodes)
    taken = excerpt.taken_of(census, list(range(nodes)), iter(light))
    assert taken.apart == excerpt.APART and taken.pages() > 60 * nodes, taken
    return excerpt.check(taken).settings


def excerpts_on_nodes() -> str:
    """Excerpts on one to four nodes are counted by the book as by the formulas; a formula that is wrong is found, also
    one that is wrong for large contents alone."""
    if not excerpt.is_built():
        return "excerpts on nodes: not tried, since ksmbook is not built"
    settings = [book_counts(nodes) for nodes in range(1, 5)]
    right = savings.Saving.add
    for wrong in (lambda copies: copies == 3), (lambda copies: copies > 1024):
        savings.Saving.add = lambda told, copies, *more, of=wrong: right(told, copies + of(copies), *more)
        try:
            book_counts(2)
            raise AssertionError("a wrong formula was not found")
        except Trouble as trouble:
            assert trouble.status == NOT_AS_PROVED
        finally:
            savings.Saving.add = right
    return (f"excerpts on one to four nodes are as the book counts them, with {settings} settings, "
            "and two wrong formulas are found, one of them for large contents alone")


def met_on_nodes(nodes: int) -> tuple[types.SimpleNamespace, Census]:
    """A look that met pages of chance of three processes on so many nodes, and their census."""
    chance, own, contents = random.Random(nodes), Pile(), collections.defaultdict(Content)
    for owner, node in itertools.product(range(3), range(nodes)):
        digests = [chance.randrange(90) for _ in range(120)]
        own.digests.extend(digests)
        own.tags.append(tag_of(owner, node))
        own.ends.append(len(own.digests))
        for digest in digests:
            contents[digest].add(owner, node, 1)
    census = Census([])
    for digest, content in contents.items():
        census.add(content, is_zero=digest == 0)
    return types.SimpleNamespace(
        piles=1, nodes=list(range(nodes)), reader=types.SimpleNamespace(zeroes=0), zeroed={}, owner_of=block_of,
        pile=lambda kind, _: [own if kind == "own" else Pile()], zeroes=lambda _: collections.Counter(),
        pages_by_node=lambda: dict.fromkeys(range(nodes), 360)), census


def all_pages_on_nodes() -> str:
    """All pages of two to four nodes are laid where they lie, merged across nodes and on each by itself."""
    if not excerpt.is_built():
        return "all pages on nodes: not tried, since ksmbook is not built"
    told = [whole.check(*met_on_nodes(nodes), excerpt.PROGRAM, lambda _: None) for nodes in (2, 3, 4)]
    assert [of.pages for of in told] == [720, 1080, 1440] and all(of.laid for of in told), told
    assert all({row.merge_across_nodes for row in of.laid} == {0, 1} for of in told), told
    return (f"all pages on two to four nodes are laid before the book, with {[of.settings for of in told]} settings, "
            "and counted alike")


def laid(child: int, other: int) -> dict[str, object]:
    """What the proved book counts of all pages of two children."""
    run = measure("--mergeable", "--book", "--json", "--program", excerpt.PROGRAM, str(child), str(other))
    assert run.returncode == 0, run.stderr
    return json.loads(run.stdout)["checked"]


def all_pages() -> str:
    """All pages are laid before the proved book, more than it has frames, and counted alike; where they leave more
    frames in use than it has, it is said and an excerpt laid; a formula that is wrong is found."""
    if not excerpt.is_built():
        return "all pages before the proved book: not tried, since ksmbook is not built"
    contents = [Page(i % 300) for i in range(1400)]
    child, other, large = holding(contents), holding(contents[200:900]), holding([Page(i) for i in range(1400)])
    told, beyond = laid(child, other), laid(child, large)
    assert told["pages"] == 2100 and told["settings"] == 6 and told["unfit"] == 2, told
    rows = {(row["max_page_sharing"], row["use_zero_pages"]): row["counted"] for row in told["laid"]}
    assert rows[256, 1] == {"shared": 299, "sharing": 1794, "unshared": 0, "ksm_zero_pages": 7}, rows
    assert not beyond["laid"] and "frames" in beyond["why_not_all"] and 0 < beyond["pages"] <= 240, beyond
    look, right = Look(chosen(child), only_marked=True), savings.Saving.add
    look.once(Meanwhile(lambda: None))
    savings.Saving.add = lambda told, copies, *more: right(told, copies + (copies == 5), *more)
    try:
        whole.check(look, census_of(look, [], 256), excerpt.PROGRAM, lambda _: None)
        raise AssertionError("a wrong formula was not found")
    except Trouble as trouble:
        assert trouble.status == NOT_AS_PROVED
    finally:
        savings.Saving.add = right
        for each in child, other, large:
            end(each)
    return "2,100 pages are laid before the proved book on 1,024 frames, and counted alike; a wrong formula is found"


def is_of_kernel(pid: int) -> bool:
    """Tells whether a process is there and a thread of the kernel."""
    try:
        return processes.found(pid).is_of_kernel
    except Ended:
        return False


def chosen_by_names() -> str:
    """Processes are chosen by the name of a virtual machine, by user and by control group; no thread of the kernel is
    ever among them, and none of these choices takes what does not fit."""
    guest = subprocess.Popen(["qemu-system-x86_64", "-c", "import time; print(1, flush=True); time.sleep(99)", "-name",
                              "guest=web-1,debug-threads=on"], executable=sys.executable, stdout=subprocess.PIPE)
    guest.stdout.readline()
    known = processes.found(guest.pid)
    by = [choosing.Choice(domains=["web-1"]), choosing.Choice(users=[str(os.getuid())]),
          choosing.Choice(cgroups=[known.cgroup]), choosing.Choice(names=["web-1"])]
    found = [[process.pid for process in choosing.choose(choice)[0]] for choice in by]
    threads = {pid for pid in map(int, filter(str.isdecimal, os.listdir("/proc"))) if is_of_kernel(pid)}
    try:
        assert found[0] == [guest.pid] == found[3] and all(guest.pid in pids for pids in found), found
        assert not threads.intersection(found[1]) and (threads or not os.path.exists("/proc/2")), threads
        for choice in choosing.Choice(domains=["web"]), choosing.Choice(slices=["no such"]), choosing.Choice(
                cgroups=[known.cgroup.rstrip("/") + "/no such"]):
            try:
                raise AssertionError(choosing.choose(choice))
            except Trouble:
                pass
    finally:
        guest.kill()
        guest.wait()
    return "processes are chosen by virtual machine, user and control group, and none is a thread of the kernel"


def pinned_pages() -> str:
    """Pages that io_uring registered are not counted, and are told apart."""
    child = holding([Page(1 + i % 50) for i in range(500)], lambda held: holder.pin(held, 120) and None)
    has_done(child)
    told = json.loads(measure("--mergeable", "--no-check", "--json", str(child)).stdout)
    end(child)
    assert (told["pages"], told["left_out_pages"]["pinned"]) == (380, 120), told["left_out_pages"]
    assert told["processes"][0]["pinned_by"] == ["io_uring"] and not told["may_be_pinned_pages"], told["processes"]
    return "120 pages that io_uring registered are told apart, 380 are counted"


def interrupted_after(child: int, seconds: float) -> dict[str, object]:
    """What is told where ctrl-C comes so much later, of memory that takes twelve seconds; nothing where too little was
    read."""
    run = subprocess.Popen([MEASURE, "--hurry", "--mergeable", "--no-check", "--json", "--rate", "20", str(child)],
                           stdout=subprocess.PIPE, stderr=subprocess.PIPE, text=True)
    time.sleep(seconds)
    run.send_signal(signal.SIGINT)
    told = run.communicate()[0]
    assert run.returncode in (0, 130), run.returncode
    return json.loads(told) if not run.returncode else {}


def interrupted() -> str:
    """What was read before an interruption tells bounds, within which the whole lies."""
    child = holding([Page(1 + i // 2) for i in range(30000)] + [Page(10 ** 6 + i) for i in range(30000)])
    # a busy host begins late
    told = interrupted_after(child, 4) or interrupted_after(child, 8) or interrupted_after(child, 12)
    end(child)
    assert told["known"]["kind"] == "interrupted" and told["known"]["read_percent"] < 95, told["known"]
    whole = 15000 * PAGE / (1 << 20)
    assert all(row["saved_from_mb"] <= whole <= row["saved_to_mb"] for row in told["settings"]), told["settings"]
    return f"interrupted when {told['known']['read_percent']:.0f}% was read, the whole lies within the bounds"


def bounds_of_few_blocks() -> str:
    """Where pairs alone were met in three blocks of sixty, the other blocks may have none; not so in 3,000 of 60,000."""
    lows = []
    for blocks, rounds, pairs in (3, 1, 500), (3000, 20, 1):
        met, pages = Met(), 2 * blocks * pairs
        for number in range(blocks * pairs):
            met.add({number % blocks: number % rounds}, {number % blocks: 2})
        estimate = Estimate(met, 20 * pages, 0.05, rounds, blocks)
        lows.append([estimate.saved(setting)[0] / (20 * pages) for setting in savings.grid(1)])
    assert max(lows[0]) < 0.1 and min(lows[1]) > 0.45, lows
    return f"of three blocks of pairs the least is {max(lows[0]):.0%}, of 3,000 {min(lows[1]):.0%}"


def over_time() -> str:
    """A series adds a line each time, draws them, and ends well when it is interrupted."""
    child = holding([Page(1 + i % 50) for i in range(500)])
    with tempfile.TemporaryDirectory() as folder:
        log, page = (os.path.join(folder, name) for name in ("log", "page.html"))
        words = ["--hurry", "--mergeable", "--no-check", "--every", "0.2", "--log", log, "--html", page, str(child)]
        run = subprocess.Popen([MEASURE, *words], stdout=subprocess.PIPE, stderr=subprocess.PIPE, text=True)
        lines = [run.stdout.readline() for _ in range(3)]
        run.send_signal(signal.SIGINT)
        run.communicate()
        with open(log, encoding="utf-8") as file:
            told = [json.loads(line) for line in file]
        with open(page, encoding="utf-8") as file:
            drawn = file.read()
    end(child)
    assert run.returncode == 0 and len(told) >= 3 and all("MB" in line for line in lines), (run.returncode, told)
    assert all(of["saved_mb"] == round(450 * PAGE / (1 << 20), 2) for of in told), told
    assert drawn.count("<polyline") == 4 and not re.search(r"(src|href)=|url\(|https?:|<script", drawn)
    return f"a series of {len(told)} measurements has a line each, and a picture"


def how_numbers_are_written() -> str:
    """No number is written as a zero with a sign."""
    written = [units.one_decimal(number) for number in (-0.04, 0.0, -0.0, 1234.56, -2.04)]
    assert written == ["0.0", "0.0", "0.0", "1,234.6", "-2.0"], written
    return "no zero has a sign"


ALL = [chosen_by_names, pinned_pages, interrupted, bounds_of_few_blocks, over_time, how_numbers_are_written,
       excerpts_on_nodes, all_pages, all_pages_on_nodes,
       one_that_ends, one_that_ended_before, one_that_grows, pages_that_change, frames_of_a_fork,
       without_permission, statuses, nothing_of_contents]
