"""Work shared out among children of this program, one for each processor, and what they tell while they are at it.

Children are forked, so each has what the program had, and gives its result back through a pipe. An interruption at
the terminal lets them end what they are at: their results are of a part then. A second one ends them at once.
"""

import ctypes
import mmap
import os
import pickle
import selectors
import signal
import struct
from collections.abc import Callable

from .units import PAGE

# asks the kernel for a signal once the parent is gone
DEATH_SIGNAL = 1
COUNTERS, NAMES, EACH = 64, 2048, 8
# the most children: each has a counter on one page
MOST = 128
# seconds between two looks at the counters
PAUSE = 0.2


class Shared:
    """What children and parent see of each other: whether to stop, and of each child how many pages it has read and
    of which process."""

    def __init__(self):
        self.page = mmap.mmap(-1, PAGE)

    def stop(self) -> None:
        """Has all of them stop as soon as they may."""
        self.page[0] = 1

    def is_stopped(self) -> bool:
        """Tells whether they are to stop."""
        return bool(self.page[0])

    def set(self, child: int, pages: int, owner: int) -> None:
        """A child tells how far it is."""
        struct.pack_into("Q", self.page, COUNTERS + child * EACH, pages)
        struct.pack_into("Q", self.page, NAMES + child * EACH, owner)

    def pages(self) -> int:
        """The pages that all have read."""
        return sum(struct.unpack_from(f"{MOST}Q", self.page, COUNTERS))

    def owner(self) -> int:
        """The process that the first of them is at."""
        return struct.unpack_from("Q", self.page, NAMES)[0]


def processors() -> int:
    """The processors that this program may use."""
    return min(len(os.sched_getaffinity(0)), MOST)


def child(work: Callable[[int], object], number: int, wire: int) -> None:
    """The life of a child: it works, and writes what comes of it."""
    signal.signal(signal.SIGINT, signal.SIG_IGN)
    ctypes.CDLL(None).prctl(DEATH_SIGNAL, signal.SIGKILL)
    try:
        result = True, work(number)
    except BaseException as error:  # pylint: disable=broad-exception-caught
        result = False, error
    with open(wire, "wb") as pipe:
        pickle.dump(result, pipe, 5)


def forked(work: Callable[[int], object], number: int) -> tuple[int, int]:
    """A child that works: its number as a process, and the pipe that it writes to."""
    ready, wire = os.pipe()
    pid = os.fork()
    if not pid:
        os.close(ready)
        status = 1
        try:
            child(work, number, wire)
            status = 0
        finally:
            os._exit(status)
    os.close(wire)
    return pid, ready


def results(pipes: list[int], watch: Callable[[], None], interrupted: Callable[[], None]) -> list[bytes]:
    """What the children write, each to its end."""
    told = {pipe: bytearray() for pipe in pipes}
    with selectors.DefaultSelector() as selector:
        for pipe in pipes:
            selector.register(pipe, selectors.EVENT_READ)
        while selector.get_map():
            try:
                for key, _ in selector.select(PAUSE):
                    if more := os.read(key.fd, 1 << 20):
                        told[key.fd] += more
                    else:
                        selector.unregister(key.fd)
                watch()
            except KeyboardInterrupt:
                interrupted()
    return [bytes(told[pipe]) for pipe in pipes]


def in_parallel(work: Callable[[int], object], count: int, watch: Callable[[], None] = lambda: None,
                interrupted: Callable[[], None] | None = None) -> list[object]:
    """Runs work(0), work(1) .. in so many children, and returns what they return, in this order. What one of them
    raises is raised here."""
    children = [forked(work, number) for number in range(count)]
    try:
        said = results([pipe for _, pipe in children], watch, interrupted or raise_again)
    except BaseException:
        for pid, _ in children:
            os.kill(pid, signal.SIGKILL)
        raise
    finally:
        for pid, pipe in children:
            os.close(pipe)
            os.waitpid(pid, 0)
    return [opened(words) for words in said]


def raise_again() -> None:
    """An interruption that ends the work."""
    raise KeyboardInterrupt


def opened(words: bytes) -> object:
    """What a child returned; what it raised is raised."""
    if not words:
        raise OSError("a part of this program was ended from outside, perhaps since memory is short")
    is_result, what = pickle.loads(words)
    if not is_result:
        raise what
    return what
