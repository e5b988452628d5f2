"""Processes that hold the pages of a mix: children that map them, mark them for KSM, and wait."""

import ctypes
import mmap
import os
import signal
import tempfile

from mixes import READ, Mix, Page

PAGE = mmap.PAGESIZE
BIND = 2
# the numbers of system calls on x86-64
SET_MEMPOLICY, IO_URING_SETUP, IO_URING_REGISTER = 238, 425, 427
HUGE = 512


def bytes_of(content: int) -> bytes:
    """The bytes of a content, by its number."""
    return content.to_bytes(8, "big") * (PAGE // 8)


def bind(node: int) -> None:
    """Has memory that is written from here on lie on a node."""
    if ctypes.CDLL(None).syscall(SET_MEMPOLICY, BIND, ctypes.byref(ctypes.c_ulong(1 << node)), 65):
        raise OSError("no such node")


def area(pages: int, is_huge: bool = False) -> mmap.mmap:
    """An area for so many pages, marked for KSM, with or without huge pages."""
    held = mmap.mmap(-1, pages * PAGE, flags=mmap.MAP_PRIVATE | mmap.MAP_ANONYMOUS)
    held.madvise(mmap.MADV_MERGEABLE)
    held.madvise(mmap.MADV_HUGEPAGE if is_huge else mmap.MADV_NOHUGEPAGE)
    return held


def fill(held: mmap.mmap, pages: list[Page], is_bound: bool, first: int = 0) -> None:
    """Writes pages to an area, from one of its pages on."""
    for node in sorted({page.node for page in pages}):
        if is_bound:
            bind(node)
        for at, page in enumerate(pages, first):
            if page.node == node:
                held[at * PAGE:(at + 1) * PAGE] = bytes_of(page.content)


def stretch(pages: list[Page], is_bound: bool) -> mmap.mmap:
    """Anonymous pages, written."""
    held = area(len(pages))
    fill(held, pages, is_bound)
    return held


def begin_of(held: mmap.mmap) -> int:
    """The address of an area."""
    return ctypes.addressof(ctypes.c_char.from_buffer(held))


def huge(pages: list[Page], is_bound: bool) -> mmap.mmap:
    """Pages in huge ones, written."""
    held = area(len(pages) + HUGE, is_huge=True)
    fill(held, pages, is_bound, -(begin_of(held) // PAGE) % HUGE)
    return held


def pin(held: mmap.mmap, pages: int) -> int:
    """Has io_uring register the first pages of an area. The descriptor that has to stay open."""
    libc = ctypes.CDLL(None, use_errno=True)
    ring = libc.syscall(IO_URING_SETUP, 1, ctypes.create_string_buffer(120))
    buffer = (ctypes.c_uint64 * 2)(begin_of(held), pages * PAGE)
    if ring < 0 or libc.syscall(IO_URING_REGISTER, ring, 0, buffer, 1) < 0:
        raise OSError(ctypes.get_errno(), "io_uring registers no buffer")
    return ring


def mapped(pages: list[Page]) -> mmap.mmap:
    """Pages of a file, read, and some of them written."""
    with tempfile.TemporaryFile() as file:
        file.write(b"".join(bytes_of(page.content) for page in pages))
        file.flush()
        held = mmap.mmap(file.fileno(), len(pages) * PAGE, flags=mmap.MAP_PRIVATE)
    held.madvise(mmap.MADV_MERGEABLE)
    for at, page in enumerate(pages):
        byte = held[at * PAGE]
        if page.of_file != READ:
            held[at * PAGE] = byte
    return held


def hold(mix: Mix, pages: list[Page], is_bound: bool) -> list[mmap.mmap]:
    """All pages of a process."""
    anonymous, files = [page for page in pages if not page.of_file], [page for page in pages if page.of_file]
    held = [(huge if mix.is_huge else stretch)(anonymous, is_bound)] + ([mapped(files)] if files else [])
    if mix.pinned:
        pin(held[0], mix.pinned)
    return held


def wait_for_ever(wire: int, words: list[int]) -> None:
    """Tells that all is held, and waits until it is killed."""
    os.write(wire, " ".join(map(str, words)).encode() + b"\n")
    while True:
        signal.pause()


def start(mix: Mix, pages: list[Page], is_bound: bool) -> tuple[int, list[int]]:
    """A child that holds pages until it is killed: its number, and the addresses that they begin at."""
    ready, wire = os.pipe()
    child = os.fork()
    if not child:
        os.close(ready)
        held = hold(mix, pages, is_bound)
        wait_for_ever(wire, [begin_of(part) for part in held])
    os.close(wire)
    with open(ready, encoding="ascii") as said:
        begins = [int(word) for word in said.readline().split()]
    if not begins:
        raise OSError("a process could not hold its pages")
    return child, begins


def start_forked(mix: Mix, is_bound: bool) -> dict[int, list[int]]:
    """A child that writes the common pages, and forks the others; each writes its own then, at one address."""
    ready, wire = os.pipe()
    first = os.fork()
    if not first:
        os.close(ready)
        common = area(len(mix.common))
        fill(common, list(mix.common), is_bound)
        own = area(max(map(len, mix.processes)))
        for pages in mix.processes[1:]:
            if not os.fork():
                fill(own, pages, is_bound)
                wait_for_ever(wire, [os.getpid(), begin_of(common), begin_of(own)])
        fill(own, mix.processes[0], is_bound)
        wait_for_ever(wire, [os.getpid(), begin_of(common), begin_of(own)])
    os.close(wire)
    with open(ready, encoding="ascii") as said:
        lines = [[int(word) for word in said.readline().split()] for _ in mix.processes]
    if not all(lines):
        raise OSError("a process could not hold its pages")
    return {pid: begins for pid, *begins in sorted(lines)}


def start_all(mix: Mix, is_bound: bool) -> dict[int, list[int]]:
    """A child for each process of a mix."""
    if mix.common:
        return start_forked(mix, is_bound)
    return dict(start(mix, pages, is_bound) for pages in mix.processes)


def end_all(children: dict[int, list[int]]) -> None:
    """Ends the children, and waits until they are gone."""
    for child in children:
        os.kill(child, signal.SIGKILL)
    for child in children:
        try:
            os.waitpid(child, 0)
        except ChildProcessError:
            # it is a child's child
            while os.path.exists(f"/proc/{child}/mem") and is_there(child):
                signal.sigtimedwait([], 0.01)


def is_there(pid: int) -> bool:
    """Tells whether a process has memory still."""
    try:
        with open(f"/proc/{pid}/maps", "rb") as maps:
            return bool(maps.read(1))
    except OSError:
        return False


def mark_whole() -> None:
    """Marks all private areas of this process for KSM. Those that the kernel refuses stay as they are."""
    libc = ctypes.CDLL(None)
    with open("/proc/self/maps", encoding="utf-8") as maps:
        lines = maps.read().splitlines()
    for line in lines:
        span, permissions = line.split()[:2]
        first, end = (int(address, 16) for address in span.split("-"))
        if permissions[3] == "p" and first < 1 << 63:
            libc.madvise(ctypes.c_void_p(first), ctypes.c_size_t(end - first), mmap.MADV_MERGEABLE)


def large(gigabytes: int) -> mmap.mmap:
    """So many gigabytes, in which every second page is equal to the one before it, and no other."""
    pages = (gigabytes << 30) // PAGE
    held = mmap.mmap(-1, pages * PAGE, flags=mmap.MAP_PRIVATE | mmap.MAP_ANONYMOUS)
    held.madvise(mmap.MADV_MERGEABLE)
    held.madvise(mmap.MADV_NOHUGEPAGE)
    for at in range(pages):
        held[at * PAGE:at * PAGE + 8] = (1 + (at & ~1 if at & 2 else at)).to_bytes(8, "big")
    return held


if __name__ == "__main__":
    mark_whole()
    print("marked", flush=True)
    while True:
        signal.pause()
