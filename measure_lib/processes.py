"""A process, its files, its names, and whether its memory may be read."""

import contextlib
import dataclasses
import os
import re
from collections.abc import Iterator

from .trouble import Ended

# fields 9 and 22 of /proc/PID/stat, counted behind the name, which is field 2
FLAGS_FIELD, START_FIELD = 6, 19
# a thread of the kernel, among the flags
IS_OF_KERNEL = 0x00200000


@dataclasses.dataclass(frozen=True)
class Process:
    """A process: its number, the moment it started at (a number is given again), the name it is shown by, and of
    which unit of systemd or which virtual machine it is, if of any."""
    pid: int
    started: int
    name: str
    unit: str = ""
    domain: str = ""

    @contextlib.contextmanager
    def opened(self) -> Iterator[int]:
        """Its folder of /proc, as a file descriptor. Raises Ended where the process is gone, also later."""
        try:
            folder = os.open(f"/proc/{self.pid}", os.O_RDONLY | os.O_DIRECTORY)
        except OSError:
            raise Ended from None
        try:
            if start_of(text_of(folder, "stat")) != self.started:
                raise Ended
            yield folder
        finally:
            os.close(folder)


def open_in(folder: int, name: str) -> int:
    """A file of a process, opened to be read. Raises Ended, or PermissionError."""
    try:
        return os.open(name, os.O_RDONLY, dir_fd=folder)
    except (FileNotFoundError, ProcessLookupError):
        raise Ended from None


def text_of(folder: int, name: str) -> str:
    """A file of a process as text."""
    with open(open_in(folder, name), encoding="utf-8", errors="replace") as file:
        try:
            return file.read()
        except ProcessLookupError:
            raise Ended from None


def start_of(stat: str) -> int:
    """When a process started, from its file `stat`."""
    return int(stat.rpartition(")")[2].split()[START_FIELD])


def is_of_kernel(stat: str) -> bool:
    """Tells whether a process is a thread of the kernel, from its file `stat`."""
    return bool(int(stat.rpartition(")")[2].split()[FLAGS_FIELD]) & IS_OF_KERNEL)


def printable(name: str) -> str:
    """A name without what would move the cursor of a terminal."""
    return "".join(letter if letter.isprintable() else "?" for letter in name)


def guest_name(words: list[str]) -> str | None:
    """The name of the virtual machine that QEMU was started with."""
    for option, value in zip(words, words[1:]):
        if option in ("-name", "--name"):
            found = re.search(r"(?:^|,)guest=([^,]+)", value) or re.match(r"([^,=]+)", value)
            return found[1] if found else None
    return None


@dataclasses.dataclass(frozen=True)
class Known:
    """A process with what it can be chosen by: its names, its virtual machine's name, its user, and its control
    group; and whether it is a thread of the kernel."""
    process: Process
    names: str
    domain: str | None
    uid: int
    cgroup: str
    is_of_kernel: bool


def cgroup_of(folder: int) -> str:
    """The control group of a process: the one of version 2, or of systemd's own hierarchy."""
    try:
        lines = [line.split(":", 2) for line in text_of(folder, "cgroup").splitlines()]
    except (Ended, OSError):
        return ""
    paths = {names: path for _, names, path in (line for line in lines if len(line) == 3)}
    return paths.get("name=systemd") or paths.get("", "")


def known_in(pid: int, folder: int) -> Known:
    """A process by its folder."""
    short = text_of(folder, "comm").rstrip("\n")
    words = text_of(folder, "cmdline").split("\0")
    program = os.path.basename(words[0])
    guest = guest_name(words[1:]) if "qemu" in program or "kvm" in program else None
    stat = text_of(folder, "stat")
    cgroup = cgroup_of(folder)
    units = [part for part in cgroup.split("/") if part.endswith((".service", ".scope"))]
    process = Process(pid, start_of(stat), printable(f"{guest} (qemu)" if guest else short),
                      printable(units[-1]) if units else "", printable(guest or ""))
    return Known(process, f"{short} {program} {guest or ''}", guest, os.fstat(folder).st_uid, cgroup,
                 is_of_kernel(stat))


def found(pid: int) -> Known:
    """A process by its number. Raises Ended where there is none."""
    try:
        folder = os.open(f"/proc/{pid}", os.O_RDONLY | os.O_DIRECTORY)
    except (OSError, OverflowError):
        raise Ended from None
    try:
        return known_in(pid, folder)
    finally:
        os.close(folder)


def may_be_read(process: Process) -> bool:
    """Tells whether this user may read the memory of a process."""
    with process.opened() as folder:
        try:
            for name in "mem", "pagemap", "smaps":
                os.close(open_in(folder, name))
        except PermissionError:
            return False
    return True


def has_memory(process: Process) -> bool:
    """Tells whether a process has memory of its own: one that ended and was not waited for has none."""
    with process.opened() as folder:
        with open(open_in(folder, "maps"), "rb") as maps:
            return bool(maps.read(1))
