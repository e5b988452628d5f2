"""Which processes are meant, by what the command line says, and what to do where they may not be read."""

import dataclasses
import os
import pwd
from collections.abc import Callable
from pathlib import Path

from .called import MEASURE
from .processes import Known, Process, found, has_memory, may_be_read
from .trouble import Ended, Trouble

PTRACE_SCOPE = Path("/proc/sys/kernel/yama/ptrace_scope")
CGROUPS = "/sys/fs/cgroup"


@dataclasses.dataclass
class Choice:
    """What processes are chosen by; one that fits any of it is chosen. Or all of them."""
    pids: list[int] = dataclasses.field(default_factory=list)
    names: list[str] = dataclasses.field(default_factory=list)
    domains: list[str] = dataclasses.field(default_factory=list)
    cgroups: list[str] = dataclasses.field(default_factory=list)
    slices: list[str] = dataclasses.field(default_factory=list)
    users: list[str] = dataclasses.field(default_factory=list)
    everything: bool = False

    def is_empty(self) -> bool:
        """Tells whether nothing is chosen by it."""
        return not (self.pids or self.by_others() or self.everything)

    def by_others(self) -> list[str]:
        """What is not a number, in words."""
        return [*(f"has {name} in its name" for name in self.names),
                *(f"is the virtual machine {name}" for name in self.domains),
                *(f"is in the control group {path}" for path in self.cgroups),
                *(f"is in the slice {name}" for name in self.slices), *(f"is of user {user}" for user in self.users)]

    def tests(self) -> list[Callable[[Known], bool]]:
        """What a process has to pass one of."""
        uids = [uid_of(user) for user in self.users]
        cgroups = ["/" + path.removeprefix(CGROUPS).strip("/") for path in self.cgroups]
        slices = [name if name.endswith(".slice") else f"{name}.slice" for name in self.slices]
        return [lambda of: any(name in of.names for name in self.names),
                lambda of: of.domain in self.domains and of.domain is not None,
                lambda of: any(f"{of.cgroup}/".startswith(f"{path.rstrip('/')}/") for path in cgroups),
                lambda of: any(name in of.cgroup.split("/") for name in slices),
                lambda of: of.uid in uids]


def uid_of(user: str) -> int:
    """The number of a user, by number or by name."""
    try:
        return int(user) if user.isdecimal() else pwd.getpwnam(user).pw_uid
    except KeyError:
        raise Trouble(f"there is no user {user}") from None


def advice(who: str) -> str:
    """What to do where the memory of processes may not be read."""
    if os.geteuid() == 0:
        return (f"{who} may not be read, though this is root: "
                "it lacks CAP_SYS_PTRACE here (in a container: docker run --cap-add SYS_PTRACE --pid host)")
    if PTRACE_SCOPE.exists() and PTRACE_SCOPE.read_text().strip() != "0":
        return (f"{who} may not be read: kernel.yama.ptrace_scope lets only root read other processes. "
                f"Run it as root: sudo {MEASURE} ..")
    return f"{who} may not be read by this user. Run it as root: sudo {MEASURE} .."


def by_number(pids: list[int]) -> list[Process]:
    """The processes with these numbers, each of which has to be there, to have memory, and to be readable."""
    chosen = []
    for pid in dict.fromkeys(pids):
        try:
            known = found(pid)
            process = known.process
            if known.is_of_kernel:
                raise Trouble(f"process {pid} ({process.name}) has no memory of its own: it is a thread of the kernel")
            if not may_be_read(process):
                raise Trouble(advice(f"the memory of process {pid} ({process.name})"))
            if not has_memory(process):
                raise Trouble(f"process {pid} ({process.name}) has no memory of its own: it has ended")
        except Ended:
            raise Trouble(f"there is no process {pid}") from None
        chosen.append(process)
    return chosen


def by_tests(tests: list[Callable[[Known], bool]]) -> tuple[list[Process], int]:
    """The readable processes that pass one of the tests; and how many more may not be read. This program is never
    one of them, and no thread of the kernel is."""
    chosen, refused = [], 0
    for pid in sorted(int(entry) for entry in os.listdir("/proc") if entry.isdecimal()):
        try:
            known = found(pid)
            if pid == os.getpid() or known.is_of_kernel or not any(test(known) for test in tests):
                continue
            if not may_be_read(known.process):
                refused += 1
            elif has_memory(known.process):
                chosen.append(known.process)
        except (Ended, PermissionError):
            continue
    return chosen, refused


def choose(choice: Choice) -> tuple[list[Process], int]:
    """The processes that are asked for, and how many more may not be read. Raises Trouble where none is left."""
    chosen, refused = by_number(choice.pids), 0
    if choice.everything or choice.by_others():
        others, refused = by_tests([lambda _: True] if choice.everything else choice.tests())
        chosen = list(dict.fromkeys([*chosen, *others]))
    if not chosen and refused:
        who = f"{refused:,} such processes" if refused > 1 else "the only such process"
        raise Trouble(advice(f"the memory of {who}"))
    if not chosen:
        raise Trouble(f"no process {' or '.join(choice.by_others())}" if choice.by_others() else
                      "there is no process to read")
    return chosen, refused
