"""The only program of an emulated machine: it tries the mixes beside the kernel's own ksmd.

What is found goes to the second serial line: `linux RELEASE`, then a line each (real.py), and at last `end`.
"""

import ctypes
import json
import os
import sys
import time
import traceback

import real

POWER_OFF = 0x4321FEDC
HUGE_PAGES = "/sys/kernel/mm/transparent_hugepage/enabled"


def mount_all() -> None:
    """What the kernel tells of itself, and the console, which the first program begins without."""
    libc = ctypes.CDLL(None, use_errno=True)
    for kind, place in ("proc", "/proc"), ("sysfs", "/sys"), ("devtmpfs", "/dev"):
        if libc.mount(kind.encode(), place.encode(), kind.encode(), 0, None):
            raise OSError(ctypes.get_errno(), f"no {place}")
    console = os.open("/dev/console", os.O_RDWR)
    for stream in range(3):
        os.dup2(console, stream)


def main() -> None:
    """Tries each mix, and switches the machine off."""
    mount_all()
    with open("/dev/ttyS1", "w", encoding="utf-8") as replies:
        def tell(kind: str, what: str) -> None:
            replies.write(f"{kind} {what}\n")
            replies.flush()

        try:
            tell("linux", os.uname().release)
            with open(HUGE_PAGES, "w", encoding="ascii") as knob:
                knob.write("madvise")
            with open("/only", encoding="utf-8") as file:
                few, *only = file.read().splitlines()
            real.try_all(tell, 2, few == "few", only)
            tell("end", "")
        except BaseException:  # pylint: disable=broad-exception-caught
            tell("failed", json.dumps(traceback.format_exc()))
            time.sleep(1)
    ctypes.CDLL(None).reboot(POWER_OFF)


if __name__ == "__main__":
    main()
