"""The differences between ksmbook and Linux, by the names of docs/KERNEL.md. Each is a switch of the model.

A switch that is on lets the model do what ksmbook does, one that is off what the kernel does. So with all of them off
the model is the kernel, and with all of them on it is ksmbook. A difference that a kernel does not have is on there.
"""

import re

EVER, NEVER = (0, 0), (99, 0)
ALL_KERNELS = (EVER, NEVER)
# Of the lines between 6.1 and 6.12 none was tried: 6.4 is a guess.
LIKE_61 = (EVER, (6, 4))
LIKE_612 = ((6, 4), NEVER)
LIKE_73 = ((7, 3), NEVER)  # the checksum and the age lie where a merged item has another number
# The kernels that have a difference, from one version to before another.
SWITCHES = {
    "counted-late": ALL_KERNELS,
    "met-late": ALL_KERNELS,
    "waits-longer": ALL_KERNELS,
    "waits-written": ALL_KERNELS,
    "run-two-forgets": ALL_KERNELS,
    "pass-ends-late": ALL_KERNELS,
    "unmerged-late": ALL_KERNELS,
    "idle-pass": ALL_KERNELS,
    "stale-dropped": ALL_KERNELS,
    "checksum-kept": ALL_KERNELS,
    "merge-forgets": LIKE_73,
    "zero-volatile": ALL_KERNELS,
    "zero-visited": ALL_KERNELS,
    "zero-forgets": ALL_KERNELS,
    "zero-uncounted": LIKE_61,
    "zero-kept": LIKE_61,
    "frame-kept": ALL_KERNELS,
    "first-with-room": ALL_KERNELS,
    "tie-to-newest": ALL_KERNELS,
    "late-room": ALL_KERNELS,
    "changed-first": LIKE_612,
    "zero-first": LIKE_612,
    "waits-across": ALL_KERNELS,
    "use-after-free": ALL_KERNELS,
    "dup-crosses": ALL_KERNELS,
    "knob-ranges": ALL_KERNELS,
    "held-page": ALL_KERNELS,
    "forked-over": ALL_KERNELS,
    "skipped": LIKE_612,
}
# Of a line of kernels, the release since which a pass empties all unstable trees, so that use-after-free is no more.
MENDED = {(6, 12): 118}


def version_of(release):
    """The version of a kernel by its release, for example (6, 12) of 6.12.117."""
    first, second, *_ = release.split(".")
    return int(first), int(second)


def is_mended(release):
    """Tells whether a release, for example 6.12.118+deb13, has no use-after-free any more."""
    number = re.match(r"\d+\.\d+\.(\d+)", release)
    return bool(number) and int(number[1]) >= MENDED.get(version_of(release), float("inf"))


def switches_of(version):
    """The differences that a kernel has."""
    return frozenset(name for name, (since, before) in SWITCHES.items() if since <= version < before)
