"""The crates of this checkout over libraries that are proved already, for scripts that call the prover themselves."""

import functools
import os
import shutil
import subprocess
import sys

TOP = os.path.dirname(os.path.dirname(os.path.abspath(__file__)))
LIBRARIES = os.path.join(TOP, "crates", "ksm_tool", "out", "libraries")
KIT = os.path.dirname(os.path.dirname(os.path.realpath(shutil.which("rt") or "/")))


@functools.cache
def rtlib():
    """The kit's own module, which knows the crates and how the prover is called."""
    if not shutil.which("rt"):
        sys.exit("the command rt of the Rattle kit is not on the PATH")
    sys.path.insert(0, os.path.join(KIT, "bin"))
    import rtlib as module  # pylint: disable=import-outside-toplevel,import-error
    module.Crate.cuts_libraries = True
    # How many functions may wait is counted by no file here: the gate holds the crates to HANDLES.
    module.Crate.miscounted = lambda crate, line: None
    # It sets handlers of signals when it is first called, which only the main thread may.
    module.guarded()
    return module


def crate(name):
    """A crate of the checkout, as the kit knows it."""
    return rtlib().Crate(os.path.join(TOP, "crates", name), TOP, {})


def kept_place(library):
    """Where `release/prove` keeps a library."""
    return os.path.join(LIBRARIES, f"{library.name}.rlib")


def is_kept(library):
    """Whether `release/prove` has proved a library of the files as they are, and all of those below it."""
    for it in [*library.below(), library]:
        marker = f"{kept_place(it)}.made"
        if not (os.path.isdir(kept_place(it)) and os.path.isfile(marker)):
            return False
        with open(marker, encoding="utf-8") as file:
            if file.read() != it.stamp():
                return False
    return True


def are_of_gate(libraries):
    """Whether `rt ci` has proved all of the libraries in this checkout since their files were changed last."""
    return all(map(is_of_gate, libraries))


def is_of_gate(library):
    """Whether what lies in out/ is newer than each file of the library, and not what `rt check` keeps, which has a stamp."""
    made = f"{library.rlib}/format"
    if not os.path.isfile(made) or os.path.exists(os.path.join(os.path.dirname(library.rlib), "stamp")):
        return False
    # The gate may put a file there that an earlier run made: the time counts at which it was put there.
    placed = os.stat(made).st_ctime
    return all(os.path.getmtime(file) < placed for file in rtlib().files_of(library.folder))


def over_libraries(name):
    """A crate with the libraries below it where they lie proved, by the gate or by `release/prove`; None if some is not."""
    found = crate(name)
    libraries = found.below()
    if are_of_gate(libraries):
        return found
    if not all(map(is_kept, libraries)):
        return None
    for it in libraries:
        it.rlib = kept_place(it)
    return found


def copy_over_libraries(top, name):
    """A crate of a copy of this checkout, over the libraries as they lie proved here; None if some is not. The copy may differ in that
    crate alone."""
    copy = rtlib().Crate(os.path.join(top, "crates", name), top, {})
    libraries = [crate(it.name) for it in copy.below()]
    if are_of_gate(libraries):
        places = {it.name: it.rlib for it in libraries}
    elif all(map(is_kept, libraries)):
        places = {it.name: kept_place(it) for it in libraries}
    else:
        return None
    for it in copy.below():
        it.rlib = places[it.name]
    return copy


def checked_copy(top, name, *flags):
    """What the prover says of a crate of a copy of this checkout, over the libraries as they lie proved here; None if some is
    not."""
    copy = copy_over_libraries(top, name)
    if copy is None:
        return None
    words = [rtlib().RATTLE, "check", *copy.words(["--jobs", "1"], keeps=False), *flags]
    run = subprocess.run(words, cwd=copy.folder, stdout=subprocess.PIPE, stderr=subprocess.STDOUT, text=True, errors="replace", check=False)
    return run.stdout
