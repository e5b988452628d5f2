#!/usr/bin/env python3
"""The packages of the library: libksmbook1, libksmbook-host1, libksmbook-dev, and the crate of Rust, which `release/build` makes with those of the
program.

  release/library.py manual     prints the manual page of the header

libksmbook1 has the shared library, and libksmbook-host1 that of a host's size, where release/host has made it
(bindings/out/libksmbook-host.a); libksmbook-dev the header, the static libraries, ksmbook.pc and ksmbook-host.pc, the
manual page and the examples; ksmbook-VERSION.crate is for Cargo, and carries the libraries for x86-64.
ksmbook-host-VERSION-x86_64.tar.gz has the program of a host's size, where release/host built it.
"""

import re
import shutil
import subprocess
import sys
from pathlib import Path

TOP = Path(__file__).resolve().parent.parent
BUILT = TOP / "bindings" / "out"
HOST = TOP / "release" / "out" / "host"
HEADER = TOP / "bindings" / "ksmbook.h"
TRIPLET = "x86_64-linux-gnu"
# The libraries, each with the flags of pkg-config for its limits, and what its description begins with.
SIZES = {"ksmbook": ("", ""), "ksmbook-host": (" -DKSM_HOST", ", for a host")}
SHARED_DESCRIPTION = """\
 table of pages that threads look up without a lock, proved correct{size}
 A frame that a reader holds keeps its words and its life until the reader
 leaves it, in every interleaving of threads, which is proved of the code; and
 a book of pages that are merged. This package has the shared library.
"""
DEV_DESCRIPTION = """\
 table of pages that threads look up without a lock, proved correct: for C
 The header, the static library, what pkg-config asks for, a manual page, and
 examples: a page cache whose writer replaces pages under readers, a book of
 merged pages, and random calls beside a model.
"""
PKG_CONFIG = """\
prefix=/usr
includedir=${{prefix}}/include
libdir=${{prefix}}/lib/{triplet}

Name: {name}
Description: a table of pages that threads look up without a lock, and a book of merged pages, proved correct{size}
Version: {version}
Libs: -L${{libdir}} -l{name}
Libs.private: -pthread
Cflags: -I${{includedir}}{flags}
"""
EXAMPLES_README = """\
# Examples of libksmbook

    cc -pthread page_cache.c $(pkg-config --cflags --libs ksmbook) -o page_cache && ./page_cache

| File | What it does |
|---|---|
| page_cache.c | one writer replaces pages under readers, beside a plain map |
| crowd.c | four threads look pages up while the keeper moves them |
| blocks.c | blocks of 4 KiB outside the table, freed once their frame is reaped |
| book.c | a book of merged pages beside a plain array |
| journal.c | a book that keeps its journal |
| shared.c | a shared book under eight threads, beside a model |
| host.c | a book as large as the library allows, while threads look its pages up |
| numbers.c | reaches each number of the header |
| misuse.c | random calls, right and wrong, beside a model |

With `ksmbook-host` in the place of `ksmbook` each is linked to the library of a host's size. `book.c` and `numbers.c` have
the library's malloc refuse memory, so they want it static:

    cc -pthread numbers.c $(pkg-config --cflags ksmbook) -l:libksmbook.a -Wl,--wrap=malloc -o numbers && ./numbers
"""


# The manual page.

def roff(text):
    """Text as roff takes it."""
    text = text.replace("\\", r"\e").replace("-", r"\-").replace("'", r"\(aq")
    text = re.sub(r"\b(ksm_\w+|KSM_\w+)\b", r"\\fB\1\\fR", text)
    return f"\\&{text}" if text.startswith(".") else text


def paragraphs(comment):
    """A comment of the header as paragraphs and points."""
    lines = [re.sub(r"^ ?\*? ?", "", line.strip()) if line.strip().startswith("*") else line.strip()
             for line in comment.strip().split("\n")]
    point = False
    for line in lines:
        if not line:
            yield ".PP"
            point = False
        elif re.match(r" *- ", line):
            yield r".IP \(bu 2"
            yield roff(re.sub(r"^ *- ", "", line))
            point = True
        else:
            yield roff(line.strip() if point else line)


def manual():
    """The manual page of the header: its comments, and its declarations as they stand."""
    version = (TOP / "VERSION").read_text(encoding="ascii").strip()
    text = HEADER.read_text(encoding="utf-8")
    yield f'.TH KSMBOOK.H 3 "" "ksmbook {version}" "libksmbook"'
    yield from (".nh", ".ad l", ".SH NAME", r"ksmbook.h \- pages that threads look up without a lock, and a book of merged pages")
    yield from (".SH SYNOPSIS", ".nf", r"\fB#include <ksmbook.h>\fR", "", r"\fBcc program.c $(pkg\-config \-\-cflags \-\-libs ksmbook)\fR", ".fi")
    pieces = re.split(r"(?<=\n)/\*(.*?)\*/\n|^/\*(.*?)\*/\n", text, flags=re.DOTALL)
    yield ".SH DESCRIPTION"
    code = ""
    for at, piece in enumerate(pieces):
        if piece is None or not piece.strip():
            continue
        if at % 3:
            yield ".PP"
            yield from paragraphs(piece)
            continue
        code = "\n".join(line for line in piece.strip("\n").split("\n") if not re.match(r"#(if|endif|else|include)|extern|\}$|$", line))
        code = re.sub(r"^KSM_CALL ", "uint32_t ", code, flags=re.MULTILINE)
        if code.strip():
            yield from (".PP", ".nf", *(roff(line) or r"\&" for line in code.split("\n")), ".fi")
    yield from (".SH FILES", r"\fI/usr/share/doc/libksmbook\-dev/examples\fR", ".SH SEE ALSO", r"\fBksmbook\fR(1)")


# The packages.

def documents(build, commit, root, package):
    """What each package has below its folder of documents."""
    place = root / "usr" / "share" / "doc" / package
    build.put(place / "copyright", copyright_of().encode())
    build.put_packed(place / "changelog", build.changelog(commit).encode())
    return place


def copyright_of():
    """The licences of what is linked into the library."""
    return subprocess.run([TOP / "release" / "linked", "--copyright", "ksm_ffi"], check=True, stdout=subprocess.PIPE, text=True).stdout


def control(commit, root, package, fields, description):
    """What Debian is told of a package."""
    size = sum(path.stat().st_size for path in root.rglob("*") if path.is_file() and not path.is_symlink())
    return (f"Package: {package}\nSource: ksmbook\nVersion: {commit.version}\nArchitecture: amd64\nMaintainer: {commit.author}\n"
            f"Installed-Size: {size // 1024}\n{fields}Priority: optional\nMulti-Arch: same\nDescription:{description}")


def needed(path):
    """The least version of the C library that a library asks for."""
    found = re.findall(rb"\bGLIBC_(\d+)\.(\d+)", path.read_bytes())
    return ".".join(map(str, max((int(major), int(minor)) for major, minor in found)))


def built():
    """The libraries that there are: the second is made by release/host alone."""
    return [name for name in SIZES if (BUILT / f"lib{name}.a").exists()]


def shared_package(build, commit, work, output, name):
    """libksmbook1, or libksmbook-host1."""
    root, version = work / name, build.told("cat", str(TOP / "VERSION"))
    major = version.split(".", maxsplit=1)[0]
    package, place = f"lib{name}{major}", root / "usr" / "lib" / TRIPLET
    place.mkdir(parents=True)
    shutil.copy(BUILT / f"lib{name}.so.{version}", place)
    (place / f"lib{name}.so.{major}").symlink_to(f"lib{name}.so.{version}")
    documents(build, commit, root, package)
    fields = f"Depends: libc6 (>= {needed(BUILT / f'lib{name}.so.{version}')})\nSection: libs\n"
    description = SHARED_DESCRIPTION.format(size=SIZES[name][1])
    build.put(root / "DEBIAN" / "control", control(commit, root, package, fields, description).encode())
    build.put(root / "DEBIAN" / "shlibs", f"lib{name} {major} {package} (>= {version}~)\n".encode())
    build.put(root / "DEBIAN" / "triggers", b"activate-noawait ldconfig\n")
    return build.pack_deb(commit, root, output / f"{package}_{commit.version}_amd64.deb")


def dev_package(build, commit, work, output):
    """libksmbook-dev."""
    root, version = work / "dev", build.told("cat", str(TOP / "VERSION"))
    major = version.split(".", maxsplit=1)[0]
    place = root / "usr" / "lib" / TRIPLET
    build.put(root / "usr" / "include" / "ksmbook.h", HEADER.read_bytes())
    for name in built():
        flags, size = SIZES[name]
        build.put(place / f"lib{name}.a", (BUILT / f"lib{name}.a").read_bytes())
        (place / f"lib{name}.so").symlink_to(f"lib{name}.so.{major}")
        told = PKG_CONFIG.format(triplet=TRIPLET, version=version, name=name, flags=flags, size=size)
        build.put(place / "pkgconfig" / f"{name}.pc", told.encode())
    build.put_packed(root / "usr" / "share" / "man" / "man3" / "ksmbook.h.3", ("\n".join(manual()) + "\n").encode())
    share = documents(build, commit, root, "libksmbook-dev")
    build.put(share / "LIBRARY.md", (TOP / "docs" / "LIBRARY.md").read_bytes())
    build.put(share / "examples" / "README.md", EXAMPLES_README.encode())
    for name in commit.below("bindings/c"):
        build.put(share / "examples" / Path(name).name, (TOP / name).read_bytes())
    depends = ", ".join(f"lib{name}{major} (= {commit.version})" for name in built())
    fields = f"Depends: {depends}, libc6-dev\nSection: libdevel\n"
    build.put(root / "DEBIAN" / "control", control(commit, root, "libksmbook-dev", fields, DEV_DESCRIPTION).encode())
    return build.pack_deb(commit, root, output / f"libksmbook-dev_{commit.version}_amd64.deb")


def crate_package(build, _, work, output):
    """The crate for Cargo, where there is one."""
    build.told(str(TOP / "release" / "crate"), str(work / "crate"))
    [made] = (work / "crate").glob("*.crate")
    return Path(shutil.copy(made, output))


def host_archive(build, commit, work, output):
    """The program and the library in a host's size, of release/host."""
    name = f"ksmbook-host-{commit.version}-x86_64"
    root, version = work / name, build.told("cat", str(TOP / "VERSION"))
    build.put(root / "bin" / "ksmbook-host", b"")
    build.told("objcopy", "--strip-all", str(HOST / "ksmbook-host"), str(root / "bin" / "ksmbook-host"))
    build.put(root / "include" / "ksmbook.h", (HOST / "bindings" / "ksmbook.h").read_bytes())
    for file in ("libksmbook.a", f"libksmbook.so.{version}"):
        build.put(root / "lib" / file, (HOST / "bindings" / "out" / file).read_bytes())
    build.told(str(HOST / "release" / "crate"), str(root / "crate"))
    build.put(root / "copyright", copyright_of().encode())
    return build.pack_archive(commit, work, name, output)


def join_host(build):
    """The library of a host's size beside the other, where release/host has proved it; an older one goes."""
    for old in BUILT.glob("libksmbook-host*"):
        old.unlink()
    archive = HOST / "crates" / "ksm_ffi" / "out" / "libksm_ffi.a"
    if archive.exists():
        build.told(str(TOP / "release" / "join"), "--host", str(archive))


def packages(build, commit, work, output):
    """All of them, over the library as it was proved. `build` is release/build, for what it makes of every package."""
    build.told(str(TOP / "release" / "join"))
    join_host(build)
    shared = [shared_package(build, commit, work, output, name) for name in built()]
    others = [dev_package, crate_package]
    if (HOST / "ksmbook-host").exists():
        others.append(host_archive)
    return [*shared, *(make(build, commit, work, output) for make in others)]


def main():
    """Prints the manual page."""
    if sys.argv[1:] != ["manual"]:
        sys.exit(__doc__)
    print("\n".join(manual()))


if __name__ == "__main__":
    main()
