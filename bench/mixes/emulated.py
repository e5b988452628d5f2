"""A machine with a real kernel and two nodes, under software emulation, in which Python tries the mixes.

The kernel, where it lies, and the machine are those of bench/kernel. This interpreter, the modules that are
needed and the libraries that they are linked with are all that the machine has.
"""

import importlib.util
import os
import re
import shutil
import subprocess
import sys
import tempfile

HERE = os.path.dirname(os.path.abspath(__file__))
TOP = os.path.dirname(os.path.dirname(HERE))
sys.path.insert(0, os.path.join(TOP, "bench", "kernel"))
import machine  # pylint: disable=wrong-import-position

MOST_SECONDS = 3600
# without it the kernel has no random bytes for minutes, and Python does not begin without some
RANDOM = ["-cpu", "qemu64,+rdrand"]
# prints the file of each module that the programs of the machine load, with some that Python loads when it needs them
LOADED = ("import sys; sys.path[:0] = [sys.argv[1], sys.argv[2]]; "
          "import encodings.ascii, gettext, locale, shutil, pickle, guest, measure_lib.program; "
          "print(*(m.__file__ for m in list(sys.modules.values()) if getattr(m, '__file__', None)), sep='\\n')")
INIT = "#!{python} -S\nimport sys\nsys.path[:0] = ['/mixes', '/']\nimport guest\nguest.main()\n"


def modules() -> list[str]:
    """The files of the modules, with what Python made of them."""
    words = [sys.executable, "-S", "-c", LOADED, HERE, TOP]
    run = subprocess.run(words, stdout=subprocess.PIPE, text=True, check=True)
    files = [path for path in run.stdout.split("\n") if path.startswith("/") and not path.startswith(TOP)]
    made = [importlib.util.cache_from_source(path) for path in files if path.endswith(".py")]
    return files + [path for path in made if os.path.exists(path)]


def libraries(files: list[str]) -> set[str]:
    """The libraries that programs and modules are linked with, and the loader."""
    found: set[str] = set()
    for path in files:
        run = subprocess.run(["ldd", path], stdout=subprocess.PIPE, stderr=subprocess.DEVNULL, text=True, check=False)
        found.update(re.findall(r"(/\S+) \(0x", run.stdout))
    return found


def put(root: str, path: str, name: str | None = None) -> None:
    """Copies a file of this system to the same place of the machine's, or to that of another name."""
    place = root + (name or path)
    os.makedirs(os.path.dirname(place), exist_ok=True)
    shutil.copy(os.path.realpath(path), place)


def fill(root: str, are_few: bool, only: list[str]) -> None:
    """Puts all that the machine has into its root folder, and what it is to try."""
    python = os.path.realpath(sys.executable)
    files = modules()
    for path in [python, *files, *libraries([python, *(path for path in files if path.endswith(".so"))])]:
        put(root, path)
    for name in sorted(os.listdir(HERE)):
        if name.endswith(".py"):
            put(root, os.path.join(HERE, name), f"/mixes/{name}")
    for name in sorted(os.listdir(os.path.join(TOP, "measure_lib"))):
        if name.endswith(".py"):
            put(root, os.path.join(TOP, "measure_lib", name), f"/measure_lib/{name}")
    put(root, os.path.join(TOP, "measure"), "/measure")
    for name in "proc", "sys", "dev", "tmp":
        os.makedirs(os.path.join(root, name))
    with open(os.path.join(root, "only"), "w", encoding="utf-8") as file:
        file.write("\n".join(["few" if are_few else "all", *only]))
    init = os.path.join(root, "init")
    with open(init, "w", encoding="ascii") as file:
        file.write(INIT.format(python=python))
    os.chmod(init, 0o755)


def run(line: str, are_few: bool, only: list[str]) -> list[str]:
    """Boots a kernel, by the line of Debian's packages or by its path, and tells the lines that the machine wrote."""
    machine.check_tools()
    kernel = machine.kernel(line)
    with tempfile.TemporaryDirectory() as folder:
        root = os.path.join(folder, "root")
        fill(root, are_few, only)
        image, log, replies = (os.path.join(folder, name) for name in ("initrd", "log", "replies"))
        machine.pack(root, image)
        words = ["timeout", "--foreground", str(MOST_SECONDS), "qemu-system-x86_64", *machine.MACHINE, *RANDOM,
                 "-serial", f"file:{log}", "-serial", f"file:{replies}", "-kernel", kernel, "-initrd", image,
                 "-append", machine.WORDS]
        status = subprocess.run(words, stdin=subprocess.DEVNULL, check=False).returncode
        with open(replies, encoding="utf-8") as file:
            lines = file.read().splitlines()
        if status or not lines or not lines[-1].startswith("end"):
            with open(log, errors="replace", encoding="ascii") as file:
                tail = file.read()[-4000:]
            raise machine.Trouble(f"the machine did not come to its end (status {status}): {lines[-1:]}\n{tail}")
        return lines
