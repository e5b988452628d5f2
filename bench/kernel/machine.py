"""A machine with the real kernel: Debian's packages under software emulation, and the driver as its only program.

The kernels are kept in a folder outside the repository: $KSMBOOK_CACHE, or else ksmbook/kernel in $XDG_CACHE_HOME
or ~/.cache. They are fetched with a configuration of apt that lies there too, and names Debian's suites: the apt of
who runs it stays as it is. A machine that writes nothing for 300 seconds, or $KSMBOOK_BOOT_SECONDS, is ended.

The console of each boot is read, while the machine runs and at its end. A line there in which the kernel reports a
fault of its own ends the boot, however it would have ended.
"""

import dataclasses
import os
import re
import shutil
import subprocess
import sys
import tempfile
import time

HERE = os.path.dirname(os.path.abspath(__file__))
sys.path.insert(0, os.path.dirname(HERE))
import talk  # pylint: disable=wrong-import-position

CACHE = os.environ.get("KSMBOOK_CACHE") or os.path.join(
    os.environ.get("XDG_CACHE_HOME") or os.path.expanduser("~/.cache"), "ksmbook", "kernel")
DRIVER = os.path.join(HERE, "driver")
BOOT_SECONDS = int(os.environ.get("KSMBOOK_BOOT_SECONDS", "300"))
C_FLAGS = ["-std=c11", "-D_GNU_SOURCE", "-O2", "-Wall", "-Wextra", "-static"]
# Two nodes of 256 MB, the processor on the first of them.
MACHINE = ["-accel", "tcg", "-m", "512", "-smp", "1", "-display", "none", "-no-reboot", "-nodefaults",
           "-object", "memory-backend-ram,id=m0,size=256M", "-object", "memory-backend-ram,id=m1,size=256M",
           "-numa", "node,nodeid=0,cpus=0,memdev=m0", "-numa", "node,nodeid=1,memdev=m1"]
# The console has warnings too, and each script's name. A fault ends the machine at once. The tests that a busy host
# fails are off: the timer's, and those of a processor that stands still.
WORDS = ("console=ttyS0 loglevel=5 printk.devkmsg=on panic=-1 oops=panic panic_on_warn=1 hung_task_panic=1 "
         "transparent_hugepage=never numa_balancing=disable mitigations=off no_timer_check nosoftlockup "
         "rcupdate.rcu_cpu_stall_suppress=1")
SLUB_DEBUG = "slub_debug=FPZU"  # freed memory is overwritten, and each object is checked as it is freed
FAULT = re.compile(r"\bBUG\b[: ]|\bOops\b|\bWARNING: |\bKASAN: |\bUBSAN: |\bKFENCE: |general protection fault"
                   r"|INFO: task .* blocked for more than|Kernel panic|list_(?:add|del) corruption")
RUNNING = re.compile(r"ksmbook: script (\S+)")
REPORT_SECONDS, REPORT_LINES = 3, 60


# What is needed, and the package that has it.
PACKAGES = {"qemu-system-x86_64": "qemu-system-x86", "cpio": "cpio", "cc": "gcc", "dpkg-deb": "dpkg", "apt-get": "apt",
            "apt-cache": "apt"}
MIRROR = "http://deb.debian.org"
SUITES = [("debian", suite) for suite in ("bookworm", "bookworm-backports", "trixie", "trixie-backports", "sid")] + [
    ("debian-security", suite) for suite in ("bookworm-security", "trixie-security")]
KEYRING = "/usr/share/keyrings/debian-archive-keyring.gpg"
IMAGE = re.compile(r"^linux-image-(\d+\.\d+)\.\S*-cloud-amd64$")
DAY = 24 * 60 * 60
KERNELS = ["6.1", "6.12", "newest"]


class Trouble(Exception):
    """What keeps the kernel from being run, in words for who runs it."""


class Unfinished(Trouble):
    """A boot that never reached the driver."""


@dataclasses.dataclass
class Crash:
    """A fault that the kernel reported on its console: the script that was running (none before the first), the line,
    and what followed it there."""
    script: str | None
    line: str
    report: str


@dataclasses.dataclass
class Boot:
    """What the driver wrote, and the fault that the kernel reported, if there was one."""
    lines: list
    crash: Crash | None = None


def apt(*words, **more):
    """Runs a command of apt with a configuration of its own, in the cache."""
    folder = os.path.join(CACHE, "apt")
    for name in ("lists/partial", "archives/partial"):
        os.makedirs(os.path.join(folder, name), exist_ok=True)
    with open(os.path.join(folder, "sources.list"), "w", encoding="ascii") as file:
        file.writelines(f"deb [signed-by={KEYRING}] {MIRROR}/{archive} {suite} main\n" for archive, suite in SUITES)
    with open(os.path.join(folder, "apt.conf"), "w", encoding="ascii") as file:
        file.write(f'Dir::Etc::sourcelist "{folder}/sources.list";\nDir::Etc::sourceparts "/dev/null";\n'
                   f'Dir::State::lists "{folder}/lists";\nDir::Cache "{folder}";\nAPT::Sandbox::User "root";\n')
    try:
        return subprocess.run(words, env=os.environ | {"APT_CONFIG": os.path.join(folder, "apt.conf")}, check=True,
                              text=True, **more)
    except subprocess.CalledProcessError as error:
        raise Trouble(f"`{' '.join(words)}` ended with status {error.returncode}") from None


def update():
    """Fetches what the archives have, once a day."""
    stamp = os.path.join(CACHE, "apt", "updated")
    if not os.path.exists(stamp) or time.time() - os.path.getmtime(stamp) > DAY:
        apt("apt-get", "update", stdout=subprocess.DEVNULL)
        with open(stamp, "w", encoding="ascii"):
            pass


def in_order(names):
    """Names of packages, the newest version last."""
    return subprocess.run(["sort", "--version-sort"], input="\n".join(names), capture_output=True, text=True,
                          check=True).stdout.split()


def images():
    """The packages of all kernels that the archives have, the newest last."""
    update()
    listed = apt("apt-cache", "search", "--names-only", "^linux-image-[0-9].*-cloud-amd64$", stdout=subprocess.PIPE)
    names = in_order(found.split()[0] for found in listed.stdout.splitlines())
    return [name for name in names if IMAGE.match(name)]


def newest():
    """The newest line of kernels that the archives have, for example 7.3."""
    return IMAGE.match(images()[-1])[1]


def unpacked(package, folder):
    """Downloads a package and takes it apart. The kernel in it, or nothing; the package may not be there at all."""
    try:
        apt("apt-get", "download", package, cwd=folder, stdout=subprocess.DEVNULL, stderr=subprocess.DEVNULL)
    except Trouble:
        return None
    archive, = (name for name in os.listdir(folder) if name.endswith(".deb"))
    root = os.path.join(folder, package)
    subprocess.run(["dpkg-deb", "--extract", archive, root], cwd=folder, check=True)
    os.remove(os.path.join(folder, archive))
    return next((os.path.join(where, name) for where, _, names in os.walk(root) for name in names
                 if name.startswith("vmlinuz")), None)


def download(line, folder):
    """Downloads the newest kernel of a line to a folder, as vmlinuz-VERSION. From 7.2 on the image lies in a package
    of its own, linux-binary or linux-modules."""
    names = [name for name in images() if IMAGE.match(name)[1] == line]
    if not names:
        raise Trouble(f"{MIRROR} has no linux-image-{line}.*-cloud-amd64")
    package = names[-1]
    for kind in ("linux-image", "linux-binary", "linux-modules"):
        found = unpacked(package.replace("linux-image", kind, 1), folder)
        if found:
            return found, package.removeprefix("linux-image-")
    raise Trouble(f"no kernel in {package}, nor in linux-binary and linux-modules of this version")


def fetch(line):
    """The kernel of a line, for example 6.1, or the newest. It is downloaded and taken apart once, never installed."""
    if line == "newest":
        line = newest()
    boot = os.path.join(CACHE, line, "boot")
    if not os.path.isdir(boot):
        os.makedirs(CACHE, exist_ok=True)
        with tempfile.TemporaryDirectory(dir=CACHE) as folder:
            found, version = download(line, folder)
            os.makedirs(os.path.join(folder, "line", "boot"))
            os.rename(found, os.path.join(folder, "line", "boot", f"vmlinuz-{version}"))
            os.rename(os.path.join(folder, "line"), os.path.join(CACHE, line))
    name, = (name for name in os.listdir(boot) if name.startswith("vmlinuz-"))
    return os.path.join(boot, name)


def kernel(name):
    """The path of a kernel: of a line of Debian's, or as it is given."""
    return name if os.path.isfile(name) else fetch(name)


def release(name):
    """The release of a kernel, as its image has it, or of a line."""
    if re.fullmatch(r"\d+\.\d+", name):
        return f"{name}.0"
    with open(kernel(name), "rb") as file:
        image = file.read(1 << 16)
    at = 0x200 + int.from_bytes(image[0x20e:0x210], "little")
    return image[at:image.index(b"\0", at)].split()[0].decode()


def driver():
    """The size of a page and the sources of the driver, by name."""
    texts = {}
    for name in sorted(os.listdir(DRIVER)):
        with open(os.path.join(DRIVER, name), encoding="ascii") as file:
            texts[name] = file.read()
    return 8 * talk.page_words(), texts


def build(root):
    """Builds the driver as the program /init of a root folder."""
    size, texts = driver()
    files = [name for name in texts if name.endswith(".c")]
    words = ["cc", *C_FLAGS, f"-DCONTENT={size}", "-o", os.path.join(root, "init"), *files]
    subprocess.run(words, cwd=DRIVER, check=True)


def pack(root, path):
    """Packs a root folder as the kernel takes it."""
    names = [os.path.relpath(os.path.join(folder, name), root)
             for folder, folders, files in os.walk(root) for name in [*folders, *files]]
    with open(path, "wb") as image:
        subprocess.run(["cpio", "--create", "--format", "newc", "--quiet"], cwd=root, stdout=image, check=True,
                       input="\n".join(sorted(names)).encode())


def check_tools():
    """Tells what is missing, and the command that installs it."""
    missing = [tool for tool in PACKAGES if not shutil.which(tool)]
    packages = {PACKAGES[tool] for tool in missing}
    if shutil.which("cc") and not os.path.exists(subprocess.run(
            ["cc", "-print-file-name=libc.a"], capture_output=True, text=True, check=True).stdout.strip()):
        missing, packages = [*missing, "libc.a"], packages | {"libc6-dev"}
    if "cc" in missing:
        packages |= {"libc6-dev"}
    if missing:
        raise Trouble(f"missing: {', '.join(missing)}. On Debian: "
                      f"apt-get install --no-install-recommends {' '.join(sorted(packages))}")


def text_of(path):
    """A file of the machine as text, as far as it is written."""
    if not os.path.exists(path):
        return ""
    with open(path, errors="replace", encoding="ascii") as file:
        return file.read()


def crash_of(console):
    """The first fault on a console, or none."""
    lines = console.splitlines()
    at = next((index for index, line in enumerate(lines) if FAULT.search(line)), None)
    if at is None:
        return None
    scripts = RUNNING.findall("\n".join(lines[:at]))
    return Crash(scripts[-1] if scripts else None, lines[at].strip(), "\n".join(lines[at:at + REPORT_LINES]))


def run_until_fault(words, *written):
    """Runs a machine until it ends, or a while behind the first fault on its console, the first of the files that it
    writes; or until it writes nothing for long. Its status, or none where it was ended."""
    with subprocess.Popen(words, stdin=subprocess.DEVNULL) as process:
        fault_at, sizes, grew_at = None, [], time.monotonic()
        while process.poll() is None:
            time.sleep(0.2)
            now = time.monotonic()
            before, sizes = sizes, [os.path.getsize(path) for path in written if os.path.exists(path)]
            grew_at = now if sizes != before else grew_at
            if sizes != before and not fault_at and crash_of(text_of(written[0])):
                fault_at = now
            if now - grew_at > BOOT_SECONDS or fault_at and now - fault_at > REPORT_SECONDS:
                process.terminate()
                return None
        return process.returncode


def run_driver(kernel, root, folder, more):
    """Boots the kernel with a root folder. What the driver wrote and the kernel reported."""
    image, log, replies = (os.path.join(folder, name) for name in ("initrd", "log", "replies"))
    pack(root, image)
    words = ["qemu-system-x86_64", *MACHINE, "-serial", f"file:{log}", "-serial", f"file:{replies}",
             "-kernel", kernel, "-initrd", image, "-append", f"{WORDS} {more}"]
    status = run_until_fault(words, log, replies)
    lines, crash = text_of(replies).splitlines(), crash_of(text_of(log))
    if not crash and (status or not lines or lines[-1] != "end"):
        tail = f"status {status}, last reply {lines[-1:]}\n{text_of(log)[-2000:]}"
        if not lines:
            raise Unfinished(f"the machine never reached the driver: {tail}")
        scripts = RUNNING.findall(text_of(log))
        crash = Crash(scripts[-1] if scripts else None, f"no end, and no fault on the console: {lines[-1]}", tail)
    return Boot(lines, crash)


def boot(kernel, scripts, folder, more=""):
    """Boots the kernel once over scripts, given as name to text, with more words for the kernel."""
    check_tools()
    root = os.path.join(folder, "root")
    for name in ("proc", "sys", "dev", "scripts"):
        os.makedirs(os.path.join(root, name))
    for name, text in scripts.items():
        with open(os.path.join(root, "scripts", name), "w", encoding="ascii") as file:
            file.write(text)
    build(root)
    return run_driver(kernel, root, folder, more)
