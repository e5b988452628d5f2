"""Talks to ksmbook over pipes, one line at a time."""

import os
import re
import subprocess
import threading

TOP = os.path.dirname(os.path.dirname(os.path.abspath(__file__)))
PROGRAM = os.path.join(TOP, "crates", "ksm_tool", "out", "ksm_tool")
PLAIN = os.path.join(TOP, "bench", "plain", "target", "release", "plain")
# at a terminal as elsewhere, the programs that are measured and compared tell no refusals in words
os.environ["KSMBOOK_EXPLAIN"] = "0"


def page_words():
    """The words of a page, from where ksmbook has them."""
    with open(os.path.join(TOP, "crates", "ksm_base", "src", "page.rt"), encoding="utf-8") as source:
        return int(re.search(r"^pub const PAGE_WORDS: usize = (\d+);", source.read(), re.MULTILINE)[1])


def build():
    """Proves and builds the program where need be."""
    words = [os.path.join(TOP, "ksmbook"), "--nodes", "1", "--frames", "1"]
    subprocess.run(words, stdin=subprocess.DEVNULL, check=True)


def build_program(name):
    """Proves and builds a program of bench/programs where need be, and tells its path."""
    told = subprocess.run([os.path.join(TOP, "bench", "program"), name, "--build"], stdout=subprocess.PIPE, text=True, check=True)
    return told.stdout.strip()


def build_plain():
    """Builds the program of the same language in plain Rust, which ksmbook is compared with."""
    subprocess.run(["cargo", "build", "--quiet", "--release", "--offline"],
                   cwd=os.path.join(TOP, "bench", "plain"), check=True)


class Talk:
    """A running program: a line is sent, and its reply is read before the next one is sent."""

    def __init__(self, *options, program=PROGRAM, **more):
        pipe = subprocess.PIPE
        self.process = subprocess.Popen([program, *options], stdin=pipe, stdout=pipe, stderr=pipe,
                                        bufsize=0, **more)
        self.replies = os.fdopen(os.dup(self.process.stdout.fileno()), "rb")

    def ask(self, line):
        """The reply to a line, or None where the program has ended."""
        try:
            self.process.stdin.write(line.encode() + b"\n")
        except BrokenPipeError:
            return None
        return self.replies.readline().decode().rstrip("\n") or None

    def ask_all(self, lines):
        """Sends the lines, each of which has a reply, while the replies are read. Tells the last reply."""
        text = "".join(f"{line}\n" for line in lines).encode()
        sender = threading.Thread(target=self.process.stdin.write, args=(text,))
        sender.start()
        for _ in lines:
            last = self.replies.readline()
        sender.join()
        return last.decode().rstrip("\n")

    def end(self):
        """Ends the input: the status, what is left of the output, and standard error."""
        self.process.stdin.close()
        left = self.replies.read()
        self.replies.close()
        said = self.process.stderr.read()
        self.process.stdout.close()
        self.process.stderr.close()
        return self.process.wait(), left.decode(), said.decode()
