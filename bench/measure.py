"""Runs a program on a script, and measures the run. GNU time tells the memory."""

import dataclasses
import hashlib
import resource
import statistics
import subprocess
import tempfile


@dataclasses.dataclass(frozen=True)
class Run:
    """What a run took: seconds of a processor, and the most memory that it had, in KB; its visits, and
    its replies in short."""
    seconds: float
    memory: int
    visits: int
    replies: str


def told(replies):
    """The visits that the replies tell, and what the replies are, in short."""
    digest, visits = hashlib.sha256(), 0
    for line in replies:
        digest.update(line)
        if line.startswith(b"scanned "):
            visits += int(line.split()[1])
    return visits, digest.hexdigest()


def processor_time():
    """The seconds of a processor that ended children took."""
    used = resource.getrusage(resource.RUSAGE_CHILDREN)
    return used.ru_utime + used.ru_stime


def measured(program, options, script):
    """A run of the program on a script's path."""
    with (open(script, "rb") as lines, tempfile.TemporaryFile() as replies,
          tempfile.NamedTemporaryFile("r") as memory):
        words = ["time", "--format", "%M", "--output", memory.name, program, *options]
        start = processor_time()
        subprocess.run(words, stdin=lines, stdout=replies, check=True)
        seconds = processor_time() - start
        replies.seek(0)
        return Run(seconds, int(memory.read()), *told(replies))


def best(runs):
    """The run that took least, with the memory that the runs had in the median."""
    return dataclasses.replace(min(runs, key=lambda run: run.seconds),
                               memory=statistics.median_low(run.memory for run in runs))


def measured_in_turn(programs, options, script, times):
    """The best of so many runs of each program, and whether all runs gave the same replies."""
    runs = [[measured(program, options, script) for program in programs] for _ in range(times)]
    replies = {run.replies for turn in runs for run in turn}
    return [best([turn[i] for turn in runs]) for i in range(len(programs))], len(replies) == 1
