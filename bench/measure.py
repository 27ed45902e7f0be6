"""Measures the processor time and the memory of a program on a script: what bench/run and bench/old_and_new stand on."""

import os
import subprocess
import tempfile


def on_one_core():
    """Keeps this process, and what it starts, on one core."""
    os.sched_setaffinity(0, {max(os.sched_getaffinity(0))})


def once(program, script):
    """Seconds of processor time of `enact` on a script, and its peak of memory in KiB; None where its status is not 0.

    The peak is reported by `time`, which is small: a process started by Python itself has at least the peak of Python."""
    with tempfile.NamedTemporaryFile() as peak, open(script, "rb") as source:
        words = ["time", "-q", "-f", "%M", "-o", peak.name, program, "enact"]
        process = subprocess.Popen(words, stdin=source, stdout=subprocess.DEVNULL, stderr=subprocess.DEVNULL)
        _, status, used = os.wait4(process.pid, 0)
        process.returncode = status
        return (used.ru_utime + used.ru_stime, int(peak.read().split()[-1])) if status == 0 else None


def best(programs, scripts, runs):
    """For each script, for each program: the least processor time and the least peak of some runs, which alternate, so that
    all of them meet the same noise; None where a run has another status than 0."""
    found = [[[] for _ in programs] for _ in scripts]
    for _ in range(runs):
        for script, cells in zip(scripts, found):
            for program, cell in zip(programs, cells):
                cell.append(once(program, script))
    return [[None if None in cell else tuple(map(min, zip(*cell))) for cell in cells] for cells in found]
