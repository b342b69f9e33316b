"""Runs of a program, each with what it used."""
import os
import subprocess
import sys
from collections import namedtuple

# `seconds` of the processor, the peak of `memory` in bytes, and what was written to the two outputs where these were pipes
Run = namedtuple('Run', 'seconds memory out err')


def run(*words, source=subprocess.DEVNULL, sink=subprocess.PIPE, folder=None, want=None, status=0):
    """One run, in a folder if one is given, which must end with this status and, where a text is wanted, write that."""
    child = subprocess.Popen(words, stdin=source, stdout=sink, stderr=subprocess.PIPE, cwd=folder)
    out = child.stdout.read().decode() if child.stdout else ''
    err = child.stderr.read().decode()
    _, ended, usage = os.wait4(child.pid, 0)
    child.returncode = os.waitstatus_to_exitcode(ended)
    if child.returncode != status or want is not None and out != want:
        sys.exit(f'{words}: {out[:200]!r}, {err[:200]!r}, status {child.returncode}')
    return Run(usage.ru_utime + usage.ru_stime, usage.ru_maxrss * 1024, out, err)


def run_on(path, *words, sink=subprocess.PIPE):
    """One run whose standard input is a file."""
    with open(path, 'rb') as source:
        return run(*words, source=source, sink=sink)


def run_silent(path, *words):
    """One run whose standard input is a file, and whose output is thrown away."""
    return run_on(path, *words, sink=subprocess.DEVNULL)


def least(runs, *asked):
    """Of each of several calls that give a `Run`, the least time and the greatest memory of so many, made in turns."""
    best = [(float('inf'), 0)] * len(asked)
    for _ in range(runs):
        for place, ask in enumerate(asked):
            told = ask()
            seconds, memory = best[place]
            best[place] = min(seconds, told.seconds), max(memory, told.memory)
    return best
