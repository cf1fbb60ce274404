"""The running processes, and the processor time that they used."""

import os
from collections import namedtuple

TICKS = os.sysconf("SC_CLK_TCK")
# A process: its number and when it began, which tell it from all others, the number of its parent, and the ticks that it used
# itself, and that its ended children used.
Process = namedtuple("Process", "number begun parent own ended")


def text_of(path):
    """What a file of a process says; nothing where the process has ended."""
    try:
        with open(path, "rb") as file:
            return file.read().decode(errors="replace")
    except OSError:
        return ""


def processes():
    """All processes that run now."""
    for number in filter(str.isdigit, os.listdir("/proc")):
        fields = text_of(f"/proc/{number}/stat").rpartition(")")[2].split()
        if fields:
            used = list(map(int, fields[11:15]))
            yield Process(int(number), fields[19], int(fields[1]), sum(used[:2]), sum(used[2:]))


def below(root):
    """A process and all below it."""
    found, numbers, grown = list(processes()), {root}, True
    while grown:
        grown = {it.number for it in found if it.parent in numbers} - numbers
        numbers |= grown
    return [it for it in found if it.number in numbers]
