"""Lines of a job file: which of them belong to a job, and where a place of a job's text stands in the file."""
from __future__ import annotations

import re
from dataclasses import dataclass
from typing import List, Tuple

from .refusals import Cause, Refused, RefusedFile, Wanted

MARK = b'\xef\xbb\xbf'
BLANKS = b' \t'
VERSION = re.compile(rb'version[ \t]+([23])[ \t]*')
# The newest version that is read, if no other one is asked for.
NEWEST = 2


@dataclass
class JobText:
    """The lines of a job, joined by one space. `starts` says for each of them at which place of the text it begins."""

    line: int
    text: bytes
    starts: List[Tuple[int, int]]

    def append(self, number: int, line: bytes) -> None:
        """Adds a line that continues the job."""
        self.starts.append((len(self.text) + 1, number))
        self.text += b' ' + line

    def position(self, at: int) -> Tuple[int, int]:
        """The line and the column of a place of the text, from 1 and in bytes. A joining space stands at the end of the
        line before it."""
        start, number = [it for it in self.starts if it[0] <= at][-1]
        return number, at - start + 1

    def first_place(self) -> int:
        """The place of the first token."""
        return len(self.text) - len(self.text.lstrip(BLANKS))


@dataclass
class Lines:
    """The version of a file and the texts of its jobs."""

    version: int
    jobs: List[JobText]


def lines_of(data: bytes) -> List[bytes]:
    """The lines of a file, without their ends and without a byte order mark before the first one."""
    lines = (data[len(MARK):] if data.startswith(MARK) else data).split(b'\n')
    return [line[:-1] if line.endswith(b'\r') else line for line in lines[:-1]] + lines[-1:]


def said_version(text: bytes, newest: int) -> int:
    """The version that the first line of a file says, or 0 if it says none of those that are read."""
    found = VERSION.fullmatch(text)
    return int(found[1]) if found and int(found[1]) <= newest else 0


def read_lines(data: bytes, newest: int = NEWEST) -> Lines:
    """The jobs of a file as texts; newest: the newest version that is read. A line that continues a job has to have one
    above it."""
    version, jobs = 0, []
    for number, line in enumerate(lines_of(data), 1):
        text = line.lstrip(BLANKS)
        if not text or text.startswith((b'#', b'//')):
            continue
        if not version:
            said = said_version(text, newest)
            version = said or 1
            if said:
                continue
        if not text.startswith(b'.'):
            jobs.append(JobText(number, line, [(0, number)]))
        elif jobs:
            jobs[-1].append(number, line)
        else:
            orphan = JobText(number, line, [(0, number)])
            raise RefusedFile(orphan, Refused(Cause.SYNTAX, orphan.first_place(), Wanted.JOB_ABOVE))
    return Lines(version or 1, jobs)
