"""What a job file becomes if the words of a hint are followed to the letter.

    write `NEW` for `OLD`                     the nearest OLD becomes NEW
    leave `OLD` out                           the nearest OLD goes
    write `a = ..`, `b = ..` and `c = ..`     the job becomes these
    `version N` as the first line             the file is of that version
    run with --language N                     the file is read so
"""
from __future__ import annotations

import re
from typing import Optional

from .lines import BLANKS, JobText, lines_of

WRITE = re.compile(r'write `([^`]*)` for `([^`]+)`')
LEAVE = re.compile(r'leave `([^`]+)` out')
JOBS = re.compile(r'write ((?:`\w+ = [^`]*`(?:, | and )?)+)')
FIRST_LINE, LANGUAGE = re.compile(r'`(version \d)` as the first line'), re.compile(r'--language (\d)')


def nearest_place(text: str, part: str, at: int) -> int:
    """Where a part stands in a text: around a place, or as near to it as can be; -1 if nowhere."""
    places = [it.start() for it in re.finditer(f'(?={re.escape(part)})', text)]
    return min(places, key=lambda place: max(place - at, at - place - len(part), 0), default=-1)


def language_after(hint: str, newest: int) -> int:
    """The newest version that is read if a hint is followed."""
    found = LANGUAGE.search(hint)
    return max(newest, int(found[1])) if found else newest


def version_at(data: bytes) -> int:
    """Which line says a version, from 0, or -1 if none does."""
    texts = [line.strip(BLANKS) for line in lines_of(data)]
    first = next((at for at, text in enumerate(texts) if text and not text.startswith((b'#', b'//'))), -1)
    return first if first >= 0 and re.fullmatch(rb'version[ \t]+\d', texts[first]) else -1


def added_lines(data: bytes, hint: str) -> int:
    """How many lines a hint puts before all jobs."""
    return int(FIRST_LINE.search(hint) is not None and version_at(data) < 0)


def of_version(data: bytes, hint: str) -> bytes:
    """A file with the version that a hint says, if it says one."""
    said, at = FIRST_LINE.search(hint), version_at(data)
    lines = lines_of(data)
    return b'\n'.join([*lines[:max(at, 0)], said[1].encode(), *lines[at + 1:]]) if said else data


def followed(data: bytes, job: JobText, at: int, hint: str) -> Optional[bytes]:
    """The file with a hint on a place of a job followed, or None if the hint proposes no text and no language."""
    made = with_text(data, job, at, hint)
    is_asked = FIRST_LINE.search(hint) or LANGUAGE.search(hint)
    return of_version(data if made is None else made, hint) if made is not None or is_asked else None


def with_text(data: bytes, job: JobText, at: int, hint: str) -> Optional[bytes]:
    """The file with the text of a hint put in, or None if the hint proposes no text."""
    jobs, leave, write = JOBS.search(hint), LEAVE.search(hint), WRITE.search(hint)
    first, last = job.starts[0][1], job.starts[-1][1]
    if write or leave:
        new, old = (write[1], write[2]) if write else ('', leave[1])
        text = job.text.decode('latin-1')
        old = old.encode().decode('latin-1')
        place = nearest_place(text, old, at)
        made = '' if place < 0 else text[:place] + new.encode().decode('latin-1') + text[place + len(old):]
        return with_lines(data, first, last, made.encode('latin-1')) if place >= 0 else None
    if jobs:
        return with_lines(data, first, last, '\n'.join(re.findall('`([^`]*)`', jobs[1])).encode())
    return None


def with_lines(data: bytes, first: int, last: int, text: bytes) -> bytes:
    """A file with other lines from one to another."""
    lines = lines_of(data)
    return b'\n'.join([*lines[:first - 1], text, *lines[last:]])
