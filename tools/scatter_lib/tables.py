"""Tables: where a column file may be cut, and how many rows lie between two cuts.

Without a quote every line end ends a record. From a quote on Python's csv says where its record ends.
"""
import csv
import mmap
import os
import re
import shutil
import stat
import sys
import tempfile
from collections import namedtuple

MARK = b'\xef\xbb\xbf'
LINE_ENDS, LINE_END = re.compile(rb'[\r\n]*'), re.compile(rb'\r\n|\r|\n')
CHUNK = 2 ** 24

csv.field_size_limit(sys.maxsize)

# A part of a table: bytes that stand before it, and the bytes from start to end of a file. rows: how many records, the
# header aside.
Part = namedtuple('Part', 'path header start end rows')


class Lines:
    """The lines of some bytes, each with its end, as csv wants them. at: where the next one begins."""

    def __init__(self, data, at, end):
        self.data, self.at, self.end = data, at, end

    def __iter__(self):
        return self

    def __next__(self):
        if self.at >= self.end:
            raise StopIteration
        start, self.at = self.at, line_end(self.data, self.at, self.end)
        return self.data[start:self.at].decode('latin-1')


def line_end(data, at, end):
    """Where the line ends that holds this position, its line end included."""
    found = LINE_END.search(data, at, end)
    return found.end() if found else end


def open_table(path):
    """The bytes of a regular file, which are read when they are asked for."""
    with open(path, 'rb') as file:
        if os.fstat(file.fileno()).st_size:
            return mmap.mmap(file.fileno(), 0, access=mmap.ACCESS_READ)
        return b''


def header_of(data, sign=','):
    """The names of the header and where it ends, or None and the end if there is no record; sign: what stands between cells."""
    start = LINE_ENDS.match(data, len(MARK) if data[:len(MARK)] == MARK else 0).end()
    lines = Lines(data, start, len(data))
    names = next(csv.reader(lines, delimiter=sign), None)
    return names, lines.at


def spans(data, start, sign):
    """The records after the header: (False, from, to) for whole lines without a quote, (True, from, to) for one record
    with quotes."""
    end = len(data)
    lines = Lines(data, start, end)
    records = csv.reader(lines, delimiter=sign)
    while start < end:
        quote = data.find(b'"', start)
        if quote < 0:
            yield False, start, end
            return
        line = max(start, data.rfind(b'\n', start, quote) + 1, data.rfind(b'\r', start, quote) + 1)
        if line > start:
            yield False, start, line
        lines.at = line
        next(records)
        yield True, line, lines.at
        start = lines.at


def rows_between(data, start, end):
    """How many lines have anything in them."""
    rows, is_begun = 0, False
    for at in range(start, end, CHUNK):
        piece = data[at:min(at + CHUNK, end)].replace(b'\r', b'\n')
        while b'\n\n' in piece:
            piece = piece.replace(b'\n\n', b'\n')
        if piece != b'\n':
            rows += piece.count(b'\n') + 1 - piece.startswith(b'\n') - piece.endswith(b'\n')
            rows -= is_begun and not piece.startswith(b'\n')
        is_begun = not piece.endswith(b'\n')
    return rows


def cuts(data, start, count, sign):
    """(end, rows) of each of `count` parts of about one size. A part begins where a record does."""
    end, rows, found = len(data), 0, []
    targets = [start + (end - start) * number // count for number in range(1, count)]
    for is_quoted, low, high in spans(data, start, sign):
        at = low
        while targets and targets[0] <= high:
            target = targets.pop(0)
            cut = low if target <= low else high if is_quoted else line_end(data, target - 1, high)
            found.append((cut, rows + rows_of_span(data, is_quoted, at, cut)))
            at, rows = cut, 0
        rows += rows_of_span(data, is_quoted, at, high)
    return [*found, *((end, 0) for _ in targets), (end, rows)]


def rows_of_span(data, is_quoted, start, end):
    return int(start < end) if is_quoted else rows_between(data, start, end)


def parts_of(paths, count, sign=','):
    """The bytes of the header, and the parts: of one file `count`, of several files each."""
    tables = [open_table(path) for path in paths]
    names, end = header_of(tables[0], sign)
    header = tables[0][:end]
    for path, data in zip(paths[1:], tables[1:]):
        if header_of(data, sign)[0] != names:
            raise OtherHeader(f'{path}: another header than {paths[0]}')
    if len(paths) > 1:
        return header, [Part(path, b'', 0, len(data), rows_of_table(data, sign)) for path, data in zip(paths, tables)]
    found, start = [], end
    for to, rows in cuts(tables[0], end, count, sign):
        found.append(Part(paths[0], header, start, to, rows))
        start = to
    return header, found


class OtherHeader(Exception):
    """A file that isn't of the table."""


def rows_of_table(data, sign=','):
    """How many rows a table has."""
    return cuts(data, header_of(data, sign)[1], 1, sign)[0][1]


def pieces_of(part):
    """The bytes of a part, piece by piece."""
    yield part.header
    if part.start < part.end:
        with open(part.path, 'rb') as file:
            file.seek(part.start)
            left = part.end - part.start
            while left:
                piece = file.read(min(left, CHUNK))
                if not piece:
                    raise OSError(f'{part.path} became shorter')
                left -= len(piece)
                yield piece


def regular(path, folder):
    """The path of a regular file with these bytes: a pipe is copied into a folder."""
    with open(path, 'rb') as file:
        if stat.S_ISREG(os.fstat(file.fileno()).st_mode):
            return path
        handle, copy = tempfile.mkstemp(dir=folder)
        with open(handle, 'wb') as target:
            shutil.copyfileobj(file, target, CHUNK)
        return copy
