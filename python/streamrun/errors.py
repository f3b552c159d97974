"""Why a run gave no report."""
from __future__ import annotations


class TableError(ValueError):
    """A table of Python that can't be given to the program. `columns` are the names of the columns at fault."""

    def __init__(self, message: str, columns: tuple[str, ...] = ()) -> None:
        super().__init__(message)
        self.columns = columns


class JobFailed(Exception):
    """Jobs of a report that have a fault or couldn't be run: `lines` are theirs, as in the report."""

    def __init__(self, lines: tuple[str, ...]) -> None:
        super().__init__('\n'.join(lines))
        self.lines = lines


class StreamrunError(Exception):
    """A run that failed. `line` is what the program wrote to standard error, `status` its exit status, which is negative
    if a signal ended it."""

    def __init__(self, line: str, status: int) -> None:
        super().__init__(line)
        self.line = line
        self.status = status


class Refused(StreamrunError):
    """The job file or the column file is refused, with status 1. `explanation` is the place with a hint, if the package
    `streamrun_language` is installed and has one."""

    def __init__(self, line: str, status: int, explanation: str | None = None) -> None:
        super().__init__(line, status)
        self.explanation = explanation

    def __str__(self) -> str:
        return f'{self.line}\n{self.explanation}' if self.explanation else self.line


class JobsRefused(Refused):
    """The job file is refused."""


class ColumnsRefused(Refused):
    """The column file is refused."""


class CommandLineRefused(StreamrunError):
    """The command line is refused, with status 2."""


class OutOfMemory(StreamrunError, MemoryError):
    """The program ran out of memory, with status 3."""


class FileFailed(StreamrunError):
    """A file can't be opened or read, or the report can't be written: status 4. `reason` says which file it is."""

    def __init__(self, line: str, status: int, reason: str | None = None) -> None:
        super().__init__(line, status)
        self.reason = reason

    def __str__(self) -> str:
        return f'{self.line}\n{self.reason}' if self.reason else self.line


class ProgramNotFound(StreamrunError):
    """There is no program of that name, so nothing was run."""


def error_of(line: str, status: int, explanation: str | None) -> StreamrunError:
    """The error for what the program wrote, and its status; explanation: what is known besides."""
    if status == 1:
        kind = ColumnsRefused if line.startswith('streamrun: columns: ') else JobsRefused
        return kind(line, status, explanation)
    if status == 4:
        return FileFailed(line, status, explanation)
    kinds = {2: CommandLineRefused, 3: OutOfMemory}
    return kinds.get(status, StreamrunError)(line or f'streamrun: ended with status {status}', status)
