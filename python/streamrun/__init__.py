"""Runs streamrun: integer pipelines whose report is proved correct, byte for byte.

    import streamrun
    report = streamrun.run('total = column("price").sum()', {'price': [120, 80, 200]})
    report['total']      # 400

`run` starts the program and gives a Report; a run that fails is a StreamrunError. docs/python.md has examples.
"""
from .errors import (ColumnsRefused, CommandLineRefused, FileFailed, JobFailed, JobsRefused, OutOfMemory, ProgramNotFound, Refused,
                     StreamrunError, TableError)
from .report import Answer, Fault, Report, Unusable
from .running import run
from .version import VERSION as __version__

__all__ = ['Answer', 'ColumnsRefused', 'CommandLineRefused', 'Fault', 'FileFailed', 'JobFailed', 'JobsRefused', 'OutOfMemory',
           'ProgramNotFound', 'Refused', 'Report', 'StreamrunError', 'TableError', 'Unusable', 'run', '__version__']
