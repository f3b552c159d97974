"""What scripts have in common: the files of the repository, its crates, scripts as modules, and command lines."""
import argparse
import importlib.machinery
import importlib.util
import os
import pathlib
import shutil
import sys

TOP = os.path.abspath(os.path.join(os.path.dirname(os.path.abspath(__file__)), '..'))


def read(path):
    return pathlib.Path(path).read_text(encoding='utf-8')


def write(path, text):
    pathlib.Path(path).write_text(text, encoding='utf-8')


def crates_of(top):
    """For each crate of crates.txt, the lowest first, what it stands on."""
    rows = [line.split('#')[0].partition(':') for line in read(os.path.join(top, 'crates.txt')).splitlines()]
    return {name.split()[0]: below.split() for name, colon, below in rows if colon}


def sources_of(top, crate='*'):
    """(crate, path) of each source of a crate, or of all."""
    crates = pathlib.Path(top, 'crates')
    for path in sorted(crates.glob(f'{crate}/src/**/*.rt')):
        yield path.relative_to(crates).parts[0], str(path)


def proofs_of(top, crate='*'):
    """The files of definitions and proofs of a crate, or of all."""
    return sorted(str(path) for part in ('specs', 'proofs') for path in pathlib.Path(top, 'crates').glob(f'{crate}/{part}/**/*.antt'))


def script(*path):
    """A script of the repository, as a module."""
    loader = importlib.machinery.SourceFileLoader(path[-1], os.path.join(TOP, *path))
    module = importlib.util.module_from_spec(importlib.util.spec_from_loader(path[-1], loader))
    loader.exec_module(module)
    return module


def toolchain():
    """The toolchain's own module of Python, which knows which files a crate is built of."""
    rt = shutil.which('rt') or sys.exit("the toolchain's command rt is not on PATH")
    sys.path.insert(0, os.path.dirname(os.path.realpath(rt)))
    return importlib.import_module('rtlib')


def built_crates():
    """Each crate as the toolchain's module knows it, after those that it stands on. (Copies below .git are none.)"""
    return toolchain().crates_below(os.path.join(TOP, 'crates'))


def parser_of(page):
    """A parser of the command line that the page at the head of a script describes."""
    return argparse.ArgumentParser(description=page, usage=argparse.SUPPRESS, formatter_class=argparse.RawDescriptionHelpFormatter)
