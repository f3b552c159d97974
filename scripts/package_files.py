"""What scripts/package puts into a package, and the texts that it writes there."""
import gzip
import hashlib
import os
import pathlib
import re
import shutil
import subprocess
import sys
import tempfile

from page_commands import commands_of
from page_text import pages_of, targets_of
from repository import read, write as write_text

PROCESSORS = ('x86-64-v2', 'x86-64-v3')
PROGRAMS = ('streamrun', 'streamrun-merge')
PLACES = [(processor, program) for processor in PROCESSORS for program in PROGRAMS]
# What a reader gets, besides all that the pages link to.
DOCUMENTS = ('README.md', 'CHANGELOG.md', 'VERSION', 'docs', 'examples', 'editors')
TOOLS = ('tools/explain', 'tools/scatter', 'tools/scatter_lib')
PYTHON = ('python/streamrun', 'python/streamrun_language')
# The start of a program of the tarball. A package for Debian chooses once, when it is installed.
START = """#!/bin/sh
lib=$(readlink -f "$0") && lib=${{lib%/*/*}}/lib
exec "$lib/$("$lib/processor")/{}" "$@"
"""
ABOUT = """ A job is a pipeline as in Java's LongStream: a source, maps, filters, folds.
 The report has one line per job: its answer, or its first fault. It is byte for
 byte what a single thread would write, on any number of threads.
"""
PROVED = ' The sources are written in Rattle; every function is proved to meet its contract.\n'
UNPROVED = 'This program is NOT proved.'
COPYRIGHT = """Format: https://www.debian.org/doc/packaging-manuals/copyright-format/1.0/
Upstream-Name: streamrun

Files: *
Copyright: (c) the authors of streamrun
License: none-yet
 No licence is given yet. Until the owner names one, nobody has a right to copy, to change or to pass on this package.
"""
CONFIGURE = """#!/bin/sh
set -e
if [ "$1" = configure ]; then
    for program in streamrun streamrun-merge; do
        ln -sfn "$(/usr/lib/streamrun/processor)/$program" "/usr/lib/streamrun/$program"
    done
    if command -v py3compile > /dev/null; then py3compile -p {name}; fi
fi
"""
REMOVE = """#!/bin/sh
set -e
if command -v py3clean > /dev/null; then py3clean -p {name}; fi
"""


def tracked(top, *paths):
    """The files of the repository below these paths."""
    listed = subprocess.run(['git', '-C', top, 'ls-files', '-z', '--', *paths], stdout=subprocess.PIPE, text=True, check=True).stdout
    return [path for path in listed.split('\0') if path and os.path.isfile(os.path.join(top, path))]


def documents(top):
    """Pages, examples, and whatever a page links to or reads in a command, so that no link leads nowhere. Tools have places of their own."""
    named = {os.path.relpath(path, top) for page in pages_of(top) for path, _ in targets_of(page)}
    words = {word for page in pages_of(top) for _, command, _ in commands_of(read(page)) for word in re.findall(r'[\w./-]+', command)}
    named |= {word for word in words if os.path.isfile(os.path.join(top, word)) and not word.startswith('/')}
    return tracked(top, *DOCUMENTS, *sorted(path for path in named if not path.startswith(('..', 'tools', 'python'))))


def copy(source, target, is_program=False):
    os.makedirs(os.path.dirname(target), exist_ok=True)
    shutil.copyfile(source, target)
    os.chmod(target, 0o755 if is_program else 0o644)


def write(path, text, is_program=False):
    os.makedirs(os.path.dirname(path), exist_ok=True)
    write_text(path, text)
    os.chmod(path, 0o755 if is_program else 0o644)


def read_bytes(path):
    return pathlib.Path(path).read_bytes()


def zipped(path, epoch):
    with open(path + '.gz', 'wb') as file:
        file.write(gzip.compress(read_bytes(path), mtime=epoch))
    os.remove(path)
    os.chmod(path + '.gz', 0o644)


def files_below(folder):
    """The paths of all files below a folder, in order; no links."""
    found = (os.path.join(at, name) for at, _, names in os.walk(folder) for name in names)
    return sorted(path for path in found if not os.path.islink(path))


def checksum(path, kind='sha256'):
    return hashlib.new(kind, read_bytes(path)).hexdigest()


def checksums(folder, kind='sha256'):
    """A line for each file below a folder."""
    return ''.join(f'{checksum(path, kind)}  {os.path.relpath(path, folder)}\n' for path in files_below(folder))


def copy_documents(top, target, keeps_modes):
    for path in documents(top):
        source = os.path.join(top, path)
        copy(source, os.path.join(target, path), keeps_modes and os.access(source, os.X_OK))


def copy_all(top, parts, target, renamed=lambda path: path):
    for path in tracked(top, *parts):
        source = os.path.join(top, path)
        copy(source, os.path.join(target, renamed(path)), os.access(source, os.X_OK))


def shell_files(top, share):
    """The man pages and completions, as scripts/install has them."""
    subprocess.run([os.path.join(top, 'scripts', 'shell_files'), '--install', share], check=True)


def uses_wide_registers(path):
    """Whether a program has instructions that x86-64-v2 lacks: those over registers of 256 bits."""
    listing = subprocess.run(['objdump', '-d', '--no-show-raw-insn', path], stdout=subprocess.PIPE, check=True).stdout
    return b'%ymm' in listing


def wheel_name(build):
    """The name of the wheel of the package of Python."""
    return f'streamrun-{build.version}-py3-none-any.whl'


def make_wheel(build, folder):
    """Writes the wheel into a folder, and gives its name."""
    subprocess.run([sys.executable, '-B', '-c', f'import wheels; wheels.build_wheel({folder!r})'], cwd=os.path.join(build.top, 'python'),
                   env={**os.environ, 'SOURCE_DATE_EPOCH': str(build.epoch)}, check=True)
    os.chmod(os.path.join(folder, wheel_name(build)), 0o644)
    return wheel_name(build)


def programs(build, library):
    """The programs without their tables of symbols, and what says which one a machine runs."""
    copy(os.path.join(build.top, 'scripts', 'processor'), os.path.join(library, 'processor'), True)
    for at, path in build.programs.items():
        target = os.path.join(library, *at)
        os.makedirs(os.path.dirname(target), exist_ok=True)
        subprocess.run(['strip', '-o', target, path], check=True)
        os.chmod(target, 0o755)


def tarball_tree(build, folder):
    """The files of the tarball: the repository's for readers, with programs in bin, lib and share."""
    programs(build, os.path.join(folder, 'lib'))
    for program in PROGRAMS:
        write(os.path.join(folder, 'bin', program), START.format(program), True)
    shell_files(build.top, os.path.join(folder, 'share'))
    copy_documents(build.top, folder, True)
    copy_all(build.top, (*TOOLS, 'python'), folder)
    for tool in ('explain', 'scatter'):
        os.symlink(f'../tools/{tool}', os.path.join(folder, 'bin', f'streamrun-{tool}'))
    make_wheel(build, folder)
    write(os.path.join(folder, 'PROVED'), build.proved(os.path.join(folder, 'lib')))
    write(os.path.join(folder, 'SHA256SUMS'), checksums(folder))


def debian_tree(build, folder):
    """The files of the package for Debian."""
    usr = os.path.join(folder, 'usr')
    share, pages = os.path.join(usr, 'share'), os.path.join(usr, 'share', 'doc', build.name)
    programs(build, os.path.join(usr, 'lib', 'streamrun'))
    os.makedirs(os.path.join(usr, 'bin'))
    for program in PROGRAMS:
        os.symlink(f'x86-64-v2/{program}', os.path.join(usr, 'lib', 'streamrun', program))
        os.symlink(f'../lib/streamrun/{program}', os.path.join(usr, 'bin', program))
    shell_files(build.top, share)
    os.rename(os.path.join(share, 'zsh', 'site-functions'), os.path.join(share, 'zsh', 'vendor-completions'))
    for page in files_below(os.path.join(share, 'man')):
        zipped(page, build.epoch)
    copy_all(build.top, ['editors/vim'], os.path.join(share, 'vim', 'vimfiles'), lambda path: os.path.relpath(path, 'editors/vim'))
    copy_all(build.top, TOOLS, os.path.join(share, 'streamrun'))
    copy_all(build.top, PYTHON, os.path.join(usr, 'lib', 'python3', 'dist-packages'), lambda path: os.path.relpath(path, 'python'))
    for tool in ('explain', 'scatter'):
        write(os.path.join(usr, 'bin', f'streamrun-{tool}'), f'#!/bin/sh\nexec /usr/bin/python3 /usr/share/streamrun/tools/{tool} "$@"\n', True)
    copy_documents(build.top, pages, False)
    os.symlink('../../streamrun/tools', os.path.join(pages, 'tools'))
    write(os.path.join(pages, 'PROVED'), build.proved(os.path.join(usr, 'lib', 'streamrun')))
    write(os.path.join(pages, 'copyright'), COPYRIGHT)
    write(os.path.join(pages, 'changelog'), build.debian_changelog())
    zipped(os.path.join(pages, 'changelog'), build.epoch)


def machine_paths(top):
    """Beginnings of paths of this machine, which no file of a package may have: the repository, the toolchain, home, temporary files."""
    toolchain = os.path.dirname(os.path.dirname(os.path.realpath(shutil.which('rt') or __file__)))
    home = os.path.expanduser('~').rstrip('/')
    return sorted({top, toolchain, f'{tempfile.gettempdir()}/tmp', *([home + '/'] if home else [])})


def paths_named(folder, top):
    """A line for each file below a folder that names a path of this machine."""
    words = machine_paths(top)
    for path in files_below(folder):
        data = read_bytes(path)
        data = gzip.decompress(data) if path.endswith('.gz') else data
        yield from (f'{os.path.relpath(path, folder)} names {word}' for word in words if word.encode() in data)
