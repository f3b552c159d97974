"""What scripts/pages checks of contracts: the words that contracts of public calls name, and the code that builds calls of jobs."""
import os
import re

from repository import read

BUILDERS = ['crates/job_language/src/row.rt']
LAST_ARM = re.compile(r'^ *_ => (.*?),?$')
USED = re.compile(r'^ghost use Rattle\.([\w.]+)\.\{(.*?)\};', re.M | re.S)
# The head of a block or of a function, with all that stands before its body; or a ghost member.
HEAD = re.compile(r'^(?P<indent> *)(?P<public>pub )?(?:const |unsafe )*(?P<kind>impl|trait|fn|ghost)\b(?P<rest>.*?)'
                  r'(?:^ *[{}]$|;$|\{$)', re.M | re.S)


def builders(top):
    """Last arms of the code that builds calls which take all other cases and give something else than a refusal."""
    for path in BUILDERS:
        for number, line in enumerate(read(os.path.join(top, path)).splitlines(), 1):
            arm = LAST_ARM.match(line)
            if arm and not re.fullmatch(r'(?:return )?Err\(Cause::\w+\)', arm[1]):
                yield f'{path}:{number}: an arm takes all other cases and builds something; write an arm for each'


def exported_by(top, crate):
    """The words that the root of a crate brings to its users."""
    path = os.path.join(top, 'crates', crate, 'src', 'lib.rt')
    uses = re.findall(r'^pub use ([^;]*);', read(path), re.M) if os.path.isfile(path) else []
    return {word for use in uses for word in re.findall(r'\w+', use)}


def words_brought(text, crates):
    """For each name under which a source brings in a word of the definitions of a crate: their file, and the word there."""
    found = {}
    for file, names in USED.findall(text):
        if file.split('.')[0] in crates and '.declared.' not in file:
            for name in names.split(','):
                word, _, other = name.strip().partition(' as ')
                found[other or word] = file, word
    return found


def public_heads(text, exported):
    """(name, text) of each contract of an exported function, of the methods and ghost members of exported types and traits."""
    block, of_exported = '', False
    for head in HEAD.finditer(text):
        kind, rest = head['kind'], head['rest']
        if kind in ('impl', 'trait'):
            block = 'methods' if kind == 'impl' and ' for ' not in rest else 'trait'
            of_exported = bool(exported & set(re.findall(r'\w+', rest.split(' for ')[-1])))
            continue
        name = re.match(r'\s*(\w*)', rest)[1]
        if kind == 'ghost' and not re.match(r'\s*\w+ = ', rest):
            continue
        is_method = bool(head['indent'])
        if is_method and of_exported and (block == 'trait' or head['public']) or not is_method and name in exported:
            yield name, rest
