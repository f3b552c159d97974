"""Makes the wheel of the package, for `pip install` and for scripts/package: it needs nothing but Python.

    build_wheel(folder)      writes streamrun-VERSION-py3-none-any.whl there, and gives its name

The file is the same for the same sources: its entries are dated by SOURCE_DATE_EPOCH, or 1980.
"""
import base64
import hashlib
import os
import re
import time
import zipfile

HERE = os.path.dirname(os.path.abspath(__file__))
PACKAGES = ('streamrun', 'streamrun_language')
FIRST_DATE = 315532800
WHEEL = 'Wheel-Version: 1.0\nGenerator: streamrun\nRoot-Is-Purelib: true\nTag: py3-none-any\n'


def read(*path):
    """The bytes of a file of this folder."""
    with open(os.path.join(HERE, *path), 'rb') as file:
        return file.read()


def setting(name):
    """A text of pyproject.toml."""
    return re.search(rf'^{re.escape(name)} = "(.*)"$', read('pyproject.toml').decode(), re.M)[1]


def version():
    """The version of the package."""
    return re.search(r"VERSION = '(.*)'", read('streamrun', 'version.py').decode())[1]


def metadata():
    """What pip knows of the package."""
    return (f'Metadata-Version: 2.1\nName: streamrun\nVersion: {version()}\nSummary: {setting("description")}\n'
            f'Requires-Python: {setting("requires-python")}\nProvides-Extra: frames\nRequires-Dist: numpy; extra == "frames"\n'
            f'Requires-Dist: pandas; extra == "frames"\nDescription-Content-Type: text/markdown\n\n').encode() + read('README.md')


def sources():
    """(path, bytes) of each file of the packages."""
    for package in PACKAGES:
        for name in sorted(os.listdir(os.path.join(HERE, package))):
            if name.endswith(('.py', '.typed')):
                yield f'{package}/{name}', read(package, name)


def build_wheel(wheel_directory, config_settings=None, metadata_directory=None):
    """Writes the wheel into a folder, and gives its name."""
    info = f'streamrun-{version()}.dist-info'
    files = [*sources(), (f'{info}/METADATA', metadata()), (f'{info}/WHEEL', WHEEL.encode())]
    record = ''.join('{},sha256={},{}\n'.format(path, base64.urlsafe_b64encode(hashlib.sha256(data).digest()).decode().rstrip('='), len(data))
                     for path, data in files)
    files.append((f'{info}/RECORD', f'{record}{info}/RECORD,,\n'.encode()))
    name = f'streamrun-{version()}-py3-none-any.whl'
    date = time.gmtime(max(int(os.environ.get('SOURCE_DATE_EPOCH', FIRST_DATE)), FIRST_DATE))[:6]
    with zipfile.ZipFile(os.path.join(wheel_directory, name), 'w', zipfile.ZIP_DEFLATED) as wheel:
        for path, data in files:
            entry = zipfile.ZipInfo(path, date)
            entry.external_attr, entry.compress_type = 0o644 << 16, zipfile.ZIP_DEFLATED
            wheel.writestr(entry, data)
    return name
