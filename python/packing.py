"""The wheel of the package with the shared library in it, for pip (PEP 517 and 660) and for tools/wheel.

It needs Python alone, so that nothing is fetched. A wheel is a zip file: the package, the library, and a folder that
says what they are. Its tag is the processor of the library (its ELF header), so that pip installs it nowhere else. The
same files give the same bytes.
"""
from __future__ import annotations

import ast
import base64
import hashlib
import os
import re
import sys
import zipfile
from pathlib import Path
from typing import Any, NoReturn

HERE = Path(__file__).resolve().parent
NAME = 'libwarpladle.so'
PROCESSORS = {62: 'x86_64', 183: 'aarch64'}  # e_machine of ELF
OLDEST = (1980, 1, 1, 0, 0, 0)  # the first date that a zip file can hold
MODE = 0o644


def project() -> dict[str, dict[str, Any]]:
    """The sections of pyproject.toml whose values are texts and lists of texts, which Python reads as its own."""
    sections: dict[str, dict[str, Any]] = {}
    section: dict[str, Any] = {}
    for line in (HERE / 'pyproject.toml').read_text().splitlines():
        if line.startswith('['):
            section = sections.setdefault(line.strip('[]'), {})
        elif found := re.fullmatch(r'([\w-]+) = (["[].*["\]])', line):
            section[found[1]] = ast.literal_eval(found[2])
    return {name: kept for name, kept in sections.items() if name.split('.')[0] == 'project'}


def fail(words: str) -> NoReturn:
    """One line, and no traceback."""
    sys.exit(f'warpladle: {words}')


def library() -> Path:
    """The shared library: what WARPLADLE_LIBRARY names, or the one beside the package, or the repository's."""
    named = os.environ.get('WARPLADLE_LIBRARY')
    places = [Path(named)] if named else [HERE / 'warpladle' / NAME, HERE.parent / 'target' / NAME]
    for path in places:
        if path.is_file():
            return path
    fail(
        f'there is no {" and no ".join(map(str, places))} to put into the wheel: run tools/archive first, or name one'
        ' in WARPLADLE_LIBRARY'
    )


def processor(path: Path) -> str:
    """The processor that the library is for."""
    head = path.read_bytes()[:20]
    number = int.from_bytes(head[18:20], 'little')
    if head[:6] != b'\x7fELF\x02\x01' or number not in PROCESSORS:
        fail(f'{path} is no shared library for Linux on x86-64 or Arm of 64 bits')
    return PROCESSORS[number]


def hold_functions(path: Path) -> None:
    """Refuses a library whose functions are not those of the package."""
    listed = (HERE / 'warpladle' / 'library.py').read_text()
    table = re.search(r'^FUNCTIONS.*?^}', listed, re.S | re.M)
    assert table
    asked = {f'wl_{name}' for name in re.findall(r"^    '(\w+)': ", table[0], re.M)} | {'wl_watch_new'}
    there = {name.decode() for name in re.findall(rb'(?<=\0)wl_\w+(?=\0)', path.read_bytes())}
    other = sorted(asked ^ there)
    if other:
        fail(f'{path} is not the library of this package, by {", ".join(other)}: make it anew with tools/archive')


def metadata(about: dict[str, dict[str, Any]]) -> str:
    """What pip knows of the package."""
    of = about['project']
    lines = [
        'Metadata-Version: 2.1',
        f'Name: {of["name"]}',
        f'Version: {of["version"]}',
        f'Summary: {of["description"]}',
    ]
    lines += [f'Requires-Python: {of["requires-python"]}']
    lines += [f'Requires-Dist: {needed}' for needed in of['dependencies']]
    for extra, needed in about['project.optional-dependencies'].items():
        lines += [f'Provides-Extra: {extra}', *(f'Requires-Dist: {one}; extra == "{extra}"' for one in needed)]
    return '\n'.join([*lines, 'Description-Content-Type: text/markdown', '', (HERE / 'README.md').read_text()])


def wheel_words(tag: str) -> str:
    pure = 'true' if tag.endswith('any') else 'false'
    return f'Wheel-Version: 1.0\nGenerator: warpladle\nRoot-Is-Purelib: {pure}\nTag: {tag}\n'


def commands(about: dict[str, dict[str, Any]]) -> str:
    return '[console_scripts]\n' + ''.join(f'{name} = {at}\n' for name, at in about['project.scripts'].items())


def record(files: dict[str, bytes], at: str) -> bytes:
    """The list of the files with their sums."""
    lines = []
    for name, data in files.items():
        sum_ = base64.urlsafe_b64encode(hashlib.sha256(data).digest()).rstrip(b'=').decode()
        lines.append(f'{name},sha256={sum_},{len(data)}\n')
    return (''.join(lines) + f'{at},,\n').encode()


def write(folder: str, tag: str, files: dict[str, bytes]) -> str:
    """The wheel of these files, in the folder: its name."""
    about = project()
    base = f'{about["project"]["name"]}-{about["project"]["version"]}'
    said = {'METADATA': metadata(about), 'WHEEL': wheel_words(tag), 'entry_points.txt': commands(about)}
    files = {**files, **{f'{base}.dist-info/{name}': text.encode() for name, text in said.items()}}
    files[f'{base}.dist-info/RECORD'] = record(files, f'{base}.dist-info/RECORD')
    name = f'{base}-{tag}.whl'
    with zipfile.ZipFile(Path(folder) / name, 'w', zipfile.ZIP_DEFLATED) as wheel:
        for path, data in files.items():
            entry = zipfile.ZipInfo(path, OLDEST)
            entry.external_attr = MODE << 16
            entry.compress_type = zipfile.ZIP_DEFLATED
            wheel.writestr(entry, data)
    return name


def package() -> dict[str, bytes]:
    """The files of the package, but for a library that stands among them."""
    found = sorted(path for path in (HERE / 'warpladle').rglob('*') if path.suffix in ('.py', '.typed'))
    return {path.relative_to(HERE).as_posix(): path.read_bytes() for path in found}


# ---- what pip asks


def build_wheel(wheel_directory: str, config_settings: Any = None, metadata_directory: Any = None) -> str:
    """The package with the library in it."""
    shared = library()
    hold_functions(shared)
    files = {**package(), f'warpladle/{NAME}': shared.read_bytes()}
    return write(wheel_directory, f'py3-none-linux_{processor(shared)}', files)


def build_editable(wheel_directory: str, config_settings: Any = None, metadata_directory: Any = None) -> str:
    """The place of the package, which is used where it stands."""
    library()
    return write(wheel_directory, 'py3-none-any', {'warpladle.pth': f'{HERE}\n'.encode()})


def build_sdist(sdist_directory: str, config_settings: Any = None) -> str:
    """There is none: the library is proved and made in the repository."""
    fail('there is no source distribution: clone the repository, or make a wheel with tools/wheel')


if __name__ == '__main__':
    print(Path(sys.argv[1]) / build_wheel(sys.argv[1]))
