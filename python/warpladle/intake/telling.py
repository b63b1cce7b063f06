"""What the intake tells: a line of JSON for each event, a status file that is written whole or not at all."""
from __future__ import annotations

import datetime
import json
import os
import sys
from typing import Any

PROMETHEUS = '.prom'


def clock() -> str:
    """The time of day in ISO 8601."""
    return datetime.datetime.now(datetime.timezone.utc).isoformat(timespec='milliseconds').replace('+00:00', 'Z')


class Teller:
    """Where events go: a log, and standard output for people. A trouble is told once, until it is over."""

    def __init__(self, log: str | None, is_json: bool) -> None:
        self.log, self.is_json = log, is_json
        self.troubles: dict[str, str] = {}

    def tell(self, event: str, name: str, **values: Any) -> None:
        """An event."""
        line = {'time': clock(), 'event': event, 'name': name, **values}
        text = json.dumps(line)
        if self.is_json:
            print(text, flush=True)
        else:
            said = ' '.join(str(values[key]) for key in ('number', 'place', 'words', 'records') if key in values)
            print(f'{event} {name}{": " if said else ""}{said}', flush=True)
        if self.log is not None:
            self._append(text)

    def _append(self, text: str) -> None:
        """One write, so that a line is there or is not; the file may have been put aside by logrotate."""
        assert self.log is not None
        try:
            handle = os.open(self.log, os.O_WRONLY | os.O_APPEND | os.O_CREAT | os.O_CLOEXEC, 0o644)
        except OSError as error:
            print(f'warpladle: {self.log}: {error.strerror}', file=sys.stderr)
            return
        try:
            os.write(handle, text.encode() + b'\n')
        finally:
            os.close(handle)

    def trouble(self, name: str, error: OSError) -> None:
        """What is the matter with a file or a folder, if that was not told yet."""
        words = error.strerror or str(error)
        if self.troubles.get(name) != words:
            self.troubles[name] = words
            self.tell('trouble', name, words=words)

    def over(self, name: str) -> None:
        """There is no trouble with it any more."""
        if self.troubles.pop(name, None) is not None:
            self.tell('mended', name)


def write_status(path: str, status: dict[str, Any]) -> None:
    """The status, under another name first: a reader sees the old one or the new one."""
    text = prometheus(status) if path.endswith(PROMETHEUS) else json.dumps(status, indent=1) + '\n'
    part = os.path.join(os.path.dirname(path) or '.', f'.{os.path.basename(path)}.part')
    with open(part, 'w', encoding='ascii') as file:
        file.write(text)
    os.replace(part, path)


def prometheus(status: dict[str, Any]) -> str:
    """The numbers of a status in Prometheus' text form."""
    lines = []
    for name, value in status.items():
        if isinstance(value, (int, float)):
            kind = 'gauge' if name in ('waiting', 'oldest_seconds', 'time') else 'counter'
            lines += [f'# TYPE warpladle_intake_{name} {kind}', f'warpladle_intake_{name} {value}']
    return '\n'.join(lines) + '\n'
