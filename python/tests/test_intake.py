"""`intake`: whole products go on, bad ones are aside with the reason, and nothing half is ever in the accepted folder,
whatever is killed. Real files, processes and signals."""
import json
import os
import random
import resource
import signal
import subprocess
import sys
import threading
import time
from pathlib import Path

import pytest
from making import granule, pointer, product, record

from warpladle import Product
from warpladle.intake import Intake, Options
from warpladle.intake.arriving import Arriving, Ready

ROOT = Path(__file__).resolve().parents[2]
SETTLE = 0.3
KILLS = int(os.environ.get('KILLS', '25'))  # 300 for a landing that touches the intake
PATIENCE = 60.0


class Folders:
    """Three folders, and an intake over them."""

    def __init__(self, folder, environment):
        self.incoming, self.accepted, self.refused = (folder / name for name in ('incoming', 'accepted', 'refused'))
        self.incoming.mkdir()
        self.log = folder / 'log'
        self.environment = environment
        self.process = None

    def start(self, *words, settle=SETTLE, **named):
        command = [
            sys.executable,
            '-m',
            'warpladle',
            'intake',
            self.incoming,
            '--accepted',
            self.accepted,
            '--refused',
            self.refused,
        ]
        self.process = subprocess.Popen(
            [*command, '--settle', str(settle), '--log', self.log, *words],
            env=self.environment,
            stdout=subprocess.DEVNULL,
            stderr=subprocess.PIPE,
            **named,
        )
        return self.process

    def once(self, *words):
        process = self.start('--once', *words)
        assert process.wait(timeout=PATIENCE) == 0, process.stderr.read()

    def stop(self, number=signal.SIGTERM):
        if self.process is not None and self.process.poll() is None:
            self.process.send_signal(number)
            self.process.wait(timeout=PATIENCE)

    def events(self, *kinds):
        lines = [json.loads(line) for line in self.log.read_text().splitlines()] if self.log.exists() else []
        return [line for line in lines if line['event'] in kinds] if kinds else lines

    def reason(self, name):
        return json.loads((self.refused / f'{name}.json').read_text())

    def until(self, is_so):
        since = time.monotonic()
        while not is_so():
            assert time.monotonic() - since < PATIENCE, self.events()
            time.sleep(0.02)


@pytest.fixture
def folders(tmp_path, environment):
    made = Folders(tmp_path, environment)
    yield made
    made.stop(signal.SIGKILL)


def names(folder):
    return sorted(os.listdir(folder)) if folder.exists() else []


def damaged(data):
    """The first MDR has an unknown group: 7 at its start."""
    start = next(r.start for r in Product(data).records() if r.class_ == 8)
    return data[: start + 1] + b'\x50' + data[start + 2 :], start


# ---- what becomes of a file


def test_whole_refused_and_waiting(folders):
    bad, place = damaged(granule(1))
    (folders.incoming / 'whole.eps').write_bytes(granule(0))
    (folders.incoming / 'bad.eps').write_bytes(bad)
    (folders.incoming / 'half.eps').write_bytes(granule(2)[:4000])
    (folders.incoming / 'coming.eps.part').write_bytes(granule(3))
    (folders.incoming / '.hidden').write_bytes(granule(3))
    folders.once('--record')
    assert names(folders.accepted) == ['whole.eps']
    assert (folders.accepted / 'whole.eps').read_bytes() == granule(0)
    assert names(folders.refused) == ['bad.eps', 'bad.eps.arrival', 'bad.eps.json']
    assert names(folders.incoming) == ['.hidden', '.intake.lock', 'coming.eps.part', 'half.eps']
    reason = folders.reason('bad.eps')
    assert (reason['state'], reason['number'], reason['place'], reason['size']) == ('refused', 7, place, len(bad))
    assert {'words', 'meaning', 'sha256', 'first_seen', 'last_seen', 'version'} <= set(reason)
    accepted = folders.events('accepted')[0]
    assert (accepted['name'], accepted['bytes'], accepted['records']) == (
        'whole.eps',
        len(granule(0)),
        Product(granule(0)).verdict,
    )
    assert accepted['sensing_start'].startswith('2016-06-05T01:00:00')


def test_given_up(folders):
    (folders.incoming / 'half.eps').write_bytes(granule(2)[:4000])
    folders.once('--give-up', '0.2')
    assert folders.reason('half.eps')['state'] == 'incomplete'
    assert folders.reason('half.eps')['number'] == 17


def test_a_refusal_is_acted_on_before_all_has_come(folders):
    bad, place = damaged(granule(0))
    folders.start(settle=30)
    with open(folders.incoming / 'bad.eps', 'wb', buffering=0) as file:
        file.write(bad[: place + 20])
        folders.until(lambda: folders.events('refused'))
    assert folders.reason('bad.eps')['place'] == place


def test_many_pointers(folders):
    mdrs = [record((8, 9, 2), bytes(4)) for _ in range(70)]
    begin = 3307 + 27 * 70
    data = product([*(pointer((8, 9, 2), begin + 24 * k) for k in range(70)), *mdrs])
    (folders.incoming / 'pointers.eps').write_bytes(data)
    folders.once()
    assert names(folders.accepted) == ['pointers.eps']


def test_twice_and_in_conflict(folders):
    (folders.incoming / 'a.eps').write_bytes(granule(0))
    folders.once()
    (folders.incoming / 'a.eps').write_bytes(granule(0))
    folders.once()
    assert len(folders.events('duplicate')) == 1 and names(folders.incoming) == ['.intake.lock']
    for k in (1, 2):
        (folders.incoming / 'a.eps').write_bytes(granule(k))
        folders.once()
    assert (folders.accepted / 'a.eps').read_bytes() == granule(0)
    assert names(folders.refused) == ['a.eps', 'a.eps.2', 'a.eps.2.json', 'a.eps.json']
    assert folders.reason('a.eps')['state'] == folders.reason('a.eps.2')['state'] == 'conflict'


def test_sums_beside_products(folders):
    import hashlib

    for name, data in (('good.eps', granule(0)), ('other.eps', granule(1)), ('wrong.eps', granule(2))):
        (folders.incoming / name).write_bytes(data)
    (folders.incoming / 'good.eps.md5').write_text(f'{hashlib.md5(granule(0)).hexdigest()}  good.eps\n')
    (folders.incoming / 'other.eps.sha256').write_text(f'{hashlib.sha256(granule(1)).hexdigest()}  other.eps\n')
    (folders.incoming / 'wrong.eps.sha256').write_text(f'{hashlib.sha256(granule(1)).hexdigest()}  wrong.eps\n')
    folders.once()
    assert names(folders.accepted) == ['good.eps', 'other.eps']
    assert names(folders.refused) == ['wrong.eps', 'wrong.eps.json', 'wrong.eps.sha256']
    assert folders.reason('wrong.eps')['state'] == 'checksum'
    assert names(folders.incoming) == ['.intake.lock']


def test_names_of_any_bytes(folders):
    name = b'a\xff \n"\'.eps'
    Path(os.fsdecode(os.fsencode(folders.incoming) + b'/' + name)).write_bytes(granule(0))
    folders.once('--status', str(folders.incoming.parent / 'status.json'))
    assert os.listdir(os.fsencode(folders.accepted)) == [name]


def test_command_status_and_prometheus(folders, tmp_path):
    (folders.incoming / 'a.eps').write_bytes(granule(0))
    script = tmp_path / 'ran'
    status = tmp_path / 'status.prom'
    folders.start('--run', f"sh -c 'echo \"$0\" >> {script}'", '--status', status)
    folders.until(lambda: script.exists() and script.read_text())
    assert script.read_text().split() == [str(folders.accepted / 'a.eps')]
    folders.until(lambda: 'warpladle_intake_accepted 1\n' in status.read_text())


# ---- downloaders


def feed_slowly(path, data, step, pause=0.0):
    with open(path, 'wb', buffering=0) as file:
        for at in range(0, len(data), step):
            file.write(data[at : at + step])
            time.sleep(pause)


def preallocate(path, data, order, pause=0.05):
    """The size first, then the blocks in some order."""
    with open(path, 'wb', buffering=0) as file:
        file.truncate(len(data))
        for at in order:
            os.pwrite(file.fileno(), data[at : at + 4096], at)
            time.sleep(pause)


def test_downloaders(folders):
    """Byte by byte; the size first, blocks from the end; under another name first; begun anew."""
    folders.start()
    long = granule(3, mdr=2000)
    blocks = list(range(0, len(long), 4096))
    threads = [
        threading.Thread(target=feed_slowly, args=(folders.incoming / 'bytes.eps', granule(0), 1)),
        threading.Thread(target=preallocate, args=(folders.incoming / 'allocated.eps', long, blocks[::-1])),
        threading.Thread(target=preallocate, args=(folders.incoming / 'in_order.eps', long, blocks)),
    ]
    for thread in threads:
        thread.start()
    feed_slowly(folders.incoming / 'renamed.eps.part', granule(1), 500, 0.01)
    (folders.incoming / 'renamed.eps.part').rename(folders.incoming / 'renamed.eps')
    feed_slowly(folders.incoming / 'anew.eps', granule(4)[:4000], 500)
    time.sleep(0.7)
    feed_slowly(folders.incoming / 'anew.eps', granule(2), 500, 0.01)
    for thread in threads:
        thread.join()
    expected = ['allocated.eps', 'anew.eps', 'bytes.eps', 'in_order.eps', 'renamed.eps']
    folders.until(lambda: names(folders.accepted) == expected)
    assert (folders.accepted / 'allocated.eps').read_bytes() == (folders.accepted / 'in_order.eps').read_bytes() == long
    assert (folders.accepted / 'anew.eps').read_bytes() == granule(2)
    assert names(folders.refused) == []


def test_replaced_while_it_arrives(folders):
    folders.start()
    (folders.incoming / 'a.eps').write_bytes(granule(0)[:4000])
    time.sleep(0.8)
    (folders.incoming / '.new').write_bytes(granule(1))
    (folders.incoming / '.new').rename(folders.incoming / 'a.eps')
    folders.until(lambda: names(folders.accepted) == ['a.eps'])
    assert (folders.accepted / 'a.eps').read_bytes() == granule(1)


def test_a_clock_that_jumps(tmp_path, monkeypatch):
    """Only a clock that does not jump says that a file has settled."""
    path = tmp_path / 'a.eps'
    path.write_bytes(granule(0))
    one = Arriving(str(path), path.stat(), 100.0, '')
    monkeypatch.setattr(time, 'time', lambda: 4e9)
    one.look(100.0)
    assert one.ready(100.0, 2.0, 60.0) is Ready.WAITS
    assert one.ready(102.0, 2.0, 60.0) is Ready.WHOLE


# ---- two at once, ends, troubles


def test_a_second_intake(folders):
    folders.start()
    folders.until(lambda: folders.events('started'))
    command = [
        sys.executable,
        '-m',
        'warpladle',
        'intake',
        folders.incoming,
        '--accepted',
        folders.accepted,
        '--refused',
        folders.refused,
    ]
    other = subprocess.run(command, env=folders.environment, capture_output=True, text=True, timeout=PATIENCE)
    assert other.returncode == 2 and f'process {folders.process.pid}' in other.stderr


def test_sigterm_ends_it(folders):
    folders.start()
    folders.until(lambda: folders.events('started'))
    folders.process.send_signal(signal.SIGTERM)
    assert folders.process.wait(timeout=PATIENCE) == 128 + signal.SIGTERM
    assert folders.process.stderr.read() == b''
    folders.once()


def test_a_folder_that_is_taken_away(folders, tmp_path):
    folders.start()
    folders.until(lambda: folders.events('started'))
    folders.accepted.rename(tmp_path / 'away')
    (folders.incoming / 'a.eps').write_bytes(granule(0))
    folders.until(lambda: folders.events('trouble'))
    time.sleep(1.2)
    assert len(folders.events('trouble')) == 1 and names(folders.incoming) == ['.intake.lock', 'a.eps']
    (tmp_path / 'away').rename(folders.accepted)
    folders.until(lambda: names(folders.accepted) == ['a.eps'])
    assert folders.events('mended')


@pytest.mark.skipif(os.geteuid() != 0, reason='a small file system is mounted by root')
def test_a_full_disk(folders, tmp_path):
    """A disk of another file system that is full: told once, waited for, and no half product is seen."""
    folders.accepted.mkdir()
    if subprocess.run(
        ['mount', '-t', 'tmpfs', '-o', 'size=64k', 'tmpfs', folders.accepted], capture_output=True
    ).returncode:
        pytest.skip('no small file system can be mounted here')
    try:
        (folders.accepted / 'ballast').write_bytes(bytes(60 << 10))
        (folders.incoming / 'a.eps').write_bytes(granule(0, mdr=2000))
        folders.start()
        folders.until(lambda: folders.events('trouble'))
        assert names(folders.accepted) == ['.intake', 'ballast'] and 'a.eps' in names(folders.incoming)
        (folders.accepted / 'ballast').unlink()
        folders.until(lambda: 'a.eps' in names(folders.accepted))
        assert (folders.accepted / 'a.eps').read_bytes() == granule(0, mdr=2000)
        folders.stop()
    finally:
        subprocess.run(['umount', folders.accepted], check=True)


def test_two_thousand_files_with_256_descriptors(folders):
    data = granule(0)
    for k in range(2000):
        (folders.incoming / f'{k:04}.eps').write_bytes(data)
    process = folders.start('--once', preexec_fn=lambda: resource.setrlimit(resource.RLIMIT_NOFILE, (256, 256)))
    assert process.wait(timeout=PATIENCE) == 0
    assert len(names(folders.accepted)) == 2000


# ---- killed at any instant


class Sampler(threading.Thread):
    """Looks into the accepted folder all the while: whatever is there the judge accepts."""

    def __init__(self, folder):
        super().__init__()
        self.folder, self.over, self.wrong, self.seen = folder, threading.Event(), [], 0

    def run(self):
        while not self.over.is_set():
            for path in list(self.folder.glob('*')) if self.folder.exists() else []:
                try:
                    Product(path.read_bytes()).verdict
                    self.seen += 1
                except Exception as error:  # noqa: BLE001
                    self.wrong.append((path.name, str(error)))
            time.sleep(0.003)


def arrivals(rng, count):
    """Names, bytes and how they come: some damaged, some with their size first, some in segments, some twice."""
    made = []
    for k in range(count):
        data = granule(k, mdr=200)
        if k % 5 == 1:
            data = damaged(data)[0]
        how = ('whole', 'parts', 'allocated', 'segments')[k % 4]
        made.append((f'{k:02}.eps', data, how))
        if k % 7 == 3:
            made.append((f'{k:02}.eps', data, 'whole'))
    return made


def deliver(incoming, name, data, how):
    """A file, as one of the downloaders makes it."""
    path = incoming / name
    hidden = incoming / f'{name}.part'
    if how == 'parts':
        feed_slowly(path, data, 1500, 0.005)
    elif how == 'allocated':
        preallocate(path, data, range(0, len(data), 4096), 0.01)
    elif how == 'segments':
        half = len(data) // 2 // 4096 * 4096
        order = [*range(half, len(data), 4096), *range(0, half, 4096)]
        preallocate(path, data, order, 0.01)
    else:
        hidden.write_bytes(data)
        hidden.rename(path)


def test_killed_at_any_instant(folders):
    rng = random.Random(41)
    todo = arrivals(rng, 60)
    folders.accepted.mkdir()
    sampler = Sampler(folders.accepted)
    sampler.start()
    pause = KILLS * 0.35 / len(todo)
    sender = threading.Thread(target=lambda: [deliver(folders.incoming, *one) or time.sleep(pause) for one in todo])
    quick = ('--poll', '0.02')
    folders.start(*quick, settle=0.15)
    sender.start()
    for _ in range(KILLS):
        time.sleep(0.15 + rng.random() * 0.4)  # a Python starts in 0.15 s
        folders.stop(signal.SIGKILL)
        folders.start(*quick, settle=0.15)
    sender.join()
    folders.until(lambda: names(folders.incoming) == ['.intake.lock'])
    folders.stop()
    folders.once()
    sampler.over.set()
    sampler.join()
    assert sampler.wrong == [] and sampler.seen > 0
    check_places(folders, todo)


def check_places(folders, todo):
    """Each file is in just one place: the good ones as they were sent, the damaged ones aside with number and place."""
    sent = dict((name, data) for name, data, _ in todo)
    good = {name for k, name in enumerate(sorted(sent)) if k % 5 != 1}
    assert names(folders.accepted) == sorted(good)
    for name in good:
        assert (folders.accepted / name).read_bytes() == sent[name]
    aside = [name for name in names(folders.refused) if not name.endswith('.json')]
    assert {name[:6] for name in aside} == set(sent) - good
    for name in aside:
        reason, data = folders.reason(name), (folders.refused / name).read_bytes()
        assert data == sent[name[:6]], name
        start = next(r.start for r in Product(granule(int(name[:2]), mdr=200)).records() if r.class_ == 8)
        assert (reason['state'], reason['number'], reason['place']) == ('refused', 7, start)


def test_in_process(tmp_path):
    """Without a process: what is there, then the end."""
    (tmp_path / 'in').mkdir()
    (tmp_path / 'in' / 'a.eps').write_bytes(granule(0))
    Intake(Options(str(tmp_path / 'in'), str(tmp_path / 'yes'), str(tmp_path / 'no'), settle=0.0, once=True)).run()
    assert names(tmp_path / 'yes') == ['a.eps']
