"""Work in processes of its own: a file that is cut short while it is mapped ends one of them (SIGBUS), and not the
command."""
from __future__ import annotations

import ctypes
import os
import pickle
import select
import signal
import sys
from collections.abc import Callable, Iterator, Sequence
from contextlib import ExitStack, contextmanager
from typing import Any, NamedTuple, NoReturn

LOOK_UP = 0.2  # seconds
PR_SET_PDEATHSIG = 1  # of Linux's prctl
ENDINGS = (signal.SIGINT, signal.SIGTERM, signal.SIGHUP)


class Died(NamedTuple):
    """A process was ended by this signal."""

    signal: int
    process: int


def flush_output() -> None:
    """What was printed goes out, so that a child does not print it again."""
    sys.stdout.flush()
    sys.stderr.flush()


@contextmanager
def signals_held() -> Iterator[None]:
    """Signals that end the command wait until the block ends: what they raise while a process forks is lost."""
    before = signal.pthread_sigmask(signal.SIG_BLOCK, ENDINGS)
    try:
        yield
    finally:
        signal.pthread_sigmask(signal.SIG_SETMASK, before)


def wait_for(handle: int) -> None:
    """Waits until something can be read. Now and then it looks up: a signal that comes just before a call blocks would
    else be seen only after it."""
    while not select.select([handle], [], [], LOOK_UP)[0]:
        pass


class Worker:
    """A process to which items are sent, one at a time, and which gives the function's result of each. It begins with
    the first."""

    def __init__(self, function: Callable[[Any], Any]) -> None:
        self.function = function
        self.process = 0

    def send(self, item: Any) -> None:
        """The next item, whose result is then asked for."""
        if self.process == 0:
            self._start()
        try:
            _send(self.to, item)
        except BrokenPipeError:  # someone ended it while it waited
            self.end()
            self._start()
            _send(self.to, item)

    def _start(self) -> None:
        flush_output()
        with signals_held():
            from_parent, self.to = os.pipe()
            from_child, to_parent = os.pipe()
            self.results = os.fdopen(from_child, 'rb')
            self.process = os.fork()
            if self.process == 0:
                os.close(self.to)
                os.close(from_child)
                _serve(from_parent, to_parent, self.function)
            os.close(from_parent)
            os.close(to_parent)

    def receive(self) -> Any:
        """The result of the item that was sent; of one that ended the process `Died`, and the next item begins
        another."""
        wait_for(self.results.fileno())
        try:
            is_raised, value = pickle.load(self.results)
        except (EOFError, pickle.UnpicklingError):
            process = self.process
            return Died(os.WTERMSIG(self.end()), process)
        if is_raised:
            raise value
        return value

    def ask(self, item: Any) -> Any:
        """The result of an item."""
        self.send(item)
        return self.receive()

    def end(self) -> int:
        """The status of the process, which has ended or is ended now."""
        if self.process == 0:
            return 0
        process, self.process = self.process, 0
        os.close(self.to)
        self.results.close()
        os.kill(process, signal.SIGKILL)  # it is ours until it is waited for, so that this is no other
        return os.waitpid(process, 0)[1]


def _send(pipe: int, value: Any) -> None:
    data = memoryview(pickle.dumps(value))
    while data:
        data = data[os.write(pipe, data) :]


def _let_signals_end() -> None:
    """Signals end this process at once, and so does the end of its parent: there is nothing to take away."""
    prctl = getattr(ctypes.CDLL(None), 'prctl', None)  # of Linux
    if prctl is not None:
        prctl(PR_SET_PDEATHSIG, signal.SIGKILL)
    for ending in ENDINGS:
        signal.signal(ending, signal.SIG_DFL)
    signal.pthread_sigmask(signal.SIG_UNBLOCK, ENDINGS)


def _serve(from_parent: int, to_parent: int, function: Callable[[Any], Any]) -> NoReturn:
    """In the child: the result of each item, or what it raised, until no more come."""
    try:
        _let_signals_end()
        with os.fdopen(from_parent, 'rb') as items:
            while True:
                item = pickle.load(items)
                try:
                    result = (False, function(item))
                except Exception as error:
                    result = (True, error)
                _send(to_parent, result)
    except (EOFError, BrokenPipeError):
        pass
    finally:
        os._exit(0)


def map_in_workers(function: Callable[[Any], Any], items: Sequence[Any], jobs: int = 1) -> Iterator[Any]:
    """The function's result of each item, in their order, by so many processes; `Died` of an item that ended its
    process."""
    with ExitStack() as stack:
        workers = [Worker(function) for _ in range(min(jobs, len(items)))]
        for worker, item in zip(workers, items):
            stack.callback(worker.end)
            worker.send(item)
        yield from (_next(workers[k % len(workers)], items, k + len(workers)) for k in range(len(items)))


def _next(worker: Worker, items: Sequence[Any], following: int) -> Any:
    """What a worker has done; it goes on with the item of this number, if there is one."""
    result = worker.receive()
    if following < len(items):
        worker.send(items[following])
    return result


def run_in_child(call: Callable[[], int]) -> int | Died:
    """The status that a call ends with in a process of its own, to which signals are handed on."""
    flush_output()
    with signals_held():
        process = os.fork()
    if process == 0:
        status = 2
        try:
            status = call()
            flush_output()
        finally:
            os._exit(status)
    try:
        return _status_of(process)
    except BaseException as ended:
        os.kill(process, getattr(ended, 'signal', signal.SIGINT))
        _status_of(process)
        raise


def _status_of(process: int) -> int | Died:
    try:
        handle = os.pidfd_open(process)  # which can be read when the process has ended
    except (OSError, AttributeError):  # of an old kernel, or of another system
        handle = -1
    if handle >= 0:
        with os.fdopen(handle, 'rb') as file:
            wait_for(file.fileno())
    status = os.waitpid(process, 0)[1]
    return Died(os.WTERMSIG(status), process) if os.WIFSIGNALED(status) else os.WEXITSTATUS(status)
