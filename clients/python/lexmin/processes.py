"""The program as processes that are kept open: a pool of them, of which each call under way has its own."""
from __future__ import annotations

import atexit
import contextlib
import itertools
import numbers
import os
import re
import selectors
import subprocess
import sys
import threading
import time
import weakref
from collections import deque
from dataclasses import dataclass
from typing import Callable, Deque, Iterable, Iterator, List, Optional, Sequence, Set, Tuple, Union

from .texts import MOST_BYTES
from .trees import as_bytes, as_text, is_one_group

MOST_IDLE = 8  # processes that are kept for later calls
HELD_SECONDS = 1.0  # how long a line of standard error may be the last one, a refusal's
LOOK_SECONDS = 1.0  # how long a call waits before it looks again whether it was ended
END_SECONDS = 3.0  # how long a process has to end by itself


class Refused(Exception):
    """The program refused a text. `status` is its status (below 0: the signal that ended it; 0 where SIGCHLD is ignored, since
    the system then keeps none), `line` what it wrote to standard error last, empty where it wrote nothing. The place of a
    `syntax at byte B` counts from the first byte that its process was given, which `bytes_before` says the number of."""

    def __init__(self, status: int, line: str, text: str, bytes_before: int = 0) -> None:
        super().__init__(f"status {status}: {line or 'the program ended without an answer'}")
        self.status, self.line, self.text, self.bytes_before = status, line, text, bytes_before

    def __reduce__(self) -> Tuple[object, ...]:  # (an exception is made anew of its words alone)
        return type(self), (self.status, self.line, self.text, self.bytes_before)


class TimedOut(Refused):
    """The program gave no answer in time, and was ended."""


class Notes:
    """What a process writes to its standard error. A refusal is one line, and the process ends behind it. `./pip` writes
    more while it builds the program: that goes on to this process' standard error, at the latest HELD_SECONDS later."""

    def __init__(self) -> None:
        self.last = ""
        self._held = bytearray()
        self._since = 0.0

    def add(self, piece: bytes) -> None:
        self._held += piece
        self._since = time.monotonic()
        self._pass_on(self._held.rstrip(b"\n").rfind(b"\n") + 1)

    def wait(self) -> Optional[float]:
        """In how many seconds the line that is held goes on; none where no whole line is held."""
        return max(0.0, self._since + HELD_SECONDS - time.monotonic()) if self._held.endswith(b"\n") else None

    def pass_on_late(self) -> None:
        if self.wait() == 0.0:
            self.pass_on()

    def pass_on(self) -> None:
        """Passes on what is held: no refusal, since all that was asked is answered, or nothing is waited for any more."""
        self._pass_on(len(self._held))

    def end(self) -> str:
        """The last line, of a process that has ended."""
        return _last_line(self._held) or self.last

    def _pass_on(self, end: int) -> None:
        if end:
            text = self._held[:end].decode(errors="replace")
            self.last = _last_line(self._held[:end]) or self.last
            del self._held[:end]
            if sys.stderr is not None:
                sys.stderr.write(text)
                sys.stderr.flush()


def _last_line(notes: bytes) -> str:
    return notes.decode(errors="replace").strip().rpartition("\n")[2]


def late(seconds: Optional[float], notes: Notes, text: str, what: str = "answer", bytes_before: int = 0) -> TimedOut:
    last = notes.end()
    notes.pass_on()
    said = f"; its last line was `{last}`" if last else ""
    return TimedOut(-9, f"no {what} in {seconds} seconds{said}", text, bytes_before)


def checked_seconds(seconds: Optional[float]) -> Optional[float]:
    """The seconds of a timeout; none where there is no limit, as of infinity and of what is past all floats."""
    if seconds is None:
        return None
    if not isinstance(seconds, numbers.Real) or isinstance(seconds, bool):
        raise TypeError(f"a timeout is a number of seconds, or None, not {seconds!r}")
    if not seconds > 0:  # (that of NaN too)
        raise ValueError(f"a timeout is above 0, or None for no limit, not {seconds!r}")
    return None if seconds > sys.float_info.max else seconds


# ---- A process -----------------------------------------------------------------------------------------------------


class Child:
    """A process with pipes, of one call at a time, in the caller's group: Ctrl-C and `timeout` end both. A fork has a copy of this,
    which leaves the process to whom it belongs."""

    def __init__(self, command: Sequence[str]) -> None:
        self.command = list(command)
        self.process: Optional[subprocess.Popen[bytes]] = None
        self.closed = False
        self._owner = os.getpid()

    def start(self) -> None:
        pipe = subprocess.PIPE
        self._owner = os.getpid()
        self.go_on()
        _STARTED.add(weakref.ref(self, _STARTED.discard))
        with _BEGUN, _beginning():
            self.process = subprocess.Popen(self.command, stdin=pipe, stdout=pipe, stderr=pipe, bufsize=0)
        for end in self.pipes():
            os.set_blocking(end, False)
        if self.closed:  # meanwhile, when there was no process to end
            self.stop()
        self.go_on()

    def __del__(self) -> None:
        """Ends the process of a Solver that nobody has any more."""
        process = self.process
        if process is not None and not self.closed and self._owner == os.getpid():
            process.terminate()
            close_pipes(process)

    def pipes(self) -> Tuple[int, int, int]:
        process = self.process
        assert process and process.stdin and process.stdout and process.stderr
        return process.stdin.fileno(), process.stdout.fileno(), process.stderr.fileno()

    def go_on(self) -> None:
        """RuntimeError where the call that has the process may not go on with it."""
        if self.closed:
            raise RuntimeError("the Solver was closed while this call was under way")
        if self._owner != os.getpid():
            raise RuntimeError("this call was begun before a fork, and belongs to the other process")

    def ended(self, end: Optional[float]) -> Optional[int]:
        """The status of the process, which has closed its output; none where it lives on at the end of the time."""
        assert self.process is not None
        while True:
            self.go_on()
            left = LOOK_SECONDS if end is None else min(LOOK_SECONDS, end - time.monotonic())
            if left <= 0:
                return None
            with contextlib.suppress(subprocess.TimeoutExpired):
                status = self.process.wait(left)
                self.go_on()
                return status

    def interrupt(self) -> None:
        """Ends the process of a call that is under way, perhaps in another thread: the call fails. It does so at the latest when it
        looks again, since what the process has below it may keep the pipes."""
        self.closed = True
        process = self.process
        if process is not None:
            process.terminate()

    def left(self) -> None:
        """The same at the end of the program, which waits for no call of a thread that is a daemon."""
        if self._owner == os.getpid():
            self.interrupt()

    def stop(self) -> None:
        """Ends the process. Nothing that it still writes is wanted. (`./pip` ends its build first.)"""
        process, self.process = self.process, None
        if process is not None:
            if not self.closed:  # else it is ending
                process.terminate()
            try:
                process.wait(END_SECONDS)
            except subprocess.TimeoutExpired:
                process.kill()
                process.wait()
            close_pipes(process)


def close_pipes(process: subprocess.Popen[bytes]) -> None:
    for end in (process.stdin, process.stdout, process.stderr):
        if end is not None:
            end.close()


_STARTED: Set[weakref.ref[Child]] = set()
# Held while a process is begun or taken: a fork waits, until it is known which one is whose. A call that was left ends where Python
# collects it, which may be inside of what holds the lock: so the same thread may take it again.
_BEGUN = threading.RLock()


_LATER: List[Callable[[], object]] = []  # what signals asked for while a process was begun
_begins = False


@contextlib.contextmanager
def _beginning() -> Iterator[None]:
    global _begins
    _begins = True
    try:
        yield
    finally:
        _begins = False
        while _LATER:
            _LATER.pop()()


def when_begun(action: Callable[[], object]) -> None:
    """Does what the handler of a signal is to do. Where a process is just being begun, it waits until that one is known: an exception
    would leave it to itself."""
    if _begins:
        _LATER.append(action)
    else:
        action()


def _in_fork() -> None:
    """Leaves what was begun before a fork to the first process, the pipes too: what reads up to the end of a pipe waits until no
    process holds its other end."""
    _BEGUN.release()
    for found in list(_STARTED):
        child = found()
        process = None if child is None else child.process
        if child is not None and process is not None:
            child.process, process.returncode = None, 0  # (nothing here waits for it)
            close_pipes(process)


os.register_at_fork(before=_BEGUN.acquire, after_in_parent=_BEGUN.release, after_in_child=_in_fork)


@atexit.register
def _end_all() -> None:
    is_known = _BEGUN.acquire(timeout=END_SECONDS)  # (else a thread is still beginning one)
    for found in list(_STARTED):
        child = found()
        if child is not None:
            child.left()
    if is_known:
        _BEGUN.release()


# ---- A run of its own ----------------------------------------------------------------------------------------------


class Runs:
    """Runs over one text each, that `stop` ends."""

    def __init__(self) -> None:
        self._under_way: List[Child] = []

    def run(self, command: Sequence[str], text: str, timeout: Optional[float]) -> Tuple[int, bytes, str]:
        """The status of a run over a text, what it writes, and its last line."""
        child = Child(command)
        self._under_way.append(child)
        try:
            return _run(child, text, timeout)
        finally:
            child.stop()
            self._under_way.remove(child)

    def stop(self) -> None:
        for child in list(self._under_way):
            child.interrupt()


def _run(child: Child, text: str, timeout: Optional[float]) -> Tuple[int, bytes, str]:
    outgoing, found, notes = memoryview(as_bytes(text)), bytearray(), Notes()
    end = None if timeout is None else time.monotonic() + timeout
    child.start()
    assert child.process and child.process.stdin
    sink, source, errors = child.pipes()
    with selectors.DefaultSelector() as selector:
        selector.register(sink, selectors.EVENT_WRITE)
        for stream in (source, errors):
            selector.register(stream, selectors.EVENT_READ)
        while selector.get_map():
            ready = _select(selector, end, notes, child)
            if ready is None:
                raise late(timeout, notes, text, "end")
            if not ready:
                break
            for key, _ in ready:
                if key.fd == sink:
                    outgoing = write_some(sink, outgoing)
                    if not outgoing:
                        selector.unregister(sink)
                        child.process.stdin.close()
                    continue
                piece = os.read(key.fd, 1 << 16)
                if not piece:
                    selector.unregister(key.fd)
                elif key.fd == errors:
                    notes.add(piece)
                else:
                    found += piece
    status = child.ended(end)
    if status is None:
        raise late(timeout, notes, text, "end")
    if status == 0:
        notes.pass_on()
    return status, bytes(found), notes.end()


def write_some(sink: int, outgoing: memoryview) -> memoryview:
    """Writes what the pipe takes now; what is left."""
    try:
        return outgoing[os.write(sink, outgoing):]
    except BlockingIOError:
        return outgoing
    except BrokenPipeError:  # the process has ended, or is about to: its output tells
        return memoryview(b"")


_Ready = List[Tuple[selectors.SelectorKey, int]]


def _select(selector: selectors.BaseSelector, end: Optional[float], notes: Notes, child: Child) -> Optional[_Ready]:
    """What is ready; none where it is not before the end, nothing where the process has ended and others keep its pipes. What
    notes hold goes on meanwhile."""
    while True:
        child.go_on()
        left = LOOK_SECONDS if end is None else end - time.monotonic()
        if left <= 0:
            return None
        held = notes.wait()
        ready = selector.select(min(left, LOOK_SECONDS if held is None else held))
        if ready:
            return ready
        if child.process is not None and child.process.poll() is not None:
            return selector.select(0)  # (what it wrote meanwhile)
        notes.pass_on_late()


# ---- Processes that are kept ---------------------------------------------------------------------------------------


@dataclass
class _Asked:
    text: str
    data: bytes
    bytes_before: int = 0


class Coprocess(Child):
    """A process that is given one group after the other and answers each with so many groups. One call at a time uses it.

    Its pipes are read and written as they are ready, so neither side waits for the other. (A pipe's two ends are
    blocking or not each by itself: the program's stay as they are.)"""

    def __init__(self, command: Sequence[str], groups: int, timeout: Optional[float]) -> None:
        super().__init__(command)
        self.groups, self.timeout = groups, timeout
        self.bytes_given = 0
        self.notes = Notes()

    def answers(self, texts: Iterable[str]) -> Iterator[Union[List[str], Refused]]:
        """What comes of each text, in order: its groups, or its refusal. A refusal ends the process; the next text gets
        another."""
        source = iter(texts)
        waiting: Deque[_Asked] = deque()  # to be given (again)
        given: Deque[_Asked] = deque()  # and not yet answered
        ended = False
        try:
            while True:
                if not waiting:
                    waiting.extend(_asked(text) for text in itertools.islice(source, 64))
                if not waiting and not given:
                    ended = True
                    return
                if not self._is_ready(waiting[0]):
                    self.stop()
                    self.start()
                yield from self._exchange(waiting, given)
        finally:
            if not ended:  # the caller left, or could not read an answer: what is still to come must not be taken for other ones
                self.stop()

    def _is_ready(self, asked: _Asked) -> bool:
        """Whether there is a process that can be given the text. It may have ended by itself, or taken its most."""
        return self.process is not None and self.process.poll() is None and self._has_room(asked)

    def _has_room(self, asked: _Asked) -> bool:
        return self.bytes_given == 0 or self.bytes_given + len(asked.data) <= MOST_BYTES

    def _exchange(self, waiting: Deque[_Asked], given: Deque[_Asked]) -> Iterator[Union[List[str], Refused]]:
        """Gives what waits to the process, as far as one run takes it, and yields what comes back, up to the end of what
        is given or of the process."""
        assert self.process is not None
        sink, source, errors = self.pipes()
        outgoing, made = memoryview(b""), _Groups()
        found: List[str] = []
        end = self._deadline()
        with selectors.DefaultSelector() as selector:
            selector.register(source, selectors.EVENT_READ)
            selector.register(errors, selectors.EVENT_READ)
            while True:
                while waiting and not outgoing and self._has_room(waiting[0]):
                    asked = waiting.popleft()
                    asked.bytes_before = self.bytes_given
                    self.bytes_given += len(asked.data)
                    given.append(asked)
                    outgoing = memoryview(asked.data)
                    selector.register(sink, selectors.EVENT_WRITE)
                if not given:
                    self.notes.pass_on()
                    return
                ready = _select(selector, end, self.notes, self)
                if ready is None:
                    yield self._late(given, waiting)
                    return
                if not ready:
                    yield self._ended(given, waiting, end)
                    return
                for key, _ in ready:
                    if key.fd == sink:
                        outgoing = write_some(sink, outgoing)
                        if not outgoing:
                            selector.unregister(sink)
                        continue
                    piece = os.read(key.fd, 1 << 16)
                    if key.fd == errors:
                        self.notes.add(piece)
                        if not piece:
                            selector.unregister(errors)
                        continue
                    if not piece:
                        yield self._ended(given, waiting, end)
                        return
                    for group in made.add(piece):
                        if not given:
                            raise RuntimeError(f"{self.command[0]} writes more than was asked for")
                        found.append(group)
                        if len(found) == self.groups:
                            given.popleft()
                            yield found
                            self.go_on()
                            found = []
                            end = self._deadline()

    def _ended(self, given: Deque[_Asked], waiting: Deque[_Asked], end: Optional[float]) -> Refused:
        """The refusal of the first text that has no answer. The texts behind it wait again."""
        self._read_errors(end)
        status = self.ended(end)
        if status is None:
            return self._late(given, waiting)
        line = self.notes.end()
        self.stop()
        refused = given.popleft()
        _wait_again(given, waiting)
        return Refused(status, line, refused.text, refused.bytes_before)

    def _read_errors(self, end: Optional[float]) -> None:
        """Reads what is left of standard error, up to its end or that of the process."""
        errors = self.pipes()[2]
        with selectors.DefaultSelector() as selector:
            selector.register(errors, selectors.EVENT_READ)
            while _select(selector, end, self.notes, self):
                piece = os.read(errors, 1 << 16)
                if not piece:
                    return
                self.notes.add(piece)

    def _late(self, given: Deque[_Asked], waiting: Deque[_Asked]) -> TimedOut:
        self.stop()
        asked = given.popleft()
        _wait_again(given, waiting)
        return late(self.timeout, self.notes, asked.text, bytes_before=asked.bytes_before)

    def _deadline(self) -> Optional[float]:
        return None if self.timeout is None else time.monotonic() + self.timeout

    def start(self) -> None:
        super().start()
        self.bytes_given, self.notes = 0, Notes()


class Pool:
    """The processes of one command. Each call under way has one of its own, so that none takes another one's answers,
    whichever threads the calls are of, and however many answers of a call have been taken. A process whose call has
    ended, or was left, is given to the next call."""

    def __init__(self, command: Sequence[str], groups: int, timeout: Optional[float]) -> None:
        self.command, self.groups, self.timeout = list(command), groups, timeout
        self._idle: List[Coprocess] = []
        self._used: List[Coprocess] = []

    def answers(self, texts: Iterable[str], timeout: Optional[float] = None) -> Iterator[Union[List[str], Refused]]:
        own = self._take()
        if timeout is not None:
            own.timeout = timeout if self.timeout is None else min(timeout, self.timeout)
        try:
            yield from own.answers(texts)
        finally:
            self._give_back(own)

    def _take(self) -> Coprocess:
        with _BEGUN:
            own = self._idle.pop() if self._idle else Coprocess(self.command, self.groups, self.timeout)
            own.timeout = self.timeout
            self._used.append(own)
            return own

    def _give_back(self, own: Coprocess) -> None:
        with _BEGUN:
            self._used.remove(own)
            if len(self._idle) < MOST_IDLE and not own.closed:
                self._idle.append(own)
                return
        own.stop()

    @property
    def process(self) -> Optional[subprocess.Popen[bytes]]:
        """The process that the next call goes on with; none where it begins one."""
        return self._idle[-1].process if self._idle else None

    def counts(self) -> Tuple[int, int]:
        """How many processes are in use, and how many wait for a call."""
        with _BEGUN:
            return len(self._used), sum(own.process is not None for own in self._idle)

    def stop(self) -> None:
        """Ends all processes; a call that is under way fails. A later call begins another one."""
        with _BEGUN:
            idle, self._idle = self._idle, []
            for own in self._used:  # at once: one that its call gives back meanwhile would be ended in the next call's hands
                own.interrupt()
        for own in idle:
            own.stop()


def _asked(text: str) -> _Asked:
    """A text that is to be given: one group, since the answers are told apart by their number."""
    if not is_one_group(text):
        raise ValueError("a text of one group of balanced brackets is wanted")
    return _Asked(text, as_bytes(text.strip() + "\n"))


def _wait_again(given: Deque[_Asked], waiting: Deque[_Asked]) -> None:
    waiting.extendleft(reversed(given))
    given.clear()


class _Groups:
    """Groups of balanced brackets, put together from pieces."""

    def __init__(self) -> None:
        self.held, self.depth = bytearray(), 0

    def add(self, piece: bytes) -> Iterator[str]:
        start = 0
        for match in re.finditer(rb"[()]", piece):
            self.depth += 1 if match.group() == b"(" else -1
            if self.depth == 0:
                self.held += piece[start:match.end()]
                start = match.end()
                yield as_text(self.held).strip()
                self.held = bytearray()
        self.held += piece[start:]
