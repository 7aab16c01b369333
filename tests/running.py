"""Runs the program many times over short texts: its three files are in memory, and it is forked before its main (fork.c), so
that it is not loaded anew for each run. Without a C compiler, or where the program has the C library in it, it is started anew."""
import collections
import os
import pathlib
import shutil
import signal
import struct
import subprocess
import sys
import tempfile

HERE = pathlib.Path(__file__).resolve().parent
MEMORY = "/dev/shm" if os.path.isdir("/dev/shm") else None
MOST_STANDING = 12  # programs that stand before their main, one for each line of words


def existing_program(file):
    """The path of the program; ends the script where it is not there, before anything is told of it."""
    program = os.path.abspath(file)
    if not os.path.isfile(program) or not os.access(program, os.X_OK):
        sys.exit(f"{program} is not there, or no program: ./pip builds crates/pip/out/pip")
    return program


class Late(Exception):
    """A run that did not end in time; it was ended."""


def built(folder):
    """The library that forks, made in a folder; none where there is no C compiler."""
    library = pathlib.Path(folder) / "fork.so"
    if shutil.which("cc") is None:
        return None
    subprocess.run(["cc", "-O1", "-shared", "-fPIC", "-o", library, HERE / "fork.c"], check=True)
    return str(library)


def is_loaded(program):
    """Whether a loader begins the program, and libraries with it: none where the C library is in it, as `./pip` installs it."""
    head = pathlib.Path(program).read_bytes()[:4096]
    if head[:5] != b"\x7fELF\2":
        return False
    first, = struct.unpack_from("<Q", head, 32)
    size, count = struct.unpack_from("<HH", head, 54)
    return any(struct.unpack_from("<I", head, first + place * size)[0] == 3 for place in range(count))


class Runner:
    """The program, with three files that are used again for each run: its input, its output, its errors. One process uses it."""

    def __init__(self, program, seconds, library=None):
        self.program, self.seconds, self.library = program, seconds, library if library and is_loaded(program) else None
        self.made = [tempfile.TemporaryFile(buffering=0, dir=MEMORY) for _ in range(3)]
        self.actions = [(os.POSIX_SPAWN_DUP2, file.fileno(), to) for to, file in enumerate(self.made)]
        self.standing = collections.OrderedDict()
        signal.signal(signal.SIGALRM, self.end)

    def end(self, *_):
        raise TimeoutError

    def run(self, words, text):
        """The status of a run, below 0 a signal, its output and its errors."""
        return self.ended(self.started if self.library is None else self.forked, words, text)

    def once(self, words, text):
        """The same with words that no other run has: the program is started anew."""
        return self.ended(self.started, words, text)

    def ended(self, way, words, text):
        for file in self.made:
            file.seek(0)
            file.truncate()
        os.pwrite(self.made[0].fileno(), text, 0)
        status = way(words)
        return (os.waitstatus_to_exitcode(status),
                *(os.pread(file.fileno(), os.fstat(file.fileno()).st_size, 0) for file in self.made[1:]))

    def started(self, words):
        child = os.posix_spawn(self.program, [self.program, *words], os.environ, file_actions=self.actions)
        return self.awaited(child, lambda: os.waitpid(child, 0)[1])

    def forked(self, words):
        asked, told = self.stand(tuple(words))
        os.write(asked, b"x")
        return self.awaited(number(told), lambda: number(told))

    def awaited(self, child, status):
        signal.alarm(self.seconds)
        try:
            found = status()
            signal.alarm(0)
            return found
        except TimeoutError:
            os.kill(child, signal.SIGKILL)
            status()
            raise Late(f"no end within {self.seconds} seconds") from None

    def stand(self, words):
        """The two ends of a program that stands before its main, with these words."""
        if words in self.standing:
            self.standing.move_to_end(words)
            return self.standing[words][:2]
        if len(self.standing) == MOST_STANDING:
            self.leave(self.standing.popitem(last=False)[1])
        (its_asked, asked), (told, its_told) = os.pipe(), os.pipe()
        actions = [*self.actions, (os.POSIX_SPAWN_DUP2, its_asked, 198), (os.POSIX_SPAWN_DUP2, its_told, 199)]
        environment = {**os.environ, "LD_PRELOAD": self.library}
        child = os.posix_spawn(self.program, [self.program, *words], environment, file_actions=actions)
        os.close(its_asked)
        os.close(its_told)
        self.standing[words] = asked, told, child
        return asked, told

    def leave(self, standing):
        asked, told, child = standing
        os.close(asked)
        os.close(told)
        os.waitpid(child, 0)

    def close(self):
        while self.standing:
            self.leave(self.standing.popitem()[1])
        for file in self.made:
            file.close()


def number(told):
    found = os.read(told, 4)
    if len(found) < 4:
        raise RuntimeError("the program that stands before its main has ended")
    return struct.unpack("i", found)[0]
