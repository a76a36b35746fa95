"""The processes that set the parts of a source here."""
import os
import sys

# As signal.SIGTERM.
SIGTERM = 15


class Room:
    """A temporary folder, and the processes that work in it."""

    def __init__(self):
        self.path = os.path.join(os.environ.get("TMPDIR") or "/tmp", "in-parallel-" + os.urandom(8).hex())
        self.running = {}
        os.mkdir(self.path, 0o700)

    def __enter__(self):
        return self

    def __exit__(self, *_):
        for child in self.running:
            os.kill(child, SIGTERM)
        for child in self.running:
            os.waitpid(child, 0)
        remove(self.path)

    def file(self, name):
        return os.path.join(self.path, name)

    def start(self, words, output=None, log=None):
        """Starts a program, which reads nothing."""
        actions = [(os.POSIX_SPAWN_OPEN, 0, os.devnull, os.O_RDONLY, 0)]
        for stream, name in (1, output), (2, log):
            if name:
                flags = os.O_WRONLY | os.O_CREAT | os.O_TRUNC
                actions.append((os.POSIX_SPAWN_OPEN, stream, self.file(name), flags, 0o600))
        child = os.posix_spawn(words[0], words, os.environ, file_actions=actions)
        self.running[child] = output
        return child

    def wait(self):
        """Waits for one of the programs. Gives its status and the name of its output."""
        child, status = os.wait()
        code = os.waitstatus_to_exitcode(status)
        return (code if code >= 0 else 128 - code), self.running.pop(child)


def remove(folder):
    for entry in os.scandir(folder):
        if entry.is_dir(follow_symlinks=False):
            remove(entry.path)
        else:
            os.unlink(entry.path)
    os.rmdir(folder)


def write_parts(room, source, jobs):
    """Writes the parts one by one, and gives the name of each."""
    for number, (first, last) in enumerate(source.parts(jobs), 1):
        name = "%02d" % number
        with open(room.file(name + ".tex"), "wb", buffering=0) as file:
            for piece in source.in_front(first), memoryview(source.text)[first:last]:
                while piece:
                    piece = piece[file.write(piece) :]
        yield name


def end_by_signals():
    """From here on a signal ends the script as an exception does. The module signal takes long to import."""
    import signal

    for number in signal.SIGHUP, signal.SIGINT, signal.SIGTERM:
        signal.signal(number, lambda *_: sys.exit(1))


def set_here(room, source, request, program):
    """The status of each part, by its name."""
    statuses = {}

    def wait():
        status, output = room.wait()
        statuses[output[: -len(".dvi")]] = status

    for name in write_parts(room, source, request.jobs):
        if len(room.running) == request.jobs:
            wait()
        words = [program, "set", request.fonts, room.file(name + ".tex")]
        room.start(words, name + ".dvi", name + ".log")
        if len(statuses) + len(room.running) == request.jobs:
            end_by_signals()
    while room.running:
        wait()
    return statuses
