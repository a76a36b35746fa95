"""The program mathset, run on sources under limits of time, memory, stack and output."""

import contextlib
import os
import pathlib
import re
import resource
import select
import shutil
import subprocess
import tempfile
import typing

TOP = pathlib.Path(__file__).resolve().parent.parent.parent
# A fault, as `-:2:5: formula 1: double superscript`.
PLACE = re.compile(r"^-:(\d+):(\d+): (?:(?:formula|source byte) \d+: )?(.*)$", re.MULTILINE)
# The status of a run that the limit of the output ended, which is none of the program's.
TOO_LONG = 256
TOO_LATE = 257


class CannotRun(Exception):
    """There is no program, or it does not take the fonts, as a text."""


class Run(typing.NamedTuple):
    """How a run ended: its status, its output, and what it said on standard error."""

    status: int
    output: bytes
    said: str

    def place(self):
        """The line, the column and the text of the fault in the source, or None."""
        found = PLACE.search(self.said)
        return (int(found[1]), int(found[2]), found[3]) if found else None


def find_program():
    """The path of the program that run-example takes, or of the mathset in PATH where there is no run-example."""
    runner = TOP / "run-example"
    if runner.exists():
        done = subprocess.run([runner, "--program-or-installed"], stdout=subprocess.PIPE, text=True, check=False)
        path = done.stdout.strip()
        if done.returncode or not path:
            raise CannotRun("run-example has no program")
        if path.endswith("/try-unproved"):
            raise CannotRun("this kit builds the program anew for each run; call ./run-example --prove first")
        return path
    path = shutil.which("mathset")
    if not path:
        raise CannotRun("the command mathset is not in PATH, and there is no run-example to build it")
    return path


class Program:
    """The program with a list of fonts, in a temporary folder that has links to their TFM files."""

    def __init__(self, fonts, limits, path):
        self.path = os.path.abspath(path)
        self.limits = limits
        self.room = tempfile.TemporaryDirectory(prefix="mathset-server-")
        room = pathlib.Path(self.room.name)
        (room / "fonts").symlink_to(fonts.path.resolve())
        for name, file in fonts.metrics_files.items():
            (room / name).symlink_to(file.resolve())
        first = self.run("places", b"")
        if first.status:
            self.close()
            raise CannotRun(f"{self.path} does not take {fonts.path}: {first.said.strip() or first.status}")

    def close(self):
        """Removes the folder."""
        self.room.cleanup()

    def run(self, command, source, seconds=None, line=None):
        """Runs the program on a source. `line` is the width of a line in scaled points."""
        seconds = self.limits.run_seconds if seconds is None else min(seconds, self.limits.run_seconds)
        words = [self.path, *(["--line", str(line)] if line else []), command, "fonts", "-"]
        with file_in_memory(source) as given, file_in_memory() as output, file_in_memory() as said:
            process = subprocess.Popen(words, cwd=self.room.name, stdin=given, stdout=output, stderr=said)
            self.limit(process)
            is_late = not has_ended(process, seconds)
            if is_late:
                process.kill()
            process.wait()
            if is_late:
                return Run(TOO_LATE, b"", "")
            status = TOO_LONG if process.returncode < 0 else process.returncode
            return Run(status, b"" if status else read_all(output), read_all(said).decode("latin-1"))

    def limit(self, process):
        """Sets the limits of a program that has just begun. They are of all that it has taken, also before."""
        limits = self.limits
        for kind, most in (
            (resource.RLIMIT_CPU, int(limits.run_seconds) + 1),
            (resource.RLIMIT_AS, limits.run_memory),
            (resource.RLIMIT_STACK, limits.run_stack),
            (resource.RLIMIT_FSIZE, limits.run_output),
            (resource.RLIMIT_CORE, 0),
        ):
            try:
                resource.prlimit(process.pid, kind, (most, most))
            except ProcessLookupError:
                # It has ended already.
                break


@contextlib.contextmanager
def file_in_memory(data=b""):
    """The number of an open file in memory, at its beginning."""
    file = os.memfd_create("mathset")
    try:
        if data:
            os.pwrite(file, data, 0)
        yield file
    finally:
        os.close(file)


def read_all(file):
    """All bytes of a file in memory."""
    return os.pread(file, os.fstat(file).st_size, 0)


def has_ended(process, seconds):
    """Waits for the end of a process, at most so many seconds, and says whether it has ended."""
    watched = os.pidfd_open(process.pid)
    try:
        poll = select.poll()
        poll.register(watched, select.POLLIN)
        return bool(poll.poll(max(1, seconds * 1000)))
    finally:
        os.close(watched)
