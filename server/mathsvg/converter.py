"""LaTeX made what the program takes, by a process of its own with limits of time and memory."""

import bisect
import concurrent.futures
import json
import os
import pathlib
import resource
import select
import subprocess
import sys
import time

from .formula import fault_at, whole_fault
from .program import TOP, CannotRun

PROCESS = pathlib.Path(__file__).resolve().parent / "converting.py"
PACKAGE = TOP / "examples"
# Seconds in which a process has to be ready.
STARTING = 20.0
# A process is used for at least so many formulas.
SHARE = 32
HEAVY = "the macros of this formula take too much time or memory"


class Ended(Exception):
    """The process has ended, or did not answer in time."""


class Converter:
    """A process that is started when it is first needed, and again after it had to be ended. It is for one thread."""

    def __init__(self, names, limits):
        if not (PACKAGE / "latex/__init__.py").exists():
            raise CannotRun(f"there is no package latex in {PACKAGE}")
        self.names, self.limits = names, limits
        self.process = None
        self.is_ready = False
        self.unread = b""

    def close(self):
        """Ends the process."""
        if self.process is not None:
            self.process.kill()
            self.process.stdin.close()
            self.process.stdout.close()
            self.process.wait()
            self.process = None

    def start(self):
        """Starts the process."""
        words = [sys.executable, str(PROCESS), str(PACKAGE), str(self.names or os.devnull)]
        self.process = subprocess.Popen(words, stdin=subprocess.PIPE, stdout=subprocess.PIPE, stderr=subprocess.DEVNULL)
        self.unread = b""
        self.is_ready = False
        most = self.limits.converter_memory
        resource.prlimit(self.process.pid, resource.RLIMIT_AS, (most, most))

    def convert(self, batch, left, deadline, is_last):
        """Converts sheets of a batch. False if there is no time for all of them.

        If this is the last attempt, a formula is at fault whose conversion the process does not survive.
        """
        while left:
            try:
                self.convert_all(batch, left, deadline)
            except Ended:
                # One that is still being started is waited for by the next request.
                if self.is_ready or self.process.poll() is not None:
                    self.close()
                if not is_last or time.monotonic() >= batch.deadline:
                    return False
                sheet = left.pop(0)
                sheet.result = whole_fault(sheet.formula, HEAVY)
        return True

    def convert_all(self, batch, left, deadline):
        """Converts sheets, and takes each from the list as it is converted."""
        if self.process is None:
            self.start()
        if not self.is_ready:
            self.answer(deadline, STARTING)
            self.is_ready = True
        formulas = [(sheet.formula.source, sheet.formula.display) for sheet in left]
        request = json.dumps({"definitions": batch.asked_definitions, "formulas": formulas})
        try:
            self.process.stdin.write(request.encode() + b"\n")
            self.process.stdin.flush()
        except BrokenPipeError:
            raise Ended from None
        fault = json.loads(self.answer(deadline, self.limits.conversion_seconds))["fault"]
        if fault:
            batch.refuse(fault[0], fault[2], fault[1])
            left.clear()
        while left:
            take(left[0], self.answer(deadline, self.limits.conversion_seconds))
            left.pop(0)

    def answer(self, deadline, seconds):
        """The next line of the process, as bytes."""
        end = min(deadline, time.monotonic() + seconds)
        poll = select.poll()
        poll.register(self.process.stdout, select.POLLIN)
        while b"\n" not in self.unread:
            left = end - time.monotonic()
            if left <= 0 or not poll.poll(1000 * left):
                raise Ended
            data = os.read(self.process.stdout.fileno(), 1 << 16)
            if not data:
                raise Ended
            self.unread += data
        line, _, self.unread = self.unread.partition(b"\n")
        return line


class Converters:
    """Several processes, among which many formulas are shared out. They are for one thread."""

    def __init__(self, names, limits, count):
        self.members = [Converter(names, limits) for _ in range(count)]
        self.threads = concurrent.futures.ThreadPoolExecutor(count)

    def convert(self, batch, deadline, is_last=True):
        """Converts the sheets that are left of a batch. False if there is no time for all of them."""
        left = [sheet for sheet in batch.left() if not sheet.is_converted]
        count = max(1, min(len(self.members), len(left) // SHARE))
        if count == 1:
            return self.members[0].convert(batch, left, deadline, is_last)
        shares = [left[at::count] for at in range(count)]
        done = [
            self.threads.submit(member.convert, batch, share, deadline, is_last)
            for member, share in zip(self.members, shares)
        ]
        return all([each.result() for each in done])

    def close(self):
        """Ends the processes and threads."""
        self.threads.shutdown()
        for member in self.members:
            member.close()


def take(sheet, line):
    """Gives a sheet its text, or its fault."""
    source = sheet.formula.source
    sheet.is_converted = True
    answer, _, places = line.partition(b"\t")
    answer = json.loads(answer)
    if "fault" in answer:
        place, length, text = answer["fault"]
        sheet.result = fault_at(source, place, text, length)
        return
    text = answer["text"]

    def own_fault(offset, said):
        found = json.loads(places)
        number = bisect.bisect_right([offset for offset, _ in found], offset) - 1
        place = found[number][1] if number >= 0 else 0
        return fault_at(source, len(source) if offset >= len(text) else min(len(source), place), said)

    sheet.take(text.encode(), own_fault)
