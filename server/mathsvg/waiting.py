"""Requests that wait, set together by one worker; those that are slow, or have definitions, by another one."""

import collections
import concurrent.futures
import threading

from .limits import Room

class Busy(Exception):
    """As many requests wait as may."""


class Job:
    """A request that waits, and the promise of its results."""

    def __init__(self, batch, command=None):
        self.batch, self.command = batch, command
        self.count = len(batch.sheets)
        self.promise = concurrent.futures.Future()

    def finish(self):
        """Keeps the promise."""
        self.promise.set_result([sheet.result for sheet in self.batch.sheets])

    def fail(self, error):
        """Breaks the promise."""
        if not self.promise.done():
            self.promise.set_exception(error)


class Lane(threading.Thread):
    """A thread that takes the jobs that wait, as many at a time as have at most a number of formulas, or one."""

    def __init__(self, work, most_formulas, most_waiting):
        super().__init__(daemon=True)
        self.work = work
        self.most_formulas, self.most_waiting = most_formulas, most_waiting
        self.jobs = collections.deque()
        self.wake = threading.Condition()
        self.is_closed = False
        self.start()

    def put(self, job):
        """Lets a job wait."""
        with self.wake:
            if len(self.jobs) >= self.most_waiting:
                raise Busy
            self.jobs.append(job)
            self.wake.notify()

    def take(self):
        """The jobs that wait; none at the end."""
        with self.wake:
            while not self.jobs and not self.is_closed:
                self.wake.wait()
            taken, count = [], 0
            while self.jobs and not self.is_closed and (not taken or count + self.jobs[0].count <= self.most_formulas):
                taken.append(self.jobs.popleft())
                count += taken[-1].count
            return taken

    def run(self):
        while jobs := self.take():
            try:
                self.work(jobs)
            except Exception as error:  # pylint: disable=broad-except
                # The server goes on, and these requests are answered with it.
                for job in jobs:
                    job.fail(error)

    def close(self):
        """Ends the thread; jobs that wait are dropped."""
        with self.wake:
            self.is_closed = True
            self.wake.notify()
        self.join()


class Queue:
    """Two lanes before a setter, each with a converter from LaTeX."""

    def __init__(self, setter):
        self.setter = setter
        self.limits = limits = setter.limits
        self.together_converter, self.alone_converter = setter.new_converter(), setter.new_converter(1)
        for converter in (self.together_converter, self.alone_converter):
            converter.members[0].start()
        self.together = Lane(self.set_together, limits.together_formulas, limits.waiting)
        self.alone = Lane(self.set_alone, 0, limits.waiting)

    def put(self, asked, formulas, command=None):
        """Lets formulas of a request wait, and gives the promise of their results, or of what a command writes."""
        room = Room(self.limits.answer_bytes)
        job = Job(self.setter.batch(formulas, asked.definitions, asked.latex, room=room), command)
        is_alone = job.batch.definitions or command
        (self.alone if is_alone else self.together).put(job)
        return job.promise

    def set_together(self, jobs):
        """Sets jobs in the same runs. Those that are late go to the other lane."""
        seconds = self.limits.together_seconds
        ready = [job.batch for job in jobs if self.setter.convert(job.batch, self.together_converter, seconds)]
        self.setter.set_together(ready)
        for job in jobs:
            if not job.batch.left():
                job.finish()
                continue
            try:
                self.alone.put(job)
            except Busy as error:
                job.fail(error)

    def set_alone(self, jobs):
        """Sets a job by itself."""
        for job in jobs:
            self.setter.convert(job.batch, self.alone_converter)
            if job.command:
                job.promise.set_result(self.setter.file(job.batch, job.command))
            else:
                self.setter.set_batch(job.batch)
                job.finish()

    def close(self):
        """Ends both lanes."""
        self.together.close()
        self.alone.close()
