"""The program mathset, which is run on several sources at a time, and what it says of them."""
import collections
import os
import pathlib
import re
import shutil
import subprocess
import sys

from checking.source import Place

HERE = pathlib.Path(os.path.realpath(__file__)).parent.parent


def fail(text):
    sys.stderr.write("%s: %s\n" % (os.path.basename(sys.argv[0]), text))
    sys.exit(2)


class Answer:
    """What mathset says of a source: a first line for machines, and a second one with the place and the text."""

    PLACE = re.compile(r"source\.tex:(\d+):(\d+): (?:(?:formula|source byte) \d+: )?(.*)", re.S)
    WITHOUT_PLACE = re.compile(r"(?:(?:formula|source byte) \d+: )?(.*)", re.S)

    def __init__(self, status, log):
        lines = log.split("\n")
        self.status = status
        self.log = log
        self.line = lines[0][len("mathset: ") :]
        second = lines[1] if len(lines) > 1 else ""
        found = self.PLACE.match(second)
        self.place = Place(int(found[1]), int(found[2]), found[3]) if found else None
        self.text = found[3] if found else self.WITHOUT_PLACE.match(second)[1]
        number = re.match(r"formula (\d+) ", self.line)
        self.formula = int(number[1]) if number else None

    def is_unknown_name(self):
        return self.line == "formula 1 token 0 cause 1"

    def is_of_the_source(self):
        return 40 <= self.status <= 49

    def is_of_setting(self):
        return 43 <= self.status <= 47

    def stop_if_not_of_the_source(self):
        if self.status and not self.is_of_the_source():
            sys.stderr.write(self.log)
            fail("mathset rejects the fonts, or could not run")


class Program:
    """The program with a font list. It runs on files in a folder of its own, in the present folder."""

    def __init__(self, fonts, room, path=None):
        self.fonts = fonts
        self.room = room
        self.path = path or self.find()
        self.most = 4 * (os.cpu_count() or 1)

    @staticmethod
    def find():
        runner = HERE.parent / "run-example"
        if runner.exists():
            done = subprocess.run([runner, "--program-or-installed"], stdout=subprocess.PIPE, text=True, check=False)
            if done.returncode:
                sys.exit(2)
            path = done.stdout.strip()
            if path.endswith("/try-unproved"):
                fail("this kit builds the program anew for each run; call ./run-example --prove first")
            return path
        path = shutil.which("mathset")
        if not path:
            fail("the command mathset is not in PATH, and there is no run-example to build it")
        return path

    def start(self, number, source):
        folder = os.path.join(self.room, str(number))
        os.makedirs(folder, exist_ok=True)
        path = os.path.join(folder, "source.tex")
        with open(path, "wb") as file:
            file.write(source.encode("latin-1"))
        actions = [
            (os.POSIX_SPAWN_OPEN, 0, os.devnull, os.O_RDONLY, 0),
            (os.POSIX_SPAWN_OPEN, 1, os.devnull, os.O_WRONLY, 0),
            (os.POSIX_SPAWN_OPEN, 2, os.path.join(folder, "log"), os.O_WRONLY | os.O_CREAT | os.O_TRUNC, 0o600),
        ]
        words = [self.path, "places", "--", self.fonts, path]
        return os.posix_spawn(self.path, words, os.environ, file_actions=actions)

    def answer(self, number, status):
        with open(os.path.join(self.room, str(number), "log"), "rb") as file:
            log = file.read().decode("latin-1")
        log = log.replace(os.path.join(self.room, str(number), "source.tex"), "source.tex")
        answer = Answer(os.waitstatus_to_exitcode(status), log)
        answer.stop_if_not_of_the_source()
        return answer

    def answers(self, sources, then=lambda key, answer: ()):
        """Runs sources, each with a key, several at a time. What `then` gives for an answer is run too."""
        waiting = collections.deque(sources)
        running, free = {}, list(range(self.most))
        found = {}
        while waiting or running:
            while waiting and free:
                key, source = waiting.popleft()
                number = free.pop()
                running[self.start(number, source)] = number, key
            child, status = os.wait()
            number, key = running.pop(child)
            free.append(number)
            found[key] = self.answer(number, status)
            waiting.extend(then(key, found[key]))
        return found
