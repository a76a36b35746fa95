"""The call of in-parallel: its words, the program, and what it says of a part that is refused."""
import mmap
import os
import sys

from cutting.processes import Room, set_here, write_parts
from cutting.source import MOST_PARTS, Source, Stop


class Request:
    """The words of the call."""

    def __init__(self, machines, fonts, source, jobs):
        self.machines = machines
        self.fonts = fonts
        self.source = source
        self.jobs = jobs


def find_command(name):
    for folder in os.environ.get("PATH", "").split(":"):
        path = os.path.join(folder or ".", name)
        if os.path.isfile(path) and os.access(path, os.X_OK):
            return path
    return None


def find_program():
    runner = os.path.join(os.path.dirname(os.path.dirname(os.path.dirname(os.path.realpath(__file__)))), "run-example")
    if os.access(runner, os.X_OK):
        import subprocess

        found = subprocess.run([runner, "--program-or-installed"], stdout=subprocess.PIPE, check=False)
        if found.returncode:
            sys.exit(found.returncode)
        return os.fsdecode(found.stdout.rstrip(b"\n"))
    program = find_command("mathset")
    if not program:
        raise Stop("the command mathset is not in PATH, and there is no run-example to build it")
    return program


def request_of_call(words):
    machines = ""
    if words[:1] == ["--sshlogin"]:
        machines, words = "".join(words[1:2]), words[2:]
        if not machines:
            raise Stop("--sshlogin takes names of machines")
    elif words and words[0].startswith("--sshlogin="):
        machines, words = words[0].partition("=")[2], words[1:]
    if len(words) not in (2, 3):
        raise Stop("usage: in-parallel [--sshlogin MACHINES] FONTS SOURCE [JOBS]")
    jobs = (words + ["4"])[2]
    if jobs not in [str(number) for number in range(1, MOST_PARTS + 1)]:
        raise Stop("JOBS is a number from 1 to 16")
    if any(machine in (":", "") or machine.endswith("/:") for machine in machines.split(",") if machines):
        raise Stop("the machine : is this one; leave out --sshlogin, or name it localhost")
    return Request(machines, words[0], words[1], int(jobs))


def read(name):
    try:
        with open(name, "rb") as file:
            return file.read()
    except OSError as error:
        raise Stop("%s cannot be read" % name) from error


def report(room, request, name):
    """What was said of a part: the source in place of the part, and the font list in place of its copy."""
    here = os.fsencode(name + ".tex" if request.machines else room.file(name + ".tex"))
    for line in read(room.file(name + ".log")).split(b"\n")[:-1]:
        line = line.replace(here, os.fsencode(request.source), 1)
        if request.machines and line.startswith(b"list:"):
            line = os.fsencode(request.fonts) + line[len(b"list") :]
        sys.stderr.buffer.write(line + b"\n")
    sys.stderr.flush()


def bytes_of_source(name):
    """A map of a file, which is there at once, or what is read of a pipe."""
    try:
        with open(name, "rb") as file:
            if os.path.isfile(name) and os.path.getsize(name):
                return mmap.mmap(file.fileno(), 0, access=mmap.ACCESS_READ)
            return file.read()
    except OSError as error:
        raise Stop("%s cannot be read" % name) from error


def status_of(request):
    """Sets the parts and joins them."""
    program = find_program()
    source = Source(bytes_of_source(request.source))
    with Room() as room:
        if request.machines:
            from cutting.machines import set_there

            statuses = set_there(room, list(write_parts(room, source, request.jobs)), request)
        else:
            statuses = set_here(room, source, request, program)
        names = sorted(statuses)
        for name in names:
            if statuses[name]:
                report(room, request, name)
                return statuses[name]
        room.start([program, "join", request.fonts, *(room.file(name + ".dvi") for name in names)])
        return room.wait()[0]


def run(usage):
    """Does what the words of the call say; the usage is for --help."""
    words = sys.argv[1:]
    if words[:1] in (["-h"], ["--help"]):
        print(usage.rstrip())
        sys.exit(0)
    try:
        sys.exit(status_of(request_of_call(words)))
    except Stop as stop:
        sys.stderr.write("in-parallel: %s\n" % stop)
        sys.exit(2)
    except KeyboardInterrupt:
        sys.exit(1)
