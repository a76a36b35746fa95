"""Parts of a source that are set on other machines, by GNU parallel."""
import os
import re
import shutil
import subprocess
import sys
import tarfile


def stop(text):
    sys.stderr.write("in-parallel: %s\n" % text)
    sys.exit(2)


def set_there(room, parts, request):
    """The status of each part. A part goes there in a tar file, with the font list and its fonts."""
    fonts = files_of_list(request.fonts)
    for name in parts:
        with tarfile.open(room.file(name + ".sent"), "w") as sent:
            for short, path in fonts.items():
                sent.add(path, short)
            sent.add(room.file(name + ".tex"), name + ".tex")
    run_parallel(room, request, parts)
    statuses = {}
    for name in parts:
        done = room.file(name + ".done")
        if not os.path.exists(done) or not os.path.getsize(done):
            with open(room.file("said"), errors="replace") as said:
                sys.stderr.write(said.read())
            stop("part %s of the source came back from no machine" % name)
        with tarfile.open(done) as files:
            for suffix in ".dvi", ".log", ".status":
                with open(room.file(name + suffix), "wb") as file:
                    file.write(files.extractfile(name + suffix).read())
        with open(room.file(name + ".status")) as status:
            statuses[name] = int(status.read())
    return statuses


def files_of_list(fonts):
    """The font list as `list`, and the TFM files that it names and that are here."""
    try:
        with open(fonts, "rb") as file:
            names = re.findall(rb"^font +([^ \n]+) ", file.read(), re.M)
    except OSError:
        stop("%s cannot be read" % fonts)
    names = sorted({os.fsdecode(name) + ".tfm" for name in names})
    return {"list": fonts, **{name: name for name in names if os.path.isfile(name)}}


def run_parallel(room, request, parts):
    for tool in "parallel", "rsync", "ssh":
        if not shutil.which(tool):
            stop("--sshlogin needs the command %s, which is not in PATH" % tool)
    at_once = -(-request.jobs // len(request.machines.split(",")))
    words = [
        "parallel", "--will-cite", "--jobs", str(at_once), "--sshlogin", request.machines, "--workdir", "...",
        "--transferfile", "{}.sent", "--return", "{}.done", "--cleanup",
        "tar -x -f {}.sent && { mathset set list {}.tex >{}.dvi 2>{}.log; echo $? >{}.status; } &&"
        " tar -c -f {}.done {}.dvi {}.log {}.status",
    ]
    given = "".join(name + "\n" for name in parts).encode()
    with open(room.file("said"), "wb") as said:
        subprocess.run(words, cwd=room.path, input=given, stdout=subprocess.DEVNULL, stderr=said, check=False)
