"""The fonts of a list: their metrics, and the outlines that pdftex.map names for them."""

import os
import pathlib
import re
import shutil
import subprocess

from .outlines import NoOutlines, Outlines
from .tfm import Metrics


class CannotFind(Exception):
    """A file that the fonts need is missing, as a text with what to do."""


def kpsewhich(names):
    """The paths of files of TeX's by their names; those that are not found are left out."""
    if not shutil.which("kpsewhich"):
        raise CannotFind("the command kpsewhich is not in PATH; on Debian: apt install texlive-base")
    done = subprocess.run(["kpsewhich", "--", *names], stdout=subprocess.PIPE, text=True, check=False)
    return {os.path.basename(path): path for path in done.stdout.splitlines()}


def paths_of(folder, names):
    """The paths of files that are in a folder, or else where kpsewhich finds them."""
    found = {name: folder / name for name in names if (folder / name).exists()}
    wanted = [name for name in names if name not in found]
    if wanted:
        found.update((name, pathlib.Path(path)) for name, path in kpsewhich(wanted).items())
    return found


def mapped(names):
    """The .pfb file of each name by pdftex.map, which is None for a font that is reencoded or slanted there."""
    path = kpsewhich(["pdftex.map"]).get("pdftex.map")
    if not path:
        return {}
    found, wanted = {}, set(names)
    with open(path, encoding="latin-1") as lines:
        for line in lines:
            name = line.split(" ", 1)[0]
            if name in wanted:
                files = re.findall(r"<<?\[?\s*([^\s<]+)", line)
                is_plain = len(files) == 1 and '"' not in line
                found[name] = files[0] if is_plain else None
    return found


class Font:
    """A font of the list at its size, which is in scaled points."""

    def __init__(self, name, size, metrics):
        self.name = name
        self.size = size
        self.metrics = metrics
        self.outlines = None

    def outline(self, code):
        """The outline of a character; a font without outlines is named."""
        if self.outlines is None:
            raise NoOutlines(
                f"the font {self.name} has no outlines: pdftex.map names no Type 1 font with the codes of "
                f"{self.name}.tfm; install the package that has it (on Debian texlive-fonts-recommended or "
                "texlive-fonts-extra), or take another font in the list"
            )
        try:
            return self.outlines[code]
        except NoOutlines as error:
            raise NoOutlines(f"the font {self.name}: {error}") from error

    def extents(self, code):
        """The width, the height and the depth of a character, in scaled points."""
        return tuple(self.size * part for part in self.metrics.extents(code))


class FontList:
    """The fonts of a file, by their numbers in it."""

    def __init__(self, path):
        self.path = pathlib.Path(path)
        try:
            lines = self.path.read_text(encoding="latin-1").splitlines()
        except OSError as error:
            raise CannotFind(f"{path} cannot be read: {error.strerror}") from error
        asked = [line.split() for line in lines if line.startswith("font ")]
        names = list(dict.fromkeys(words[1] for words in asked if len(words) > 2))
        self.metrics_files = paths_of(self.path.parent, [f"{name}.tfm" for name in names])
        missing = [name for name in names if f"{name}.tfm" not in self.metrics_files]
        if missing:
            raise CannotFind(f"there is no {missing[0]}.tfm; on Debian: apt install texlive-fonts-recommended")
        metrics = {name: Metrics(self.metrics_files[f"{name}.tfm"].read_bytes()) for name in names}
        self.fonts = [self.font(words, metrics[words[1]]) for words in asked if len(words) > 2]
        self.find_outlines(names)

    @staticmethod
    def font(words, metrics):
        """The font of a line of the list. The program is the judge of the line."""
        size = metrics.design_size * int(words[3]) / 1000 if words[2] == "scaled" else int(words[2])
        return Font(words[1], size, metrics)

    def find_outlines(self, names):
        """Finds the outlines of all fonts of which there are some."""
        files = {name: file for name, file in mapped(names).items() if file}
        paths = kpsewhich(sorted(set(files.values()))) if files else {}
        outlines = {file: Outlines(path) for file, path in paths.items() if path.endswith((".pfb", ".pfa"))}
        for font in self.fonts:
            font.outlines = outlines.get(files.get(font.name))

    def __getitem__(self, number):
        return self.fonts[number]
