"""The molecules of a run at its steps, for a page that shows them.

They come from a run of the program itself over a copy of the configuration, with the same seed. Behind the commands of the file the
copy has four more, which list the molecules to a pipe: they draw no random word and change no molecule, and their numbers come after
all others, so the file's own commands do what they do without them. The copy is run apart, in a folder that is gone afterwards:
what the file's commands print goes nowhere.
"""
import base64
import itertools
import os
import subprocess
import tempfile
import zlib
from array import array
from dataclasses import dataclass, field

from smol import lines_read

KEYS = 1 << 32
FINEST = 65535


@dataclass
class Run:
    """How a run ended, and its frames.

    `refusal` is the last line that the program printed on standard error, without its end.
    """

    status: int
    refusal: str
    frames: "Frames"


@dataclass
class Frames:
    """The molecules at some moments of a run, at most so many a moment; which, is chosen by their serials and is the same each time.

    `times` are as the program prints them, `counts` those of all molecules, for each moment and species. `molecules` are the chosen
    ones, for each moment and species their serials and, for each axis, their coordinates.
    """

    dims: int
    species: list
    most: int
    times: list = field(default_factory=list)
    counts: list = field(default_factory=list)
    molecules: list = field(default_factory=list)
    below: int = KEYS

    def read(self, lines):
        """Takes the lines that the copy's own commands print: at each moment one of counts, and then one for each molecule. A moment
        that is cut off is left out."""
        numbers = {name.encode() + b"(solution)": number for number, name in enumerate(self.species)}
        wide = self.dims + 2
        for line in lines:
            time, *counts = line.split()
            counts = list(map(int, counts))
            listed = list(itertools.islice(lines, sum(counts)))
            if len(listed) < sum(counts) or not (listed or [line])[-1].endswith(b"\n"):
                break
            if self.times and self.times[-1] == time.decode():
                continue  # the last moment, listed again
            words = b"".join(listed).split()
            of = [numbers[name] for name in words[::wide]]
            serials = list(map(int, words[wide - 1::wide]))
            columns = [list(map(float, words[1 + axis::wide])) for axis in range(self.dims)]
            order = sorted(range(len(of)), key=of.__getitem__)
            moment, start = [], 0
            for count in counts:
                kept = order[start:start + count]
                moment.append((array("Q", [serials[at] for at in kept]), [array("d", [column[at] for at in kept]) for column in columns]))
                start += count
            self.times.append(time.decode())
            self.counts.append(counts)
            self.molecules.append(self._fewer(moment))
        self.molecules = [self._chosen(moment) for moment in self.molecules]

    def _fewer(self, moment):
        """The molecules of a moment that are chosen, from now on fewer than before where it has too many."""
        moment = self._chosen(moment)
        if sum(len(serials) for serials, _ in moment) > self.most:
            self.below = sorted(key_of(serial) for serials, _ in moment for serial in serials)[self.most]
            moment = self._chosen(moment)
        return moment

    def _chosen(self, moment):
        """The molecules of a moment that are chosen by now."""
        if self.below == KEYS:
            return moment
        chosen = []
        for serials, columns in moment:
            is_kept = [key_of(serial) < self.below for serial in serials]
            chosen.append((array("Q", itertools.compress(serials, is_kept)),
                           [array("d", itertools.compress(column, is_kept)) for column in columns]))
        return chosen

    def packed(self):
        """What a page is given of them.

        `places` are the coordinates of all molecules, moment by moment and species by species, `shown` of each, as whole numbers of
        16 bits, the lower byte first, compressed by zlib and written in base64: 0 stands for the coordinate in `low` and 65,535 for
        that in `high`. On one axis a second coordinate tells molecules apart; it is chosen by the serial and has no meaning.
        """
        low, high = [], []
        for axis in range(self.dims):
            all_columns = [columns[axis] for moment in self.molecules for _, columns in moment if columns[axis]]
            low.append(min(map(min, all_columns), default=0.0))
            high.append(max(map(max, all_columns), default=0.0))
        packer = zlib.compressobj(1)
        packed = b"".join(packer.compress(self._whole(serials, columns, low, high))
                          for moment in self.molecules for serials, columns in moment)
        return {"times": self.times, "counts": self.counts, "shown": [[len(serials) for serials, _ in moment] for moment in self.molecules],
                "low": low, "high": high, "places": base64.b64encode(packed + packer.flush()).decode()}

    def _whole(self, serials, columns, low, high):
        """The coordinates of these molecules as whole numbers, molecule by molecule."""
        whole_columns = []
        for column, least, most in zip(columns, low, high):
            scale = FINEST / ((most - least) or 1)
            whole_columns.append([int((place - least) * scale + 0.5) for place in column])
        if self.dims == 1:
            whole_columns.append([key_of(serial) >> 16 for serial in serials])
        whole = array("H", bytes(2 * len(whole_columns) * len(serials)))
        for axis, column in enumerate(whole_columns):
            whole[axis::len(whole_columns)] = array("H", column)
        return little_endian(whole).tobytes()


def little_endian(whole):
    if array("H", [1]).tobytes() == b"\0\1":
        whole.byteswap()
    return whole


def key_of(serial):
    """A number below 2^32 for a serial, spread evenly: whichever serials a species has, a share of them has keys below that share."""
    return serial * 0x9E3779B1 % KEYS


def copied(contents):
    """The lines of a configuration, with names of output files that stay in the folder in which it is run.

    A slash in a word of `output_files` and `cmd` is written `%2F` and a percent sign `%25`; no other word of these statements means
    anything that has one.
    """
    for _, line, words in lines_read(contents):
        yield line.replace(b"%", b"%25").replace(b"/", b"%2F") if words and words[0] in ("output_files", "cmd") else line


def listing(every, outlet):
    """The lines that list the molecules at each step that a number divides, and at the end."""
    yield f"output_files {outlet}".encode()
    for when in (f"n {every}", "a"):
        yield f"cmd {when} molcount {outlet}".encode()
        yield f"cmd {when} listmols {outlet}".encode()


def run(program, contents, seed, frames, every=None):
    """Runs the copy of a configuration, with the lines that list its molecules where a number of steps is given."""
    reader, writer = os.pipe()
    with open(reader, "rb") as lines, tempfile.TemporaryDirectory(prefix="smol-") as room, tempfile.TemporaryFile() as told:
        with open(writer, "wb") as end:
            text = [*copied(contents), *(listing(every, f"/dev/fd/{end.fileno()}") if every else [])]
            path = os.path.join(room, "%configuration")  # a name that no output file has
            with open(path, "wb") as file:
                file.write(b"".join(line + b"\n" for line in text))
            words = [program, path] + ([] if seed is None else ["--seed", str(seed)])
            child = subprocess.Popen(words, cwd=room, stdin=subprocess.DEVNULL, stdout=subprocess.DEVNULL, stderr=told,
                                     pass_fds=[end.fileno()], restore_signals=False)
        try:
            frames.read(lines)
            status = child.wait()
        finally:
            child.kill()
            child.wait()
        told.seek(0)
        refusal = told.read().decode(errors="replace").rstrip("\n").rpartition("\n")[2]
        return Run(status, refusal, frames)
