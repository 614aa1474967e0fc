"""Runs smol, the simulator of reaction and diffusion, from Python.

    import smol

    result = smol.run("examples/enzyme.txt", seed=1)
    table = result.counts("enzyme_counts.txt")
    table["time"], table["E"]           # lists: times as floats, counts as integers

The module needs the standard library alone. Where numpy and pandas are there, tables and lists of molecules are given as arrays and
frames too (`Counts.arrays`, `Counts.frame`, `Frame.arrays`); where tqdm is there, `sweep` shows its progress with it.

Lengths and times have the units of the configuration: smol knows of no others. Counts are whole numbers of molecules.

The program is, in this order: what the environment's `SMOL` names; an executable `smol` beside this module; the program of the
repository in which this module lies, once `./smol` has built it; `smol` on the path.
"""

from __future__ import annotations

import concurrent.futures
import functools
import itertools
import numbers
import os
import pathlib
import re
import shutil
import string
import subprocess
import sys
import tempfile
import threading
from collections.abc import Callable, Iterable, Iterator, Mapping, Sequence
from dataclasses import dataclass, field
from typing import IO, TYPE_CHECKING, Any, Optional, Union

if TYPE_CHECKING:
    import numpy
    import pandas

__all__ = [
    "ConfigurationError", "Counts", "Frame", "InputError", "MemoryRanOutError", "Outcome", "OutputError", "ProgramNotFoundError",
    "Result", "SmolError", "TooManyMoleculesError", "UsageError", "frames_in", "program", "run", "statements", "sweep", "with_",
]

Path = Union[str, "os.PathLike[str]"]

Source = Union[str, "os.PathLike[str]"]
"""A configuration: a path, or its text. A `str` that holds a line feed is text; any other `str` and every `os.PathLike` is a path."""


# What can go wrong


class SmolError(Exception):
    """A run that didn't end with status 0, or a program that isn't there.

    Attributes:
        status: the exit status, 1 to 6; -N where signal N ended the program; None where it was not run.
        kind: what is wrong, in the program's words ("unknown name"), or in this module's where the program says nothing.
        line: the number of the line at fault, from 1; 0 where the program means the whole file; None where no line is.
        text: that line as it stands in the configuration, without its end; "" where there is none.
        result: what the program printed and wrote until then; None where it was not run.
    """

    def __init__(self, kind: str, status: Optional[int] = None, line: Optional[int] = None, text: str = "",
                 result: Optional[Result] = None):
        super().__init__(kind, status, line, text, result)
        self.kind, self.status, self.line, self.text, self.result = kind, status, line, text, result

    def __reduce__(self) -> tuple[Any, ...]:
        return type(self), (self.kind, self.status, self.line, self.text, self.result)

    def __str__(self) -> str:
        place = "" if self.line is None else f"line {self.line}: "
        return place + self.kind + (f": {self.text!r}" if self.text else "")


class ProgramNotFoundError(SmolError, FileNotFoundError):
    """There is no program to run: `SMOL` names none, none is built, and none is on the path."""


class UsageError(SmolError, ValueError):
    """Status 1: the words of the call are refused, such as a seed below 0 or more than 16 workers."""


class ConfigurationError(SmolError, ValueError):
    """Status 2: the configuration is refused, or a molecule has no place in its compartment. `line` and `text` say where."""


class InputError(SmolError, OSError):
    """Status 3: the configuration could not be opened or read."""


class OutputError(SmolError, OSError):
    """Status 4: an output file, standard output or standard error could not be opened or written."""


class MemoryRanOutError(SmolError, MemoryError):
    """Status 5: the program's memory ran out."""


class TooManyMoleculesError(SmolError):
    """Status 6: there were more molecules than `max_mol`. `step` is the step's number; `result` has what was printed until then."""

    @property
    def step(self) -> int:
        return int(re.search(r"step (\d+)", self.kind)[1])


_ERRORS: dict[int, tuple[type[SmolError], str]] = {
    1: (UsageError, "the words of the call are refused"),
    2: (ConfigurationError, "the configuration is refused"),
    3: (InputError, "the configuration could not be opened or read"),
    4: (OutputError, "standard output, standard error or an output file could not be opened or written"),
    5: (MemoryRanOutError, "memory ran out"),
    6: (TooManyMoleculesError, "more than max_mol molecules"),
}


def _error_of(source: Source, status: int, result: Result) -> SmolError:
    """The exception for a run that ended with this status."""
    kind_of_error, kind = _ERRORS.get(status, (SmolError, f"the program ended with {status}"))
    if status < 0:
        kind = f"signal {-status} ended the program"
    last = result.stderr.rstrip("\n").rpartition("\n")[2]
    line, text = None, ""
    if status == 2:
        told = re.fullmatch(r"line (\d+): (.*)", last)
        line, kind = int(told[1]), told[2]
        text = _line_of(_bytes_of(source), line)
    elif status == 6:
        kind = last
    return kind_of_error(kind, status, line, text, result)


# Configurations


def _is_text(source: Source) -> bool:
    return isinstance(source, str) and "\n" in source


def _bytes_of(source: Source) -> bytes:
    """The bytes of a configuration; none where it can't be read."""
    if _is_text(source):
        return source.encode()
    try:
        return pathlib.Path(source).read_bytes()
    except OSError:
        return b""


def _line_of(contents: bytes, number: int) -> str:
    lines = contents.split(b"\n")
    return lines[number - 1].rstrip(b"\r").decode(errors="replace") if 0 < number <= len(lines) else ""


def lines_read(contents: bytes) -> Iterator[tuple[int, bytes, list[str]]]:
    """Each line of a configuration up to that of `end_file`: its number, from 1, its bytes, and the words of the statement that it
    makes, of which there are none where it is empty or part of a comment."""
    in_comment = False
    lines = contents.split(b"\n")
    for number, line in enumerate(lines[:-1] if lines[-1] == b"" else lines, 1):
        words = line.partition(b"#")[0].decode(errors="replace").split()
        first = words[0] if words else ""
        if first == "end_file" and not in_comment:
            return
        opens = first == "/*" and not in_comment
        yield number, line, [] if in_comment or opens else words
        in_comment = opens or (in_comment and first != "*/")


def statements(contents: bytes) -> Iterator[tuple[int, list[str]]]:
    """The number, from 1, and the words of each line of a configuration that makes a statement. Comments are left out."""
    return ((number, words) for number, _, words in lines_read(contents) if words)


def _names_of(contents: bytes, statement: str) -> list[str]:
    """The names that the lines of this statement give, in their order: `species` or `output_files`."""
    return [name for _, words in statements(contents) if words[0] == statement for name in words[1:]]


def _spelled(value: object) -> str:
    if isinstance(value, numbers.Integral):
        return str(int(value))
    if isinstance(value, numbers.Real):
        return f"{float(value):.12g}"
    return str(value)


def with_(source: Source, **values: object) -> str:
    """The text of a configuration with values in place of its parameters, which it names `$name` or `${name}`.

    Args:
        source: the configuration, a path or its text. `$$` in it stands for one dollar sign.
        values: a value for each parameter. Whole numbers are written as they are, other numbers with twelve significant digits (so
            that 0.1 + 0.2 is written 0.3), everything else by `str`. smol takes lengths with at most six decimals, times, diffusion
            coefficients and probabilities with nine, and refuses what is finer: round before.

    Raises:
        ValueError: a parameter has no value, a value no parameter, or a dollar sign stands alone.
        OSError: the path can't be read.

    >>> print(with_("difc A $D\\ntime_step $dt\\n", D=1, dt=0.1 + 0.2), end="")
    difc A 1
    time_step 0.3
    """
    text = source if _is_text(source) else pathlib.Path(source).read_text(encoding="utf-8")
    template = string.Template(text)
    unused = values.keys() - {match["named"] or match["braced"] for match in template.pattern.finditer(text)}
    if unused:
        raise ValueError(f"no parameter of the configuration is named {', '.join(sorted(unused))}")
    try:
        return template.substitute({name: _spelled(value) for name, value in values.items()})
    except KeyError as missing:
        raise ValueError(f"the parameter {missing.args[0]} has no value") from None


# What a run gives


@dataclass(frozen=True)
class Counts(Mapping[str, list]):
    """A table of counts over time: a mapping from a column's name to its numbers, one for each line that was printed.

    The column `time` has floats, each other column integers: how many molecules of the species that it is named after.
    """

    columns: dict[str, list]

    def __getitem__(self, name: str) -> list:
        return self.columns[name]

    def __iter__(self) -> Iterator[str]:
        return iter(self.columns)

    def __len__(self) -> int:
        return len(self.columns)

    def arrays(self) -> dict[str, numpy.ndarray]:
        """The columns as arrays of shape (lines,): `time` of float64, the others of int64.

        Raises:
            ImportError: numpy isn't there.
        """
        import numpy
        return {name: numpy.array(column, float if name == "time" else numpy.int64) for name, column in self.items()}

    def frame(self) -> pandas.DataFrame:
        """The table as a frame of pandas, with `time` as its index and a column for each species.

        Raises:
            ImportError: pandas isn't there.
        """
        import pandas
        return pandas.DataFrame(self.columns).set_index("time")


@dataclass(frozen=True)
class Frame:
    """The molecules of one list that `listmols` printed, in the order of their serials.

    Attributes:
        head: the line of another kind that stands before the list, such as one of `molcount` or `echo`; "" where none does.
        species: the species of each molecule.
        positions: its coordinates, in length units: a tuple of one to three floats, one for each axis in use.
        serials: its serial, which no other molecule of the run has.
    """

    head: str = ""
    species: list[str] = field(default_factory=list)
    positions: list[tuple[float, ...]] = field(default_factory=list)
    serials: list[int] = field(default_factory=list)

    def __len__(self) -> int:
        return len(self.serials)

    def arrays(self) -> tuple[numpy.ndarray, numpy.ndarray, numpy.ndarray]:
        """Species, positions and serials as arrays of shapes (n,), (n, axes) and (n,), of `str`, float64 and int64.

        Raises:
            ImportError: numpy isn't there.
        """
        import numpy
        axes = len(self.positions[0]) if self.positions else 0
        return (numpy.array(self.species, str), numpy.array(self.positions, float).reshape(len(self), axes),
                numpy.array(self.serials, numpy.int64))


def frames_in(lines: Iterable[str]) -> Iterator[Frame]:
    """The lists of molecules among printed lines.

    A list begins behind each line of another kind, so such a line with no molecule behind it gives an empty list. It also begins
    where serials don't rise, so two lists that follow one another directly are told apart.
    """
    frame = None
    for line in lines:
        words = line.split()
        if words and words[0].endswith("(solution)"):
            serial = int(words[-1])
            if frame is None or (frame.serials and serial <= frame.serials[-1]):
                if frame is not None:
                    yield frame
                frame = Frame()
            frame.species.append(words[0][:-len("(solution)")])
            frame.positions.append(tuple(map(float, words[1:-1])))
            frame.serials.append(serial)
        else:
            if frame is not None:
                yield frame
            frame = Frame(line.rstrip("\n"))
    if frame is not None:
        yield frame


class _FilesOf(Mapping[str, str]):
    """The output files of a run that stay in a folder: each is read when it is asked for."""

    def __init__(self, folder: str, names: Sequence[str]):
        self._folder, self._names = folder, list(names)

    def __getitem__(self, name: str) -> str:
        if name not in self._names:
            raise KeyError(name)
        return pathlib.Path(self._folder, name).read_bytes().decode(errors="replace")

    def __iter__(self) -> Iterator[str]:
        return iter(self._names)

    def __len__(self) -> int:
        return len(self._names)


@dataclass(frozen=True)
class Result:
    """What a run gave.

    Attributes:
        status: the exit status of the program: 0, but for the `result` of an exception.
        stdout: what was printed on standard output.
        stderr: what was printed on standard error.
        files: what was written to each output file, by the name that the configuration gives it.
        species: the names of the species, in the order of the configuration.
    """

    status: int
    stdout: str
    stderr: str
    files: Mapping[str, str]
    species: Sequence[str]

    def _printed(self, file: Optional[str]) -> str:
        return self.stdout if file is None else self.files[file]

    def counts(self, file: Optional[str] = None) -> Counts:
        """The table that `molcountheader`, `molcount` and `molcountincmpt` printed to an output file, or to standard output.

        The table is the lines behind that of `molcountheader` which have as many numbers as there are columns; lines of other
        kinds are passed over. Where there is no such header, the columns are `time` and the configuration's species. Print one
        table to a place, and `molpos` to another: its lines can't be told from those of counts.

        Args:
            file: the name of an output file; None for standard output.

        Raises:
            KeyError: the run has no such file.
            ValueError: no line of counts is there, or there are two headers.
        """
        rows = [line.split() for line in self._printed(file).splitlines()]
        headers = [at for at, row in enumerate(rows) if row[:1] == ["time"]]
        if len(headers) > 1:
            raise ValueError("two tables of counts are printed to one place")
        names = rows[headers[0]] if headers else ["time", *self.species]
        table = [row for row in rows[headers[0] + 1 if headers else 0:] if len(row) == len(names) and _are_counts(row)]
        if not table and not headers:
            raise ValueError("no line of counts is printed there")
        columns: dict[str, list] = {name: [int(row[at]) for row in table] for at, name in enumerate(names) if at}
        return Counts({"time": [float(row[0]) for row in table], **columns})

    def molecules(self, file: Optional[str] = None) -> list[Frame]:
        """The lists that `listmols` printed to an output file, or to standard output, in their order.

        A list begins behind each line of another kind, which becomes its `head`: let `molcount` or `echo` print one before each
        list. Such lines with no molecule behind them give empty lists.

        Args:
            file: the name of an output file; None for standard output.

        Raises:
            KeyError: the run has no such file.
        """
        return list(frames_in(self._printed(file).splitlines()))


def _are_counts(row: Sequence[str]) -> bool:
    return re.fullmatch(r"-?\d+(\.\d+)?", row[0]) is not None and all(word.isdecimal() for word in row[1:])


# Runs


@functools.lru_cache(maxsize=None)
def _built_in(root: pathlib.Path) -> str:
    """The program of the repository in this folder, where it is whole and built from the sources as they stand.

    Raises:
        FileNotFoundError, subprocess.CalledProcessError: it isn't. That is looked at anew by the next call.
    """
    subprocess.run([root / "bin" / "mark", "is-built"], stdin=subprocess.DEVNULL, check=True)
    return str(root / "crates" / "smol_app" / "out" / "smol_app")


def program() -> str:
    """The path of the program that `run` runs; the module's text says where it is looked for.

    Raises:
        ProgramNotFoundError: there is none. The message says what to do.
    """
    named = os.environ.get("SMOL")
    if named:
        found = shutil.which(named)
        if found is None:
            raise ProgramNotFoundError(f"SMOL names no program: {named!r}")
        return found
    here = pathlib.Path(__file__).resolve().parent
    beside = shutil.which(str(here / "smol"))
    if beside is not None:
        return beside
    try:
        return _built_in(here.parent)
    except (FileNotFoundError, subprocess.CalledProcessError):
        found = shutil.which("smol")
    if found is None:
        raise ProgramNotFoundError("there is no program: run ./smol in the repository once, which builds it, or let SMOL name it")
    return found


class _Children:
    """The programs that are running for one call, so that all of them can be ended."""

    def __init__(self) -> None:
        self._lock = threading.Lock()
        self._running: set[subprocess.Popen] = set()
        self._is_over = False

    def run(self, words: Sequence[str], folder: str, stdout: IO[bytes], stderr: IO[bytes]) -> int:
        """Runs a program in a folder to its end, and gives its status. It is gone when this call has ended, however that ends."""
        with self._lock:
            if self._is_over:
                raise concurrent.futures.CancelledError
            # Signals that Python ignores stay ignored: a file that may not grow is a failed write, status 4, and no signal.
            child = subprocess.Popen(words, cwd=folder, stdin=subprocess.DEVNULL, stdout=stdout, stderr=stderr, restore_signals=False)
            self._running.add(child)
        try:
            return child.wait()
        finally:
            child.kill()
            child.wait()
            with self._lock:
                self._running.discard(child)

    def end(self) -> None:
        """Ends all that run, and lets no other begin."""
        with self._lock:
            self._is_over = True
            for child in self._running:
                child.kill()


def _make_folders(folder: str, names: Iterable[str]) -> None:
    """Makes the folders in a folder that relative names of output files ask for."""
    for name in names:
        parts = pathlib.PurePosixPath(name)
        if not parts.is_absolute() and ".." not in parts.parts:
            pathlib.Path(folder, parts.parent).mkdir(parents=True, exist_ok=True)


def _run(source: Source, seed: Optional[int], workers: Optional[int], files: Optional[Path], children: _Children) -> Result:
    words = [program()]
    for word, value in [("--seed", seed), ("--workers", workers)]:
        words += [] if value is None else [word, str(value)]
    with tempfile.TemporaryDirectory(prefix="smol-") as room, tempfile.TemporaryFile() as stdout, tempfile.TemporaryFile() as stderr:
        if _is_text(source):
            path = os.path.join(room, "configuration")
            pathlib.Path(path).write_bytes(source.encode())
        else:
            path = os.path.abspath(source)
        contents = _bytes_of(source)
        names = [name for name in dict.fromkeys(_names_of(contents, "output_files")) if name not in ("stdout", "stderr")]
        if files is None:
            folder = os.path.join(room, "files")
            os.mkdir(folder)
            _make_folders(folder, names)
        else:
            folder = os.path.abspath(files)
            os.makedirs(folder, exist_ok=True)
        status = children.run([*words, path], folder, stdout, stderr)
        printed = []
        for stream in (stdout, stderr):
            stream.seek(0)
            printed.append(stream.read().decode(errors="replace"))
        is_opened = status not in (1, 2, 3)
        written: Mapping[str, str] = _FilesOf(
            folder, [name for name in names if is_opened and os.path.isfile(os.path.join(folder, name))])
        if files is None:
            written = dict(written)
    result = Result(status, *printed, written, list(dict.fromkeys(_names_of(contents, "species"))))
    if status:
        raise _error_of(source, status, result)
    return result


def run(source: Source, seed: Optional[int] = None, workers: Optional[int] = None, files: Optional[Path] = None) -> Result:
    """Runs a configuration to its end.

    Args:
        source: the configuration: its text, or a path. A `str` that holds a line feed is text.
        seed: the seed of the random words, from 0 to 2^64 - 1; None for that of the configuration, and 0 where it has none.
        workers: how many workers decide reacting pairs, 1 to 16; None for one. It changes nothing of what is printed.
        files: the folder in which the program is run and its output files stay; it is made where it isn't there. None for a
            temporary one, in which the folders that names of output files ask for are made.

    Returns:
        What was printed and written. The same configuration and seed give the same on every machine.

    Raises:
        UsageError, ConfigurationError, InputError, OutputError, MemoryRanOutError, TooManyMoleculesError: the program ended with
            status 1 to 6.
        ProgramNotFoundError: there is no program.
        SmolError: the program ended in another way, as by a signal.

    Where the call is interrupted, the program is ended before it leaves.
    """
    return _run(source, seed, workers, files, _Children())


# Many runs


@dataclass(frozen=True)
class Outcome:
    """What became of one run of a sweep: `result` where it ended with status 0, else `error`; the other is None.

    Attributes:
        parameters: the values that `with_` put into the text; empty where none were given.
        seed: the seed of the run; None for that of the configuration.
        result: what the run gave.
        error: the exception with which `run` would have ended.
    """

    parameters: Mapping[str, object]
    seed: Optional[int]
    result: Optional[Result] = None
    error: Optional[SmolError] = None


def _outcome(source: Source, parameters: Mapping[str, object], seed: Optional[int], workers: Optional[int],
             children: Optional[_Children] = None) -> Outcome:
    """One run of a sweep. It is a function of the module, so that an executor can send it to another process or machine."""
    try:
        return Outcome(parameters, seed, result=_run(source, seed, workers, None, children or _Children()))
    except SmolError as error:
        return Outcome(parameters, seed, error=error)


def _progress(total: int) -> tuple[Callable[[], object], Callable[[], object]]:
    """What to call after each run, and at the end. At a terminal they tell on standard error how many runs have ended."""
    if not sys.stderr.isatty():
        return (lambda: None), (lambda: None)
    try:
        import tqdm
    except ImportError:
        ended = itertools.count(1)
        return (lambda: print(f"\r{next(ended)} of {total} runs", end="", file=sys.stderr, flush=True)), (lambda: print(file=sys.stderr))
    bar = tqdm.tqdm(total=total, unit="run", file=sys.stderr)
    return bar.update, bar.close


def sweep(source: Source, seeds: Iterable[Optional[int]] = (None,), parameters: Iterable[Mapping[str, object]] = ({},),
          processes: Optional[int] = None, *, workers: Optional[int] = None,
          executor: Optional[concurrent.futures.Executor] = None) -> list[Outcome]:
    """Runs a configuration once for each seed of each set of parameters, side by side.

    Args:
        source: the configuration, a path or its text, with its parameters written as `with_` takes them.
        seeds: the seeds, such as `range(1, 101)`; None among them stands for the configuration's own.
        parameters: a mapping from names to values for each set, such as `[{"k": 0.1}, {"k": 0.2}]`; `with_` puts them in.
        processes: how many runs go on at once; None for as many as there are processors. It is of no use beside an executor.
        workers: as `run` takes it.
        executor: an executor of `concurrent.futures`, or one that acts like it, which makes the runs in place of threads of this
            process: `dask.distributed.Client(..).get_executor()`, `mpi4py.futures.MPIPoolExecutor()`. This module and the program
            must be there where it makes them. It is left open.

    Returns:
        An outcome for each run: all seeds of the first set in their order, then those of the second, and so on, whatever ended
        first. A run that was refused or ended early is kept as its exception, and the others go on.

    Raises:
        ValueError: a parameter has no value, or a value no parameter. Nothing is run then.
        ProgramNotFoundError: there is no program on this machine, where no executor was given. Nothing is run then.

    Where the call is interrupted, what waits is given up and the programs that run are ended before it leaves; an executor of the
    caller's finishes the runs that it has begun.

    At a terminal standard error tells how many runs have ended.
    """
    sets, seeds = [dict(values) for values in parameters], list(seeds)
    texts = [with_(source, **values) if values else source for values in sets]
    asked = [(text, values, seed, workers) for text, values in zip(texts, sets) for seed in seeds]
    if executor is not None:
        return _in_order(executor, asked)
    program()
    children = _Children()
    with concurrent.futures.ThreadPoolExecutor(processes or len(os.sched_getaffinity(0))) as threads:
        try:
            return _in_order(threads, [(*call, children) for call in asked])
        except BaseException:
            children.end()
            raise


def _in_order(executor: concurrent.futures.Executor, calls: Sequence[tuple[Any, ...]]) -> list[Outcome]:
    """The outcomes of these calls in their order. What hasn't begun is given up where it is interrupted."""
    futures = [executor.submit(_outcome, *call) for call in calls]
    tell, end = _progress(len(futures))
    try:
        for _ in concurrent.futures.as_completed(futures):
            tell()
        return [future.result() for future in futures]
    except BaseException:
        for future in futures:
            future.cancel()
        raise
    finally:
        end()
