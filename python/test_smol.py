"""Tests of the module `smol`, with the program of the repository or the one that SMOL names: python3 -m unittest, in this folder."""
import concurrent.futures
import contextlib
import doctest
import io
import os
import pathlib
import pickle
import signal
import stat
import subprocess
import sys
import tempfile
import textwrap
import time
import unittest
from unittest import mock

import smol

HERE = pathlib.Path(__file__).resolve().parent
EXAMPLES = HERE.parent / "examples"
BOX = "dim 1\nspecies A\nboundaries x 0 10 r\ntime_stop 2\ntime_step 1\n"
DOUBLING = BOX + "max_mol $most\nmol 1 A 5\nreaction double A -> A + A\nreaction_probability double 1\ncmd e molcount stdout\n"
LONG = BOX.replace("time_stop 2", "time_stop 4000000") + "difc A 1\nmol 1000 A 5\n"


def has(module):
    try:
        __import__(module)
    except ImportError:
        return False
    return True


def load_tests(loader, tests, pattern):
    tests.addTests(doctest.DocTestSuite(smol))
    return tests


class Folder(unittest.TestCase):
    """A test with a folder of its own."""

    def setUp(self):
        self.folder = pathlib.Path(self.enterContext(tempfile.TemporaryDirectory())) if sys.version_info >= (3, 11) else self._folder()

    def _folder(self):
        room = tempfile.TemporaryDirectory()
        self.addCleanup(room.cleanup)
        return pathlib.Path(room.name)

    def script(self, text):
        """A program that is a script."""
        path = self.folder / "program"
        path.write_text("#!/bin/bash\n" + text)
        path.chmod(path.stat().st_mode | stat.S_IXUSR)
        return str(path)


class Runs(Folder):
    def test_a_path(self):
        for path in [EXAMPLES / "count.txt", str(EXAMPLES / "count.txt")]:
            result = smol.run(path)
            self.assertEqual((result.status, result.stdout, result.stderr, dict(result.files)), (0, "0 3\n1 3\n", "", {}))

    def test_a_text(self):
        self.assertEqual(smol.run((EXAMPLES / "count.txt").read_text()).stdout, "0 3\n1 3\n")

    def test_a_path_is_taken_from_the_folder_of_the_caller(self):
        with contextlib.chdir(EXAMPLES) if hasattr(contextlib, "chdir") else self.skipTest("wants Python 3.11"):
            self.assertEqual(smol.run("count.txt").stdout, "0 3\n1 3\n")

    def test_seed_and_workers(self):
        one, two = (smol.run(EXAMPLES / "spread.txt", seed=seed) for seed in (1, 2))
        self.assertNotEqual(one.stdout, two.stdout)
        self.assertEqual(one.stdout, smol.run(EXAMPLES / "spread.txt").stdout)  # the seed of the file is 1
        self.assertEqual(two.stdout, smol.run(EXAMPLES / "spread.txt", seed=2, workers=3).stdout)
        smol.run(EXAMPLES / "count.txt", seed=2**64 - 1)

    def test_files(self):
        result = smol.run(EXAMPLES / "table.txt")
        self.assertEqual(list(result.files), ["counts.txt", "places.txt"])
        self.assertEqual(result.files["counts.txt"].splitlines()[0], "time A B")

    def test_files_stay_in_a_folder(self):
        result = smol.run(EXAMPLES / "table.txt", files=self.folder / "new")
        self.assertEqual(sorted(os.listdir(self.folder / "new")), ["counts.txt", "places.txt"])
        self.assertEqual(result.files["counts.txt"], (self.folder / "new/counts.txt").read_text())
        with self.assertRaises(KeyError):
            result.files["other.txt"]

    def test_files_in_folders_of_a_temporary_one(self):
        text = BOX + 'output_files a/b/c "<&>" stdout\ncmd b echo a/b/c "x\\n"\ncmd b echo "<&>" "y"\n'
        self.assertEqual(smol.run(text).files, {"a/b/c": "x\n", '"<&>"': "y"})

    def test_odd_names_of_a_path(self):
        path = self.folder / 'a "b" <c> & é\n.txt'
        path.write_text((EXAMPLES / "count.txt").read_text())
        self.assertEqual(smol.run(path).stdout, "0 3\n1 3\n")

    def test_a_file_may_have_the_name_of_anything(self):
        self.assertEqual(smol.run(BOX + 'output_files configuration\ncmd b echo configuration "x"\n').files, {"configuration": "x"})


class Faults(Folder):
    def fault(self, kind, *words, **more):
        with self.assertRaises(kind) as caught:
            smol.run(*words, **more)
        again = pickle.loads(pickle.dumps(caught.exception))
        self.assertEqual((type(again), str(again), again.status), (kind, str(caught.exception), caught.exception.status))
        return caught.exception

    def test_1_words(self):
        for more in [{"seed": -1}, {"seed": 2**64}, {"workers": 17}, {"workers": 0}]:
            error = self.fault(smol.UsageError, EXAMPLES / "count.txt", **more)
            self.assertEqual((error.status, error.line, error.text), (1, None, ""))
            self.assertTrue(error.result.stderr.startswith("usage: "))

    def test_2_a_refused_configuration(self):
        error = self.fault(smol.ConfigurationError, BOX + "mol 3 <B>&é 5\n")
        self.assertEqual((error.status, error.kind, error.line, error.text), (2, "byte not allowed", 6, "mol 3 <B>&é 5"))
        error = self.fault(smol.ConfigurationError, BOX + "mol 3 B 5\r\n")
        self.assertEqual((error.kind, error.line, error.text, str(error)),
                         ("unknown name", 6, "mol 3 B 5", "line 6: unknown name: 'mol 3 B 5'"))
        self.assertIsInstance(error, ValueError)

    def test_2_the_whole_file(self):
        error = self.fault(smol.ConfigurationError, "dim 3\n")
        self.assertEqual((error.kind, error.line, error.text), ("boundaries x is missing", 0, ""))

    def test_2_no_place(self):
        text = BOX + "start_surface s\npanel rect +x 10\nend_surface\nstart_compartment c\nsurface s\npoint 20\nend_compartment\n"
        error = self.fault(smol.ConfigurationError, text + "compartment_mol 1 A c\n")
        self.assertEqual((error.kind, error.line, error.text), ("no place found for molecule 1", 13, "compartment_mol 1 A c"))

    def test_2_a_path(self):
        (self.folder / "f").write_text("dim 3\nbogus\n")
        self.assertEqual(self.fault(smol.ConfigurationError, self.folder / "f").text, "bogus")

    def test_3_no_file(self):
        for path in ["nowhere.txt", self.folder]:
            error = self.fault(smol.InputError, path)
            self.assertEqual(error.status, 3)
            self.assertIsInstance(error, OSError)

    def test_4_no_folder(self):
        error = self.fault(smol.OutputError, BOX + f"output_files {self.folder}/nowhere/f\n")
        self.assertEqual(error.status, 4)

    def test_4_a_file_that_may_not_grow(self):
        with mock.patch.dict(os.environ, SMOL=self.script(f'ulimit -f 0; exec "{smol.program()}" "$@"')):
            error = self.fault(smol.OutputError, BOX + 'output_files f\ncmd b echo f "x"\n')
        self.assertEqual((error.status, dict(error.result.files)), (4, {"f": ""}))

    def test_5_no_memory(self):
        with mock.patch.dict(os.environ, SMOL=self.script(f'ulimit -v 12000; exec "{smol.program()}" "$@"')):
            error = self.fault(smol.MemoryRanOutError, BOX + "max_mol 1000000\nmol 1000000 A 5\n")
        self.assertEqual(error.status, 5)
        self.assertIsInstance(error, MemoryError)

    def test_6_too_many_molecules(self):
        error = self.fault(smol.TooManyMoleculesError, smol.with_(DOUBLING, most=3))
        self.assertEqual((error.status, error.step, error.result.stdout), (6, 2, "0 1\n1 2\n"))
        self.assertEqual(error.result.counts()["A"], [1, 2])

    def test_a_signal(self):
        with mock.patch.dict(os.environ, SMOL=self.script("kill -KILL $$")):
            error = self.fault(smol.SmolError, BOX)
        self.assertEqual((error.status, error.kind), (-9, "signal 9 ended the program"))

    def test_no_program(self):
        with mock.patch.dict(os.environ, SMOL=str(self.folder / "nothing")):
            error = self.fault(smol.ProgramNotFoundError, BOX)
            self.assertEqual((error.status, error.result), (None, None))
            self.assertIsInstance(error, FileNotFoundError)
            with self.assertRaises(smol.ProgramNotFoundError):
                smol.sweep(BOX, [1, 2])


class Programs(Folder):
    """The module in a folder of its own, beside which nothing is built."""

    def found(self, **environment):
        (self.folder / "module").mkdir(exist_ok=True)
        (self.folder / "module/smol.py").write_text((HERE / "smol.py").read_text())
        call = "import smol\ntry: print(smol.program())\nexcept smol.ProgramNotFoundError as error: print('none:', error)"
        return subprocess.run([sys.executable, "-c", call], cwd=self.folder / "module", text=True, capture_output=True, check=True,
                              env={"PATH": "/usr/bin:/bin", **environment}).stdout.strip()

    def test_none(self):
        self.assertTrue(self.found().startswith("none: "))

    def test_in_their_order(self):
        program = self.script("exit 0")
        os.makedirs(self.folder / "path")
        os.link(program, self.folder / "path/smol")
        path = f"{self.folder}/path:/usr/bin:/bin"
        self.assertEqual(self.found(PATH=path), f"{self.folder}/path/smol")
        os.link(program, self.folder / "module/smol")
        self.assertEqual(self.found(PATH=path), f"{self.folder}/module/smol")
        self.assertEqual(self.found(PATH=path, SMOL=program), program)


class Texts(unittest.TestCase):
    def test_statements(self):
        text = b'# 1\n a b # c\r\n/* x\nd\n*/ e\n\nf "g"\nend_file\nh\n'
        self.assertEqual(list(smol.statements(text)), [(2, ["a", "b"]), (7, ["f", '"g"'])])
        self.assertEqual(list(smol.statements(b"a\n/*x\n*/x\nb")), [(1, ["a"]), (2, ["/*x"]), (3, ["*/x"]), (4, ["b"])])
        self.assertEqual([number for number, _, _ in smol.lines_read(b"/*\nend_file\n*/\nend_file\n")], [1, 2, 3])

    def test_with(self):
        self.assertEqual(smol.with_("a $b ${c}d $$\n", b=3, c=0.1 + 0.2), "a 3 0.3d $\n")
        self.assertEqual(smol.with_("$a $b $c\n", a=1e-7, b="r", c=True), "1e-07 r 1\n")
        for text, values in [("$a\n", {}), ("a\n", {"a": 1}), ("$ a\n", {})]:
            with self.assertRaises(ValueError):
                smol.with_(text, **values)

    def test_with_a_path(self):
        self.assertEqual(smol.with_(EXAMPLES / "count.txt"), (EXAMPLES / "count.txt").read_text())
        with self.assertRaises(OSError):
            smol.with_("nowhere.txt")


class Tables(unittest.TestCase):
    def result(self, stdout, species=("A", "B")):
        return smol.Result(0, stdout, "", {"f": stdout}, list(species))

    def test_with_a_header(self):
        table = self.result("hello\ntime B A\n0 1 2\nA(solution) 1 1\n0.5 3 4\n7\n").counts()
        self.assertEqual(dict(table), {"time": [0.0, 0.5], "B": [1, 3], "A": [2, 4]})
        self.assertEqual((len(table), list(table), table["A"]), (3, ["time", "B", "A"], [2, 4]))

    def test_without_a_header(self):
        self.assertEqual(dict(self.result("-0.5 1 2\n").counts("f")), {"time": [-0.5], "A": [1], "B": [2]})

    def test_a_header_alone(self):
        self.assertEqual(dict(self.result("time A\n").counts()), {"time": [], "A": []})

    def test_no_table(self):
        for text in ["", "A(solution) 1 1\n", "time A\ntime A\n"]:
            with self.assertRaises(ValueError):
                self.result(text).counts()
        with self.assertRaises(KeyError):
            self.result("").counts("g")

    def test_of_a_run(self):
        result = smol.run(EXAMPLES / "enzyme.txt")
        self.assertEqual(result.counts()["P"], [0, 31, 69, 103, 127, 149])
        self.assertEqual(len(result.counts("enzyme_counts.txt")["time"]), 201)
        self.assertEqual(dict(smol.run(EXAMPLES / "count.txt").counts()), {"time": [0.0, 1.0], "A": [3, 3]})

    @unittest.skipUnless(has("numpy"), "wants numpy")
    def test_arrays(self):
        arrays = self.result("time A\n0 1\n1 2\n").counts().arrays()
        self.assertEqual({name: (array.shape, str(array.dtype)) for name, array in arrays.items()},
                         {"time": ((2,), "float64"), "A": ((2,), "int64")})

    @unittest.skipUnless(has("pandas"), "wants pandas")
    def test_frame(self):
        frame = self.result("time A\n0 1\n1 2\n").counts().frame()
        self.assertEqual((frame.index.name, list(frame.columns), frame["A"].tolist()), ("time", ["A"], [1, 2]))

    def test_without_packages(self):
        with mock.patch.dict(sys.modules, numpy=None, pandas=None):
            table = self.result("0 1 2\n").counts()
            self.assertRaises(ImportError, table.arrays)
            self.assertRaises(ImportError, table.frame)
            self.assertRaises(ImportError, smol.Frame().arrays)


class Molecules(unittest.TestCase):
    def test_lists(self):
        lines = ["frame", "A(solution) 0 -1.5 1", "B(solution) 1 1 7", "A(solution) 2 2 1", "frame", "2 0"]
        frames = list(smol.frames_in(lines))
        self.assertEqual([(frame.head, frame.species, frame.positions, frame.serials) for frame in frames], [
            ("frame", ["A", "B"], [(0.0, -1.5), (1.0, 1.0)], [1, 7]), ("", ["A"], [(2.0, 2.0)], [1]), ("frame", [], [], []),
            ("2 0", [], [], [])])
        self.assertEqual([len(frame) for frame in frames], [2, 1, 0, 0])
        self.assertEqual(list(smol.frames_in([])), [])

    def test_of_a_run(self):
        before, after = smol.run(EXAMPLES / "spread.txt").molecules()
        self.assertEqual((before.positions, after.serials, after.positions[0]), ([(0.0, 0.0)] * 3, [1, 2, 3], (1.746496, 0.142523)))
        self.assertEqual([frame.head for frame in smol.run(EXAMPLES / "msd.txt").molecules("places.txt")], ["frame"] * 6)

    @unittest.skipUnless(has("numpy"), "wants numpy")
    def test_arrays(self):
        species, positions, serials = smol.run(EXAMPLES / "spread.txt").molecules()[1].arrays()
        self.assertEqual((species.tolist(), positions.shape, str(positions.dtype), str(serials.dtype)), (["dye"] * 3, (3, 2), "float64", "int64"))
        self.assertEqual([array.shape for array in smol.Frame().arrays()], [(0,), (0, 0), (0,)])


class Sweeps(Folder):
    def test_the_order_that_was_asked_for(self):
        slow = f'[ "$2" != 1 ] || sleep 0.5; exec "{smol.program()}" "$@"'.replace("$2", "${@: -2:1}")
        with mock.patch.dict(os.environ, SMOL=self.script(slow)):
            outcomes = smol.sweep(BOX + "mol $n A 5\ncmd a molcount stdout\n", [1, 2, 3], [{"n": 7}, {"n": 8}], processes=3)
        self.assertEqual([(outcome.seed, outcome.parameters["n"], outcome.result.stdout) for outcome in outcomes],
                         [(seed, n, f"2 {n}\n") for n in (7, 8) for seed in (1, 2, 3)])

    def test_what_fails_is_kept(self):
        values = [{"most": 3}, {"most": "none"}, {"most": 10}]
        over, refused, passed = smol.sweep(DOUBLING, [5], values)
        self.assertIsInstance(over.error, smol.TooManyMoleculesError)
        self.assertEqual(over.error.result.counts()["A"], [1, 2])
        self.assertEqual((refused.error.status, refused.error.line, refused.error.text), (2, 6, "max_mol none"))
        self.assertEqual((passed.error, passed.result.counts()["A"]), (None, [1, 2, 4]))
        self.assertEqual((over.result, refused.result), (None, None))

    def test_a_path_and_the_seed_of_the_file(self):
        (outcome,) = smol.sweep(EXAMPLES / "spread.txt")
        self.assertEqual((outcome.seed, outcome.parameters, outcome.result.stdout), (None, {}, smol.run(EXAMPLES / "spread.txt").stdout))
        self.assertEqual(smol.sweep(EXAMPLES / "spread.txt", []), [])

    def test_parameters_are_looked_at_first(self):
        with mock.patch.object(smol, "_run", side_effect=AssertionError("something is run")), self.assertRaises(ValueError):
            smol.sweep(DOUBLING, [1], [{"most": 1}, {"least": 1}])

    def test_executors_of_the_caller(self):
        seeds, text = [4, 3, 2], (EXAMPLES / "spread.txt").read_text()
        plain = smol.sweep(text, seeds)
        for kind in [concurrent.futures.ThreadPoolExecutor, concurrent.futures.ProcessPoolExecutor]:
            with kind(2) as executor:
                self.assertEqual(smol.sweep(text, seeds, executor=executor), plain)
                self.assertEqual(executor.submit(int, "7").result(), 7)  # it is left open
                refused = smol.sweep("dim 3\nbogus\n", executor=executor)[0].error
                self.assertEqual((type(refused), refused.line, refused.text), (smol.ConfigurationError, 2, "bogus"))

    @unittest.skipUnless(has("distributed"), "wants dask.distributed")
    def test_dask_on_one_machine(self):
        call = textwrap.dedent("""
            import smol
            from dask.distributed import Client, LocalCluster
            if __name__ == "__main__":
                with LocalCluster(n_workers=2, threads_per_worker=1, dashboard_address=None) as cluster, Client(cluster) as client:
                    text = "dim 1\\nspecies A\\nboundaries x 0 9\\ntime_stop $k\\ntime_step 1\\nmol 2 A 5\\ncmd a molcount stdout\\n"
                    outcomes = smol.sweep(text, [1, 2], [{"k": 3}, {"k": "x"}], executor=client.get_executor())
                print([(outcome.seed, outcome.result.stdout if outcome.result else str(outcome.error)) for outcome in outcomes])
        """)
        (self.folder / "call.py").write_text(call)
        ended = subprocess.run([sys.executable, "call.py"], cwd=self.folder, capture_output=True, text=True, timeout=300,
                               env={**os.environ, "PYTHONPATH": str(HERE), "SMOL": smol.program()})
        refused = "line 4: not a number: 'time_stop x'"
        self.assertEqual(ended.stdout, f"{[(1, '3 2' + chr(10)), (2, '3 2' + chr(10)), (1, refused), (2, refused)]}\n", ended.stderr)

    def test_an_interrupted_sweep_leaves_no_child(self):
        mark = f"program-{os.getpid()}"
        program = self.folder / mark
        program.write_text(f'#!/bin/bash\nexec -a {mark} sleep 600\n')
        program.chmod(0o755)
        (self.folder / "call.py").write_text(f"import smol\nsmol.sweep({LONG!r}, range(8), processes=3)\n")
        child = subprocess.Popen([sys.executable, "call.py"], cwd=self.folder, stderr=subprocess.PIPE, text=True, start_new_session=True,
                                 env={**os.environ, "PYTHONPATH": str(HERE), "SMOL": str(program)})
        self.wait_for(lambda: len(running(mark)) == 3)
        os.kill(child.pid, signal.SIGINT)
        _, told = child.communicate(timeout=60)
        self.assertNotEqual(child.returncode, 0)
        self.assertTrue(told.rstrip().endswith("KeyboardInterrupt"), told)
        self.assertEqual(running(mark), [])

    def test_an_interrupted_run_leaves_no_child(self):
        mark = f"lone-{os.getpid()}"
        program = self.folder / mark
        program.write_text(f'#!/bin/bash\nexec -a {mark} sleep 600\n')
        program.chmod(0o755)
        child = subprocess.Popen([sys.executable, "-c", f"import smol; smol.run({LONG!r})"], stderr=subprocess.DEVNULL,
                                 start_new_session=True, env={**os.environ, "PYTHONPATH": str(HERE), "SMOL": str(program)})
        self.wait_for(lambda: len(running(mark)) == 1)
        os.kill(child.pid, signal.SIGINT)
        child.wait(60)
        self.assertEqual(running(mark), [])

    def wait_for(self, condition, seconds=60):
        end = time.monotonic() + seconds
        while not condition():
            self.assertLess(time.monotonic(), end, "nothing began")
            time.sleep(0.02)

    def test_progress_at_a_terminal(self):
        with contextlib.redirect_stderr(io.StringIO()) as told:
            smol.sweep(BOX, [1, 2])
        self.assertEqual(told.getvalue(), "")
        for modules in [{"tqdm": None}] + ([{}] if has("tqdm") else []):
            with mock.patch.dict(sys.modules, modules), contextlib.redirect_stderr(io.StringIO()) as told:
                told.isatty = lambda: True
                smol.sweep(BOX, [1, 2])
            self.assertIn("2 of 2 runs\n" if modules else "2/2", told.getvalue())


def running(name):
    """The processes whose first word is this name."""
    found = []
    for process in pathlib.Path("/proc").glob("[0-9]*"):
        with contextlib.suppress(OSError):
            if (process / "cmdline").read_bytes().split(b"\0")[0] == name.encode():
                found.append(process.name)
    return found


if __name__ == "__main__":
    unittest.main()
