"""Sweeps on this machine: values and paths, going on after a stop, failed runs, and the table."""

from __future__ import annotations

import contextlib
import csv
import io
import json
import os
import pathlib
import signal
import subprocess
import sys
import tempfile
import time
import unittest

ROOT = pathlib.Path(__file__).resolve().parents[2]
sys.path.insert(0, str(ROOT / "python"))

from mosaikrun import drafts, paths, program, sweep  # noqa: E402

SMALL = ROOT / "examples" / "many" / "small.toml"
LINK = ROOT / "examples" / "tutorial"
TEXT = """# a study
until = 24 # hours
[[sim]]
name = 'House' # \u00e4
command = "python3 house.py %(addr)s"
params = { step = 6, "odd = key" = [1, [2, 3,],] }
[[sim]]
name = "Grid"
local = "sum"
[[sim]]
name = "Grid"
local = "sum"
[sim.params]
step = 4
[[entities]]
id = "houses"
sim = "House-0"
model = \"\"\"Ho\\
    use\"\"\"
params.people = 0x1
"""

# a simulator that may be slow; at time 5 it ends itself where there is a file `break`, and waits while there is `hold`
COUNTER = """
import os, pathlib, sys, time
sys.path.insert(0, {link!r})
from link import serve
MODEL = {{"public": True, "params": ["first"], "attrs": ["out"]}}
class Counter:
    def init(self, sid, time_resolution, pause=0):
        self.pause = pause
        pathlib.Path(os.environ["MOSAIKRUN_RUN"], "pid").write_text(str(os.getpid()))
        return {{"api_version": "3.0", "type": "time-based", "models": {{"Counter": MODEL}}}}
    def create(self, num, model, first):
        self.first = first
        return [{{"eid": "c", "type": model}}]
    def setup_done(self):
        pass
    def step(self, now, inputs, max_advance):
        self.now = now
        time.sleep(self.pause / 1000)
        if now == 5 and self.first == 2 and os.path.exists("break"):
            os._exit(1)
        while now == 5 and os.path.exists("hold"):
            pathlib.Path(os.environ["MOSAIKRUN_RUN"], "held").touch()
            time.sleep(0.01)
        if self.first == 3:
            raise ValueError("three is too much")
        return now + 1
    def get_data(self, outputs):
        return {{"c": {{"out": self.first + self.now}}}}
serve(Counter())
"""
COUNTED = """until = 10
[[sim]]
name = "Counter"
command = "{python} -S counter.py %(addr)s"
params = {{ pause = 0 }}
[[sim]]
name = "Sum"
local = "sum"
[[entities]]
id = "counter"
sim = "Counter-0"
model = "Counter"
params = {{ first = 1 }}
[[entities]]
id = "sum"
sim = "Sum-0"
model = "Sum"
[[connect]]
from = "counter"
to = "sum"
attrs = [["out", "in"]]
"""
WATCH = '[[watch]]\nentity = "Sum-0.0"\nattr = "in"\nrule = "sum"\n'


def set_to(words: str, text: str = TEXT) -> str:
    """The text with the last of these values."""
    choice = paths.choice(words)
    return paths.edited(text, paths.spans(text, [choice]), choice.written[-1:])


class Paths(unittest.TestCase):
    """Paths and values, without the program."""

    def test_values_are_put_in_place(self) -> None:
        for words, before, after in [
            ("until=48,96", "until = 24 #", "until = 96 #"),
            ("sim.House.params.step=1..4", "step = 6", "step = 4"),
            ("sim.House-0.params.step=0..9..3", "step = 6", "step = 9"),
            ("sim[0].params.step=7", "step = 6", "step = 7"),
            ('sim.House.params."odd = key"[1][0]=true', "[2, 3,]", "[true, 3,]"),
            (
                "sim.House.params={ a = [1, { b = 2 }] }",
                '{ step = 6, "odd = key" = [1, [2, 3,],] }',
                "{ a = [1, { b = 2 }] }",
            ),
            ("sim.Grid-1.params.step=9", "step = 4", "step = 9"),
            ("entities.houses.params.people=2", "= 0x1", "= 2"),
            ("entities.houses.model=Flat", '"""Ho\\\n    use"""', '"Flat"'),
            ('sim.House.command="a,b",\'c "d"\'', '"python3 house.py %(addr)s"', "'c \"d\"'"),
        ]:
            with self.subTest(words):
                self.assertEqual(TEXT.count(before), 1)
                self.assertEqual(set_to(words), TEXT.replace(before, after))

    def test_what_names_nothing_is_refused(self) -> None:
        for words, line in [
            ("until", "until isn't PATH=VALUE,VALUE,.."),
            ("until=", "until=: a value is missing"),
            ("until=1,", "until=1,: a value is missing"),
            ("until=1 2", "until=1 2: , is missing"),
            ("until=1.5", "until=1.5: 1.5 is no whole number, truth value, text, list or table"),
            ("until=[1,{a=2020-01-01}]", "until=[1,{a=2020-01-01}]: 2020-01-01 is no whole number"),
            ("until=3..1", "until=3..1: 3..1 is no range"),
            ("until=1,2,1", "until has the value 1 twice"),
            ("untl=1", "untl names nothing in the scenario"),
            ("sim.House.params.stop=1", "sim.House.params.stop names nothing in the scenario"),
            ("sim.Wind.params.step=1", "no table of sim has the name Wind"),
            ("sim.Grid.params.step=1", "2 simulators have the name Grid: write Grid-0, Grid-1 and so on"),
            ("sim.House-1.params.step=1", "no table of sim has the name House-1"),
            ("sim[3].name=a", "sim[3].name names nothing in the scenario"),
            ("sim.Grid-1.params=1", "sim.Grid-1.params names a whole table"),
            ("sim=1", "sim names a whole table"),
            ("sim..a=1", "sim..a=1 isn't PATH=VALUE,VALUE,.."),
            ("entities.house.num=1", "no table of entities has the id house"),
            (f"until={'[' * 5000}", "too many lists in one another"),
        ]:
            with self.subTest(words), self.assertRaises(paths.PathError) as caught:
                set_to(words)
            self.assertIn(line, str(caught.exception))

    def test_one_value_has_one_path(self) -> None:
        for second in ("sim[0].params.step=2", "sim.House.params={}"):
            choices = [paths.choice("sim.House.params.step=1"), paths.choice(second)]
            with self.subTest(second), self.assertRaisesRegex(paths.PathError, "name the same value"):
                paths.spans(TEXT, choices)

    @unittest.skipIf(sys.version_info < (3, 11), "tomllib came with Python 3.11")
    def test_scenarios_are_read_as_tomllib_reads_them(self) -> None:
        import tomllib

        files = sorted(ROOT.glob("examples/**/*.toml"))
        self.assertGreater(len(files), 8)
        for text in [TEXT, *(file.read_text(encoding="utf-8") for file in files)]:
            self.assertEqual({key: paths.bare(value) for key, value in paths.read(text).items()}, tomllib.loads(text))


class Drafts(unittest.TestCase):
    """What a run may leave beside its record, without the program."""

    def setUp(self) -> None:
        folder = tempfile.TemporaryDirectory()
        self.addCleanup(folder.cleanup)
        self.record = pathlib.Path(folder.name, "a.record")

    def write(self, ending: str, text: str) -> pathlib.Path:
        file = self.record.with_name(f"{self.record.name}{ending}")
        file.write_text(text)
        return file

    def left(self) -> list[str]:
        return sorted(file.name[len("a.record") :] for file in self.record.parent.iterdir())

    def test_only_names_that_the_program_makes_are_drafts(self) -> None:
        made = [".part", ".part2", ".part9", ".part10", ".part100"]
        others = ["", ".part0", ".part1", ".part007", ".part101", ".part1000", ".parts", ".part2.old", "2.part"]
        for ending in made + others:
            self.write(ending, "got [0]\n")
        self.assertEqual(sorted(file.name[len("a.record") :] for file in drafts.beside(self.record)), sorted(made))
        drafts.remove_all(self.record)
        self.assertEqual(self.left(), sorted(others))

    def test_the_longest_draft_with_an_entry_is_continued(self) -> None:
        for texts, ending in [
            ({}, None),
            ({".part": ""}, None),
            ({".part": "run [1]\ngot [0"}, None),
            ({".part": "run [1]\ngot [0]\n"}, ".part"),
            ({".part": "got [0]\n", ".part2": "got [0]\ngot [1]\n", ".part3": "got [0]\ng"}, ".part2"),
            ({".part": "run [1]\nsim [1]\n", ".part2": "got [0]\n"}, ".part2"),
            ({"": "got [0]\nend 1\n", ".part": "got [0]\ng"}, None),
            ({"": "got [0]\nend 1\n", ".part": "got [0]\ngot [1]\n"}, ".part"),
            ({"": "got [0]\ngot [1]\ngot", ".part": "got [0]\n"}, ".part"),
        ]:
            with self.subTest(texts):
                for name in self.left():
                    self.record.with_name(f"a.record{name}").unlink()
                for name, text in texts.items():
                    self.write(name, text)
                wanted = self.record.with_name(f"a.record{ending}") if ending else None
                self.assertEqual(drafts.to_continue(self.record), wanted)

    def test_a_draft_that_is_gone_is_none(self) -> None:
        # as its name is still there and its bytes aren't, so is that of one that is removed meanwhile
        gone = self.record.with_name("a.record.part")
        gone.symlink_to("nowhere")
        draft = self.write(".part2", "got [0]\n")
        self.assertEqual(drafts.beside(self.record), [draft])
        self.assertFalse(drafts.has_entry(gone))
        self.assertEqual(drafts.to_continue(self.record), draft)


class Sweeps(unittest.TestCase):
    """Sweeps by the program."""

    def setUp(self) -> None:
        folder = tempfile.TemporaryDirectory()
        self.addCleanup(folder.cleanup)
        self.folder = pathlib.Path(folder.name)
        self.table = self.folder / "out" / "table.csv"
        (self.folder / "counter.py").write_text(COUNTER.format(link=str(LINK)))
        (self.folder / "counted.toml").write_text(COUNTED.format(python=sys.executable))
        (self.folder / "w.toml").write_text(WATCH)

    def swept(self, *words: str) -> tuple[int, str]:
        """Sweeps in the folder: the status and what was said."""
        said, before = io.StringIO(), os.getcwd()
        kept = [(number, signal.getsignal(number)) for number in (signal.SIGTERM, signal.SIGHUP)]
        os.chdir(self.folder)
        try:
            with contextlib.redirect_stderr(said):
                return sweep.main(list(words)), said.getvalue()
        finally:
            os.chdir(before)
            for number, handler in kept:
                signal.signal(number, handler)

    def sweep(self, *more: str) -> tuple[int, str]:
        """Sweeps the counter's study."""
        return self.swept("counted.toml", "--out", "out", "--watch", "w.toml", *more)

    def rows(self) -> list[dict[str, str]]:
        with self.table.open(newline="") as file:
            return list(csv.DictReader(file))

    def how(self) -> list[str]:
        return [json.loads(self.file(row, "status.json").read_bytes())["how"] for row in self.rows()]

    def file(self, row: dict[str, str], name: str) -> pathlib.Path:
        return self.folder / "out" / "runs" / row["run"] / name

    def replayed(self, row: dict[str, str]) -> str:
        return program.told(["replay", str(self.file(row, "study.record"))])

    def test_each_combination_is_run(self) -> None:
        (self.folder / "grid.watch").write_text(WATCH.replace("Sum", "Grid"))
        more = ["--set", "entities.houses.params.start=1,4", "--set", "until=5,10", "--jobs", "3"]
        status, said = self.swept(str(SMALL), "--out", "out", "--watch", "grid.watch", *more)
        self.assertEqual(status, 0, said)
        rows = self.rows()
        titles = ["run", "entities.houses.params.start", "until", "status", "line", "Grid-0.0 in sum"]
        self.assertEqual(list(rows[0]), titles)
        # ten houses give the start and the time, added
        wanted = [[str(a), str(b), "0", "", str(10 * (a * b + b * (b - 1) // 2))] for a in (1, 4) for b in (5, 10)]
        self.assertEqual([list(row.values())[1:] for row in rows], wanted)
        bare = SMALL.read_text().replace("start = 1", "start = 4").replace("until = 96", "until = 10")
        (self.folder / "bare.toml").write_text(bare)
        self.assertEqual(self.file(rows[3], "scenario.toml").read_text(), bare)
        self.assertEqual(self.replayed(rows[3]), program.told(["run", str(self.folder / "bare.toml")]))

    def test_examples_are_accepted(self) -> None:
        for file in sorted(SMALL.parent.glob("*.toml")):
            with self.subTest(file.name):
                self.assertTrue(program.told(["check", str(file)]).startswith("sims"))

    def test_what_is_done_is_kept(self) -> None:
        first = ["--set", "entities.counter.params.first=1,4"]
        self.assertEqual(self.sweep(*first)[0], 0)
        made = {row["run"]: self.file(row, "study.record").stat().st_mtime_ns for row in self.rows()}
        table = self.table.read_text()
        self.assertEqual(self.sweep(*first)[0], 0)
        self.assertEqual(self.table.read_text(), table)
        # one more value, a run without its outcome, and one with a record that is cut
        kept, cut = self.rows()
        self.file(kept, "status.json").unlink()
        with self.file(cut, "study.record").open("r+b") as record:
            record.truncate(100)
        (self.folder / "w.toml").write_text(WATCH.replace('"sum"', '"last"'))
        status, said = self.sweep("--set", "entities.counter.params.first=1,4,7")
        self.assertEqual(status, 0, said)
        self.assertEqual([row["Sum-0.0 in last"] for row in self.rows()], ["10", "13", "16"])
        same = [made.get(row["run"]) == self.file(row, "study.record").stat().st_mtime_ns for row in self.rows()]
        self.assertEqual(same, [True, False, False])

    def test_a_failed_run_is_a_row_and_one_that_was_cut_is_resumed(self) -> None:
        more = ["--set", "entities.counter.params.first=1..4"]
        (self.folder / "break").touch()
        status, said = self.sweep(*more)
        self.assertEqual(status, 1)
        ended, failed = "run 5: Counter-0 closed its link", "run 2: Counter-0 failed: ValueError: three is too much"
        wanted = [["0", "", "55"], ["5", ended, ""], ["5", failed, ""], ["0", "", "85"]]
        self.assertEqual([list(row.values())[2:] for row in self.rows()], wanted)
        self.assertIn(f"entities.counter.params.first=2: {ended}\n", said)
        self.assertTrue(said.endswith("table.csv: 2 of 4 runs failed or weren't made\n"), said)
        (self.folder / "break").unlink()
        self.assertEqual(self.sweep(*more)[0], 1)
        wanted[1] = ["0", "", "65"]
        self.assertEqual([list(row.values())[2:] for row in self.rows()], wanted)
        self.assertEqual(self.how(), ["run", "resumed", "run", "run"])
        self.assertEqual(self.replayed(self.rows()[1]).splitlines()[-1], "end 20")

    def test_a_run_that_was_killed_is_resumed_from_its_draft(self) -> None:
        more = ["--set", "entities.counter.params.first=1,2,4"]
        self.assertEqual(self.sweep(*more)[0], 0)
        for row, length in zip(self.rows(), (0.6, 0.0, 1.0)):
            record, draft = self.file(row, "study.record"), self.file(row, "study.record.part2")
            text = record.read_bytes()
            draft.write_bytes(text[: int(len(text) * length)])
            self.file(row, "status.json").unlink()
            record.unlink()
        status, said = self.sweep(*more)
        self.assertEqual(status, 0, said)
        self.assertEqual(self.how(), ["resumed", "run", "resumed"])
        self.assertEqual([row["Sum-0.0 in sum"] for row in self.rows()], ["55", "65", "85"])
        self.assertEqual(list((self.folder / "out").rglob("*.part*")), [])

    def test_a_draft_that_is_refused_is_kept(self) -> None:
        more = ["--set", "entities.counter.params.first=2"]
        self.assertEqual(self.sweep(*more)[0], 0)
        (row,) = self.rows()
        text = self.file(row, "study.record").read_bytes()
        self.assertTrue(text.count(b"run [10,") == text.count(b',{"c":{"out":5}}') == 1, text)
        # of another plan, no record, and of other simulators
        for before, after in [(b"run [10,", b"run [11,"), (b"got [0,", b"got 0,"), (b'{"out":5}', b'{"out":6}')]:
            with self.subTest(after):
                draft = text.replace(before, after)[: len(text) * 9 // 10]
                self.file(row, "study.record").unlink()
                self.file(row, "status.json").unlink()
                self.file(row, "study.record.part").write_bytes(draft)
                self.file(row, "study.record.part2").write_bytes(draft[: len(draft) // 2])
                status, said = self.sweep(*more)
                self.assertEqual((status, self.how()), (0, ["run"]), said)
                kept = self.file(row, "study.record.old").read_bytes()
                self.assertTrue(kept.startswith(draft[: draft.rindex(b"\n") + 1]), kept)
                self.assertEqual(self.file(row, "study.record").read_bytes(), text)
                self.assertEqual(list((self.folder / "out").rglob("*.part*")), [])

    def test_a_record_of_other_simulators_is_run_anew(self) -> None:
        more = ["--set", "entities.counter.params.first=2"]
        (self.folder / "break").touch()
        self.assertEqual(self.sweep(*more)[0], 1)
        (self.folder / "break").unlink()
        text = (self.folder / "counter.py").read_text()
        (self.folder / "counter.py").write_text(text.replace("self.first + self.now", "self.first - self.now"))
        status, said = self.sweep(*more)
        self.assertEqual(status, 0, said)
        self.assertEqual([row["Sum-0.0 in sum"] for row in self.rows()], ["-25"])
        self.assertTrue(self.file(self.rows()[0], "study.record.old").exists())

    def test_a_sweep_that_is_stopped_goes_on(self) -> None:
        more, out = ["--set", "entities.counter.params.first=1,2,4", "--jobs", "2"], self.folder / "out"
        words = [sys.executable, "-m", "mosaikrun.sweep", "counted.toml", "--out", "out", "--watch", "w.toml", *more]
        (self.folder / "hold").touch()
        environment = {**os.environ, "PYTHONPATH": str(ROOT / "python")}
        with subprocess.Popen(words, cwd=self.folder, env=environment, stderr=subprocess.PIPE, text=True) as ran:
            limit = time.monotonic() + 120
            while len(list(out.glob("runs/*/held"))) < 2 and time.monotonic() < limit:
                time.sleep(0.02)
            ran.send_signal(signal.SIGINT)
            said = ran.communicate(timeout=120)[1]
        self.assertEqual(ran.returncode, 130, said)
        self.assertIn("2 runs are being ended; Ctrl-C again kills them\n", said)
        self.assertIn("stopped; the same command goes on\n", said)
        for file in out.glob("runs/*/pid"):
            with self.assertRaises(ProcessLookupError):
                os.kill(int(file.read_text()), 0)
        self.assertEqual([row["status"] for row in self.rows()], ["5", "5", ""])
        (self.folder / "hold").unlink()
        status, said = self.sweep(*more)
        self.assertEqual(status, 0, said)
        self.assertEqual(self.how(), ["resumed", "resumed", "run"])
        self.assertEqual([row["Sum-0.0 in sum"] for row in self.rows()], ["55", "65", "85"])

    def refused(self, *words: str) -> str:
        """What is said of these words, which have to be refused, and nothing may be made."""
        status, said = self.swept(*words)
        self.assertEqual(status, 2, said)
        self.assertFalse((self.folder / "out" / "runs").exists())
        return said

    def test_bad_words_are_refused(self) -> None:
        out, study = ["--out", str(self.folder / "out")], str(self.folder / "counted.toml")
        (self.folder / "bad.toml").write_text("until = ")
        (self.folder / "bad.watch").write_text('[[watch]]\nentity = "a"\nattr = "b"\nrule = "mean"\n')
        connected = COUNTED.replace('command = "{python} -S counter.py %(addr)s"', 'connect = "127.0.0.1:5999"')
        (self.folder / "connected.toml").write_text(connected.format())
        for words, line in [
            ([str(self.folder / "none.toml")], f"{self.folder}/none.toml: no such file"),
            ([str(self.folder / "bad.toml")], "scenario 1: not TOML"),
            ([study, "--set", "until=0,5"], "until=0: scenario 5: out of range until 0"),
            ([study, "--set", "sim.Sum.local=sum,som"], 'sim.Sum.local="som": launch 4: Sum-0 unknown kind'),
            ([study, "--set", "until=1..1000", "--set", "max=1"], "max names nothing in the scenario"),
            (
                [study, "--set", "until=1..2000", "--set", "entities.counter.params.first=1..2000"],
                "4000000 runs, limit",
            ),
            ([study, "--watch", str(self.folder / "bad.watch")], "watch[0].rule is mean, and the rules are sum"),
            ([study, "--watch", str(self.folder / "no.watch")], "no.watch: No such file"),
            ([study, "--jobs", "0"], "--jobs 0: from 1 to 1000"),
            ([study, "--slurm", "--dask", "127.0.0.1:1"], "--slurm and --dask can't both be"),
            ([study, "--no-wait"], "--sbatch, --tasks and --no-wait go with --slurm"),
            ([study, "--tasks", "2"], "--sbatch, --tasks and --no-wait go with --slurm"),
            ([study, "--slurm", "--tasks", "0"], "--tasks 0: from 1"),
            (
                [str(self.folder / "connected.toml"), "--jobs", "2"],
                "Counter is reached by connect, so it serves one run",
            ),
        ]:
            with self.subTest(words):
                self.assertIn(line, self.refused(*words, *out))


if __name__ == "__main__":
    unittest.main()
