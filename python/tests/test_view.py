"""Tests of the page of a study: its data, what is refused, and the page itself in Chromium where that is installed."""

from __future__ import annotations

import base64
import contextlib
import io
import json
import math
import os
import pathlib
import re
import subprocess
import sys
import tempfile
import unittest
import zlib
from array import array
from typing import Any, Dict, List, Optional, Tuple

ROOT = pathlib.Path(__file__).resolve().parents[2]
sys.path.insert(0, str(ROOT / "python"))
sys.path.insert(0, str(pathlib.Path(__file__).resolve().parent))

import browser  # noqa: E402

from mosaikrun import program  # noqa: E402
from mosaikrun.errors import ProgramMissing  # noqa: E402
from mosaikrun.view import __main__ as view  # noqa: E402
from mosaikrun.view import clock, gather, page  # noqa: E402

# a counter that a collector is fed by, over a time-shifted connection, and a pair that answers within the same time
PLAN = """mosaikrun 2
run [3,100,2000000]
sim ["A-0","time-based",3,0,[]]
sim ["B-0","time-based",3,1,[]]
sim ["C-0","hybrid",3,2,[]]
model [0,"Count",["out"],false]
model [1,"Sum",["in"],false]
model [2,"Loop",["set","got"],false]
entity [0,"0",[]]
entity [1,"0",[]]
entity [2,"0",[]]
conn [0,"out",1,"in",["shift",1],true,false,[7]]
conn [2,"got",2,"set","weak",false,true,[]]
"""
RECORD = (
    PLAN
    + """ask [0,0,0,3]
ask [1,0,0,3]
ask [2,0,0,3]
got [1,[1,3,2]]
got [0,[1,3,1]]
got [0,[1,4,{"0":{"out":7}}]]
ask [0,1,0,3]
got [2,[1,3,null]]
got [2,[1,4,{"0":{"got":"go"}}]]
ask [2,0,1,3]
got [0,[1,5,3]]
got [0,[1,6,{"0":{"out":300}}]]
ask [1,2,0,3]
got [1,[1,4,3]]
got [2,[1,5,null]]
got [2,[1,6,{}]]
end 16
"""
)
KINDS = {"i8": "b", "i16": "h", "i32": "i", "f64": "d"}


def numbers(packed: Dict[str, Any]) -> List[float]:
    """The numbers of a packed column."""
    column = array(KINDS[packed["kind"]])
    column.frombytes(zlib.decompress(base64.b64decode(packed["data"])))
    if sys.byteorder == "big":
        column.byteswap()
    return column.tolist()


def found_program() -> bool:
    """Whether the program is there."""
    try:
        program.find()
    except ProgramMissing:
        return False
    return True


class Folder(unittest.TestCase):
    """A test in a folder of its own."""

    def setUp(self) -> None:
        folder = tempfile.TemporaryDirectory()
        self.addCleanup(folder.cleanup)
        self.folder = pathlib.Path(folder.name)

    def save(self, text: str, name: str = "study.record") -> str:
        """Saves a text; gives its path."""
        path = self.folder / name
        path.write_text(text, encoding="utf-8", newline="\n")
        return str(path)

    def noted(self, notes: Dict[str, str]) -> str:
        """Saves what simulators noted of their steps beside study.record; gives the folder."""
        folder = self.folder / "study.record.times"
        folder.mkdir(exist_ok=True)
        for name, text in notes.items():
            (folder / name).write_text(text, encoding="utf-8")
        return str(folder)

    def run_view(self, *words: str) -> Tuple[int, str, Optional[str]]:
        """Makes a page: the status, what was said, and the page."""
        out, said = self.folder / "page.html", io.StringIO()
        with contextlib.redirect_stderr(said), contextlib.redirect_stdout(io.StringIO()):
            status = view.main([*words, "-o", str(out)])
        return status, said.getvalue(), out.read_text(encoding="utf-8") if out.exists() else None


class Data(Folder):
    """What is gathered of a record."""

    def test_turns(self) -> None:
        _, shown = gather.gather(self.save(RECORD))
        turns = {name: numbers(column) for name, column in shown["turns"].items()}
        self.assertEqual(turns["simulator"], [0, 1, 2, 0, 2, 1])
        self.assertEqual(list(zip(turns["time"], turns["tier"])), [(0, 0), (0, 0), (0, 0), (1, 0), (0, 1), (2, 0)])
        self.assertEqual(turns["asked"], [0, 1, 2, 6, 9, 12])
        self.assertEqual(turns["replied"], [4, 3, 7, 10, 14, 13])
        self.assertEqual(turns["ended"], [5, 3, 8, 11, 15, 13])
        self.assertEqual(turns["next"], [1, 2, -1, 3, -1, 3])
        # nobody was waited for at the beginning; then the turn whose message came last
        self.assertEqual(turns["after"], [-1, -1, -1, 0, 2, 3])
        self.assertEqual((shown["entries"], shown["messages"], shown["first_line"]), (16, 10, 14))
        self.assertEqual(shown["missing"], [])

    def test_plan(self) -> None:
        _, shown = gather.gather(self.save(RECORD))
        self.assertEqual(shown["connections"][0], [0, "out", 1, "in", "shift", 1, 1, 0, ["7"]])
        self.assertEqual(shown["connections"][1], [2, "got", 2, "set", "weak", 0, 0, 1, []])
        self.assertEqual(shown["entities"], [[0, 0, "0"], [1, 1, "0"], [2, 2, "0"]])

    def test_values(self) -> None:
        _, shown = gather.gather(self.save(RECORD))
        counter, loop = shown["samples"]
        self.assertEqual((numbers(counter["times"]), numbers(counter["tiers"])), ([0, 1], [0, 0]))
        out = counter["series"][0]
        self.assertEqual((out["entity"], out["attribute"], out["holds"]), ("A-0.0", "out", True))
        self.assertEqual((numbers(out["values"]), out["values"]["kind"], "samples" in out), ([7, 300], "i16", False))
        self.assertEqual(numbers(loop["times"]), [0, 0])
        got = loop["series"][0]
        self.assertEqual((got["texts"], numbers(got["values"]), got["holds"]), (['"go"'], [0], False))

    def test_gaps_and_output_times(self) -> None:
        text = RECORD.replace('got [0,[1,4,{"0":{"out":7}}]]', 'got [0,[1,4,{"time":2}]]')
        _, shown = gather.gather(self.save(text))
        counter = next(one for one in shown["samples"] if one["simulator"] == "A-0")
        self.assertEqual(numbers(counter["times"]), [2, 1])
        self.assertEqual((counter["series"][0]["first"], numbers(counter["series"][0]["values"])), (1, [300]))

    def test_answers_of_other_shapes(self) -> None:
        """Answers that have other names than the first one, or what is no object, give what they have."""
        second = 'got [0,[1,6,{"0":{"out":300}}]]'
        shapes = {'{}': [7], '{"0":{}}': [7], '{"0":5}': [7], '{"1":{"out":1}}': [7], '{"0":{"in":1}}': [7], '5': [7]}
        shapes.update({'{"0":{"out":1,"in":2},"1":{"out":3}}': [7, 1], '{"0":{"out":null}}': [0, 1]})
        for shape, values in shapes.items():
            with self.subTest(shape=shape):
                _, shown = gather.gather(self.save(RECORD.replace(second, f"got [0,[1,6,{shape}]]")))
                series = shown["samples"][0]["series"]
                self.assertEqual([(one["entity"], one["attribute"]) for one in series], [("A-0.0", "out")])
                self.assertEqual(numbers(series[0]["values"]), values)
                self.assertEqual((shown["messages"], shown["missing"]), (10, []))

    def test_clock(self) -> None:
        """What simulators noted of their steps stands in milliseconds; the notes of another run are left out."""
        gathering, shown = gather.gather(self.save(RECORD))
        folder = self.noted({"A-0": "0 5.001 5.002\n1 5.01 5.0105\n", "B-0": "0 5 5.0005\n", "C-0": "0 1 2\n9 3 4\n", "D-0": "0 1 2\n"})
        misfits = clock.add_clock(gathering, shown, folder)
        self.assertEqual([line.partition(":")[0][-3:] for line in misfits], ["C-0", "D-0"])
        moments = list(zip(numbers(shown["turns"]["begin"]), numbers(shown["turns"]["end"])))
        self.assertEqual([moments[turn] for turn in (0, 1, 3)], [(1, 2), (0, 0.5), (10, 10.5)])
        self.assertTrue(all(math.isnan(moment) for turn in (2, 4, 5) for moment in moments[turn]))

    def test_no_clock(self) -> None:
        """Where nothing was noted, or nothing fits, the steps have no moments."""
        gathering, shown = gather.gather(self.save(RECORD))
        for notes in ({}, {"A-0": ""}, {"A-0": "7 1 2\n"}):
            with self.subTest(notes=notes):
                self.assertEqual(len(clock.add_clock(gathering, shown, self.noted(notes))), int(notes == {"A-0": "7 1 2\n"}))
                self.assertNotIn("begin", shown["turns"])

    def test_packed(self) -> None:
        for values, kind in [([], "i8"), ([-128, 127], "i8"), ([128], "i16"), ([1 << 31], "f64"), ([-(1 << 31)], "i32")]:
            column = gather.packed(values)
            self.assertEqual((column["kind"], numbers(column)), (kind, values))

    def test_what_was_set(self) -> None:
        text = PLAN + "async [0,1]\n" + RECORD[len(PLAN) :].replace(
            "got [1,[1,3,2]]",
            'got [1,[0,1,["set_data",[{"B-0.0":{"A-0.0":{"out":5}}}],{}]]]\n'
            'got [1,[0,2,["set_data",[{"B-0.0":{"A-0.0":{"none":6}}}],{}]]]\ngot [1,[1,3,2]]',
        )
        gathering, _ = gather.gather(self.save(text))
        pages = gather.settings_of(gathering, {("B-0", 2)})
        self.assertEqual([(one["entity"], one["attribute"]) for one in pages[0]["series"]], [("A-0.0", "out set by B-0.0")])
        self.assertEqual((numbers(pages[0]["times"]), numbers(pages[0]["series"][0]["values"])), ([1], [5]))


class Page(Folder):
    """The page as a text."""

    def test_self_contained(self) -> None:
        _, shown = gather.gather(self.save(RECORD))
        text = page.page({"records": [{**shown, "trouble": []}]})
        for name in page.LIBRARIES:
            library = page.text_of("vendor", name)
            self.assertIn(library, text)
            text = text.replace(library, "")
        self.assertIn("Copyright 2010-2017, Mike Bostock", text)
        self.assertIn("Chris Pettitt", text)
        text = re.sub(r"<pre>.*?</pre>", "", text, count=1, flags=re.DOTALL)
        self.assertNotRegex(text, r"https?:|//[a-z]+\.|@import|\bfetch\(|XMLHttpRequest|\bsrc=|<link|url\((?!#)")
        self.assertIn("default-src 'none'", text)
        self.assertLess(len(text), 150_000)

    def test_a_name_ends_no_element(self) -> None:
        text = RECORD.replace('entity [0,"0",[]]', 'entity [0,"</script><b>",[]]').replace('"0":{"out"', '"</script><b>":{"out"')
        _, shown = gather.gather(self.save(text, "a<b>.record"))
        made = page.page({"records": [{**shown, "trouble": []}]})
        held = re.search(r'<script type="application/json" id="data">(.*?)</script>', made, re.DOTALL)
        self.assertEqual(json.loads(held[1])["records"][0]["entities"][0][2], "</script><b>")
        self.assertIn("<title>a&lt;b&gt;.record", made)

    def test_libraries_are_named(self) -> None:
        said = page.text_of("vendor", "README.md")
        for name in page.LIBRARIES:
            self.assertRegex(said, rf"`{re.escape(name)}` \| `node-[a-z0-9-]+` \d")
        self.assertIn("v5.16.0", page.text_of("vendor", "d3.min.js")[:80])


class Refusals(Folder):
    """What no page is made of, before the program is asked."""

    def test_too_long(self) -> None:
        status, said, made = self.run_view(self.save(RECORD), "--limit", "300")
        self.assertEqual((status, made), (2, None))
        self.assertIn("at most 300", said)
        self.assertIn("mosaikrun watch", said)
        self.assertIn("mosaikrun.tables", said)

    def test_500_megabytes(self) -> None:
        path = self.save("mosaikrun 2\n")
        os.truncate(path, 500_000_000)
        status, said, made = self.run_view(path)
        self.assertEqual((status, made), (2, None))
        self.assertIn("500,000,000 bytes", said)

    def test_no_file(self) -> None:
        for path in (str(self.folder / "none.record"), str(self.folder)):
            status, said, made = self.run_view(path)
            self.assertEqual((status, made), (2, None))
            self.assertEqual(said.count("\n"), 1)
            self.assertIn(path, said)


@unittest.skipUnless(found_program(), "the program isn't there: set MOSAIKRUN to its path")
class WithProgram(Folder):
    """What the program says of a record is in its page."""

    def data(self, made: Optional[str]) -> Dict[str, Any]:
        """The data of a page."""
        held = re.search(r'<script type="application/json" id="data">(.*?)</script>', made or "", re.DOTALL)
        self.assertIsNotNone(held)
        return json.loads(held[1])

    def test_whole(self) -> None:
        status, said, made = self.run_view(self.save(RECORD))
        self.assertEqual((status, said), (0, ""))
        self.assertEqual(self.data(made)["records"][0]["trouble"], [])

    def test_example(self) -> None:
        """The study of examples/many that is to be looked at runs, and its page has connections of each kind."""
        record = str(self.folder / "week.record")
        words = [program.find(), "run", "week.toml", "--record", record]
        ran = subprocess.run(words, cwd=ROOT / "examples" / "many", capture_output=True, text=True, check=False)
        self.assertEqual((ran.returncode, ran.stderr), (0, ""))
        status, said, made = self.run_view(record)
        self.assertEqual((status, said), (0, ""))
        shown = self.data(made)["records"][0]
        self.assertEqual({one[4] for one in shown["connections"]}, {"plain", "shift", "weak"})
        names = [sim["id"] for sim in shown["simulators"]]
        pairs = [[names[first], names[second]] for first, second in shown["asynchronous"]]
        self.assertEqual(pairs, [["Grid-0", "Monitor-0"]])

    def test_live(self) -> None:
        """The study of examples/many in real time: what its classes noted is found beside the record."""
        record = str(self.folder / "live.record")
        paths = os.pathsep.join(str(path) for path in (ROOT / "python", ROOT / "examples" / "scenarios"))
        environment = {**os.environ, "PYTHONPATH": paths, "MOSAIKRUN_STEP_TIMES": f"{record}.times"}
        words = [program.find(), "paced", "live.toml", "10", "--record", record]
        ran = subprocess.run(words, cwd=ROOT / "examples" / "many", env=environment, capture_output=True, check=False)
        self.assertEqual((ran.returncode, ran.stderr), (0, b""))
        status, said, made = self.run_view(record)
        self.assertEqual((status, said), (0, ""))
        turns = self.data(made)["records"][0]["turns"]
        begun = [(sim, begin) for sim, begin in zip(numbers(turns["simulator"]), numbers(turns["begin"])) if not math.isnan(begin)]
        for number in (0, 1):
            mine = [begin for sim, begin in begun if sim == number]
            self.assertEqual((len(mine), mine), (24, sorted(mine)))
        self.assertEqual(len(begun), 48)
        status, said, _ = self.run_view(record, "--times", str(self.folder / "none"))
        self.assertEqual((status, said.count("\n")), (2, 1))

    def test_version_1(self) -> None:
        status, said, made = self.run_view(str(ROOT / "examples" / "counter-to-sum.record"))
        self.assertEqual((status, said), (0, ""))
        record = self.data(made)["records"][0]
        self.assertEqual((record["name"], record["version"]), ("counter-to-sum.record", 2))
        self.assertEqual(sorted(numbers(record["turns"]["time"])), [0, 0, 1, 2, 3, 3, 4, 5, 6, 6])

    def test_cut(self) -> None:
        status, said, made = self.run_view(self.save(RECORD[: RECORD.index('{"out":300')]))
        self.assertEqual(status, 0)
        lines = [trouble["line"] for trouble in self.data(made)["records"][0]["trouble"]]
        self.assertEqual([line.partition(":")[0] for line in lines], ["record", "run 8"])
        self.assertIn(lines[1], said)
        opened = self.data(made)["records"][0]["trouble"][1]["open"]
        self.assertEqual([(one["simulator"], one["time"], one["tier"]) for one in opened], [("A-0", 1, 0), ("C-0", 0, 1)])

    def test_wrong_message(self) -> None:
        text = RECORD.replace("got [0,[1,5,3]]", "got [0,[1,5,0.5]]")
        status, _, made = self.run_view(self.save(text))
        trouble = self.data(made)["records"][0]["trouble"][0]
        self.assertEqual((status, trouble["line"], trouble["text"]), (0, "run 1: A-0 message 2 cause 2", "got [0,[1,5,0.5]]"))
        self.assertIn("whole", trouble["short"])

    def test_wrong_outputs(self) -> None:
        """Outputs that are no object are the message that is named."""
        text = RECORD.replace('got [0,[1,6,{"0":{"out":300}}]]', "got [0,[1,6,5]]")
        status, _, made = self.run_view(self.save(text))
        record = self.data(made)["records"][0]
        trouble = record["trouble"][0]
        self.assertEqual((status, trouble["line"], trouble["text"]), (0, "run 1: A-0 message 3 cause 5", "got [0,[1,6,5]]"))
        self.assertEqual((trouble["place"], record["missing"]), (11, []))

    def test_damaged(self) -> None:
        for text in ["\0\1\2 damaged", "", RECORD.replace("conn [0", "conn {0"), RECORD.replace("end 16", "end 3")]:
            status, said, made = self.run_view(self.save(text))
            self.assertEqual((status, made), (3, None))
            self.assertRegex(said, r"^mosaikrun\.view: record: line \d+ fault \d\n$")

    def test_two(self) -> None:
        first, second = self.save(RECORD), self.save(RECORD.replace('{"out":300}', '{"out":301}'), "second.record")
        status, _, made = self.run_view(first, second)
        self.assertEqual(status, 0)
        blame = self.data(made)["blame"]
        self.assertEqual((blame["equal"], len(blame["blamed"])), (False, 1))
        one = blame["blamed"][0]
        self.assertEqual((one["simulator"], one["message"], one["step"], one["places"]), ("A-0", 3, [1, 0], [11, 11]))
        self.assertEqual(one["request"], 'get_data {"0":["out"]}')
        self.assertEqual((one["first"], one["second"]), ('[1,6,{"0":{"out":300}}]', '[1,6,{"0":{"out":301}}]'))

    def test_two_equal_and_of_other_plans(self) -> None:
        first = self.save(RECORD)
        _, _, made = self.run_view(first, self.save(RECORD, "second.record"))
        self.assertEqual(self.data(made)["blame"], {"equal": True, "blamed": []})
        (self.folder / "page.html").unlink()
        status, said, made = self.run_view(first, str(ROOT / "examples" / "counter-to-sum.record"))
        self.assertEqual((status, made), (5, None))
        self.assertIn("run 10: record of another plan", said)


@unittest.skipUnless(browser.installed(), "Chromium isn't installed")
class InChromium(Folder):
    """The page in a browser: it draws, throws nothing, asks nothing of a network, and obeys the keys."""

    shows: browser.Browser

    @classmethod
    def setUpClass(cls) -> None:
        cls.shows = browser.Browser(browser.installed() or "")
        cls.addClassCleanup(cls.shows.close)

    def opened(self, text: str, width: int = 1280, scheme: str = "light") -> None:
        """Opens a page with this width and these colours."""
        path = self.folder / "page.html"
        path.write_text(text, encoding="utf-8")
        self.shows.looks(width, scheme)
        self.shows.open(path.as_uri())
        self.assertTrue(self.shows.value("document.getElementById('broken').hidden"))

    def quiet(self) -> None:
        """The page threw nothing, and asked for nothing but itself."""
        self.assertEqual(self.shows.faults(), [])
        self.assertEqual([url for url in self.shows.asked() if not url.startswith(("file:", "data:"))], [])

    def text(self, place: str) -> str:
        """What stands in a place of the page."""
        return self.shows.value(f"document.querySelector('{place}').textContent")

    def tab_to(self, name: str) -> None:
        """Presses Tab until the part has the focus whose name begins so."""
        script = "(document.activeElement.getAttribute('aria-label') || document.activeElement.textContent).trim()"
        for _ in range(80):
            self.shows.press("Tab")
            if self.shows.value(script).startswith(name):
                return
        self.fail(f"Tab doesn't reach {name}")

    def test_page(self) -> None:
        """Two records that differ, at two widths, dark and light."""
        _, shown = gather.gather(self.save(RECORD))
        _, other = gather.gather(self.save(RECORD.replace('{"out":300}', '{"out":301}'), "second.record"))
        records = [{**shown, "trouble": []}, {**other, "trouble": []}]
        one = {"simulator": "A-0", "message": 3, "step": [1, 0], "places": [11, 11], "request": "get_data {}"}
        blamed = [{**one, "first": '[1,6,{"0":{"out":300}}]', "second": '[1,6,{"0":{"out":301}}]'}]
        text = page.page({"records": records, "blame": {"equal": False, "blamed": blamed}})
        papers = set()
        for width in (1280, 420):
            for scheme in ("light", "dark"):
                with self.subTest(width=width, scheme=scheme):
                    self.opened(text, width, scheme)
                    self.look()
                    self.assertLessEqual(self.shows.value("document.documentElement.scrollWidth"), width)
                    papers.add((scheme, self.shows.value("getComputedStyle(document.body).backgroundColor")))
                    self.keys()
                    self.quiet()
        self.assertEqual(len(papers), 2)

    def look(self) -> None:
        """Everything is drawn."""
        value = self.shows.value
        self.assertEqual(value("document.querySelectorAll('.graph .node').length"), 3)
        self.assertEqual(value("document.querySelectorAll('.graph .edge').length"), 2)
        ink = "[...document.querySelectorAll('canvas:not(.over)')].map(c => c.getContext('2d')"
        ink += ".getImageData(0, 0, c.width, c.height).data.filter((v, i) => i % 4 == 3 && v).length > 2000)"
        self.assertEqual(value(ink), [True, True])
        self.assertEqual(value("view.valuesState.chosen.map(one => [one.name, one.differs])"), [["A-0.0.out", 1]])
        self.assertIn("300", self.text("#compare mark"))

    def keys(self) -> None:
        """Arrows choose steps and values, + zooms, and the graph's nodes are reached."""
        value, press = self.shows.value, self.shows.press
        value("document.querySelector('#steps .plot').focus()")
        press("ArrowRight", "ArrowRight")
        self.assertIn("A-0, step 1:0", self.text("#steps .told"))
        press("Enter")
        self.assertIn("A-0, step 0:0", self.text("#steps .told"))
        press("+")
        self.assertEqual(value("view.stepsState.plot.transform.k"), 2)
        value("document.querySelector('#values .plot').focus()")
        press("ArrowRight", "ArrowRight")
        self.assertEqual(value("[view.valuesState.cursor, ...view.valuesState.chosen[0].cells.map(c => c.textContent)]"), [1, "300", "301"])
        value("document.querySelector('.graph .node[tabindex=\"0\"]').focus()")
        press("Enter")
        self.assertIn("Connections of", self.text("#graph .told"))

    def test_all_by_tab(self) -> None:
        """Tab reaches whatever can be used, each is seen to have the focus, and each has a name."""
        _, shown = gather.gather(self.save(RECORD))
        self.opened(page.page({"records": [{**shown, "trouble": []}]}))
        value = self.shows.value
        value("window.reached = new Set()")
        look = """(() => { const e = document.activeElement, s = getComputedStyle(e), r = e.querySelector("rect");
          if (e === document.body || reached.has(e)) return null;
          reached.add(e);
          const seen = s.outlineStyle === "solid" || r && getComputedStyle(r).strokeWidth === "4px";
          const name = e.getAttribute("aria-label") || e.textContent || e.labels && e.labels[0] && e.labels[0].textContent;
          return seen && name && name.trim() ? "" : e.outerHTML.slice(0, 200) })()"""
        for _ in range(80):
            self.shows.press("Tab")
            found = value(look)
            if found is None:
                break
            if 'class="lanes"' not in found:
                self.assertEqual(found, "")
        left = """[...document.querySelectorAll("a[href], button, input, summary, .plot[tabindex], .graph [tabindex='0']")]
          .filter(e => e.checkVisibility() && !reached.has(e)).map(e => e.outerHTML.slice(0, 200))"""
        self.assertEqual(value(left), [])

    def test_clock(self) -> None:
        """Each axis says what it shows; there is a clock where simulators noted their steps."""
        gathering, shown = gather.gather(self.save(RECORD))
        self.opened(page.page({"records": [{**shown, "trouble": []}]}))
        self.assertIn("units of the study's time", self.text("#steps-axis"))
        self.assertNotIn("Clock", self.text("#steps .tools"))
        self.tab_to("Order of the record")
        self.shows.press("Enter")
        self.assertIn("in the order in which they came", self.text("#steps-axis"))
        folder = self.noted({"A-0": "0 5 5.002\n1 5.01 5.0105\n", "B-0": "0 5.001 5.003\n2 5.0205 5.04\n"})
        self.assertEqual(clock.add_clock(gathering, shown, folder), [])
        self.opened(page.page({"records": [{**shown, "trouble": []}]}))
        self.tab_to("Clock")
        self.shows.press("Enter")
        self.assertIn("milliseconds of the clock", self.text("#steps-axis"))
        self.assertEqual(self.shows.value("view.stepsExtent(view.stepsState)[1]"), 40)
        self.tab_to("Steps of each simulator")
        self.shows.press("ArrowRight", "ArrowDown", "ArrowRight")
        self.assertIn("B-0, step 2:0", self.text("#steps .told"))
        self.assertIn("began 20.5 ms after the first step and took 19.5 ms", self.text("#steps .told"))
        self.shows.press("Enter")
        self.assertIn("A-0, step 1:0", self.text("#steps .told"))
        self.quiet()

    @unittest.skipUnless(found_program(), "the program isn't there: set MOSAIKRUN to its path")
    def test_two_records(self) -> None:
        """Of two records it says who answered differently, with both answers side by side, and the key leads to the step."""
        first, second = self.save(RECORD), self.save(RECORD.replace('{"out":300}', '{"out":301}'), "second.record")
        status, _, made = self.run_view(first, second)
        self.assertEqual(status, 0)
        self.opened(made or "")
        self.assertEqual(self.text("#state"), "1 simulator answered differently")
        self.assertIn("A-0 answered differently in its step 1:0", self.text("#compare h3"))
        sides = self.shows.value("[...document.querySelectorAll('#compare .pair > div')].map(e => [e.textContent, e.getBoundingClientRect().top])")
        self.assertEqual([text.partition(", line 25:")[::2] for text, _ in sides], [
            ("In study.record", '[1,6,{"0":{"out":300}}]'), ("In second.record", '[1,6,{"0":{"out":301}}]')])
        self.assertEqual(sides[0][1], sides[1][1])
        self.tab_to("Show A-0, step 1:0")
        self.shows.press("Enter")
        self.assertIn("A-0, step 1:0: ", self.text("#steps .told"))
        self.assertEqual(self.shows.value("document.activeElement.getAttribute('aria-label')"), "Steps of each simulator")
        self.quiet()

    @unittest.skipUnless(found_program(), "the program isn't there: set MOSAIKRUN to its path")
    def test_cut(self) -> None:
        """Of a record that was cut it says what went wrong and where, and the key leads to the step without an answer."""
        status, _, made = self.run_view(self.save(RECORD[: RECORD.index('{"out":300')]))
        self.assertEqual(status, 0)
        self.opened(made or "", 420, "dark")
        self.assertEqual(self.text("#state"), "not at its end")
        said = self.text("#trouble")
        for text in ("record: line 25 fault 5", "The record was cut", "run 8: record ends with 2 outstanding", "A-0, step 1:0", "C-0, step 0:1"):
            self.assertIn(text, said)
        self.assertEqual(self.shows.value("[...document.querySelectorAll('.graph .node.bad')].map(e => e.textContent.slice(0, 3))"), ["A-0", "C-0"])
        self.tab_to("Show A-0, step 1:0")
        self.shows.press("Enter")
        self.assertIn("A-0, step 1:0: ", self.text("#steps .told"))
        self.quiet()


if __name__ == "__main__":
    unittest.main()
