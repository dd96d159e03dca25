#!/usr/bin/env python3
"""Tries the tools that make tables of reports and records, `examples/report_csv.py` and `examples/record_csv.py`.

`run_tables.py PROGRAM` lets PROGRAM make a report and a record, of simulators within the program, and cuts both after
each of their bytes: the table of what is left is a beginning of the whole one, and the tool says that something is
missing. Then come records and reports that are damaged in other ways, and the tools' words. It prints what fails, and
ends with 'N passed, M failed'.
"""
import importlib.util
import io
import pathlib
import subprocess
import sys
import tempfile
from types import ModuleType

from common import ROOT, status_of

# outputs of a later time, an event, rounds within a time
SCENARIO = """until = 3
sim = [
    { name = "Count", local = "counter" },
    { name = "Late", local = "relay", params = { step = 1 } },
    { name = "Bat", local = "battery" },
    { name = "Ctl", local = "controller" },
]
entities = [
    { id = "count", sim = "Count-0", model = "Count", num = 2, params = { start = 5 } },
    { id = "late", sim = "Late-0", model = "Relay" },
    { id = "bat", sim = "Bat-0", model = "Battery" },
    { id = "ctl", sim = "Ctl-0", model = "Control", params = { goal = 1 } },
]
connect = [
    { from = "count", to = "late", attrs = [["out", "in"]] },
    { from = "bat", to = "ctl", attrs = ["soc"] },
    { from = "ctl", to = "bat", attrs = ["set"], weak = true },
    { from = "late", to = "bat", attrs = [["out", "set"]] },
]
"""
INPUTS = """time,round,target,input,source,value
0,0,Late-0.0,in,Count-0.0,5
0,0,Late-0.0,in,Count-0.1,5
1,0,Late-0.0,in,Count-0.0,6
1,0,Late-0.0,in,Count-0.1,6
2,0,Late-0.0,in,Count-0.0,7
2,0,Late-0.0,in,Count-0.1,7
0,1,Bat-0.0,set,Ctl-0.0,1
1,0,Bat-0.0,set,Late-0.0,10
2,0,Bat-0.0,set,Late-0.0,12
0,0,Ctl-0.0,soc,Bat-0.0,0
0,1,Ctl-0.0,soc,Bat-0.0,1
1,0,Ctl-0.0,soc,Bat-0.0,2
2,0,Ctl-0.0,soc,Bat-0.0,3
"""
VALUES = """time,round,entity,attribute,value
0,0,Count-0.0,out,5
0,0,Count-0.1,out,5
1,0,Count-0.0,out,6
1,0,Count-0.1,out,6
1,0,Late-0.0,out,10
2,0,Count-0.0,out,7
2,0,Count-0.1,out,7
2,0,Late-0.0,out,12
0,0,Bat-0.0,soc,0
3,0,Late-0.0,out,14
0,0,Ctl-0.0,set,1
0,1,Bat-0.0,soc,1
1,0,Bat-0.0,soc,2
2,0,Bat-0.0,soc,3
"""
STEPS = """time,round,simulator,max_advance,next
0,0,Count-0,3,1
1,0,Count-0,3,2
0,0,Late-0,0,
2,0,Count-0,3,3
1,0,Late-0,1,
0,0,Bat-0,0,
2,0,Late-0,3,
0,0,Ctl-0,0,
0,1,Bat-0,0,
0,1,Ctl-0,0,
1,0,Bat-0,1,
1,0,Ctl-0,1,
2,0,Bat-0,3,
2,0,Ctl-0,3,
"""
PLAN = """mosaikrun 2
run [9,100,2000000]
sim ["A-0","hybrid",3,0,[]]
sim ["B-0","event-based",3,1,[]]
model [0,"M",["p","q"],false]
model [1,"N",["in"],false]
entity [0,"e",[]]
entity [1,"f",[]]
conn [0,"p",1,"in","plain",true,true,[]]
"""
ROWS, PARTS, ANSWERS = "time,round,entity,attribute,value\n", "time,round,simulator,max_advance,next\n", "sim A-0\n"
HEAD = "time,round,target,input,source,value\n"
CUT = "there is no end line: the record is cut"
NONE = "is cut, or is none of a record: left out"

# what stands behind the plan, the rows of the table of values, that of steps, and what is missing
RECORDS = [
    ("end 0\n", "", "", []),
    ("", "", "", [CUT]),
    ("ask [0,1,0,9]\nend 1\n", "", "1,0,A-0,9,\n", ["A-0 has a step at 1:0 that isn't at its end"]),
    ('ask [0,1,0,9]\ngot [0,[2,3,"no"]]\nend 2\n', "", "1,0,A-0,9,\n",
     ["line 11: A-0 failed: no", "A-0 has a step at 1:0 that isn't at its end"]),
    ('ask [0,1,0,8]\ngot [0,[0,9,["x",[],{}]]]\ngot [0,[1,3,5]]\n'
     'got [0,[1,4,{"e":{"p":"a,b","q":0.5},"x":{"p":2}}]]\nend 4\n',
     '1,0,A-0.e,p,"a,b"\n', "1,0,A-0,8,5\n", []),
    ('ask [0,1,2,9]\ngot [0,[1,3,null]]\ngot [0,[1,4,{"time":1,"e":{"p":[true,{"a":1}]}}]]\nend 3\n',
     '1,2,A-0.e,p,"[true,{""a"":1}]"\n', "1,2,A-0,9,\n", []),
    ('ask [0,1,2,9]\ngot [0,[1,3,2]]\ngot [0,[1,4,{"time":3,"e":{"p":true}}]]\nend 3\n',
     "3,0,A-0.e,p,true\n", "1,2,A-0,9,2\n", []),
    ('ask [0,1,0,9]\ngot [0,[1,3,2]]\ngot [0,[1,4,{"e":{"p":[0.5]}}]]\nend 3\n', "", "1,0,A-0,9,2\n",
     ["line 12: p of A-0.e has a number that isn't whole"]),
    ("ask [1,1,0,9]\ngot [1,[1,3,null]]\nend 2\n", "", "1,0,B-0,9,\n", []),
    ("ask [1,1,0,9]\ngot [1,[1,3\ngot [7,[1,3,1]]\nask [1,2,0,9]\ngot [1,[1,4,null]]\nend 5\n", "",
     "1,0,B-0,9,\n2,0,B-0,9,\n", [f"line 11 {NONE}", f"line 12 {NONE}"]),
    ("ask [1,1,0,9]\ngot [1,[1,3,null]]\nend 7\n", "", "1,0,B-0,9,\n",
     ["the end line says 7 messages and steps, and there are 2"]),
    ("ask [1,1,0,9]\n\xff\n\0\0\0", "", "1,0,B-0,9,\n",
     [f"line 11 {NONE}", f"line 12 {NONE}", "B-0 has a step at 1:0 that isn't at its end", CUT]),
]
# a report, the rows of its table, and what is missing
LEFT, ENDLESS = "is cut, or is none of a report: left out", "there is no end line: the report is cut, or there is none"
REPORTS = [
    ("", "", [ENDLESS]),
    ("sim A-0\nend 0\n", "", []),
    ('sim A-0\nstep 0:1 {"e":{"p":{"B-0.f":"x","B-0.g":null}}}\nanswer 3 {"B-0.f":{}}\nrefuse 4 1\nend 1\n',
     "0,1,A-0.e,p,B-0.f,x\n0,1,A-0.e,p,B-0.g,null\n", []),
    ("of another text\nsim A-0\nstep 0:0 {}\nend 2\n", "",
     [f"line 1 {LEFT}", "the end line says 2 steps, and there are 1"]),
    ('sim A-0\nstep 0:0 {"e":{"p":{"B-0.f":4}}}\nstep 1:0 {"e":{"p"', "0,0,A-0.e,p,B-0.f,4\n",
     [f"line 3 {LEFT}", ENDLESS]),
]


def tool(name: str) -> ModuleType:
    """A tool of the examples."""
    spec = importlib.util.spec_from_file_location(name, ROOT / "examples" / f"{name}.py")
    assert spec is not None and spec.loader is not None
    module = importlib.util.module_from_spec(spec)
    spec.loader.exec_module(module)
    return module


REPORT_CSV, RECORD_CSV = tool("report_csv"), tool("record_csv")


def report_table(text: bytes) -> tuple[str, list[str]]:
    """The table of a report, and what is missing."""
    out = io.StringIO()
    missing = REPORT_CSV.table(io.BytesIO(text), out)
    return out.getvalue(), missing


def record_table(text: bytes, steps: bool) -> tuple[str, list[str]]:
    """The table of a record, and what is missing."""
    out = io.StringIO()
    try:
        missing = RECORD_CSV.table(io.BytesIO(text), steps, out)
    except ValueError as fault:
        return "", [str(fault)]
    return out.getvalue(), missing


def cuts(report: bytes, record: bytes) -> dict[str, bool]:
    """What is asked of a report and a record that are cut after each of their bytes, and whether it holds."""
    held = {}
    for length in range(len(report)):
        table, missing = report_table(report[:length])
        held[f"a report of {length} bytes"] = INPUTS.startswith(table) and missing != []
    for length in range(len(record)):
        values, missing = record_table(record[:length], False)
        held[f"a record of {length} bytes"] = VALUES.startswith(values) and missing != []
        # a step that has no answer yet has no next one
        steps, _ = record_table(record[:length], True)
        pairs = zip(steps.split("\n"), STEPS.split("\n"))
        held[f"its steps, {length} bytes"] = all(got in (all_of_it, all_of_it[: len(got)]) for got, all_of_it in pairs)
    return held


def damaged() -> dict[str, bool]:
    """What is asked of the damaged texts, and whether it holds."""
    held = {}
    for text, values, steps, missing in RECORDS:
        whole = (PLAN + text).encode("latin-1")
        for of_steps, table in ((False, ROWS + values), (True, PARTS + steps)):
            got = record_table(whole, of_steps)
            held[f"{text!r}, {of_steps}: {got}"] = got == (table, missing)
    for text, rows, missing in REPORTS:
        held[f"{text!r}: {report_table(text.encode())}"] = report_table(text.encode()) == (HEAD + rows, missing)
    for text in ("", "mosaikrun 3\n", "mosaikrun 2", "mosaikrun 2\r\n"):
        held[f"{text!r} is no record"] = record_table(text.encode(), False)[0] == ""
    old = (ROOT / "examples" / "counter-to-sum.record").read_bytes()
    table, missing = record_table(old, False)
    wanted = ROWS + "".join(f",,A-0.0,out,{value}\n" for value in range(7))
    held[f"version 1: {table} {missing}"] = table == wanted and len(missing) == 1
    return held


def called(folder: pathlib.Path) -> dict[str, bool]:
    """What is asked of the tools as programs, and whether it holds."""
    held = {}
    cut = (folder / "a.record").read_bytes()[:-3]
    (folder / "cut.record").write_bytes(cut)
    calls = [
        ("report_csv.py", ["a.report"], 0, INPUTS),
        ("report_csv.py", [], 0, INPUTS),
        ("report_csv.py", ["a.report", "b"], 2, ""),
        ("record_csv.py", ["a.record"], 0, VALUES),
        ("record_csv.py", ["a.record", "--steps"], 0, STEPS),
        ("record_csv.py", ["cut.record"], 1, VALUES),
        ("record_csv.py", ["a.report"], 2, ""),
        ("record_csv.py", ["none"], 2, ""),
        ("record_csv.py", [], 2, ""),
    ]
    for name, words, status, out in calls:
        call = [sys.executable, str(ROOT / "examples" / name), *words]
        with open(folder / "a.report", "rb") as report:
            ran = subprocess.run(call, cwd=folder, stdin=report, capture_output=True, text=True, check=False)
        got = (ran.returncode, ran.stdout, ran.stderr != "")
        held[f"{name} {words}: {ran}"] = got == (status, out, status != 0)
    return held


def main() -> int:
    """Tries all, and says what fails."""
    program = str(pathlib.Path(sys.argv[1]).resolve())
    with tempfile.TemporaryDirectory() as room:
        folder = pathlib.Path(room)
        (folder / "a.toml").write_text(SCENARIO, encoding="utf-8")
        call = [program, "run", "a.toml", "--record", "a.record"]
        report = subprocess.run(call, cwd=folder, capture_output=True, check=True).stdout
        (folder / "a.report").write_bytes(report)
        held = {**cuts(report, (folder / "a.record").read_bytes()), **damaged(), **called(folder)}
    for what in (what for what, holds in held.items() if not holds):
        print(what)
    failed = sum(not holds for holds in held.values())
    print(f"{len(held) - failed} passed, {failed} failed")
    return 1 if failed else 0


sys.exit(status_of(main))
