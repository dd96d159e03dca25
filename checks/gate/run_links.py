#!/usr/bin/env python3
"""Tries the greatest sizes and numbers, and the program mk_child, over real links with this script at the other end.

`run_links.py PROGRAM` tries at each limit what is just taken, and one more:

- the bytes of a message that the program sends, in the handshake and in a run;
- a simulator's requests within one step, its models, and the entities of one reply;
- a record's models, entities and connections.

It also tries metadata, each fault and what is right.

Where mk_child is there, beside PROGRAM or where a gate makes it, it is called as a program, and talked to: what it
answers, byte for byte, which requests it doesn't know, and with which status it ends. Where it isn't, this is left out
and said. It prints what differs, and ends with 'N passed, M failed'.
"""

from __future__ import annotations

import collections
import contextlib
import json
import pathlib
import socket
import subprocess
import sys
import tempfile
import threading
from typing import Any, Callable, Dict, Iterator, List, NamedTuple, Tuple

from common import child_of, status_of

LONGEST = 67_108_864
SECONDS = 300
# a simulator: the content of its reply to a request of this content, on its link
Answers = Callable[["Link", List[Any]], bytes]


class Ended(NamedTuple):
    """How a program ended: its status, and what it printed."""

    status: int
    out: str
    err: str


class Link:
    """One end of a link."""

    def __init__(self, end: socket.socket) -> None:
        end.settimeout(SECONDS)
        self.end, self.file = end, end.makefile("rb")
        self.heard: List[bytes] = []

    def say(self, payload: bytes) -> None:
        """Says a frame."""
        self.end.sendall(len(payload).to_bytes(4, "big") + payload)

    def frames(self) -> Iterator[bytes]:
        """The payloads of the frames that come, until the link ends."""
        while len(header := self.file.read(4)) == 4:
            payload = self.file.read(int.from_bytes(header, "big"))
            self.heard.append(payload)
            yield payload


def compact(tree: Any) -> bytes:
    """The compact JSON of a tree."""
    return json.dumps(tree, separators=(",", ":")).encode()


def listening() -> socket.socket:
    """A socket at a free port of this machine, at which one may connect."""
    door = socket.create_server(("127.0.0.1", 0))
    door.settimeout(SECONDS)
    return door


def simulate(door: socket.socket, answers: Answers, links: List[Link]) -> None:
    """Takes a link, and answers its requests until a stop."""
    try:
        end = door.accept()[0]
        with end:
            links.append(link := Link(end))
            for payload in link.frames():
                kind, number, content = json.loads(payload)
                if kind == 0 and content[0] != "stop":
                    link.say(b"[1,%d,%s]" % (number, answers(link, content)))
    except OSError:
        # the program may close the link at any time
        pass


def called(program: str, *words: str) -> Ended:
    """Calls a program."""
    ran = subprocess.run([program, *words], capture_output=True, text=True, timeout=SECONDS, check=False)
    return Ended(ran.returncode, ran.stdout, ran.stderr)


def run(program: str, room: str, scenario: str, *sims: Answers) -> Tuple[Ended, List[Link]]:
    """Runs a scenario, in which `PORT0`, `PORT1` and so on are the ports of these simulators; saves its record as `r`."""
    doors = [listening() for _ in sims]
    found: List[List[Link]] = [[] for _ in sims]
    works = [threading.Thread(target=simulate, args=work, daemon=True) for work in zip(doors, sims, found)]
    for place, (door, work) in enumerate(zip(doors, works)):
        scenario = scenario.replace(f"PORT{place}", str(door.getsockname()[1]))
        work.start()
    pathlib.Path(room, "s.toml").write_text(scenario, encoding="utf-8")
    ended = called(program, "run", f"{room}/s.toml", "--record", f"{room}/r")
    for door, work in zip(doors, works):
        work.join(SECONDS)
        door.close()
    return ended, [link for links in found for link in links]


def plain(models: bytes, created: bytes = b"", data: bytes = b"") -> Answers:
    """A time-based simulator that says these models, these entities and these data, and steps by 1."""
    return described(b'{"api_version":"3.0","models":%s}' % models, created, data)


def described(meta: bytes, created: bytes = b"", data: bytes = b"") -> Answers:
    """The same, with its whole metadata."""
    replies = {"init": meta, "create": created, "get_data": data}

    def answers(_: Link, content: List[Any]) -> bytes:
        return b"%d" % (content[1][0] + 1) if content[0] == "step" else replies.get(content[0], b"null")

    return answers


def differs(what: str, got: Any, want: Any) -> List[str]:
    """What differs, if it does, in a short line."""
    return [] if got == want else [f"{what}: {str(got)[:300]}, and not {str(want)[:300]}"]


SIM = '[[sim]]\nname = "{name}"\nconnect = "127.0.0.1:PORT{place}"\n'
ONE = "until = 1\n" + SIM.format(name="A", place=0)
GROUP = '[[entities]]\nid = "a"\nsim = "A-0"\nmodel = "M"\n'
MODEL = b'{"M":{"public":true,"params":["p"],"attrs":["a"]}}'
MADE = b'[{"eid":"0","type":"M"}]'
STEPPED = Ended(0, "sim A-0\nstep 0:0 {}\nend 1\n", "")
PAIR = "until = 1\n" + SIM.format(name="A", place=0) + SIM.format(name="B", place=1) + GROUP
PAIR += GROUP.replace('"a"', '"b"').replace("A-0", "B-0")
CONNECTED = '[[connect]]\nfrom = "a"\nto = "b"\nattrs = ["a"]\n'


def filled(front: bytes, back: bytes, length: int = LONGEST) -> bytes:
    """Bytes of this length, x between these."""
    return front + b"x" * (length - len(front) - len(back)) + back


def too_long(sim: str, length: int) -> Ended:
    """The end of a run in which a message to a simulator would be longer than a frame."""
    return Ended(7, "", f"mosaikrun: limit: {sim} message of {length} bytes\n")


def longest_init(program: str, room: str) -> List[str]:
    """The longest message of the handshake is sent whole."""
    whole = filled(b'[0,0,["init",["A-0"],{"p":"', b'","time_resolution":1}]]')
    text = "x" * whole.count(b"x")
    ended, links = run(program, room, ONE + f'params = {{ p = "{text}" }}\n', plain(b"{}"))
    return differs("end", ended, STEPPED) + differs("heard", links[0].heard[0], whole)


def too_long_create(program: str, room: str) -> List[str]:
    """One byte more isn't sent: the simulator hears its stop next."""
    whole = filled(b'[0,1,["create",[1,"M"],{"p":"', b'"}]]', LONGEST + 1)
    text = "x" * whole.count(b"x")
    ended, links = run(program, room, ONE + GROUP + f'params = {{ p = "{text}" }}\n', plain(MODEL))
    heard = [json.loads(payload)[2][0] for payload in links[0].heard]
    return differs("end", ended, too_long("A-0", LONGEST + 1)) + differs("heard", heard, ["init", "stop"])


def too_long_step(program: str, room: str) -> List[str]:
    """A simulator says the longest message, and the step that would have its value is longer."""
    data = filled(b'{"0":{"a":"', b'"}}', LONGEST - len(b"[1,4,]"))
    text = b"x" * data.count(b"x")
    step = b'[0,3,["step",[0,{"0":{"a":{"A-0.0":"%s"}}},1],{}]]' % text
    ended, links = run(program, room, PAIR + CONNECTED, plain(MODEL, MADE, data), plain(MODEL, MADE))
    heard = [json.loads(payload)[2][0] for payload in links[1].heard]
    return differs("end", ended, too_long("B-0", len(step))) + differs("heard", heard[3:], ["stop"])


def requests_in_a_step(program: str, room: str) -> List[str]:
    """Requests within one step: 10,000 are answered, and the next one is a wrong message."""
    found: List[str] = []
    whole = STEPPED.out.replace("end", "refuse 7 1\n" * 10_000 + "end")
    wrong = Ended(5, "", "mosaikrun: run 1: A-0 message 10000 cause 8\n")
    for more, want in ((0, Ended(0, whole, "")), (1, wrong)):
        honest = plain(b"{}")

        def asks(link: Link, content: List[Any], count: int = 10_000 + more) -> bytes:
            if content[0] == "step":
                asked = b'[0,7,["x",[],{}]]'
                link.end.sendall((len(asked).to_bytes(4, "big") + asked) * count)
            return honest(link, content)

        ended, _ = run(program, room, ONE, asks)
        found += differs(f"{more} more", ended, want)
    found += differs("replay", called(program, "replay", f"{room}/r"), wrong)
    last = pathlib.Path(room, "r").read_text(encoding="utf-8").splitlines()[-1]
    return found + differs("record", last, "end 10002")


def model(**parts: Any) -> Dict[str, Any]:
    """A model with an attribute, and with these parts; `events` is its `non-persistent`."""
    renamed = {name.replace("events", "non-persistent"): part for name, part in parts.items()}
    return {"public": True, "params": [], "attrs": ["a"], **renamed}


def meta(models: Any, **parts: Any) -> Dict[str, Any]:
    """Metadata with these models, and with these parts."""
    return {"api_version": "3.0", "models": models, **parts}


def hybrid(**parts: Any) -> Dict[str, Any]:
    """Metadata of a hybrid simulator with one model of these parts."""
    return meta({"M": model(**parts)}, type="hybrid")


# metadata, and the fault of it; most have a second one, which is tested later
METADATA: Tuple[Tuple[Dict[str, Any], str], ...] = (
    ({"api_version": 3, "type": "fast"}, "1: A-0"),
    ({"api_version": "30.1", "type": "fast"}, "2: A-0 30.1"),
    ({"api_version": "", "models": {}}, "2: A-0 "),
    ({"api_version": "3.0", "type": 7}, "3: A-0 "),
    (meta({}, type=None), "3: A-0 "),
    (meta([], type="hybrid"), "4: A-0"),
    (meta({"b": 7, "B": []}), "5: A-0 B "),
    (meta({"M": model(public=1, params=7)}), "5: A-0 M public"),
    (meta({"M": {"params": 7, "attrs": []}}), "5: A-0 M public"),
    (meta({"M": model(params=["a", 7], attrs=7)}), "5: A-0 M params"),
    (meta({"M": {"public": False, "attrs": 7}}), "5: A-0 M params"),
    (meta({"M": model(attrs=["a", None], any_inputs=7)}), "5: A-0 M attrs"),
    (hybrid(any_inputs=1, trigger=7), "5: A-0 M any_inputs"),
    (meta({"M": model(any_inputs=None)}), "5: A-0 M any_inputs"),
    (hybrid(trigger="a", events=7), "5: A-0 M trigger"),
    (hybrid(trigger=["a", ["a"]]), "5: A-0 M trigger"),
    (hybrid(trigger=None), "5: A-0 M trigger"),
    (hybrid(trigger=["z"], events={}), "5: A-0 M non-persistent"),
    (hybrid(trigger=["a"], events=["a", 0]), "5: A-0 M non-persistent"),
    (hybrid(trigger=["a", "z"], events=["y"]), "6: A-0 M z"),
    (hybrid(any_inputs=False, trigger=["z"]), "6: A-0 M z"),
    (hybrid(any_inputs=True, trigger=["z"], events=["a", "y"]), "6: A-0 M y"),
    (meta({"A": model(trigger=["z"]), "B": 7}, type="hybrid"), "6: A-0 A z"),
)
# metadata without a fault
RIGHT: Tuple[Dict[str, Any], ...] = (
    meta({"M": model(trigger=7, events=["z"], more=0)}, api_version="3", extra_methods=["x"]),
    meta({"M": model(trigger=["z"], events=7)}, type="time-based"),
    hybrid(trigger=["a"], events=["a"], any_inputs=False),
    hybrid(trigger=["z"], any_inputs=True),
    hybrid(public=False, params=["p", "p"]),
)


def metadata(program: str, room: str) -> List[str]:
    """Metadata with faults, of which the first is named, and without."""
    rows = [(tree, Ended(4, "", f"mosaikrun: meta {line}\n")) for tree, line in METADATA]
    rows += [(tree, STEPPED) for tree in RIGHT]
    rows += [(meta({"M": model(trigger=["z"], events=7)}, type="event-based"), Ended(0, "sim A-0\nend 0\n", ""))]
    found: List[str] = []
    for tree, want in rows:
        found += differs(f"{tree}", run(program, room, ONE, described(compact(tree)))[0], want)
    return found


def models_of_a_simulator(program: str, room: str) -> List[str]:
    """Models of a simulator: 10,000, and one more."""
    found: List[str] = []
    for count, want in ((10_000, STEPPED), (10_001, Ended(4, "", "mosaikrun: meta 4: A-0\n"))):
        models = {f"M{place}": model() for place in range(count)}
        found += differs(f"{count}", run(program, room, ONE, plain(compact(models)))[0], want)
    return found


def entities_of_a_reply(program: str, room: str) -> List[str]:
    """Entities in one reply, those within others among them: 10,000, and one more, which is said before a wrong relation."""
    found: List[str] = []
    for count, rel, want in (
        (10_000, "1", STEPPED),
        (10_001, "none", Ended(4, "", "mosaikrun: create 6: A-0 10001\n")),
    ):
        inner = [{"eid": str(place), "type": "M"} for place in range(1, count)]
        made = compact([{"eid": "0", "type": "M", "rel": [rel], "children": inner}])
        found += differs(f"{count}", run(program, room, ONE + GROUP, plain(MODEL, made))[0], want)
    return found


def parts_of_a_record(program: str, room: str) -> List[str]:
    """The models, entities and connections of a record's plan: as many as there may be, and one more."""
    sims = ['sim ["A-0","time-based",3,0,[]]', 'sim ["B-0","time-based",3,1,[]]']
    models = ['model [0,"M",["a"],false]', 'model [1,"N",[],true]']
    entities = ['entity [0,"0",[]]', 'entity [1,"0",[]]']
    found: List[str] = []
    for name, limit in (("model", 10_000), ("entity", 10_000), ("conn", 100_000)):
        for count in (limit, limit + 1):
            rows = ["mosaikrun 1", "run [1,100,2000000]", *sims]
            rows += [f'model [0,"{place}",[],false]' for place in range(count)] if name == "model" else models
            rows += [f'entity [0,"{place}",[]]' for place in range(count)] if name == "entity" else []
            rows += entities if name == "conn" else []
            rows += [f'conn [0,"a",1,"{place}","plain",true,false,[]]' for place in range(count) if name == "conn"]
            pathlib.Path(room, "r").write_text("\n".join([*rows, "end 0", ""]), encoding="utf-8")
            short = Ended(5, "", f"mosaikrun: run 8: record ends with {1 if name == 'conn' else 2} outstanding\n")
            over = Ended(3, "", f"mosaikrun: record: line {len(rows) + 1} fault 3\n")
            want = short if count == limit else over
            found += differs(f"{count} {name}", called(program, "replay", f"{room}/r"), want)
    return found


def talked(child: str, kind: str, said: bytes, is_ended: bool = False) -> Tuple[int, List[bytes]]:
    """Starts mk_child and says these bytes, and then, if so asked, ends the link; its status, and what it said."""
    with listening() as door, subprocess.Popen([child, kind, f"127.0.0.1:{door.getsockname()[1]}"]) as ran:
        try:
            end = door.accept()[0]
            with end:
                link = Link(end)
                end.sendall(said)
                if is_ended:
                    end.shutdown(socket.SHUT_WR)
                with contextlib.suppress(ConnectionResetError):
                    # as where it ends before it has read all
                    collections.deque(link.frames(), 0)
            return ran.wait(SECONDS), link.heard
        finally:
            ran.kill()


def framed(*payloads: bytes) -> bytes:
    """These payloads as frames."""
    return b"".join(len(payload).to_bytes(4, "big") + payload for payload in payloads)


INIT = b'[0,0,["init",["A-0"],{"step":1,"time_resolution":1}]]'
STOP = b'[0,9,["stop",[],{}]]'
META = b'{"api_version":"3.0","models":{"Count":{"attrs":["out"],"params":["start"],"public":true}},"type":"time-based"}'
# what is said to a counter, and what it answers, if anything
TALK = (
    (INIT, b"[1,0,%s]" % META),
    (b'[0,1,["create",[1,"Count"],{"start":0}]]', b'[1,1,[{"eid":"0","type":"Count"}]]'),
    (b'[0,2,["setup_done",[],{}]]', b"[1,2,null]"),
    (b'[0,3,["step",[0,{},3],{}]]', b"[1,3,1]"),
    (b'[0,4,["get_data",[{"0":["out"]}],{}]]', b'[1,4,{"0":{"out":0}}]'),
    (b"[1,0,null]", b""),
    (b'[2,4,"no"]', b""),
    (b'[0,5,["step",[1000000000,{"0":{"in":{"B-0.0":[7]}}},1000000000],{}]]', b"[1,5,1000000001]"),
    (b'[0,6,["create",[1,"Sum"],{}]]', b'[2,6,"unknown model"]'),
    (b'[0,7,["init",["A-0"],{"step":1,"width":1}]]', b'[2,7,"bad parameter width"]'),
    (STOP, b""),
)
DEEP = b"[" * 101 + b"]" * 101
# functions and arguments of no request that there is
UNKNOWN = (
    (b"get_progress", b"[],{}"),
    (b"init", b"[],{}"),
    (b"init", b'["A-0","A-0"],{}'),
    (b"init", b"[7],{}"),
    (b"create", b"[1],{}"),
    (b"create", b'[-1,"Count"],{}'),
    (b"create", b'[1.0,"Count"],{}'),
    (b"create", b"[1,7],{}"),
    (b"setup_done", b"[7],{}"),
    (b"setup_done", b'[],{"a":7}'),
    (b"step", b"[0,{}],{}"),
    (b"step", b"[-1,{},3],{}"),
    (b"step", b"[1000000001,{},3],{}"),
    (b"step", b"[null,{},3],{}"),
    (b"step", b"[0,[],3],{}"),
    (b"step", b'[0,{"0":7},3],{}'),
    (b"step", b'[0,{"0":{"in":7}},3],{}'),
    (b"step", b'[0,{"0":{"in":{"B-0.0":1.5}}},3],{}'),
    (b"step", b'[0,{"0":{"in":{"B-0.0":%s}}},3],{}' % DEEP),
    (b"step", b'[0,{},"3"],{}'),
    (b"step", b'[0,{},3],{"a":7}'),
    (b"get_data", b"[],{}"),
    (b"get_data", b"[[]],{}"),
    (b"get_data", b'[{"0":"out"}],{}'),
    (b"get_data", b'[{"0":["out",7]}],{}'),
    (b"get_data", b'[{}],{"a":7}'),
    (b"stop", b"[7],{}"),
)


def talk(child: str) -> List[str]:
    """A counter's whole talk, byte for byte, up to its stop."""
    want = [answer for _, answer in TALK if answer]
    return differs("talk", talked(child, "counter", framed(*(said for said, _ in TALK))), (0, want))


def unknown_requests(child: str) -> List[str]:
    """Each request that isn't known gets a failure reply, and the next one is answered."""
    asked = [b'[0,%d,["%s",%s]]' % (place, *content) for place, content in enumerate(UNKNOWN)]
    status, heard = talked(child, "counter", framed(TALK[0][0], TALK[1][0], *asked, TALK[3][0], STOP))
    found = differs("status", status, 0) + differs("around", heard[:2] + heard[-1:], [TALK[0][1], TALK[1][1], TALK[3][1]])
    found += differs("replies", len(heard), len(UNKNOWN) + 3)
    for place, (said, got) in enumerate(zip(asked, heard[2:])):
        found += differs(said.decode(), got, b'[2,%d,"unknown request"]' % place)
    return found


def endings(child: str) -> List[str]:
    """The status with which it ends, where its link ends, and where what it hears is no message."""
    found: List[str] = []
    for name, said, is_ended in (
        ("at once", b"", True),
        ("after a request", framed(INIT), True),
        ("within a frame", framed(INIT) + framed(STOP)[:-1], True),
        ("no message", framed(INIT, b"{}", INIT), False),
        ("a long frame", framed(INIT) + b"\x04\x00\x00\x01", False),
    ):
        got = talked(child, "counter", said, is_ended)
        found += differs(name, got, (5, [TALK[0][1]] if said else []))
    return found


def words(child: str) -> List[str]:
    """Words that are no kind and address, and an address where no one listens."""
    with socket.socket() as shut:
        shut.bind(("127.0.0.1", 0))
        silent = f"127.0.0.1:{shut.getsockname()[1]}"
        rows: List[Tuple[List[str], int]] = [([], 2), (["counter"], 2), (["counter", silent, "more"], 2)]
        rows += [(["count", silent], 2), (["Counter", silent], 2), (["", silent], 2)]
        places = ("127.0.0.1", "127.0.0.1:0", "127.0.0.1:080", "127.0.0.1:65536", "127.0.0.2:80", "localhost:", ":80", "")
        rows += [(["counter", place], 2) for place in places]
        rows += [(["counter", silent], 6), (["counter", silent.replace("127.0.0.1", "localhost")], 6)]
        return [line for some, status in rows for line in differs(f"{some}", called(child, *some).status, status)]


def long_reply(child: str) -> List[str]:
    """A reply that is longer than a frame: it isn't said, but what came before is."""
    got = talked(child, "counter", framed(INIT, b'[0,1,["create",[2100000,"Count"],{}]]', INIT))
    return differs("long reply", (got[0], [heard[:200] for heard in got[1]]), (7, [TALK[0][1]]))


OF_PROGRAM = (
    longest_init,
    too_long_create,
    too_long_step,
    requests_in_a_step,
    metadata,
    models_of_a_simulator,
    entities_of_a_reply,
    parts_of_a_record,
)
OF_CHILD = (talk, unknown_requests, endings, words, long_reply)


def tried(check: Callable[..., List[str]], *what: str) -> bool:
    """Makes a check, and prints what differs."""
    found = check(*what)
    for line in found:
        print(f"{check.__name__}: {line}")
    return not found


def main() -> int:
    """Makes each check, those of the program in a folder of its own."""
    program = pathlib.Path(sys.argv[1]).resolve()
    child = child_of(program)
    right: List[bool] = []
    for check in OF_PROGRAM:
        with tempfile.TemporaryDirectory() as room:
            right.append(tried(check, str(program), room))
    if child is None:
        print(f"mk_child isn't built, so what needs it was left out: {len(OF_CHILD)} checks")
    else:
        right += [tried(check, str(child)) for check in OF_CHILD]
    print(f"{sum(right)} passed, {len(right) - sum(right)} failed")
    return 0 if all(right) else 1


if __name__ == "__main__":
    sys.exit(status_of(main))
