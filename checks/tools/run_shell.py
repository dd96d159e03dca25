#!/usr/bin/env python3
"""Tries what helps at the command line: the manual page, and the completion of words in bash and zsh.

`run_shell.py PROGRAM` takes the forms of the commands from the line that PROGRAM prints where it has no words: each has
to stand in the manual page, and each command and option in both completions. The page is set by groff without a
warning. The completions are tried in a folder with some files: bash's function is called with words, and both shells,
each at a terminal of its own, are given words and the tabulator key. Where groff or zsh isn't there, that part is left
out, which is said. It isn't part of `.ci/run`, since it needs a terminal and programs that may not be there. It prints
what fails, and ends with 'N passed, M failed'.
"""
import os
import pathlib
import pty
import re
import select
import shlex
import shutil
import subprocess
import sys
import tempfile
import time

ROOT = pathlib.Path(__file__).resolve().parents[2]
FILES = ["day.toml", "my study.toml", "day.record", "notes.txt", "sub/inner.toml"]
COMMANDS = ["run", "replay", "check", "demo", "migrate", "resume", "paced", "watch", "blame"]

# the words before the cursor, the last one being completed, and what bash offers
BASH: list[tuple[list[str], list[str]]] = [
    ([""], COMMANDS),
    (["r"], ["run", "replay", "resume"]),
    (["run", ""], ["day.toml", "my study.toml", "sub"]),
    (["run", "sub/"], ["sub/inner.toml"]),
    (["run", "day.toml", ""], ["--record"]),
    (["run", "-"], ["--record"]),
    (["run", "--record", "d"], ["day.record", "day.toml"]),
    (["run", "--record", "=", "n"], ["notes.txt"]),
    (["run", "--record", "="], FILES[:4] + ["sub"]),
    (["run", "--record", "r", ""], ["day.toml", "my study.toml", "sub"]),
    (["run", "day.toml", "--record", "r", ""], []),
    (["replay", "day.r"], ["day.record"]),
    (["replay", "day.record", "--"], ["--order"]),
    (["replay", "day.record", "--order", ""], []),
    (["check", "d"], ["day.toml"]),
    (["check", "day.toml", ""], []),
    (["demo", ""], []),
    (["migrate", "day.record", "n"], ["notes.txt"]),
    (["migrate", "a", "b", ""], []),
    (["resume", "d"], ["day.toml"]),
    (["resume", "day.toml", "day.r"], ["day.record"]),
    (["resume", "--record", "n"], ["notes.txt"]),
    (["resume", "day.toml", "day.record", ""], ["--record"]),
    (["paced", "d"], ["day.toml"]),
    (["paced", "day.toml", "1000", ""], ["--record", "--strict"]),
    (["paced", "day.toml", "1000", "--strict", "5", "--"], ["--record"]),
    (["paced", "--record", "n"], ["notes.txt"]),
    (["nothing", ""], []),
]
# what is typed, and what stands there after the tabulator key, in each shell
KEYS: list[tuple[str, str]] = [
    ("mosaikrun rep", "mosaikrun replay "),
    ("mosaikrun res", "mosaikrun resume "),
    ("mosaikrun m", "mosaikrun migrate "),
    ("mosaikrun p", "mosaikrun paced "),
    ("mosaikrun check d", "mosaikrun check day.toml "),
    ("mosaikrun run my", "mosaikrun run my\\ study.toml "),
    ("mosaikrun run sub/", "mosaikrun run sub/inner.toml "),
    ("mosaikrun run day.toml --record n", "mosaikrun run day.toml --record notes.txt "),
    ("mosaikrun run --record=n", "mosaikrun run --record=notes.txt "),
    ("mosaikrun replay --order 3 day.r", "mosaikrun replay --order 3 day.record "),
    ("mosaikrun resume day.toml day.r", "mosaikrun resume day.toml day.record "),
    ("mosaikrun migrate day.record n", "mosaikrun migrate day.record notes.txt "),
]
# what a shell reads first, from the file `rc/.zshrc`: the key control-T writes what stands there into the file `line`,
# and `ready` is written there as soon as keys are read
SETUPS = {
    "zsh": """PS1=; unset zle_bracketed_paste; fpath=(COMPLETION $fpath); autoload -Uz compinit; compinit -u -D
show() { print -r -- "$BUFFER" > shown; mv shown line; BUFFER= }
zle-line-init() { print -r -- ready > shown; mv shown line; zle -D zle-line-init }
zle -N show; zle -N zle-line-init; bindkey '^I' complete-word '^T' show
""",
    "bash": """PS1=; . COMPLETION/mosaikrun.bash
show() { printf '%s\\n' "$READLINE_LINE" > shown; mv shown line; READLINE_LINE=; }
bind -x '"\\C-t": show'; echo ready > line
""",
}


def page(forms: list[str]) -> dict[str, bool]:
    """What is asked of the manual page, and whether it holds."""
    source = ROOT / "docs" / "mosaikrun.1"
    if shutil.which("groff") is None:
        print("groff isn't there: the manual page wasn't looked at")
        return {}
    words = ["groff", "-man", "-ww", "-Tascii", "-P-cbou", str(source)]
    ran = subprocess.run(words, capture_output=True, text=True, check=False)
    text = re.sub(r"\s+", " ", ran.stdout)
    found = {f"manual page: {form}": f"mosaikrun {form} " in text for form in forms}
    return {**found, f"manual page is set without a warning {ran.stderr}": ran.returncode == 0 and not ran.stderr}


def bash(words: list[str], folder: str) -> list[str]:
    """What bash's completion offers for the last of these words."""
    script = '. "$0"; COMP_WORDS=(mosaikrun "$@"); COMP_CWORD=$#; _mosaikrun; printf "%s\\n" "${COMPREPLY[@]}"'
    call = ["bash", "--norc", "-c", script, str(ROOT / "completion" / "mosaikrun.bash"), *words]
    ran = subprocess.run(call, cwd=folder, capture_output=True, text=True, check=False)
    return ran.stdout.split("\n")[:-1] if ran.stdout != "\n" else []


def shown(folder: pathlib.Path, terminal: int, seconds: float = 20) -> str:
    """What the shell at this terminal wrote into the file `line`; empty where nothing comes."""
    end = time.monotonic() + seconds
    while time.monotonic() < end:
        if select.select([terminal], [], [], 0.02)[0]:
            os.read(terminal, 65536)
        if (folder / "line").exists():
            text = (folder / "line").read_text(encoding="utf-8").rstrip("\n")
            (folder / "line").unlink()
            return text
    return ""


def typed_at(name: str, words: list[str], folder: pathlib.Path) -> dict[str, bool]:
    """What is asked of the completion of this shell at a terminal, and whether it holds."""
    if shutil.which(name) is None:
        print(f"{name} isn't there: its completion wasn't tried")
        return {}
    near, far = pty.openpty()
    environment = {**os.environ, "TERM": "dumb", "ZDOTDIR": "rc"}
    setup = SETUPS[name].replace("COMPLETION", shlex.quote(str(ROOT / "completion")))
    (folder / "rc" / ".zshrc").write_text(setup, encoding="utf-8")
    streams = {"stdin": far, "stdout": far, "stderr": far}
    found = {}
    with subprocess.Popen(words, cwd=folder, env=environment, start_new_session=True, **streams) as shell:
        os.close(far)
        if shown(folder, near) == "ready":
            for typed, wanted in KEYS:
                os.write(near, f"{typed}\t".encode())
                time.sleep(0.2)
                os.write(near, b"\x14")
                got = shown(folder, near)
                found[f"{name}: {typed!r} becomes {got!r}, and should {wanted!r}"] = got == wanted
        shell.kill()
    os.close(near)
    return found or {f"{name} isn't ready": False}


def main() -> int:
    """Tries all, and says what fails."""
    usage = subprocess.run([sys.argv[1]], capture_output=True, text=True, check=False).stderr
    forms = usage.strip().partition("usage: ")[2].split(" or ")
    words = {word for form in forms for word in (form.split()[0], *re.findall(r"--[a-z]+", form))}
    held = page(forms)
    for name in ("mosaikrun.bash", "_mosaikrun"):
        text = (ROOT / "completion" / name).read_text(encoding="utf-8")
        held.update({f"{name} has {word}": re.search(rf"(?<![\w-]){word}\b", text) is not None for word in words})
    with tempfile.TemporaryDirectory() as room:
        folder = pathlib.Path(room)
        (folder / "sub").mkdir()
        for name in FILES:
            (folder / name).touch()
        for typed, wanted in BASH:
            got = bash(typed, room)
            held[f"bash: {typed} gives {got}, and should {wanted}"] = sorted(got) == sorted(wanted)
        (folder / "rc").mkdir()
        held.update(typed_at("bash", ["bash", "--noprofile", "--rcfile", "rc/.zshrc", "-i"], folder))
        held.update(typed_at("zsh", ["zsh", "-d", "-i"], folder))
    for what in (what for what, holds in held.items() if not holds):
        print(what)
    failed = sum(not holds for holds in held.values())
    print(f"{len(held) - failed} passed, {failed} failed")
    return 1 if failed else 0


sys.exit(main())
