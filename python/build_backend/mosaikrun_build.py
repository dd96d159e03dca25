"""Builds the Python package, as PEP 517 and PEP 660 ask for it: by the standard library alone, without a network.

The wheel has the package `mosaikrun`, in it the program (`bin/mosaikrun`) and `messages.md`, which the package reads.
The program is that which the variable MOSAIKRUN names, else that of the package's folder, where a source distribution
has it, else `dist/mosaikrun` of the checkout. With it the wheel is for x86-64 Linux with glibc 2.34, else for any.
Two builds of the same files are the same to the last byte.
"""
from __future__ import annotations

import ast
import base64
import gzip
import hashlib
import io
import os
import pathlib
import platform
import re
import sys
import tarfile
import zipfile
from typing import Any, Dict, List, NamedTuple, Optional

HERE = pathlib.Path(__file__).resolve().parents[1]
CHECKOUT = HERE.parent
ANY, OF_PROGRAM = "py3-none-any", "py3-none-manylinux_2_34_x86_64"
# the files that the package has from elsewhere in the checkout
ELSEWHERE = {"mosaikrun/messages.md": "docs/messages.md"}
PROGRAM = "mosaikrun/bin/mosaikrun"
NOTICES = "NOTICES"
# what a source distribution has of this folder
SOURCES = ("pyproject.toml", "build_backend", "mosaikrun", "tests", NOTICES)
WITHOUT = (
    "mosaikrun: the package is built without the program: dist/mosaikrun isn't there, or isn't for this machine. "
    "Set the variable MOSAIKRUN to the program's path, when it is built or when it is used"
)
# the oldest moment that a zip archive can say
MOMENT = (1980, 1, 1, 0, 0, 0)
SECONDS = 315532800


class File(NamedTuple):
    """A file of an archive: its name there, what it holds, and whether it can be run."""

    name: str
    data: bytes
    runs: bool = False


def project() -> Dict[str, Any]:
    """The table [project] of pyproject.toml, and the tables within it, by their headings."""
    table: Optional[Dict[str, Any]] = None
    tables: Dict[str, Any] = {}
    for line in (HERE / "pyproject.toml").read_text(encoding="utf-8").splitlines():
        heading = re.fullmatch(r"\[([\w.-]+)\]", line.strip())
        if heading:
            table = tables.setdefault(heading[1], {})
        elif table is not None and line.strip() and not line.startswith("#"):
            key, _, value = line.partition("=")
            table[key.strip()] = ast.literal_eval(value.strip())
    return tables


def metadata() -> str:
    """The file METADATA: which package this is."""
    tables = project()
    main = tables["project"]
    lines = [
        "Metadata-Version: 2.1",
        f"Name: {main['name']}",
        f"Version: {main['version']}",
        f"Summary: {main['description']}",
        f"Keywords: {','.join(main['keywords'])}",
        f"Requires-Python: {main['requires-python']}",
    ]
    for extra, names in tables["project.optional-dependencies"].items():
        lines.append(f"Provides-Extra: {extra}")
        lines += [f'Requires-Dist: {name}; extra == "{extra}"' for name in names]
    return "\n".join(lines) + "\n"


def stem() -> str:
    """The package's name and version, as archives and folders have them in their names."""
    main = project()["project"]
    return f"{main['name']}-{main['version']}"


def program() -> Optional[bytes]:
    """The program, or None where there is none for the machine that builds."""
    named = os.environ.get("MOSAIKRUN")
    places = [pathlib.Path(named)] if named else [HERE / PROGRAM, CHECKOUT / "dist" / "mosaikrun"]
    for place in places:
        if place.is_file():
            for_it = sys.platform == "linux" and platform.machine() == "x86_64"
            return place.read_bytes() if for_it else None
    if named:
        raise FileNotFoundError(f"the variable MOSAIKRUN is {named}, and there is no such file")
    if not (CHECKOUT / "docs").is_dir() and not (HERE / "PKG-INFO").is_file():
        raise FileNotFoundError(
            "the program isn't there: pip before 21.3 builds in a copy of this folder alone. Give pip the option "
            "--use-feature=in-tree-build, or set the variable MOSAIKRUN to the program's path"
        )
    return None


def package(of_sources: bool = False) -> List[File]:
    """The files of the package, or all of a source distribution, in the order of their names."""
    names = SOURCES if of_sources else ("mosaikrun",)
    paths = [path for name in names for path in ((HERE / name).rglob("*") if (HERE / name).is_dir() else [HERE / name])]
    files: Dict[str, File] = {}
    for path in paths:
        name = path.relative_to(HERE).as_posix()
        if path.is_file() and "__pycache__" not in name and name != PROGRAM:
            files[name] = File(name, path.read_bytes())
    for name, place in ELSEWHERE.items():
        if (CHECKOUT / place).is_file():
            files[name] = File(name, (CHECKOUT / place).read_bytes())
    found = program()
    if found is not None:
        files[PROGRAM] = File(PROGRAM, found, True)
        notices = notices_of_program()
        if of_sources and notices is not None:
            files[NOTICES] = File(NOTICES, notices)
    return [files[name] for name in sorted(files)]


def notices_of_program() -> Optional[bytes]:
    """The notices that go with the program."""
    for place in (HERE / NOTICES, CHECKOUT / "dist" / NOTICES):
        if place.is_file():
            return place.read_bytes()
    return None


def info(tag: str) -> List[File]:
    """The files that say what a wheel is, except RECORD."""
    folder = f"{stem()}.dist-info"
    scripts = "".join(f"{name} = {place}\n" for name, place in project()["project.scripts"].items())
    pure = "true" if tag.endswith("any") else "false"
    wheel = f"Wheel-Version: 1.0\nGenerator: mosaikrun_build\nRoot-Is-Purelib: {pure}\nTag: {tag}\n"
    files = [
        File(f"{folder}/METADATA", metadata().encode()),
        File(f"{folder}/WHEEL", wheel.encode()),
        File(f"{folder}/entry_points.txt", f"[console_scripts]\n{scripts}".encode()),
    ]
    notices = None if tag.endswith("any") else notices_of_program()
    return files + ([File(f"{folder}/licenses/{NOTICES}", notices)] if notices is not None else [])


def archived(folder: str, files: List[File], tag: str) -> str:
    """Writes a wheel of these files, with the RECORD of their checksums, and gives its name."""
    record = f"{stem()}.dist-info/RECORD"
    lines = []
    for file in files:
        digest = base64.urlsafe_b64encode(hashlib.sha256(file.data).digest()).rstrip(b"=").decode()
        lines.append(f"{file.name},sha256={digest},{len(file.data)}\n")
    name = f"{stem()}-{tag}.whl"
    with zipfile.ZipFile(pathlib.Path(folder) / name, "w", zipfile.ZIP_DEFLATED) as wheel:
        for file in [*files, File(record, f"{''.join(lines)}{record},,\n".encode())]:
            entry = zipfile.ZipInfo(file.name, MOMENT)
            entry.external_attr = (0o100755 if file.runs else 0o100644) << 16
            entry.compress_type = zipfile.ZIP_DEFLATED
            wheel.writestr(entry, file.data)
    return name


def get_requires_for_build_wheel(config_settings: Any = None) -> List[str]:
    """Nothing else is needed."""
    return []


get_requires_for_build_sdist = get_requires_for_build_editable = get_requires_for_build_wheel


def prepare_metadata_for_build_wheel(metadata_directory: str, config_settings: Any = None) -> str:
    """Writes what the wheel will say that it is."""
    return prepared(metadata_directory, wheel_tag())


def prepare_metadata_for_build_editable(metadata_directory: str, config_settings: Any = None) -> str:
    """Writes what the wheel that leads here will say that it is."""
    return prepared(metadata_directory, ANY)


def prepared(folder: str, tag: str) -> str:
    """Writes the files that say what a wheel is, and gives the name of their folder."""
    for file in info(tag):
        path = pathlib.Path(folder) / file.name
        path.parent.mkdir(parents=True, exist_ok=True)
        path.write_bytes(file.data)
    return f"{stem()}.dist-info"


def wheel_tag() -> str:
    """Which machines the wheel is for."""
    return ANY if program() is None else OF_PROGRAM


def build_wheel(wheel_directory: str, config_settings: Any = None, metadata_directory: Optional[str] = None) -> str:
    """Builds the wheel, and says where it has no program."""
    tag = wheel_tag()
    if tag == ANY:
        print(WITHOUT, file=sys.stderr)
    return archived(wheel_directory, package() + info(tag), tag)


def build_editable(wheel_directory: str, config_settings: Any = None, metadata_directory: Optional[str] = None) -> str:
    """Builds a wheel that leads to this folder, whose files are then used in place."""
    leads = File(f"__editable__.{stem()}.pth", f"{HERE}\n".encode())
    return archived(wheel_directory, [leads, *info(ANY)], ANY)


def build_sdist(sdist_directory: str, config_settings: Any = None) -> str:
    """Builds the source distribution, with the program in it."""
    name = f"{stem()}.tar.gz"
    files = [File("PKG-INFO", metadata().encode()), *package(of_sources=True)]
    with open(pathlib.Path(sdist_directory) / name, "wb") as raw, gzip.GzipFile(
        "", "wb", fileobj=raw, mtime=SECONDS
    ) as packed, tarfile.open(mode="w", fileobj=packed, format=tarfile.PAX_FORMAT) as archive:
        for file in files:
            entry = tarfile.TarInfo(f"{stem()}/{file.name}")
            entry.size, entry.mtime, entry.mode = len(file.data), SECONDS, 0o755 if file.runs else 0o644
            archive.addfile(entry, io.BytesIO(file.data))
    return name
