"""Tests of the build backend: what the wheel and the source distribution have."""
from __future__ import annotations

import base64
import csv
import hashlib
import importlib
import os
import pathlib
import platform
import re
import subprocess
import sys
import tarfile
import tempfile
import unittest
import zipfile
from typing import Any
from unittest import mock

ROOT = pathlib.Path(__file__).resolve().parents[2]
sys.path.insert(0, str(ROOT / "python" / "build_backend"))

backend: Any = importlib.import_module("mosaikrun_build")
HAS_PLACE = sys.platform == "linux" and platform.machine() == "x86_64"


class OfBuilds(unittest.TestCase):
    """What is built, with a program that is a script."""

    def setUp(self) -> None:
        room = tempfile.TemporaryDirectory()
        self.addCleanup(room.cleanup)
        self.folder = pathlib.Path(room.name)
        self.program = self.folder / "program"
        self.program.write_text("#!/bin/sh\necho ran $*\n", encoding="utf-8")
        self.program.chmod(0o755)
        change = mock.patch.dict(os.environ, {"MOSAIKRUN": str(self.program)})
        change.start()
        self.addCleanup(change.stop)

    @unittest.skipUnless(HAS_PLACE, "the program is for x86-64 Linux")
    def test_wheel(self) -> None:
        """The wheel has the package and the program, which can be run, and a right RECORD."""
        name = backend.build_wheel(str(self.folder))
        self.assertEqual(name, f"{backend.stem()}-py3-none-manylinux_2_34_x86_64.whl")
        info = f"{backend.stem()}.dist-info"
        with zipfile.ZipFile(self.folder / name) as wheel:
            names = wheel.namelist()
            self.assertEqual(len(names), len(set(names)))
            for wanted in ("mosaikrun/record.py", "mosaikrun/bin/mosaikrun", "mosaikrun/messages.md", f"{info}/WHEEL"):
                self.assertIn(wanted, names)
            self.assertFalse([name for name in names if "test" in name or "__pycache__" in name])
            self.assertEqual(wheel.read("mosaikrun/bin/mosaikrun"), self.program.read_bytes())
            self.assertEqual(wheel.getinfo("mosaikrun/bin/mosaikrun").external_attr >> 16, 0o100755)
            self.assertIn(b"mosaikrun-csv = mosaikrun.tables:main\n", wheel.read(f"{info}/entry_points.txt"))
            record = list(csv.reader(wheel.read(f"{info}/RECORD").decode().splitlines()))
            self.assertEqual([row[0] for row in record], names)
            for path, digest, length in record[:-1]:
                data = wheel.read(path)
                sha = base64.urlsafe_b64encode(hashlib.sha256(data).digest()).decode().rstrip("=")
                self.assertEqual((digest, int(length)), (f"sha256={sha}", len(data)))
            self.assertEqual(record[-1], [f"{info}/RECORD", "", ""])

    def test_prepared(self) -> None:
        """What is prepared is what the wheel has."""
        for prepare, build in (
            (backend.prepare_metadata_for_build_wheel, backend.build_wheel),
            (backend.prepare_metadata_for_build_editable, backend.build_editable),
        ):
            with tempfile.TemporaryDirectory() as text:
                info = prepare(text)
                files = {
                    path.relative_to(text).as_posix(): path.read_bytes()
                    for path in pathlib.Path(text).rglob("*")
                    if path.is_file()
                }
                self.assertIn(f"{info}/METADATA", files)
                with zipfile.ZipFile(pathlib.Path(text) / build(text)) as wheel:
                    built = {name: wheel.read(name) for name in wheel.namelist() if name.startswith(f"{info}/")}
            self.assertEqual({**files, f"{info}/RECORD": built[f"{info}/RECORD"]}, built)

    def test_same_twice(self) -> None:
        """Two builds are the same to the last byte."""
        for build in (backend.build_wheel, backend.build_sdist):
            with tempfile.TemporaryDirectory() as first, tempfile.TemporaryDirectory() as second:
                name = build(first)
                self.assertEqual(build(second), name)
                texts = [(pathlib.Path(folder) / name).read_bytes() for folder in (first, second)]
                self.assertEqual(*texts)

    def test_sources(self) -> None:
        """A wheel of the source distribution is the wheel of this folder."""
        wheel = (self.folder / backend.build_wheel(str(self.folder))).read_bytes()
        with tarfile.open(self.folder / backend.build_sdist(str(self.folder))) as archive:
            safely: Any = {"filter": "data"} if hasattr(tarfile, "data_filter") else {}
            archive.extractall(self.folder, **safely)
        call = "import sys; sys.path[:0] = ['build_backend']; import mosaikrun_build as b; print(b.build_wheel('.'))"
        folder = self.folder / backend.stem()
        environment = {name: value for name, value in os.environ.items() if name != "MOSAIKRUN"}
        words = [sys.executable, "-c", call]
        ran = subprocess.run(words, cwd=folder, env=environment, capture_output=True, text=True, check=True)
        self.assertEqual((folder / ran.stdout.strip()).read_bytes(), wheel)

    def test_without_program(self) -> None:
        """Without a program the wheel is for any machine; a program that is named has to be there."""
        with mock.patch.object(backend, "program", lambda: None):
            self.assertTrue(backend.build_wheel(str(self.folder)).endswith("-py3-none-any.whl"))
        with mock.patch.dict(os.environ, {"MOSAIKRUN": "/nowhere/mosaikrun"}):
            self.assertRaisesRegex(FileNotFoundError, "/nowhere/mosaikrun", backend.build_wheel, str(self.folder))
        with tempfile.TemporaryDirectory() as alone, mock.patch.dict(os.environ):
            del os.environ["MOSAIKRUN"]
            with mock.patch.multiple(backend, HERE=pathlib.Path(alone), CHECKOUT=pathlib.Path(alone)):
                self.assertRaisesRegex(FileNotFoundError, "in-tree-build", backend.program)

    def test_project(self) -> None:
        """The backend reads pyproject.toml as any reader of TOML does; the package says the same version."""
        text = (ROOT / "python" / "pyproject.toml").read_text(encoding="utf-8")
        tables = backend.project()
        self.assertEqual(tables["build-system"]["requires"], backend.get_requires_for_build_wheel())
        if sys.version_info >= (3, 11):
            import tomllib

            project = tomllib.loads(text)["project"]
            for name in ("scripts", "optional-dependencies"):
                self.assertEqual(project.pop(name), tables[f"project.{name}"])
            self.assertEqual(project, tables["project"])
        begins = ROOT / "python" / "mosaikrun" / "__init__.py"
        if begins.is_file():
            said = re.findall(r'^__version__ = "(.*)"$', begins.read_text(encoding="utf-8"), re.MULTILINE)
            self.assertEqual(said, [tables["project"]["version"]])


if __name__ == "__main__":
    unittest.main()
