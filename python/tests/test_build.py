"""The build backend: what a wheel and a source distribution hold, and what is said where the library is missing."""
import base64
import hashlib
import os
import subprocess
import sys
import tarfile
import tempfile
import unittest
import zipfile
from pathlib import Path
from unittest import mock

import made
import wurgalm
from wurgalm import library

sys.dont_write_bytecode = True
sys.path.append(str(made.ROOT / "python/backend"))
import wurgalm_build  # noqa: E402


class Build(unittest.TestCase):
    def setUp(self):
        folder = tempfile.TemporaryDirectory()
        self.addCleanup(folder.cleanup)
        self.folder = Path(folder.name)

    def unpacked(self):
        file = wurgalm_build.build_wheel(self.folder)
        with zipfile.ZipFile(self.folder / file) as wheel:
            return {name: wheel.read(name) for name in wheel.namelist()}

    def test_nothing_is_required(self):
        self.assertEqual(wurgalm_build.get_requires_for_build_wheel(), [])
        self.assertEqual(wurgalm_build.get_requires_for_build_sdist(), [])

    def test_a_wheel(self):
        members = self.unpacked()
        record = members.pop("wurgalm-0.1.0.dist-info/RECORD").decode().splitlines()
        rows = {name: (digest, length) for name, digest, length in (line.split(",") for line in record)}
        self.assertEqual(rows.pop("wurgalm-0.1.0.dist-info/RECORD"), ("", ""))
        for name, data in members.items():
            digest = base64.urlsafe_b64encode(hashlib.sha256(data).digest()).rstrip(b"=").decode()
            self.assertEqual(rows.pop(name), (f"sha256={digest}", str(len(data))))
        self.assertEqual(rows, {})
        self.assertIn("wurgalm/py.typed", members)
        sources = {path.name for path in (made.ROOT / "python/wurgalm").glob("*.py")}
        self.assertEqual({name.partition("/")[2] for name in members if name.endswith(".py")}, sources)

    def test_equal_sources_give_equal_wheels(self):
        # The linker may put a number of its own into the shared library, so one library serves for both.
        with mock.patch.dict(os.environ, {"WURGALM_LIBRARY": str(library.path())}):
            self.assertEqual(self.unpacked(), self.unpacked())

    def test_a_source_distribution_builds_alone(self):
        file = wurgalm_build.build_sdist(self.folder)
        with tarfile.open(self.folder / file) as packed:
            packed.extractall(self.folder, filter="data")
        code = "import wurgalm_build, sys; print(wurgalm_build.build_wheel(sys.argv[1]))"
        where = self.folder / "wurgalm-0.1.0"
        environment = {**os.environ, "PYTHONPATH": str(where / "backend")}
        environment.pop("WURGALM_LIBRARY", None)
        done = subprocess.run([sys.executable, "-c", code, str(self.folder)], env=environment, cwd=where, capture_output=True, check=True)
        with zipfile.ZipFile(self.folder / done.stdout.decode().strip()) as wheel:
            self.assertIn("wurgalm/libwurgalm.so", wheel.namelist())

    def test_a_missing_library(self):
        with mock.patch.dict(os.environ, {"WURGALM_LIBRARY": str(self.folder / "none.a")}):
            with self.assertRaisesRegex(SystemExit, "run `tools/build`"):
                wurgalm_build.build_wheel(self.folder)

    def test_an_archive_that_cannot_be_linked(self):
        broken = self.folder / "libwurgalm.a"
        broken.write_bytes(b"no archive")
        environment = {**os.environ, "WURGALM_LIBRARY": str(broken), "PYTHONPATH": str(made.ROOT / "python/backend")}
        code = "import wurgalm_build, sys; wurgalm_build.build_wheel(sys.argv[1])"
        words = [sys.executable, "-B", "-c", code, str(self.folder)]
        done = subprocess.run(words, env=environment, capture_output=True, text=True)
        self.assertEqual(done.returncode, 1)
        self.assertIn("cannot link", done.stderr.splitlines()[-1])
        self.assertNotIn("Traceback", done.stderr)

    def test_a_missing_compiler(self):
        archive = str(made.ROOT / "target/staticlib/libwurgalm.a")
        with mock.patch.dict(os.environ, {"CC": str(self.folder / "cc"), "WURGALM_LIBRARY": archive}):
            self.assertRaisesRegex(SystemExit, "it is not there", wurgalm_build.build_wheel, self.folder)

    def test_versions(self):
        header = (made.ROOT / "include/wurgalm.h").read_text(encoding="utf-8")
        self.assertIn(f'#define WURGALM_VERSION "{wurgalm.__version__}"', header)
        self.assertEqual(wurgalm_build.PROJECT["version"], wurgalm.__version__)

    def test_every_function_of_the_header_is_called(self):
        header = (made.ROOT / "include/wurgalm.h").read_text(encoding="utf-8")
        named = {line.split("(")[0].split("wurgalm_")[1] for line in header.splitlines() if line.startswith("uint8_t wurgalm_")}
        self.assertEqual(named, set(library._FUNCTIONS))
