"""The build backend of the package: the standard library's modules and a C compiler's linker, nothing else.

A wheel holds the modules of `wurgalm` and `libwurgalm.so`, a shared library linked from the archive of the proved library. The archive is
  - what WURGALM_LIBRARY names: the archive, or a shared library that was linked before
  - or `libwurgalm.a` in this folder, where a source distribution has it
  - or `target/staticlib/libwurgalm.a` of the repository around this folder, which `tools/build` writes.
CC names another compiler than `cc`. Nothing is written but the wheel or the source distribution.
"""
import base64
import hashlib
import io
import os
import shutil
import subprocess
import sysconfig
import tarfile
import tempfile
import tomllib
import zipfile
from pathlib import Path

HERE = Path(__file__).resolve().parent.parent
PROJECT = tomllib.loads((HERE / "pyproject.toml").read_text(encoding="utf-8"))["project"]
NAME = f"{PROJECT['name']}-{PROJECT['version']}"
ARCHIVE = "libwurgalm.a"
SHARED = "libwurgalm.so"
HOW = "run `tools/build` in the repository's root"


def get_requires_for_build_wheel(config_settings=None):
    return []


def get_requires_for_build_sdist(config_settings=None):
    return []


def library():
    """The archive or shared library that the wheel is made of."""
    named = os.environ.get("WURGALM_LIBRARY")
    places = [Path(named)] if named else [HERE / ARCHIVE, HERE.parent / "target/staticlib" / ARCHIVE]
    for place in places:
        if place.is_file():
            return place
    tried = ", ".join(map(str, places))
    raise SystemExit(f"wurgalm: the proved library is not built (looked for {tried}): {HOW}")


def shared_library():
    """The bytes of the shared library."""
    found = library()
    if found.suffix != ".a":
        return found.read_bytes()
    compiler = os.environ.get("CC", "cc")
    if shutil.which(compiler) is None:
        raise SystemExit(f"wurgalm: needs {compiler} to link {SHARED}, and it is not there")
    with tempfile.TemporaryDirectory() as folder:
        linked = Path(folder) / SHARED
        whole = ["-Wl,--whole-archive", str(found), "-Wl,--no-whole-archive"]
        if subprocess.run([compiler, "-shared", "-o", str(linked), *whole]).returncode:
            raise SystemExit(f"wurgalm: {compiler} cannot link {found}: {HOW}")
        return linked.read_bytes()


def metadata():
    lines = ["Metadata-Version: 2.1", f"Name: {PROJECT['name']}", f"Version: {PROJECT['version']}"]
    lines += [f"Summary: {PROJECT['description']}", f"Requires-Python: {PROJECT['requires-python']}"]
    lines += ["Description-Content-Type: text/markdown", "", (HERE / PROJECT["readme"]).read_text(encoding="utf-8")]
    return "\n".join(lines).encode()


def modules():
    return [path for path in sorted((HERE / "wurgalm").iterdir()) if path.suffix == ".py" or path.name == "py.typed"]


def build_wheel(wheel_directory, config_settings=None, metadata_directory=None):
    tag = f"py3-none-{sysconfig.get_platform().replace('-', '_').replace('.', '_')}"
    head = f"Wheel-Version: 1.0\nGenerator: wurgalm_build\nRoot-Is-Purelib: false\nTag: {tag}\n"
    members = [(f"wurgalm/{path.name}", path.read_bytes()) for path in modules()]
    members += [(f"wurgalm/{SHARED}", shared_library())]
    members += [(f"{NAME}.dist-info/METADATA", metadata()), (f"{NAME}.dist-info/WHEEL", head.encode())]
    record = f"{NAME}.dist-info/RECORD"
    lines = [f"{name},sha256={digest(data)},{len(data)}" for name, data in members] + [f"{record},,", ""]
    file = f"{NAME}-{tag}.whl"
    with zipfile.ZipFile(Path(wheel_directory) / file, "w", zipfile.ZIP_DEFLATED) as wheel:
        for name, data in [*members, (record, "\n".join(lines).encode())]:
            entry = zipfile.ZipInfo(name, (1980, 1, 1, 0, 0, 0))
            entry.compress_type, entry.external_attr = zipfile.ZIP_DEFLATED, 0o100644 << 16
            wheel.writestr(entry, data)
    return file


def digest(data):
    return base64.urlsafe_b64encode(hashlib.sha256(data).digest()).rstrip(b"=").decode()


def build_sdist(sdist_directory, config_settings=None):
    """The sources with the library that they are built over."""
    found = library()
    if found.suffix != ".a":
        raise SystemExit("wurgalm: a source distribution holds the archive, and WURGALM_LIBRARY names a shared library")
    members = [("pyproject.toml", HERE / "pyproject.toml"), ("README.md", HERE / "README.md")]
    members += [("backend/wurgalm_build.py", Path(__file__)), (ARCHIVE, found)]
    members += [(f"wurgalm/{path.name}", path) for path in modules()]
    file = f"{NAME}.tar.gz"
    with tarfile.open(Path(sdist_directory) / file, "w:gz", format=tarfile.PAX_FORMAT) as packed:
        for name, path in members:
            add(packed, name, path.read_bytes())
        add(packed, "PKG-INFO", metadata())
    return file


def add(packed, name, data):
    entry = tarfile.TarInfo(f"{NAME}/{name}")
    entry.size = len(data)
    packed.addfile(entry, io.BytesIO(data))
