"""Builds the package for pip, by PEP 517, with the standard library and a C compiler alone: an install takes nothing from a network.

A wheel is a zip file with the Python files, libwumbyra.so and three files about them. The library is linked from the archive libwumbyra.a in
the folder that WUMBYRA_LIB_DIR names. Without that variable it is built from dist/ of the repository or release that this folder is in; and
where the sources there are others than dist/ was made of, it is linked from the archive in target/staticlib, which `make prove` writes.
"""

from __future__ import annotations

import base64
import hashlib
import os
import pathlib
import re
import subprocess
import sys
import sysconfig
import tempfile
import zipfile

HERE = pathlib.Path(__file__).resolve().parent
ROOT = HERE.parent.parent
PACKAGE = "wumbyra"


class UnsupportedOperation(Exception):
    """What PEP 517 lets a builder raise where it makes no archive of sources."""


def project() -> dict:
    """The lines `key = "text"` of the table [project]; a reader of all of TOML came with Python 3.11 only."""
    text = (HERE / "pyproject.toml").read_text(encoding="utf-8")
    return dict(re.findall(r'^([\w-]+) = "([^"]*)"$', text.split("[project]\n")[1], re.M))


def link(archive: pathlib.Path, shared: pathlib.Path) -> None:
    """Makes a shared library of an archive."""
    if not archive.is_file():
        # Leaving by sys.exit, pip shows the sentence without a stack of calls.
        sys.exit(f"{archive} is missing: `make` in the repository of Wumbyra builds it, or let WUMBYRA_LIB_DIR name the folder that has it.")
    compiler = os.environ.get("CC", "cc").split()
    whole = ["-Wl,--whole-archive", str(archive), "-Wl,--no-whole-archive"]
    try:
        done = subprocess.run([*compiler, "-shared", "-o", str(shared), *whole])
    except FileNotFoundError:
        sys.exit(f"A C compiler links libwumbyra.so, and `{compiler[0]}` is not on the PATH; CC names another one.")
    if done.returncode:
        sys.exit(f"`{compiler[0]}` could not link libwumbyra.so; it says why above.")


def build(shared: pathlib.Path) -> None:
    """Makes the shared library, of what there is."""
    named = os.environ.get("WUMBYRA_LIB_DIR")
    if named:
        link(pathlib.Path(named).resolve() / "libwumbyra.a", shared)
        return
    script = ROOT / "packaging/build"
    if not script.is_file():
        sys.exit(
            f"{script} is missing: this package is built in the repository of Wumbyra or in a release of it. "
            "WUMBYRA_LIB_DIR may name the folder that has libwumbyra.a."
        )
    done = subprocess.run([str(script), "shared", str(shared)], stderr=subprocess.PIPE, encoding="utf-8", errors="replace")
    proved = ROOT / "target/staticlib/libwumbyra.a"
    if done.returncode == 1 and proved.is_file():
        link(proved, shared)
    elif done.returncode:
        advice = " `make prove` there builds the library from its sources." if done.returncode == 1 else ""
        sys.exit(f"{done.stderr.rstrip()}{advice}")


def platform() -> str:
    name = sysconfig.get_platform()
    if name not in ("linux-x86_64", "linux-aarch64"):
        sys.exit(f"The library is for x86-64 and AArch64 Linux, and this is {name}.")
    return name.replace("-", "_")


def about(tag: str) -> dict:
    """The two files that say what the wheel holds."""
    said = project()
    return {
        "METADATA": f"Metadata-Version: 2.1\nName: {said['name']}\nVersion: {said['version']}\n"
        f"Summary: {said['description']}\nRequires-Python: {said['requires-python']}\n",
        "WHEEL": f"Wheel-Version: 1.0\nGenerator: build_package\nRoot-Is-Purelib: false\nTag: {tag}\n",
    }


def row(name: str, data: bytes) -> str:
    """A file's line in RECORD: its name, digest and size."""
    digest = base64.urlsafe_b64encode(hashlib.sha256(data).digest()).decode().rstrip("=")
    return f"{name},sha256={digest},{len(data)}\n"


def write_wheel(path: pathlib.Path, files: dict, record: str) -> None:
    files[record] = "".join([*(row(name, data) for name, data in files.items()), f"{record},,\n"]).encode()
    with zipfile.ZipFile(path, "w", zipfile.ZIP_DEFLATED) as wheel:
        for name, data in files.items():
            entry = zipfile.ZipInfo(name)  # with a fixed date: the same files give the same wheel
            entry.external_attr = (0o100755 if name.endswith(".so") else 0o100644) << 16
            entry.compress_type = zipfile.ZIP_DEFLATED
            wheel.writestr(entry, data)


def build_wheel(wheel_directory, config_settings=None, metadata_directory=None):
    tag = f"py3-none-{platform()}"
    stem = f"{PACKAGE}-{project()['version']}"
    with tempfile.TemporaryDirectory() as room:
        shared = pathlib.Path(room, "libwumbyra.so")
        build(shared)
        files = {f"{PACKAGE}/{shared.name}": shared.read_bytes()}
    sources = sorted([*HERE.glob(f"{PACKAGE}/*.py"), HERE / PACKAGE / "py.typed"])
    files.update((f"{PACKAGE}/{source.name}", source.read_bytes()) for source in sources)
    files.update((f"{stem}.dist-info/{name}", text.encode()) for name, text in about(tag).items())
    name = f"{stem}-{tag}.whl"
    write_wheel(pathlib.Path(wheel_directory, name), files, f"{stem}.dist-info/RECORD")
    return name


def build_sdist(sdist_directory, config_settings=None):
    raise UnsupportedOperation("an archive of these sources could not be installed alone: the library is proved in the repository")
