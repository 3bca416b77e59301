"""The package as pip gets it: what the wheel holds, where the library is looked for, and what is said where it is missing."""

import os
import pathlib
import shutil
import subprocess
import sys
import tempfile
import unittest
import zipfile

import build_package
import wumbyra

HERE = pathlib.Path(__file__).resolve().parent
TELL = "import wumbyra._library as found; print(found.LIBRARY._name)"
CALLER = """
from typing import List, Optional
from wumbyra import Code, Located, Pattern, Refused
pattern = Pattern(b"")
parsed = pattern.parse(b"")
one: List[int] = pattern.totals(parsed)
two: List[int] = pattern.totals(parsed.code, parsed.bits)
three: Code = pattern.canonicalize(pattern.canonicalize(parsed))
four: int = pattern.total(parsed, 9) + pattern.total(b"", 0, account=9)
five: bytes = pattern.flatten(three) + pattern.piece(b"", three, 0, 0) + pattern.piece(b"", b"", 0, 0, 0)
six: List[int] = pattern.term_totals(parsed, "2024-02-27", (2024, 2, 28), [2024, 2, 29])
seven: Located = pattern.locate(b"")
eight: int = seven.reach + pattern.locate(b"").resume
nine: Optional[int] = Refused(5, 0).reach or Refused(5, 0).resume
pattern.totals("")  # type: ignore[call-overload]
pattern.total(parsed, parsed.bits, 9)  # type: ignore[call-overload]
"""


def python(*arguments, **changed):
    """Runs a Python that knows nothing of this one's variables but those that are given."""
    kept = {name: value for name, value in os.environ.items() if not name.startswith(("WUMBYRA_", "PYTHON", "LD_"))}
    kept.update({"PYTHONDONTWRITEBYTECODE": "1"}, **{name: str(value) for name, value in changed.items()})
    return subprocess.run([sys.executable, *arguments], env=kept, capture_output=True, text=True, cwd="/")


def built(package, **changed):
    """Builds a wheel of the package in a folder."""
    with tempfile.TemporaryDirectory() as room:
        return python("-c", f"import build_package; print(build_package.build_wheel({room!r}))", PYTHONPATH=package, **changed)


class Wheel(unittest.TestCase):
    @classmethod
    def setUpClass(cls):
        cls.room = tempfile.TemporaryDirectory()
        room = pathlib.Path(cls.room.name)
        cls.name = build_package.build_wheel(room)
        cls.site, cls.bare, cls.system = room / "site", room / "bare", room / "system"
        with zipfile.ZipFile(room / cls.name) as wheel:
            cls.files = wheel.namelist()
            wheel.extractall(cls.site)
            wheel.extractall(cls.bare)
        cls.inside = cls.site / "wumbyra/libwumbyra.so"
        cls.system.mkdir()
        (cls.bare / "wumbyra/libwumbyra.so").rename(cls.system / "libwumbyra.so.1")

    @classmethod
    def tearDownClass(cls):
        cls.room.cleanup()

    def test_what_it_holds(self):
        self.assertEqual(self.name, f"wumbyra-{wumbyra.__version__}-py3-none-{build_package.platform()}.whl")
        about = [f"wumbyra-{wumbyra.__version__}.dist-info/{name}" for name in ("METADATA", "RECORD", "WHEEL")]
        sources = "__init__.py", "_arguments.py", "_breaks.py", "_faults.py", "_library.py", "_refused.py", "_subpattern.py"
        package = [f"wumbyra/{name}" for name in (*sources, "libwumbyra.so", "py.typed")]
        self.assertEqual(sorted(self.files), sorted(about + package))

    def test_its_version_is_the_packages(self):
        self.assertEqual(build_package.project()["version"], wumbyra.__version__)

    def test_the_same_sources_give_the_same_wheel(self):
        with tempfile.TemporaryDirectory() as again:
            build_package.build_wheel(again)
            first, second = pathlib.Path(self.room.name, self.name), pathlib.Path(again, self.name)
            self.assertEqual(first.read_bytes(), second.read_bytes())

    def test_the_library_is_the_one_inside(self):
        found = python("-c", TELL, PYTHONPATH=self.site, LD_LIBRARY_PATH=self.system)
        self.assertEqual(found.stdout.strip(), str(self.inside), found.stderr)

    def test_the_variable_comes_first(self):
        other = self.system / "libwumbyra.so.1"
        found = python("-c", TELL, PYTHONPATH=self.site, WUMBYRA_LIBRARY=other)
        self.assertEqual(found.stdout.strip(), str(other), found.stderr)
        missing = python("-c", TELL, PYTHONPATH=self.site, WUMBYRA_LIBRARY="/no/such/file.so")
        self.assertIn("ImportError: WUMBYRA_LIBRARY names a library that cannot be loaded: /no/such/file.so", missing.stderr)

    def test_the_systems_loader_comes_last(self):
        found = python("-c", TELL, PYTHONPATH=self.bare, LD_LIBRARY_PATH=self.system)
        self.assertEqual(found.stdout.strip(), "libwumbyra.so.1", found.stderr)

    def test_a_missing_library_is_one_sentence(self):
        missing = python("-c", TELL, PYTHONPATH=self.bare)
        self.assertIn("ImportError: libwumbyra.so is not found: install this package with `pip install", missing.stderr)

    def test_a_library_of_another_version_is_refused(self):
        with tempfile.TemporaryDirectory() as room:
            source, other = pathlib.Path(room, "other.c"), pathlib.Path(room, "other.so")
            for number in [10600, 20700]:
                source.write_text(f"unsigned wumbyra_version(void) {{ return {number}; }}\n")
                subprocess.run(["gcc", "-shared", "-fPIC", "-o", str(other), str(source)], check=True)
                refused = python("-c", TELL, PYTHONPATH=self.site, WUMBYRA_LIBRARY=other)
                words = f"ImportError: this package is for version 1 of the library from 1.7 on, and the one found says {number}"
                self.assertIn(words, refused.stderr)

    def test_a_library_that_is_none_of_wumbyra_is_one_sentence(self):
        with tempfile.TemporaryDirectory() as room:
            source, other = pathlib.Path(room, "other.c"), pathlib.Path(room, "other.so")
            for content, name in [("", "wumbyra_version"), ("unsigned wumbyra_version(void) { return 10700; }\n", "wumbyra_load")]:
                source.write_text(content)
                subprocess.run(["gcc", "-shared", "-fPIC", "-o", str(other), str(source)], check=True)
                refused = python("-c", TELL, PYTHONPATH=self.site, WUMBYRA_LIBRARY=other)
                self.assertNotIn("AttributeError", refused.stderr)
                words = f"ImportError: {other} is no library of Wumbyra, or not all of it: it has no {name}"
                self.assertEqual(refused.stderr.splitlines()[-1], words)

    def test_a_file_that_is_no_library_is_one_sentence(self):
        with tempfile.TemporaryDirectory() as room:
            site, system = pathlib.Path(room, "site"), pathlib.Path(room, "system")
            shutil.copytree(self.bare, site)
            system.mkdir()
            inside, installed = site / "wumbyra/libwumbyra.so", system / "libwumbyra.so.1"
            for file in (inside, installed):
                file.write_text("no library")
            for variables, words in [
                ({"PYTHONPATH": self.bare, "WUMBYRA_LIBRARY": inside}, f"WUMBYRA_LIBRARY names a library that cannot be loaded: {inside}: "),
                ({"PYTHONPATH": site}, f"the library that was installed with this package cannot be loaded: {inside}: "),
                ({"PYTHONPATH": self.bare, "LD_LIBRARY_PATH": system}, f"; the system's loader says: {installed}: "),
            ]:
                refused = python("-c", TELL, **variables)
                last = refused.stderr.splitlines()[-1]
                self.assertTrue(last.startswith("ImportError: ") and words in last, last)

    def test_its_types_are_checked(self):
        if python("-m", "mypy", "--version").returncode == 0:
            checked = [sys.executable, "-m", "mypy"]
        elif shutil.which("mypy"):
            checked = ["mypy"]
        else:
            self.skipTest("there is no mypy")
        with tempfile.TemporaryDirectory() as room:
            # What a caller may write, both ways of handing over a code, and what it may not.
            caller = pathlib.Path(room, "caller.py")
            caller.write_text(CALLER)
            done = subprocess.run(
                [*checked, "--strict", "--cache-dir", room, str(HERE / "wumbyra"), str(caller)],
                env={**os.environ, "MYPYPATH": str(HERE)}, capture_output=True, text=True, cwd=room,
            )  # fmt: skip
            self.assertEqual(done.returncode, 0, done.stdout + done.stderr)

    def test_a_missing_archive_is_one_sentence(self):
        with tempfile.TemporaryDirectory() as empty:
            missing = python("-c", f"import build_package; build_package.build_wheel({empty!r})", PYTHONPATH=HERE, WUMBYRA_LIB_DIR=empty)
            self.assertEqual((missing.returncode, missing.stderr.count("\n")), (1, 1))
            self.assertRegex(missing.stderr, "^/.*/libwumbyra.a is missing: `make` in the repository")

    def test_it_is_built_from_dist(self):
        with tempfile.TemporaryDirectory() as room:
            tree = pathlib.Path(room, "tree")
            package = tree / "bindings/python"
            shutil.copytree(HERE, package)
            self.assertIn("packaging/build is missing: this package is built in the repository", built(package).stderr)
            for part in ("dist", "include", "packaging"):
                shutil.copytree(HERE.parent.parent / part, tree / part)
            self.assertEqual(built(package).stdout, f"{self.name}\n")
            self.assertIn("a C compiler is needed, and `nowhere` does not run", built(package, CC="nowhere").stderr)
            (tree / "crates.txt").write_text("wumbyra:\n")
            other = built(package).stderr
            self.assertIn("the sources under crates/ are not those that it was made of", other)
            self.assertIn("`make prove` there builds the library from its sources.", other)
            (tree / "dist/MANIFEST").write_text("version 1\n")
            self.assertIn('MANIFEST has not one line "toolchain"', built(package).stderr)

    def test_pip_installs_it_without_a_network(self):
        if python("-m", "pip", "--version").returncode:
            self.skipTest("there is no pip")
        with tempfile.TemporaryDirectory() as site:
            options = ["--quiet", "--no-index", "--disable-pip-version-check", "--target", site]
            done = python("-m", "pip", "install", *options, str(HERE))
            self.assertEqual(done.returncode, 0, done.stderr)
            found = python("-c", TELL, PYTHONPATH=site)
            self.assertEqual(found.stdout.strip(), f"{site}/wumbyra/libwumbyra.so", found.stderr)


if __name__ == "__main__":
    unittest.main()
