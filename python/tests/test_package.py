"""What a user of the package sees: names, words, version, and the sentences of a failed build."""
import contextlib
import copy
import importlib.metadata
import inspect
import os
import pathlib
import pickle
import shutil
import subprocess
import sys
import tempfile
import time
import unittest
from unittest import mock

import mixegorta as m

PYTHON = os.path.join(os.path.dirname(os.path.abspath(__file__)), "..")
CURVE = [m.Point(1, m.DISCOUNT_FACTOR, 1.0025)]


@contextlib.contextmanager
def backend():
    with mock.patch.object(sys, "path", [PYTHON, *sys.path]), tempfile.TemporaryDirectory() as folder:
        import backend as module
        yield module, folder


def commands(folder):
    """A path with what tools/archive runs, and without the kit."""
    for name in ("sh", "dirname", "readlink", "python3"):
        os.symlink(sys.executable if name == "python3" else shutil.which(name), os.path.join(folder, name))
    return folder


def compiled(code, how, out):
    subprocess.run([os.environ.get("CC", "cc"), "-fPIC", how, "-x", "c", "-", "-o", out], input=code.encode(), check=True)


class Test(unittest.TestCase):
    def test_names_and_docstrings(self):
        listed = set(m.__all__)
        found = {name for name, thing in vars(m).items() if not name.startswith("_") and not inspect.ismodule(thing)}
        self.assertEqual(found, listed)
        for name in listed:
            thing = getattr(m, name)
            if inspect.isfunction(thing) or inspect.isclass(thing):
                self.assertTrue(thing.__doc__, name)
                self.assertFalse(thing.__doc__.startswith(f"{name}("), name)
            for method, member in vars(thing).items() if inspect.isclass(thing) else ():
                if not method.startswith("_") and (inspect.isfunction(member) or isinstance(member, property)):
                    self.assertTrue(member.__doc__, f"{name}.{method}")

    def test_annotations(self):
        functions = [thing for thing in map(m.__dict__.get, m.__all__) if inspect.isfunction(thing)]
        for function in functions + [thing for name, thing in vars(m.Tree).items() if inspect.isfunction(thing)]:
            signature = inspect.signature(function)
            self.assertIsNot(signature.return_annotation, inspect.Signature.empty, function)
            for parameter in signature.parameters.values():
                self.assertTrue(parameter.name == "self" or parameter.annotation is not inspect.Parameter.empty, function)
        self.assertTrue(os.path.exists(os.path.join(os.path.dirname(m.__file__), "py.typed")))

    def test_words(self):
        tree = m.Tree(1, 1, 0, 0, CURVE)
        self.assertEqual(repr(tree), "<Tree frequency=1 steps=1 reversion=0 volatility=0>")
        self.assertEqual(repr(m.Curve(CURVE)), "Curve([Point(row=1, kind=5, figure=1.0025)])")
        self.assertEqual((list(m.Curve(iter(CURVE))), len(m.Curve([]))), (CURVE, 0))
        self.assertEqual(repr(tree.bond_price([m.ONE])), "Price(value=1002500000, bound=2)")
        self.assertEqual(repr(tree.bond_and_option(["3"], m.AMERICAN_PUT, 0, 0).bond), "FlowTooLarge(number=10, argument='flows', row=1)")

    def test_a_tree_can_be_kept(self):
        tree = m.Tree(1, 1, 0, 0, CURVE)
        for kept in (pickle.loads(pickle.dumps(tree)), copy.deepcopy(tree)):
            self.assertEqual((repr(kept), kept.discounts, kept.state_prices), (repr(tree), tree.discounts, tree.state_prices))
            self.assertEqual(kept.bond_price([m.ONE]), tree.bond_price([m.ONE]))

    def test_version(self):
        self.assertRegex(m.__version__, r"^\d+\.\d+\.\d+$")
        with backend() as (module, folder):
            self.assertEqual(module.version(), m.__version__)
        if not os.path.samefile(os.path.dirname(m.__file__), os.path.join(PYTHON, "mixegorta")):
            self.assertEqual(importlib.metadata.version("mixegorta"), m.__version__)

    @unittest.skipUnless(sys.version_info >= (3, 11), "this python3 reads no TOML")
    def test_the_project_is_what_the_wheel_says(self):
        import tomllib
        project = tomllib.loads(pathlib.Path(PYTHON, "pyproject.toml").read_text())["project"]
        with backend() as (module, folder):
            described = {name: content.decode() for name, content in module.described(b"GLIBC_2.2.5 GLIBC_2.14 GLIBC_2.4").items()}
        for line in (f"Name: {project['name']}", f"Summary: {project['description']}", f"Requires-Python: {project['requires-python']}",
                     f"License: {project['license']['text']}", f"Version: {m.__version__}"):
            self.assertIn(f"{line}\n", described["METADATA"])
        self.assertEqual(described["entry_points.txt"], "[console_scripts]\n" + "".join(f"{name} = {place}\n" for name, place in project["scripts"].items()))
        self.assertIn("Tag: py3-none-manylinux_2_14_x86_64\n", described["WHEEL"])

    def test_a_build_without_archive_kit_or_compiler_says_so(self):
        for change, words in (({"MIXEGORTA_ARCHIVE_DIR": "/nowhere"}, "there is no archive /nowhere/libmixegorta.a"),
                              ({"CC": "no-compiler"}, "there is no C compiler no-compiler")):
            with backend() as (module, folder), mock.patch.dict(os.environ, change):
                with self.assertRaisesRegex(SystemExit, "^mixegorta cannot be built: " + words + "[^\n]*$"):
                    module.build_wheel(folder)

    def test_an_archive_that_is_missing_or_older_than_a_crate_is_not_taken(self):
        with backend() as (module, folder), mock.patch.dict(os.environ, PATH=commands(folder)):
            root = pathlib.Path(folder) / "root"
            for place in ("tools", "crates/capi/must-fail", "crates/capi/out", "target"):
                (root / place).mkdir(parents=True)
            (root / "crates.txt").write_text("capi staticlib:\n")
            for name in ("archive", "building.py"):
                shutil.copy(module.ROOT / "tools" / name, root / "tools")
            archive = root / "target/libmixegorta.a"
            with mock.patch.object(module, "ROOT", root), mock.patch.dict(os.environ):
                os.environ.pop("MIXEGORTA_ARCHIVE_DIR", None)
                with self.assertRaisesRegex(SystemExit, "^mixegorta cannot be built: there is no target/libmixegorta.a: [^\n]*$"):
                    module.archive()
                archive.write_text("")
                os.utime(archive, (time.time() + 10,) * 2)
                self.assertEqual(module.archive(), archive)
                for name, stale in (("must-fail/a.edit", False), ("out/libcapi.a", False), ("lib.rt", True)):
                    path = root / "crates/capi" / name
                    path.write_text("")
                    os.utime(path, (time.time() + 20,) * 2)
                    if not stale:
                        self.assertEqual(module.archive(), archive)
                with self.assertRaisesRegex(SystemExit, "^mixegorta cannot be built: target/libmixegorta.a is older than crates/capi/lib.rt: [^\n]*$"):
                    module.archive()

    def test_a_build_from_an_archive_of_another_version_says_so(self):
        with tempfile.TemporaryDirectory() as place:
            for code, words in (("", "tells no version"), ("unsigned long mixegorta_version(void) { return 2003004; }", "is of version 2.3.4")):
                compiled("int other;" + code, "-c", os.path.join(place, "other.o"))
                subprocess.run(["ar", "rc", os.path.join(place, "libmixegorta.a"), os.path.join(place, "other.o")], check=True)
                with backend() as (module, folder), mock.patch.dict(os.environ, MIXEGORTA_ARCHIVE_DIR=place):
                    with self.assertRaisesRegex(SystemExit, f"^mixegorta cannot be built: [^\n]*libmixegorta.a {words}, [^\n]*$"):
                        module.build_wheel(folder)

    def test_an_import_of_another_library_says_so(self):
        with tempfile.TemporaryDirectory() as folder:
            library = os.path.join(folder, "libmixegorta.so")
            for code, words in ((None, "mixegorta cannot load .*"), ("int other;", ".* tells no version, and this is mixegorta .*"),
                                ("unsigned long mixegorta_version(void) { return 5000; }", ".* is of version 0.5.0, and this is mixegorta .*")):
                if code:
                    compiled(code, "-shared", library)
                done = subprocess.run([sys.executable, "-B", "-c", "import mixegorta"], stderr=subprocess.PIPE, text=True,
                                      env={"PYTHONPATH": os.path.dirname(os.path.dirname(m.__file__)), "MIXEGORTA_LIBRARY": library})
                self.assertRegex(done.stderr.splitlines()[-1], f"^ImportError: {words}: correct or unset MIXEGORTA_LIBRARY, which names it$")

    def test_a_source_folder_with_a_library_older_than_a_crate_says_so(self):
        with tempfile.TemporaryDirectory() as folder:
            for place in ("python", "target", "crates/capi"):
                os.makedirs(os.path.join(folder, place))
            shutil.copytree(os.path.dirname(m.__file__), os.path.join(folder, "python/mixegorta"), ignore=shutil.ignore_patterns("*.so"))
            pathlib.Path(folder, "crates.txt").write_text("below:\ncapi staticlib: below\nother: below\n")
            for name in ("below", "other"):
                os.makedirs(os.path.join(folder, "crates", name))
            library, source = os.path.join(folder, "target/libmixegorta.so"), os.path.join(folder, "crates/below/lib.rt")
            shutil.copy(m._library.PATH, library)
            pathlib.Path(source).write_text("")
            other = pathlib.Path(folder, "crates/other/lib.rt")
            other.write_text("")
            os.utime(other, (os.path.getmtime(library) + 10,) * 2)
            for age, words in ((-10, ""), (10, f"ImportError: {library} is older than {source}: run tools/library, or set MIXEGORTA_LIBRARY")):
                os.utime(source, (os.path.getmtime(library) + age,) * 2)
                done = subprocess.run([sys.executable, "-B", "-c", "import mixegorta"], cwd=os.path.join(folder, "python"), env={}, stderr=subprocess.PIPE,
                                      text=True)
                self.assertTrue("".join(done.stderr.splitlines()[-1:]).startswith(words), done.stderr)
                self.assertEqual(bool(done.stderr), bool(words))

    def test_an_import_without_shared_object_says_so(self):
        with tempfile.TemporaryDirectory() as folder:
            os.mkdir(os.path.join(folder, "mixegorta"))
            for name in os.listdir(os.path.dirname(m.__file__)):
                if name.endswith(".py"):
                    os.symlink(os.path.join(os.path.dirname(os.path.abspath(m.__file__)), name), os.path.join(folder, "mixegorta", name))
            done = subprocess.run([sys.executable, "-B", "-c", "import mixegorta"], cwd=folder, env={}, stderr=subprocess.PIPE, text=True)
        self.assertRegex(done.stderr.splitlines()[-1], "^ImportError: mixegorta finds no libmixegorta.so: ")


if __name__ == "__main__":
    unittest.main()
