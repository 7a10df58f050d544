import shutil
import sys
from pathlib import Path

from setuptools import setup
from setuptools.command.build_py import build_py
from setuptools.command.sdist import sdist

HERE = Path(__file__).resolve().parent
# (pip runs this file with no folder on the path)
sys.path.insert(0, str(HERE))
from capvet_build import Build  # noqa: E402

# What the tests share with others of the repository.
SHARED = ("examples/*.bin", "examples/contacts.packed", "include/capvet.h", "tests/shared/browser.py", "tests/shared/made.py",
          "tests/shared/model.py", "tests/shared/needs.py", "tests/shared/trees.py")
# The page that `python -m capvet map` fills, where `make inspector` has built it.
PAGE = HERE.parents[1] / "build/inspector.html"


class Modules(build_py):
    """Builds the package, with the page."""

    def run(self):
        super().run()
        if PAGE.is_file() and not getattr(self, "editable_mode", False):
            shutil.copyfile(PAGE, Path(self.build_lib) / "capvet/inspector.html")


class Sources(sdist):
    """A source distribution that has what its tests need."""

    def make_release_tree(self, base_dir, files):
        super().make_release_tree(base_dir, files)
        top = HERE.parents[1]
        for file in (file for names in SHARED for file in top.glob(names)):
            copy = Path(base_dir) / "tests/shared" / file.relative_to(top)
            copy.parent.mkdir(parents=True, exist_ok=True)
            shutil.copyfile(file, copy)


setup(cffi_modules=["capvet_build.py:builder"], cmdclass={"build_ext": Build, "build_py": Modules, "sdist": Sources})
