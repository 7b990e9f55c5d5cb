"""Puts into the package what it stands on: the version of all that is released, pages of docs/, and the program, its library and the
reader of reports where they are built."""
import shutil
from pathlib import Path

from setuptools import Distribution, setup
from setuptools.command.build_py import build_py

try:
    from setuptools.command.bdist_wheel import bdist_wheel
except ImportError:  # an older setuptools has it in a package of its own
    from wheel.bdist_wheel import bdist_wheel

TOP = Path(__file__).resolve().parent.parent
PAGES = ("byz.md", "faults.md", "judge.md", "mission.schema.json", "missions.md", "refusals.md", "tables.md", "tasks.md")
BUILT = [name for name in ("sift", "libsift.so", "reader.so") if (TOP / "out" / name).exists()]


class Bundle(build_py):
    """Copies these files beside the modules."""

    def run(self):
        shutil.rmtree(Path(self.build_lib) / "sift", ignore_errors=True)  # what an older build left
        super().run()
        if not self.editable_mode:
            for folder, names in (("docs", PAGES), ("out", BUILT)):
                target = Path(self.build_lib) / "sift" / "bundled" / folder
                target.mkdir(parents=True)
                for name in names:
                    shutil.copy(TOP / folder / name, target)


class OfThisMachine(Distribution):
    """A package with the program is for one sort of machine."""

    def has_ext_modules(self):
        return bool(BUILT)


class OfAnyPython(bdist_wheel):
    """The program and its library are asked, and not imported: any Python 3 will do."""

    def get_tag(self):
        return ("py3", "none", super().get_tag()[2])


setup(version=(TOP / "VERSION").read_text().strip(), cmdclass={"build_py": Bundle, "bdist_wheel": OfAnyPython}, distclass=OfThisMachine)
