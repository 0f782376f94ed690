"""The package as pip installs it where nothing is built: it is there, and says what is missing only when it is needed."""

import os
import re
import shutil
import subprocess
import sys
from pathlib import Path

import pytest

import gtd

PACKAGE = Path(gtd.__file__).parents[1]
TOP = PACKAGE.parent


def test_the_version_is_that_of_the_change_log():
    if not (TOP / "CHANGELOG.md").exists():
        pytest.skip("the change log is not beside the package")
    released = re.findall(r"^## \[([0-9.]+)\] - ", (TOP / "CHANGELOG.md").read_text(), re.MULTILINE)
    assert gtd.__version__ == released[0]


@pytest.fixture(scope="module")
def installed(tmp_path_factory):
    """The Python of an environment into which the package was installed from a copy, beside which nothing is built."""
    room = tmp_path_factory.mktemp("installed")
    shutil.copytree(PACKAGE, room / "python", ignore=shutil.ignore_patterns("native", "build", "*.egg-info", "__pycache__"))
    subprocess.run([sys.executable, "-m", "venv", "--system-site-packages", room / "venv"], check=True)
    words = [room / "venv" / "bin" / "pip", "install", "--no-index", "--no-build-isolation", room / "python"]
    done = subprocess.run(words, env=nothing(), stdout=subprocess.PIPE, stderr=subprocess.STDOUT, text=True)
    assert done.returncode == 0, done.stdout
    return room / "venv" / "bin" / "python"


def nothing(**more):
    """The environment without a word of where the library and the programs are."""
    names = ("GTD", "GTDESK", "LIBGTD", "PYTHONPATH")
    return {**{name: value for name, value in os.environ.items() if name not in names}, **more}


def said(python, code, **more):
    """What some code prints, outside the folder of the package."""
    done = subprocess.run([python, "-c", code], env=nothing(**more), cwd=python.parent, capture_output=True, text=True)
    assert done.returncode == 0, done.stderr
    return done.stdout


def test_nothing_is_missing_until_it_is_needed(installed):
    code = """
import gtd
print(gtd.__version__, gtd.library(), gtd.__file__)
for call in (lambda: gtd.canon("(h1){h1}"), lambda: gtd.schedule(b"", "2024-01-01", "2024-01-02", 1)):
    try:
        call()
    except gtd.ProgramNotFound as missing:
        print(missing)
"""
    first, *others = said(installed, code, PATH="/nowhere").splitlines()
    version, library, file = first.split(" ")
    assert version == gtd.__version__ and file.startswith(str(installed.parents[1]))
    if library == "None":
        way = "put it on PATH, or set the environment variable GTD to its path"
        more = "Most calls need no program where the library libgtd.so.0 is: install it, or name it by LIBGTD"
        assert others == [f"no program gtd: {way}. {more}"] * 2


def test_the_programs_of_the_path_answer(installed, tmp_path):
    for name in ("gtd", "gtdesk"):
        (tmp_path / name).symlink_to(gtd.program(name))
    code = "import gtd; print(gtd.canon('[(m30h07){m30h1}]'), gtd.Domain('(t7h5){h10}').words())"
    assert said(installed, code, PATH=str(tmp_path)) == "[(h7m30){h1m30}] every Saturday from 05:00 until 15:00\n"
