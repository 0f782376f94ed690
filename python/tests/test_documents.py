"""Each example of the documents is run."""

import doctest
import re
import shlex
import shutil
import subprocess
import sys
from pathlib import Path

import pytest

import gtd
from gtd import _diff, _domain, _record_set, _same, _series
from tests.conftest import environment
from tests.make_records import rows

TOP = Path(gtd.__file__).parents[2]
PAGES = [TOP / "docs" / "PYTHON.md", TOP / "docs" / "COUNTRY.md", TOP / "python" / "README.md"]
PAGES_OF_PYTHON = [*PAGES, TOP / "docs" / "CLOSED_ROADS.md"]


@pytest.fixture
def folder(tmp_path, monkeypatch):
    """The examples of the repository, and a small country."""
    if not PAGES[0].exists():
        pytest.skip("the documents are not beside the package")
    for path in [*(TOP / "examples").glob("*.csv"), TOP / "examples" / "town.geojson"]:
        shutil.copy(path, tmp_path)
    (tmp_path / "north.csv").write_text("".join(rows(300, 1)))
    (tmp_path / "south.csv").write_text("".join(rows(200, 2)))
    for seed, name in enumerate(("old", "new")):
        (tmp_path / name).mkdir()
        (tmp_path / name / "rows.csv").write_text("".join(rows(100, seed)))
    monkeypatch.chdir(tmp_path)
    return tmp_path


@pytest.mark.parametrize("page", PAGES_OF_PYTHON, ids=lambda page: f"{page.parent.name}-{page.name}")
def test_python_of_a_page(folder, page):
    blocks = re.findall(r"^```python\n(.*?)^```", page.read_text(), re.DOTALL | re.MULTILINE)
    assert blocks or page.name == "COUNTRY.md"
    source = "\n".join(blocks)
    runner = doctest.DocTestRunner()
    runner.run(doctest.DocTestParser().get_doctest(source, {}, page.name, str(page), 0))
    assert runner.failures == 0
    assert runner.tries > 0 or ">>>" not in source


@pytest.mark.parametrize("page", PAGES, ids=lambda page: f"{page.parent.name}-{page.name}")
def test_commands_of_a_page(folder, page):
    """These commands start their own cluster; test_failures.py runs those for a cluster that already runs."""
    shown = re.findall(r"^python3 -m gtd\.country [^\n]*", page.read_text(), re.MULTILINE)
    assert shown
    for line in shown:
        words = shlex.split(line)
        if "--scheduler" in words:
            continue
        ran = subprocess.run([sys.executable, *words[1:]], env=environment(), stderr=subprocess.PIPE, text=True, timeout=300)
        assert ran.returncode == (4 if "--diff" in words else 0), (line, ran.stderr)
        out = folder / words[words.index("--out") + 1]
        (shutil.rmtree if out.is_dir() else Path.unlink)(out)


@pytest.mark.parametrize("module", [gtd, _diff, _domain, _record_set, _same, _series])
def test_examples_of_the_code(module):
    found = doctest.testmod(module)
    assert found.attempted and not found.failed
