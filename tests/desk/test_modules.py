"""The modules of the desk's pages, each decision of theirs, in node: no browser, no desk and no gateway.

`modules/stand.mjs` has what a page needs of a browser. What only a browser shows is in the other files here.
"""

import os
import shutil
import subprocess
from collections.abc import Iterator
from pathlib import Path

import pytest

from tests.gateway.wait import LONG
from tests.harness.options import ROOT

HERE = Path(__file__).resolve().parent / "modules"
DEBIAN = "/usr/share/nodejs"


@pytest.fixture(scope="module")
def pages(tmp_path_factory: pytest.TempPathFactory) -> Iterator[Path]:
    """A copy that node takes for modules. DESK_PAGES names another folder than the tree's."""
    folder = tmp_path_factory.mktemp("pages") / "page"
    shutil.copytree(os.environ.get("DESK_PAGES") or ROOT / "desk" / "page", folder)
    (folder / "package.json").write_text('{"type": "module"}\n')
    yield folder


@pytest.mark.parametrize("name", sorted(path.name for path in HERE.glob("*.test.mjs")))
def test_a_part(name: str, pages: Path) -> None:
    own = {**os.environ, "PAGES": str(pages), "NODE_PATH": DEBIAN, "TZ": "America/New_York"}
    command = ["node", "--unhandled-rejections=strict", str(HERE / name)]
    done = subprocess.run(
        command, env=own, capture_output=True, text=True, timeout=LONG, check=False
    )
    faults = [line for line in done.stdout.splitlines() if not line.startswith("ok ")]
    assert done.returncode == 0, "\n".join(faults) + done.stderr
    assert "\n# pass 0\n" not in done.stdout, "it has no test"
