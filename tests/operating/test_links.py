"""Links of the pages that packages install: each leads to where the packages put what it names."""

import importlib
import subprocess
import sys
from pathlib import Path
from types import ModuleType

import pytest

from tests.gateway.wait import LONG
from tests.harness.options import ROOT

SCRIPT = ROOT / "install" / "packages" / "links.py"
DOC = "/usr/share/doc/"


@pytest.fixture(scope="module")
def links() -> ModuleType:
    with pytest.MonkeyPatch.context() as patch:
        patch.syspath_prepend(str(SCRIPT.parent))
        return importlib.import_module("links")


PAGES = {
    "docs/A.md": DOC + "mireseason-venue/A.md",
    "docs/B.md": DOC + "mireseason-gateway/B.md",
    "gateway/README.md": DOC + "mireseason-gateway/gateway.md",
}
LINKED = {
    "of its own package": ("gateway/README.md", "[B](../docs/B.md)", "[B](B.md)"),
    "of another package": ("docs/A.md", "[`a[1]`](B.md)", "[`a[1]`](../mireseason-gateway/B.md)"),
    "of another place": (
        "docs/A.md",
        "[g](../gateway/README.md#two)",
        "[g](../mireseason-gateway/gateway.md#two)",
    ),
    "of a file that is no page": (
        "docs/A.md",
        "[d](../fix/FIXT11.xml), [r](../install/prometheus/mireseason.rules.yml)",
        "[d](/usr/share/mireseason/fix/FIXT11.xml), "
        "[r](/usr/share/mireseason/prometheus/mireseason.rules.yml)",
    ),
    "of what no package has": ("docs/A.md", "[code](../gateway/src/main.cpp) b", "code b"),
    "a picture of what no package has": ("docs/A.md", "![picture](x.png)", "picture"),
    "of another host": ("docs/A.md", "[x](https://a.example/b)", "[x](https://a.example/b)"),
    "within its page": ("docs/A.md", "[x](#here)", "[x](#here)"),
}


@pytest.mark.parametrize("name", LINKED)
def test_a_link(name: str, links: ModuleType) -> None:
    source, text, expected = LINKED[name]
    assert links.linked(text, source, PAGES) == expected


def test_the_pages_of_a_folder(
    links: ModuleType, place: Path, monkeypatch: pytest.MonkeyPatch
) -> None:
    """Each page has the name that it is installed under, and stood elsewhere in the repository."""
    folder = place / "pages"
    folder.mkdir()
    (folder / "deploy.md").write_text("[d](../../docs/OPERATING.md)")
    (folder / "MARKET.md").write_text("[h](../install/hosts/README.md), [s](../SECURITY.md#a)")
    (folder / "x.txt").write_text("[d](../docs/OPERATING.md)")
    monkeypatch.setattr(sys, "argv", [str(SCRIPT), str(folder)])
    links.main()
    of = {Path(where).name: Path(where).parent.name for where in links.places().values()}

    def to(name: str, page: str) -> str:
        return name if of[name] == of[page] else "../%s/%s" % (of[name], name)

    assert (folder / "deploy.md").read_text() == "[d](%s)" % to("OPERATING.md", "deploy.md")
    assert (folder / "MARKET.md").read_text() == "[h](%s), [s](%s#a)" % (
        to("deploy.md", "MARKET.md"),
        to("SECURITY.md", "MARKET.md"),
    )
    assert (folder / "x.txt").read_text() == "[d](../docs/OPERATING.md)"


def test_the_program(place: Path) -> None:
    """As debian/build.sh calls it."""
    page = place / "MARKET.md"
    page.write_text("[s](../SECURITY.md)")
    subprocess.run([sys.executable, str(SCRIPT), str(place)], check=True, timeout=LONG)
    assert page.read_text() != "[s](../SECURITY.md)" and page.read_text().startswith("[s](")


def test_where_the_pages_stand(links: ModuleType) -> None:
    """Each stands in the repository, and is installed in its own package's folder, by debian/PACKAGE.docs."""
    places = links.places()
    assert set(links.SOURCES.values()) <= set(places)
    for source, where in places.items():
        assert (ROOT / source).is_file(), source
        package = Path(where).parent.name
        listed = (ROOT / "debian" / (package + ".docs")).read_text()
        assert Path(where).name in listed and where.startswith(DOC)
