"""The pages in a browser: Debian's chromium, headless, at 1280 and at 400 pixels, light and dark.
"""

import json
import re
import shutil
import subprocess
import tarfile
import unittest
from html import unescape
from pathlib import Path
from typing import Any

from tests.audit.common import STORED, Folder, folder
from tests.audit.pages import Element, read_page

WIDTHS = (1280, 400)
SECONDS = 900  # a browser that is not done by then hangs; a busy machine takes minutes
# Loads each page in a frame of the width that is asked, and writes down what stands where.
HARNESS = """<!doctype html><meta charset="utf-8"><body style="margin:0"><pre id="found"></pre>
<script>
const pages = %s, width = %d, found = [];
function look(frame, name) {
  const page = frame.contentDocument, root = page.documentElement;
  const wide = [...page.body.querySelectorAll("*")].filter(one => !one.closest(".scroll, pre, svg")
    && one.getBoundingClientRect().right > width + 0.5)
    .map(one => one.tagName + " " + one.className);
  const headings = [...page.querySelectorAll("h1, h2")].map(one => one.tagName);
  const sideways = [...page.body.querySelectorAll("*")].filter(one =>
    one.scrollWidth > one.clientWidth + 1 && getComputedStyle(one).overflowX !== "visible"
    && getComputedStyle(one).display !== "none" && !one.closest("thead, svg"))
    .map(one => one.tagName + " " + one.className);
  const over = [...page.querySelectorAll(".cards td, .cards th")].filter(one =>
    one.scrollHeight > one.clientHeight + 1 && one.clientHeight > 1)
    .map(one => one.dataset.label);
  const bare = [...page.querySelectorAll(".scroll")].filter(one => one.scrollWidth > one.clientWidth
    && getComputedStyle(one).overflowX !== "auto").length;
  found.push({name, inner: frame.contentWindow.innerWidth, scroll: root.scrollWidth, wide,
    headings, bare, sideways, over, style: getComputedStyle(page.body).fontSize});
}
async function all() {
  for (const name of pages) {
    const frame = document.createElement("iframe");
    frame.style.cssText = "border:0;height:900px;width:" + width + "px";
    frame.src = name;
    document.body.append(frame);
    await new Promise(done => frame.onload = done);
    look(frame, name);
    frame.remove();
  }
  document.getElementById("found").textContent = JSON.stringify(found);
  document.title = "done";
}
all();
</script></body>"""


def chromium(place: Path, page: Path, *words: str) -> tuple[str, str]:
    """What a page has become in the browser, and what the browser told."""
    done = subprocess.run(
        [
            "chromium",
            "--headless",
            "--no-sandbox",
            "--disable-gpu",
            "--enable-logging=stderr",
            "--allow-file-access-from-files",
            "--user-data-dir=%s" % (place / "profile"),
            *words,
            page.as_uri(),
        ],
        capture_output=True,
        text=True,
        timeout=SECONDS,
        check=False,
    )
    return done.stdout, done.stderr


@unittest.skipUnless(shutil.which("chromium"), "there is no chromium")
class Browser(unittest.TestCase):
    """All stored pages, each in a frame."""

    kept: Folder
    place: Path
    names: list[str]

    @classmethod
    def setUpClass(cls) -> None:
        cls.kept = folder()
        cls.place = Path(cls.kept.name)
        with tarfile.open(STORED / "pages.tar.xz") as stored:
            stored.extractall(cls.place / "pages")
        pages = cls.place / "pages"
        cls.names = sorted(str(path.relative_to(pages)) for path in pages.rglob("*.html"))

    @classmethod
    def tearDownClass(cls) -> None:
        cls.kept.cleanup()

    def looked_at(self, width: int) -> list[dict[str, Any]]:
        harness = self.place / "pages" / ("harness-%d.html" % width)
        harness.write_text(HARNESS % (json.dumps(self.names), width))
        words = ["--dump-dom", "--virtual-time-budget=100000", "--window-size=1400,900"]
        dom, told = chromium(self.place, harness, *words)
        harness.unlink()
        self.assertFalse(re.findall(r".*CONSOLE.*", told))
        found = re.search(r'<pre id="found">(.*?)</pre>', dom, re.DOTALL)
        fault = "the browser has not looked at all pages: %s" % told[-500:]
        assert found and found[1], fault
        looked: list[dict[str, Any]] = json.loads(unescape(found[1]))
        return looked

    def test_nothing_is_wider_than_its_page(self) -> None:
        for width in WIDTHS:
            found = self.looked_at(width)
            self.assertEqual([one["name"] for one in found], self.names)
            for one in found:
                self.assertEqual(one["inner"], width)
                self.assertLessEqual(one["scroll"], width, one)
                self.assertEqual((one["wide"], one["bare"]), ([], 0), one)
                if width == min(WIDTHS):
                    self.assertEqual((one["sideways"], one["over"]), ([], []), one)
                self.assertEqual(one["headings"][:1], ["H1"], one)
                self.assertEqual(one["style"], "15px", "%s has no style sheet" % one["name"])

    def test_without_colours(self) -> None:
        """What a colour says, a shape and a word say, too."""
        for name in self.names:
            page = read_page(self.place / "pages" / name)
            for tag in page.all("span", "tag"):
                self.assertTrue(tag.all("i") and len(tag.text) > 2, tag.text)
            for verdict in page.all("p", "verdict"):
                self.assertIn(verdict.all("i")[0].text, ("✓", "✗"))
            for drawing in page.all("svg", "timeline"):
                self.check_drawing(drawing)

    def check_drawing(self, drawing: Element) -> None:
        """Marks of different kinds are drawn by different shapes, and bars say what they are."""
        shapes: dict[str, set[str]] = {}
        for mark in drawing.all("g", "mark") + drawing.all("path", "mark"):
            inner = [one for one in [mark, *mark.children] if not isinstance(one, str)]
            text = " ".join(one.name + one.attributes.get("d", "") for one in inner)
            shapes.setdefault(mark.attributes["class"].split()[1], set()).add(text)
        for kind, found in shapes.items():
            self.assertEqual(len(found), 1, kind)
        same = {"hit", "won", "cover"}  # a diamond: filled, filled, and open
        distinct = [found for kind, found in shapes.items() if kind not in same]
        self.assertEqual(len(distinct), len({str(found) for found in distinct}))
        for bar in drawing.all("rect", "bar"):
            self.assertTrue(bar.all("title")[0].text)
        self.assertTrue(drawing.own("title")[0].text and drawing.own("desc")[0].text)


if __name__ == "__main__":
    unittest.main()
