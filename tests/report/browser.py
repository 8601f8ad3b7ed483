"""Tests of pages in a real browser without a window, where one is found."""

import html
import json
import os
import re
import shutil
import subprocess
import tempfile
import unittest

from samples import Samples, page_of, write

BROWSERS = ("chromium", "google-chrome", "chromium-browser")
SIZES = ((360, 800), (1280, 900))

# Stands after frames with pages in them, measures these and writes what it found at its own end. The frames are as wide
# as a phone and as a screen; a browser without a window has no window as narrow as a phone.
MEASURE = """<script>
function textsOf(svg) {
  return [...svg.querySelectorAll("text")].map(text => {
    const box = text.getBoundingClientRect();
    // A text's box is as high as its line; its figures take about the middle half of that.
    const high = box.height / 4, top = box.top + high, bottom = box.bottom - high;
    return {said: text.textContent, left: box.left + 0.3, right: box.right - 0.3, top, bottom};
  });
}
function faultsOf(svg) {
  const faults = [], frame = svg.getBoundingClientRect(), texts = textsOf(svg);
  if (frame.width < 100 || frame.height < 20) faults.push("an empty picture");
  texts.forEach((one, place) => {
    if (one.left < frame.left || one.right > frame.right || one.top < frame.top || one.bottom > frame.bottom)
      faults.push("outside: " + one.said);
    for (const other of texts.slice(place + 1))
      if (one.left < other.right && other.left < one.right && one.top < other.bottom && other.top < one.bottom)
        faults.push("overlap: " + one.said + " and " + other.said);
  });
  return faults;
}
function measure(frame) {
  const page = frame.contentDocument;
  return {
    width: frame.contentWindow.innerWidth,
    scrolled: page.documentElement.scrollWidth,
    headings: page.querySelectorAll("h1").length,
    pictures: page.querySelectorAll("svg").length,
    folded: page.querySelectorAll("details:not([open])").length,
    faults: [...page.querySelectorAll("svg")].flatMap(faultsOf).slice(0, 20),
  };
}
window.onload = () => {
  const shown = document.createElement("pre");
  shown.id = "measured";
  shown.textContent = JSON.stringify([...document.querySelectorAll("iframe")].map(measure));
  document.body.append(shown);
};
</script>"""


def find_browser():
    return next((path for path in map(shutil.which, BROWSERS) if path), None)


@unittest.skipUnless(find_browser(), "no browser is found")
class InABrowser(unittest.TestCase):
    @classmethod
    def setUpClass(cls):
        cls.samples = Samples()
        cls.addClassCleanup(cls.samples.clean_up)
        cls.room = tempfile.mkdtemp()
        cls.addClassCleanup(shutil.rmtree, cls.room, ignore_errors=True)

    def browse(self, *words, page):
        """Runs the browser on a page, and gives what it prints. It must end well and log nothing."""
        path = os.path.join(self.room, "page.html")
        write(path, page)
        options = ["--headless", "--no-sandbox", "--disable-gpu", "--enable-logging=stderr", "--v=0"]
        options += [f"--user-data-dir={self.room}/user", "--no-first-run", "--hide-scrollbars"]
        ran = subprocess.run([find_browser(), *options, *words, f"file://{path}"], capture_output=True, timeout=60)
        said = ran.stderr.decode(errors="replace")
        self.assertEqual(ran.returncode, 0, said)
        self.assertEqual([line for line in said.splitlines() if "CONSOLE" in line], [])
        return ran.stdout.decode()

    def test_pages_fit_and_no_texts_overlap(self):
        tried = [(folder, page_of(folder), size) for folder in self.samples.folders for size in SIZES]
        frames = [
            f'<iframe width="{width}" height="{height}" style="border: 0" srcdoc="{html.escape(page)}"></iframe>'
            for _, page, (width, height) in tried
        ]
        whole = ['<!DOCTYPE html><html><head><meta charset="utf-8"></head><body>', *frames, MEASURE, "</body></html>"]
        printed = self.browse("--dump-dom", page="".join(whole))
        measured = json.loads(html.unescape(re.search(r'<pre id="measured">(.*?)</pre>', printed, re.DOTALL)[1]))
        self.assertEqual(len(measured), len(tried))
        for (folder, page, size), found in zip(tried, measured):
            with self.subTest(folder, size=size):
                self.assertEqual((found["width"], found["headings"]), (size[0], 1))
                self.assertEqual(found["pictures"], page.count("<svg "))
                self.assertLessEqual(found["scrolled"], found["width"])
                self.assertEqual((found["folded"], found["faults"]), (0, []))

    def test_a_page_is_printed(self):
        pdf = os.path.join(self.room, "page.pdf")
        self.browse(f"--print-to-pdf={pdf}", page=page_of(self.samples.folder("large")))
        with open(pdf, "rb") as file:
            self.assertEqual(file.read(5), b"%PDF-")
