"""The report: what stands in it, and that a browser without a network shows and sorts it."""
import base64
import json
import re
import subprocess
from html.parser import HTMLParser
from pathlib import Path

import blob
import kinds
import numpy as np
import pytest

import uramsheg as u
from uramsheg import command, maps, report
from uramsheg.options import parser

RAW = blob.spots((90, 100), (30.2, 40.1, 2.5, 100), (70.3, 50.4, 3.1, 60), (60.2, 20.4, 2.2, 80)) + 1e-6 * np.random.default_rng(4).normal(size=(90, 100))
#: Chromium without a network, but for its own machine
BROWSER = ("chromium", "--headless", "--no-sandbox", "--disable-gpu", "--disable-background-networking", "--no-first-run", "--host-resolver-rules=MAP * ~NOTFOUND",
           "--proxy-server=127.0.0.1:9", "--virtual-time-budget=3000", "--dump-dom")


class Page(HTMLParser):
    """What stands in a page: the cells of its rows, the titles, what is named as a source, and whether each tag is closed."""

    def __init__(self, text):
        super().__init__()
        self.tables, self.sources, self.open, self.texts, self.sorted = [], [], [], [], {}
        self.feed(text)
        self.close()

    def handle_starttag(self, tag, attributes):
        """A tag begins."""
        named = dict(attributes)
        self.sources += [named[name] for name in ("src", "href", "srcset", "data", "action") if name in named]
        if tag == "table":
            self.tables.append([])
        if tag == "tr":
            self.tables[-1].append([])
        if tag in ("td", "th"):
            self.tables[-1][-1].append("")
        if "aria-sort" in named:
            self.sorted[named["data-name"]] = named["aria-sort"]
        if tag not in ("meta", "img"):
            self.open.append(tag)

    def handle_endtag(self, tag):
        """The innermost tag ends."""
        assert self.open.pop() == tag

    def handle_data(self, data):
        """Text of a cell, or of another tag."""
        if {"td", "th"} & set(self.open):
            self.tables[-1][-1][-1] += data
        elif self.open:
            self.texts.append((self.open[-1], data))


@pytest.fixture
def here(tmp_path, monkeypatch):
    """A folder with a map whose name needs care, as the current one, and its report."""
    monkeypatch.chdir(tmp_path)
    np.save("a<b>&c.npy", RAW)
    assert command.main(["detect", "a<b>&c.npy", "--snr", "20", "--report", "{name}.html", "-o", "{name}.csv", "-q"]) == 0
    return Path("a<b>&c.html")


def test_what_stands_in_it(here):
    text = here.read_text()
    page = Page(text)
    assert not page.open and ("h1", "a<b>&c.npy: 3 spots") in page.texts and ("title", "a<b>&c.npy: 3 spots") in page.texts and "a<b>" not in text
    spots, run, judged = page.tables
    found = u.find(RAW, snr=20)
    assert [row[0] for row in spots[1:]] == ["1", "2", "3"] and [float(row[1]) for row in spots[1:]] == pytest.approx(found.spots["x"], abs=0.006)
    assert spots[0][5] == "size, m" and [row[5] for row in spots[1:]] == [""] * 3
    assert spots[0][-1] == "why no size" and [row[-1] for row in spots[1:]] == [""] * 3
    for at, name in ((9, "dx"), (10, "dy")):
        assert spots[0][at] == f"{name}, pixels" and [row[at] for row in spots[1:]] == [f"{move:.4f}" for move in found.spots[name]]
    numbers = dict(run)
    assert numbers["Version"] == f"uramsheg {u.__version__}" and numbers["Map"] == "a<b>&c.npy" and numbers["Set of tables"] == "standard"
    assert (numbers["Least peak"], numbers["Least signal to noise"], numbers["Kind"], numbers["Unit"]) == ("none", "20", "bright", "not stated")
    assert float(numbers["Noise from pixel to pixel"]) == pytest.approx(found.noise, rel=1e-3)
    assert [row[0] for row in judged[1:]] == ["0", "1"] and judged[1][2] == f"{100 * found.judged[0].mask.mean():.1f} %"


def test_it_needs_nothing_else(here):
    text = here.read_text()
    assert not re.search(r"https?:|@import|url\(", text)
    (source,) = Page(text).sources
    kind, octets = source.split(",")
    assert kind == "data:image/png;base64" and base64.b64decode(octets).startswith(b"\x89PNG")
    assert "default-src 'none'" in text


def shown(page, added="", word=""):
    """What a browser makes of a page, with a script added at its end and a word after the #."""
    copy = Path("shown.html")
    copy.write_text(page.read_text().replace("</body>", f"<script>{added}</script></body>"))
    words = [*BROWSER, f"--user-data-dir={Path('profile').absolute()}", f"{copy.absolute().as_uri()}#{word}"]
    said = subprocess.run(words, capture_output=True, text=True, timeout=120)
    assert said.returncode == 0
    return said.stdout


WATCH = """addEventListener("load", () => {
  document.body.dataset.seen = JSON.stringify({
    wide: document.images[0].naturalWidth, high: document.images[0].naturalHeight,
    fetched: performance.getEntriesByType("resource").map(one => one.name).filter(name => !name.startsWith("data:")),
  });
});"""


def test_a_browser_opens_it_and_fetches_nothing(here):
    dom = shown(here, WATCH)
    seen = json.loads(re.search(r"data-seen='([^']*)'|data-seen=\"([^\"]*)\"", dom)[0].split("=", 1)[1].strip("\"'").replace("&quot;", '"'))
    assert seen == {"wide": 1500, "high": 860, "fetched": []}
    assert [row[0] for row in Page(dom).tables[0][1:]] == ["1", "2", "3"] and Page(dom).sorted == {}


@pytest.mark.parametrize("word, column, turn", [("height", 3, 1), ("-size_px", 6, -1), ("map_y", 2, 1)])
def test_a_browser_sorts_it(here, word, column, turn):
    page = Page(shown(here, word=word))
    numbers = [float(row[column]) for row in page.tables[0][1:]]
    assert numbers == sorted(numbers)[::turn] and len(set(numbers)) == 3
    assert page.sorted == {word.strip("-"): "ascending" if turn > 0 else "descending"}


def test_clicks_sort_it_too(here):
    for clicks, turn in ((1, 1), (2, -1)):
        press = "document.querySelector('[data-name=height] button').click();"
        added = "".join(f"setTimeout(() => {{ {press} }}, {300 * (1 + at)});" for at in range(clicks))
        numbers = [float(row[3]) for row in Page(shown(here, added)).tables[0][1:]]
        assert numbers == sorted(numbers)[::turn]


def told(given, found):
    """The report of a map's spots as if they had been found by the command, under a set whose name needs care."""
    options = parser(command.RUNS).parse_args(["detect", "x.npy", "--set", 'a"<s>'])
    return report.page(given, found, command.about("x.npy", given, found, 0, options))


def test_units_and_sets_are_escaped():
    text = told(maps.Map(RAW, unit="<i>&ppb", name="x"), u.find(RAW, snr=20))
    run = dict(Page(text).tables[1])
    assert run["Unit"] == "<i>&ppb" and run["Set of tables"] == 'a"<s>' and run["Ground"].endswith(" <i>&ppb") and "<i>" not in text and "<s>" not in text


def test_spots_without_a_size_come_last(here):
    """Whichever way the table is sorted."""
    found = u.find(RAW, snr=20)
    found.spots["size"][1] = np.nan
    here.write_text(told(maps.Map(RAW, name="x"), found))
    for word in ("size_px", "-size_px"):
        rows = Page(shown(here, word=word)).tables[0][1:]
        assert rows[2][0] == "2" and rows[2][6] == ""


def test_a_spot_without_a_size_says_why(here):
    """In words that the table can be sorted by; those with a size come last."""
    text = told(maps.Map(kinds.RAW, name="x"), kinds.found())
    words = ["", u.NO_SIZE[2], u.NO_SIZE[1]]
    assert [(row[6] == "", row[-1]) for row in Page(text).tables[0][1:]] == list(zip([False, True, True], words))
    here.write_text(text)
    assert [row[-1] for row in Page(shown(here, word="cause")).tables[0][1:]] == [*sorted(words[1:]), ""]
    told_of = "".join(words for _, words in Page(text).texts)
    assert all(words.removeprefix("no size: ").capitalize() in told_of for words in u.NO_SIZE.values())


def test_a_report_of_no_spots_and_wrong_endings(tmp_path, monkeypatch, capsys):
    monkeypatch.chdir(tmp_path)
    np.save("flat.npy", np.zeros((40, 40)))
    assert command.main(["detect", "flat.npy", "--report", "flat.html", "-q"]) == 0
    page = Page(Path("flat.html").read_text())
    assert ("h1", "flat.npy: 0 spots") in page.texts and len(page.tables[0]) == 1
    assert command.main(["detect", "flat.npy", "--report", "flat.txt"]) == 2 and "a report ends in .html" in capsys.readouterr().err
    assert command.main(["detect", "flat.npy", "flat.npy", "--report", "flat.html"]) == 2
    assert command.main(["detect", "flat.npy", "--report", "none/flat.html"]) == 4
