"""Checks the report's page in headless Chromium: checks.py CHROMIUM TOOL, run in an empty folder.

What has to stand in the page is worked out here from `ruzkemp ls --json` of the same disc.
"""

import base64
import json
import os
import random
import subprocess
import sys
import time

from chromium import Page, guarded
from pdf import Document

CHROMIUM, TOOL = sys.argv[1:]
# A file name with markup, a template's mark, a control character and a byte that is no UTF-8.
HOSTILE = b"a'\"><img src=x onerror=alert(1)><script>document.title=1<!--{{main}}\n\xff.img"


def tool(*arguments, status=0, script=None):
    done = subprocess.run([TOOL, *arguments], input=script, capture_output=True, timeout=200)
    assert done.returncode == status, (arguments, done)
    return done.stdout.decode()


def equal(found, wanted, what):
    assert found == wanted, f"{what}: found {found!r}, wanted {wanted!r}"


class Disc:
    """A disc, its report and its listing."""

    def __init__(self, image, status=0):
        # A page's own name is plain, so that its address is.
        self.page = f"{len(os.listdir())}.html"
        tool("report", image, "-o", self.page, status=status)
        self.listing = json.loads(tool("ls", image, "--json")) if status == 0 else None

    def slices(self):
        """For each slice what the tip has to say, by the listing."""
        unit, lines = self.listing, {}
        s, first = unit["slice"], unit["first"]
        for file in unit["files"]:
            before = 0
            for number, stretch in enumerate(file["stretches"], 1):
                for slice_ in range(stretch["slice"], stretch["slice"] + stretch["slices"]):
                    lines[slice_] = [
                        file["name"],
                        f"Slice {slice_}",
                        f"Sectors {first + (slice_ - 1) * s} to {first + slice_ * s - 1}",
                        blocks(file, s, before),
                        f"Stretch {number} of {len(file['stretches'])}",
                    ]
                    before += 1
        free = [slice_ for slice_ in range(1, unit["slices"] + 1) if slice_ not in lines]
        runs = []
        for slice_ in free:
            if runs and runs[-1][-1] + 1 == slice_:
                runs[-1].append(slice_)
            else:
                runs.append([slice_])
        for number, run in enumerate(runs, 1):
            counted = "1 slice" if len(run) == 1 else f"{len(run)} slices"
            for slice_ in run:
                sector = first + (slice_ - 1) * s
                place = [f"Slice {slice_}", f"Sectors {sector} to {sector + s - 1}"]
                lines[slice_] = ["Free", *place, f"Free stretch {number} of {len(runs)}: {counted}"]
        return lines


def blocks(file, s, before):
    """The blocks in a file's slice: its first sector is the index block, but SYS's lies elsewhere."""
    lead = 0 if file["name"] == "SYS" else 1
    sectors = range(before * s, (before + 1) * s)
    found = [sector - lead for sector in sectors if 0 <= sector - lead < file["length"]]
    words = ["index block"] if lead and before == 0 else []
    if len(found) == 1:
        words.append(f"block {found[0]}")
    elif found:
        words.append(f"blocks {found[0]} to {found[-1]}")
    return (" and ".join(words) or "no block in use").capitalize()


def discs():
    tool("sample", "sample.img")
    tool("format", "empty.img", *"--sectors 250 --first 10 --slice 4 --keys 3".split())
    tool("format", "many.img", *"--sectors 20490 --first 10 --slice 5 --keys 37".split())
    chance, script = random.Random(1), ["init"]
    names = [a + b + c for a in "ABCDEFGHIJKLM" for b in "NOPQRSTUVWXYZ" for c in "0123456789abcdef"]
    for name in names:
        script.append(f"create {name} size={chance.randint(0, 7)}")
    for name in chance.sample(names, 900):
        script.append(f"remove {name}")
    for name in names:
        script.append(f"change {name} size={chance.randint(0, 16)}")
    tool("run", "many.img", "-", "--keep-going", script="\n".join(script).encode())
    # The longest texts that a row of the files can have.
    tool("format", "wide.img", *"--sectors 32767 --first 15 --slice 8 --keys 1".split())
    tool("create", "wide.img", *"WWWWW --size 30000 --permanent --write-protected --extendable".split())
    with open("sample.img", "rb") as file:
        image = bytearray(file.read())
    with open(HOSTILE, "wb") as file:
        file.write(image)
    image[4608] ^= 0x7F
    with open("hurt.img", "wb") as file:
        file.write(image)
    made = {name: Disc(f"{name}.img") for name in ("sample", "empty", "many", "wide")}
    return {**made, "hostile": Disc(HOSTILE), "hurt": Disc("hurt.img", status=4)}


def box(page, selector):
    """The place of an element's box: left, top, width, height."""
    script = f"(() => {{ const b = document.querySelector({json.dumps(selector)}).getBoundingClientRect();"
    return page.value(script + "return [b.left, b.top, b.width, b.height]; })()")


def middle(page, selector):
    left, top, width, height = box(page, selector)
    return left + width / 2, top + height / 2


def lines(page, selector):
    return page.value(f"document.querySelector({json.dumps(selector)}).innerText.split('\\n')")


def names(page):
    shown = "[...document.querySelectorAll('#files tbody tr')].filter((row) => !row.hidden)"
    return page.value(shown + ".map((row) => row.cells[0].textContent)")


def frame(page):
    page.value("new Promise((done) => requestAnimationFrame(() => requestAnimationFrame(done)))")


def check_quiet(page, discs):
    """No page says a word to the console, asks for anything, or is wider than its window."""
    for name, disc in discs.items():
        for width, dark in [(1400, False), (360, True)]:
            page.open(disc.page, width, 900, dark)
            frame(page)
            equal(page.complaints(), [], f"{name} at {width}")
            wide = page.value("document.documentElement.scrollWidth")
            assert wide <= width, f"{name} is {wide} wide at {width}"


# The lowest contrast of a text with what is behind it, and the text.
CONTRAST = """(() => {
  const light = ([r, g, b]) => {
    const [x, y, z] = [r, g, b].map((c) => c / 255).map((c) => (c <= 0.04045 ? c / 12.92 : ((c + 0.055) / 1.055) ** 2.4));
    return 0.2126 * x + 0.7152 * y + 0.0722 * z;
  };
  const read = (text) => (text.match(/[\\d.]+/g) ?? [0, 0, 0, 0]).map(Number);
  const ratio = (a, b) => (Math.max(light(a), light(b)) + 0.05) / (Math.min(light(a), light(b)) + 0.05);
  const ground = (element) => {
    for (let at = element; at; at = at.parentElement) {
      const colour = read(getComputedStyle(at).backgroundColor);
      if (colour[3] !== 0) return colour;
    }
    return [255, 255, 255];
  };
  let worst = [99, ''];
  const note = (value, text) => { if (value < worst[0]) worst = [value, text]; };
  for (const element of document.querySelectorAll('body *')) {
    const own = [...element.childNodes].some((node) => node.nodeType === 3 && node.data.trim());
    if (!own || ['SCRIPT', 'title'].includes(element.tagName)) continue;
    const style = getComputedStyle(element);
    const svg = element.closest('#map');
    const behind = svg && element.closest('.names') ? read(style.stroke) : ground(element);
    note(ratio(read(svg ? style.fill : style.color), behind), element.textContent.slice(0, 30));
  }
  return worst;
})()"""


def check_contrast(page, discs):
    for name in ("sample", "hurt"):
        for dark in (False, True):
            page.open(discs[name].page, 1400, 900, dark)
            value, text = page.value(CONTRAST)
            assert 4.5 <= value < 99, f"{name}, dark {dark}: contrast {value} of {text!r}"


def check_sorting(page, disc, columns):
    page.open(disc.page)
    files = disc.listing["files"]
    listed = [file["name"] for file in files]
    equal(names(page), listed, "the listing's order")
    keys = {
        2: lambda file: file["length"],
        3: lambda file: file["reserved"],
        4: lambda file: file["length"] * 512,
        5: lambda file: file["index"],
        6: lambda file: sum(stretch["slices"] for stretch in file["stretches"]),
        7: lambda file: len(file["stretches"]),
        9: lambda file: ", ".join(file["attribute_names"]) or "none",
    }
    for column in columns or keys:
        key, head = keys[column], f"#files thead th:nth-child({column})"
        page.value(f"document.querySelector('{head} button').scrollIntoView({{block: 'center'}})")
        page.click(*middle(page, f"{head} button"))
        rising = [file["name"] for file in sorted(files, key=key)]
        equal(names(page), rising, f"column {column}, rising")
        equal(page.value(f"document.querySelector('{head}').ariaSort"), "ascending", "aria-sort")
        page.press("Enter")
        # The order of equal rows stays the listing's.
        falling = [file["name"] for file in sorted(files, key=key, reverse=True)]
        equal(names(page), falling, f"column {column}, falling")
        equal(page.value(f"document.querySelector('{head}').ariaSort"), "descending", "aria-sort")
        equal(page.value("document.querySelectorAll('#files [aria-sort]').length"), 1, "one column is sorted")
    page.click(*middle(page, "#files thead th:first-child button"))
    equal(names(page), listed, "by name again")
    page.press("Enter")
    equal(names(page), listed[::-1], "by name, falling")
    equal(page.complaints(), [], "sorting")


def check_tips(page, disc, width, some):
    """Points at slices, and finds what the listing says of them."""
    page.open(disc.page, width, 900)
    page.value("document.getElementById('map').scrollIntoView({block: 'center'})")
    frame(page)
    left, top, _, _ = box(page, "#map")
    right = sum(box(page, "#map")[::2])
    # The second row's number says how many slices the first has.
    columns = int(page.value("document.querySelectorAll('#map .numbers text')[1].textContent")) - 1
    height, gap, room = (page.value(f"Number(document.getElementById('map').dataset.{key})") for key in ("height", "gap", "left"))
    cell = (right - left - room) / columns
    wanted = disc.slices()
    for slice_ in some or wanted:
        row, column = divmod(slice_ - 1, columns)
        x, y = left + room + (column + 0.5) * cell, top + row * (height + gap) + height / 2
        page.hover(x, y)
        equal(lines(page, "#tip"), wanted[slice_], f"the tip of slice {slice_} at {width}")
        # A row that is out of sight has no inner text.
        lit = page.value("document.querySelector('tr.lit th').textContent")
        free = wanted[slice_][0] == "Free"
        equal(lit, wanted[slice_][3].split()[2] if free else wanted[slice_][0], f"the row of slice {slice_}")
    page.hover(1, 1)
    equal(page.value("document.getElementById('tip').hidden"), True, "the tip goes")
    equal(page.value("document.querySelectorAll('tr.lit').length"), 0, "the row is as before")
    equal(page.complaints(), [], "tips")


def at_slice(page, slice_):
    """The middle of a slice's cell, with the map in the window."""
    page.value("document.getElementById('map').scrollIntoView({block: 'center'})")
    frame(page)
    left, top, width, _ = box(page, "#map")
    columns = int(page.value("document.querySelectorAll('#map .numbers text')[1].textContent")) - 1
    height, gap, room = (page.value(f"Number(document.getElementById('map').dataset.{key})") for key in ("height", "gap", "left"))
    row, column = divmod(slice_ - 1, columns)
    return left + room + (column + 0.5) * (width - room) / columns, top + row * (height + gap) + height / 2


def check_tap(page, disc):
    """A tap shows the tip and keeps the choice; when the page moves below it, the tip goes."""
    page.open(disc.page, 360, 800)
    page.tap(*at_slice(page, 4))
    equal(lines(page, "#tip"), disc.slices()[4], "the tip of a tap")
    equal(lines(page, "#choice")[0][:4], "PASS", "a tap keeps the choice")
    page.value("scrollBy(0, 60)")
    frame(page)
    equal(page.value("document.getElementById('tip').hidden"), True, "the tip goes when the page moves")


def check_outline(page, disc):
    """A click leaves no outline around the map, the keyboard has one."""
    outline = "getComputedStyle(document.getElementById('map')).outlineStyle"
    page.open(disc.page)
    page.click(*at_slice(page, 4))
    equal(page.value("document.activeElement.id"), "map", "the map has the focus")
    equal(page.value(outline), "none", "the outline after a click")
    page.open(disc.page)
    page.press("Tab")
    equal(page.value(outline), "solid", "the outline of the keyboard")


def check_tables(page, sample, many):
    """Rows that are not laid out are those of long tables only; what is cut at the edge can be scrolled to, and a shade tells it."""
    seen = "[...document.querySelectorAll('#files tbody tr')].slice({0}).map((row) => getComputedStyle(row).contentVisibility)"
    wide = "[...document.querySelectorAll('#files tbody tr:nth-child(-n + 20) > *')].filter((cell) => cell.scrollWidth > cell.clientWidth + 1).length"
    for disc, last in [(sample, "visible"), (many, "auto")]:
        for width in (360, 800, 1400):
            page.open(disc.page, width, 900)
            equal(page.value(seen.format("0, 1")), ["visible"], "the first row")
            equal(page.value(seen.format("-1")), [last], "the last row")
            equal(page.value(wide), 0, f"cells at {width} that are wider than their column")
            shades = page.value("getComputedStyle(document.querySelector('.scroll')).backgroundAttachment")
            equal(shades, "local, scroll", "the shade")


def marked(page, of):
    """Whether the bars of an owner, and nothing else, are marked on the map; none: whether nothing is."""
    lit = page.value("[...document.querySelectorAll('.over .lit')].map((bar) => bar.getAttribute('d'))")
    if of is None:
        return lit == []
    return lit == [page.value(f"[...document.querySelectorAll('#map path[data-of={of}]')].map((bar) => bar.getAttribute('d')).join('')")]


def check_choice(page, disc):
    """A row marks its slices; a click keeps the choice, Escape drops it."""
    page.open(disc.page, 1400, 2400)
    row = disc.listing["files"].index(next(file for file in disc.listing["files"] if file["name"] == "PASS")) + 1
    row = f"#files tbody tr:nth-child({row})"
    of = page.value(f"document.querySelector('{row}').dataset.of")
    page.hover(*middle(page, f"{row} td"))
    assert marked(page, of), "the slices of the row of PASS"
    page.hover(1, 1)
    assert marked(page, None), "nothing is pointed at"
    page.click(*middle(page, f"{row} td"))
    page.hover(1, 1)
    assert marked(page, of), "the choice is kept"
    equal(lines(page, "#choice"), ["PASS48 sectors in 4 stretches, 13 slices: 2\u20136, 20\u201325, 29, 41"], "the choice")
    page.press("Escape")
    assert marked(page, None), "the choice is dropped"
    equal(lines(page, "#choice"), ["No file is chosen."], "the choice")


def check_keyboard(page, disc):
    page.open(disc.page, 1400, 900)
    page.value("document.querySelector('h1').scrollIntoView()")
    page.press("Tab")
    equal(page.value("document.activeElement.id"), "map", "the first stop is the map")
    wanted = disc.slices()
    columns = page.value("Number(document.getElementById('map').dataset.columns)")
    place = 1
    for key, step in [("", 0), ("ArrowRight", 1), ("ArrowDown", columns), ("ArrowLeft", -1), ("ArrowUp", -columns), ("ArrowUp", 0)]:
        if key:
            page.press(key)
        place += step
        equal(lines(page, "#tip"), wanted[place], f"the tip after {key}")
        equal(lines(page, "#say"), [", ".join(wanted[place])], f"what is said after {key}")
    page.press("End")
    equal(lines(page, "#tip"), wanted[disc.listing["slices"]], "the last slice")
    page.press("Home")
    page.press("Enter")
    equal(lines(page, "#choice")[0][:3], "SYS", "Enter keeps the choice")
    # The filter, the table, its headings, its first row.
    heads = page.value("document.querySelectorAll('#files thead button').length")
    for _ in range(3 + heads):
        page.press("Tab")
    equal(page.value("document.activeElement.rowIndex"), 1, "the first row")
    page.press("ArrowDown")
    equal(page.value("document.activeElement.rowIndex"), 2, "the second row")
    equal(page.value("document.querySelector('tr.lit').rowIndex"), 2, "its slices are marked")
    # The pointer passes over another row, and over the map.
    for other in ("#files tbody tr:nth-child(4) td", "#map"):
        page.value(f"document.querySelector('{other}').scrollIntoView({{block: 'center'}})")
        frame(page)
        page.hover(*middle(page, other))
        assert page.value("document.querySelector('tr.lit')?.rowIndex") != 2, other
        page.hover(1, 1)
        equal(page.value("document.querySelector('tr.lit').rowIndex"), 2, "the row of the keyboard is marked again")


def check_filter(page, disc):
    page.open(disc.page, 1400, 900)
    page.value("document.getElementById('filter').focus()")
    for letter in "till":
        page.press(letter, letter)
    equal(names(page), ["TILL1", "TILL2"], "till")
    equal(lines(page, "#count"), ["2 of 11 entries"], "the count")
    page.value("(() => { const f = document.getElementById('filter'); f.value = ''; f.dispatchEvent(new Event('input')); })()")
    equal(len(names(page)), 11, "all again")


def check_without_script(page, disc):
    page.open(disc.page, 1400, 900, script=False)
    tree = page.call("DOMSnapshot.captureSnapshot", computedStyles=["display"])
    text = "\n".join(tree["strings"])
    for file in disc.listing["files"]:
        for number, stretch in enumerate(file["stretches"], 1):
            last = stretch["slice"] + stretch["slices"] - 1
            title = f"{file['name']}, stretch {number} of {len(file['stretches'])}: slices {stretch['slice']} to {last},"
            assert title in text, title
    page.open(disc.page, 360, 900, script=False)
    root = page.call("DOM.getDocument")["root"]["nodeId"]
    node = page.call("DOM.querySelector", nodeId=root, selector="#map")["nodeId"]
    equal(page.call("DOM.getBoxModel", nodeId=node)["model"]["width"], 704, "the map on a narrow page")
    equal(page.call("Page.getLayoutMetrics")["cssContentSize"]["width"], 360, "the narrow page")
    with open(disc.page, encoding="utf-8") as file:
        equal(file.read().count("<title>"), 1 + len(set(map(tuple, stretches(disc)))), "titles")


def stretches(disc):
    """A stretch of each slice: what the tip says without its slice."""
    return [[tip[0], tip[-1]] for tip in disc.slices().values()]


# How many pixels of a browser an A4 page is wide without its margins.
PAPER = 688


def check_print(page, disc):
    """On paper the page is light, as wide as the sheet, and has all rows, each table within its frame."""
    page.open(disc.page, PAPER, 900, dark=True)
    dark = {"name": "prefers-color-scheme", "value": "dark"}
    page.call("Emulation.setEmulatedMedia", media="print", features=[dark])
    frame(page)
    equal(page.value("document.documentElement.scrollWidth"), PAPER, "the width on paper")
    wide = "[...document.querySelectorAll('.scroll')].filter((frame) => frame.scrollWidth > frame.clientWidth).length"
    equal(page.value(wide), 0, "tables that are wider than their frame")
    equal(page.value("getComputedStyle(document.body).backgroundColor"), "rgb(255, 255, 255)", "the paper")
    window, whole = page.value("(() => { const s = document.querySelector('.scroll'); return [s.clientHeight, s.scrollHeight]; })()")
    equal(window, whole, "the rows on paper")
    equal(page.value("getComputedStyle(document.querySelector('#files tbody tr:last-child')).contentVisibility"), "visible", "the last row on paper")
    page.call("Emulation.setEmulatedMedia", media="")


def check_paper(page, disc):
    """On paper the heading of the files stands on every page that has some of them."""
    page.open(disc.page)
    made = page.call("Page.printToPDF", paperWidth=8.27, paperHeight=11.69)
    pages = Document(base64.b64decode(made["data"])).pages()
    # The files without attributes have a word that stands nowhere else.
    rows = [texts.count("none") for texts in pages]
    if not any(rows):
        print("browser test: the text of this browser's PDF cannot be read: the headings on paper are not tried")
        return
    equal(sum(rows), sum(file["attribute_names"] == [] for file in disc.listing["files"]), "files on paper")
    assert len(pages) > 10, f"{len(pages)} pages"
    heads = page.value("[...document.querySelectorAll('#files thead th')].map((head) => head.textContent)")
    for number, texts in enumerate(pages, 1):
        missing = [head for head in heads if head not in texts]
        assert "none" not in texts or not missing, f"page {number} of the PDF has no heading {missing}"


def check_hostile(page, disc):
    page.open(disc.page)
    shown = HOSTILE.decode(errors="replace").replace("\n", "\\n")
    equal(page.value("document.querySelector('h1').textContent"), shown, "the heading")
    equal(page.value("document.title"), f"{shown}: disc report", "the title")
    equal(page.value("document.querySelectorAll('img, script').length"), 1, "scripts")
    equal(page.complaints(), [], "a hostile name")


def check_unsound(page, disc):
    page.open(disc.page)
    equal(lines(page, ".verdict"), ["Not sound", "second implementation: not sound", "proved library: not sound"], "the verdict")
    equal(page.value("document.querySelectorAll('#map, table').length"), 0, "no map and no table")
    equal(page.value("document.querySelectorAll('h3').length"), page.value("document.querySelectorAll('.findings').length"), "rules")
    assert page.value("document.querySelectorAll('.findings li').length") >= 1


def check_speed(page, disc):
    """A full unit with many files: prints how long it took, and counts what has to be drawn."""
    begun = time.monotonic()
    page.open(disc.page)
    frame(page)
    opened = time.monotonic()
    page.value("document.querySelectorAll('#files thead button')[3].click(); document.body.offsetHeight")
    done = time.monotonic()
    print(f"browser test: a report of {len(disc.listing['files'])} files opened in {opened - begun:.2f} s, sorted in {done - opened:.2f} s")
    elements = page.value("document.querySelectorAll('#map *').length")
    bars = len(set(map(tuple, stretches(disc))))
    assert elements < 2 * bars + 400, f"{elements} elements for {bars} stretches"


def main():
    made = discs()
    page = Page(CHROMIUM, 580)
    try:
        sample, many = made["sample"], made["many"]
        checks = [
            lambda: check_quiet(page, made),
            lambda: check_contrast(page, made),
            lambda: check_sorting(page, sample, None),
            lambda: check_sorting(page, many, [4]),
            lambda: check_tips(page, sample, 1400, None),
            lambda: check_tips(page, sample, 360, None),
            lambda: check_tips(page, made["empty"], 700, None),
            lambda: check_tips(page, many, 1400, [1, 9, 128, 129, 500, 1025]),
            lambda: check_choice(page, sample),
            lambda: check_keyboard(page, sample),
            lambda: check_filter(page, sample),
            lambda: check_without_script(page, sample),
            lambda: check_tap(page, sample),
            lambda: check_outline(page, sample),
            lambda: check_tables(page, sample, many),
            lambda: check_print(page, sample),
            lambda: check_print(page, many),
            lambda: check_print(page, made["wide"]),
            lambda: check_paper(page, many),
            lambda: check_hostile(page, made["hostile"]),
            lambda: check_unsound(page, made["hurt"]),
            lambda: check_speed(page, many),
        ]
        for check in checks:
            check()
        print(f"browser test: {len(checks)} checks of {len(made)} reports passed")
    finally:
        page.close()


if __name__ == "__main__":
    guarded(main)
