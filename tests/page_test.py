#!/usr/bin/python3
"""Opens the page of a survey, `page/page.html`, in headless Chromium, and checks what it shows and prints.

Usage: page_test.py [--program PROGRAM]

It needs Debian's chromium, chromium-driver, python3-selenium, python3-pil, poppler-utils and tidy, and so runs in Debian's
own Python. The pages that it opens have, in place of the sample, data that `survey_data.py` makes. The entries are puzzles
of the repository and of `traps.py`, and made ones: large pictures, odd texts, and 10,000 entries. With `--program` it opens
pages that the program prints too.

Each comparison counts once. The last line is `N passed, M failed`, and the exit status is 1 if a comparison failed.
"""

import argparse
import base64
import io
import json
import os
import re
import subprocess
import sys
import tempfile
import time
from itertools import product

import readers
import solving
import survey_data
from comparing import Program, Results, TooManyFailures
from findings import Options
from PIL import Image, ImageChops
from selenium import webdriver
from selenium.webdriver.chrome.service import Service
from selenium.webdriver.common.by import By
from selenium.webdriver.common.keys import Keys
from selenium.webdriver.support.ui import Select
from survey_test import COUNT, ODD_ENTRY, collection_of, found_of, made_entries, puzzle_entries, trap_entries
from traps import FILES

TOP = os.path.dirname(os.path.dirname(os.path.abspath(__file__)))
WAIT = 60  # seconds for what the page does by itself

VERDICTS = {"one": "one solution", "several": "several solutions", "none": "no solution", "unsettled": "unsettled"}
GRADES = {"line": "line logic", "trials": "trials", "search": "search"}
GOALS = {"absent": "none", "meets": "meets the clues", "misses": "does not meet the clues"}
INK, PAPER = (20, 32, 43), {"light": (255, 255, 255), "dark": (226, 227, 228)}
HOSTILE = b"</script><script>alert(1)</script>"

# Entries


def puzzle_files():
    """Returns the puzzles of the repository and some of `traps.py` that are no larger than 16 by 16, as entries."""
    chosen = ("goal-row.non", "several-goal.non", "several-inverted.non", "threes-goal.non", "sums.non", "row-long.non")
    chosen += ("search-none.mk", "goal-search.non", "search.non", "title.non", "mark.non", "notes.txt", "colours.non")
    return puzzle_entries() + [(b"traps/" + name.encode(), FILES[name]) for name in chosen]


def picture_of(size, changed=()):
    """Returns a picture of some cells in which each line has runs of several lengths. The changed cells (x, y) have the
    other colour."""
    return tuple(
        "".join(".#"[((x * y + x * x // 7 + y) % 5 < 2) ^ ((x, y) in changed)] for x in range(size)) for y in range(size)
    )


def disc(size):
    """Returns the picture of a disc, in which no line has more than one run."""
    centre = (size - 1) / 2
    return tuple(
        "".join(".#"[(x - centre) ** 2 + (y - centre) ** 2 < centre**2] for x in range(size)) for y in range(size)
    )


def made(number, name, grids, verdict="one", texts=(), goal=None):
    """Returns what is known of a made entry: its solutions are these grids, and its clues those of the first one."""
    rows, columns = [tuple(map(solving.runs, lines)) for lines in (grids[0], solving.transposed(grids[0]))]
    goal = goal and "".join(goal).translate(str.maketrans(".#", "01")).encode()
    puzzle = readers.Puzzle(len(columns), len(rows), rows, columns, texts, goal)
    cells = len(columns) * len(rows)
    report = solving.Report(verdict, "line" if verdict == "one" else "search", cells, cells, 0, grids)
    return survey_data.graded_members(number, name, puzzle, report, None)


# Pages


class Browser:
    """Chromium, with the page of a survey. What is compared is counted in `results`."""

    def __init__(self, results, folder):
        self.results, self.folder, self._pages = results, folder, 0
        options = webdriver.ChromeOptions()
        for word in ("--headless=new", "--no-sandbox", "--disable-gpu", "--disable-dev-shm-usage", "--hide-scrollbars"):
            options.add_argument(word)
        options.set_capability("goog:loggingPrefs", {"browser": "ALL"})
        self.driver = webdriver.Chrome(options=options, service=Service("/usr/bin/chromedriver"))
        self.resize(1280, 900)

    def resize(self, width, height, ratio=1):
        """Gives the window a size in CSS pixels, each of `ratio` by `ratio` pixels of the screen."""
        metrics = {"width": width, "height": height, "deviceScaleFactor": ratio, "mobile": False}
        self.driver.execute_cdp_cmd("Emulation.setDeviceMetricsOverride", metrics)

    def prefer(self, scheme):
        """Makes the browser prefer `light` or `dark` pages."""
        feature = {"name": "prefers-color-scheme", "value": scheme}
        self.driver.execute_cdp_cmd("Emulation.setEmulatedMedia", {"features": [feature]})

    def write(self, page):
        """Writes a page. Returns its address, another one each time."""
        self._pages += 1
        path = os.path.join(self.folder, f"{self._pages}.html")
        with open(path, "wb") as file:
            file.write(page)
        return f"file://{path}"

    def open(self, found, fragment="", page=None):
        """Opens the page of a survey, or the one that is given. Returns how many seconds that takes until its first card is
        drawn."""
        address = self.write(page or survey_data.html_text(found)) + fragment
        started = time.monotonic()
        self.driver.get(address)
        if found:
            self.wait("card", lambda: self.run("return document.querySelector('.verdict') !== null"))
        return time.monotonic() - started

    def run(self, script, *words):
        """Runs a script in the page. Returns what it returns."""
        return self.driver.execute_script(script, *words)

    def wait(self, what, is_so):
        """Waits until something is so."""
        end = time.monotonic() + WAIT
        while not is_so() and time.monotonic() < end:
            time.sleep(0.02)
        self.results.compare("comes in time", what, True, is_so())

    def find(self, selector):
        """Returns the first element for a selector."""
        return self.driver.find_element(By.CSS_SELECTOR, selector)

    def texts(self, selector):
        """Returns the texts of all elements for a selector."""
        return self.run("return [...document.querySelectorAll(arguments[0])].map(it => it.textContent)", selector)

    def show_all(self):
        """Has the cards of all entries made, as printing them does."""
        self.run("window.dispatchEvent(new Event('beforeprint'))")

    def choose(self, search="", verdict="all", grade="all", sort="number", is_reversed=False):
        """Sets all controls by script. Returns the names of the cards that are then shown, and the count."""
        script = """
            const [search, verdict, grade, sort, isReversed] = arguments;
            for (const [id, value] of Object.entries({ search, verdict, grade, sort })) {
                document.getElementById(id).value = value;
            }
            document.getElementById("reversed").checked = isReversed;
            document.getElementById("sort").dispatchEvent(new Event("change"));
            return [[...document.querySelectorAll("#cards h2")].map(it => it.textContent), count.textContent]"""
        return self.run(script, search, verdict, grade, sort, is_reversed)

    def screenshot(self, selector):
        """Returns the pixels of the first element for a selector."""
        return Image.open(io.BytesIO(self.find(selector).screenshot_as_png)).convert("RGB")

    def pdf(self):
        """Returns the page as a PDF."""
        printed = self.driver.execute_cdp_cmd("Page.printToPDF", {"preferCSSPageSize": True, "printBackground": False})
        return base64.b64decode(printed["data"])

    def check_quiet(self, what):
        """Checks that nothing was written to the console."""
        self.results.compare("console", what, [], self.driver.get_log("browser"))


# Cards


def cells_between(rows, others):
    """Returns the cells (x, y), counted from 0, in which two grids differ."""
    return [(x, y) for y, pair in enumerate(zip(rows, others)) for x, (cell, other) in enumerate(zip(*pair)) if cell != other]


def place(cells):
    """Returns how the page describes the place of some cells."""
    parts = []
    for word, numbers in (("row", [y for _, y in cells]), ("column", [x for x, _ in cells])):
        first, last = min(numbers) + 1, max(numbers) + 1
        parts.append(f"{word} {first}" if first == last else f"{word}s {first} to {last}")
    return ", ".join(parts)


def pictures_of(members):
    """Returns the pictures that a card has: of each its caption, its grid, and its differing cells."""
    solutions, goal = members["solutions"] or (), members["goal_rows"]
    if not solutions:
        return []
    missed = cells_between(goal, solutions[0]) if members["goal"] == "misses" else []
    if len(solutions) == 2:
        between = cells_between(*solutions)
        pictures = [(f"Solution {number}", grid, between) for number, grid in enumerate(solutions, 1)]
        return pictures + ([("Goal, compared with solution 1", goal, missed)] if missed else [])
    pictures = [("Solution" if members["verdict"] == "one" else "A solution", solutions[0], missed)]
    return pictures + ([("Goal", goal, missed)] if missed else [])


def text(value):
    """Returns bytes of a survey as text."""
    return value.decode("utf-8", "replace") if isinstance(value, bytes) else value


def facts_of(members):
    """Returns the terms and values of a card, one after the other."""
    if members["fault"]:
        line = members["fault_line"]
        return ["Fault", f"{members['fault']}, line {line}" if line else members["fault"]]
    cells = members["width"] * members["height"]
    known = f"{members['line_cells']:,} by line logic, {members['trial_cells']:,} after trials, of {cells:,}"
    facts = ["Size", f"{members['width']} \u00d7 {members['height']}", "Grade", GRADES[members["grade"]], "Known cells", known]
    return facts + ["Guesses", f"{members['guesses']:,}", "Goal", GOALS[members["goal"]]]


def card_of(members):
    """Returns the texts of an entry's card, in order."""
    texts = [f"{members['number']}. {text(members['name'])}", text(members["title"])]
    texts += ["by " + text(members["by"])] if members["by"] else []
    texts += [VERDICTS.get(members["verdict"], "refused"), members["message"]]
    pictures = pictures_of(members)
    texts += [caption for caption, _, _ in pictures]
    if pictures and pictures[0][2]:
        texts.append("Differing cells, orange with a diamond: " + place(pictures[0][2]))
    return [it for it in texts if it] + facts_of(members)


# Returns of each picture of a card its size, the cells that are drawn filled, those that are drawn as differing and
# filled, those that are drawn as differing and blank, and its label.
DRAWN = """
    return [...arguments[0].querySelectorAll("svg.picture")].map(svg => {
        const { width, height } = svg.viewBox.baseVal;
        const at = (name, x, y) => {
            const path = svg.querySelector("." + name);
            return path !== null && path.isPointInFill(new DOMPoint(x, y));
        };
        const drawn = [[], [], []];
        for (let y = 0; y < height; y++) {
            for (let x = 0; x < width; x++) {
                if (at("ink", x + 0.5, y + 0.5)) drawn[0].push([x, y]);
                if (at("differing", x + 0.05, y + 0.05) && !at("differing", x + 0.5, y + 0.5)) drawn[1].push([x, y]);
                if (!at("differing", x + 0.05, y + 0.05) && at("differing", x + 0.5, y + 0.5)) drawn[2].push([x, y]);
            }
        }
        return [[width, height], ...drawn, svg.getAttribute("role"), svg.getAttribute("aria-label")];
    })"""


def drawn_of(members, picture):
    """Returns the same for a picture, as it should be."""
    caption, rows, differing = picture
    width, height = members["width"], members["height"]
    filled = [[x, y] for y, row in enumerate(rows) for x, cell in enumerate(row) if cell == solving.FILLED]
    marked = [list(cell) for cell in differing]
    label = f"{caption} of {text(members['name'])}: {width} by {height} cells, {len(filled)} filled"
    label += f"; {len(marked)} differ: {place(differing)}" if marked else ""
    parts = [[cell for cell in filled if cell not in marked], [cell for cell in filled if cell in marked]]
    return [[width, height], *parts, [cell for cell in marked if cell not in filled], "img", label]


def check_cards(browser, what, found, page=None):
    """Checks all cards of a page: their texts, and the cells of their pictures."""
    browser.open(found, page=page)
    browser.show_all()
    cards = browser.driver.find_elements(By.CSS_SELECTOR, "#cards > li")
    browser.results.compare("number of cards", what, len(found), len(cards))
    for card, members in zip(cards, found):
        script = "return [...arguments[0].querySelectorAll('h2, p, figcaption, dt, dd')].map(it => it.textContent)"
        browser.results.compare(f"card, {what}", members["name"], card_of(members), browser.run(script, card))
        wanted = [drawn_of(members, picture) for picture in pictures_of(members)]
        browser.results.compare(f"pictures, {what}", members["name"], wanted, browser.run(DRAWN, card))
    browser.check_quiet(what)


def check_hostile_texts(browser):
    """Checks that texts of the survey stay texts."""
    grids = [picture_of(5)]
    texts = tuple((keyword, HOSTILE + b" " + keyword) for keyword in readers.TEXT_KEYWORDS)
    names = [HOSTILE + b".non", b'"><img src=x onerror=alert(1)>.non', b"\xff\xc3\xa9<!--.non", b"&lt;b&gt;\x01.non"]
    found = [made(number, name, grids, texts=texts) for number, name in enumerate(names, 1)]
    found.append(survey_data.refused_members(5, HOSTILE, readers.Fault("BadNumber", 2), HOSTILE.decode()))
    check_cards(browser, "hostile texts", found)
    browser.results.compare("scripts", "hostile texts", 2, browser.run("return document.scripts.length"))
    browser.results.compare("images", "hostile texts", 0, browser.run("return document.images.length"))
    browser.open(found, "#print")
    browser.results.compare("title in print", "hostile texts", f"1. {text(texts[1][1])}", browser.texts(".sheet h2")[0])
    browser.check_quiet("hostile texts in print")


# Choosing


def chosen(found, search="", verdict="all", grade="all", sort="number", is_reversed=False):
    """Returns the entries that the controls choose, in order."""
    keys = {
        "number": lambda it: it["number"],
        "name": lambda it: [int(part) if part.isdigit() else part for part in re.split(r"(\d+)", text(it["name"]))],
        "size": lambda it: it["width"] * it["height"],
        "grade": lambda it: list(GRADES).index(it["grade"]),
        "guesses": lambda it: it["guesses"],
    }
    words = [it["verdict"] or "refused" for it in found]
    kept = [it for it, word in zip(found, words) if verdict in ("all", word) or (verdict == "message" and it["message"])]
    kept = [it for it in kept if grade in ("all", it["grade"])]
    kept = [it for it in kept if search.lower() in f"{text(it['name'])}\n{text(it['title']) or ''}".lower()]
    if is_reversed:
        kept.reverse()
    graded = [it for it in kept if it["verdict"] or sort in ("number", "name")]
    refused = [it for it in kept if it not in graded]
    return sorted(graded, key=keys[sort], reverse=is_reversed) + refused


def check_choosing(browser, found):
    """Checks the filters, the search and the orders of a page, by script, with the names shown and their count."""
    for name in (b"p100.non", b"p9.non", b"p1.non", b"p10.non", b"p2.non"):
        found = [*found, made(len(found) + 1, name, [picture_of(5)])]
    browser.open(found)
    by_filter = product(["", "A", "CUP OF", ".non", "no such"], ["all", *VERDICTS, "refused", "message"], ["all", *GRADES])
    by_order = product(["", "goal"], ["all"], ["all", "search"], ["number", "name", "size", "grade", "guesses"], [False, True])
    for controls in (*by_filter, *by_order):
        wanted = chosen(found, *controls)
        names = [f"{it['number']}. {text(it['name'])}" for it in wanted]
        count = f"{len(wanted)} of {len(found)} puzzles"
        browser.results.compare("chosen", controls, [names, count], browser.choose(*controls))
    browser.check_quiet("choosing")


def check_keyboard(browser, found):
    """Checks that the controls work by keyboard, in the order in which they are shown."""
    browser.open(found)
    keys = browser.driver.switch_to.active_element
    order = []
    for _ in range(6):
        keys.send_keys(Keys.TAB)
        keys = browser.driver.switch_to.active_element
        order.append((keys.aria_role, keys.accessible_name))
    controls = [("searchbox", "Search names and titles"), *[("combobox", name) for name in ("Verdict", "Grade", "Sort by")]]
    browser.results.compare("controls", "keyboard", [*controls, ("checkbox", "Reversed"), ("button", "Print puzzles")], order)
    count = browser.find("#count")
    roles = (count.aria_role, count.get_attribute("aria-live"))
    browser.results.compare("roles of the count", "keyboard", ("status", "polite"), roles)
    browser.find("#search").send_keys("heart")
    wanted = f"{len(chosen(found, 'heart'))} of {len(found)} puzzles"
    browser.wait("a search", lambda: count.text == wanted)
    browser.find("#search").send_keys(Keys.ESCAPE)
    browser.wait("a search that is cleared", lambda: count.text.startswith(f"{len(found)} of"))
    browser.find("#verdict").send_keys("several")
    browser.wait("a verdict", lambda: count.text.startswith(f"{len(chosen(found, verdict='several'))} of"))
    browser.find("#verdict").send_keys(Keys.HOME)
    browser.find("#reversed").send_keys(Keys.SPACE)
    browser.wait("a reversed order", lambda: browser.texts("#cards h2")[0].startswith(f"{len(found)}. "))
    browser.check_quiet("keyboard")


def check_options(browser, found):
    """Checks the choices of each control, with their counts, and the line of totals."""
    browser.open(found)
    words = [it["verdict"] or "refused" for it in found]
    texts = {**VERDICTS, "refused": "refused"}
    verdicts = [f"{shown} ({words.count(word)})" for word, shown in texts.items()]
    messages = f"with a message ({len([it for it in found if it['message']])})"
    grades = [f"{shown} ({len([it for it in found if it['grade'] == word])})" for word, shown in GRADES.items()]
    for control, wanted in (("verdict", ["all", *verdicts, messages]), ("grade", ["all", *grades])):
        given = [option.text for option in Select(browser.find(f"#{control}")).options]
        browser.results.compare("choices", control, wanted, given)
    parts = {"one": "with one solution", "several": "with several", "none": "without any", "unsettled": "unsettled"}
    totals = [f"{words.count(word)} {shown}" for word, shown in {**parts, "refused": "refused"}.items()]
    browser.results.compare("totals", "page", [f"{len(found)} puzzles: " + ", ".join(totals)], browser.texts("#totals"))


# Pictures


def wanted_picture(rows, cell, paper):
    """Returns a grid as an image in ink and `paper`, in which each cell is `cell` by `cell` pixels."""
    image = Image.new("RGB", (len(rows[0]), len(rows)))
    image.putdata([INK if colour == solving.FILLED else paper for row in rows for colour in row])
    return image.resize((image.width * cell, image.height * cell), Image.NEAREST)


def is_sharp(shot, wanted):
    """Returns whether a screenshot is the wanted image. It may be moved by a pixel: where a picture begins within one of the
    screen's pixels, Chromium cuts its screenshot at another one than it draws at."""
    moved = [ImageChops.difference(ImageChops.offset(shot, x, y), wanted) for x, y in product((-1, 0, 1), repeat=2)]
    inner = (1, 1, wanted.width - 1, wanted.height - 1)
    return shot.size == wanted.size and any(image.crop(inner).getbbox() is None for image in moved)


def check_sharpness(browser):
    """Checks that each cell of a picture is the same number of the screen's pixels wide and high, in ink or paper alone."""
    screens = [(ratio, "light") for ratio in (1, 1.25, 1.5, 2, 2.625, 3)] + [(2, "dark")]
    for size, (ratio, scheme) in product((5, 37, 256), screens):
        browser.resize(1280, 900, ratio)
        browser.prefer(scheme)
        browser.open([made(1, b"sharp.non", [picture_of(size)])])
        shot = browser.screenshot("svg.picture")
        wanted = wanted_picture(picture_of(size), min(int(16 * ratio), int(256 * ratio) // size), PAPER[scheme])
        subject = f"{size} by {size} with {ratio} pixels, {scheme}"
        browser.results.compare("sharp picture", subject, (wanted.size, True), (shot.size, is_sharp(shot, wanted)))
    browser.prefer("light")
    browser.resize(1280, 900, 1.5)
    browser.open([made(1, b"sharp.non", [picture_of(256)])])
    browser.resize(1279, 900)
    wanted = wanted_picture(picture_of(256), 1, PAPER["light"])
    browser.wait("a picture on another screen", lambda: is_sharp(browser.screenshot("svg.picture"), wanted))
    browser.resize(1280, 900)


def luminance(colour):
    """Returns the relative luminance of a colour, as the guidelines for accessible pages define it."""
    parts = [value / 255 / 12.92 if value <= 10 else ((value / 255 + 0.055) / 1.055) ** 2.4 for value in colour]
    return 0.2126 * parts[0] + 0.7152 * parts[1] + 0.0722 * parts[2]


def contrast(colour, other):
    """Returns the contrast of two colours, from 1 to 21.

    >>> contrast((0, 0, 0), (255, 255, 255))
    21.0
    """
    darker, lighter = sorted([luminance(colour), luminance(other)])
    return round((lighter + 0.05) / (darker + 0.05), 2)


def check_colours(browser):
    """Checks that a differing cell has contrast to ink and paper, for the colour-blind too, and for those who see greys."""
    first, second = ["##", "#.", ".."], ["##", "##", "##"]
    found = [made(1, b"colours.non", [tuple(first), tuple(second)], "several")]
    kinds = ("none", "protanopia", "deuteranopia", "tritanopia", "achromatopsia")
    for scheme, kind in product(("light", "dark"), kinds):
        browser.prefer(scheme)
        browser.driver.execute_cdp_cmd("Emulation.setEmulatedVisionDeficiency", {"type": kind})
        browser.open(found)
        shot = browser.screenshot("svg.picture")
        ink, paper, diamond = shot.getpixel((8, 8)), shot.getpixel((17, 33)), shot.getpixel((24, 24))
        least = min(contrast(diamond, ink), contrast(diamond, paper))
        browser.results.compare("contrast of a differing cell", (scheme, kind, ink, paper, diamond), True, least >= 2.5)
    browser.driver.execute_cdp_cmd("Emulation.setEmulatedVisionDeficiency", {"type": "none"})
    browser.prefer("light")


def check_frames(browser):
    """Checks pictures of small cells, in which a frame is around those that differ."""
    rows, others = picture_of(60), picture_of(60, {(10, 20), (11, 20), (10, 21)})
    found = [made(1, b"large.non", [rows, others], "several"), made(2, b"missed.non", [rows], goal=others)]
    found.append(made(3, b"all.non", [rows, others], "several", goal=picture_of(60, {(0, 0), (59, 59)})))
    check_cards(browser, "large", found)
    script = """
        const sides = ["x", "y", "width", "height"];
        return [...document.querySelectorAll(".around")].map(frame => sides.map(side => frame[side].baseVal.value));"""
    browser.results.compare("frames", "large", [[8, 18, 6, 6]] * 6 + [[-2, -2, 64, 64]], browser.run(script))


# Windows and paper


def check_narrow(browser, found):
    """Checks that on a phone nothing is wider than the screen."""
    long = b"a" * 300 + b".non"
    wide = [picture_of(256), picture_of(256, {(9, 9)})]
    found = [*found, made(len(found) + 1, long, wide, "several", ((b"title", b"W" * 5000), (b"by", b"V" * 5000)))]
    for width, ratio in ((320, 2), (360, 3), (412, 2.625)):
        browser.resize(width, 740, ratio)
        browser.open(found)
        browser.show_all()
        browser.results.compare("width of the page", width, width, browser.run("return document.documentElement.scrollWidth"))
    browser.resize(1280, 900)
    browser.check_quiet("narrow")


def check_without_script(browser, found):
    """Checks what the page shows without JavaScript."""
    browser.driver.execute_cdp_cmd("Emulation.setScriptExecutionDisabled", {"value": True})
    browser.driver.get(browser.write(survey_data.html_text(found)))
    shown = browser.find("body").text
    browser.driver.execute_cdp_cmd("Emulation.setScriptExecutionDisabled", {"value": False})
    wanted = "Survey of nonograms\nThis page needs JavaScript to show the puzzles."
    browser.results.compare("page without JavaScript", "text", wanted, shown)


def run_tool(*words, given=b""):
    """Runs a program with `given` on standard input. Returns its status, and what it prints, on standard error too."""
    ran = subprocess.run(words, input=given, stdout=subprocess.PIPE, stderr=subprocess.STDOUT, check=False)
    return ran.returncode, ran.stdout


def pages_of(pdf, order="-layout"):
    """Returns the text of each page of a PDF, as it is laid out, or in the order in which it is drawn (`-raw`)."""
    return run_tool("pdftotext", order, "-", "-", given=pdf)[1].decode().split("\f")[:-1]


def clues_of(members):
    """Returns the numbers of a printed puzzle, each with its column and its row; those of clues are below 0, and end at -1."""
    rows = [(k - len(clue or (0,)), y, n) for y, clue in enumerate(members["rows"]) for k, n in enumerate(clue or (0,))]
    columns = [(x, k - len(clue or (0,)), n) for x, clue in enumerate(members["columns"]) for k, n in enumerate(clue or (0,))]
    return [list(number) for number in rows + columns]


# Returns the numbers of each printed puzzle in the same way.
CLUES = """
    return [...document.querySelectorAll(".clues")].map(svg => [...svg.querySelectorAll("tspan")].map(number => {
        const [x, y] = ["x", "y"].map(name => Math.floor(Number(number.getAttribute(name)) / 20));
        return [x, y, Number(number.textContent)];
    }))"""


# Returns of the first printed puzzle, for each axis, how wide the line before each of its cells is, and at the end of the
# last; first across the grid, and then across the clues at its edge.
LINES = """
    const [svg] = document.querySelectorAll(".clues");
    const width = point => Math.max(0, ...[...svg.querySelectorAll("path")].map(path =>
        path.isPointInStroke(point) ? Number.parseFloat(getComputedStyle(path).strokeWidth) : 0));
    const numbers = count => [...Array(count + 1).keys()].map(number => number * 20);
    return [10, -10].flatMap(beside => [
        numbers(arguments[0]).map(x => width(new DOMPoint(x, beside))),
        numbers(arguments[1]).map(y => width(new DOMPoint(beside, y))),
    ]);"""


def check_lines(browser):
    """Checks the lines of printed puzzles: every fifth and the last are stronger, and go on between the clues."""
    for width, height in ((1, 1), (5, 10), (12, 19)):
        browser.open([made(1, b"lines.non", [tuple(row[:width] for row in disc(20)[:height])])], "#print")
        browser.driver.execute_cdp_cmd("Emulation.setEmulatedMedia", {"media": "print"})
        script = "return parseFloat(getComputedStyle(document.querySelector(arguments[0])).strokeWidth)"
        thin, thick = browser.run(script, ".thin"), browser.run(script, ".thick")
        sides = [[thick if n % 5 == 0 or n == side else thin for n in range(side + 1)] for side in (width, height)]
        beside = [[n if n == thick else 0 for n in side] for side in sides]
        given = browser.run(LINES, width, height)
        browser.results.compare("lines of a printed puzzle", (width, height), sides + beside, given)
        browser.results.compare("strength of the lines", (thin, thick), True, thick > 2 * thin > 0)
    browser.driver.execute_cdp_cmd("Emulation.setEmulatedMedia", {"media": ""})


def check_print(browser, what, found):
    """Checks the printed puzzles: their clues, their titles, each on one page, and their solutions on pages behind."""
    browser.open(found, "#print")
    graded = [it for it in found if not it["fault"]]
    titles = [f"{it['number']}. {text(it['title'] or it['name'])}" for it in graded]
    browser.results.compare("clues", what, [clues_of(it) for it in graded], browser.run(CLUES))
    browser.results.compare("titles", what, [titles, titles], [browser.texts(".sheet h2"), browser.texts(".solved h2")])
    solutions = browser.run("return [...document.querySelectorAll('.solved')].map(it => it.querySelectorAll('svg').length)")
    browser.results.compare("printed solutions", what, [len(it["solutions"]) for it in graded], solutions)
    pdf = browser.pdf()
    pages = pages_of(pdf, "-raw")
    behind = next((number for number, page in enumerate(pages) if "Solutions" in page), 0)
    browser.results.compare("pages of puzzles", what, True, behind > 0 and "Search" not in "".join(pages))
    titled = [[title for title in titles if title_in_print(title).search(page)] for page in pages]
    browser.results.compare("titles behind", what, titles, sum(titled[behind:], []))
    check_margins(browser, what, pdf)
    browser.run("document.querySelectorAll('.sheet :is(h2, p)').forEach(it => { it.style.visibility = 'hidden'; })")
    found_on = puzzles_on(browser, what, graded, pages_of(browser.pdf())[:behind])
    wanted = [[titles[index] for index in page] for page in found_on]
    browser.results.compare("titles of each page", what, wanted, titled[:behind])
    browser.check_quiet(f"print of {what}")


def title_in_print(title):
    """Returns the pattern of how a title begins in a page's text, in which it may be broken anywhere."""
    return re.compile(r"(?<!\d)" + r"\s*".join(map(re.escape, title.replace(" ", "")[:20])))


def puzzles_on(browser, what, graded, pages):
    """Returns for each of these pages the indices of its puzzles. Checks that it has just their numbers, so that none is cut
    at its end."""
    waiting, found_on = list(enumerate([n for _, _, n in clues_of(it)] for it in graded)), []
    for number, page in enumerate(pages, 1):
        given, wanted, indices = sorted(map(int, page.split())), [], []
        while waiting and len(wanted) < len(given):
            index, numbers = waiting.pop(0)
            wanted += numbers
            indices.append(index)
        browser.results.compare(f"numbers of page {number}", what, sorted(wanted), given)
        found_on.append(indices)
    browser.results.compare("puzzles that are not in print", what, [], waiting)
    return found_on


def check_margins(browser, what, pdf):
    """Checks that nothing is printed in the margins of a PDF's pages, and something on each page."""
    path = os.path.join(browser.folder, "print.pdf")
    with open(path, "wb") as file:
        file.write(pdf)
    run_tool("pdftoppm", "-gray", "-r", "50", path, path)
    for name in sorted(os.listdir(browser.folder)):
        if name.startswith("print.pdf-"):
            with Image.open(os.path.join(browser.folder, name)) as page:
                printed = page.point(lambda value: 255 if value < 250 else 0).getbbox()
                margin = 50 * 11 // 25.4  # pixels of 11 millimetres
                inside = printed and min(*printed[:2], page.width - printed[2], page.height - printed[3]) >= margin
            browser.results.compare(f"margins of {name}", (what, printed), True, bool(inside))
            os.remove(os.path.join(browser.folder, name))


def check_button(browser, found):
    """Checks that the button lays out the puzzles that are shown, and that the cards are back when they are printed."""
    browser.open(found)
    browser.choose(verdict="one", grade="search")
    titles = "[...document.querySelectorAll('.sheet h2')].map(it => it.textContent)"
    browser.run(f"window.print = () => {{ window.printed = {titles}; }}")
    browser.find("#print").click()
    wanted = [f"{it['number']}. {text(it['title'] or it['name'])}" for it in chosen(found, verdict="one", grade="search")]
    browser.results.compare("puzzles that the button prints", "button", wanted, browser.run("return window.printed"))
    browser.run("window.dispatchEvent(new Event('afterprint'))")
    shown = [len(browser.texts(".sheet")), browser.run("return document.body.className")]
    browser.results.compare("what is left of the layout", "button", [0, ""], shown)
    browser.choose()
    text_of_pdf = "".join(pages_of(browser.pdf()))
    counts = [text_of_pdf.count(shown) for shown in ("Known cells", "Print puzzles")]
    graded = [it for it in found if not it["fault"]]
    browser.results.compare("cards that are printed without it", "button", [len(graded), 0], counts)
    browser.check_quiet("button")


# All


def check_many(browser):
    """Checks a survey of as many entries as there may be, and says how long it takes."""
    grids = [[picture_of(20, {(number, number)})] for number in range(20)]
    texts = ((b"title", b"Made"),)
    found = [made(number, b"%d.non" % number, grids[number % 20], texts=texts) for number in range(1, COUNT + 1)]
    took = browser.open(found)
    print(f"{COUNT:,} entries of 20 by 20 open in {took:.1f} seconds", flush=True)
    drawn = len(browser.texts(".verdict"))
    browser.results.compare("cards at first", "many", True, drawn < 200)
    browser.find("#search").send_keys("9999")
    browser.wait("a search", lambda: browser.texts("#count") == ["1 of 10,000 puzzles"])
    browser.results.compare("cards that a search finds", "many", ["9999. 9999.non"], browser.texts("#cards h2"))
    browser.find("#search").send_keys(Keys.ESCAPE)
    browser.wait("all again", lambda: browser.texts("#count") == ["10,000 of 10,000 puzzles"])
    browser.run("window.scrollTo(0, document.body.scrollHeight)")
    browser.wait("more cards", lambda: len(browser.texts(".verdict")) > drawn)
    browser.check_quiet("many")


def check_more(browser):
    """Checks that the button for more cards works by keyboard too, where nothing comes into sight by itself."""
    found = [made(number, b"%d.non" % number, [picture_of(5)]) for number in range(1, 301)]
    browser.open(found)
    browser.run("watcher.disconnect(); watcher.observe = () => {};")
    before = len(browser.texts(".verdict"))
    browser.find("#more").send_keys(Keys.ENTER)
    browser.results.compare("cards by the button", "more", True, before < len(browser.texts(".verdict")) <= 300)
    while browser.find("#more").is_displayed():
        browser.find("#more").send_keys(Keys.ENTER)
    names = [f"{number}. {number}.non" for number in range(1, 301)]
    browser.results.compare("all cards by the button", "more", names, browser.texts("#cards h2"))
    browser.check_quiet("more")


def check_program(browser, program):
    """Opens pages that the program prints: all their cards, or of the largest survey how many there are."""
    for what, entries in (("puzzles", puzzle_entries()), ("traps", trap_entries()), ("made", made_entries(ODD_ENTRY))):
        collection = collection_of(entries)
        found = found_of(readers.cut(collection), Options())
        page = program.run("survey", "--format", "html", text=collection)[1]
        browser.results.compare("page of the program", what, True, page == survey_data.html_text(found))
        if len(found) < COUNT:
            check_cards(browser, f"{what} by the program", found, page)
        else:
            browser.open(found, page=page)
            browser.results.compare("count", what, [f"{COUNT:,} of {COUNT:,} puzzles"], browser.texts("#count"))
            browser.show_all()
            names = [f"{it['number']}. {text(it['name'])}" for it in found]
            browser.results.compare("names of the cards", what, True, names == browser.texts("#cards h2"))
            browser.check_quiet(what)


def check_source(results, found):
    """Checks the page of the repository: its sample, its HTML, and how `tools/page.sh` splits it."""
    head, data, tail = survey_data.page_parts()
    entries = []
    for name in survey_names(data):
        with open(os.path.join(TOP, name), "rb") as file:
            entries.append((name.encode(), file.read()))
    results.compare("sample", "page.html", survey_data.escaped(survey_data.json_text(found_of(entries, Options()))), data)
    script = os.path.join(TOP, "tools", "page.sh")
    given = [run_tool(script, part) for part in ("head", "tail")]
    results.compare("head and tail", "page.sh", [(0, head), (0, tail)], given)
    for what, given in (("sample", head + data + tail), ("files", survey_data.html_text(found))):
        results.compare("tidy", what, (0, b""), run_tool("tidy", "-e", "-q", given=given))


def survey_names(data):
    """Returns the names of the entries of a survey's data."""
    return [entry["name"] for entry in map(json.loads, data.splitlines()) if "name" in entry]


def test(results, folder, program):
    """Makes all comparisons. The program is None if its pages aren't to be opened."""
    files = found_of(puzzle_files(), Options())
    few = found_of(puzzle_files(), Options(guesses=3))
    check_source(results, files)
    browser = Browser(results, folder)
    try:
        check_cards(browser, "files", files)
        check_cards(browser, "few guesses", few)
        check_cards(browser, "no entries", [])
        check_hostile_texts(browser)
        check_choosing(browser, few)
        check_keyboard(browser, files)
        check_options(browser, few)
        check_sharpness(browser)
        check_colours(browser)
        check_frames(browser)
        check_narrow(browser, files)
        check_without_script(browser, files)
        check_print(browser, "files", files)
        long = [(keyword, keyword.title() + b" of a large puzzle" * 20) for keyword in readers.TEXT_KEYWORDS]
        grids = disc(256), tuple(row[90:110] for row in disc(200)), disc(200)[90:110], picture_of(5)
        check_print(browser, "large", [made(number, b"a.non", [grid], texts=long) for number, grid in enumerate(grids, 1)])
        check_lines(browser)
        check_button(browser, files)
        check_more(browser)
        check_many(browser)
        if program:
            check_program(browser, program)
    finally:
        browser.driver.quit()


def main():
    """Makes all comparisons in a folder of their own, and prints the counts. Returns the exit status."""
    parser = argparse.ArgumentParser(description="Checks what the page of a survey shows and prints.")
    parser.add_argument("--program", help="the program, whose pages are opened too")
    options = parser.parse_args()
    results = Results()
    with tempfile.TemporaryDirectory() as folder:
        program = Program(options.program, folder) if options.program else None
        try:
            test(results, folder, program)
        except TooManyFailures:
            pass
    print(f"{results.passed} passed, {results.failed} failed")
    return 1 if results.failed else 0


if __name__ == "__main__":
    sys.exit(main())
