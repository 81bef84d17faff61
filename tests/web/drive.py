#!/usr/bin/python3
"""Drives the web page in Chromium as a person does: mouse, keys, pictures. Prints a line for each trial, `NAME: well` or why not.

usage: tests/web/drive.py FOLDER [PICTURE]     FOLDER has the page, and gets the pictures; PICTURE is made for the README

It needs Debian's packages chromium, chromium-driver and python3-selenium, and opens the page from a file.
"""
import base64
import os
import shutil
import sys
import time
import traceback

from selenium import webdriver
from selenium.webdriver.chrome.service import Service
from selenium.webdriver.common.action_chains import ActionChains
from selenium.webdriver.common.by import By
from selenium.webdriver.common.keys import Keys

CORNER_OF_A = '[data-corner="0-0-1"]'
TOUCHING = ("LINESTRING(-2 2,2 -2)", "POLYGON((0 0,4 0,4 4,0 4,0 0))")
# The colours of the page by the names that its sheet of styles has for them.
COLOURS = """
const style = getComputedStyle(document.documentElement);
return Object.fromEntries(["paper", "a", "b", "good", "mark"].map((name) => [name, style.getPropertyValue("--" + name).trim()]));
"""
# How many points of a picture have each of some colours, counted by the browser.
COUNTED = """
const [base64, colours, done] = arguments, image = new Image();
image.onload = () => {
  const canvas = document.createElement("canvas"), counts = {};
  [canvas.width, canvas.height] = [image.width, image.height];
  const paint = canvas.getContext("2d");
  paint.drawImage(image, 0, 0);
  const { data } = paint.getImageData(0, 0, image.width, image.height);
  for (let at = 0; at < data.length; at += 4) {
    const name = "#" + [data[at], data[at + 1], data[at + 2]].map((n) => n.toString(16).padStart(2, "0")).join("");
    if (colours.includes(name)) counts[name] = (counts[name] || 0) + 1;
  }
  done([image.width, image.height, counts]);
};
image.src = "data:image/png;base64," + base64;
"""


class Wrong(Exception):
    """What isn't as it should be."""


def same(found, wanted):
    if found != wanted:
        raise Wrong(f"found {found!r}, wanted {wanted!r}")


class Page:
    """The page in a browser."""

    def __init__(self, folder):
        self.address = f"file://{os.path.realpath(folder)}"
        options = webdriver.ChromeOptions()
        words = ["--headless=new", "--no-sandbox", "--disable-gpu", "--disable-dev-shm-usage", "--hide-scrollbars"]
        for word in [*words, "--force-device-scale-factor=1", "--window-size=1280,900"]:
            options.add_argument(word)
        options.set_capability("goog:loggingPrefs", {"browser": "ALL"})
        # The paths are given, since later versions of Selenium would otherwise look for a browser to fetch.
        options.binary_location = shutil.which("chromium") or ""
        self.driver = webdriver.Chrome(options=options, service=Service(shutil.which("chromedriver") or "chromedriver"))

    def open(self, words="", size=(1280, 900), scheme="light", file="index.html"):
        """Opens the page anew, at a size and in light or dark mode."""
        call = self.driver.execute_cdp_cmd
        metrics = {"width": size[0], "height": size[1], "deviceScaleFactor": 1, "mobile": False}
        call("Emulation.setDeviceMetricsOverride", metrics)
        call("Emulation.setEmulatedMedia", {"features": [{"name": "prefers-color-scheme", "value": scheme}]})
        self.driver.get("about:blank")
        self.driver.get(f"{self.address}/{file}{words}")
        until = time.monotonic() + 60
        while self.run("return document.documentElement.dataset.ready") != "yes":
            if time.monotonic() > until:
                raise Wrong("the page isn't ready within a minute")
            time.sleep(0.05)

    def run(self, script, *words):
        return self.driver.execute_script(script, *words)

    def find(self, selector):
        return self.driver.find_element(By.CSS_SELECTOR, selector)

    def acts(self):
        return ActionChains(self.driver, duration=50)

    def matrix(self):
        return self.find("#nine").text

    def texts(self):
        return tuple(self.find(f"#text-{it}").get_attribute("value") for it in (0, 1))

    def lights(self):
        """Returns the predicates whose lights are on."""
        return [it.get_attribute("id")[6:] for it in self.driver.find_elements(By.CSS_SELECTOR, "#lights .on")]

    def unit(self):
        return self.run("return sheet.view.unit")

    def at(self, x, y):
        """Returns how far a position is from the middle of the sheet, to the right and down, on the screen."""
        view = self.run("return sheet.view")
        return round((x - view["x"]) * view["unit"]), round((view["y"] - y) * view["unit"])

    def set_text(self, which, text):
        """Writes into the text of a shape by its number, or into a field by its name."""
        field = self.find(f"#text-{which}" if which in (0, 1) else f"#{which}")
        field.clear()
        field.send_keys(text)

    def ask(self, name, text):
        """Writes into a field of the page of tables, and waits for the answer."""
        self.set_text(name, text)
        self.wait_for_answer()

    def wait_for_answer(self):
        until = time.monotonic() + 60
        while self.find("#running").is_displayed():
            if time.monotonic() > until:
                raise Wrong("there is no answer within a minute")
            time.sleep(0.05)

    def take_picture(self, path):
        """Takes a picture from the page's head to its texts."""
        self.open(size=(1120, 660))
        self.acts().move_to_element(self.find("#cell-0-1")).perform()
        self.run("for (let round = 0; round < 20; round++) renew();")
        bottom = self.run("return document.querySelector('.texts').getBoundingClientRect().bottom")
        clip = {"x": 0, "y": 0, "width": 1120, "height": round(bottom) + 12, "scale": 1}
        picture = self.driver.execute_cdp_cmd("Page.captureScreenshot", {"clip": clip, "captureBeyondViewport": True})
        with open(path, "wb") as file:
            file.write(base64.b64decode(picture["data"]))

    def messages(self):
        return [it["message"] for it in self.driver.get_log("browser") if it["level"] in ("SEVERE", "WARNING")]


# ---- what is tried


def a_corner_is_dragged(page):
    page.open()
    same(page.texts(), TOUCHING)
    same((page.matrix(), page.lights()), ("F01FF0212", ["Intersects", "Touches"]))
    unit = round(page.unit())
    page.acts().click_and_hold(page.find(CORNER_OF_A)).move_by_offset(unit, 0).perform()
    # The button is down still: all follow while the corner moves.
    same(page.texts()[0], "LINESTRING(-2 2,3 -2)")
    same((page.matrix(), page.lights()), ("101FF0212", ["Intersects", "Crosses"]))
    page.acts().move_by_offset(0, -unit).release().perform()
    same(page.texts()[0], "LINESTRING(-2 2,3 -1)")
    same((page.matrix(), page.lights()), ("101FF0212", ["Intersects", "Crosses"]))
    page.acts().click_and_hold(page.find(CORNER_OF_A)).move_by_offset(-3 * unit, 0).release().perform()
    same(page.texts()[0], "LINESTRING(-2 2,0 -1)")
    same((page.matrix(), page.lights()), ("FF1FF0212", ["Disjoint"]))


def a_new_corner_is_dragged(page):
    page.open()
    between = page.find('[data-between="1-0-1"]')
    page.acts().click_and_hold(between).move_by_offset(round(2 * page.unit()), 0).release().perform()
    same(page.texts()[1], "POLYGON((0 0,4 0,6 2,4 4,0 4,0 0))")


def changes_are_undone(page):
    page.open()
    unit = round(page.unit())
    page.acts().click_and_hold(page.find(CORNER_OF_A)).move_by_offset(unit, 0).release().perform()
    page.acts().click_and_hold(page.find(CORNER_OF_A)).move_by_offset(0, -unit).release().perform()
    same(page.texts()[0], "LINESTRING(-2 2,3 -1)")
    page.find('[data-do="undo"]').click()
    same(page.texts()[0], "LINESTRING(-2 2,3 -2)")
    page.acts().key_down(Keys.CONTROL).send_keys("z").key_up(Keys.CONTROL).perform()
    same((page.texts(), page.matrix()), (TOUCHING, "F01FF0212"))
    page.find('[data-do="redo"]').click()
    same((page.texts()[0], page.matrix()), ("LINESTRING(-2 2,3 -2)", "101FF0212"))


def faults_are_shown(page):
    page.open()
    page.set_text(1, "POLYGON((0 0,4 0,4 4,0 4,0 0),(5 5,6 5,6 6,5 5))")
    same(page.find("#fault-1").text, "V5 1 This hole isn't inside its outer ring. Its corner (5, 5) is outside.")
    same(page.run("return document.querySelectorAll('#sheet circle.place').length"), 1)
    same((page.matrix(), page.lights()), ("\u2013", []))
    same(page.find("#sentence").text, "There is no matrix: fault V5 in b.")
    same(page.run("return document.querySelectorAll('#sheet .refused').length"), 1)
    page.set_text(0, "LINESTRING(0 0,1.5 1)")
    same(page.find("#fault-0 strong").text, "W2 15")
    page.find("#fault-0 .byte").click()
    same(page.run("return [document.activeElement.id, document.activeElement.selectionStart]"), ["text-0", 15])
    page.set_text(0, TOUCHING[0])
    page.set_text(1, TOUCHING[1])
    same((page.find("#fault-0").text, page.find("#fault-1").text, page.matrix()), ("", "", "F01FF0212"))


def the_place_of_a_fault_is_drawn(page):
    page.open("#a=POINT(0+0)&b=POLYGON((0+0,4+4,4+0,0+4,0+0))")
    same(page.find("#fault-1").text, "V3 0 This ring touches or crosses itself. The edges (0, 0) to (4, 4) and (4, 0) to (0, 4) share the point (2, 2).")
    drawn = "return [...document.querySelectorAll('#sheet .place')].map((it) => it.getAttribute('class'))"
    same(page.run(drawn), ["place edge", "place edge", "place"])
    page.set_text(1, "POLYGON((0 0,1 1,2 2,0 0))")
    same(page.find("#fault-1").text, "V3 0 This ring touches or crosses itself. The edges (0, 0) to (1, 1) and (2, 2) to (0, 0) share the stretch (0, 0) to (1, 1).")
    same(page.run(drawn), ["place edge", "place edge", "place shared"])
    page.set_text(1, "POLYGON((0 0,4 0,4 4,0 4))")
    same(page.find("#fault-1").text, "V2 0 The last position of this ring isn't its first. It begins at (0, 0) and ends at (0, 4).")
    same(page.run(drawn), ["place", "place"])
    page.set_text(1, "POINT(1 1)")
    same(page.run(drawn), [])


def cells_are_explained(page):
    """The witness of the cell under the mouse, or that has the focus, is drawn and said; it follows what is dragged."""
    page.open()
    marks = """return [...document.querySelectorAll('#sheet .witness')].map((it) => {
        const box = it.getBBox(), [x, y] = [box.x + box.width / 2 - sheet.size[0] / 2, box.y + box.height / 2 - sheet.size[1] / 2];
        return [it.tagName, Math.round(x / sheet.view.unit + sheet.view.x), Math.round(sheet.view.y - y / sheet.view.unit)];
    })"""
    same(page.run(marks), [])
    page.acts().move_to_element(page.find("#cell-0-1")).perform()
    same(page.find("#sentence").text, "The interior of a and the boundary of b share points, and no line. For example the point (0, 0).")
    same(page.run(marks), [["circle", 0, 0]])
    page.acts().move_to_element(page.find("#nine")).perform()
    same(page.run(marks), [])
    page.run("document.getElementById('cell-0-2').focus()")
    same(
        page.find("#sentence").text,
        "The interior of a and the exterior of b share a line, and no area. For example the stretch from (-2, 2) to (0, 0), without its ends.",
    )
    same(page.run(marks), [["path", -1, 1]])
    page.acts().send_keys(Keys.TAB, Keys.TAB, Keys.TAB, Keys.TAB).perform()
    same(page.run("return document.activeElement.id"), "cell-2-0")
    same(page.find("#sentence").text, "The exterior of a and the interior of b share an area. For example the points around (2, 2).")
    same(page.run(marks), [["circle", 2, 2], ["circle", 2, 2]])
    page.run("show(0, 'POINT(9 9)'); document.getElementById('cell-0-2').focus()")
    same(page.run(marks), [["circle", 9, 9]])


def an_example_is_opened_by_its_card(page):
    page.open()
    card = next(it for it in page.driver.find_elements(By.CSS_SELECTOR, "#cards a") if "Wrong elsewhere 1" in it.text)
    same(card.find_element(By.TAG_NAME, "del").text, "1F100F102: overlaps")
    page.run("arguments[0].scrollIntoView()", card)
    card.click()
    same((page.matrix(), page.lights()), ("1FF00F102", ["Intersects", "Within"]))
    page.driver.back()
    same(page.matrix(), "F01FF0212")


def an_example_is_opened_by_its_address(page):
    page.open("#a=POLYGON((0+0,4+0,0+4,0+0))&b=POINT(1+1)")
    same((page.texts(), page.matrix()), (("POLYGON((0 0,4 0,0 4,0 0))", "POINT(1 1)"), "0F2FF1FF2"))
    page.acts().click_and_hold(page.find('[data-corner="1-0-0"]')).move_by_offset(round(page.unit()), 0).release().perform()
    words = page.run("return location.hash")
    same(words, "#a=POLYGON((0+0,4+0,0+4,0+0))&b=POINT(2+1)")
    page.open(words)
    same(page.texts()[1], "POINT(2 1)")


def every_example_has_a_matrix(page):
    page.open()
    examples = page.run("return EXAMPLES.map((it) => [it.a, it.b, it.sfq || ''])")
    for a, b, wanted in examples:
        found = page.run("showBoth([arguments[0], arguments[1]]); return find('nine').textContent", a, b)
        if len(found) != 9 or not wanted.startswith(found if wanted else ""):
            raise Wrong(f"{a} and {b}: found {found}, wanted {wanted}")


def keys_alone_move_a_corner(page):
    page.open()
    page.find('[data-do="fit"]').send_keys(Keys.TAB)
    same(page.run("return document.activeElement.id"), "sheet")
    page.acts().send_keys(Keys.TAB, Keys.TAB).perform()
    same(page.run("return document.activeElement.getAttribute('aria-label')"), "Corner 2 of 2 of a at 2 -2")
    page.acts().send_keys(Keys.ARROW_RIGHT, Keys.ARROW_UP).perform()
    same(page.texts()[0], "LINESTRING(-2 2,3 -1)")
    same(page.run("return document.activeElement.getAttribute('aria-label')"), "Corner 2 of 2 of a at 3 -1")
    page.acts().send_keys("n").perform()
    same(page.texts()[0].count(","), 2)
    page.acts().send_keys(Keys.DELETE).perform()
    same(page.texts()[0].count(","), 1)


def keys_alone_draw(page):
    page.open("#a=POINT(0+0)&b=POINT+EMPTY")
    page.find('input[name="target"][value="1"]').click()
    page.find('[data-tool="line"]').send_keys(Keys.ENTER)
    keys = [Keys.ARROW_RIGHT, " ", Keys.ARROW_UP, Keys.ARROW_UP, " ", Keys.ENTER]
    page.acts().send_keys(*keys).perform()
    same(page.texts()[1], "LINESTRING(1 0,1 2)")


def shapes_are_drawn_by_clicks(page):
    page.open("#a=POINT+EMPTY&b=POINT+EMPTY")
    svg = page.find("#sheet")
    page.find('[data-tool="polygon"]').click()
    for x, y in ((2, 2), (6, 2), (6, 5), (2, 2)):
        page.acts().move_to_element_with_offset(svg, *page.at(x, y)).click().perform()
    same((page.texts()[0], page.matrix()), ("POLYGON((2 2,6 2,6 5,2 2))", "FF2FF1FF2"))
    page.find('[data-tool="polygon"]').click()
    for x, y in ((1, 4), (2, 4), (2, 5), (1, 4)):
        page.acts().move_to_element_with_offset(svg, *page.at(x, y)).click().perform()
    same(page.texts()[0], "MULTIPOLYGON(((2 2,6 2,6 5,2 2)),((1 4,2 4,2 5,1 4)))")


def the_wheel_zooms(page):
    page.open()
    before = page.unit()
    page.run("document.querySelector('#sheet').dispatchEvent(new WheelEvent('wheel', {deltaY: -200, cancelable: true}))")
    if page.unit() <= before:
        raise Wrong("the wheel doesn't zoom in")
    same(page.texts(), TOUCHING)


def two_fingers_zoom(page):
    page.open()
    box = page.find("#sheet").rect
    middle = box["x"] + box["width"] / 2, box["y"] + 40
    before = page.unit()

    def touch(kind, *far):
        points = [{"x": middle[0] + it * side, "y": middle[1], "id": side + 1} for it in far for side in (-1, 1)]
        page.driver.execute_cdp_cmd("Input.dispatchTouchEvent", {"type": kind, "touchPoints": points})

    for kind, *far in (("touchStart", 60), ("touchMove", 75), ("touchMove", 90), ("touchMove", 120), ("touchEnd",)):
        touch(kind, *far)
    if not 1.9 < page.unit() / before < 2.1:
        raise Wrong(f"the scale was {before}, and is {page.unit()}")
    same(page.texts(), TOUCHING)
    page.run("sheet.fit()")
    page.acts().click_and_hold(page.find(CORNER_OF_A)).move_by_offset(round(page.unit()), 0).release().perform()
    same(page.texts()[0], "LINESTRING(-2 2,3 -2)")


def a_module_that_stops_is_started_anew(page):
    page.open()
    page.run("""
        engine = { relate() { throw new WebAssembly.RuntimeError("unreachable"); } };
        show(0, "POINT(0 0)");""")
    same((page.find("#sentence").text, page.matrix()), ("There is no matrix: unreachable.", "\u2013"))
    until = time.monotonic() + 60
    while not page.run("return engine !== null") and time.monotonic() < until:
        time.sleep(0.05)
    page.set_text(0, "POINT(1 1)")
    same((page.find("#sentence").text, page.matrix()), ("Point at a cell to read what it says.", "0FFFFF212"))


def tables_are_asked(page):
    """The page of tables: an example, a query of one's own, faults in words, and a table that is changed."""
    page.open(file="tables.html")
    answer = lambda: [it.text for it in page.driver.find_elements(By.CSS_SELECTOR, "#answer tr")]
    marked = lambda: page.run("return [...new Set([...document.querySelectorAll('#map .marked')].map((it) => it.dataset.row))]")
    same((answer(), marked()), (["b.id b.name", "102 Quay House", "108 Boatyard"], ["parcel 102", "parcel 108"]))
    page.ask("query", "SELECT name FROM parcel WHERE id = 101")
    same((answer(), marked(), page.find("#hint").text), (["name", "Mill"], [], "Select an id to see the rows on the map."))
    page.ask("query", "SELECT id FROM parcels")
    same(page.find("#fault strong").text, "sfq: Q3 at 15")
    same((answer(), page.find("#query").get_attribute("aria-invalid")), ([], "true"))
    page.ask("query", "SELECT p.id, w.id FROM parcel p, well w WHERE ST_Contains(p.geom, w.geom) AND w.id = 1")
    same((answer(), marked()), (["p.id w.id", "101 1"], ["parcel 101", "well 1"]))
    page.ask("table-well", "id,name,geom\n1,Mill Well,POINT(7 2)")
    same((answer(), marked()), (["p.id w.id", "102 1"], ["parcel 102", "well 1"]))
    page.ask("table-well", "id,name,geom\n1,Mill Well,POINT(7.5 2)")
    same(page.find("#fault strong").text, "sfq: well L6 record 1 W2 at 6")
    page.run("document.getElementById('example').value = '0'; document.getElementById('example').dispatchEvent(new Event('change'))")
    page.wait_for_answer()
    same(page.find("#query").get_attribute("value")[:30], "SELECT id, name FROM parcel WH")


def a_long_query_is_stopped(page):
    """A query of a hundred million pairs rests, so that it can be stopped, or another one is asked meanwhile."""
    page.open(file="tables.html")
    page.run("""
        const rows = Array.from({ length: 10000 }, (_, at) => `${at},Well,`);
        find("table-well").value = ["id,name,geom", ...rows].join("\\n");
        find("query").value = "SELECT a.id FROM well a, well b WHERE a.name < b.name AND a.name > b.name";
        renew();""")
    same(page.find("#running").is_displayed(), True)
    page.find("#stop").click()
    same((page.find("#running").is_displayed(), page.find("#speed").text), (False, "Stopped."))
    page.run("renew()")
    same(page.find("#running").is_displayed(), True)
    page.ask("query", "SELECT COUNT(*) FROM well")
    same(page.find("#answer td").text, "10000")
    same((page.find("#running").is_displayed(), page.find("#speed").text[:15]), (False, "The query took "))


def large_shapes_are_quick(page):
    """Two stars of 1,000 positions are read, checked, related and drawn in 50 ms: the least of up to 200 rounds, on a busy machine."""
    page.open()
    took = page.run("""
        const star = (shift) => {
          const ring = Array.from({ length: 1000 }, (_, i) => {
            const far = i % 2 ? 900000 : 700000, turn = 2 * Math.PI * i / 1000;
            return `${Math.round(far * Math.cos(turn)) + shift} ${Math.round(far * Math.sin(turn))}`;
          });
          return `POLYGON((${[...ring, ring[0]].join(",")}))`;
        };
        const times = [];
        for (let round = 0; round < 200 && !(Math.min(...times) <= 50); round++) {
          const begun = performance.now();
          showBoth([star(0), star(10000 + round)]);
          times.push(performance.now() - begun);
        }
        return [Math.min(...times), find("nine").textContent];""")
    same(took[1], "212101212")
    if took[0] > 50:
        raise Wrong(f"took {took[0]:.0f} ms")


def pictures_are_as_they_should_be(page):
    for name, size, scheme, paper, file in (
        ("wide", (1280, 900), "light", "#ffffff", "index.html"),
        ("narrow", (400, 900), "light", "#ffffff", "index.html"),
        ("dark", (1280, 900), "dark", "#14171c", "index.html"),
        ("tables-wide", (1280, 900), "light", "#ffffff", "tables.html"),
        ("tables-narrow", (400, 900), "light", "#ffffff", "tables.html"),
        ("tables-dark", (1280, 900), "dark", "#14171c", "tables.html"),
    ):
        page.open(size=size, scheme=scheme, file=file)
        if file == "index.html":
            page.run("document.getElementById('cell-0-2').focus({ preventScroll: true })")
        picture = page.driver.get_screenshot_as_base64()
        page.driver.save_screenshot(f"{sys.argv[1]}/{name}.png")
        colours = page.run(COLOURS)
        same(colours["paper"], paper)
        width, height, counts = page.driver.execute_async_script(COUNTED, picture, list(colours.values()))
        same((width, height), size)
        drawn = ("b", 600) if file == "index.html" else ("mark", 600)
        for it, least in (("paper", width * height // 8), ("a", 800), drawn):
            if counts.get(colours[it], 0) < least:
                raise Wrong(f"{name}: {counts.get(colours[it], 0)} points in the colour {it}, and {least} at least are wanted")
        same(page.run("return document.documentElement.scrollWidth"), size[0])


TRIALS = [
    a_corner_is_dragged, a_new_corner_is_dragged, changes_are_undone, faults_are_shown, cells_are_explained,
    an_example_is_opened_by_its_card, an_example_is_opened_by_its_address, every_example_has_a_matrix,
    keys_alone_move_a_corner, keys_alone_draw, shapes_are_drawn_by_clicks, the_wheel_zooms, two_fingers_zoom,
    the_place_of_a_fault_is_drawn, tables_are_asked, a_long_query_is_stopped, a_module_that_stops_is_started_anew,
    large_shapes_are_quick, pictures_are_as_they_should_be,
]


def tried(trial, page):
    """Returns `well`, or why a trial isn't, on one line."""
    try:
        trial(page)
    except Wrong as it:
        return f"line {traceback.extract_tb(it.__traceback__)[1].lineno}: {it}"
    except Exception as it:
        return f"{type(it).__name__}: {it}".splitlines()[0]
    messages = page.messages()
    return f"the browser says {messages[0]}" if messages else "well"


def main(words):
    if len(words) not in (1, 2):
        print(__doc__.strip(), file=sys.stderr)
        return 2
    page = Page(words[0])
    try:
        if len(words) == 2:
            page.take_picture(words[1])
            return 0
        for trial in TRIALS:
            print(f"{trial.__name__}: {tried(trial, page)}", flush=True)
    finally:
        page.driver.quit()
    return 0


if __name__ == "__main__":
    sys.exit(main(sys.argv[1:]))
