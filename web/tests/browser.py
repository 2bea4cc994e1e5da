#!/usr/bin/env python3
"""Uses the built page in headless Chromium through its own file inputs: chromium, chromium-driver, python3-selenium.

    tests/browser.py FILES [SHOTS]    FILES is the folder of make-files.mjs; SHOTS gets screenshots and printed reports

The last line is `browser: N passed, M failed`. A scenario that fails is one failure; the next one starts on a new page.
"""
import base64
import functools
import hashlib
import http.server
import json
import pathlib
import shutil
import sys
import tempfile
import threading
import time
import traceback

from selenium import webdriver
from selenium.webdriver.chrome.options import Options
from selenium.webdriver.chrome.service import Service
from selenium.webdriver.common.action_chains import ActionChains
from selenium.webdriver.common.by import By
from selenium.webdriver.common.keys import Keys

HERE = pathlib.Path(__file__).resolve().parent
PAGE = HERE.parent.parent / "target" / "web" / "inspect.html"
FILES = pathlib.Path(sys.argv[1]).resolve()
SHOTS = pathlib.Path(sys.argv[2]) if len(sys.argv) > 2 else None
SAVED = pathlib.Path(tempfile.mkdtemp(prefix="inspect-saved-"))
JOBS = ["4101", "4102", "4103", "4105", "4110", "4200", "4210", "4211"]
WIDTHS = ((1280, 900, False), (1280, 900, True), (1920, 1080, False), (1920, 1080, True), (1255, 900, False), (1040, 900, False),
          (820, 1000, False), (390, 844, False), (390, 844, True))
passed = 0


def started():
    options = Options()
    options.binary_location = shutil.which("chromium")
    for word in ["--headless=new", "--no-sandbox", "--disable-gpu", "--disable-dev-shm-usage", "--hide-scrollbars",
                 "--force-device-scale-factor=1", "--no-first-run", "--disable-background-networking", "--disable-component-update",
                 "--disable-sync"]:
        options.add_argument(word)
    options.set_capability("goog:loggingPrefs", {"performance": "ALL", "browser": "ALL"})
    options.add_experimental_option("prefs", {"download.default_directory": str(SAVED), "download.prompt_for_download": False})
    browser = webdriver.Chrome(service=Service(shutil.which("chromedriver")), options=options)
    browser.set_script_timeout(60)
    browser.execute_cdp_cmd("Network.enable", {})
    browser.execute_cdp_cmd("Accessibility.enable", {})
    browser.execute_cdp_cmd("Emulation.setTimezoneOverride", {"timezoneId": "UTC"})
    # A fixed clock for the page, so that saved reports can be compared byte for byte.
    browser.execute_cdp_cmd("Page.addScriptToEvaluateOnNewDocument", {"source": """
        const Real = Date;
        Date = class extends Real { constructor(...words) { super(...(words.length ? words : ['2026-11-16T12:00:00Z'])); } };"""})
    return browser


driver = started()


# ---- checks

def check(condition, words):
    global passed
    if not condition:
        raise AssertionError(words)
    passed += 1


def equal(found, wanted, words=""):
    check(found == wanted, f"{words}\n  found  {found!r}\n  wanted {wanted!r}")


def wait(test, words, seconds=20):
    end = time.time() + seconds
    while time.time() < end:
        try:
            if test():
                return check(True, words)
        except Exception:  # the page is being drawn
            pass
        time.sleep(0.05)
    raise AssertionError(f"waited in vain: {words}; the headline is {headline()!r}")


# ---- the page

def js(script, *words):
    return driver.execute_script(script, *words)


def one(selector):
    return driver.find_element(By.CSS_SELECTOR, selector)


def texts(selector):
    return js("return [...document.querySelectorAll(arguments[0])].filter(n => n.offsetParent !== null).map(n => n.textContent)", selector)


def headline():
    return one("#headline").text


def shows(words):
    wait(lambda: headline() == words, words)


def choose(slot, *names):
    one(f"#input-{slot}").send_keys("\n".join(str(FILES / n) for n in names))


def remove(slot):
    js("document.querySelector(arguments[0]).click()", f"#remove-{slot}")


def column(name):
    return texts(f"#rows tr:not([hidden]) td.col-{name}")


def open_row(i):
    js("document.querySelectorAll('#rows .open')[arguments[0]].click()", i)


def close_entry():
    one("#entry").send_keys(Keys.ESCAPE)


def load(address=None):
    driver.get(address or PAGE.as_uri())
    wait(lambda: js("return document.documentElement.dataset.ready") == "true", "the page is ready")
    screen(1280, 900, False)


def screen(width, height, dark):
    driver.execute_cdp_cmd("Emulation.setDeviceMetricsOverride", {"width": width, "height": height, "deviceScaleFactor": 1, "mobile": width < 600})
    driver.execute_cdp_cmd("Emulation.setEmulatedMedia", {"media": "", "features": [{"name": "prefers-color-scheme", "value": "dark" if dark else "light"}]})


def shot(name, whole=True):
    if not SHOTS:
        return
    SHOTS.mkdir(parents=True, exist_ok=True)
    got = driver.execute_cdp_cmd("Page.captureScreenshot", {"format": "png", "captureBeyondViewport": whole})
    (SHOTS / f"{name}.png").write_bytes(base64.b64decode(got["data"]))


def picture(name):
    """The page without its footer, for docs/."""
    if not SHOTS:
        return
    height = js("return document.querySelector('main').getBoundingClientRect().bottom + 16")
    clip = {"x": 0, "y": 0, "width": 1280, "height": height, "scale": 1}
    got = driver.execute_cdp_cmd("Page.captureScreenshot", {"format": "png", "captureBeyondViewport": True, "clip": clip})
    (SHOTS / f"{name}.png").write_bytes(base64.b64decode(got["data"]))


# Texts with less contrast than WCAG AA requires.
CONTRAST = r"""
const parse = (s) => { const m = s.match(/[\d.]+/g).map(Number); return s.startsWith('color(') ? [m[0]*255, m[1]*255, m[2]*255, m[3] ?? 1] : [m[0], m[1], m[2], m[3] ?? 1]; };
const lum = (c) => { const [r, g, b] = c.slice(0, 3).map((v) => { v /= 255; return v <= .03928 ? v / 12.92 : ((v + .055) / 1.055) ** 2.4; }); return .2126 * r + .7152 * g + .0722 * b; };
const ground = (n) => { for (; n; n = n.parentElement) { const c = parse(getComputedStyle(n).backgroundColor); if (c[3] > .99) return c; } return parse(getComputedStyle(document.documentElement).backgroundColor); };
const low = [];
const walker = document.createTreeWalker(document.body, NodeFilter.SHOW_TEXT);
while (walker.nextNode()) {
  const n = walker.currentNode.parentElement;
  if (!walker.currentNode.textContent.trim() || n.closest('script,style,[hidden],button:disabled') || n.checkVisibility?.() === false || getComputedStyle(n).opacity === '0') continue;
  const style = getComputedStyle(n);
  const [a, b] = [lum(parse(style.color)), lum(ground(n))].sort((x, y) => y - x);
  const ratio = (a + .05) / (b + .05);
  const big = parseFloat(style.fontSize) >= 24 || (parseFloat(style.fontSize) >= 18.66 && Number(style.fontWeight) >= 700);
  if (ratio < (big ? 3 : 4.5)) low.push(`${ratio.toFixed(2)} ${n.className || n.tagName}: ${walker.currentNode.textContent.trim().slice(0, 40)}`);
}
return [...new Set(low)];
"""

# Elements that overflow their box.
SPILLS = r"""
return [...document.querySelectorAll('.unit, .mark, .button, .suite, .retired, h2, h3, dd, pre.text')].filter((n) => n.checkVisibility()).filter((n) => {
  const box = n.closest('td, li, dl, .slot, .units, .actions, .unit-banner, .entry-head, .block, .summary-file, section');
  if (!box || box === n) return false;
  const [a, b] = [n.getBoundingClientRect(), box.getBoundingClientRect()];
  const cut = n.matches('h2, h3, .unit, .mark, button, .suite') && n.scrollWidth > n.clientWidth + 1 && n.clientWidth > 0;
  return a.width > 0 && (cut || a.right > b.right + 1 || a.left < b.left - 1);
}).map((n) => `${n.className || n.tagName}: ${n.textContent.trim().slice(0, 40)}`).slice(0, 5);
"""

# How many of the words "do not use" and "claimed" are struck through.
STRUCK = """
const struck = (n) => n && (getComputedStyle(n).textDecorationLine.includes('line-through') || struck(n.parentElement));
return [...document.querySelectorAll('.unit-trust')].filter((n) => n.checkVisibility() && struck(n)).length"""

WIDER = """
return [...document.querySelectorAll('body *')].filter(n => n.getBoundingClientRect().right > innerWidth + 1).slice(0, 5)
  .map(n => n.tagName + '.' + n.className + ' ' + n.getBoundingClientRect().right)"""


def look(name):
    """Checks at every width, light and dark: nothing overflows the window or its box, and every text has contrast."""
    for width, height, dark in WIDTHS:
        screen(width, height, dark)
        where = f"{name}-{width}-{'dark' if dark else 'light'}"
        check(js("return document.documentElement.scrollWidth <= innerWidth"), f"{where} is wider than the window: {js(WIDER)}")
        equal(js(SPILLS), [], f"{where}: runs out of its box")
        equal(js(CONTRAST), [], f"{where}: too little contrast")
        equal(js(STRUCK), 0, f"{where}: words on trust are struck through")
        shot(where, whole=not name.startswith("entry"))
    screen(1280, 900, False)


def paper(name):
    """Prints; nothing may be wider than an A4 page (184 mm between the margins)."""
    driver.execute_cdp_cmd("Emulation.setDeviceMetricsOverride", {"width": 695, "height": 1000, "deviceScaleFactor": 1, "mobile": False})
    driver.execute_cdp_cmd("Emulation.setEmulatedMedia", {"media": "print"})
    equal(js(SPILLS), [], f"{name} on paper: runs out of its box")
    wide = js("return [...document.querySelectorAll('main *')].filter(n => n.checkVisibility() && n.getBoundingClientRect().right > innerWidth + 1).slice(0, 5).map(n => n.tagName + ' ' + n.className + ' ' + n.textContent.slice(0, 30))")
    equal(wide, [], f"{name} on paper: wider than the page")
    text = js("return document.body.innerText")
    for words in (headline(), "SHA-256", "Inspected", "16 November 2026", "Snoekeldraf"):
        check(words in text, f"{name} on paper: {words} is missing")
    head = texts("#paper-head")[0]
    check(headline() in head and one("#verdict-file").text in head and js("return document.querySelector('#facts dd.code').textContent") in head, f"{name} on paper: the head of a page is {head}")
    screen(1280, 900, False)
    got = driver.execute_cdp_cmd("Page.printToPDF", {"preferCSSPageSize": True, "printBackground": True})
    check(len(got["data"]) > 5000, "the printed report")
    if SHOTS:
        (SHOTS / f"paper-{name}.pdf").write_bytes(base64.b64decode(got["data"]))


def named():
    """Checks that every control that a screen reader reaches has a name."""
    tree = driver.execute_cdp_cmd("Accessibility.getFullAXTree", {})["nodes"]
    roles = {"button", "checkbox", "searchbox", "combobox", "tab", "textbox", "link", "dialog", "columnheader", "table"}
    nameless = [n["role"]["value"] for n in tree if not n.get("ignored") and n.get("role", {}).get("value") in roles and not n.get("name", {}).get("value")]
    equal(nameless, [], "controls without a name")


# ---- scenarios

def start():
    equal(headline(), "Choose a shift file to begin")
    check("Snoekeldraf 1." in one("#library").text, one("#library").text)
    look("0-start")
    named()


def not_verified():
    choose("files", "day.shift")
    shows("Checked, not verified: no key ring")
    equal(column("job"), JOBS)
    check(all("claimed" in u for u in column("unit")), column("unit"))
    equal(texts("#warnings li"), ["Use nothing yet: no tag was compared."])
    equal(set(column("verdict")), {"not verified"})
    look("1-unverified")
    one("#rows .open").click()
    check("Claimed by the file" in one(".banner-says").text and "no key ring" in one("#entry").text, one("#entry").text)
    look("entry-1-unverified")
    close_entry()


def genuine():
    choose("files", "day.shift")
    choose("ring", "ring.keys")
    shows("Genuine: all 8 entries")
    equal(one("#verdict").get_attribute("data-verdict"), "genuine")
    equal(one("#verdict [role=status]").get_attribute("aria-live"), "polite")
    equal(one("#verdict-icon use").get_attribute("href"), "#i-genuine")
    metric, inch = "N·mnewton-metres", "in·lbinch-pounds"
    equal(column("unit"), [metric, metric, inch, inch, metric, metric, metric, inch])
    equal([x.strip() for x in column("suite")], ["AES-128", "CHAM-128/128", "Speck-64/128", "CHAM-64/128 retired", "Speck-64/128", "AES-128", "AES-128 v2", "Speck-64/128 v2"])
    equal(column("verdict"), ["genuine"] * 8)
    check(hashlib.sha256((FILES / "day.shift").read_bytes()).hexdigest() in one("#facts").text, "SHA-256")
    look("2-genuine")
    picture("page-genuine")
    named()


def units_differ_without_colour():
    """The two units differ in words, letters, shape and pattern, not in colour alone."""
    choose("files", "day.shift")
    choose("ring", "ring.keys")
    shows("Genuine: all 8 entries")
    style = """const n = document.querySelector(`#rows .unit-${arguments[0]}`), s = getComputedStyle(n);
        return [n.textContent, s.borderRadius, s.textTransform, getComputedStyle(n, '::before').content, getComputedStyle(n, '::before').backgroundImage.slice(0, 9)]"""
    metric, inch = js(style, 1), js(style, 2)
    for a, b, what in zip(metric, inch, ("words", "shape", "letters", "edge", "pattern")):
        check(a != b, f"the units have the same {what}: {a}")


def copied_entry():
    """What the copy button of the open entry puts on the clipboard."""
    driver.execute_cdp_cmd("Browser.grantPermissions", {"permissions": ["clipboardReadWrite", "clipboardSanitizedWrite"]})
    one("#copy-entry").click()
    wait(lambda: one("#copy-entry").text == "Copied", "copying")
    return driver.execute_async_script("navigator.clipboard.readText().then(arguments[0], e => arguments[0](String(e)))")


def one_entry_by_keyboard():
    choose("files", "day.shift")
    choose("ring", "ring.keys")
    shows("Genuine: all 8 entries")
    js("document.querySelectorAll('#rows .open')[2].focus()")
    driver.switch_to.active_element.send_keys(Keys.ENTER)
    wait(lambda: one("#entry h2").text == "Job 4103", "the entry")
    equal(one("#entry pre").text, "gearbox 4103 bolt 1/4-28 count 6 torque 106 108 107 107 106 109")
    equal(one(".banner-name").text, "INCH-POUNDS")
    check(one(".banner-says").text.startswith("Verified"), one(".banner-says").text)
    look("entry-2-genuine")
    named()
    copied = copied_entry()
    check("unit 2 inch-pounds (verified)" in copied and "message text gearbox 4103" in copied, copied)
    one(".toggle-hex").click()
    check(one("#entry pre").text.startswith("0000  67 65 61 72 62 6f 78"), one("#entry pre").text)
    one(".toggle-hex").click()
    check(one("#entry pre").text.startswith("gearbox"), one("#entry pre").text)
    js("document.querySelector('#entry-title').focus()")
    driver.switch_to.active_element.send_keys(Keys.ARROW_RIGHT)
    wait(lambda: one("#entry h2").text == "Job 4105", "the next entry")
    close_entry()
    wait(lambda: driver.switch_to.active_element.text == "4105", "focus comes back to the job")
    driver.switch_to.active_element.send_keys(Keys.ARROW_DOWN)
    equal(driver.switch_to.active_element.text, "4110")


def every_control_by_tab():
    """Tab reaches every control that is shown, and each shows its focus."""
    choose("files", "day.shift", "forged.shift")
    choose("ring", "ring.keys")
    wait(lambda: one("#summary-line").text == "2 files: 1 FORGED, 1 genuine", "two files")
    js("document.activeElement.blur()")
    reached = []
    for _ in range(80):
        ActionChains(driver).send_keys(Keys.TAB).perform()
        found = js("const n = document.activeElement; return [n.id || n.className || n.tagName, n.tagName, getComputedStyle(n.closest('label') ?? n).outlineStyle]")
        if found[1] == "BODY":
            break
        reached.append(found)
    ids = [r[0] for r in reached]
    for wanted in ("input-files", "input-ring", "remove-ring", "input-amendment", "input-second", "save-json", "save-csv", "print", "search", "only-forged", "only-inch", "open"):
        check(wanted in ids, f"Tab does not reach {wanted}: {ids}")
    equal([r for r in reached if r[2] == "none" and r[0] != "search"], [], "controls that do not show their focus")


def forged():
    choose("ring", "ring.keys")
    choose("files", "forged.shift")
    shows("FORGED: 2 of 8 entries (jobs 4102 and 4210)")
    equal(one("#verdict").get_attribute("data-verdict"), "forged")
    equal([i for i, v in enumerate(column("verdict")) if v == "FORGED"], [1, 6])
    check(one("#headline").rect["y"] < one("#warnings").rect["y"] < one("#units").rect["y"], "the warning stands between verdict and units")
    look("3-forged")
    picture("page-forged")
    one("#only-forged").click()
    equal(column("job"), ["4102", "4210"])
    equal(one("#shown-count").text, "2 of 8 entries")
    one("#only-forged").click()
    choose("files", "exchanged.shift")
    shows("FORGED: 1 of 8 entries (job 4103)")
    check("do not use" in column("unit")[2] and "newton-metres" in column("unit")[2], column("unit")[2])
    open_row(2)
    check("do not use" in one(".banner-says").text and "releases no message" in one("#entry").text, one("#entry").text)
    look("entry-3-forged")
    close_entry()


def refused():
    choose("ring", "ring.keys")
    choose("files", "repeated-nonce.shift")
    wait(lambda: headline().startswith("Refused: row 4 repeats the suite, key number and nonce of an earlier row") and headline().endswith("(29)"), "29")
    equal(texts("#rows tr"), [])
    look("4-refused")
    choose("files", "too-long.shift")
    wait(lambda: headline().startswith("Refused: the file is ") and headline().endswith("(20)"), "20")
    check("2,000,000 bytes" in one("#facts").text, one("#facts").text)
    choose("files", "empty.shift")
    shows("Empty: well formed, with no entries")
    files = sorted(FILES.glob("refused-*.shift"))
    equal([int(f.stem.split("-")[1]) for f in files], [*range(20, 32), 34])
    for file in files:
        status = file.stem.split("-")[1]
        choose("files", file.name)
        wait(lambda: file.name in one("#verdict-file").text and headline().startswith("Refused: ") and headline().endswith(f"({status})"), status)


def rings():
    choose("files", "day.shift")
    choose("ring", "short.keys")
    wait(lambda: headline().startswith("Checked, not verified: ") and headline().endswith("the ring is not 256 bytes long (2)"), "a short ring")
    check("100 bytes, not 256" in one("#slot-ring-state").text, one("#slot-ring-state").text)
    look("4-short-ring")
    choose("ring", "other.keys")
    shows("FORGED: all 8 entries")
    check("right ring" in one("#warnings").text, one("#warnings").text)
    choose("ring", "ring.keys")
    shows("Genuine: all 8 entries")
    remove("ring")
    shows("Checked, not verified: no key ring")


def stations():
    choose("ring", "ring.keys")
    choose("files", "stations.shift")
    wait(lambda: headline() == "Genuine: all 8 entries" and column("station"), "edition 2")
    equal(column("station"), ["207", "207", "207", "208", "0", "311", "207", "208"])
    check("No tag covers a station" in one("#table-note").text, "the note on stations")
    look("5-stations")


DROP = """
const data = new DataTransfer();
for (const [name, text] of arguments[0]) data.items.add(new File([Uint8Array.from(atob(text), c => c.charCodeAt(0))], name));
for (const type of ['dragenter', 'dragover', 'drop'])
  document.querySelector(arguments[1]).dispatchEvent(new DragEvent(type, { dataTransfer: data, bubbles: true, cancelable: true }));
"""


def drop(target, *names):
    js(DROP, [[n, base64.b64encode((FILES / n).read_bytes()).decode()] for n in names], target)


def several_dropped():
    drop("#main", "day.shift", "forged.shift", "cut.shift", "empty.shift", "stations.shift", "ring.keys")
    wait(lambda: one("#summary-line").text == "5 files: 1 FORGED, 1 refused, 1 empty, 2 genuine", "five files")
    check("used as the key ring" in one("#notice").text, "the ring is recognised")
    equal(len(texts("#summary-files li")), 5)
    driver.find_elements(By.CSS_SELECTOR, ".summary-file")[1].click()
    shows("FORGED: 2 of 8 entries (jobs 4102 and 4210)")
    look("6-several")
    drop("[data-slot=amendment]", "amendment.shift")
    wait(lambda: "of both files" in headline(), "a drop on a slot")


def saved(suffix, name):
    for old in SAVED.glob(f"*{suffix}"):
        old.unlink()
    one(f"#save-{suffix}").click()
    wait(lambda: (SAVED / name).exists(), f"saving {name}")
    return (SAVED / name).read_bytes()


def reports_byte_for_byte():
    choose("ring", "ring.keys")
    choose("files", "day.shift", "exchanged.shift", "cut.shift")
    choose("amendment", "changing.shift")
    choose("second", "exchanged.shift")
    wait(lambda: "of both files" in headline() and texts(".comparison-headline"), "amended and compared")
    expected = (HERE / "expected" / "report.json").read_text().replace("LIBRARY", one("#library").text)
    words = js("return document.querySelector('.summary-file.refused .summary-words').textContent").removeprefix("Refused: ").removesuffix(" (23)")
    equal(saved("json", "shift-files.report.json"), expected.replace("{{words 23}}", words).encode(), "JSON")
    equal(saved("csv", "shift-files.report.csv"), (HERE / "expected" / "report.csv").read_bytes().replace(b"{{words 23}}", words.encode()), "CSV")


def amended():
    choose("ring", "ring.keys")
    choose("files", "day.shift")
    choose("amendment", "amendment.shift")
    shows("Genuine: all 11 entries of both files")
    equal(column("standing")[1:3], ["amendment, replaces row 1 of the day's file", "day's file, replaced by row 0 of the amendment"])
    one("#only-amended").click()
    equal(column("job"), ["4102", "4102", "4110", "4110", "4220"])
    one("#only-amended").click()
    open_row(1)
    check("From the amendment" in one("#entry").text and one("#entry h2").text == "Job 4102", one("#entry").text)
    text = one("#entry pre").text
    one("#open-other").click()
    check("No longer current" in one("#entry").text and one("#entry pre").text != text and "24.9 25.1" in one("#entry pre").text, one("#entry").text)
    look("entry-5-replaced")
    copied = copied_entry()
    check("No longer current" in copied and "unit 1 newton-metres (verified)" in copied, copied)
    close_entry()
    look("7-amended")
    paper("amended")


def amendment_changes_a_unit():
    choose("ring", "ring.keys")
    choose("files", "day.shift")
    choose("amendment", "changing.shift")
    wait(lambda: "was inch-pounds" in "".join(column("unit")), "the unit before")
    check("The amendment changes the unit of job 4103." in one("#warnings").text, one("#warnings").text)
    look("7-changed-unit")
    choose("files", "stations.shift")
    wait(lambda: "207" in column("station"), "an amendment of a file with stations")
    equal(column("station")[:4], ["207", "207", "–", "207"])
    look("7-amended-stations")
    paper("amended-stations")
    remove("ring")
    shows("Checked, not verified: no key ring")
    check("The amendment claims to change the unit of job 4103." in one("#warnings").text, one("#warnings").text)
    check("claimed before: inch-pounds" in "".join(column("unit")), column("unit"))
    look("7-claimed-unit")
    paper("amended-claimed")
    choose("ring", "other.keys")
    shows("FORGED: all 10 entries of both files")
    check("claims to change the unit" in one("#warnings").text, one("#warnings").text)
    look("7-amended-forged")
    paper("amended-forged")


def compared():
    choose("ring", "ring.keys")
    choose("files", "day.shift")
    choose("second", "amendment.shift")
    wait(lambda: texts(".comparison-headline") == ["Different: 6 jobs only in the first file, 1 only in the second file, 2 in both files but different"], "the comparison")
    equal([t.split("differs")[0] for t in texts(".differ summary")], ["Job 4102", "Job 4110"])
    look("8-comparison-amendment")
    choose("second", "exchanged.shift")
    wait(lambda: texts(".comparison-headline") == ["Different: 1 job in both files but different"], "the unit differs")
    check(hashlib.sha256((FILES / "exchanged.shift").read_bytes()).hexdigest() in one("#facts").text, "SHA-256 of the second file")
    check("claimed unit differs" in "".join(texts(".differ summary")), "flag")
    equal(texts(".beside .unequal th:first-child"), ["Unitdiffers", "Verdictdiffers"])
    look("8-comparison")
    one("#tab-comparison").send_keys(Keys.ARROW_LEFT)
    wait(lambda: len(column("job")) == 8, "back to the entries")
    named()
    choose("second", "stations.shift")
    wait(lambda: "7 jobs in both files but different" in "".join(texts(".comparison-headline")), "stations differ")
    choose("second", "cut.shift")
    wait(lambda: "Refused: the second file" in "".join(texts(".comparison-headline")), "a refused second file")
    choose("second", "day.shift")
    wait(lambda: texts(".comparison-headline") == ["The same: all 8 entries are equal"], "equal files")


TIMES = """
const done = arguments[0], out = {};
const settled = async (name, act) => { const t = performance.now(); act(); document.body.getBoundingClientRect(); out[name] = Math.round(performance.now() - t); await new Promise(r => requestAnimationFrame(r)); };
const input = (id, value) => { const n = document.getElementById(id); if (n.type === 'checkbox') n.checked = value; else n.value = value; n.dispatchEvent(new Event('input')); };
(async () => {
  await settled('search', () => input('search', '55'));
  await settled('clear', () => input('search', ''));
  await settled('inch', () => input('only-inch', true));
  await settled('all', () => input('only-inch', false));
  await settled('sort', () => document.querySelector('[data-column=unit] button').click());
  await settled('open', () => document.querySelector('#rows .open').click());
  document.querySelector('#entry').close();
  document.querySelector('[data-column=unit] button').click(); document.querySelector('[data-column=unit] button').click();
  done(out);
})();"""


def many_rows():
    choose("ring", "ring.keys")
    choose("files", "many-forged.shift")
    shows("FORGED: 1 of 512 entries (job 5900)")
    times = driver.execute_async_script(TIMES)
    print("512 rows, milliseconds with layout:", times)
    check(max(times.values()) < 1000, str(times))
    one("#search").send_keys("5900")
    wait(lambda: column("job") == ["5900"] and column("verdict") == ["FORGED"], "a job is found")
    one("#search").clear()
    one("#search").send_keys("5901")
    wait(lambda: "Job 5901: " in one("#nothing").text and "(32)" in one("#nothing").text, "32 in words")
    one("#clear-filter").click()
    js("document.querySelector('[data-column=verdict] button').click()")
    wait(lambda: column("job")[0] == "5900", "sorted by verdict, forged first")
    equal(one("[data-column=verdict]").get_attribute("aria-sort"), "ascending")
    js("for (const i of [1, 2]) document.querySelector('[data-column=verdict] button').click()")
    one("#only-inch").click()
    equal(len(column("job")), 73)
    one("#only-inch").click()
    shot("9-many", whole=False)
    for width in (1280, 390):
        screen(width, 900, False)
        for _ in range(2):
            js("document.querySelectorAll('#rows tr')[300].scrollIntoView({ block: 'center' })")
            time.sleep(0.4)
        there = js("const r = document.querySelectorAll('#rows tr')[300].querySelector('.mark').getBoundingClientRect(); return document.elementFromPoint(r.left + r.width / 2, r.top + r.height / 2).closest('tr').textContent")
        check("5900" in there and "FORGED" in there, there)
        shot(f"9-many-scrolled-{width}", whole=False)


def longest_file():
    choose("ring", "ring.keys")
    choose("files", "longest.shift")
    shows("Genuine: all 512 entries")
    check("1,048,576 bytes" in one("#facts").text, one("#facts").text)
    begun = time.time()
    choose("files", "longest-forged.shift")
    shows("FORGED: 1 of 512 entries (job 5900)")
    print(f"1,048,576 bytes, 512 entries: verdict after {time.time() - begun:.2f} s")


def markup():
    choose("ring", "ring.keys")
    choose("files", "<b>markup.shift")
    wait(lambda: headline() == "Genuine: all 4 entries" and "<b>markup.shift" in one("#verdict-file").text, "markup in a name")
    equal(column("job"), ["1", "2", "3", "4294967295"])
    open_row(0)
    check(one("#entry pre").text.startswith("<img") and not driver.find_elements(By.CSS_SELECTOR, "img"), "markup in a message")
    one("#entry-next").click()
    check(one("#entry pre").text.startswith("0000  00 01 02 03"), one("#entry pre").text)
    look("entry-4-hex")
    one("#entry-next").click()
    equal(one("#entry pre").text, "12 N·m ± 3 %\nsecond line")
    close_entry()


def on_paper():
    for name, files in (("day", ["day.shift"]), ("many", ["many-forged.shift"]), ("several", ["day.shift", "exchanged.shift", "cut.shift"])):
        load()
        choose("ring", "ring.keys")
        choose("files", *files)
        wait(lambda: files[0] in one("#verdict-file").text and ("Genuine" in headline() or "FORGED" in headline()), name)
        if name == "several":
            choose("second", "exchanged.shift")
            wait(lambda: texts(".comparison-headline"), "comparison on paper")
        paper(name)
    js("document.querySelector('#only-forged').click()")
    driver.execute_cdp_cmd("Emulation.setEmulatedMedia", {"media": "print"})
    equal(js("return [...document.querySelectorAll('#rows tr')].filter(n => n.checkVisibility()).length"), 8, "filters do not count on paper")


# ---- errors

# Replaces a function of the module: arguments are its name and what it does instead.
BREAK = """
const real = WebAssembly.instantiate;
WebAssembly.instantiate = async (...words) => {
  const { instance } = await real(...words);
  return { instance: { exports: { ...instance.exports, %s: (...given) => (%s)(instance.exports, given) } } };
};"""
REFUSE = "WebAssembly.instantiate = async () => { throw new Error('no WebAssembly here'); };"


def broken_by(script):
    """Loads the page with a script that runs before it."""
    added = driver.execute_cdp_cmd("Page.addScriptToEvaluateOnNewDocument", {"source": script})
    driver.get(PAGE.as_uri())
    driver.execute_cdp_cmd("Page.removeScriptToEvaluateOnNewDocument", {"identifier": added["identifier"]})


def no_verdict_on_an_error():
    """A trap, an unknown status, or functions that contradict each other give no verdict and no table."""
    faults = {
        "a trap": ("shift_verified", "() => { throw new WebAssembly.RuntimeError('unreachable') }"),
        "an unknown status": ("shift_verified", "() => 5"),
        "data elsewhere": ("shift_verified", "(c, g) => { const s = c.shift_verified(...g); new Uint32Array(c.memory.buffer)[g[6] >> 2] += 1; return s; }"),
        "another row count": ("shift_row", "() => 32"),
    }
    for what, (name, fault) in faults.items():
        broken_by(BREAK % (name, fault))
        wait(lambda: js("return document.documentElement.dataset.ready") == "true", what)
        choose("ring", "ring.keys")
        choose("files", "day.shift")
        shows("No verdict: the inspection failed")
        equal([one("#verdict").get_attribute("data-verdict"), texts("#rows tr")], ["broken", []], what)
        check("Use nothing of this file." in one("#warnings").text and "Please report this" in one("#warnings").text, what)
        if what == "a trap":
            screen(1280, 900, False)
            look("10-no-verdict")
    broken_by(REFUSE)
    shows("No verdict: this browser cannot load the library")


# ---- network

class Listener(http.server.SimpleHTTPRequestHandler):
    asked = []

    def do_GET(self):
        Listener.asked.append(self.path)
        super().do_GET()

    do_POST = do_GET

    def log_message(self, *words):
        pass


def listening(folder):
    server = http.server.ThreadingHTTPServer(("127.0.0.1", 0), functools.partial(Listener, directory=str(folder)))
    threading.Thread(target=server.serve_forever, daemon=True).start()
    return server, f"http://127.0.0.1:{server.server_port}"


def requests():
    asked = set()
    for line in driver.get_log("performance"):
        message = json.loads(line["message"])["message"]
        if message["method"] == "Network.requestWillBeSent":
            asked.add(message["params"]["request"]["url"])
    return asked


def no_request_and_nothing_stored():
    """Over all scenarios before this one."""
    outside = [u for u in requests() if not u.startswith((PAGE.as_uri(), "blob:", "data:"))]
    equal(outside, [], "requests")
    equal([line for line in driver.get_log("browser") if line["level"] != "INFO"], [], "complaints of the browser")
    equal(js("return [localStorage.length, sessionStorage.length, document.cookie]"), [0, 0, ""], "stored")
    equal(driver.execute_async_script("indexedDB.databases().then(d => arguments[0](d.length))"), 0, "databases")


# Ways in which a script could send data out; each is tried with an address of its own.
WAYS = """
const [base, done] = arguments;
const make = (name, set) => { const n = document.createElement(name); set(n); document.body.append(n); return n; };
const tried = {
  fetch: () => fetch(base + '/fetch').catch(() => {}),
  beacon: () => navigator.sendBeacon(base + '/beacon', 'x'),
  request: () => { const r = new XMLHttpRequest(); r.open('GET', base + '/request'); r.send(); },
  socket: () => new WebSocket(base.replace('http', 'ws') + '/socket'),
  events: () => new EventSource(base + '/events'),
  image: () => make('img', n => { n.src = base + '/image'; }),
  style: () => make('link', n => { n.rel = 'stylesheet'; n.href = base + '/style'; }),
  frame: () => make('iframe', n => { n.src = base + '/frame'; }),
  media: () => make('video', n => { n.src = base + '/media'; }),
  form: () => { const f = make('form', n => { n.action = base + '/form'; n.method = 'post'; n.target = 'x'; }); f.submit(); },
  prefetch: () => make('link', n => { n.rel = 'prefetch'; n.href = base + '/prefetch'; }),
};
const blocked = new Set();
addEventListener('securitypolicyviolation', (e) => blocked.add(e.effectiveDirective));
const thrown = [];
for (const [name, act] of Object.entries(tried)) { try { act(); } catch (e) { thrown.push(name); } }
setTimeout(() => done([[...blocked].sort(), thrown]), 1500);
"""


def policy_blocks_every_way_out():
    server, address = listening(PAGE.parent)
    blocked, thrown = driver.execute_async_script(WAYS, address)
    equal(Listener.asked, [], f"what reached the server; thrown: {thrown}")
    for wanted in ("connect-src", "img-src", "style-src-elem", "frame-src", "media-src", "form-action"):
        check(wanted in blocked, f"{wanted} is not among {blocked}")
    check("TrustedHTML" in js("try { document.body.innerHTML = '<b>x</b>'; return 'set' } catch (e) { return String(e) }"), "markup by script")
    script = "const s = document.createElement('script'); try { s.textContent = 'document.title = 1'; document.body.append(s); } catch (e) { return String(e) } return document.title"
    check("TrustedScript" in js(script), "a script by script")
    # The control: a page without the policy does reach the server by the same ways.
    control = PAGE.parent / "control.html"
    control.write_text("<!doctype html><title>control</title><body>")
    driver.get(f"{address}/control.html")
    Listener.asked.clear()
    driver.execute_async_script(WAYS, address)
    control.unlink()
    for way in ("/fetch", "/beacon", "/request", "/image", "/style", "/frame"):
        check(way in Listener.asked, f"{way} does not reach the server without the policy: {Listener.asked}")
    server.shutdown()


def from_a_server():
    server, address = listening(PAGE.parent)
    Listener.asked.clear()
    load(f"{address}/{PAGE.name}")
    choose("files", "day.shift")
    choose("ring", "ring.keys")
    shows("Genuine: all 8 entries")
    one("#save-csv").click()
    equal([p for p in Listener.asked if p != "/favicon.ico"], [f"/{PAGE.name}"], "requests to the server")
    server.shutdown()


SCENARIOS = [start, not_verified, genuine, units_differ_without_colour, one_entry_by_keyboard, every_control_by_tab, forged, refused,
             rings, stations, several_dropped, reports_byte_for_byte, amended, amendment_changes_a_unit, compared, many_rows,
             longest_file, markup, on_paper, no_verdict_on_an_error, no_request_and_nothing_stored, policy_blocks_every_way_out, from_a_server]


def main():
    wanted = sys.argv[3:]
    failed = 0
    for scenario in SCENARIOS:
        if wanted and scenario.__name__ not in wanted:
            continue
        before = passed
        try:
            load()
            scenario()
            print(f"{scenario.__name__}: {passed - before} checks")
        except Exception as error:  # one scenario must not hide the others
            failed += 1
            shot(f"failed-{scenario.__name__}")
            lines = traceback.extract_tb(error.__traceback__)
            line = next((f.lineno for f in reversed(lines) if f.name == scenario.__name__), 0)
            print(f"{scenario.__name__}: FAILED at line {line}: {error}")
    print(f"browser: {passed} passed, {failed} failed ({driver.capabilities['browserVersion']})")
    return failed


try:
    FAILED = main()
finally:
    driver.quit()
    shutil.rmtree(SAVED, ignore_errors=True)
sys.exit(1 if FAILED else 0)
