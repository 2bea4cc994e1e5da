#!/usr/bin/env python3
"""Uses the built page in headless Firefox through its own file inputs. Firefox is driven by its own protocol, Marionette, so
that Python's standard library is enough.

    tests/firefox.py FILES [SHOTS]    FILES is the folder of make-files.mjs; SHOTS gets screenshots

A shorter course than browser.py: each verdict, an entry, an amendment, a comparison, the longest file, widths, the policy.
The last line is `firefox: N passed, M failed`. A scenario that fails is one failure; the next one starts on a new page.
"""
import base64
import json
import pathlib
import shutil
import socket
import subprocess
import sys
import tempfile
import time

PAGE = pathlib.Path(__file__).resolve().parent.parent.parent / "target" / "web" / "inspect.html"
FILES = pathlib.Path(sys.argv[1]).resolve()
SHOTS = pathlib.Path(sys.argv[2]) if len(sys.argv) > 2 else None
passed = 0


# ---- Firefox

def free_port():
    with socket.socket() as probe:
        probe.bind(("127.0.0.1", 0))
        return probe.getsockname()[1]


class Firefox:
    """A headless Firefox with a new profile. A message is `LENGTH:JSON`; a command is [0, id, name, parameters], an answer
    [1, id, error, result]."""

    def __init__(self):
        self.profile = tempfile.mkdtemp(prefix="inspect-firefox-")
        port = free_port()
        pathlib.Path(self.profile, "user.js").write_text(f'user_pref("marionette.port", {port});\n')
        program = shutil.which("firefox-esr") or shutil.which("firefox")
        self.process = subprocess.Popen([program, "--headless", "--marionette", "--no-remote", "--profile", self.profile],
                                        stdout=subprocess.DEVNULL, stderr=subprocess.DEVNULL)
        self.socket, self.read, self.id = self.connected(port), b"", 0
        self.message()  # Firefox greets first
        self.version = self.command("WebDriver:NewSession")["capabilities"]["browserVersion"]

    def connected(self, port):
        for _ in range(300):
            try:
                return socket.create_connection(("127.0.0.1", port), timeout=60)
            except OSError:
                time.sleep(0.2)
        raise RuntimeError("Firefox does not answer")

    def message(self):
        while b":" not in self.read:
            self.read += self.socket.recv(65536)
        length, _, rest = self.read.partition(b":")
        while len(rest) < int(length):
            rest += self.socket.recv(65536)
        self.read = rest[int(length):]
        return json.loads(rest[:int(length)])

    def command(self, name, **parameters):
        self.id += 1
        text = json.dumps([0, self.id, name, parameters]).encode()
        self.socket.sendall(b"%d:%s" % (len(text), text))
        _, _, error, result = self.message()
        if error:
            raise RuntimeError(f"{name}: {error['message']}")
        return result

    def quit(self):
        try:
            self.command("Marionette:Quit", flags=["eForceQuit"])
            self.process.wait(timeout=30)
        except (OSError, RuntimeError, ValueError, subprocess.TimeoutExpired):
            self.process.kill()
            self.process.wait()
        shutil.rmtree(self.profile, ignore_errors=True)


firefox = Firefox()


# ---- the page

def check(condition, words):
    global passed
    if not condition:
        raise AssertionError(words)
    passed += 1


def equal(found, wanted):
    check(found == wanted, f"\n  found  {found!r}\n  wanted {wanted!r}")


def js(script, *words):
    return firefox.command("WebDriver:ExecuteScript", script=script, args=list(words))["value"]


def texts(selector):
    return js("return [...document.querySelectorAll(arguments[0])].filter(n => n.checkVisibility()).map(n => n.textContent)", selector)


def wait(test, words):
    end = time.time() + 30
    while time.time() < end:
        if test():
            return check(True, words)
        time.sleep(0.05)
    raise AssertionError(f"waited in vain: {words}; the headline is {texts('#headline')}")


def shows(words):
    wait(lambda: texts("#headline") == [words], words)


def element(selector):
    return next(iter(firefox.command("WebDriver:FindElement", using="css selector", value=selector)["value"].values()))


def choose(slot, *names):
    firefox.command("WebDriver:ElementSendKeys", id=element(f"#input-{slot}"), text="\n".join(str(FILES / n) for n in names))


def click(selector):
    firefox.command("WebDriver:ElementClick", id=element(selector))


def load():
    firefox.command("WebDriver:SetWindowRect", width=1280, height=900)
    firefox.command("WebDriver:Navigate", url=PAGE.as_uri())
    wait(lambda: js("return document.documentElement.dataset.ready") == "true", "the page is ready")


def shot(name, whole=True):
    if SHOTS:
        SHOTS.mkdir(parents=True, exist_ok=True)
        taken = firefox.command("WebDriver:TakeScreenshot", full=whole, hash=False)["value"]
        (SHOTS / f"firefox-{name}.png").write_bytes(base64.b64decode(taken))


# ---- scenarios

def genuine():
    choose("files", "day.shift")
    shows("Checked, not verified: no key ring")
    check(all("claimed" in unit for unit in texts("#rows .unit")), "claimed units")
    choose("ring", "ring.keys")
    shows("Genuine: all 8 entries")
    metric, inch = "N·mnewton-metres", "in·lbinch-pounds"
    equal(texts("#rows .unit"), [metric, metric, inch, inch, metric, metric, metric, inch])
    equal(texts("#rows .mark"), ["genuine"] * 8)
    shot("genuine")


def entry():
    choose("ring", "ring.keys")
    choose("files", "day.shift")
    shows("Genuine: all 8 entries")
    click("#rows tr:nth-child(3) .open")
    equal(texts("#entry h2"), ["Job 4103"])
    equal(texts("#entry pre")[0], "gearbox 4103 bolt 1/4-28 count 6 torque 106 108 107 107 106 109")
    click(".toggle-hex")
    check(texts("#entry pre")[0].startswith("0000  67 65 61 72 62 6f 78"), "hex dump")
    click("#copy-entry")
    wait(lambda: texts("#copy-entry") == ["Copied"], "copying")
    shot("entry", whole=False)
    click("#entry-close")
    wait(lambda: texts("#entry") == [], "the entry is closed")


def forged():
    choose("ring", "ring.keys")
    choose("files", "exchanged.shift")
    shows("FORGED: 1 of 8 entries (job 4103)")
    equal(texts("#rows .unit")[2], "N·mnewton-metresdo not use")
    shot("forged")
    click("#only-forged")
    equal(texts("#rows .open"), ["4103"])


def refused():
    files = sorted(FILES.glob("refused-*.shift"))
    check(len(files) == 13, f"{len(files)} files")
    for file in files:
        choose("files", file.name)
        wait(lambda: texts("#verdict-file") == [file.name] and texts("#headline")[0].endswith(f"({file.stem[-2:]})"), file.name)
        equal(texts("#rows tr"), [])
    shot("refused")
    choose("ring", "short.keys")
    choose("files", "day.shift")
    wait(lambda: texts("#headline")[0].endswith("the ring is not 256 bytes long (2)"), "a short ring")


def amended_and_compared():
    choose("ring", "ring.keys")
    choose("files", "day.shift")
    choose("amendment", "changing.shift")
    shows("Genuine: all 10 entries of both files")
    equal(texts("#warnings li"), ["The amendment changes the unit of job 4103."])
    choose("second", "exchanged.shift")
    wait(lambda: texts(".comparison-headline") == ["Different: 1 job in both files but different"], "the comparison")
    shot("compared")


def longest_file():
    choose("ring", "ring.keys")
    begun = time.time()
    choose("files", "longest-forged.shift")
    shows("FORGED: 1 of 512 entries (job 5900)")
    check(time.time() - begun < 10, "1,048,576 bytes, 512 entries")
    js("const n = document.querySelector('#search'); n.value = '5900'; n.dispatchEvent(new Event('input'))")
    equal(texts("#rows .open"), ["5900"])


def widths():
    choose("ring", "ring.keys")
    choose("files", "forged.shift")
    shows("FORGED: 2 of 8 entries (jobs 4102 and 4210)")
    for width in (500, 820, 1920):  # a Firefox window is at least 450 wide
        firefox.command("WebDriver:SetWindowRect", width=width, height=900)
        check(js("return document.documentElement.scrollWidth <= innerWidth"), f"wider than a window of {width}")
        shot(f"forged-{width}")


def nothing_out_and_nothing_stored():
    js("""window.blocked = []; addEventListener('securitypolicyviolation', (e) => blocked.push(e.effectiveDirective));
        fetch('http://127.0.0.1:9/').catch(() => {}); document.body.append(Object.assign(new Image(), { src: 'http://127.0.0.1:9/' }))""")
    wait(lambda: sorted(js("return window.blocked")) == ["connect-src", "img-src"], "the policy")
    equal(js("return [localStorage.length, sessionStorage.length, document.cookie]"), [0, 0, ""])


SCENARIOS = [genuine, entry, forged, refused, amended_and_compared, longest_file, widths, nothing_out_and_nothing_stored]


def main():
    failed = 0
    for scenario in SCENARIOS:
        before = passed
        try:
            load()
            scenario()
            print(f"{scenario.__name__}: {passed - before} checks")
        except Exception as error:  # one scenario must not hide the others
            failed += 1
            print(f"{scenario.__name__}: FAILED: {error}")
    print(f"firefox: {passed} passed, {failed} failed ({firefox.version})")
    return failed


try:
    FAILED = main()
finally:
    firefox.quit()
sys.exit(1 if FAILED else 0)
