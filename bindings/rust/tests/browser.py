#!/usr/bin/env python3
"""The page in a real browser: browser.py PROGRAM FOLDER. It wants chromium and chromium-driver, and writes screenshots into FOLDER.

Flight Q is flown on the page with the mouse and once more with keys alone; two pages see the same at once; lists, the best order and a withdrawal are made; 3 and 64 drones are looked at on 1024 by 768, in light
and in dark: nothing is wider than the page, no name is cut, and nothing is fetched from elsewhere.
"""
import base64
import http.client
import json
import os
import re
import shutil
import subprocess
import sys
import tempfile
import time

Q = """plan=1\nagents=2\nname=survey-quad-east-1\nstops=4\ngo=1@0\ngo=6@1\ngo=5@2\ngo=2@3\nname=survey-quad-east-2\nstops=3\ngo=3@0\ngo=5@4\ngo=4@5\nend=plan\n"""
P = """plan=1\nagents=2\nname=corridor-a\nstops=4\ngo=10@0\ngo=20@1\ngo=30@2\ngo=40@3\nname=corridor-b\nstops=4\ngo=11@0\ngo=20@3\ngo=30@4\ngo=41@5\nend=plan\n"""
THREE = """plan=1\nagents=3\nname=survey-quad-east-1\nstops=4\ngo=1@0\ngo=6@1\ngo=5@2\ngo=2@3\nname=survey-quad-east-2\nstops=4\ngo=3@0\ngo=5@4\ngo=4@5\ngo=9@6\nname=survey-quad-west-1\nstops=4\ngo=7@0\ngo=4@8\ngo=6@10\ngo=8@12\nend=plan\n"""
KEYS = {"Tab": "\ue004", "Enter": "\ue007", "Space": "\ue00d", "Up": "\ue013", "Down": "\ue015", "Escape": "\ue00c"}
ELEMENT = "element-6066-11e4-a52e-4f735466cecf"


class Server:
    def __init__(self, program, *words):
        self.process = subprocess.Popen([program, "serve", *words, "--listen", "127.0.0.1:0"], stdout=subprocess.PIPE, text=True)
        for line in self.process.stdout:
            if line.startswith("to look:"):
                self.look = line.split()[-1]
            if line.startswith("to fly:"):
                self.fly = line.split()[-1]
                return
        raise AssertionError("the server does not start")

    def __enter__(self):
        return self

    def __exit__(self, *_):
        self.process.kill()
        self.process.wait()


class Browser:
    """As much of WebDriver as is wanted here."""

    def __init__(self, driver):
        self.driver = subprocess.Popen([driver, "--port=0"], stdout=subprocess.PIPE, stderr=subprocess.DEVNULL, text=True)
        self.port = None
        for line in self.driver.stdout:
            found = re.search(r"started successfully on port (\d+)", line)
            if found:
                self.port = int(found[1])
                break
        options = ["--headless=new", "--no-sandbox", "--disable-gpu", "--disable-dev-shm-usage", "--no-first-run", "--hide-scrollbars", "--lang=en"]
        wanted = {"browserName": "chrome", "goog:chromeOptions": {"args": options}, "goog:loggingPrefs": {"browser": "ALL"}}
        self.path = ""
        self.path = "/session/" + self.send("POST", "/session", {"capabilities": {"alwaysMatch": wanted}})["sessionId"]
        self.size(1024, 768)

    def send(self, method, path, body=None):
        connection = http.client.HTTPConnection("127.0.0.1", self.port, timeout=60)
        connection.request(method, self.path + path, None if body is None else json.dumps(body), {"Content-Type": "application/json"})
        value = json.loads(connection.getresponse().read())["value"]
        if isinstance(value, dict) and value.get("error"):
            raise AssertionError("%s %s: %s" % (method, path, value["message"].split("\n")[0]))
        return value

    def close(self):
        try:
            self.send("DELETE", "")
        finally:
            self.driver.terminate()
            self.driver.wait()

    def command(self, name, **words):
        return self.send("POST", "/goog/cdp/execute", {"cmd": name, "params": words})

    def size(self, width, height):
        self.command("Emulation.setDeviceMetricsOverride", width=width, height=height, deviceScaleFactor=1, mobile=False)

    def dark(self, dark):
        self.command("Emulation.setEmulatedMedia", features=[{"name": "prefers-color-scheme", "value": "dark" if dark else "light"}])

    def open(self, address):
        self.send("POST", "/url", {"url": "about:blank"})
        self.complaints()  # those of another page: its server may have gone
        self.send("POST", "/url", {"url": address})
        self.until("the page is ready", "return document.body.dataset.version !== undefined && document.querySelector('#picture svg') !== null")

    def script(self, text, *words):
        return self.send("POST", "/execute/sync", {"script": text, "args": list(words)})

    def until(self, what, text, *words, seconds=10):
        end = time.time() + seconds
        while time.time() < end:
            found = self.script(text, *words)
            if found:
                return found
            time.sleep(0.02)
        raise AssertionError("%s: %s" % (what, self.script("return document.body.innerText")))

    def click(self, css):
        element = self.send("POST", "/element", {"using": "css selector", "value": css})[ELEMENT]
        self.send("POST", "/element/%s/click" % element, {})

    def text(self, css):
        return self.script("const e = document.querySelector(arguments[0]); return e ? e.textContent : ''", css)

    def wait_text(self, css, words):
        self.until("%s has “%s”" % (css, words), "const e = document.querySelector(arguments[0]); return Boolean(e) && e.textContent.includes(arguments[1])", css, words)

    def keys(self, *names):
        for name in names:
            key = KEYS.get(name, name)
            self.send("POST", "/actions", {"actions": [{"type": "key", "id": "keys", "actions": [{"type": "keyDown", "value": key}, {"type": "keyUp", "value": key}]}]})

    def focus(self):
        return self.script("const e = document.activeElement; return e.id || (e.dataset.do ? e.dataset.do + e.closest('tr').dataset.drone : e.dataset.turn !== undefined ? 'turn' + e.dataset.turn : e.tagName)")

    def tab_to(self, name):
        for _ in range(60):
            if self.focus() == name:
                return
            self.keys("Tab")
        raise AssertionError("the Tab key does not lead to %s" % name)

    def photo(self, path):
        with open(path, "wb") as file:
            file.write(base64.b64decode(self.send("GET", "/screenshot")))

    def content(self):
        found = self.complaints()
        assert not found, found

    def complaints(self):
        """What the browser itself complains of; a refused call is answered by a status that it tells too."""
        return [entry["message"] for entry in self.send("POST", "/se/log", {"type": "browser"}) if "/call" not in entry["message"] and entry["level"] in ("SEVERE", "WARNING")]


def row(drone, what):
    return 'tr[data-drone="%d"] %s' % (drone, what)


def button(drone, call):
    return row(drone, 'button[data-do="%s"]' % call)


def flown(browser, drones):
    """Grants and arrivals by the buttons that are lit, until everybody is at its last stop."""
    for _ in range(100):
        lit = browser.script("return [...document.querySelectorAll('#rows button.now')].map(b => [Number(b.closest('tr').dataset.drone), b.dataset.do])")
        if not lit:
            break
        version = browser.script("return document.body.dataset.version")
        browser.click(button(*lit[0]))
        browser.until("the call is shown", "return document.body.dataset.version !== arguments[0]", version)
    for drone in range(drones):
        browser.wait_text(row(drone, ".now"), "at its last stop")
    browser.wait_text("#cost", "0")
    assert browser.text("#rounds") == "0 rounds", browser.text("#rounds")


def flight_q(browser, server, folder):
    browser.open(server.look)
    looking = browser.send("GET", "/window")
    assert browser.script("return document.querySelectorAll('#rows tr').length") == 2
    assert browser.script("return getComputedStyle(document.querySelector('#press')).display === 'none' || !document.querySelector('#press').offsetParent"), "who looks has no buttons"
    flying = browser.send("POST", "/window/new", {"type": "tab"})["handle"]
    browser.send("POST", "/window", {"handle": flying})
    browser.size(1024, 768)
    browser.open(server.fly)
    assert browser.text("#cost") == "8" and browser.text("#rounds") == "5 rounds"
    assert [browser.text(row(d, ".name")) for d in (0, 1)] == ["survey-quad-east-1", "survey-quad-east-2"]
    browser.click(button(1, "grant"))
    browser.wait_text("#said", "refused with 23: survey-quad-east-2 must wait: survey-quad-east-1 goes first at crossing 5")
    assert "waits for survey-quad-east-1 at crossing 5 until it has reached its stop 3, crossing 2 (dependency 0)" in browser.text(row(1, ".now"))
    browser.wait_text('li[data-order="0"] .preview', "2 rounds less")
    browser.photo(os.path.join(folder, "refused.png"))
    browser.click('button[data-turn="0"]')
    browser.wait_text("#said", "dependency 0 is turned: at crossing 5 survey-quad-east-2 goes first, survey-quad-east-1 waits")
    browser.wait_text("#cost", "6")
    browser.wait_text('li[data-order="0"] .preview', "2 rounds more")
    browser.send("POST", "/window", {"handle": looking})
    browser.wait_text("#cost", "6")
    browser.wait_text('li[data-order="0"]', "survey-quad-east-2 goes before survey-quad-east-1 (turned)")
    browser.send("POST", "/window", {"handle": flying})
    flown(browser, 2)
    browser.send("POST", "/window", {"handle": looking})
    browser.wait_text("#cost", "0")
    browser.content()
    browser.send("DELETE", "/window")
    browser.send("POST", "/window", {"handle": flying})
    browser.content()


def by_keys(browser, server):
    """Flight Q once more, with keys alone: the first call is a turn, then press and arrivals."""
    browser.open(server.fly)
    browser.keys("2")
    browser.wait_text('li[data-order="0"] .preview', "2 rounds less")
    browser.tab_to("turn0")
    browser.keys("Enter")
    browser.wait_text("#cost", "6")
    browser.keys("1")
    browser.tab_to("grant0")
    browser.keys("Down")
    assert browser.focus() == "grant1", browser.focus()
    browser.keys("Space")
    browser.wait_text("#said", "survey-quad-east-2 is under way to its stop 1, crossing 5")
    browser.keys("Up", "Enter")
    browser.wait_text("#said", "survey-quad-east-1 is under way to its stop 1, crossing 6")
    browser.tab_to("arrive0")
    for drone, said in ((1, "survey-quad-east-2 has come to its stop 1"), (0, "survey-quad-east-1 has come to its stop 1")):
        while browser.focus() != "arrive%d" % drone:
            browser.keys("Down" if drone else "Up")
        browser.keys("Enter")
        browser.wait_text("#said", said)
    browser.tab_to("withdraw0")
    browser.keys("Enter")
    browser.wait_text("#ask-words", "Withdraw survey-quad-east-1?")
    assert browser.focus() == "ask-no", browser.focus()
    browser.keys("Escape")
    assert browser.script("return !document.querySelector('#ask').open")
    while not browser.script("return document.querySelector('#cost').textContent === '0'"):
        version = browser.script("return document.body.dataset.version")
        lit = browser.script("const b = document.querySelector('#rows button.now'); return b ? b.dataset.do + b.closest('tr').dataset.drone : null")
        browser.keys("1")
        browser.tab_to(lit)
        browser.keys("Enter")
        browser.until("the call is shown", "return document.body.dataset.version !== arguments[0]", version)


def lists_and_best(browser, program, folder):
    with open(os.path.join(folder, "p"), "w") as file:
        file.write(P)
    with open(os.path.join(folder, "q"), "w") as file:
        file.write(Q)
    with Server(program, os.path.join(folder, "p")) as server:
        browser.open(server.fly)
        browser.wait_text('li[data-order="0"] .preview', "refused with 34")
        for order in (0, 1):
            browser.click('li[data-order="%d"] input' % order)
        browser.wait_text("#marked-count", "2 marked")
        browser.wait_text("#marked-preview", "together no round more or less")
        browser.click("#turn-marked")
        browser.wait_text("#said", "2 dependencies turned: 0,1")
        browser.wait_text('li[data-order="1"]', "corridor-b goes before corridor-a (turned)")
        browser.click(button(1, "withdraw"))
        browser.wait_text("#ask-words", "Withdraw corridor-b?")
        browser.click("#ask-yes")
        browser.wait_text(row(1, ".now"), "withdrawn")
        browser.wait_text("#count", "None now")
        browser.content()
    with Server(program, os.path.join(folder, "q")) as server:
        browser.open(server.fly)
        browser.click("#search")
        browser.wait_text("#found", "cost 6 in place of 8, 2 rounds less")
        browser.click("#apply")
        browser.wait_text("#cost", "6")
        browser.click("#press")
        browser.wait_text("#said", "granted: survey-quad-east-1, survey-quad-east-2")
        browser.script("const s = document.querySelector('#reported'); s.value = '1'")
        browser.click("#press")
        browser.wait_text("#said", "survey-quad-east-2 has come to its stop 1, crossing 5; granted: survey-quad-east-2")


def uncut(browser, name):
    """Nothing is wider than the page, and no name is cut."""
    wide = browser.script("return document.documentElement.scrollWidth")
    assert wide <= 1024, "%s is %d wide" % (name, wide)
    cut = browser.script("return [...document.querySelectorAll('td.name, #list b, #said, td.now b')].filter(e => e.scrollWidth > e.clientWidth + 1).map(e => e.textContent)")
    assert not cut, cut


def readable(browser, name, folder):
    """In light and in dark, a photo of each part."""
    for look in ("light", "dark"):
        browser.dark(look == "dark")
        uncut(browser, name)
        ground = browser.script("return getComputedStyle(document.body).backgroundColor")
        assert (ground == "rgb(255, 255, 255)") == (look == "light"), ground
        for part in ("drones", "orders", "drawing"):
            browser.keys({"drones": "1", "orders": "2", "drawing": "3"}[part])
            time.sleep(0.15)
            browser.photo(os.path.join(folder, "%s-%s-%s.png" % (name, part, look)))
    browser.dark(False)
    browser.keys("1")


def photos(browser, program, plans, folder, root):
    three, full = os.path.join(plans, "three-drones"), os.path.join(plans, "sixty-four-drones")
    with open(three, "w") as file:
        file.write(THREE)
    made = subprocess.run([sys.executable, os.path.join(root, "tools/reckon.py"), "--full"], capture_output=True, check=True).stdout
    with open(full, "wb") as file:
        file.write(made[: made.index(b"end=plan\n") + 9])
    with Server(program, three, "--journal", os.path.join(plans, "three.journal")) as server:
        browser.open(server.fly)
        browser.click("#press")
        browser.wait_text("#said", "granted: survey-quad-east-1")
        browser.click(button(0, "arrive"))
        browser.wait_text("#said", "survey-quad-east-1 has come to its stop 1, crossing 6")
        browser.click(button(1, "grant"))
        browser.wait_text("#said", "refused with 23: survey-quad-east-2 must wait: survey-quad-east-1 goes first at crossing 5")
        browser.until("previews", "return [...document.querySelectorAll('.preview')].every(e => e.textContent !== '…')")
        time.sleep(0.5)
        readable(browser, "3", folder)
        browser.size(1024, 1270)
        browser.photo(os.path.join(folder, "page.png"))
        browser.size(1024, 768)
    with open(os.path.join(plans, "wide"), "w") as file:
        file.write(Q.replace("survey-quad-east-1", "w" * 23 + "1").replace("survey-quad-east-2", "m" * 23 + "2"))
    with Server(program, os.path.join(plans, "wide")) as server:
        browser.open(server.fly)
        browser.click(button(1, "grant"))
        browser.wait_text("#said", "w" * 23 + "1 goes first")
        browser.wait_text('li[data-order="0"] .preview', "2 rounds less")
        uncut(browser, "the longest names")
        browser.photo(os.path.join(folder, "wide.png"))
    with Server(program, full) as server:
        browser.open(server.fly)
        for _ in range(3):
            version = browser.script("return document.body.dataset.version")
            browser.click("#press")
            browser.until("pressed", "return document.body.dataset.version !== arguments[0]", version)
            for drone in range(0, 64, 7):
                browser.script("document.querySelector(arguments[0]).click()", button(drone, "arrive"))
            time.sleep(0.3)
        assert browser.script("return document.querySelectorAll('#rows tr').length") == 64
        browser.until("previews", "return [...document.querySelectorAll('.preview')].every(e => e.textContent !== '…')")
        time.sleep(1)
        readable(browser, "64", folder)
        browser.script("const s = document.querySelector('#form'); s.value = '/drones.svg'; s.dispatchEvent(new Event('change'))")
        browser.until("a row for each drone", "return document.querySelector('#picture').textContent.includes('survey-quad-east-63') && document.querySelectorAll('#picture svg').length === 1")
        browser.keys("3")
        time.sleep(2)
        browser.photo(os.path.join(folder, "64-rows-of-drones.png"))
        browser.script("const s = document.querySelector('#whose'); s.value = 'saving'; s.dispatchEvent(new Event('change'))")
        browser.until("all are looked at", "const t = document.querySelector('#count').textContent; return t !== '' && !t.includes('looked at')", seconds=60)
        browser.content()


def main():
    program, folder = sys.argv[1], sys.argv[2]
    os.makedirs(folder, exist_ok=True)
    root = os.path.join(os.path.dirname(os.path.abspath(__file__)), "..", "..", "..")
    driver = shutil.which("chromedriver")
    if not driver:
        sys.exit("there is no chromedriver: apt-get install -y chromium chromium-driver")
    browser = Browser(driver)
    try:
        with tempfile.TemporaryDirectory() as plans:
            q = os.path.join(plans, "q")
            with open(q, "w") as file:
                file.write(Q)
            with Server(program, q, "--journal", os.path.join(plans, "q.journal")) as server:
                flight_q(browser, server, folder)
            with Server(program, q) as server:
                by_keys(browser, server)
            lists_and_best(browser, program, plans)
            photos(browser, program, plans, folder, root)
    finally:
        browser.close()
    print("flight Q flown by mouse and by keys, two pages alike, lists, best order, withdrawal; 3 and 64 drones photographed in light and dark")


if __name__ == "__main__":
    main()
