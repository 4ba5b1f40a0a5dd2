#!/usr/bin/env python3
"""Runs the page in Chromium, headless, and fails where it answers otherwise than the program.

Usage: [PROGRAM=FILE] tools/page_runs.py [--screenshots FOLDER] [PAGE]

PAGE is out/page/index.html where none is named, and PROGRAM the one that the gate left in crates/a64_cli/out. Each file
of items goes through `asm`, `asm force`, `list` and `roles`, its report through `audit`, `dis` and `undis`, and files of
other kinds through their commands: status and bytes are the program's. Refusals are seen at their lines, and no script
may fail. With a folder, screenshots of the views stand there, light, dark and narrow. Where there is no `chromium`, a
line says so, and the status is 0.
"""
import base64
import json
import os
import pathlib
import shutil
import subprocess
import sys
import tempfile
import time

ROOT = pathlib.Path(__file__).resolve().parent.parent
PROGRAM = os.environ.get("PROGRAM") or str(ROOT / "crates/a64_cli/out/a64_cli")

# Texts that are refused, each with its command, its fault, and the line at which the page marks it.
REFUSED = (
    ("asm", "Nop4\nNop5\n", "line 2: not an entry", 2),
    ("asm", "; a comment\nNop4\nAluRRR Add 64 sp x0 x1\n", "item 1: bad operand", 3),
    ("asm", "bind L1\nNop4\nbind L1\n", "label L1: bound twice", 3),
    ("asm", "Nop4\nJump L7\n", "label L7: not bound", 2),
    ("audit", "item 0 0\nword 0 00000000\n", "place 0: unknown word", 2),
    ("stubs", "nothing\n", "line 1: not an entry", 1),
)

# The sizes and colours of screenshots.
SCREENS = (("light", 1280, 800), ("dark", 1280, 800), ("narrow", 390, 844))

# The views, each with the example that it shows.
VIEWS = (("words", "islands"), ("words", "constants"), ("listing", "branches"), ("roles", "jump"), ("report", "jump"))


class Fault(Exception):
    """How the page answers otherwise than it should."""


class Browser:
    """Chromium with one page, spoken to by way of two pipes."""

    def __init__(self, folder):
        to_read, self.to = os.pipe()
        self.answers, to_write = os.pipe()
        words = ["chromium", "--headless=new", "--no-sandbox", "--disable-gpu", "--no-first-run",
                 f"--user-data-dir={folder}", "--remote-debugging-pipe", "about:blank"]

        def place_pipes():
            # The browser reads from descriptor 3 and writes to descriptor 4.
            high = [os.dup2(to_read, 103), os.dup2(to_write, 104)]
            os.dup2(high[0], 3)
            os.dup2(high[1], 4)

        self.process = subprocess.Popen(words, stdout=subprocess.DEVNULL, stderr=subprocess.DEVNULL,
                                        preexec_fn=place_pipes, close_fds=False)
        os.close(to_read)
        os.close(to_write)
        self.count = 0
        self.held = b""
        self.failures = []
        self.session = None
        target = self.ask("Target.createTarget", url="about:blank")["targetId"]
        self.session = self.ask("Target.attachToTarget", targetId=target, flatten=True)["sessionId"]
        self.ask("Runtime.enable")
        self.ask("Page.enable")

    def message(self):
        """The next message of the browser."""
        while b"\0" not in self.held:
            more = os.read(self.answers, 1 << 20)
            if not more:
                raise Fault("the browser has ended")
            self.held += more
        first, _, self.held = self.held.partition(b"\0")
        said = json.loads(first)
        if said.get("method") == "Runtime.exceptionThrown":
            self.failures.append(said["params"]["exceptionDetails"].get("exception", {}).get("description", "an error"))
        return said

    def ask(self, method, **values):
        """Asks the browser for something, and returns its answer."""
        self.count += 1
        asked = {"id": self.count, "method": method, "params": values}
        if self.session:
            asked["sessionId"] = self.session
        rest = json.dumps(asked).encode() + b"\0"
        while rest:
            rest = rest[os.write(self.to, rest):]
        while True:
            said = self.message()
            if said.get("id") == self.count:
                if "error" in said:
                    raise Fault(f"{method}: {said['error']['message']}")
                return said["result"]

    def value(self, expression):
        """The value of an expression in the page."""
        said = self.ask("Runtime.evaluate", expression=expression, returnByValue=True, awaitPromise=True)
        if "exceptionDetails" in said:
            raise Fault(f"{expression[:80]}: {said['exceptionDetails'].get('exception', {}).get('description')}")
        return said["result"].get("value")

    def open(self, page):
        """Opens a page, and waits until it has shown its first words."""
        self.ask("Page.navigate", url=page.resolve().as_uri())
        wait = ("new Promise((done) => { const look = () => document.body && document.body.dataset.first"
                " ? done(true) : setTimeout(look, 10); look(); })")
        self.value(wait)

    def end(self):
        """Ends the browser."""
        try:
            self.session = None
            self.ask("Browser.close")
        except (Fault, OSError):
            pass
        self.process.wait(timeout=30)


def by_program(words, given):
    """The status of the program and what it writes: to its standard error where the status is not 0."""
    ended = subprocess.run([PROGRAM, *words], input=given, capture_output=True, check=False)
    return ended.returncode, ended.stderr if ended.returncode else ended.stdout


def by_page(browser, words, given):
    """The same by the page."""
    force = "true" if words[1:] == ["force"] else "false"
    bytes_given = base64.b64encode(given).decode()
    said = browser.value(f"state.engine.runBytes({json.dumps(words[0])}, {force}, bytesOf({json.dumps(bytes_given)}))")
    return said["status"], said["text"].encode()


def compared(browser, words, given, name):
    """Has both run a command, and returns what they answer, which is one thing."""
    wanted = by_program(words, given)
    found = by_page(browser, words, given)
    if found != wanted:
        raise Fault(f"{name}: {' '.join(words)}: {found}, and not {wanted}"[:600])
    return wanted


def compare_all(browser):
    """Compares all examples, and returns how many runs there were."""
    count = 0
    examples = browser.value("state.examples")
    for name, example in examples.items():
        given = example["text"].encode()
        if example["command"] != "asm":
            compared(browser, [example["command"]], given, name)
            count += 1
            continue
        for words in ["asm"], ["asm", "force"], ["list"], ["roles"]:
            status, report = compared(browser, words, given, name)
            count += 1
            if words[0] == "asm" and status == 0:
                compared(browser, ["audit"], report, name)
                listing = compared(browser, ["dis"], report, name)[1]
                compared(browser, ["undis"], listing, name)
                count += 3
    return count


def give(browser, command, text):
    """Gives the page a command and a text, as if they were typed."""
    browser.value(f"part('command').value = {json.dumps(command)}; part('text').value = {json.dumps(text)}; refresh()")


def see_refusals(browser):
    """Sees each refusal at its line."""
    for command, text, fault, line in REFUSED:
        give(browser, command, text)
        told = browser.value("part('fault').textContent")
        marked = browser.value("[...document.querySelectorAll('#numbers .bad')].map((it) => it.textContent).join()")
        if told != f"status 1: {fault}" or marked != str(line):
            raise Fault(f"{text!r} is refused by {told!r} at line {marked!r}")


def see_views(browser):
    """Sees that arrows lead from branches, that fields are shown, and that keys move."""
    browser.value("take('islands'); choose('words')")
    if browser.value("document.querySelectorAll('#arrows path').length") < 1:
        raise Fault("no branch is drawn")
    if browser.value("document.querySelectorAll('tr.island').length") < 1:
        raise Fault("no island is marked")
    browser.value("document.querySelector('tr[data-place]').focus()")
    for key in "ArrowDown", "ArrowUp":
        browser.ask("Input.dispatchKeyEvent", type="keyDown", key=key, code=key)
    if "imm14" not in browser.value("part('fields').textContent"):
        raise Fault("the fields of a word are not shown")
    word = browser.value("part('command').value = 'dis'; part('text').value = 'd65f03c0'; refresh();"
                         " part('report').textContent")
    if word != by_program(["dis"], b"word 0 d65f03c0\n")[1].decode():
        raise Fault(f"a word alone is shown as {word!r}")


def figures(browser):
    """The time from opening to the first words, and how many words are assembled in a second by both."""
    first = browser.value("Number(document.body.dataset.first)")
    given = (b"AluRRRShift Add 64 x0 x1 x2 LSL(3)\n" * 100_000)
    text = base64.b64encode(given).decode()
    took = browser.value(f"(() => {{ const bytes = bytesOf({json.dumps(text)}); const begin = performance.now();"
                         " state.engine.runBytes('asm', false, bytes); return performance.now() - begin; })()")
    begun = time.perf_counter()
    subprocess.run([PROGRAM, "asm"], input=given, stdout=subprocess.DEVNULL, check=True)
    ran = time.perf_counter() - begun
    return (f"first words after {first:.0f} ms; words in a second: {100_000 / took * 1000:,.0f} by the page, "
            f"{100_000 / ran:,.0f} by the program")


def screenshots(browser, folder):
    """Makes a picture of each view."""
    folder.mkdir(parents=True, exist_ok=True)
    for name, width, height in SCREENS:
        scheme = "dark" if name == "dark" else "light"
        browser.ask("Emulation.setDeviceMetricsOverride", width=width, height=height, deviceScaleFactor=1, mobile=False)
        browser.ask("Emulation.setEmulatedMedia", features=[{"name": "prefers-color-scheme", "value": scheme}])
        for view, example in VIEWS:
            browser.value(f"take('{example}'); choose('{view}')")
            picture(browser, folder / f"{name}_{view}_{example}.png")
        give(browser, "asm", "Nop4\nNop5\nRet\n")
        picture(browser, folder / f"{name}_refused.png")


def picture(browser, file):
    """Makes one picture, of the whole page."""
    made = browser.ask("Page.captureScreenshot", format="png", captureBeyondViewport=True)
    file.write_bytes(base64.b64decode(made["data"]))


def main():
    """Runs all, and answers the status of this script."""
    words = sys.argv[1:]
    folder = None
    if words[:1] == ["--screenshots"] and len(words) > 1:
        folder = pathlib.Path(words[1])
        words = words[2:]
    page = pathlib.Path(words[0]) if words else ROOT / "out" / "page" / "index.html"
    if not shutil.which("chromium"):
        print("page_runs: there is no chromium here, so the page was not run")
        return 0
    with tempfile.TemporaryDirectory(ignore_cleanup_errors=True) as profile:
        browser = Browser(profile)
        try:
            browser.open(page)
            count = compare_all(browser)
            see_refusals(browser)
            see_views(browser)
            said = figures(browser)
            if folder:
                screenshots(browser, folder)
            if browser.failures:
                raise Fault(f"a script of the page failed: {browser.failures[0]}")
            print(f"page_runs: {count} runs as by the program; {said}")
        except (Fault, OSError, subprocess.CalledProcessError) as fault:
            print(f"page_runs: {fault}", file=sys.stderr)
            return 1
        finally:
            browser.end()
    return 0


if __name__ == "__main__":
    sys.exit(main())
