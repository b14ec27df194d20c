"""Chromium and Firefox without windows, driven by the commands of WebDriver: Chromium by Selenium, and Firefox, for which Debian has
no driver, through its own protocol, Marionette. Each starts with an empty profile."""
import base64
import json
import os
import pathlib
import re
import shutil
import socket
import subprocess
import tempfile
import time

CHROMIUM = ("chromium", "chromium-browser", "google-chrome")
FIREFOX = ("firefox-esr", "firefox")
# How long a browser may take to start and to answer, also where the machine does other work.
START_SECONDS, ANSWER_SECONDS = 120, 120
# For how long a script may run, in milliseconds.
TIMEOUTS = {"script": 1000 * ANSWER_SECONDS}
ELEMENT = "element-6066-11e4-a52e-4f735466cecf"
# Keys as WebDriver names them.
TAB, ENTER, SPACE, RIGHT = "\ue004", "\ue007", " ", "\ue014"


class BrowserError(Exception):
    """The browser refused a command, or didn't start."""


def program(names):
    return next(filter(None, map(shutil.which, names)), None)


def until(ask, what, seconds=ANSWER_SECONDS):
    """Asks until the answer is true, and answers it."""
    end = time.monotonic() + seconds
    while time.monotonic() < end:
        told = ask()
        if told:
            return told
        time.sleep(0.02)
    raise BrowserError(f"{what} took longer than {seconds} s")


def driver(path):
    """chromedriver at a port that it chose itself. One that Selenium chooses for it may be another's by then."""
    from selenium.webdriver.chrome.service import Service

    class Driver(Service):
        def start(self):
            with tempfile.TemporaryFile() as told:
                self.process = subprocess.Popen([self.path, "--port=0"], stdin=subprocess.DEVNULL, stdout=told, stderr=told)
                found = until(lambda: re.search(rb"started successfully on port (\d+)", os.pread(told.fileno(), 1 << 16, 0)),
                              "chromedriver", START_SECONDS)  # fmt: skip
            self.port = int(found[1])
    return Driver(path)


class Browser:
    """What both browsers do. `command` gives one of WebDriver's commands."""

    def go(self, url):
        self.command("Navigate", {"url": url})

    def back(self):
        self.command("Back", {})

    def ask(self, script, *words):
        """What a script answers; one that answers a promise is waited for."""
        return self.command("ExecuteScript", {"script": script, "args": list(words)})

    def find(self, selector):
        found = self.command("FindElement", {"using": "css selector", "value": selector})
        return found[ELEMENT]

    def click(self, selector):
        self.command("ElementClick", {"id": self.find(selector)})

    def give(self, selector, *paths):
        """Chooses files in an input for files."""
        text = "\n".join(map(str, paths))
        self.command("ElementSendKeys", {"id": self.find(selector), "text": text})

    def give_folder(self, selector, path):
        self.give(selector, path)

    def press(self, *keys):
        """Presses keys, one after the other, wherever the focus is."""
        strokes = [{"type": kind, "value": key} for key in keys for kind in ("keyDown", "keyUp")]
        self.command("PerformActions", {"actions": [{"type": "key", "id": "keyboard", "actions": strokes}]})

    def told(self, selector):
        """What a screen reader is told of an element: its role and its name."""
        found = {"id": self.find(selector)}
        return self.command("GetComputedRole", found), self.command("GetComputedLabel", found)

    def wait(self, script, what, *words):
        return until(lambda: self.ask(script, *words), what)

    def wait_for_another(self, script, what):
        """Waits for a page that takes the place of this one, which answers nothing in between."""
        def asked():
            try:
                return self.ask(script)
            except BrowserError:
                return None
        return until(asked, what)

    def settle(self):
        """Waits until the page is laid out anew, and has heard of it, after its screen has changed."""
        self.ask("return new Promise(done => requestAnimationFrame(() => requestAnimationFrame(() => setTimeout(() => done(true)))))")

    def resize(self, width, height):
        """The place and the size that the window has then."""
        return self.command("SetWindowRect", {"width": width, "height": height})

    def picture(self, path):
        pathlib.Path(path).write_bytes(base64.b64decode(self.command("TakeScreenshot", {"full": False})))


class Chromium(Browser):
    """Chromium, driven by Selenium."""

    name = "Chromium"
    # WebDriver's commands, by Selenium's names for them.
    COMMANDS = {
        "Navigate": "get", "Back": "goBack", "ExecuteScript": "w3cExecuteScript", "FindElement": "findElement",
        "ElementClick": "clickElement", "ElementSendKeys": "sendKeysToElement", "SetWindowRect": "setWindowRect",
        "TakeScreenshot": "screenshot", "PerformActions": "actions", "GetComputedRole": "getElementAriaRole",
        "GetComputedLabel": "getElementAriaLabel",
    }  # fmt: skip

    def __init__(self, folder, downloads, language="en", has_wasm=True, words=()):
        from selenium import webdriver
        options = webdriver.ChromeOptions()
        options.binary_location = program(CHROMIUM)
        for word in ("--headless=new", "--no-sandbox", "--disable-gpu", "--disable-dev-shm-usage", f"--user-data-dir={folder}",
                     f"--accept-lang={language}", f"--lang={language}", *words, *([] if has_wasm else ["--js-flags=--jitless"])):
            options.add_argument(word)
        settings = {"download.default_directory": str(downloads), "intl.accept_languages": language}
        options.add_experimental_option("prefs", settings)
        options.set_capability("goog:loggingPrefs", {"performance": "ALL"})
        options.set_capability("timeouts", TIMEOUTS)
        service = driver(shutil.which("chromedriver"))
        self.driver = webdriver.Chrome(service=service, options=options)
        self.process = service.process

    def command(self, name, words):
        from selenium.common.exceptions import WebDriverException
        try:
            return self.driver.execute(self.COMMANDS[name], words)["value"]
        except WebDriverException as refused:
            raise BrowserError(str(refused).splitlines()[0]) from None

    def find(self, selector):
        return self.command("FindElement", {"using": "css selector", "value": selector}).id

    def tools(self, name, **words):
        """A command of the developer tools."""
        return self.driver.execute_cdp_cmd(name, words)

    def requests(self):
        """The addresses that were asked for since this was asked last."""
        told = (json.loads(entry["message"])["message"] for entry in self.driver.get_log("performance"))
        return [each["params"]["request"]["url"] for each in told if each["method"] == "Network.requestWillBeSent"]

    def messages(self):
        """What the console was told since this was asked last."""
        return [entry["message"] for entry in self.driver.get_log("browser")]

    def drop(self, selector, *paths):
        """Drops files or folders, as from the desktop."""
        place = self.ask("const target = document.querySelector(arguments[0]);"
                         "target.scrollIntoView({block: 'center'});"
                         "const box = target.getBoundingClientRect();"
                         "return {x: box.x + box.width / 2, y: box.y + box.height / 2}", selector)
        data = {"items": [], "files": [str(path) for path in paths], "dragOperationsMask": 1}
        for kind in ("dragEnter", "dragOver", "drop"):
            self.tools("Input.dispatchDragEvent", type=kind, data=data, **place)

    def close(self):
        self.driver.quit()


class Firefox(Browser):
    """Firefox through Marionette, which takes WebDriver's commands over a socket, each with its length ahead of it."""

    name = "Firefox"

    def __init__(self, folder, downloads, language="en", has_wasm=True):
        folder = pathlib.Path(folder)
        folder.mkdir(exist_ok=True)
        # A page may read a folder that a hand chose. Here none does, so Firefox is told to let it be read without.
        settings = {"marionette.port": 0, "javascript.options.wasm": has_wasm, "intl.accept_languages": language, "browser.download.folderList": 2,
                    "dom.filesystem.pathcheck.disabled": True, "browser.download.alwaysOpenPanel": False,
                    "browser.download.dir": str(downloads), "browser.download.useDownloadDir": True,
                    "browser.shell.checkDefaultBrowser": False, "datareporting.policy.dataSubmissionEnabled": False,
                    "app.update.auto": False, "browser.startup.homepage_override.mstone": "ignore"}
        lines = [f"user_pref({json.dumps(name)}, {json.dumps(value)});\n" for name, value in settings.items()]
        (folder / "user.js").write_text("".join(lines))
        words = [program(FIREFOX), "--headless", "--no-remote", "--marionette", "--profile", str(folder)]
        self.process = subprocess.Popen(words, stdout=subprocess.DEVNULL, stderr=subprocess.DEVNULL)
        try:
            self.socket = until(lambda: self.connected(folder / "MarionetteActivePort"), "Firefox", START_SECONDS)
            self.number, self.rest = 0, b""
            self.read()
            self.command("NewSession", {"capabilities": {"alwaysMatch": {}}})
            self.command("SetTimeouts", TIMEOUTS)
        except Exception:
            self.process.kill()
            raise

    @staticmethod
    def connected(chosen):
        """A connection to the port that Firefox chose, which stands in a file of its profile."""
        try:
            port = int(chosen.read_text())
            return socket.create_connection(("127.0.0.1", port), timeout=START_SECONDS + ANSWER_SECONDS)
        except (OSError, ValueError):
            return None

    def read(self):
        """The next message."""
        while b":" not in self.rest:
            self.more()
        length, _, self.rest = self.rest.partition(b":")
        while len(self.rest) < int(length):
            self.more()
        text, self.rest = self.rest[:int(length)], self.rest[int(length):]
        return json.loads(text)

    def more(self):
        piece = self.socket.recv(1 << 16)
        if not piece:
            raise BrowserError("Firefox ended")
        self.rest += piece

    def command(self, name, words):
        self.number += 1
        text = json.dumps([0, self.number, f"WebDriver:{name}", words]).encode()
        self.socket.sendall(b"%d:" % len(text) + text)
        _, _, error, told = self.read()
        if error:
            raise BrowserError(error["message"])
        return told["value"] if isinstance(told, dict) and "value" in told else told

    def take(self, script, words):
        """Has the page have files of the disk, by a script with Firefox's own rights, as `given`."""
        script = f"""return (async () => {{
  const given = await (async () => {{ {script} }})();
  window.wrappedJSObject.given = Components.utils.cloneInto(given, window, {{wrapReflectors: true}});
}})();"""
        self.command("ExecuteScript", {"script": script, "args": [words], "sandbox": "system"})

    def messages(self):
        """What the console was told of pages, and not by the browser of itself."""
        script = """
const all = Components.classes['@mozilla.org/consoleservice;1'].getService(Components.interfaces.nsIConsoleService);
return all.getMessageArray().filter(each => each instanceof Components.interfaces.nsIScriptError)
  .filter(each => /^(file|https?|blob):/.test(each.sourceName)).map(each => each.errorMessage);
"""
        return self.command("ExecuteScript", {"script": script, "args": [], "sandbox": "system"})

    def give_folder(self, selector, path):
        """Marionette types no folder into an input, so a script puts in what Firefox finds in the folder."""
        self.take("return [...await new Directory(arguments[0]).getFiles(true)];", str(path))
        self.ask("""const chosen = new DataTransfer(), input = document.querySelector(arguments[0]);
for (const each of given) chosen.items.add(each);
input.files = chosen.files;
input.dispatchEvent(new Event('change'));""", selector)

    def drop(self, selector, *paths):
        """Marionette drops nothing, and Firefox without windows has no dragging. So the event is a script's; the files
        and folders are those of the disk."""
        self.take("""const given = [];
for (const path of arguments[0]) {
  const place = Components.classes['@mozilla.org/file/local;1'].createInstance(Components.interfaces.nsIFile);
  place.initWithPath(path);
  given.push(await File.createFromNsIFile(place, {existenceCheck: false}));
}
return given;""", [str(path) for path in paths])
        self.ask("""const dropped = new DataTransfer();
for (const each of given) dropped.items.add(each);
const how = {dataTransfer: dropped, bubbles: true, cancelable: true};
document.querySelector(arguments[0]).dispatchEvent(new DragEvent('drop', how));""", selector)

    def close(self):
        self.socket.close()
        self.process.terminate()
        self.process.wait()


ENGINES = {"chromium": (Chromium, [CHROMIUM, "chromedriver"]), "firefox": (Firefox, [FIREFOX])}
