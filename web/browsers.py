"""Drives browsers without a screen, by what stands in them for that: Chromium by its DevTools protocol over two pipes,
Firefox by Marionette over a socket. Both open one page, run scripts in it, press keys, and take pictures of it.

    with Chromium() as browser:
        browser.open("file:///..")
        browser.evaluate("await something()")

What goes wrong in the browser, or takes more than LIMIT seconds, raises Failed."""

import base64
import json
import os
import shutil
import signal
import socket
import subprocess
import tempfile
import time

LIMIT = 120  # seconds for one answer
KEYS = {"Enter": 13, "Escape": 27, "F8": 119}  # as the DevTools protocol names keys, and as WebDriver does
POINTS = {"Enter": "\ue007", "Escape": "\ue00c", "F8": "\ue038", "Control": "\ue009"}
MODIFIERS = {"Control": 2}
EDITS = {"a": "selectAll", "z": "undo"}  # what Chromium is to do where Control is held
EXPRESSION = "(async () => (%s))()"


class Failed(Exception):
    """What a browser couldn't do."""


class Browser:
    """A browser that is running, with a folder of its own."""

    def __init__(self):
        self.folder = tempfile.mkdtemp(prefix="cryptyc-browser-")
        self.running = None
        self.asked = 0

    def __enter__(self):
        try:
            self.start()
        except BaseException:
            self.end()
            raise
        return self

    def __exit__(self, *_):
        self.end()

    def launch(self, words, **how):
        quiet = {"stdout": subprocess.DEVNULL, "stderr": subprocess.DEVNULL, "stdin": subprocess.DEVNULL}
        own = {**os.environ, "HOME": self.folder, "MOZ_HEADLESS": "1"}
        self.running = subprocess.Popen(words, **quiet, env=own, start_new_session=True, **how)

    def end(self):
        if self.running:
            try:
                os.killpg(self.running.pid, signal.SIGKILL)
            except ProcessLookupError:
                pass
            self.running.wait()
        for _ in range(20):  # what it started may still be writing
            shutil.rmtree(self.folder, ignore_errors=True)
            if not os.path.exists(self.folder):
                break
            time.sleep(0.1)

    def until(self, expression, seconds=20):
        """Waits until an expression holds in the page."""
        end = time.time() + seconds
        while not self.evaluate(f"Boolean({expression})"):
            if time.time() > end:
                raise Failed(f"not so after {seconds} s: {expression}")
            time.sleep(0.03)


class Chromium(Browser):
    name = "Chromium"

    @staticmethod
    def program():
        return shutil.which("chromium") or shutil.which("chromium-browser") or shutil.which("google-chrome")

    def start(self):
        theirs_in, self.to = os.pipe()
        self.out, theirs_out = os.pipe()
        # a page of our own from the disk, so it needs no sandbox, which root and many containers can't have
        words = ["--headless=new", "--no-sandbox", "--disable-gpu", "--no-first-run", "--disable-background-networking",
                 "--disable-dev-shm-usage", "--hide-scrollbars", f"--user-data-dir={self.folder}/profile",
                 "--remote-debugging-pipe", "about:blank"]
        shell = ["sh", "-c", f'exec "$0" "$@" 3<&{theirs_in} 4>&{theirs_out}', self.program(), *words]
        self.launch(shell, pass_fds=(theirs_in, theirs_out))
        os.close(theirs_in)
        os.close(theirs_out)
        self.rest, self.session, self.events = b"", None, []
        page = next(it for it in self.ask("Target.getTargets")["targetInfos"] if it["type"] == "page")
        self.session = self.ask("Target.attachToTarget", targetId=page["targetId"], flatten=True)["sessionId"]
        for domain in ("Page", "Runtime", "Network", "Log"):
            self.ask(f"{domain}.enable")

    def end(self):
        for pipe in ("to", "out"):
            if hasattr(self, pipe):
                os.close(getattr(self, pipe))
                delattr(self, pipe)
        super().end()

    def take(self):
        end = time.time() + LIMIT
        while b"\0" not in self.rest:
            if time.time() > end:
                raise Failed(f"no answer after {LIMIT} s")
            part = os.read(self.out, 1 << 20)
            if not part:
                raise Failed("the browser has ended")
            self.rest += part
        message, _, self.rest = self.rest.partition(b"\0")
        return json.loads(message)

    def ask(self, method, **params):
        self.asked += 1
        session = {"sessionId": self.session} if self.session else {}
        message = {"id": self.asked, "method": method, "params": params, **session}
        data = json.dumps(message).encode() + b"\0"
        while data:
            data = data[os.write(self.to, data):]
        while (answer := self.take()).get("id") != self.asked:
            self.events.append(answer)
        if "error" in answer:
            raise Failed(f"{method}: {answer['error']['message']}")
        return answer["result"]

    def open(self, address):
        """Loads a page anew, also where only the part behind its # differs."""
        self.ask("Page.navigate", url="about:blank")
        self.ask("Page.navigate", url=address)
        self.until("document.readyState === 'complete' && location.href !== 'about:blank'")

    def evaluate(self, expression):
        found = self.ask("Runtime.evaluate", expression=EXPRESSION % expression, awaitPromise=True, returnByValue=True)
        if "exceptionDetails" in found:
            details = found["exceptionDetails"]
            raise Failed(details.get("exception", {}).get("description") or details["text"])
        return found["result"].get("value")

    def type(self, text):
        self.ask("Input.insertText", text=text)

    def press(self, key, *held):
        """Presses a key, by its name or its letter, while others are held."""
        code = KEYS.get(key) or ord(key.upper())
        press = {"key": key, "windowsVirtualKeyCode": code, "modifiers": sum(MODIFIERS[it] for it in held)}
        if held == ("Control",) and key in EDITS:
            press["commands"] = [EDITS[key]]
        text = {"text": "\r"} if key == "Enter" and not held else {}
        self.ask("Input.dispatchKeyEvent", type="keyDown" if text else "rawKeyDown", **press, **text)
        self.ask("Input.dispatchKeyEvent", type="keyUp", **press)

    def resize(self, width, height):
        """Makes the window so large; whether it can be."""
        self.ask("Emulation.setDeviceMetricsOverride", width=width, height=height, deviceScaleFactor=1, mobile=False)
        return True

    def scheme(self, name):
        """Makes the page light or dark; whether it can be."""
        self.ask("Emulation.setEmulatedMedia", features=[{"name": "prefers-color-scheme", "value": name}])
        return True

    def picture(self, path):
        with open(path, "wb") as file:
            file.write(base64.b64decode(self.ask("Page.captureScreenshot", format="png")["data"]))

    def requests(self):
        """The addresses that the page has asked for, and what it has complained of."""
        asked = [it["params"]["request"]["url"] for it in self.events if it.get("method") == "Network.requestWillBeSent"]
        said = [it["params"]["entry"]["text"] for it in self.events if it.get("method") == "Log.entryAdded"]
        return asked, said


class Firefox(Browser):
    name = "Firefox"

    @staticmethod
    def program():
        return shutil.which("firefox") or shutil.which("firefox-esr")

    def start(self):
        with socket.socket() as free:
            free.bind(("127.0.0.1", 0))
            port = free.getsockname()[1]
        profile = f"{self.folder}/profile"
        os.mkdir(profile)
        with open(f"{profile}/user.js", "w", encoding="utf-8") as file:
            for name, value in [("marionette.port", port), ("browser.shell.checkDefaultBrowser", False),
                                ("datareporting.policy.dataSubmissionEnabled", False), ("app.update.enabled", False),
                                ("browser.startup.page", 0), ("dom.ipc.processCount", 1)]:
                file.write(f"user_pref({json.dumps(name)}, {json.dumps(value)});\n")
        self.launch([self.program(), "--headless", "--no-remote", "--marionette", "--profile", profile])
        self.connect(port)
        self.ask("WebDriver:NewSession", capabilities={})
        self.ask("WebDriver:SetTimeouts", script=1000 * LIMIT, pageLoad=1000 * LIMIT)

    def connect(self, port):
        end = time.time() + LIMIT
        while True:
            try:
                self.link = socket.create_connection(("127.0.0.1", port), timeout=LIMIT)
                break
            except OSError as error:
                if time.time() > end or self.running.poll() is not None:
                    raise Failed("Firefox doesn't start") from error
                time.sleep(0.1)
        self.rest = b""
        self.take()  # its greeting

    def end(self):
        if hasattr(self, "link"):
            self.link.close()
        super().end()

    def take(self):
        while b":" not in self.rest:
            self.more()
        size, _, self.rest = self.rest.partition(b":")
        while len(self.rest) < int(size):
            self.more()
        message, self.rest = self.rest[:int(size)], self.rest[int(size):]
        return json.loads(message)

    def more(self):
        try:
            part = self.link.recv(1 << 20)
        except OSError as error:
            raise Failed(f"no answer: {error}") from error
        if not part:
            raise Failed("the browser has ended")
        self.rest += part

    def ask(self, method, **params):
        self.asked += 1
        data = json.dumps([0, self.asked, method, params]).encode()
        self.link.sendall(str(len(data)).encode() + b":" + data)
        _, number, error, result = self.take()
        if error or number != self.asked:
            raise Failed(f"{method}: {(error or {}).get('message')}")
        return result

    def open(self, address):
        """Loads a page anew, also where only the part behind its # differs."""
        self.ask("WebDriver:Navigate", url="about:blank")
        self.ask("WebDriver:Navigate", url=address)

    def evaluate(self, expression):
        script = ("const done = arguments[0]; (async () => (%s))().then((it) => done([true, it === undefined ? null : it]),"
                  " (error) => done([false, String(error)]));")
        good, value = self.ask("WebDriver:ExecuteAsyncScript", script=script % expression, args=[], sandbox=None)["value"]
        if not good:
            raise Failed(value)
        return value

    def type(self, text):
        element = self.ask("WebDriver:GetActiveElement")["value"]
        self.ask("WebDriver:ElementSendKeys", id=next(iter(element.values())), text=text)

    def press(self, key, *held):
        """Presses a key, by its name or its letter, while others are held."""
        points = [POINTS[it] for it in held] + [POINTS.get(key, key)]
        actions = [{"type": "keyDown", "value": it} for it in points]
        actions += [{"type": "keyUp", "value": it} for it in reversed(points)]
        self.ask("WebDriver:PerformActions", actions=[{"type": "key", "id": "keyboard", "actions": actions}])

    def resize(self, width, height):
        """Makes the window so large; whether it can be."""
        self.ask("WebDriver:SetWindowRect", width=width, height=height)
        return self.evaluate("innerWidth") == width

    def scheme(self, name):
        """Whether the page is light or dark as asked for: it can't be made to be."""
        return self.evaluate(f"matchMedia('(prefers-color-scheme: {name})').matches")

    def requests(self):
        """Nothing: Marionette doesn't tell."""
        return [], []

    def picture(self, path):
        with open(path, "wb") as file:
            file.write(base64.b64decode(self.ask("WebDriver:TakeScreenshot", full=False)["value"]))


BROWSERS = (Chromium, Firefox)
