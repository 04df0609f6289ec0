"""A headless Chromium, which is told what to do over a pipe: by its DevTools protocol, a message of JSON and a byte 0 each."""

import base64
import json
import os
import select
import shutil
import subprocess
import tempfile
import time

WORDS = (
    "chromium --headless --no-sandbox --disable-gpu --disable-dev-shm-usage --disable-background-networking --no-first-run "
    "--hide-scrollbars --remote-debugging-pipe"
).split()

# The seconds that an answer may take. It takes one on a machine with nothing else to do.
SECONDS = 300

# What a browser says by itself of a page that is not well.
COMPLAINTS = ("Runtime.exceptionThrown", "Runtime.consoleAPICalled", "Log.entryAdded")

# What holds once a page is there. A field with `autofocus` gets the keys after the page is complete.
READY = "location.href !== 'about:blank' && document.readyState === 'complete' && document.activeElement !== document.body"

# The number of each key, and what it types.
KEYS = {"Tab": (9, None), "Enter": (13, "\r"), " ": (32, " ")}


class NoAnswer(Exception):
    """The browser says nothing."""


class Browser:
    """Chromium, with a folder of its own, until `close`."""

    def __init__(self):
        self.folder = tempfile.mkdtemp(prefix="browser-")
        commands, self.commands = os.pipe()
        self.answers, answers = os.pipe()
        self.number, self.rest, self.events = 0, b"", []
        # Chromium reads from its file 3 and writes to its file 4
        line = f'exec "$@" 3<&{commands} 4>&{answers}'
        self.process = subprocess.Popen(
            ["bash", "-c", line, "bash", *WORDS, f"--user-data-dir={self.folder}"],
            pass_fds=(commands, answers),
            stdin=subprocess.DEVNULL,
            stdout=subprocess.DEVNULL,
            stderr=subprocess.DEVNULL,
        )
        os.close(commands)
        os.close(answers)

    def message(self, until):
        """The next message."""
        while b"\0" not in self.rest:
            ready = select.select([self.answers], [], [], max(0, until - time.monotonic()))[0]
            part = os.read(self.answers, 1 << 20) if ready else b""
            if not part:
                raise NoAnswer
            self.rest += part
        message, _, self.rest = self.rest.partition(b"\0")
        return json.loads(message)

    def ask(self, method, session=None, **words):
        """What the browser answers to a command. What else it tells is kept in `events`."""
        self.number += 1
        command = {"id": self.number, "method": method, "params": words, **({"sessionId": session} if session else {})}
        text = json.dumps(command).encode() + b"\0"
        until = time.monotonic() + SECONDS
        try:
            while text:
                text = text[os.write(self.commands, text) :]
        except BrokenPipeError as error:
            raise NoAnswer from error
        while True:
            message = self.message(until)
            if message.get("id") == self.number:
                if "error" in message:
                    raise NoAnswer(f"{method}: {message['error']}")
                return message["result"]
            self.events.append(message)

    def close(self):
        self.process.kill()
        self.process.wait()
        os.close(self.commands)
        os.close(self.answers)
        shutil.rmtree(self.folder, ignore_errors=True)


class Page:
    """A page in a browser, so many pixels wide."""

    def __init__(self, browser, address, width, is_dark=False):
        self.browser = browser
        self.target = browser.ask("Target.createTarget", url="about:blank")["targetId"]
        self.session = browser.ask("Target.attachToTarget", targetId=self.target, flatten=True)["sessionId"]
        for domain in ("Page", "Runtime", "Log", "Network"):
            self.ask(f"{domain}.enable")
        self.ask("Emulation.setDeviceMetricsOverride", width=width, height=900, deviceScaleFactor=1, mobile=width < 500)
        scheme = {"name": "prefers-color-scheme", "value": "dark" if is_dark else "light"}
        self.ask("Emulation.setEmulatedMedia", features=[scheme])
        self.ask("Page.navigate", url=address)
        self.value(f"new Promise((then) => {{ const wait = () => ({READY}) ? then() : setTimeout(wait, 20); wait(); }})")

    def ask(self, method, **words):
        return self.browser.ask(method, self.session, **words)

    def value(self, text):
        """The value of an expression of JavaScript in the page."""
        answer = self.ask("Runtime.evaluate", expression=text, awaitPromise=True, returnByValue=True)
        if "exceptionDetails" in answer:
            raise NoAnswer(answer["exceptionDetails"]["text"])
        return answer["result"].get("value")

    def press(self, key):
        number, text = KEYS[key]
        words = {"key": key, "windowsVirtualKeyCode": number}
        self.ask("Input.dispatchKeyEvent", type="keyDown", **words, **({"text": text} if text else {}))
        self.ask("Input.dispatchKeyEvent", type="keyUp", **words)

    def type(self, text):
        """Types a text in the place of what is in the field that has the keys."""
        self.value("document.activeElement.select()")
        self.ask("Input.insertText", text=text)

    def picture(self, path):
        """Writes all of the page as an image."""
        size = self.ask("Page.getLayoutMetrics")["cssContentSize"]
        clip = {"x": 0, "y": 0, "width": size["width"], "height": size["height"], "scale": 1}
        data = self.ask("Page.captureScreenshot", captureBeyondViewport=True, clip=clip)["data"]
        with open(path, "wb") as file:
            file.write(base64.b64decode(data))
