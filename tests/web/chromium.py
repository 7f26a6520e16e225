"""A headless Chromium over its protocol for developers, by a pipe: no port is opened, and nothing but Python's own library is needed. browser.py uses it."""
import base64
import json
import os
import pathlib
import queue
import signal
import subprocess
import tempfile
import threading
import time

# Nothing but this machine is there for it.
WORDS = (
    "--headless", "--no-sandbox", "--disable-gpu", "--disable-dev-shm-usage", "--no-first-run", "--disable-background-networking", "--disable-component-update",
    "--disable-default-apps", "--disable-sync", "--mute-audio", "--host-resolver-rules=MAP * ~NOTFOUND, EXCLUDE 127.0.0.1",
    "--remote-debugging-pipe", "about:blank")


class Refused(Exception):
    """The browser answers a command by an error."""


class Chromium:
    """The process, and one question at a time. Each waits until its own limit, or that of the whole run."""

    def __init__(self, command, ends):
        self.ends = ends
        self.number = 0
        self.told = queue.Queue()
        self.events = []
        self.folder = tempfile.TemporaryDirectory(prefix="mulkavesh-chromium-", ignore_cleanup_errors=True)
        its_input, self.to_it = os.pipe()
        self.from_it, its_output = os.pipe()
        words = ["bash", "-c", f'exec "$@" 3<&{its_input} 4>&{its_output}', "bash", command, f"--user-data-dir={self.folder.name}", *WORDS]
        self.process = subprocess.Popen(
            words, pass_fds=(its_input, its_output), stdin=subprocess.DEVNULL, stdout=subprocess.DEVNULL, stderr=subprocess.DEVNULL, start_new_session=True)
        os.close(its_input)
        os.close(its_output)
        threading.Thread(target=self.listen, daemon=True).start()

    def listen(self):
        """Puts what comes through the pipe into the queue, message by message."""
        rest = b""
        while part := os.read(self.from_it, 1 << 20):
            *whole, rest = (rest + part).split(b"\0")
            for message in whole:
                self.told.put(json.loads(message))
        self.told.put(None)

    def hear(self, until):
        """The next message, or None where none comes in time."""
        try:
            message = self.told.get(timeout=max(0.001, min(until, self.ends) - time.monotonic()))
        except queue.Empty:
            return None
        if message is None:
            raise Refused("the browser has ended")
        if "method" in message:
            self.events.append(message)
        return message

    def call(self, method, session=None, seconds=30, **words):
        self.number += 1
        message = {"id": self.number, "method": method, "params": words, **({"sessionId": session} if session else {})}
        rest = json.dumps(message).encode() + b"\0"
        try:
            while rest:
                rest = rest[os.write(self.to_it, rest):]
        except BrokenPipeError as error:
            raise Refused("the browser has ended") from error
        until = time.monotonic() + seconds
        while answer := self.hear(until):
            if answer.get("id") == self.number:
                if "error" in answer:
                    raise Refused(f"{method}: {answer['error']['message']}")
                return answer["result"]
        raise Refused(f"{method}: no answer in {seconds} s, or the whole run has taken too long")

    def event(self, method, seconds=10):
        """The first event of this name that wasn't handed out yet."""
        until = time.monotonic() + seconds
        while True:
            for at, message in enumerate(self.events):
                if message["method"] == method:
                    return self.events.pop(at)
            if self.hear(until) is None:
                raise Refused(f"no {method} in {seconds} s")

    def end(self):
        """Ends this browser with the processes that it made, which stand in a session of their own."""
        try:
            os.killpg(self.process.pid, signal.SIGKILL)
        except ProcessLookupError:
            pass
        self.process.wait()
        self.folder.cleanup()


class Page:
    """One page of the browser, with the workers that it begins."""

    def __init__(self, chromium, width=1280, height=900):
        self.chromium = chromium
        target = chromium.call("Target.createTarget", url="about:blank")["targetId"]
        self.session = chromium.call("Target.attachToTarget", targetId=target, flatten=True)["sessionId"]
        for domain in ("Page", "Runtime", "Network", "Log", "DOM", "Accessibility"):
            self.call(f"{domain}.enable")
        self.call("Target.setAutoAttach", autoAttach=True, waitForDebuggerOnStart=True, flatten=True)
        self.size(width, height)

    def call(self, method, **words):
        return self.chromium.call(method, self.session, **words)

    def size(self, width, height, dark=False):
        self.call("Emulation.setDeviceMetricsOverride", width=width, height=height, deviceScaleFactor=1, mobile=False)
        self.call("Emulation.setEmulatedMedia", features=[{"name": "prefers-color-scheme", "value": "dark" if dark else "light"}])

    def let_workers_go(self):
        """Each worker waits until what it asks for is told too; answers the sessions of those that began."""
        begun = [it for it in self.chromium.events if it["method"] == "Target.attachedToTarget" and it.get("sessionId") == self.session]
        for message in begun:
            self.chromium.events.remove(message)
            session = message["params"]["sessionId"]
            try:
                for method in ("Network.enable", "Runtime.enable", "Log.enable", "Runtime.runIfWaitingForDebugger"):
                    self.chromium.call(method, session)
            except Refused:
                # It was ended before it began.
                continue
            self.worker = session
        return begun

    def value(self, expression, session=None):
        """What an expression of JavaScript comes to."""
        answer = self.chromium.call("Runtime.evaluate", session or self.session, expression=expression, awaitPromise=True, returnByValue=True,
            allowUnsafeEvalBlockedByCSP=False)
        if "exceptionDetails" in answer:
            raise Refused(answer["exceptionDetails"].get("exception", {}).get("description", "an exception"))
        return answer["result"].get("value")

    def wait(self, expression, seconds=60):
        """Waits until an expression holds; answers how long that took."""
        begun = time.monotonic()
        while time.monotonic() < begun + seconds:
            self.let_workers_go()
            if self.value(f"!!({expression})"):
                return time.monotonic() - begun
            time.sleep(0.01)
        raise Refused(f"in {seconds} s it never came that {expression}")

    def open(self, address):
        self.call("Page.navigate", url=address)
        # The first page of a browser takes long where the machine has much else to do.
        self.wait("document.readyState === 'complete' && !document.getElementById('unready')", seconds=60)

    def middle(self, selector):
        """The middle of an element, brought into sight."""
        return self.value(f"""(() => {{ const it = document.querySelector({json.dumps(selector)}); it.scrollIntoView({{ block: 'center' }});
            const box = it.getBoundingClientRect(); return [box.x + box.width / 2, box.y + box.height / 2]; }})()""")

    def click(self, selector):
        x, y = self.middle(selector)
        for kind in ("mousePressed", "mouseReleased"):
            self.call("Input.dispatchMouseEvent", type=kind, x=x, y=y, button="left", clickCount=1)

    def drop(self, path):
        """A drop of a file, as a user makes it."""
        x, y = self.middle("#drop")
        data = {"items": [], "files": [str(path)], "dragOperationsMask": 1}
        for kind in ("dragEnter", "dragOver", "drop"):
            self.call("Input.dispatchDragEvent", type=kind, x=x, y=y, data=data)

    def key(self, key, code=None, number=0, text=None, shift=False):
        words = {"key": key, "code": code or key, "windowsVirtualKeyCode": number, "modifiers": 8 if shift else 0}
        self.call("Input.dispatchKeyEvent", type="keyDown", **words, **({"text": text} if text else {}))
        self.call("Input.dispatchKeyEvent", type="keyUp", **words)

    def screen(self, path, whole=True):
        data = self.call("Page.captureScreenshot", format="png", captureBeyondViewport=whole)["data"]
        pathlib.Path(path).write_bytes(base64.b64decode(data))
