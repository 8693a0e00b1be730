"""Windows of a headless Chromium, driven through its debugging pipe. It needs Python and Debian's chromium alone."""
import base64
import json
import os
import subprocess
import threading
import time


class Browser:
    """One Chromium; each window is a tab of its own, with its own session storage."""

    def __init__(self, folder):
        to_read, self.to_write = os.pipe()
        self.to_read, to_write = os.pipe()

        def pipes():
            os.dup2(to_read, 3)
            os.dup2(to_write, 4)

        # Chromium reads descriptor 3 and writes descriptor 4; both may be in use here already.
        command = ["chromium", "--headless", "--no-sandbox", "--disable-gpu", "--hide-scrollbars", "--remote-debugging-pipe",
                   "--no-first-run", "--disable-dev-shm-usage", f"--user-data-dir={folder}", "about:blank"]
        self.process = subprocess.Popen(command, pass_fds=(3, 4), preexec_fn=pipes, stdout=subprocess.DEVNULL, stderr=subprocess.DEVNULL)
        os.close(to_read)
        os.close(to_write)
        self.number = 0
        self.answers = {}
        self.events = []
        self.news = threading.Condition()
        threading.Thread(target=self.listen, daemon=True).start()

    def listen(self):
        rest = b""
        while piece := os.read(self.to_read, 1 << 16):
            rest += piece
            *messages, rest = rest.split(b"\0")
            with self.news:
                for message in map(json.loads, messages):
                    if "id" in message:
                        self.answers[message["id"]] = message
                    else:
                        self.events.append(message)
                self.news.notify_all()

    def ask(self, method, session=None, **parameters):
        with self.news:
            self.number += 1
            number = self.number
        message = {"id": number, "method": method, "params": parameters}
        if session:
            message["sessionId"] = session
        os.write(self.to_write, json.dumps(message).encode() + b"\0")
        with self.news:
            if not self.news.wait_for(lambda: number in self.answers, timeout=60):
                raise TimeoutError(method)
            answer = self.answers.pop(number)
        if "error" in answer:
            raise RuntimeError(f"{method}: {answer['error']}")
        return answer["result"]

    def events_of(self, method, session):
        """What came so far of such events of a window."""
        with self.news:
            return [event["params"] for event in self.events if event.get("sessionId") == session and event["method"] == method]

    def close(self):
        self.process.kill()
        self.process.wait()


class Window:
    """One window, as of a browser of its own: it shares no connection with others."""

    def __init__(self, browser, address, width=1024, height=900):
        self.browser = browser
        own = browser.ask("Target.createBrowserContext")["browserContextId"]
        target = browser.ask("Target.createTarget", url="about:blank", browserContextId=own)["targetId"]
        self.session = browser.ask("Target.attachToTarget", targetId=target, flatten=True)["sessionId"]
        for domain in ["Page", "Runtime", "Log"]:
            self.ask(domain + ".enable")
        self.ask("Network.enable", maxPostDataSize=65536)
        self.size(width, height)
        self.go(address)

    def ask(self, method, **parameters):
        return self.browser.ask(method, self.session, **parameters)

    def size(self, width, height):
        self.ask("Emulation.setDeviceMetricsOverride", width=width, height=height, deviceScaleFactor=1, mobile=width < 600)

    def go(self, address):
        self.ask("Page.navigate", url=address)

    def value(self, expression):
        """What the expression gives in the page."""
        answer = self.ask("Runtime.evaluate", expression=expression, returnByValue=True, awaitPromise=True)
        if "exceptionDetails" in answer:
            raise RuntimeError(f"{expression}: {answer['exceptionDetails']}")
        return answer["result"].get("value")

    def wait(self, expression, seconds=20):
        """Waits until the expression holds in the page."""
        end = time.monotonic() + seconds
        while time.monotonic() < end:
            if self.value(f"Boolean({expression})"):
                return
            time.sleep(0.03)
        raise TimeoutError(f"{expression}\n{self.value('document.body.innerText')}")

    def click(self, selector):
        """A click of the mouse in the middle of what is found, once it may be clicked."""
        found = f"document.querySelector({json.dumps(selector)})"
        self.wait(f"{found} && !{found}.disabled")
        spot = self.value(f"(() => {{ const node = {found}; node.scrollIntoView({{ block: 'center' }}); const r = node.getBoundingClientRect();"
                          " return [r.left + r.width / 2, r.top + r.height / 2]; })()")
        for kind in ["mousePressed", "mouseReleased"]:
            self.ask("Input.dispatchMouseEvent", type=kind, x=spot[0], y=spot[1], button="left", clickCount=1)

    def type(self, selector, text):
        """Text in place of what stands in a field, as it is typed."""
        self.value(f"(() => {{ const node = document.querySelector({json.dumps(selector)}); node.focus(); node.select(); }})()")
        self.ask("Input.insertText", text=text)

    def choose_file(self, selector, path):
        found = self.ask("Runtime.evaluate", expression=f"document.querySelector({json.dumps(selector)})")["result"]["objectId"]
        self.ask("DOM.setFileInputFiles", files=[path], objectId=found)

    def key(self, name, code, text=""):
        for kind in ["keyDown", "keyUp"]:
            self.ask("Input.dispatchKeyEvent", type=kind, key=name, code=name, windowsVirtualKeyCode=code, text=text if kind == "keyDown" else "")

    def picture(self, path):
        # A window behind others may never be drawn.
        self.ask("Page.bringToFront")
        image = self.ask("Page.captureScreenshot", format="png", captureBeyondViewport=True)
        with open(path, "wb") as file:
            file.write(base64.b64decode(image["data"]))

    def complaints(self):
        """What the console has said in this window."""
        kinds = ["Runtime.consoleAPICalled", "Runtime.exceptionThrown", "Log.entryAdded"]
        return [event for kind in kinds for event in self.browser.events_of(kind, self.session)]
