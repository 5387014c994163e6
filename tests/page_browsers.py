"""Headless Chromium and Firefox, driven with Python's standard library: Chromium by its debugging pipe, Firefox by its
Marionette port. Both open a page, press, write, choose files, drop them, and take pictures."""
import base64
import json
import os
import shutil
import socket
import subprocess
import tempfile
import time

KEYS = {"Tab": ("\t", 9, "\ue004"), "Enter": ("\r", 13, "\ue007"), " ": (" ", 32, " "),
        "ArrowRight": ("", 39, "\ue014"), "ArrowLeft": ("", 37, "\ue012"), "Escape": ("", 27, "\ue00c")}
PLACE = """const box = document.querySelector(%s); box.scrollIntoView({block: 'center'});
const at = box.getBoundingClientRect(); return [at.x + at.width / 2, at.y + at.height / 2]"""


class Browser:
    """What both have in common: scripts are the body of an async function, and their answer is JSON."""

    def __init__(self):
        self.folder = tempfile.mkdtemp()
        self.process = None

    def wait(self, condition, seconds=60):
        """Waits until a script's expression is true, and gives its value."""
        end = time.time() + seconds
        while time.time() < end:
            value = self.run(f"return {condition}")
            if value:
                return value
            time.sleep(0.05)
        raise AssertionError(f"{self.name}: waited {seconds} s for {condition}")

    def write(self, selector, text):
        """Replaces what stands in a field, as a person who selects all of it and writes."""
        self.run(f"const field = document.querySelector({json.dumps(selector)}); field.focus(); field.select()")
        self.insert(text)

    def choose(self, selector, value):
        """Chooses of a list."""
        self.run(f"const list = document.querySelector({json.dumps(selector)}); list.value = {json.dumps(value)}; "
                 "list.dispatchEvent(new Event('change', {bubbles: true}))")

    def downloaded(self, name, seconds=30):
        """What a file of that name holds, once it is downloaded."""
        path = os.path.join(self.folder, name)
        end = time.time() + seconds
        while not os.path.exists(path) or os.path.exists(path + ".part"):
            assert time.time() < end, f"{self.name}: {name} was not downloaded"
            time.sleep(0.1)
        with open(path) as file:
            return file.read()

    def close(self):
        self.process.terminate()
        try:
            self.process.wait(10)
        except subprocess.TimeoutExpired:
            self.process.kill()
            self.process.wait()
        shutil.rmtree(self.folder, ignore_errors=True)


class Chromium(Browser):
    name = "chromium"

    def __init__(self, program):
        super().__init__()
        here_out, there_in = os.pipe(), os.pipe()

        def pipes():
            os.dup2(here_out[0], 203)
            os.dup2(there_in[1], 204)
            os.dup2(203, 3)
            os.dup2(204, 4)

        self.process = subprocess.Popen(
            [program, "--headless=new", "--no-sandbox", "--disable-gpu", "--remote-debugging-pipe", "--no-first-run",
             "--disable-dev-shm-usage", f"--user-data-dir={self.folder}", "about:blank"],
            stdout=subprocess.DEVNULL, stderr=subprocess.DEVNULL, stdin=subprocess.DEVNULL, preexec_fn=pipes,
            close_fds=False)
        os.close(here_out[0])
        os.close(there_in[1])
        self.out, self.input = os.fdopen(here_out[1], "wb", 0), os.fdopen(there_in[0], "rb")
        self.rest, self.last, self.session, self.errors = b"", 0, None, []
        pages = [each for each in self.call("Target.getTargets")["targetInfos"] if each["type"] == "page"]
        target = pages[0]["targetId"] if pages else self.call("Target.createTarget", url="about:blank")["targetId"]
        self.session = self.call("Target.attachToTarget", targetId=target, flatten=True)["sessionId"]
        self.call("Page.enable")
        self.call("Runtime.enable")
        self.call("Emulation.setScrollbarsHidden", hidden=True)
        self.version = self.call("Browser.getVersion")["product"]

    def call(self, method, **params):
        self.last += 1
        message = {"id": self.last, "method": method, "params": params}
        if self.session:
            message["sessionId"] = self.session
        self.out.write(json.dumps(message).encode() + b"\0")
        while True:
            answer = self.receive()
            if answer.get("method") == "Runtime.exceptionThrown":
                self.errors.append(json.dumps(answer["params"]["exceptionDetails"])[:600])
            if answer.get("id") == self.last:
                assert "error" not in answer, f"{method}: {answer['error']}"
                return answer["result"]

    def receive(self):
        while b"\0" not in self.rest:
            more = self.input.read1(1 << 20)
            assert more, "chromium ended"
            self.rest += more
        message, _, self.rest = self.rest.partition(b"\0")
        return json.loads(message)

    def open(self, address):
        self.call("Page.navigate", url=address)
        self.wait(f"location.href === {json.dumps(address)} && document.readyState === 'complete'")

    def run(self, script):
        answer = self.call("Runtime.evaluate", expression=f"(async () => {{ {script} }})()", awaitPromise=True,
                           returnByValue=True)
        assert "exceptionDetails" not in answer, answer["exceptionDetails"]["exception"].get("description")
        return answer["result"].get("value")

    def click(self, selector):
        x, y = self.run(PLACE % json.dumps(selector))
        for kind in ("mousePressed", "mouseReleased"):
            self.call("Input.dispatchMouseEvent", type=kind, x=x, y=y, button="left", clickCount=1)

    def insert(self, text):
        self.call("Input.insertText", text=text)

    def key(self, name):
        text, code, _ = KEYS[name]
        about = {"key": name, "code": "Space" if name == " " else name, "windowsVirtualKeyCode": code}
        self.call("Input.dispatchKeyEvent", type="keyDown", text=text, **about)
        self.call("Input.dispatchKeyEvent", type="keyUp", **about)

    def file(self, selector, path):
        root = self.call("DOM.getDocument")["root"]["nodeId"]
        node = self.call("DOM.querySelector", nodeId=root, selector=selector)["nodeId"]
        self.call("DOM.setFileInputFiles", nodeId=node, files=[str(path)])

    def drop(self, selector, path):
        x, y = self.run(PLACE % json.dumps(selector))
        data = {"items": [], "files": [str(path)], "dragOperationsMask": 1}
        for kind in ("dragEnter", "dragOver", "drop"):
            self.call("Input.dispatchDragEvent", type=kind, x=x, y=y, data=data)

    def downloads(self):
        self.call("Page.setDownloadBehavior", behavior="allow", downloadPath=self.folder)

    def size(self, width, height):
        self.call("Emulation.setDeviceMetricsOverride", width=width, height=height, deviceScaleFactor=1, mobile=False)

    def dark(self, wanted):
        scheme = "dark" if wanted else "light"
        self.call("Emulation.setEmulatedMedia", features=[{"name": "prefers-color-scheme", "value": scheme}])

    def picture(self, path):
        data = self.call("Page.captureScreenshot", format="png", captureBeyondViewport=True)["data"]
        path.write_bytes(base64.b64decode(data))


class Firefox(Browser):
    name = "firefox"

    def __init__(self, program):
        super().__init__()
        with socket.socket() as free:
            free.bind(("127.0.0.1", 0))
            port = free.getsockname()[1]
        prefs = {"marionette.port": port, "browser.shell.checkDefaultBrowser": False, "browser.download.folderList": 2,
                 "datareporting.policy.dataSubmissionEnabled": False, "browser.download.dir": self.folder}
        with open(os.path.join(self.folder, "user.js"), "w") as file:
            file.writelines(f"user_pref({json.dumps(name)}, {json.dumps(value)});\n" for name, value in prefs.items())
        self.process = subprocess.Popen(
            [program, "--headless", "--marionette", "-remote-allow-system-access", "--no-remote",
             "--profile", self.folder],
            stdout=subprocess.DEVNULL, stderr=subprocess.DEVNULL, stdin=subprocess.DEVNULL,
            env={**os.environ, "HOME": self.folder, "MOZ_HEADLESS": "1"})
        self.socket = self.connect(port)
        self.stream, self.last, self.errors = self.socket.makefile("rb"), 0, []
        self.receive()
        session = self.call("WebDriver:NewSession", capabilities={"alwaysMatch": {"acceptInsecureCerts": True}})
        self.version = f"Firefox/{session['capabilities']['browserVersion']}"
        self.call("WebDriver:SetTimeouts", script=120000, pageLoad=120000, implicit=0)

    @staticmethod
    def connect(port):
        for _ in range(600):
            try:
                return socket.create_connection(("127.0.0.1", port))
            except OSError:
                time.sleep(0.1)
        raise AssertionError("firefox did not start")

    def receive(self):
        length = b""
        while not length.endswith(b":"):
            length += self.stream.read(1)
        return json.loads(self.stream.read(int(length[:-1])))

    def call(self, command, **params):
        self.last += 1
        message = json.dumps([0, self.last, command, params]).encode()
        self.socket.sendall(str(len(message)).encode() + b":" + message)
        _, _, error, result = self.receive()
        assert not error, f"{command}: {error and error.get('message')}"
        return result.get("value", result) if isinstance(result, dict) else result

    def open(self, address):
        self.call("WebDriver:Navigate", url=address)

    def run(self, script):
        wrapped = (f"const done = arguments[0]; (async () => {{ {script} }})()"
                   ".then((value) => done([value ?? null]), (error) => done([null, String(error)]))")
        value, *error = self.call("WebDriver:ExecuteAsyncScript", script=wrapped, args=[])
        assert not error, error[0]
        return value

    def element(self, selector):
        return next(iter(self.call("WebDriver:FindElement", using="css selector", value=selector).values()))

    def click(self, selector):
        self.call("WebDriver:ElementClick", id=self.element(selector))

    def insert(self, text):
        self.run(f"document.execCommand('insertText', false, {json.dumps(text)})")

    def key(self, name):
        presses = [{"type": kind, "value": KEYS[name][2]} for kind in ("keyDown", "keyUp")]
        self.call("WebDriver:PerformActions", actions=[{"type": "key", "id": "keys", "actions": presses}])

    def file(self, selector, path):
        self.call("WebDriver:ElementSendKeys", id=self.element(selector), text=str(path))

    def drop(self, selector, path):
        letters = json.dumps(base64.b64encode(path.read_bytes()).decode())
        self.run(f"""const bytes = Uint8Array.from(atob({letters}), (letter) => letter.charCodeAt(0));
            const dataTransfer = new DataTransfer();
            dataTransfer.items.add(new File([bytes], {json.dumps(path.name)}));
            for (const kind of ['dragenter', 'dragover', 'drop'])
              document.querySelector({json.dumps(selector)})
                .dispatchEvent(new DragEvent(kind, {{dataTransfer, bubbles: true, cancelable: true}}))""")

    def downloads(self):
        """They go to the profile's folder from the start."""

    def size(self, width, height):
        self.call("WebDriver:SetWindowRect", width=width, height=height)
        inner = self.run("return [innerWidth, innerHeight]")
        self.call("WebDriver:SetWindowRect", width=2 * width - inner[0], height=2 * height - inner[1])

    def dark(self, wanted):
        name = "layout.css.prefers-color-scheme.content-override"
        self.call("Marionette:SetContext", value="chrome")
        self.call("WebDriver:ExecuteScript", script=f"Services.prefs.setIntPref('{name}', {int(not wanted)})", args=[])
        self.call("Marionette:SetContext", value="content")

    def picture(self, path):
        path.write_bytes(base64.b64decode(self.call("WebDriver:TakeScreenshot", full=True)))


def found():
    """The browsers that are installed."""
    known = {Chromium: ("chromium", "chromium-browser", "google-chrome"), Firefox: ("firefox-esr", "firefox")}
    for kind, names in known.items():
        program = next(filter(None, map(shutil.which, names)), None)
        if program:
            yield kind, program
