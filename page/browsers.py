"""Chromium and Firefox, worked by their own drivers: Debian's packages chromium, chromium-driver and firefox-esr."""
import atexit, json, shutil, socket, subprocess, tempfile, time, urllib.request

WAIT = 120


def free_port():
    with socket.socket() as it:
        it.bind(("127.0.0.1", 0))
        return it.getsockname()[1]


def wait_for(what, shown, seconds=WAIT):
    """Waits until `shown` returns something, and returns it."""
    end = time.monotonic() + seconds
    while time.monotonic() < end:
        said = shown()
        if said:
            return said
        time.sleep(0.05)
    raise TimeoutError(f"no end: {what}")


def is_open(port):
    try:
        socket.create_connection(("127.0.0.1", port), timeout=1).close()
        return True
    except OSError:
        return False


def key_acts(keys):
    """Keys that are pressed together, and let go."""
    downs = [{"type": "keyDown", "value": key} for key in keys]
    return downs + [{"type": "keyUp", "value": key} for key in reversed(keys)]


class Chromium:
    """Chromium, which chromedriver works over HTTP."""

    needs = ("chromium", "chromedriver")

    def __init__(self, saved):
        self.work = tempfile.mkdtemp()
        atexit.register(shutil.rmtree, self.work, ignore_errors=True)
        port = free_port()
        self.driver = subprocess.Popen(
            ["chromedriver", f"--port={port}"], stdout=subprocess.DEVNULL, stderr=subprocess.DEVNULL
        )
        atexit.register(self.driver.terminate)
        self.at = f"http://127.0.0.1:{port}/session"
        wait_for("the start of chromedriver", lambda: is_open(port))
        words = [
            "--headless=new",
            "--no-sandbox",
            "--disable-gpu",
            "--disable-dev-shm-usage",
            "--window-size=1100,1400",
            "--hide-scrollbars",
            "--accept-lang=en-US",
            f"--user-data-dir={self.work}",
        ]
        prefs = {
            "download.default_directory": saved,
            "download.prompt_for_download": False,
            "profile.default_content_setting_values.automatic_downloads": 1,
        }
        wanted = {"alwaysMatch": {"goog:chromeOptions": {"args": words, "prefs": prefs}}}
        said = self.http("POST", "", {"capabilities": wanted})
        self.name = f"Chromium {said['capabilities']['browserVersion']}"
        self.at += f"/{said['sessionId']}"

    def http(self, method, path, body=None):
        data = None if body is None else json.dumps(body).encode()
        asked = urllib.request.Request(self.at + path, data, {"Content-Type": "application/json"}, method=method)
        with urllib.request.urlopen(asked, timeout=300) as it:
            return json.load(it)["value"]

    def go(self, url):
        self.http("POST", "/url", {"url": url})

    def run(self, script, *words):
        return self.http("POST", "/execute/sync", {"script": script, "args": list(words)})

    def keys(self, which, text):
        found = self.http("POST", "/element", {"using": "css selector", "value": which})
        self.http("POST", f"/element/{next(iter(found.values()))}/value", {"text": text})

    def press(self, *keys):
        acts = key_acts(keys)
        self.http("POST", "/actions", {"actions": [{"type": "key", "id": "keys", "actions": acts}]})

    def tab(self):
        self.switch(self.http("POST", "/window/new", {"type": "tab"})["handle"])

    def tabs(self):
        return self.http("GET", "/window/handles")

    def switch(self, handle):
        self.http("POST", "/window", {"handle": handle})

    def shot(self, whole=True, height=None):
        if not whole:
            return self.http("GET", "/screenshot")
        size = self.cdp("Page.getLayoutMetrics")["cssContentSize"]
        clip = {"x": 0, "y": 0, "width": size["width"], "height": height or size["height"], "scale": 1}
        return self.cdp("Page.captureScreenshot", captureBeyondViewport=True, clip=clip)["data"]

    def cdp(self, command, **words):
        return self.http("POST", "/goog/cdp/execute", {"cmd": command, "params": words})

    def width(self, width):
        self.size(width, 1400)

    def size(self, width, height):
        self.cdp("Emulation.setDeviceMetricsOverride", width=width, height=height, deviceScaleFactor=1, mobile=False)

    def dark(self, is_dark):
        value = "dark" if is_dark else "light"
        self.cdp("Emulation.setEmulatedMedia", features=[{"name": "prefers-color-scheme", "value": value}])

    def end(self):
        self.http("DELETE", "")
        self.driver.terminate()
        self.driver.wait()
        shutil.rmtree(self.work, ignore_errors=True)


class Firefox:
    """Firefox, by its own Marionette."""

    needs = ("firefox-esr",)

    def __init__(self, saved):
        self.work = tempfile.mkdtemp()
        atexit.register(shutil.rmtree, self.work, ignore_errors=True)
        port = free_port()
        settings = {
            "marionette.port": port,
            "browser.download.folderList": 2,
            "browser.download.dir": saved,
            "browser.download.useDownloadDir": True,
            "browser.download.always_ask_before_handling_new_types": False,
            "browser.helperApps.neverAsk.saveToDisk": "text/csv",
            "browser.shell.checkDefaultBrowser": False,
            "datareporting.policy.dataSubmissionEnabled": False,
            "app.update.auto": False,
            "intl.accept_languages": "en-US, en",
        }
        with open(f"{self.work}/user.js", "w", encoding="utf-8") as it:
            it.writelines(f"user_pref({json.dumps(name)}, {json.dumps(value)});\n" for name, value in settings.items())
        words = [
            "firefox-esr",
            "--headless",
            "--marionette",
            "--profile",
            self.work,
            "--width",
            "1100",
            "--height",
            "1400",
        ]
        self.driver = subprocess.Popen(words, stdout=subprocess.DEVNULL, stderr=subprocess.DEVNULL)
        atexit.register(self.driver.terminate)
        wait_for("the start of Firefox", lambda: is_open(port))
        self.wire = socket.create_connection(("127.0.0.1", port), timeout=300)
        self.number = 0
        self.heard()
        self.name = f"Firefox {self.ask('NewSession', {})['capabilities']['browserVersion']}"

    def heard(self):
        count = b""
        while not count.endswith(b":"):
            count += self.wire.recv(1)
        left, text = int(count[:-1]), b""
        while len(text) < left:
            text += self.wire.recv(left - len(text))
        return json.loads(text)

    def ask(self, name, words):
        self.number += 1
        text = json.dumps([0, self.number, f"WebDriver:{name}", words]).encode()
        self.wire.sendall(str(len(text)).encode() + b":" + text)
        _, _, fault, value = self.heard()
        if fault:
            raise RuntimeError(fault["message"])
        return value

    def go(self, url):
        self.ask("Navigate", {"url": url})

    def run(self, script, *words):
        return self.ask("ExecuteScript", {"script": script, "args": list(words)})["value"]

    def keys(self, which, text):
        found = self.ask("FindElement", {"using": "css selector", "value": which})["value"]
        self.ask("ElementSendKeys", {"id": next(iter(found.values())), "text": text})

    def press(self, *keys):
        acts = key_acts(keys)
        self.ask("PerformActions", {"actions": [{"type": "key", "id": "keys", "actions": acts}]})

    def tab(self):
        self.switch(self.ask("NewWindow", {"type": "tab", "focus": True})["handle"])

    def tabs(self):
        return self.ask("GetWindowHandles", {})

    def switch(self, handle):
        self.ask("SwitchToWindow", {"handle": handle})

    def shot(self, whole=True):
        return self.ask("TakeScreenshot", {"full": whole, "hash": False})["value"]

    def width(self, width):
        self.size(width, 1400)

    def size(self, width, height):
        """The size of what is shown, without what the window has round it."""
        self.ask("SetWindowRect", {"width": width, "height": height})
        shown = self.run("return [innerWidth, innerHeight]")
        self.ask("SetWindowRect", {"width": 2 * width - shown[0], "height": 2 * height - shown[1]})

    def end(self):
        try:
            self.number += 1
            self.wire.sendall(
                (lambda it: str(len(it)).encode() + b":" + it)(
                    json.dumps([0, self.number, "Marionette:Quit", {}]).encode()
                )
            )
            self.driver.wait(30)
        except (OSError, subprocess.TimeoutExpired):
            self.driver.terminate()
            self.driver.wait()
        self.wire.close()
        shutil.rmtree(self.work, ignore_errors=True)


KNOWN = {"chromium": Chromium, "firefox": Firefox}


def installed(only=None):
    """The browsers that are installed, by their names; those that are not are named on standard output."""
    found = {}
    for name, kind in KNOWN.items():
        if only not in (None, name):
            continue
        if all(map(shutil.which, kind.needs)):
            found[name] = kind
        else:
            print(f"{name} is not installed, and the page was not tried in it")
    return found
