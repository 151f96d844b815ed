"""Chromium, spoken to in the DevTools protocol through a pair of pipes."""
import base64
import json
import os
import subprocess

import page

PACKAGE = PROGRAM = "chromium"
FLAGS = [
    "--headless=new",
    "--remote-debugging-pipe",
    "--force-color-profile=srgb",
    "--force-device-scale-factor=1",
    "--hide-scrollbars",
    "--no-first-run",
]


class Chromium:
    def __init__(self, folder):
        ours, theirs = os.pipe(), os.pipe()
        # The browser reads from 3 and writes to 4, which a shell sets up.
        plumbing = f'exec "$@" 3<&{ours[0]} 4>&{theirs[1]}'
        flags = FLAGS + [f"--user-data-dir={folder}"] + ["--no-sandbox"] * (os.getuid() == 0)
        self.process = subprocess.Popen(
            ["sh", "-c", plumbing, "sh", PROGRAM, *flags, "about:blank"],
            pass_fds=(ours[0], theirs[1]),
            stdout=subprocess.DEVNULL,
            stderr=subprocess.DEVNULL,
        )
        os.close(ours[0])
        os.close(theirs[1])
        self.to, self.back = os.fdopen(ours[1], "wb"), os.fdopen(theirs[0], "rb")
        self.sent, self.session = 0, None
        self.left = b""

    def __enter__(self):
        return self

    def __exit__(self, *_):
        self.to.close()
        self.back.close()
        self.process.terminate()
        self.process.wait()

    def answer(self):
        while b"\0" not in self.left:
            more = self.back.read1(1 << 20)
            if not more:
                raise RuntimeError("chromium ended")
            self.left += more
        message, self.left = self.left.split(b"\0", 1)
        return json.loads(message)

    def call(self, method, **parameters):
        self.sent += 1
        message = {"id": self.sent, "method": method, "params": parameters}
        if self.session:
            message["sessionId"] = self.session
        self.to.write(json.dumps(message).encode() + b"\0")
        self.to.flush()
        while True:
            answer = self.answer()
            if answer.get("id") == self.sent:
                if "error" in answer:
                    raise RuntimeError(f"{method}: {answer['error']}")
                return answer["result"]

    def run(self, script, *arguments):
        """What a function body gives, run in the page."""
        expression = f"(function() {{{script}}})(...{json.dumps(arguments)})"
        result = self.call("Runtime.evaluate", expression=expression, returnByValue=True)
        if "exceptionDetails" in result:
            raise RuntimeError(result["exceptionDetails"])
        return result["result"]["value"]

    def open(self, height):
        target = self.call("Target.createTarget", url="about:blank")["targetId"]
        self.session = self.call("Target.attachToTarget", targetId=target, flatten=True)["sessionId"]
        self.call(
            "Emulation.setDeviceMetricsOverride", width=page.WIDTH, height=height, deviceScaleFactor=1, mobile=False
        )

    def show(self, document):
        frame = self.call("Page.getFrameTree")["frameTree"]["frame"]["id"]
        self.call("Page.setDocumentContent", frameId=frame, html=document)


def facts(browser):
    state = browser.call("SystemInfo.getInfo")["gpu"]["featureStatus"]["rasterization"]
    return {
        "browser": "Chromium",
        "version": browser.call("Browser.getVersion")["product"].partition("/")[2],
        "painting": f"painted {'by' if state.startswith('enabled') else 'without'} the GPU, screenshot over a transparent page",
    }


def pictures(browser, recipes):
    """Nothing lies below the boxes, so that the picture keeps their alpha."""
    _, height = page.layout(recipes)
    browser.open(height)
    browser.call("Emulation.setDefaultBackgroundColorOverride", color={"r": 0, "g": 0, "b": 0, "a": 0})
    browser.show(page.document(recipes, "transparent"))
    page.check(browser.run(page.STATE), height)
    shot = browser.call("Page.captureScreenshot", format="png", optimizeForSpeed=False)["data"]
    width, rows = page.rgba(base64.b64decode(shot))
    if (width, len(rows)) != (page.WIDTH, height):
        raise RuntimeError(f"the screenshot has {width} by {len(rows)} pixels")
    return [page.premultiplied(picture) for picture in page.cut(recipes, rows)]


def record(folder, recipes, supports, texts):
    with Chromium(folder) as browser:
        found = facts(browser)
        return found, pictures(browser, recipes), browser.run(supports, texts)
