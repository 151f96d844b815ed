"""Firefox, spoken to in the Marionette protocol on a local socket."""
import base64
import json
import os
import socket
import subprocess
import time
from pathlib import Path
from urllib.parse import quote

import page

PACKAGE = PROGRAM = "firefox-esr"
SETTINGS = {
    "marionette.port": 0,  # any free port, which is then written to a file of the profile
    "gfx.color_management.mode": 0,
    "layout.css.devPixelsPerPx": "1.0",
    "app.normandy.enabled": False,
    "browser.shell.checkDefaultBrowser": False,
    "datareporting.policy.dataSubmissionEnabled": False,
    "network.captive-portal-service.enabled": False,
}

# Run in the browser's own window: what the compositor puts on the screen. A screenshot of WebDriver's is painted anew by other code.
SHOT = """
const [width, height] = arguments;
const box = gBrowser.selectedBrowser.getBoundingClientRect();
const canvas = document.createElementNS("http://www.w3.org/1999/xhtml", "canvas");
canvas.width = width;
canvas.height = height;
const context = canvas.getContext("2d", {willReadFrequently: true});
const flags = context.DRAWWINDOW_DRAW_CARET | context.DRAWWINDOW_DRAW_VIEW | context.DRAWWINDOW_USE_WIDGET_LAYERS;
context.drawWindow(window, box.left, box.top, width, height, "red", flags);
return {painting: windowUtils.layerManagerType, corner: [box.left, box.top], shot: canvas.toDataURL("image/png")};
"""

TWO_FRAMES = "const done = arguments[0]; requestAnimationFrame(() => requestAnimationFrame(() => done(true)));"


class Firefox:
    def __init__(self, folder):
        self.folder = Path(folder)
        settings = [f"user_pref({json.dumps(name)}, {json.dumps(value)});\n" for name, value in SETTINGS.items()]
        (self.folder / "user.js").write_text("".join(settings))
        command = [PROGRAM, "--headless", "--no-remote", "--marionette", "--remote-allow-system-access"]
        self.process = subprocess.Popen(
            [*command, "--profile", folder],
            env={**os.environ, "HOME": folder},
            stdout=subprocess.DEVNULL,
            stderr=subprocess.DEVNULL,
        )
        self.left, self.sent = b"", 0

    def __enter__(self):
        return self

    def __exit__(self, *_):
        self.process.terminate()
        self.process.wait()

    def connect(self):
        self.socket = socket.create_connection(("127.0.0.1", self.port()))
        self.answer()
        return self.call("WebDriver:NewSession", capabilities={})["capabilities"]

    def port(self):
        """The port, once the browser has opened it."""
        for _ in range(600):
            try:
                return int((self.folder / "MarionetteActivePort").read_text())
            except (FileNotFoundError, ValueError):
                time.sleep(0.1)
        raise RuntimeError("firefox did not start")

    def more(self):
        received = self.socket.recv(1 << 20)
        if not received:
            raise RuntimeError("firefox ended")
        self.left += received

    def answer(self):
        while b":" not in self.left:
            self.more()
        length, self.left = self.left.split(b":", 1)
        while len(self.left) < int(length):
            self.more()
        message, self.left = self.left[: int(length)], self.left[int(length) :]
        return json.loads(message)

    def call(self, method, **parameters):
        self.sent += 1
        message = json.dumps([0, self.sent, method, parameters]).encode()
        self.socket.sendall(b"%d:%s" % (len(message), message))
        _, number, fault, result = self.answer()
        if fault or number != self.sent:
            raise RuntimeError(f"{method}: {fault}")
        return result

    def run(self, script, *arguments, where="content", how="ExecuteScript"):
        """What a function body gives, run in the page or in the browser's own window."""
        self.call("Marionette:SetContext", value=where)
        return self.call(f"WebDriver:{how}", script=script, args=arguments)["value"]


def picture(browser, document, height, background):
    """The rows of a page as shown, once it is on the screen."""
    browser.call("Marionette:SetContext", value="content")
    browser.call("WebDriver:Navigate", url="data:text/html," + quote(document))
    page.check(browser.run(page.STATE), height)
    for _ in range(50):
        browser.run(TWO_FRAMES, how="ExecuteAsyncScript")
        seen = browser.run(SHOT, page.WIDTH, height, where="chrome")
        _, rows = page.rgba(base64.b64decode(seen["shot"].partition(",")[2]))
        if rows[-1] == background * page.WIDTH:
            return rows, seen
        time.sleep(0.2)
    raise RuntimeError("the page did not get to the screen")


def pictures(browser, recipes):
    """Two opaque pictures of each recipe, on black and on white, give its premultiplied color and its alpha."""
    _, height = page.layout(recipes)
    browser.call("WebDriver:SetWindowRect", width=page.WIDTH, height=height + 200)
    shots = []
    for name, background in (("black", b"\0\0\0\xff"), ("white", b"\xff\xff\xff\xff")):
        # One row more than the recipes need: it shows that the right page is there.
        rows, seen = picture(browser, page.document(recipes, name), height + 1, background)
        if any(side != int(side) for side in seen["corner"]):
            raise RuntimeError("the page does not begin on a whole pixel")
        shots.append(page.cut(recipes, rows))
    both = [page.recovered(on_black, on_white) for on_black, on_white in zip(*shots)]
    return [pixels for pixels, _ in both], sum(unsure for _, unsure in both), seen["painting"]


def record(folder, recipes, supports, texts):
    with Firefox(folder) as browser:
        about = browser.connect()
        pixels, unsure, painting = pictures(browser, recipes)
        found = {
            "browser": "Firefox",
            "version": about["browserVersion"],
            "painting": f"{painting}, read back over black and over white; the channels disagree on alpha in {unsure} pixels",
        }
        return found, pixels, browser.run(supports, texts)
