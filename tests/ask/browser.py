"""Drives a headless Chromium over its debugging pipe: loads a page, uses mouse and keys, and asks the page."""

import base64
import contextlib
import json
import os
import shutil
import struct
import subprocess
import tempfile
import threading
import zlib

PATIENCE = 600  # seconds after which the browser is ended
NAMES = ("chromium", "chromium-browser", "google-chrome")
KEYS = {"ArrowLeft": 37, "ArrowUp": 38, "ArrowRight": 39, "ArrowDown": 40, "Escape": 27, "Enter": 13, "Home": 36, "End": 35}


def browser_path():
    """The browser that is installed, or None."""
    return next((found for found in map(shutil.which, NAMES) if found), None)


class Browser:
    """A page of a browser without a window."""

    def __init__(self, width, height):
        self.folder = tempfile.mkdtemp()
        from_us, to_browser = os.pipe()
        from_browser, to_us = os.pipe()
        words = [
            browser_path(), "--headless=new", "--no-sandbox", "--disable-gpu", "--remote-debugging-pipe",
            f"--user-data-dir={self.folder}", f"--window-size={width},{height}", "about:blank",
        ]
        self.process = subprocess.Popen(
            ["bash", "-c", f'exec "$@" 3<&{from_us} 4>&{to_us}', "bash", *words], pass_fds=(from_us, to_us),
            stdout=subprocess.DEVNULL, stderr=subprocess.DEVNULL,
        )
        os.close(from_us)
        os.close(to_us)
        self.written, self.read = os.fdopen(to_browser, "wb"), os.fdopen(from_browser, "rb")
        self.timer = threading.Timer(PATIENCE, self.process.kill)
        self.timer.start()
        self.count, self.session = 0, None
        self.faults = []  # exceptions that the page has thrown
        try:
            self.attach(width, height)
        except BaseException:
            self.__exit__()
            raise

    def attach(self, width, height):
        """Takes the page that the browser has opened."""
        targets = self.ask("Target.getTargets")["targetInfos"]
        target = next(found["targetId"] for found in targets if found["type"] == "page")
        self.session = self.ask("Target.attachToTarget", targetId=target, flatten=True)["sessionId"]
        self.ask("Page.enable")
        self.ask("Runtime.enable")
        self.resize(width, height)

    def __enter__(self):
        return self

    def __exit__(self, *_):
        self.timer.cancel()
        try:
            self.session = None
            self.ask("Browser.close")
            self.process.wait(5)
        except (OSError, RuntimeError, subprocess.TimeoutExpired):
            self.process.kill()
            self.process.wait()
        for end in (self.written, self.read):
            with contextlib.suppress(OSError):
                end.close()
        shutil.rmtree(self.folder, ignore_errors=True)  # its last processes may still write there

    def ask(self, method, **parameters):
        """The answer to a command."""
        self.count += 1
        message = {"id": self.count, "method": method, "params": parameters}
        if self.session:
            message["sessionId"] = self.session
        self.written.write(json.dumps(message).encode() + b"\0")
        self.written.flush()
        while True:
            answer = self.next_message()
            if answer.get("method") == "Runtime.exceptionThrown":
                self.faults.append(answer["params"]["exceptionDetails"])
            if answer.get("id") == self.count:
                if "error" in answer:
                    raise RuntimeError(f"{method}: {answer['error']}")
                return answer["result"]

    def next_message(self):
        """The next message of the browser."""
        data = bytearray()
        while True:
            byte = self.read.read(1)
            if not byte:
                raise RuntimeError("the browser has ended")
            if byte == b"\0":
                return json.loads(data)
            data += byte

    def resize(self, width, height):
        """Gives the page another size."""
        self.ask("Emulation.setDeviceMetricsOverride", width=width, height=height, deviceScaleFactor=1, mobile=False)

    def load(self, path):
        """Shows a file."""
        self.ask("Page.navigate", url=f"file://{path}")
        self.value("new Promise(done => document.readyState == 'complete' ? done(1) : addEventListener('load', () => done(1)))")
        self.settle()

    def value(self, expression):
        """The value of an expression in the page."""
        answer = self.ask("Runtime.evaluate", expression=expression, returnByValue=True, awaitPromise=True)
        if "exceptionDetails" in answer:
            raise RuntimeError(answer["exceptionDetails"])
        return answer["result"].get("value")

    def settle(self):
        """Waits until what was asked for is drawn."""
        self.value("new Promise(done => requestAnimationFrame(() => requestAnimationFrame(() => done(1))))")

    def rest(self, milliseconds=400):
        """Waits until what moves by itself has come to rest."""
        self.value(f"new Promise(done => setTimeout(() => done(1), {milliseconds}))")
        self.settle()

    def mouse(self, kind, x, y, **more):
        """Sends an event of the mouse."""
        self.ask("Input.dispatchMouseEvent", type=kind, x=x, y=y, **more)

    def move(self, x, y):
        """Moves the mouse to a point."""
        self.mouse("mouseMoved", x, y)
        self.settle()

    def wheel(self, x, y, down):
        """Turns the wheel."""
        self.mouse("mouseWheel", x, y, deltaX=0, deltaY=down)
        self.settle()

    def click(self, x, y):
        """Clicks at a point."""
        self.mouse("mousePressed", x, y, button="left", buttons=1, clickCount=1)
        self.mouse("mouseReleased", x, y, button="left", buttons=0, clickCount=1)
        self.settle()

    def drag(self, start, end, parts=4):
        """Moves the mouse from a point to another one with its button held."""
        self.mouse("mousePressed", *start, button="left", buttons=1, clickCount=1)
        for part in range(1, parts + 1):
            at = [first + (last - first) * part / parts for first, last in zip(start, end)]
            self.mouse("mouseMoved", *at, button="left", buttons=1)
        self.mouse("mouseReleased", *end, button="left", buttons=0, clickCount=1)
        self.settle()

    def key(self, key):
        """Presses a key."""
        more = {"text": key} if len(key) == 1 else {"windowsVirtualKeyCode": KEYS[key]}
        self.ask("Input.dispatchKeyEvent", type="keyDown", key=key, **more)
        self.ask("Input.dispatchKeyEvent", type="keyUp", key=key)
        self.settle()

    def type(self, text):
        """Types a text into what has the focus."""
        for letter in text:
            self.key(letter)

    def box(self, selector):
        """Where the first element that a selector finds stands in the window: left, top, right and bottom."""
        return self.value(f"""(() => {{
          const box = document.querySelector({json.dumps(selector)}).getBoundingClientRect();
          return [box.left, box.top, box.right, box.bottom];
        }})()""")

    def press(self, selector):
        """Clicks the middle of the first element that a selector finds."""
        first, top, last, bottom = self.box(selector)
        self.click((first + last) / 2, (top + bottom) / 2)

    def keep(self, path):
        """Keeps a picture of the window in a file."""
        with open(path, "wb") as file:
            file.write(base64.b64decode(self.ask("Page.captureScreenshot", format="png")["data"]))

    def picture(self, left, top, right, bottom):
        """The pixels of a part of the window."""
        clip = {"x": left, "y": top, "width": right - left, "height": bottom - top, "scale": 1}
        return Picture(base64.b64decode(self.ask("Page.captureScreenshot", format="png", clip=clip)["data"]))


class Picture:
    """The pixels of a PNG of 8 bits a colour, as browsers write it."""

    def __init__(self, data):
        self.wide, self.tall, depth, colours = struct.unpack(">IIBB", data[16:26])
        assert depth == 8 and colours in (2, 6), "another kind of PNG"
        self.size = 3 if colours == 2 else 4  # bytes of a pixel
        self.rows = self.unfiltered(zlib.decompress(b"".join(self.chunks(data))))

    @staticmethod
    def chunks(data):
        """The parts of the pixels that a file has."""
        place = 8
        while place < len(data):
            length, kind = struct.unpack(">I4s", data[place : place + 8])
            if kind == b"IDAT":
                yield data[place + 8 : place + 8 + length]
            place += length + 12

    def unfiltered(self, data):
        """The bytes of each line, of which each was written as what it differs from its neighbours by."""
        rows, before, long = [], bytearray(self.wide * self.size), self.wide * self.size
        for number in range(self.tall):
            begin = number * (long + 1)
            row, way = bytearray(data[begin + 1 : begin + 1 + long]), data[begin]
            for place in range(long) if way else ():
                left = row[place - self.size] if place >= self.size else 0
                corner = before[place - self.size] if place >= self.size else 0
                row[place] = (row[place] + predicted(way, left, before[place], corner)) & 255
            rows.append(row)
            before = row
        return rows

    def at(self, x, y):
        """The red, green and blue of a pixel."""
        begin = int(x) * self.size
        return tuple(self.rows[int(y)][begin : begin + 3])


def predicted(way, left, above, corner):
    """What one of the ways to write a PNG expects of a byte by its neighbours."""
    if way < 4:
        return (0, left, above, (left + above) // 2)[way]
    guess = left + above - corner
    return min((left, above, corner), key=lambda near: abs(guess - near))
