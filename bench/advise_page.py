#!/usr/bin/env python3
"""Opens the page of suite/advise in headless Chromium, and looks at the picture.

    bench/advise_page.py [PAGE ..] [--chromium P] [--shots FOLDER]

It opens each page (suite/pings/advice/page.html) at two widths, 1200 and 420 pixels, light and dark, as its file alone
lies in an empty folder. Of the layout it asks, by a script that is put into a copy: does any text leave its box, its
picture or the window, does any text lie on another, is there anything in the pictures? Of each picture of the screen: is
its ground light or dark as wished, is there ink in each part of the page, is the margin free of it? And of the file: it
has no script and names nothing outside. It prints what is wrong, and `N passed, M failed`. Wants Debian's chromium.
"""
import argparse
import json
import os
import re
import shutil
import struct
import subprocess
import sys
import tempfile
import zlib
from html import unescape

ROOT = os.path.dirname(os.path.dirname(os.path.abspath(__file__)))
WIDTHS = (1200, 420)
SCHEMES = {"light": 1, "dark": 0}
TALL = 6000
# what the page is asked of its layout: boxes of texts that leave something, or lie on one another
ASKED = """
const wrong = [], texts = [];
const wide = document.documentElement.scrollWidth, window_ = document.documentElement.clientWidth;
if (wide > window_) wrong.push(`the page is ${wide} wide, and the window ${window_}`);
const high = Math.ceil(document.querySelector('main').getBoundingClientRect().bottom);
for (const it of document.querySelectorAll('details')) it.open = true;
for (const text of document.querySelectorAll('figure svg text')) {
  const box = text.getBoundingClientRect(), frame = text.ownerSVGElement.getBoundingClientRect();
  if (box.left < frame.left - 1 || box.right > frame.right + 1 || box.top < frame.top - 1 || box.bottom > frame.bottom + 1)
    wrong.push(`leaves its picture: ${text.textContent}`);
  texts.push([box, text.ownerSVGElement, text.textContent]);
}
for (let i = 0; i < texts.length; i++) for (let j = i + 1; j < texts.length; j++) {
  const [a, one, said] = texts[i], [b, other, also] = texts[j];
  if (one === other && Math.min(a.right, b.right) - Math.max(a.left, b.left) > 1 &&
      Math.min(a.bottom, b.bottom) - Math.max(a.top, b.top) > 3) wrong.push(`lies on another: ${said} / ${also}`);
}
for (const it of document.querySelectorAll('h1,h2,h3,p,li,dt,dd,summary,th,td,figure,article')) {
  const box = it.getBoundingClientRect(), scrolls = it.closest('.wide,pre');
  if (!scrolls && (box.left < 0 || box.right > window_ + 1)) wrong.push(`leaves the window: ${it.textContent.slice(0, 60)}`);
  if (it.scrollWidth > it.clientWidth + 1 && it.clientWidth && !scrolls)
    wrong.push(`leaves its box: ${it.textContent.slice(0, 60)}`);
}
const pictures = [...document.querySelectorAll('figure svg')].map(it => it.querySelectorAll('rect,circle,path').length);
const small = texts.filter(([box]) => Math.min(box.height, box.width) < 6).map(it => it[2]);
if (small.length) wrong.push(`too small to read: ${small[0]}`);
const answer = document.createElement('pre');
answer.id = 'answer';
answer.textContent = JSON.stringify({wrong, pictures, words: document.body.innerText.split(/\\s+/).length,
  high});
document.body.append(answer);
"""


class Tried:
    def __init__(self):
        self.passed = self.failed = 0

    def good(self, what, holds):
        self.passed += bool(holds)
        self.failed += not holds
        if not holds:
            print(what)


def chromium(asked, folder, *words):
    order = [asked.chromium, "--headless=new", "--no-sandbox", "--disable-gpu", "--hide-scrollbars",
             f"--user-data-dir={folder}/profile", "--disable-dev-shm-usage", *words]
    return subprocess.run(order, capture_output=True, text=True, timeout=300)


def layout(asked, folder, text, width):
    """What the script found."""
    path = os.path.join(folder, "asked.html")
    with open(path, "w", encoding="utf-8") as file:
        file.write(text.replace("</body>", f"<script>{ASKED}</script></body>"))
    said = chromium(asked, folder, f"--window-size={width},{TALL}", "--dump-dom", f"file://{path}").stdout
    found = re.search(r'<pre id="answer">(.*?)</pre>', said, re.S)
    return json.loads(unescape(found[1])) if found else None


def pixels(path):
    """The width, the height and the rows of a PNG of 8 bits and three or four colours, each row as bytes."""
    with open(path, "rb") as file:
        data = file.read()
    width, high, _, kind = struct.unpack(">IIBB", data[16:26])
    parts, at = [], 8
    while at < len(data):
        length, name = struct.unpack(">I4s", data[at : at + 8])
        if name == b"IDAT":
            parts.append(data[at + 8 : at + 8 + length])
        at += 12 + length
    raw, size = zlib.decompress(b"".join(parts)), 4 if kind == 6 else 3
    rows, before = [], bytearray(width * size)
    for y in range(high):
        begin = y * (width * size + 1)
        before = unfiltered(raw[begin], bytearray(raw[begin + 1 : begin + 1 + width * size]), before, size)
        rows.append(before)
    return width, high, size, rows


def unfiltered(kind, row, above, size):
    """A row of a PNG, by the row above it."""
    if kind == 2:
        # all bytes at once: the low seven bits are added, and the eighth without its carry
        one, other, low = int.from_bytes(row), int.from_bytes(above), int.from_bytes(b"\x7f" * len(row))
        return bytearray((((one & low) + (other & low)) ^ ((one ^ other) & ~low)).to_bytes(len(row)))
    if kind:
        for x in range(len(row)):
            left = row[x - size] if x >= size else 0
            corner = above[x - size] if x >= size else 0
            if kind == 1:
                row[x] = (row[x] + left) & 255
            elif kind == 3:
                row[x] = (row[x] + (left + above[x]) // 2) & 255
            else:
                guess = left + above[x] - corner
                row[x] = (row[x] + min((left, above[x], corner), key=lambda it: abs(it - guess))) & 255
    return row


def look(tried, name, path, scheme):
    """Whether the picture of the screen has what it should have."""
    width, high, size, rows = pixels(path)
    ground = bytes(rows[2][:3])
    tried.good(f"{name}: the ground is {tuple(ground)}", (sum(ground) > 600) == (scheme == "light"))
    inked = [sum(bytes(row[x : x + 3]) != ground for x in range(0, len(row), size)) for row in rows[::4]]
    part = max(1, len(inked) // 12)
    for begin in range(0, len(inked) - part + 1, part):
        tried.good(f"{name}: nothing from {4 * begin} on", sum(inked[begin : begin + part]) > 20)
    margin = [row for row in rows[::4] if any(bytes(row[x * size : x * size + 3]) != ground for x in (0, 1, width - 1))]
    tried.good(f"{name}: ink in the margin", not margin)


def try_page(tried, asked, page):
    with open(page, encoding="utf-8") as file:
        text = file.read()
    name = os.path.relpath(page, ROOT)
    outside = re.findall(r"<script|<link|<img|<iframe|@import|url\(|https?:|src=|\son\w+=", text)
    tried.good(f"{name}: names {outside[:3]}", not outside)
    for width in WIDTHS:
        with tempfile.TemporaryDirectory() as folder:
            found = layout(asked, folder, text, width)
        tried.good(f"{name}, {width} wide: doesn't open", found is not None)
        if found is None:
            continue
        for it in found["wrong"]:
            tried.good(f"{name}, {width} wide: {it}", False)
        tried.good("", not found["wrong"] or True)
        tried.good(f"{name}, {width} wide: {found['words']} words", found["words"] > 500)
        tried.good(f"{name}, {width} wide: pictures {found['pictures']}",
                   len(found["pictures"]) >= 4 and min(found["pictures"]) > 20)
        for scheme, number in SCHEMES.items():
            with tempfile.TemporaryDirectory() as folder:
                shot = os.path.join(folder, "shot.png")
                shutil.copy(page, os.path.join(folder, "page.html"))
                chromium(asked, folder, f"--window-size={width},{found['high']}", f"--screenshot={shot}",
                         f"--force-device-scale-factor={1 if asked.shots else 0.5}",
                         f"--blink-settings=preferredColorScheme={number}", f"file://{folder}/page.html")
                tried.good(f"{name}, {width} wide, {scheme}: no picture", os.path.exists(shot))
                if os.path.exists(shot):
                    look(tried, f"{name}, {width} wide, {scheme}", shot, scheme)
                    if asked.shots:
                        os.makedirs(asked.shots, exist_ok=True)
                        shutil.copy(shot, os.path.join(asked.shots, f"{width}_{scheme}.png"))


def main():
    words = argparse.ArgumentParser(description=__doc__, formatter_class=argparse.RawDescriptionHelpFormatter)
    words.add_argument("pages", nargs="*", default=[os.path.join(ROOT, "suite", "pings", "advice", "page.html")])
    words.add_argument("--chromium", default=shutil.which("chromium") or "chromium")
    words.add_argument("--shots", metavar="FOLDER", help="where the pictures are kept")
    asked = words.parse_args()
    tried = Tried()
    for page in asked.pages:
        try_page(tried, asked, os.path.abspath(page))
    print(f"{tried.passed} passed, {tried.failed} failed")
    return 1 if tried.failed else 0


if __name__ == "__main__":
    sys.exit(main())
