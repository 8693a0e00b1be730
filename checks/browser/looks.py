"""Measures the players' pages in a headless Chromium, at the sizes of telephones, tablets and laptops, light and dark: that what is
due needs no scrolling, with names of 24 characters and after twelve calls too, that no row of the auction is half hidden, that neither
a claim nor what is told moves a hand, that nothing is lost with letters twice as large or at 320 pixels, that what can be pressed is large enough, and that
texts stand out from what is below them.

looks.py PROGRAM EXAMPLES [FOLDER]     (pictures go to FOLDER)
"""
import os
import re
import subprocess
import sys
import tempfile
import time

from chromium import Browser, Window
from server import Server

PROGRAM, EXAMPLES = [os.path.abspath(word) for word in sys.argv[1:3]]
FOLDER = sys.argv[3] if len(sys.argv) > 3 else None
PORT = 27461
SIZES = [(360, 640), (390, 844), (844, 390), (768, 1024), (1024, 768), (1440, 900)]
NORTH, EAST, SOUTH, WEST = SEATS = ["40213", "26751", "71850", "60482"]
DIRECTOR = "52817"
DEAL = "N:K73.AK652.2.Q652 J652.Q8.QT97.K43 AQ94.J7.K43.JT98 T8.T943.AJ865.A7"
CALLS = ["1C", "PASS", "1D", "PASS", "1H", "PASS", "1S", "X", "XX", "PASS", "2C", "PASS"]
NOTICE = "Tea is in the kitchen after round 4. Please be back by 21:10, and bring your cups back."
SAID = "Five hearts, four spades by the finesse that won, and then the clubs are high; you have two tricks."
NAMES = {"A.Berger": "Maximiliana-Berger-Lange", "M.Okafor": "Chukwuemeka.Okafor-Adae1",
         "B.Adeyemi": "Bartholomew.Adeyemi-Olu1", "N.Fischer": "Nathanael_Fischer-Schmid"}

# What is not to be: texts whose contrast to what is below them is too low, and controls that are too small.
FAINT = """(() => {
  const parts = (color) => (color.match(/[\\d.]+/g) || []).map(Number);
  const light = ([r, g, b]) => [r, g, b].map((v) => (v /= 255) <= .03928 ? v / 12.92 : ((v + .055) / 1.055) ** 2.4).reduce((sum, v, i) => sum + v * [.2126, .7152, .0722][i], 0);
  const below = (node) => { for (; node; node = node.parentElement) { const c = parts(getComputedStyle(node).backgroundColor); if (c.length === 3 || c[3] === 1) return c; } return [255, 255, 255]; };
  const found = [];
  const walk = document.createTreeWalker(document.body, NodeFilter.SHOW_TEXT);
  while (walk.nextNode()) {
    const node = walk.currentNode.parentElement;
    if (!walk.currentNode.data.trim() || !node.checkVisibility({ contentVisibilityAuto: true }) || node.closest('#heard, h2, details:not([open]) > div')) continue;
    const [a, b] = [light(parts(getComputedStyle(node).color)), light(below(node))].sort((x, y) => y - x);
    const ratio = (a + .05) / (b + .05);
    const least = node.closest('.card:enabled, .bid:enabled') ? 7 : 4.5;
    if (ratio < least) found.push([walk.currentNode.data, ratio.toFixed(1)]);
  }
  return found;
})()"""
SMALL = """[...document.querySelectorAll('button')].filter((one) => one.getClientRects().length && !one.matches('.card, .bid'))
  .map((one) => [one.id, one.getBoundingClientRect()]).filter(([, box]) => box.width < 43.5 || box.height < 35.5).map(([id]) => id)"""
# Bids that are too low for a thumb, and rows of the auction of which a part is hidden.
LOW = """[...document.querySelectorAll('#dock .bid')].filter((one) => one.getBoundingClientRect().height < (innerWidth < 380 ? 35.5 : 43.5)).length"""
HALF = """(() => {
  const box = document.getElementById('auction');
  if (!box) return 0;
  const frame = box.getBoundingClientRect(), top = frame.top + box.querySelector('thead').offsetHeight;
  const cut = (row, edge) => row.top < edge - 2 && row.bottom > edge + 2;
  return [...box.querySelectorAll('tbody tr')].map((row) => row.getBoundingClientRect()).filter((row) => cut(row, top) || cut(row, frame.bottom)).length;
})()"""
found = []


def run(*words, text=""):
    return subprocess.run([PROGRAM, *words], input=text, text=True, check=True, capture_output=True).stdout


def measure(window, name, width, height, dark=False, scrolls=False):
    window.ask("Emulation.setEmulatedMedia", features=[{"name": "prefers-color-scheme", "value": "dark" if dark else "light"}])
    window.size(width, height)
    time.sleep(0.6)
    where = f"{name} at {width}x{height}{', dark' if dark else ''}"
    long, high, wide, across = window.value("[document.documentElement.scrollHeight, innerHeight, document.documentElement.scrollWidth, innerWidth]")
    if (long > high and not scrolls) or wide > across:
        found.append(f"{where} is {wide}x{long}")
    for text, ratio in window.value(FAINT):
        found.append(f"{where}: {text!r} has a contrast of {ratio}")
    for one in window.value(SMALL):
        found.append(f"{where}: #{one} is small")
    for many, what in [(window.value(LOW), "bids are low"), (window.value(HALF), "rows of the auction are half hidden")]:
        if many:
            found.append(f"{where}: {many} {what}")
    if FOLDER:
        os.makedirs(FOLDER, exist_ok=True)
        window.picture(os.path.join(FOLDER, f"{name}-{width}x{height}{'-dark' if dark else ''}.png"))


def measure_all(window, name, scrolls=False):
    for width, height in SIZES:
        measure(window, name, width, height, scrolls=scrolls)
    measure(window, name, 390, 844, dark=True, scrolls=scrolls)


def tops(window):
    """Where the hand begins, on tablets and laptops."""
    found_at = {}
    for width, height in [size for size in SIZES if min(size) >= 768]:
        window.size(width, height)
        time.sleep(0.3)
        found_at[width, height] = window.value("document.getElementById('hand').getBoundingClientRect().top")
    return found_at


def places(window):
    """Where the hands and what is pressed begin, at all sizes."""
    found_at = {}
    for width, height in SIZES:
        window.size(width, height)
        time.sleep(0.3)
        found_at[width, height] = window.value("['dummy', 'hand', 'dock'].map((id) => document.getElementById(id).getBoundingClientRect().top)")
    return found_at


def large_letters(window, name):
    """Letters twice as large, and the smallest screens: nothing stands beside the page."""
    window.ask("Page.setFontSizes", fontSizes={"standard": 32, "fixed": 26})
    for width in [390, 320]:
        window.size(width, 844)
        time.sleep(0.6)
        wide = window.value("document.documentElement.scrollWidth")
        if wide > width:
            found.append(f"{name} with large letters is {wide} pixels wide at {width}")
        window.ask("Page.setFontSizes", fontSizes={"standard": 16, "fixed": 13})


def main():
    with tempfile.TemporaryDirectory(ignore_cleanup_errors=True) as work:
        disk, config = os.path.join(work, "looks.disk"), os.path.join(work, "looks.txt")
        with open(os.path.join(EXAMPLES, "evening.txt"), encoding="ascii") as file:
            text = re.sub("|".join(map(re.escape, NAMES)), lambda name: NAMES[name.group()], file.read())
        with open(config, "w", encoding="ascii") as file:
            file.write(text)
        run("format", disk, config)
        server = Server(PROGRAM, disk, PORT)
        browser = Browser(os.path.join(work, "profile"))
        windows = {}

        def send(*lines):
            status, told = server.posted("/lines", "".join(line + "\n" for line in lines))
            assert status == 200 and set(told.split("\n")) <= {"OK", ""}, told
            time.sleep(1.2)

        try:
            login = Window(browser, f"http://127.0.0.1:{PORT}/")
            login.wait("document.getElementById('key')")
            measure_all(login, "login")
            for name, address in [("unknown", f"http://127.0.0.1:{PORT}/nothing"), ("wrong-host", f"http://0.0.0.0:{PORT}/")]:
                login.go(address)
                login.wait("document.querySelector('.login-key')")
                measure_all(login, name)
            for key in [*SEATS, DIRECTOR]:
                window = windows[key] = Window(browser, f"http://127.0.0.1:{PORT}/")
                window.wait("document.getElementById('key')")
                window.type("#key", key)
                window.key("Enter", 13, "\r")
                window.wait("!document.getElementById('menu').hidden")
            measure_all(windows[NORTH], "waiting")
            send(f"DEAL {DIRECTOR} 1 {DEAL}")
            send(*[f"CALL {SEATS[i % 4]} 1 {i} {call}" for i, call in enumerate(CALLS)])
            measure_all(windows[NORTH], "auction")
            measure_all(windows[EAST], "auction-waiting")
            large_letters(windows[NORTH], "auction")
            send(*[f"CALL {SEATS[i % 4]} 1 {12 + i} {call}" for i, call in enumerate(["3NT", "PASS", "PASS", "PASS"])])
            measure_all(windows[EAST], "lead")
            send(f"CARD {EAST} 1 0 D7")
            measure_all(windows[NORTH], "declarer")
            before = places(windows[NORTH])
            for name, words in [("noticed", f"{DIRECTOR} NOTICE {NOTICE}"), ("called", f"{NORTH} CALL Slow play"), ("answered", f"{DIRECTOR} ANSWERED 1")]:
                server.posted("/desk", words)
                time.sleep(1.5)
                moved = [size for size, tops_at in places(windows[NORTH]).items() if tops_at != before[size]]
                if moved:
                    found.append(f"{name}: what is told moves a hand at {moved}")
                measure_all(windows[NORTH], name)
                measure_all(windows[WEST], name + "-defender")
            server.posted("/desk", f"{DIRECTOR} NOTICE")
            measure_all(windows[WEST], "defender")
            windows[WEST].click("#menu")
            windows[WEST].click("#suits-four")
            measure_all(windows[WEST], "menu")
            windows[WEST].click("#chosen")
            measure_all(windows[WEST], "defender-four-colours")
            measure_all(windows[SOUTH], "dummy")
            large_letters(windows[SOUTH], "dummy")
            send(f"CARD {NORTH} 1 1 DK", f"CARD {WEST} 1 2 DA", f"CARD {NORTH} 1 3 D2", f"CARD {WEST} 1 4 D5", f"CARD {NORTH} 1 5 C2", f"CARD {EAST} 1 6 D9", f"CARD {NORTH} 1 7 D3")
            measure_all(windows[NORTH], "whole-trick")
            windows[NORTH].click("#claim-open")
            windows[NORTH].wait("document.getElementById('claiming')")
            measure_all(windows[NORTH], "claiming")
            windows[NORTH].click("#claim-back")
            before = tops(windows[WEST])
            send(f"CLAIM {NORTH} 1 0 9")
            moved = [size for size, top in tops(windows[WEST]).items() if top != before[size]]
            if moved:
                found.append(f"asked: a claim moves the hand at {moved}")
            measure_all(windows[DIRECTOR], "director", scrolls=True)
            windows[DIRECTOR].click("#open-1")
            windows[DIRECTOR].wait("document.querySelector('#opened .diagram')")
            measure_all(windows[DIRECTOR], "director-play", scrolls=True)
            windows[DIRECTOR].value("for (const one of document.querySelectorAll('#ruling details')) one.open = true")
            measure_all(windows[DIRECTOR], "director-opened", scrolls=True)
            large_letters(windows[DIRECTOR], "director-opened")
            for part in ["boards", "standings", "evening", "tables"]:
                windows[DIRECTOR].click(f"#tab-{part}")
                measure_all(windows[DIRECTOR], f"director-{part}", scrolls=True)
            measure_all(windows[WEST], "asked")
            measure_all(windows[NORTH], "claimed")
            windows[EAST].click("#agree")
            windows[NORTH].wait("document.body.innerText.includes('East agrees')")
            measure_all(windows[NORTH], "claimed-half")
            measure_all(windows[EAST], "agreed")
            measure_all(windows[WEST], "asked-half")
            for _ in range(2):
                windows[WEST].click("#refuse")
                time.sleep(0.6)
            windows[NORTH].wait("document.body.innerText.includes('does not agree')")
            measure_all(windows[NORTH], "refused")
            measure_all(windows[WEST], "refused-by-you")
            send(f"CLAIM {NORTH} 1 1 9")
            server.posted("/desk", f"{NORTH} STATEMENT {SAID}")
            send(f"AGREE {EAST} 1 2")
            measure_all(windows[WEST], "asked-said")
            send(f"AGREE {WEST} 1 2")
            windows[NORTH].wait("document.getElementById('band')")
            measure_all(windows[NORTH], "over", scrolls=True)
            for _ in range(7):
                windows[NORTH].click("#step-on")
            measure_all(windows[NORTH], "over-stepped", scrolls=True)
            for width, height in SIZES:
                windows[NORTH].size(width, height)
                time.sleep(0.3)
                low = windows[NORTH].value("Math.max(...[...document.querySelectorAll('#onward, .diagram .suit-line')].map((one) => one.getBoundingClientRect().bottom))")
                if (width, height) in [(360, 640), (390, 844)] and low > height or windows[NORTH].value("document.getElementById('onward').getBoundingClientRect().bottom") > height:
                    found.append(f"over at {width}x{height}: the hands or the way on are below the screen")
            large_letters(windows[NORTH], "over")
            windows[NORTH].click("#my-boards")
            windows[NORTH].wait("document.getElementById('card')")
            measure_all(windows[NORTH], "boards", scrolls=True)
            large_letters(windows[NORTH], "boards")
            for board in [2, 3]:
                send(f"DEAL {DIRECTOR} {board} {DEAL}", *[f"CALL {SEATS[(board - 1 + i) % 4]} {board} {i} PASS" for i in range(4)])
            server.posted("/desk", f"{DIRECTOR} CLOCK 6")
            windows[EAST].click("#onward")
            windows[EAST].wait("document.querySelector('.round .now')")
            measure_all(windows[EAST], "between", scrolls=True)
            large_letters(windows[EAST], "between")
            server.posted("/desk", f"{DIRECTOR} NOTICE {NOTICE}")
            time.sleep(1.5)
            measure_all(windows[EAST], "between-noticed", scrolls=True)
        finally:
            browser.close()
            server.kill()
    for one in found:
        print(f"looks: {one}", file=sys.stderr)
    if found:
        sys.exit(1)
    print("looks: nothing found")


main()
