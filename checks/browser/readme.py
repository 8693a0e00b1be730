"""Takes the two pictures of README: a player's page in the middle of a play, and the page of results.

readme.py PROGRAM EXAMPLES FOLDER
"""
import os
import subprocess
import sys
import tempfile
import time

from chromium import Browser, Window
from server import Server

PROGRAM, EXAMPLES, FOLDER = [os.path.abspath(word) for word in sys.argv[1:4]]
PORT = 27451
# The keys of table 1 of both configurations.
KEYS = {"11": "40213", "12": "71850", "31": "26751", "32": "60482"}


def lines():
    """The lines of table 1 of the evening of two tables, as they came."""
    with open(os.path.join(EXAMPLES, "two_tables_lines.txt"), encoding="ascii") as file:
        return [line.split() for line in file.read().splitlines()]


def run(*words, text=""):
    return subprocess.run([PROGRAM, *words], input=text, text=True, check=True, capture_output=True).stdout


def table_picture(work):
    disk = os.path.join(work, "table.disk")
    run("format", disk, os.path.join(EXAMPLES, "evening.txt"))
    deal = next(line for line in lines() if line[0] == "DEAL")
    played = [[word, KEYS[key], *rest] for word, key, *rest in lines() if key in KEYS and word in ("CALL", "CARD")]
    text = [" ".join(["DEAL", "52817", *deal[2:]])] + [" ".join(line) for line in played[:-2]]
    run("script", disk, text="\n".join(text) + "\n")
    server = Server(PROGRAM, disk, PORT)
    browser = Browser(os.path.join(work, "browser"))
    window = Window(browser, f"http://127.0.0.1:{PORT}/", 1024, 768)
    window.wait("document.getElementById('key')")
    window.type("#key", KEYS["11"])
    window.key("Enter", 13, "\r")
    window.wait("document.body.innerText.includes('6')")
    time.sleep(1)
    window.picture(os.path.join(FOLDER, "table.png"))
    browser.close()
    server.kill()


def results_picture(work):
    disk, page = os.path.join(work, "results.disk"), os.path.join(work, "results.html")
    run("format", disk, os.path.join(EXAMPLES, "rows.txt"))
    run("script", disk, text="\n".join(" ".join(line) for line in lines()) + "\n")
    with open(page, "w", encoding="utf-8") as file:
        file.write(run("results", disk, "--html", "--no-analysis"))
    browser = Browser(os.path.join(work, "browser"))
    window = Window(browser, f"file://{page}", 1024, 768)
    time.sleep(1)
    window.picture(os.path.join(FOLDER, "results.png"))
    browser.close()


with tempfile.TemporaryDirectory(ignore_cleanup_errors=True) as folder:
    table_picture(folder)
    results_picture(folder)
