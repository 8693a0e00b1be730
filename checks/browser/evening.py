"""Plays examples/two_tables_lines.txt by clicks in eight windows of a real browser, and the director's lines in a ninth.

    evening.py PROGRAM [FOLDER]      (pictures go to FOLDER)

The server is killed and started again, and a window loaded anew, in the middle of a trick. At each step no player's document
has a card that he may not see. In the end `rank` and `pbn` are, byte for byte, what `script` makes of the same lines, and no
console has a word. Then what other sites may try."""
import http.client
import http.server
import json
import os
import socket
import subprocess
import sys
import tempfile
import threading
import time

from chromium import Browser, Window
from server import Server, complaints, pictures

PROGRAM = os.path.abspath(sys.argv[1])
PICTURES = sys.argv[2] if len(sys.argv) > 2 else None
EXAMPLES = os.path.join(os.path.dirname(os.path.abspath(__file__)), "..", "..", "examples")
PORT = 47400
SEATS = "NESW"
SUITS = "SHDC"
RANKS = {"ace": "A", "king": "K", "queen": "Q", "jack": "J", "10": "T"}
SUIT_NAMES = {"spades": "S", "hearts": "H", "diamonds": "D", "clubs": "C"}
# Every card that the document names or shows.
CARDS = """[...document.querySelectorAll('[id^="card-"], [aria-label*=" of "], .played')].map((node) => node.id || node.getAttribute('aria-label'))"""


def program(*words, **options):
    return subprocess.run([PROGRAM, *words], check=True, capture_output=True, **options).stdout


def lines_of(name):
    with open(os.path.join(EXAMPLES, name), encoding="ascii") as file:
        return file.read().splitlines()


def hands_of(deal):
    """The cards of each seat in `N:AKQ.. ..`."""
    first, *others = deal.split(" ")
    hands = {}
    for i, text in enumerate([first[2:], *others]):
        seat = SEATS[(SEATS.index(first[0]) + i) % 4]
        hands[seat] = {suit + rank for suit, ranks in zip(SUITS, text.split(".")) for rank in ranks}
    return hands


def card_of(text):
    """A card of an id or a label."""
    if text.startswith("card-"):
        return text[5:]
    rank, suit = text.split(": ")[-1].split(" of ")
    return SUIT_NAMES[suit] + RANKS.get(rank, rank)


class Table:
    """What was played at a table, for what may be shown there."""

    def __init__(self, seats):
        self.seats = seats
        self.declarer = None
        self.played = []

    def may_see(self, hands, seat):
        seen = set(hands[seat]) | set(self.played)
        if self.played:
            seen |= hands[SEATS[(SEATS.index(self.declarer) + 2) % 4]]
        return seen


def check_cards(windows, tables, hands):
    for table in tables:
        for key, seat in table.seats.items():
            shown = {card_of(text) for text in windows[key].value(CARDS)}
            hidden = shown - table.may_see(hands, seat)
            assert not hidden, f"{key} in {seat} is shown {hidden}"


def picture(window, name):
    pictures(window, PICTURES, name)


def director_sends(window, line):
    words = line.split(" ")
    without_key = " ".join([words[0], *words[2:]])
    window.wait("document.getElementById('lines')")
    if window.value("document.getElementById('on-evening').hidden"):
        window.click("#tab-evening")
        window.wait("!document.getElementById('on-evening').hidden")
    window.type("#box", without_key)
    window.value("document.getElementById('replies').textContent = ''")
    window.click("#send")
    window.wait("document.getElementById('replies').textContent !== ''")
    reply = window.value("document.getElementById('replies').textContent")
    assert reply == "OK\n", reply


def goes_on(window):
    """From a board that is over, which the page shows until the player goes on."""
    if window.value("Boolean(document.getElementById('band'))"):
        window.click("#onward")
        window.wait("!document.getElementById('band')")


def play(window, line):
    """One line by clicks; it was taken once the page shows so."""
    words = line.split(" ")
    goes_on(window)
    if words[0] == "CLAIM":
        window.click("#claim-open")
        window.click(f"#claim-{words[4]}")
    pressed = {"CALL": f"#call-{words[-1]}", "CARD": f"#card-{words[-1]}", "CLAIM": "#claim-button", "AGREE": "#agree", "REFUSE": "#refuse"}[words[0]]
    # A click just after the table has moved counts for nothing.
    window.wait(f"document.querySelector('{pressed}') && !document.querySelector('{pressed}').disabled && !isDeaf({{ detail: 1 }})")
    before = window.value("document.body.innerText")
    if words[0] == "REFUSE" or words[-1][0] in "67" and words[0] == "CALL" or words[-1] in ["X", "XX"]:
        # What is asked wants a second click, that does not follow at once.
        window.click(pressed)
        window.wait("marked !== null && Date.now() - marked.at >= TWICE")
    window.click(pressed)
    window.wait(f"!busy && document.body.innerText !== {json.dumps(before)}")
    notice = window.value("document.getElementById('notice').textContent")
    due = "You have refused the claim. Play goes on; call the director if need be." if words[0] == "REFUSE" else ""
    assert notice == due, f"{line}: {notice}"


def asked(method, path, body=None, **headers):
    connection = http.client.HTTPConnection("127.0.0.1", PORT, timeout=10)
    named = {name.replace("_", "-"): value for name, value in headers.items()}
    connection.request(method, path, body, named)
    response = connection.getresponse()
    response.read()
    return response.status


def other_sites(browser, disk):
    """A page of another port tries forms, fetches, a frame and the script; names that are not the server's are refused."""
    page = f"""<!doctype html><iframe id="frame" src="http://127.0.0.1:{PORT}/"></iframe>
<form id="form" method="post" enctype="text/plain" target="sink" action="http://127.0.0.1:{PORT}/lines"><input name="VOID 100 1 1 1" value=""></form><iframe name="sink"></iframe>"""

    class Page(http.server.BaseHTTPRequestHandler):
        def do_GET(self):
            self.send_response(200)
            self.send_header("content-type", "text/html")
            self.end_headers()
            self.wfile.write(page.encode())

        def log_message(self, *_words):
            pass

    site = http.server.ThreadingHTTPServer(("127.0.0.1", PORT + 1), Page)
    threading.Thread(target=site.serve_forever, daemon=True).start()
    window = Window(browser, f"http://127.0.0.1:{PORT + 1}/")
    window.wait("document.getElementById('form')")
    tries = {
        "a fetch": "fetch(A + '/lines', { method: 'POST', body: B })",
        "a fetch with the type": "fetch(A + '/lines', { method: 'POST', body: B, headers: { 'content-type': 'application/x-table-lines' } })",
        "a page": "fetch(A + '/')",
    }
    for name, text in tries.items():
        got = window.value(f"(() => {{ const A = 'http://127.0.0.1:{PORT}', B = 'VOID 100 1 1 1\\n'; return {text}.then(() => 'answered', () => 'refused'); }})()")
        assert got == "refused", f"{name} of another site is {got}"
    window.value(f"fetch('http://127.0.0.1:{PORT}/lines', {{ method: 'POST', mode: 'no-cors', body: 'VOID 100 1 1 1\\n' }}).then(() => 1, () => 0)")
    window.value(f"navigator.sendBeacon('http://127.0.0.1:{PORT}/lines', 'VOID 100 1 1 1\\n')")
    window.value("document.getElementById('form').submit()")
    time.sleep(1)
    lines = {"content_type": "application/x-table-lines"}
    assert asked("POST", "/lines", "SYNC\n", **lines) == 200
    assert asked("POST", "/lines", "SYNC\n", content_type="text/plain") == 415
    assert asked("POST", "/lines", "SYNC\n", host=f"evil.test:{PORT}", **lines) == 421
    assert asked("GET", "/", host=f"localhost:{PORT}") == 200
    assert asked("GET", "/nothing") == 404
    assert asked("DELETE", "/lines") == 405
    assert asked("POST", "/lines", "A" * 70000, **lines) == 413
    site.shutdown()


def crowded():
    """Where one address takes all places that there are, another is let in, and neither has more than half of them."""
    held = []
    for _ in range(140):
        held.append(socket.create_connection(("127.0.0.1", PORT)))
    other = socket.create_connection(("127.0.0.1", PORT), timeout=10, source_address=("127.0.0.2", 0))
    other.sendall(f"GET /nothing HTTP/1.1\r\nHost: 127.0.0.1:{PORT}\r\n\r\n".encode())
    assert other.recv(100).startswith(b"HTTP/1.1 404"), "another address is not let in"
    time.sleep(0.5)
    left = 0
    for one in held:
        one.setblocking(False)
        try:
            one.recv(1)
        except BlockingIOError:
            left += 1
        except ConnectionResetError:
            pass
        one.close()
    other.close()
    # The nine windows have some of the places of this address.
    assert 30 <= left <= 64, f"one address has {left} places beside another"


def leaves(window):
    """Who leaves is asked for a key, in the next seconds too and on a page loaded anew, and the window keeps none."""
    window.click("#menu")
    window.click("#leave")
    window.click("#leave")
    for is_loaded_anew in [False, True]:
        if is_loaded_anew:
            window.go(f"http://127.0.0.1:{PORT}/")
        window.wait("document.getElementById('key')")
        time.sleep(2.5)
        assert window.value("document.getElementById('key') && document.getElementById('key').value === ''"), "who left is shown a table"
        assert window.value("sessionStorage.length + localStorage.length + document.cookie.length") == 0, "a key is kept"


def boards_over(windows, tables):
    """Each player is shown the board that he played last, with its result, its hands and its play, until he goes on."""
    for table in tables:
        told = set()
        for key, seat in table.seats.items():
            window = windows[key]
            window.wait("document.getElementById('band')")
            told.add(window.value("document.getElementById('band').querySelector('.large').textContent").split(" by ")[0])
            shown = window.value("document.querySelectorAll('.diagram .suit-line').length")
            assert shown == 16, f"{key} sees {shown} suits"
            if table.played:
                window.click("#step-end")
                window.wait("document.getElementById('step-on').disabled")
                gone = window.value("document.querySelectorAll('.diagram s').length")
                assert gone == len(table.played), f"{key} sees {gone} cards gone of {len(table.played)}"
            goes_on(window)
        assert len(told) == 1, told


def main():
    config = [line.split(" ") for line in lines_of("rows.txt")]
    keys = {line[1]: (line[3], line[5]) for line in config if line[0] == "PAIR"}
    tables = []
    for row in (line for line in config if line[0] == "ROW"):
        ns, ew = keys[row[3]], keys[row[4]]
        tables.append(Table({ns[0]: "N", ew[0]: "E", ns[1]: "S", ew[1]: "W"}))
    at_table = {key: table for table in tables for key in table.seats}
    lines = lines_of("two_tables_lines.txt")
    hands = next(hands_of(line.split(" ", 3)[3]) for line in lines if line.startswith("DEAL"))
    declarers = ["N", "N"]
    with tempfile.TemporaryDirectory(ignore_cleanup_errors=True) as work:
        disk, other = os.path.join(work, "web.disk"), os.path.join(work, "script.disk")
        for path in [disk, other]:
            program("format", path, os.path.join(EXAMPLES, "rows.txt"))
        program("script", other, input="\n".join(lines).encode() + b"\n")
        server = Server(PROGRAM, disk, PORT)
        browser = Browser(os.path.join(work, "profile"))
        try:
            windows = {key: Window(browser, f"http://127.0.0.1:{PORT}/") for key in [*at_table, "100"]}
            for key, window in windows.items():
                window.wait("document.getElementById('key')")
                if key == "11":
                    picture(window, "login")
                window.type("#key", key)
                window.key("Enter", 13, "\r")
                window.wait("!document.getElementById('menu').hidden")
            picture(windows["11"], "waiting")
            steps = 0
            for line in lines:
                word, key = line.split(" ")[:2]
                if key == "100":
                    director_sends(windows[key], line)
                    continue
                if word == "SEE":
                    continue
                table = at_table[key]
                if word == "CARD":
                    table.declarer = declarers[tables.index(table)]
                play(windows[key], line)
                if word == "CARD":
                    table.played.append(line.split(" ")[4])
                check_cards(windows, tables, hands)
                steps += 1
                if word == "CALL" and table.seats[key] == "E" and tables.index(table) == 0:
                    picture(windows["12"], "auction")
                if len(table.played) == 6 and word == "CARD" and PICTURES:
                    time.sleep(1.2)
                    for seat in ["11", "12", "31"]:
                        picture(windows[seat], f"play_{seat}")
                if len(table.played) == 10 and word == "CARD":
                    # The server dies in the middle of a trick, and a player loads the page anew.
                    server.kill()
                    time.sleep(1.5)
                    server.start()
                    windows[key].go(f"http://127.0.0.1:{PORT}/")
                    windows[key].wait("document.querySelectorAll('#main button').length > 0")
                if word == "CLAIM":
                    time.sleep(1.2)
                    picture(windows["31" if key == "11" else "41"], f"claim_{key}_{steps}")
            boards_over(windows, tables)
            windows["11"].wait("document.getElementById('main').innerText.includes('Ranking')")
            picture(windows["11"], "closed")
            picture(windows["100"], "director")
            leaves(windows["12"])
            assert not complaints(windows), complaints(windows)
            other_sites(browser, disk)
            crowded()
        finally:
            browser.close()
            server.kill()
        for command in ["rank", "pbn"]:
            assert program(command, disk) == program(command, other), f"{command} differs"
    print(f"{steps} clicks in 8 windows, each shown on the disk; rank and pbn are those of script; no card was shown that is hidden; other sites are refused")


main()
