"""An evening of seven tables, one of them half, that the director runs by clicks alone, over `bridge_club web`.

    director.py PROGRAM [FOLDER [ROUNDS]]      (pictures go to FOLDER; 7 rounds when left out)

The players' lines are posted with their keys. What is looked at: that the director's page does what its buttons say, that a
round ends by its button alone and no sooner than all tables are done, that the page goes on by itself over a server that is
killed, that the ranking and the results shown in the end are what `rank` and `results` print, that `script` makes the same
ranking, results and games of all lines that were sent, and `correct` of the corrections among them, and that nothing of the
director's comes to a player."""
import itertools
import os
import random
import re
import subprocess
import sys
import tempfile
import time

sys.path.append(os.path.join(os.path.dirname(os.path.abspath(__file__)), "..", "salliere"))
import plays
from chromium import Browser, Window
from server import Server, complaints, pictures

PROGRAM = os.path.abspath(sys.argv[1])
PICTURES = sys.argv[2] if len(sys.argv) > 2 and sys.argv[2] else None
ROUNDS = int(sys.argv[3]) if len(sys.argv) > 3 else 7
DEAL = "N:AKQJ.T98.765.432 T98.765.432.AKQJ 765.432.AKQJ.T98 432.AKQJ.T98.765"
EVENING = os.path.join(os.path.dirname(os.path.abspath(__file__)), "..", "..", "examples", "evening.txt")
PORT = 47410
TABLES = 7
# At the last table nobody sits North and South, so that in each round a pair sits out.
PLAYED = range(1, TABLES)
BOARDS = 3
# The lines that change a session.
CHANGES = ["DEAL", "SHUFFLE", "CALL", "CARD", "CLAIM", "AGREE", "REFUSE", "NEXT", "TRICKS", "VOID", "RESTORE", "ADJUST"]
# The corrections, which `correct` takes in place of `script`.
CORRECTIONS = ["BACK", "UNDEAL", "ASSIGN"]
# The elements that the director's page alone has.
OWN = ["tables", "told", "opened", "ruled", "others", "end-round", "dealing", "ruling", "solving", "ranking", "publishing", "lines", "box"]


def text_of(element):
    return f"document.getElementById('{element}').textContent"


# The board whose tile is pressed.
PRESSED = "document.querySelector('#plays [aria-pressed=true] b')?.textContent"


def guests(round_, table):
    """The pair of East and West: they go up a table after each round."""
    return TABLES + (table - round_) % TABLES


def half_table():
    """The configuration of the example without its seventh pair, so that the last table has nobody in North and South."""
    with open(EVENING, encoding="ascii") as file:
        lines = file.read().splitlines()
    rows = [f"ROW {round_} {table} {table % TABLES} {guests(round_, table)} {(table + round_ - 2) % TABLES + 1}"
            for round_ in range(1, TABLES + 1) for table in range(1, TABLES + 1)]
    pairs = [line.split(" ", 2)[2] for line in lines if line.startswith("PAIR ") and not line.startswith("PAIR 7 ")]
    head = [line for line in lines if line.split()[0] in ["EVENT", "SITE", "DATE", "SCORING", "BOARDS"]]
    director = [line for line in lines if line.startswith("DIRECTOR")]
    movement = [f"MOVEMENT {TABLES} {TABLES} {TABLES} {len(pairs)} {TABLES - 1}"]
    return head + movement + rows + director + [f"PAIR {number} {pair}" for number, pair in enumerate(pairs, 1)]


class Evening:
    """The server, the director's window, and what was said to players."""

    def __init__(self, work):
        config = half_table()
        self.config = os.path.join(work, "half.txt")
        with open(self.config, "w", encoding="ascii") as file:
            file.write("\n".join(config) + "\n")
        words = [line.split() for line in config]
        self.director = next(line[1] for line in words if line[0] == "DIRECTOR")
        self.keys = {int(line[1]): (line[3], line[5]) for line in words if line[0] == "PAIR"}
        self.disk = os.path.join(work, "web.disk")
        subprocess.run([PROGRAM, "format", self.disk, self.config], check=True, stdout=subprocess.DEVNULL)
        self.posted = []
        self.server = Server(PROGRAM, self.disk, PORT)
        self.browser = Browser(os.path.join(work, "profile"))
        self.chance = random.Random(7)
        self.windows = {}

    def enter(self, key):
        """A window in which the key was typed."""
        window = Window(self.browser, f"http://127.0.0.1:{PORT}/")
        window.wait("document.getElementById('key')")
        window.type("#key", key)
        window.key("Enter", 13, "\r")
        window.wait("!document.getElementById('menu').hidden")
        self.windows[key] = window
        return window

    def lines(self, *lines):
        """Replies to lines of players, of which none may tell what is the director's."""
        self.posted.append((time.time(), lines))
        status, text = self.server.posted("/lines", "".join(line + "\n" for line in lines))
        assert status == 200, status
        for word in [self.director, "TABLE ", "BOARDS ", "ROUND "]:
            assert word not in text, f"{lines}: {text}"
        return text

    def corrected(self, line):
        """A correction that is done."""
        self.posted.append((time.time(), [line]))
        assert self.server.posted("/correct", line + "\n") == (200, "OK\n"), line

    def row_keys(self, round_, table):
        """The keys from North clockwise."""
        ns, ew = self.keys[table], self.keys[guests(round_, table)]
        return [ns[0], ew[0], ns[1], ew[1]]

    def first_board(self, round_, table):
        """The sets go down a table after each round."""
        return BOARDS * ((table + round_ - 2) % TABLES) + 1

    def hands(self, keys):
        """The cards of the four players, as each sees his own."""
        told = self.lines(*(f"SEE {key}" for key in keys))
        hands = [line.split()[1] for line in told.splitlines() if line.startswith("HAND ")]
        return [[suit + rank for suit, ranks in zip("SHDC", hand.split(".")) for rank in ranks] for hand in hands]

    def play(self, round_, table, board, tricks=None):
        """A play by lines of the four players."""
        keys = self.row_keys(round_, table)
        calls = plays.draw_calls(self.chance)
        while tricks and plays.contract_of(calls, plays.dealer_of(board)) is None:
            calls = plays.draw_calls(self.chance)
        lines = plays.play_lines(self.chance, board, keys, self.hands(keys), calls, self.chance.randrange(6, 11), tricks)
        replies = self.lines(*lines)
        assert replies == "OK\n" * len(lines), f"{lines}: {replies}"


    def clicked(self):
        """When the director's page sent which lines."""
        sent = self.browser.events_of("Network.requestWillBeSent", self.windows[self.director].session)
        return [(one["wallTime"], one["request"]["postData"].splitlines()) for one in sent if one["request"]["url"].endswith(("/lines", "/correct"))]

    def changes(self):
        """All lines that may have changed the session, in the order in which they were sent."""
        sent = sorted(self.posted + self.clicked(), key=lambda one: one[0])
        return [line for _, lines in sent for line in lines if line.split()[0] in CHANGES + CORRECTIONS]


def unfold(window):
    """Opens each ruling that is folded together by a click of its heading."""
    for number in range(1, window.value("document.querySelectorAll('#ruling details').length") + 1):
        if not window.value(f"document.querySelector('#ruling details:nth-of-type({number})').open"):
            window.click(f"#ruling details:nth-of-type({number}) summary")


def shows(window, evening, play):
    """Chooses a play where it is not in sight: round and table from their lists, by a digit, and then the board's tile."""
    round_, table, board = play
    first = evening.first_board(round_, table)
    if window.value(f"{text_of('below')} !== 'Ruling · table {table}, round {round_}' || {PRESSED} !== '{board}'"):
        for field, number in [("rule-round", round_), ("rule-table", table)]:
            if window.value(f"document.getElementById('{field}').value !== '{number}'"):
                window.value(f"document.getElementById('{field}').focus()")
                window.key(str(number), ord(str(number)), str(number))
        window.wait(f"document.querySelectorAll('#plays .tile').length === {BOARDS} && {text_of('plays')}.includes('{first + BOARDS - 1} ')")
        window.click(f"#play-{board - first + 1}")
        window.wait(f"{PRESSED} === '{board}' && document.getElementById('opened-back')")
    unfold(window)


class Page:
    """The director's page, by clicks."""

    def __init__(self, evening):
        self.evening = evening
        self.window = evening.enter(evening.director)
        self.window.wait("document.querySelectorAll('#tables tbody tr').length === 7")
        self.window.value("window.loadedOnce = true")

    def open(self, part):
        """Another part of the page in sight."""
        if self.window.value(f"document.getElementById('on-{part}').hidden"):
            self.window.click(f"#tab-{part}")
            self.window.wait(f"!document.getElementById('on-{part}').hidden")

    def told(self, expected):
        self.window.wait(f"{text_of('told')} === {expected!r}")

    def number(self, field, number):
        self.window.type(f"#{field}", str(number))

    def choose(self, field, steps):
        """The choice so many steps below the first, by keys."""
        self.window.value(f"document.getElementById('{field}').focus()")
        self.window.key("Home", 36)
        for _ in range(steps):
            self.window.key("ArrowDown", 40)

    def show(self, play):
        """The play of (round, table, board), by the lists and the board's tile."""
        self.open("rulings")
        shows(self.window, self.evening, play)

    def rule(self, button, play, what):
        """A ruling on (round, table, board), left at its question, then done."""
        self.show(play)
        name = "{}, round {}, table {}, board {}".format(what, *play)
        for answer in ["no", "yes"]:
            self.window.click(f"#{button}")
            self.window.wait(f"document.querySelector('#rule-question h2') && document.querySelector('#rule-question h2').textContent === {name + '?'!r}")
            self.told("")
            if answer == "yes":
                pictures(self.window, PICTURES, button)
            self.window.click(f"#{answer}")
            self.window.wait("document.getElementById('rule-question').childNodes.length === 0")
            if answer == "no":
                time.sleep(0.5)
                self.told("")
        self.told(f"{name}: done.")

    def may_end(self):
        return not self.window.value("document.getElementById('end-round').disabled")

    def end_round(self, round_):
        self.open("tables")
        self.window.wait("!document.getElementById('end-round').disabled")
        self.window.click("#end-round")
        question = f"End round {round_}" + (", and close the session?" if round_ == 7 else "?")
        self.window.wait(f"document.querySelector('#end-question h2').textContent === {question!r}")
        self.window.click("#no")
        self.window.wait("document.getElementById('end-question').childNodes.length === 0")
        self.window.click("#end-round")
        self.window.click("#yes")
        self.told(f"End of round {round_}: done.")

    def ranking(self, field):
        return self.window.value(f"[...[...document.querySelectorAll('[aria-label^=Places]')][{field - 1}].tBodies[0].rows].map((row) => [...row.cells].filter((cell) => !cell.matches('.who')).map((cell) => cell.textContent).join(' '))")

    def goes_on(self):
        assert self.window.value("window.loadedOnce === true"), "the page was loaded anew"


def is_a_players(evening, key):
    """No part of the director's page, and no key but his own."""
    window = evening.windows[key]
    found = window.value(f"{OWN}.filter((id) => document.getElementById(id))")
    assert found == [], f"{key} has {found}"
    document = window.value("document.documentElement.outerHTML + JSON.stringify({ ...sessionStorage, ...localStorage })")
    others = [other for keys in evening.keys.values() for other in keys if other != key] + [evening.director]
    assert not [other for other in others if other in document], f"the page of {key} has another's key"


def is_refused(evening, closed):
    """What the director may ask and do, with each player's key."""
    for keys in evening.keys.values():
        for key in keys:
            assert evening.server.posted("/tables", key) == (200, "ERR 2 NotAllowed\n")
            lines = [f"SHUFFLE {key} 1 {'0' * 64}", f"NEXT {key} 1", f"VOID {key} 1 1 1", f"RESTORE {key} 1 1 1", f"ADJUST {key} 1 1 1 60 40",
                     f"TRICKS {key} 1 1 1 7", f"SOLVE {key} 1 1 1 52", f"PBN {key}"]
            assert evening.lines(*lines) == "ERR 2 NotAllowed\n" * len(lines)
            if not closed:
                assert evening.server.posted("/results", key) == (200, "ERR 2 NotAllowed\n")
                assert evening.lines(f"RANK {key} 1") == "ERR 2 NotAllowed\n"


def deal(page, work):
    """A board by its text, one by a file, the others by a shuffle; then all of them again, which is refused."""
    page.open("boards")
    page.window.type("#deal-text", f"1 {DEAL}\n22 {DEAL}")
    page.window.click("#deal")
    page.window.wait("document.getElementById('deal-question').innerText.startsWith('Deal board 1?')")
    assert page.window.value("document.getElementById('deal-question').innerText.includes('The session has no board 22: left out.')")
    page.window.click("#yes")
    page.told("Dealt: 1.")
    path = os.path.join(work, "deals.pbn")
    with open(path, "w", encoding="ascii") as file:
        file.write(f'% PBN 2.1\r\n[Event ""]\r\n[Board "2"]\r\n[Dealer "E"]\r\n[Deal "{DEAL}"]\r\n')
    page.window.choose_file("#deal-file", path)
    page.window.wait("document.getElementById('deal-text').value.includes('PBN 2.1')")
    page.window.click("#deal")
    page.window.click("#yes")
    page.told("Dealt: 2.")
    page.window.wait("document.getElementById('shuffle-last').value === '21'")
    is_asked(page, "#shuffle", "deal-question", "Shuffle boards 1 to 21", "no")
    page.told("")
    is_asked(page, "#shuffle", "deal-question", "Shuffle boards 1 to 21", "yes")
    page.told("Dealt: " + ", ".join(map(str, range(3, 22))) + ". Boards 1, 2: already dealt.")
    page.window.wait("document.getElementById('dealt-counts').textContent === 'dealt, 21'")
    is_asked(page, "#shuffle", "deal-question", "Shuffle boards 1 to 21", "yes")
    page.told("No board was dealt. Boards " + ", ".join(map(str, range(1, 22))) + ": already dealt.")


def is_asked(page, button, box, what, answer):
    """A button whose question is read and answered."""
    page.window.click(button)
    page.window.wait(f"document.querySelector('#{box} h2') && document.querySelector('#{box} h2').textContent === {what + '?'!r}")
    page.window.click(f"#{answer}")
    page.window.wait(f"document.getElementById('{box}').childNodes.length === 0")


def undeal(page):
    """The deal of the last board is taken back, once the question is answered, and the board dealt again."""
    what = "Take back the deal of board 21"
    page.number("undeal-board", 21)
    is_asked(page, "#undeal", "deal-question", what, "no")
    page.told("")
    is_asked(page, "#undeal", "deal-question", what, "yes")
    page.told(f"{what}: done.")
    is_asked(page, "#shuffle", "deal-question", "Shuffle boards 1 to 21", "yes")
    page.told("Dealt: 21. Boards " + ", ".join(map(str, range(1, 21))) + ": already dealt.")


def take_back(evening, page, board):
    """A call at table 1 is taken back from its table's part of the page; the board is not undealt once a call was made on it."""
    keys = evening.row_keys(1, 1)
    dealer = plays.dealer_of(board)
    first, second = [f"CALL {keys[(dealer + at) % 4]} {board} {at} {call}" for at, call in enumerate(["1S", "2H"])]
    assert evening.lines(first, second) == "OK\nOK\n"
    time.sleep(1)
    page.open("tables")
    page.window.click("#open-1")
    page.window.wait("document.getElementById('opened-back') && !document.getElementById('opened-back').disabled")
    seat = ["North", "East", "South", "West"][(dealer + 1) % 4]
    call = page.window.value("callName('2H')")
    what = f"Take back {seat}'s {call}, table 1, board {board}"
    is_asked(page, "#opened-back", "rule-question", what, "no")
    page.told("")
    is_asked(page, "#opened-back", "rule-question", what, "yes")
    page.told(f"{what}: done.")
    page.window.click("#opened-close")
    assert evening.lines(second) == "OK\n", "the call cannot be made again"
    status, text = evening.server.posted("/correct", f"UNDEAL {evening.director} {board}\nBACK {keys[0]} 1 1 1\n")
    assert (status, text) == (200, "ERR 53 BoardBegun\nERR 2 NotAllowed\n"), text
    for _ in range(2):
        evening.corrected(f"BACK {evening.director} 1 1 1")


def killed(evening, page):
    """The server dies; a click while it is away says that no answer came, and the page goes on by itself."""
    page.open("standings")
    evening.server.kill()
    page.window.wait(f"{text_of('status')} === 'The server does not answer. Trying again.'")
    page.window.click("#rank")
    page.told("No answer came.")
    pictures(page.window, PICTURES, "away")
    evening.server.start()
    page.window.wait(f"{text_of('status')}.startsWith('Round ')")
    page.window.click("#rank")
    page.told("")
    page.window.wait("document.querySelectorAll('#rankings h2').length === 2")
    page.goes_on()


def first_round(evening, page):
    """Round 1, with rulings and a server that dies; the button stays grey until the last table is done."""
    for table in PLAYED:
        first = evening.first_board(1, table)
        for board in range(first, first + BOARDS):
            time.sleep(1.2)
            assert not page.may_end(), f"the round may be ended while table {table} has board {board}"
            if (table, board) == (1, first):
                take_back(evening, page, board)
            if (table, board) == (3, first + 1):
                page.rule("rule-void", (1, 3, board), "Take the play out")
                page.rule("rule-restore", (1, 3, board), "Take the ruling back")
                page.rule("rule-void", (1, 3, board), "Take the play out")
            elif (table, board) == (5, first):
                page.show((1, 5, board))
                for side in ["per-NS-60", "per-EW-40"]:
                    page.window.click(f"#{side}")
                page.rule("rule-average", (1, 5, board), "Award 60 and 40 per cent")
            elif (table, board) == (6, first):
                page.show((1, 6, board))
                page.choose("assign-bid", 18)
                page.choose("assign-tricks", 11)
                page.rule("rule-assign", (1, 6, board), "Assign a score")
            else:
                evening.play(1, table, board, 8 if (table, board) == (2, first) else None)
        if table == 2:
            solve(evening, page, first)
        if table == 4:
            killed(evening, page)
        for key in list(evening.windows)[1:]:
            is_a_players(evening, key)
    opens(evening, page)
    page.show((1, 2, evening.first_board(1, 2)))
    page.choose("rule-tricks", 11)
    page.rule("rule-set", (1, 2, evening.first_board(1, 2)), "Set declarer's tricks to 11")
    pictures(page.window, PICTURES, "round_is_done")
    page.end_round(1)


def solve(evening, page, board):
    """What the page says of the ending after eight tricks is what a line is answered."""
    page.show((1, 2, board))
    page.choose("solve-tricks", 1)
    page.window.click("#solve")
    _, text = evening.server.posted("/lines", f"SOLVE {evening.director} 1 2 1 32\n")
    ok, ns, ew = text.split()
    assert ok == "OK" and int(ns) + int(ew) == 5, text
    page.window.wait(f"{text_of('solved')} === 'Of the tricks left North and South can win {ns}, and East and West {ew}.'")


def opens(evening, page):
    """A table that was done is opened, and a ruling; what is shown is what was played there, and who played it."""
    page.open("tables")
    page.window.click("#open-2")
    page.window.wait("document.getElementById('opened').querySelectorAll('.suit-line').length === 16")
    first = evening.first_board(1, 2)
    page.window.wait(f"{PRESSED} === '{first}'")
    page.window.click("#play-2")
    page.window.wait(f"{PRESSED} === '{first + 1}'")
    pictures(page.window, PICTURES, "opened")
    page.window.click("#opened-close")
    page.window.wait("document.getElementById('opened').childNodes.length === 0")
    page.open("rulings")
    page.window.wait("document.getElementById('ruled').querySelectorAll('button').length === 3")
    ruled = page.window.value(text_of("ruled"))
    assert "assigned" in ruled and "table 3, board" in ruled and "taken out" in ruled and "60 and 40 per cent" in ruled, ruled


def boards_unseen(evening):
    """A page that has not seen which boards were played shows them on their tiles, and rules on no play before one is chosen."""
    window = Window(evening.browser, f"http://127.0.0.1:{PORT}/")
    window.wait("document.getElementById('key')")
    window.type("#key", evening.director)
    window.key("Enter", 13, "\r")
    window.wait("document.getElementById('ruling')")
    window.click("#tab-rulings")
    assert window.value("document.getElementById('ruling').hidden")
    shows(window, evening, (1, 2, 5))
    assert window.value("[...document.querySelectorAll('#plays .tile b')].map((one) => one.textContent).join()") == "4,5,6"
    window.click("#rule-void")
    window.wait("document.getElementById('rule-question').innerText.startsWith('Take the play out, round 1, table 2, board 5?')")
    assert window.value("document.getElementById('rule-question').innerText.includes('Then: taken out by the director.')")
    window.click("#no")
    window.wait("document.getElementById('rule-question').childNodes.length === 0")
    assert not window.complaints(), window.complaints()


def other_round(evening, page, round_):
    """A round without rulings; the tables in another order, and each board of the last one looked at."""
    page.window.wait(f"{text_of('status')}.startsWith('Round {round_} of 7. Still at play: tables 1, 2, 3, 4, 5, 6.')")
    tables = list(PLAYED)
    evening.chance.shuffle(tables)
    for table in tables:
        first = evening.first_board(round_, table)
        for board in range(first, first + BOARDS):
            if table == tables[-1]:
                page.window.wait(f"{text_of('status')} === 'Round {round_} of 7. Still at play: table {table}.'")
                assert not page.may_end()
            evening.play(round_, table, board)
    page.end_round(round_)


def rankings(page):
    page.open("standings")
    page.window.value("document.getElementById('rankings').replaceChildren()")
    page.window.click("#rank")
    page.window.wait("document.querySelectorAll('#rankings h2').length === 2")
    time.sleep(0.5)
    return [page.ranking(field) for field in [1, 2]]


def results(page):
    page.open("evening")
    page.window.click("#show-results")
    page.window.wait(f"{text_of('results')} !== ''")
    return page.window.value(text_of("results"))


def are_ruled(text):
    """What was ruled in the first round, as the results have it: the play's pairs and what stands behind them."""
    rows = [line.split() for line in text.splitlines()]
    assert ["1", "3", "3", "9", "Void"] in rows, "no play is void"
    assert any(row[:6] == ["1", "5", "5", "11", "Adjusted", "60/40%"] for row in rows), "no averages are awarded"
    assert any(row[:4] == ["1", "2", "2", "8"] and row[-4:-3] == ["11"] for row in rows), "the tricks are not set"
    assert any(row[:6] == ["1", "6", "6", "12", "4S*", "N"] and {"11", "450"} <= set(row[6:]) for row in rows), "no score is assigned"


def told_by(disk, *words):
    """What a command prints of a disk; the server is not running."""
    return subprocess.run([PROGRAM, words[0], disk, *words[1:]], check=True, stdout=subprocess.PIPE).stdout.decode()


def are_shuffled(page, evening):
    """Boards that one click shuffles have deals of their own, and each click draws a seed of its own."""
    assert page.window.value("drawSeed() !== drawSeed() && /^[0-9a-f]{64}$/.test(drawSeed())"), "two seeds are one"
    deals = {}
    for board, first, hands in re.findall(r'\[Board "(\d+)"\].*?\[Deal "(\w):([^"]*)"\]', told_by(evening.disk, "pbn"), re.DOTALL):
        from_first = hands.split(" ")
        turns = "NESW".index(first)
        deals[int(board)] = tuple(from_first[(seat - turns) % 4] for seat in range(4))
    shuffled = [hands for board, hands in deals.items() if board > 2]
    assert len(shuffled) > 1 and len(set(shuffled)) == len(shuffled), "two shuffled boards have one deal"


def printed(evening):
    """The lines of each field as `rank` prints them."""
    return [part.splitlines()[1:] for part in told_by(evening.disk, "rank").split("FIELD ")[1:]]


def by_script(evening, work):
    """A disk over which `script` answered all lines that were sent, in runs of fewer bytes than one takes."""
    disk = os.path.join(work, "script.disk")
    subprocess.run([PROGRAM, "format", disk, evening.config], check=True, stdout=subprocess.DEVNULL)
    for word, lines in itertools.groupby(evening.changes(), lambda line: "correct" if line.split()[0] in CORRECTIONS else "script"):
        changes = list(lines)
        for first in range(0, len(changes), 400):
            text = "".join(line + "\n" for line in changes[first:first + 400])
            subprocess.run([PROGRAM, word, disk], input=text.encode(), check=True, stdout=subprocess.DEVNULL)
    return disk


def main():
    with tempfile.TemporaryDirectory(ignore_cleanup_errors=True) as work:
        evening = Evening(work)
        try:
            page = Page(evening)
            players = [evening.keys[1][0], evening.keys[TABLES + 3][1]]
            for key in players:
                evening.enter(key)
            deal(page, work)
            undeal(page)
            pictures(page.window, PICTURES, "dealt")
            is_refused(evening, False)
            first_round(evening, page)
            boards_unseen(evening)
            for round_ in range(2, ROUNDS + 1):
                other_round(evening, page, round_)
            closed = ROUNDS == 7
            if closed:
                page.window.wait(f"{text_of('status')} === 'The session is closed.'")
            shown = rankings(page)
            pictures(page.window, PICTURES, "ranking")
            text = results(page)
            are_ruled(text)
            is_refused(evening, closed)
            for key in players:
                if closed:
                    window = evening.windows[key]
                    window.click("#onward")
                    window.wait("document.getElementById('main').innerText.includes('Ranking')")
                    pictures(evening.windows[key], PICTURES, "players_ranking")
                is_a_players(evening, key)
            page.goes_on()
            assert not complaints(evening.windows), complaints(evening.windows)
            evening.server.kill()
            are_shuffled(page, evening)
            assert shown == printed(evening), f"{shown} in place of {printed(evening)}"
            assert text == told_by(evening.disk, "results", "--no-analysis"), "the results shown are not those of the command"
            other = by_script(evening, work)
            for words in [["rank"], ["pbn"], ["results", "--no-analysis"], ["results", "--no-analysis", "--html"]]:
                assert told_by(evening.disk, *words) == told_by(other, *words), f"{words}: script makes something else of the lines"
        finally:
            evening.browser.close()
            evening.server.kill()
    print(f"{ROUNDS} rounds of {TABLES} tables, one of them half, by the director's clicks; the ranking and the results shown are those of the commands, and of script over the same lines; nothing of the director's came to a player")


main()
