"""The program's part: an evening over its `script`, and what its `rank`, `results`, `pbn` and `export` print of it."""
import csv
import itertools
import os
import re
import subprocess

import evening as evenings
from evening import DIRECTOR, Evening
from plays import SEATS, SUITS, play_lines

MOST = 65_535


class Club:
    def __init__(self, program, folder):
        self.program = program
        self.folder = folder
        self.deals = {}

    def run(self, *words, lines=()):
        text = "".join(line + "\n" for line in lines).encode()
        assert len(text) < MOST, "too many lines for one run"
        return subprocess.run([self.program, *words], check=True, input=text, stdout=subprocess.PIPE).stdout.decode()

    def play(self, evening, rounds, name="club.disk"):
        """A disk of that name on which the evening was played."""
        disk, config = os.path.join(self.folder, name), os.path.join(self.folder, "config.txt")
        for path in [disk, config]:
            if os.path.exists(path):
                os.remove(path)
        with open(config, "w", encoding="ascii") as file:
            file.write(evening.config())
        self.run("format", disk, config)
        for lines in rounds:
            for command, some in itertools.groupby(lines, lambda line: "correct" if line.startswith("ASSIGN ") else "script"):
                self.done(evening, command, disk, list(some))
        return disk

    def done(self, evening, command, disk, lines):
        """Each line is answered OK."""
        replies = self.run(command, disk, lines=lines).splitlines()
        for line, reply in zip(lines, replies, strict=True):
            assert reply == "OK", f"{evening.name}: {line}: {reply}"

    def hands(self, seed):
        """The hands that a seed deals on boards 1 to 36, as lists of cards: those of a scratch session, all passed out."""
        if seed not in self.deals:
            rows = [(1, table, 2 * table - 1, 2 * table, table) for table in range(1, 13)]
            scratch = Evening("scratch", evenings.by_rows(12, 24, 24, rows), rows, 24, 3)
            lines = [f"SHUFFLE {DIRECTOR} {board} {seed}" for board in scratch.all_boards()]
            for row in rows:
                for board in range(3 * row[4] - 2, 3 * row[4] + 1):
                    lines += play_lines(None, board, evenings.keys_of(row), None, ["PASS"] * 4, 0)
            games = self.games(self.play(scratch, [lines]))
            self.deals[seed] = {int(game["Board"]): hands_of(game["Deal"]) for game in games}
        return self.deals[seed]

    def games(self, disk):
        """The tag pairs of each game of the results."""
        games = self.run("pbn", disk).split("\n\n")
        return [dict(re.findall(r'^\[(\w+) "(.*)"\]$', game, re.MULTILINE)) for game in games]

    def ranking(self, disk):
        """The lines of each field: place, pair, and the value with what was available, where there is such, as words."""
        fields = []
        for line in self.run("rank", disk).splitlines():
            if line.startswith("FIELD "):
                fields.append([])
            else:
                fields[-1].append(line.split())
        return fields

    def event_ranking(self, disks, number):
        """The lines of each field over the sections on these disks, as those of one; a section and a pair have one number."""
        fields = {}
        for row in csv.DictReader(self.run("export", *disks, "--rankings").splitlines()):
            value = row["score"] + (f"/{row['available']}" if row["available"] else "")
            line = [row["place"], str(number(row["section"], row["pair"])), value, row["percent"]]
            fields.setdefault(row["field"], []).append(line)
        return list(fields.values())

    def event_plays(self, disks, number):
        """Each play with a score, as `export` prints it of the sections."""
        for row in csv.DictReader(self.run("export", *disks).splitlines()):
            yield int(row["board"]), tuple(number(row["section"], row[side]) for side in ("ns", "ew")), int(row["score"]), [row["ns_gain"], row["ew_gain"]]

    def plays(self, disk):
        """Each play with a score, as the command `results` prints it: board, pairs, score and what both sides gain."""
        board = 0
        for line in self.run("results", disk, "--no-analysis").splitlines():
            words = line.split()
            if re.fullmatch(r"Board \d+", line):
                board = int(words[1])
            elif line == "Score cards":
                return
            elif len(words) > 7 and re.fullmatch(r"Pass|[1-7]([CDHS]|NT)X{0,2}[*]?", words[4]):
                yield board, (int(words[2]), int(words[3])), int(words[-3]), words[-2:]


def hands_of(text):
    """The cards in North, East, South and West of `E:AKQ.. ..`."""
    first = SEATS.index(text[0])
    hands = [None] * 4
    for i, hand in enumerate(text[2:].split()):
        hands[(first + i) % 4] = [suit + rank for suit, ranks in zip(reversed(SUITS), hand.split(".")) for rank in ranks]
    return hands
