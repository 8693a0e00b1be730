"""salliere's part: its two files, written from the results in Portable Bridge Notation, and what it makes of them."""
import csv
import os
import subprocess
from fractions import Fraction

import evening as evenings

AVERAGES = {"60": "av+", "50": "av=", "40": "av-"}


class Hand:
    """A line of salliere's boards, after it was scored."""

    def __init__(self, words):
        self.board = int(words[0])
        self.pairs = int(words[1]), int(words[2])
        self.averaged = words[6].startswith("av")
        self.averages = tuple(word for word in words[6:8])
        self.score = None if self.averaged else int(words[6]) - int(words[7])
        self.points = tuple(None if not word[-1].isdigit() else Fraction(word) for word in words[8:10])


def contract(game):
    """A contract as salliere spells it; P where the board was passed out."""
    return "P" if game["Contract"] == "Pass" else game["Contract"]


def game_lines(games, first=0):
    """A line for each game; the numbers of its pairs follow that first one."""
    for game in games:
        pairs = [first + evenings.pair_of(game[seat]) for seat in ("North", "East")]
        yield [game["Board"], *pairs, contract(game), game["Declarer"], game["Result"]]


def board_lines(evening, games):
    yield from game_lines(games)
    for row in evening.live():
        for index in range(1, evening.boards + 1):
            ruling = evening.rulings.get((row[0], row[1], index), "").split()
            if ruling and ruling[0] == "ADJUST":
                board = (row[4] - 1) * evening.boards + index
                yield [board, row[2], row[3], "", "", "", AVERAGES[ruling[1]], AVERAGES[ruling[2]]]
            if ruling and ruling[0] == "ASSIGN":
                board = (row[4] - 1) * evening.boards + index
                yield [board, row[2], row[3], *ruling[1:]]


def scored(jar, folder, evening, lines):
    """Its hands, and of each pair the points and the percentage as it writes them."""
    boards, names = os.path.join(folder, "boards.csv"), os.path.join(folder, "names.csv")
    with open(boards, "w", encoding="ascii", newline="") as file:
        csv.writer(file, lineterminator="\n").writerows(sorted(lines, key=lambda line: int(line[0])))
    with open(names, "w", encoding="ascii", newline="") as file:
        csv.writer(file, lineterminator="\n").writerows([pair, evenings.name(pair, 0), evenings.name(pair, 1)] for pair in range(1, evening.pairs + 1))
    # Whole sets can be verified where no play is missing.
    sets = [] if "VOID" in evening.rulings.values() else [f"--setsize={evening.boards}"]
    compare = "matchpoint" if evening.scoring == "MP" else "ximp"
    words = ["java", "-Duser.language=en", "-Duser.country=GB", "-jar", jar, *sets, "verify", "score", compare, "total", "--", boards, names]
    done = subprocess.run(words, stdout=subprocess.PIPE)
    assert done.returncode == 0 and b"failed" not in done.stdout, done.stdout.decode()
    with open(boards, encoding="utf-8", newline="") as file:
        hands = [Hand(line) for line in csv.reader(file)]
    with open(names, encoding="utf-8", newline="") as file:
        totals = {int(line[0]): (line[3], line[4]) for line in csv.reader(file)}
    return hands, totals
