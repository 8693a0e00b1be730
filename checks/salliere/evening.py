"""Evenings for a comparison of rankings: movements, and the lines of each round.

So that scores on a board are often equal, most plays of a board are drawn from three.
"""
import dataclasses
import random
import re

from plays import draw_calls, play_lines

DIRECTOR = 1000


@dataclasses.dataclass
class Evening:
    """A movement, whose live rows are (round, table, N-S, E-W, set), and what is ruled: (round, table, index) to a ruling."""

    name: str
    movement: list
    rows: list
    pairs: int
    boards: int
    scoring: str = "MP"
    rulings: dict = dataclasses.field(default_factory=dict)

    def config(self):
        lines = ["EVENT Comparison", "SITE Club", "DATE 2026.11.27", f"SCORING {self.scoring}", f"BOARDS {self.boards}", *self.movement,
                 f"DIRECTOR {DIRECTOR}"]
        lines += [f"PAIR {pair} {name(pair, 0)} {key(pair, 0)} {name(pair, 1)} {key(pair, 1)}" for pair in range(1, self.pairs + 1)]
        return "\n".join(lines) + "\n"

    def rounds(self):
        return max(row[0] for row in self.rows)

    def all_boards(self):
        return range(1, max(row[4] for row in self.rows) * self.boards + 1)

    def live(self):
        return [row for row in self.rows if row[2] and row[3]]


def key(pair, place):
    return 2 * pair + place


def name(pair, place):
    """Both names of a pair say its number."""
    return f"P{pair}.{place}"


def pair_of(player):
    return int(re.fullmatch(r"P(\d+)\.[01]", player)[1])


def mitchell_rows(tables):
    """By the rule in docs/RULES.md: pairs up, sets down, and a skip after half the rounds of an even number of tables."""
    rows = []
    for round_ in range(tables if tables % 2 else tables - 1):
        skip = 1 if tables % 2 == 0 and round_ >= tables // 2 else 0
        for table in range(tables):
            guests = tables + (table - round_ - skip) % tables + 1
            rows.append((round_ + 1, table + 1, table + 1, guests, (table + round_) % tables + 1))
    return rows


def by_rows(tables, pairs, split, rows):
    head = f"MOVEMENT {tables} {max(row[0] for row in rows)} {max(row[4] for row in rows)} {pairs} {split}"
    return [head, *("ROW " + " ".join(map(str, row)) for row in rows)]


def mitchell(tables, boards, **more):
    return Evening(f"Mitchell, {tables} tables", [f"MITCHELL {tables}"], mitchell_rows(tables), 2 * tables, boards, **more)


def half_table(tables, boards, **more):
    """A Mitchell movement whose last table has nobody in North and South, so that a pair sits out in each round."""
    rows = [(r, t, ns % tables, ew - 1, s) for r, t, ns, ew, s in mitchell_rows(tables)]
    return Evening(f"Mitchell, {tables} tables, one of them half", by_rows(tables, 2 * tables - 1, tables - 1, rows), rows, 2 * tables - 1, boards, **more)


def two_tables(boards, **more):
    """Four pairs, each against each; both tables of a round have the same boards."""
    rows = [(1, 1, 1, 2, 1), (1, 2, 3, 4, 1), (2, 1, 1, 3, 2), (2, 2, 4, 2, 2), (3, 1, 1, 4, 3), (3, 2, 2, 3, 3)]
    return Evening("each against each, 2 tables", by_rows(2, 4, 4, rows), rows, 4, boards, **more)


def howell(path, missing=False, **more):
    """The movement of a configuration; without its last pair, whose opponents sit out, if it is missing."""
    with open(path, encoding="ascii") as file:
        words = [line.split() for line in file]
    _, tables, _, _, pairs, _ = map(str, next(line for line in words if line[0] == "MOVEMENT"))
    tables, pairs = int(tables), int(pairs)
    boards = int(next(line[1] for line in words if line[0] == "BOARDS"))
    rows = [tuple(map(int, line[1:])) for line in words if line[0] == "ROW"]
    title = f"Howell, {tables} tables"
    if missing:
        rows = [(r, t, ns % pairs, ew % pairs, s) for r, t, ns, ew, s in rows]
        pairs -= 1
        title += ", without the last pair"
    return Evening(title, by_rows(tables, pairs, pairs, rows), rows, pairs, boards, **more)


# ---- lines


def keys_of(row):
    """The keys in North, East, South and West."""
    return [key(row[2], 0), key(row[3], 0), key(row[2], 1), key(row[3], 1)]


def rounds_lines(evening, seed, hands):
    """The lines of each round, with all deals before the first."""
    chance = random.Random(f"{seed} {evening.name} {evening.scoring}")
    drawn = {board: [(draw_calls(chance), round(chance.gauss(8, 2.2))) for _ in range(3)] for board in evening.all_boards()}
    for round_ in range(1, evening.rounds() + 1):
        lines = [f"SHUFFLE {DIRECTOR} {board} {seed}" for board in evening.all_boards()] if round_ == 1 else []
        for row in (row for row in evening.live() if row[0] == round_):
            for index in range(1, evening.boards + 1):
                board = (row[4] - 1) * evening.boards + index
                word, *words = evening.rulings.get((round_, row[1], index), "").split() or [None]
                ruled = [" ".join([word, str(DIRECTOR), f"{round_} {row[1]} {index}", *words])] if word else []
                # A score is assigned to an unfinished play, or to a finished one where the index is even.
                if word is None or (word == "ASSIGN" and index % 2 == 0):
                    calls, wanted = chance.choice(drawn[board]) if chance.random() < 0.7 else (draw_calls(chance), round(chance.gauss(8, 2.5)))
                    lines += play_lines(chance, board, keys_of(row), hands[board], calls, min(max(wanted, 0), 13))
                lines += ruled
        yield [*lines, f"NEXT {DIRECTOR} {round_}"]
