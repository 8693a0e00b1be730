"""Reads games of Portable Bridge Notation by the standard's grammar, and compares them with the values that `export` prints."""
import re

TAGS = ["Event", "Site", "Date", "Board", "West", "North", "East", "South", "Dealer", "Vulnerable", "Deal", "Scoring", "Declarer", "Contract", "Result"]
TAG_PAIR = re.compile(r'\[\s*([A-Za-z0-9_]+)\s+"([^"]*)"\s*\]$')
COLUMN = re.compile(r"[+-]?([A-Za-z_]+)(?:\\(\d+)([LR])?)?$")
CELL = re.compile(r'"[^"]*"|[^\s"]+')
PLAYED = ["Round", "Table", "PairId_NS", "PairId_EW", "Contract", "Declarer", "Result", "Lead", "Score_NS"]


class Differs(Exception):
    """What is not so."""


def demand(holds, text):
    if not holds:
        raise Differs(text)


def padded(cell, width, side):
    return cell.rjust(width) if side == "R" else cell.ljust(width)


class Table:
    """A tag whose value names columns, and the rows below it: cells between blanks, of which one in quotation marks is a text."""

    def __init__(self, value):
        found = [COLUMN.match(column) for column in value.split(";")]
        demand(all(found), f"columns {value}")
        self.columns = [column[1] for column in found]
        self.widths = [(int(column[2] or 0), column[3] or "L") for column in found]
        self.rows = []

    def add(self, line):
        cells = CELL.findall(line)
        demand(len(cells) == len(self.columns), f"{len(cells)} cells under {len(self.columns)} columns: {line}")
        demand(" ".join(padded(cell, *width) for cell, width in zip(cells, self.widths)) == line, f"not in its columns: {line}")
        self.rows.append([cell.strip('"') for cell in cells])


def games_of(text):
    """The games of a text: of each its tags in order, and its tables by name. An empty line ends a game, a tag or that a table."""
    demand(text.endswith("\n") and text.isascii() and "\t" not in text, "another text than lines of ASCII")
    lines = text[:-1].split("\n")
    demand(lines[0] == "% PBN 2.1", "another first line")
    game, table = None, None
    for line in lines[1:]:
        if line.startswith("%"):
            continue
        pair = TAG_PAIR.match(line)
        if line == "":
            demand(game is not None, "an empty line behind no game")
            yield game
            game, table = None, None
        elif pair:
            tags, tables = game = game or ([], {})
            demand(pair[1] not in dict(tags), f"a second {pair[1]}")
            tags.append((pair[1], pair[2]))
            table = None
            if pair[1].endswith("Table") and pair[1] != "Table":
                table = tables[pair[1]] = Table(pair[2])
        else:
            demand(table is not None, f"a row of no table: {line}")
            table.add(line)
    demand(game is None, "no empty line behind the last game")


def optimum_of(text):
    """What could be made by the games of a text: of each board that tells, its par score, and the tricks of all declarers."""
    games = [(dict(tags), tables) for tags, tables in games_of(text)]
    return [(tags["Board"], tags["OptimumScore"], tables["OptimumResultTable"].rows) for tags, tables in games if "OptimumScore" in tags]


def score_row(play):
    """The row of a line of `export DISK`."""
    _, row_round, table, ns, ew, contract, declarer, lead, tricks, score, ns_gain, ew_gain = play
    contract = {"Void": "", "Adjusted": ""}.get(contract, contract.rstrip("*"))
    cells = [row_round, table, ns, ew, contract, declarer, tricks, lead, "" if "%" in score else score, ns_gain, ew_gain]
    return [cell or "-" for cell in cells]


def total_row(two, ranked, scoring):
    """The row of a line of `export DISK --rankings`."""
    field, place, pair, first, second, score, _, percent = ranked
    section = {"1": "N", "2": "E"}[field] if two else "-"
    return [section, place, pair, score, *([percent] if scoring == "MP" else []), f"{first} and {second}"]


def compare(text, plays, rankings, results):
    """Demands that the games, without what could be made, are those of the plays, the rankings and the object that `export` prints."""
    event = results["event"]
    scoring = {"matchpoints": "MP", "imps": "IMP"}[event["scoring"]]
    boards = list(dict.fromkeys(play[0] for play in plays))
    games = list(games_of(text))
    demand([dict(tags)["Board"] for tags, _ in games] == boards, "games of other boards")
    for at, (tags, tables) in enumerate(games):
        board = results["boards"][int(boards[at]) - 1]
        values = [event["event"], event["site"], event["date"], boards[at], "", "", "", "", board["dealer"], board["vulnerable"], board["deal"] or "", scoring, "", "", ""]
        demand(tags[:15] == list(zip(TAGS, values)), f"the tags of board {boards[at]}")
        names = [name for name, _ in tags[15:]]
        demand(names == ["ScoreTable"] + ["TotalScoreTable"] * (at == 0), f"tags {names}")
        scores = tables["ScoreTable"]
        demand(scores.columns == PLAYED + [f"{scoring}_NS", f"{scoring}_EW"], f"columns {scores.columns}")
        demand([width for width, _ in scores.widths] == [2, 2, 2, 2, 5, 1, 2, 2, 6, 6, 6], "widths of scores")
        demand("".join(side for _, side in scores.widths) == "RRRRLLRLRRR", "sides of scores")
        demand(scores.rows == [score_row(play) for play in plays if play[0] == boards[at]], f"the scores of board {boards[at]}")
    if games:
        totals = games[0][1]["TotalScoreTable"]
        two = any(ranked[0] == "2" for ranked in rankings)
        demand(totals.columns == ["Section", "Rank", "PairId", *(["TotalScoreMP", "TotalPercentage"] if scoring == "MP" else ["TotalIMP"]), "Names"], f"columns {totals.columns}")
        demand(totals.widths[:-1] == [(1, "L"), (2, "R"), (2, "R"), *[(6, "R")] * (len(totals.widths) - 4)] and totals.widths[-1] == (0, "L"), "widths of totals")
        demand(totals.rows == [total_row(two, ranked, scoring) for ranked in rankings], "the totals")


def compare_sections(text, plays, rankings, results):
    """The same of several sections, whose rows begin with the section's letters, and whose pairs have a direction of their own."""
    scoring = {"matchpoints": "MP", "imps": "IMP"}[results["event"]["scoring"]]
    games = list(games_of(text))
    demand([dict(tags)["Board"] for tags, _ in games] == list(dict.fromkeys(play[1] for play in plays)), "games of other boards")
    for tags, tables in games:
        board, scores = dict(tags)["Board"], tables["ScoreTable"]
        demand(scores.columns == ["Section"] + PLAYED + [f"{scoring}_NS", f"{scoring}_EW"], f"columns {scores.columns}")
        demand(scores.rows == [[play[0], *score_row(play[1:])] for play in plays if play[1] == board], f"the scores of board {board}")
    if games:
        totals, two = games[0][1]["TotalScoreTable"], any(ranked[1] == "2" for ranked in rankings)
        values = ["TotalScoreMP", "TotalPercentage"] if scoring == "MP" else ["TotalIMP"]
        demand(totals.columns == ["Section", "Direction", "Rank", "PairId", *values, "Names"], f"columns {totals.columns}")
        demand(totals.rows == [[ranked[0], *total_row(two, ranked[1:], scoring)] for ranked in rankings], "the totals")
        demand(all("TotalScoreTable" not in tables for _, tables in games[1:]), "a second table of totals")


def changed(text):
    """The text with a byte changed, now one and now another; with a line left out; and with one twice."""
    for at in range(0, len(text), 7):
        yield text[:at] + ("1" if text[at] != "1" else "2") + text[at + 1:]
    lines = text.splitlines(keepends=True)
    for at in range(1, len(lines)):
        yield "".join(lines[:at] + lines[at + 1:])
        yield "".join(lines[:at] + lines[at:at + 1] + lines[at:])


def compare_strictly(text, plays, rankings, results):
    """The same, and that each changed text is found to be another."""
    compare(text, plays, rankings, results)
    for other in changed(text):
        try:
            compare(other, plays, rankings, results)
        except (Differs, KeyError, IndexError, ValueError):
            continue
        raise Differs(f"a changed text is taken: {other}")
