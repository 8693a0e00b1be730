"""Reads what `export` prints by readers of another make, and compares it with the results.

    read.py PROGRAM FOLDER EXAMPLES SCHEMA

The object is read by Python's json and by jq, checked against the schema, and held against the comma-separated values and the games of
`pbn`; the games of `export --pbn` against those values, and against what `makeable` finds for the same deals. Each disk is then read as
three sections. The status is 1 where anything differs.
"""
import csv
import glob
import io
import json
import os
import re
import subprocess
import sys

import games as notation
from games import Differs, demand

KINDS = {"object": dict, "array": list, "string": str, "null": type(None)}


def is_kind(value, kind):
    return type(value) is int if kind == "integer" else isinstance(value, KINDS[kind])


def fault(value, schema, whole, path="$"):
    """Where the value is not of the schema, of whose words docs/export.schema.json has these; or None."""
    if "$ref" in schema:
        name = schema["$ref"].removeprefix("#/$defs/")
        return fault(value, whole["$defs"][name], whole, path)
    if "anyOf" in schema:
        faults = [fault(value, one, whole, path) for one in schema["anyOf"]]
        return None if None in faults else faults[0]
    if "enum" in schema and value not in schema["enum"]:
        return f"{path}: {value!r} is none of {schema['enum']}"
    kinds = schema.get("type", [])
    kinds = kinds if isinstance(kinds, list) else [kinds]
    if kinds and not any(is_kind(value, kind) for kind in kinds):
        return f"{path}: {value!r} is not {' or '.join(kinds)}"
    if isinstance(value, str) and "pattern" in schema and not re.search(schema["pattern"], value):
        return f"{path}: {value!r} is not spelled as {schema['pattern']}"
    if type(value) is int and not schema.get("minimum", value) <= value <= schema.get("maximum", value):
        return f"{path}: {value} is out of range"
    if isinstance(value, list):
        if not schema.get("minItems", 0) <= len(value) <= schema.get("maxItems", len(value)):
            return f"{path}: {len(value)} items"
        return next(filter(None, (fault(item, schema["items"], whole, f"{path}[{at}]") for at, item in enumerate(value))), None)
    if isinstance(value, dict):
        if set(value) != set(schema["required"]) or set(value) != set(schema["properties"]):
            return f"{path}: the members {sorted(value)}"
        return next(filter(None, (fault(item, schema["properties"][name], whole, f"{path}.{name}") for name, item in value.items())), None)
    return None


def once(pairs):
    demand(len({name for name, _ in pairs}) == len(pairs), "a member stands twice")
    return dict(pairs)


def text(value):
    return "" if value is None else str(value)


def plays_of(results):
    """The rows of `export DISK`, from the object."""
    for board in results["boards"]:
        for play in board["plays"]:
            row, result, averages = play["row"], play["result"], play["averages"]
            score = text(play["score"]) if averages is None else f"{averages[0]}/{averages[1]}%"
            yield [str(board["board"]), *(str(row[name]) for name in ["round", "table", "ns", "ew"]), *(text(result[name]) for name in ["contract", "declarer", "lead", "tricks"]),
                   score, text(play["ns"]["points"]), text(play["ew"]["points"])]


def ranked_of(results):
    """The rows of `export DISK --rankings`, from the object."""
    for number, field in [("1", results["first"]), ("2", results["second"] or [])]:
        for pair in field:
            total = pair["total"]
            yield [number, str(pair["place"]), str(pair["pair"]), *pair["names"], total["points"], text(total["available"]), text(total["percent"])]


def games_of(games):
    """Of each game its board, round, table, hands, calls and tricks."""
    found = {}
    for game in re.split(r"\n\n", games):
        tags = dict(re.findall(r'^\[(\w+) "(.*)"\]$', game, re.MULTILINE))
        calls = re.search(r"^\[Auction .*\]\n([^[]*)", game, re.MULTILINE)
        cards = re.search(r"^\[Play .*\]\n([^[]*)", game, re.MULTILINE)
        if calls:
            tricks = [set(line.split()) for line in cards[1].splitlines() if line not in ("", "*")] if cards else []
            found[int(tags["Board"]), int(tags["Round"]), int(tags["Table"])] = tags["Deal"], calls[1].upper().split(), tricks
    return found


def percent(points, most):
    return f"{(2 * round(float(points) * 10) * 10_000 // most + 1) // 2 / 100:.2f}"


class Reader:
    def __init__(self, program, schema):
        self.program = program
        with open(schema, encoding="ascii") as file:
            self.schema = json.load(file)

    def run(self, *words, stdin=b""):
        return subprocess.run([self.program, *words], check=True, input=stdin, stdout=subprocess.PIPE).stdout.decode()

    def read(self, disk):
        written = self.run("export", disk, "--json")
        results = json.loads(written, object_pairs_hook=once)
        demand(written == json.dumps(results, separators=(",", ":"), sort_keys=True), "it has spaces, or members out of order")
        wrong = fault(results, self.schema, self.schema)
        demand(wrong is None, wrong)
        self.by_others(written, results)
        tables = [list(csv.reader(io.StringIO(self.run("export", disk, *words), newline="")))[1:] for words in (["--csv"], ["--csv", "--rankings"])]
        notation.compare_strictly(self.run("export", disk, "--pbn", "--no-analysis"), *tables, results)
        for words, rows in [([], plays_of(results)), (["--rankings"], ranked_of(results))]:
            table = list(csv.reader(io.StringIO(self.run("export", disk, *words), newline="")))[1:]
            table = [[field if field != "-" else "" for field in row] for row in table]
            demand(table == list(rows), f"other rows than those of export {' '.join(words)}")
        games = games_of(self.run("pbn", disk))
        for board in results["boards"]:
            demand([board["board"] == at + 1 for at, board in enumerate(results["boards"])], "the boards are not in order")
            self.courses(board, games)
        demand(not games, f"no plays of {list(games)}")
        return results

    def read_sections(self, disks):
        """What is exported of the disks as the sections of one event: the object, the values and the games tell the same."""
        written = self.run("export", *disks, "--json")
        results = json.loads(written, object_pairs_hook=once)
        wrong = fault(results, self.schema, self.schema)
        demand(wrong is None, wrong)
        self.by_others(written, results)
        tables = [list(csv.reader(io.StringIO(self.run("export", *disks, *words), newline="")))[1:] for words in ([], ["--rankings"])]
        notation.compare_sections(self.run("export", *disks, "--pbn", "--no-analysis"), *tables, results)
        plays = [[field if field != "-" else "" for field in row] for row in tables[0]]
        sections = [play["section"] for board in results["boards"] for play in board["plays"]]
        demand(plays == [[section, *row] for section, row in zip(sections, plays_of(results), strict=True)], "other plays than those of export")
        ranked = [[field if field != "-" else "" for field in row] for row in tables[1]]
        pairs = results["first"] + (results["second"] or [])
        demand(ranked == [[pair["section"], *row] for pair, row in zip(pairs, ranked_of(results), strict=True)], "other rankings than those of export")
        demand(len(results["sections"]) == len(disks), "another number of sections")
        return len(plays)

    def solve(self, disk, folder):
        """How many boards have what could be made in the games: as `makeable` finds it for their deals."""
        deals = os.path.join(folder, "read.pbn")
        with open(deals, "w", encoding="ascii") as file:
            file.write(self.run("export", disk, "--pbn", "--no-analysis").replace('[Deal ""]\n', ""))
        wanted = notation.optimum_of(self.run("makeable", deals, "--pbn"))
        demand(notation.optimum_of(self.run("export", disk, "--pbn")) == wanted, "something else could be made")
        return len(wanted)

    def by_others(self, written, results):
        """jq reads the same, and jsonschema finds it of the schema, where they are installed."""
        try:
            read = subprocess.run(["jq", "-cS", "."], check=True, input=written.encode(), stdout=subprocess.PIPE).stdout.decode()
            demand(read == written + "\n", "jq reads something else")
        except FileNotFoundError:
            pass
        try:
            import jsonschema
            jsonschema.Draft202012Validator(self.schema).validate(results)
        except ImportError:
            pass

    def courses(self, board, games):
        """Each play of a board in the games has its hands, calls and tricks; the percentages are of what was available."""
        scores = [play for play in board["plays"] if play["result"]["contract"] not in ("Void", "Adjusted")]
        for play in board["plays"]:
            name = board["board"], play["row"]["round"], play["row"]["table"]
            cards = play["course"]["cards"]
            demand(play["result"]["lead"] == (cards[0] if cards else None), f"another lead than the first card: {name}")
            if name in games:
                deal, calls, tricks = games.pop(name)
                demand(deal == board["deal"], f"another deal: {name}")
                demand(calls == play["course"]["calls"], f"other calls: {name}")
                demand(tricks == [set(cards[at:at + 4]) for at in range(0, len(cards) - 3, 4)], f"other cards: {name}")
            for side in ["ns", "ew"]:
                gained = play[side]
                if gained["percent"] is not None:
                    demand(gained["percent"] == percent(gained["points"], 20 * (len(scores) - 1)), f"another percentage: {name}")


def sessions(reader, folder, examples):
    """The disk of each worked session, after each of its runs."""
    disk = os.path.join(folder, "read.disk")
    for first in sorted(glob.glob(f"{examples}/sessions/*.lines")):
        session = first.removesuffix(".lines")
        if re.search(r"\.[2-9]$", session):
            continue
        config = session + ".config"
        reader.run("format", disk, config if os.path.exists(config) else f"{examples}/rows.txt")
        for run in [session, *(f"{session}.{at}" for at in range(2, 10))]:
            for command, kind in [("script", "lines"), ("correct", "corrections")]:
                if os.path.exists(f"{run}.{kind}"):
                    with open(f"{run}.{kind}", "rb") as file:
                        reader.run(command, disk, stdin=file.read())
                    yield os.path.basename(run), disk
        os.remove(disk)


def main(program, folder, examples, schema):
    reader, plays, solved, together, status = Reader(program, schema), 0, 0, 0, 0
    for name, disk in sessions(reader, folder, examples):
        try:
            plays += sum(len(board["plays"]) for board in reader.read(disk)["boards"])
            solved += reader.solve(disk, folder)
            together += reader.read_sections([disk] * 3)
        except Differs as found:
            print(f"{name}: {found}")
            status = 1
    print(f"{plays} plays read, {solved} boards solved, {together} plays of three sections read")
    return status


if __name__ == "__main__":
    sys.exit(main(*sys.argv[1:]))
