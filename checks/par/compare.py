"""Compares the lines of the two programs, each a score and the contracts that reach it, with commas between."""
import sys

ours, theirs = ([line.rstrip("\n").split(",") for line in open(path, encoding="ascii")] for path in sys.argv[1:3])
pairs = list(zip(ours, theirs, strict=True))
differ = [pair for pair in pairs if pair[0][0] != pair[1][0]]
missing = [pair for pair in pairs if set(pair[1][1:]) - set(pair[0][1:])]
more = [pair for pair in pairs if set(pair[0][1:]) - set(pair[1][1:])]
named = sum(len(pair[1]) - 1 for pair in pairs)
print(
    f"{len(pairs)} tables: {len(differ)} scores differ; of {named} contracts that libdds names we lack some at {len(missing)} "
    f"tables; at {len(more)} we name more"
)
for pair in (differ + missing)[:10] + more[:3]:
    print(f"  ours {pair[0]}\n  libdds {pair[1]}")
sys.exit(1 if differ or missing else 0)
