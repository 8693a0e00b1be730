"""Plays evenings by the program, scores them by salliere, and compares what both say of each pair.

    compare.py PROGRAM JAR FOLDER EXAMPLES SEED

A line for each evening; the status is 1 where a difference is not explained.
"""
import random
import sys
from collections import defaultdict
from fractions import Fraction

import evening as evenings
import scorer
from club import Club
from evening import half_table, howell, mitchell, two_tables

PER_CENT = {"av+": Fraction(6, 10), "av=": Fraction(5, 10), "av-": Fraction(4, 10)}


class Differs(Exception):
    """What is not explained."""


def demand(holds, text):
    if not holds:
        raise Differs(text)


def same_to(text, value, last):
    """Whether a number as it is printed is that value, to half a unit of its last place."""
    return abs(Fraction(text) - value) <= Fraction(last) / 2


# ---- matchpoints by hand, from salliere's scores: two for each inferior score of another play, one for each equal one


def plain(hand, hands, side):
    sign = 1 if side == 0 else -1
    others = [other.score for other in hands if other is not hand and not other.averaged]
    return sum(2 if sign * other < sign * hand.score else 1 if other == hand.score else 0 for other in others)


def by_our_rule(boards):
    """The value and what was available for each pair, as docs/RULES.md has it."""
    value, available = defaultdict(Fraction), defaultdict(Fraction)
    for hands in boards.values():
        most = max(2 * (sum(not hand.averaged for hand in hands) - 1), 0)
        for hand in hands:
            for side, pair in enumerate(hand.pairs):
                available[pair] += most
                value[pair] += PER_CENT[hand.averages[side]] * most if hand.averaged else plain(hand, hands, side)
    return value, available


def by_factors(boards):
    """The points and the percentage of each pair as salliere has them: each board is factored to the scores of the fullest
    one (Neuberg), an average is of all plays of its board, and the percentage is of the top of the last board in its file."""
    points, played = defaultdict(Fraction), defaultdict(int)
    fullest = max(len(hands) for hands in boards.values())
    for hands in boards.values():
        scores = sum(not hand.averaged for hand in hands)
        for hand in hands:
            for side, pair in enumerate(hand.pairs):
                played[pair] += 1
                if hand.averaged:
                    points[pair] += PER_CENT[hand.averages[side]] * 2 * (len(hands) - 1)
                else:
                    points[pair] += Fraction(fullest, scores) * (plain(hand, hands, side) + 1) - 1
    last = 2 * (len(list(boards.values())[-1]) - 1)
    return points, {pair: 100 * points[pair] / (last * played[pair]) for pair in points if last}


# ---- comparisons of a field's lines with what salliere has


def uneven(boards):
    """The boards that have an average, or fewer plays than the fullest one."""
    fullest = max(len(hands) for hands in boards.values())
    return {board for board, hands in boards.items() if len(hands) < fullest or any(hand.averaged for hand in hands)}


def percentage(value, available):
    """In hundredths, to the nearest and a half up."""
    if not available:
        return "-"
    hundredths = (20000 * value + available) // (2 * available)
    return f"{hundredths // 100}.{hundredths % 100:02}"


def is_same(line, totals):
    """Whether both have the same points and the same percentage for a pair."""
    pair, (value, available) = int(line[1]), map(Fraction, line[2].split("/"))
    points, per_cent = totals[pair]
    if available == 0:
        return value == Fraction(points) and line[3] == "-" and per_cent not in ("0", "100")
    return value == Fraction(points) and same_to(per_cent, 100 * value / available, "0.1")


def compare_matchpoints(fields, boards, totals):
    """The pairs that differ, each with its line. Where no board is uneven none may; else both must be as their rules have it."""
    due = uneven(boards)
    lines = [line for field in fields for line in field]
    apart = [line for line in lines if not is_same(line, totals)]
    demand(due or not apart, f"without a reason: {apart}")
    value, available = by_our_rule(boards)
    for line in lines:
        pair = int(line[1])
        by_rule = [value[pair], available[pair], percentage(value[pair], available[pair])]
        demand([*map(Fraction, line[2].split("/")), line[3]] == by_rule, f"rank has {line}, by its rule {by_rule}")
    compare_own_places(fields, {pair: value[pair] / available[pair] if available[pair] else -1 for pair in available})
    if apart:
        points, per_cent = by_factors(boards)
        for pair, (word, share) in totals.items():
            demand(same_to(word, points[pair], "0.1") and same_to(share, per_cent[pair], "0.1"), f"salliere has {word}, {share} for pair {pair}")
    return apart


def compare_imps(fields, boards, totals):
    """salliere's IMPs on a board are the mean over the other scores, ours their sum: its hundredths tell the sum."""
    sums = defaultdict(int)
    for hands in boards.values():
        others = len(hands) - 1
        for hand in hands:
            for side, pair in enumerate(hand.pairs):
                if others:
                    total = round(hand.points[side] * others)
                    demand(same_to(hand.points[side], Fraction(total, others), "0.01"), f"salliere's {hand.points[side]} on board {hand.board} is no mean")
                    sums[pair] += total
    apart = [line for field in fields for line in field if int(line[2]) != sums[int(line[1])]]
    demand(not apart, f"{apart}")
    compare_own_places(fields, sums)
    full = {len(hands) for hands in boards.values()}
    if len(full) == 1 and full != {1}:
        for pair, (points, _) in totals.items():
            demand(same_to(points, Fraction(sums[pair], max(full) - 1), "0.1"), f"salliere has {points} for pair {pair}")


def compare_plays(evening, plays, boards):
    """Each play's score, and what it gains on its board, as `results` prints them."""
    even, found = not uneven(boards), 0
    for board, pairs, score, gains in plays:
        hands = boards[board]
        hand = next(hand for hand in hands if hand.pairs == pairs)
        found += 1
        demand(score == hand.score, f"results has {score} for {pairs} on board {board}, salliere {hand.score}")
        for side, gain in enumerate(gains):
            if evening.scoring == "MP":
                demand(Fraction(gain) == plain(hand, hands, side), f"results has {gain} points for {pairs} on board {board}")
                demand(not even or Fraction(gain) == hand.points[side], f"results has {gain} points for {pairs} on board {board}, salliere {hand.points}")
            elif len(hands) > 1:
                demand(int(gain) == round(hand.points[side] * (len(hands) - 1)), f"results has {gain} IMPs for {pairs} on board {board}")
    demand(found == sum(not hand.averaged for hands in boards.values() for hand in hands), f"results has {found} scores")


def compare_own_places(fields, worth):
    """A place is one more than the number of better pairs in the field, and equal places stand by the pairs' numbers."""
    for field in fields:
        pairs = [int(line[1]) for line in field]
        places = {pair: 1 + sum(worth[other] > worth[pair] for other in pairs) for pair in pairs}
        demand([(int(line[0]), int(line[1])) for line in field] == sorted((places[pair], pair) for pair in pairs), f"the places of {field}")


def compare_places(fields, totals, scoring):
    """Each field stands in the order of salliere's totals, with one place for equal ones."""
    for field in fields:
        for before, after in zip(field, field[1:]):
            column = 1 if scoring == "MP" else 0
            first, second = (Fraction(totals[int(line[1])][column]) for line in (before, after))
            demand(first >= second and (before[0] != after[0] or first == second), f"the places of {before} and {after}")


def compare(evening, fields, plays, hands, totals):
    boards = defaultdict(list)
    for hand in hands:
        boards[hand.board].append(hand)
    split = max(int(line[1]) for line in fields[0])
    demand(sorted(int(line[1]) for field in fields for line in field) == list(range(1, evening.pairs + 1)), "the pairs of the fields")
    demand(all(int(line[1]) > split for field in fields[1:] for line in field), "the split")
    compare_plays(evening, plays, boards)
    apart = compare_matchpoints(fields, boards, totals) if evening.scoring == "MP" else compare_imps(fields, boards, totals)
    if not uneven(boards) and len(boards[min(boards)]) > 1:
        compare_places(fields, totals, evening.scoring)
    return boards, apart or []


def reason(hands, fullest):
    """How both rules take a board with an average or with fewer scores than the fullest."""
    counted = sum(not hand.averaged for hand in hands)
    top = 2 * max(counted - 1, 0)
    text = f"board {hands[0].board} has {counted} scores" + (" and averages" if counted < len(hands) else "") + f", the fullest has {fullest}: "
    text += f"here they are compared as they are, of {top} points; salliere factors them to {fullest} scores (Neuberg's formula)"
    return text + (f"; averages are of {top} here, of {2 * (len(hands) - 1)} there" if counted < len(hands) else "")


def told(evening, boards, apart, totals):
    """The line of an evening, and below it how and why some pairs differ."""
    fullest = max(len(hands) for hands in boards.values())
    plays = sum(len(hands) for hands in boards.values())
    scores = sum(len({hand.score for hand in hands}) for hands in boards.values())
    outcome = f"{len(apart)} pairs differ, as the rules do" if apart else "equal for each pair and field" if fullest > 1 else "each board once, so nothing to compare, and both say so"
    print(f"{evening.scoring:3} {evening.name}: {evening.pairs} pairs, {len(boards)} boards, {plays} plays, {scores} scores that differ on their board; {outcome}")
    if apart:
        for board in sorted(uneven(boards))[:3]:
            print("      " + reason(boards[board], fullest))
        for line in apart[:3]:
            print(f"      pair {line[1]}: {line[2]} and {line[3]} % here; {totals[int(line[1])][0]} and {totals[int(line[1])][1]} % there")


def all_evenings(examples):
    for scoring in ["MP", "IMP"]:
        yield two_tables(3, scoring=scoring)
        for tables in range(2, 13):
            yield mitchell(tables, 3 if tables < 6 or tables == 12 else 2, scoring=scoring)
        for tables in [3, 5, 7, 9, 11]:
            yield half_table(tables, 2, scoring=scoring)
        for tables in range(3, 7):
            yield howell(f"{examples}/howell_{tables}_tables.txt", scoring=scoring)
        yield howell(f"{examples}/howell_5_tables.txt", missing=True, scoring=scoring)
        # Uneven boards: a half table of an even movement, plays taken out, and averages, which are for matchpoints alone.
        yield half_table(4, 3, scoring=scoring)
        out = mitchell(5, 3, scoring=scoring, rulings={(1, 2, 1): "VOID", (3, 4, 2): "VOID"})
        out.name += ", two plays taken out"
        yield out
        scores = {(1, 2, 1): "ASSIGN 4S N 10", (1, 3, 2): "ASSIGN 3NTX E 7", (2, 1, 3): "ASSIGN 6HXX W 12", (4, 5, 2): "ASSIGN 1C S 7"}
        assigned = mitchell(5, 3, scoring=scoring, rulings=scores)
        assigned.name += ", scores assigned to four plays"
        yield assigned
    given = mitchell(5, 3, rulings={(1, 2, 1): "ADJUST 60 40", (3, 4, 2): "ADJUST 50 50", (2, 5, 3): "ADJUST 60 60"})
    given.name += ", averages on three plays"
    yield given


# ---- several sections as one field


SECTIONS = 10


def number(section, pair):
    """A pair of a section in one list of all."""
    return 100 * (ord(section) - ord("A")) + int(pair)


def compare_sections(club, jar, folder, deals, hands, scoring):
    """Ten sections of ten tables that play the same boards, beside one list of a hundred tables."""
    evening = mitchell(10, 2, scoring=scoring)
    disks, lines = [], []
    for section in range(SECTIONS):
        evening.name = f"section {section}"  # by which its auctions are drawn
        disks.append(club.play(evening, evenings.rounds_lines(evening, deals, hands), f"{section}.disk"))
        lines += scorer.game_lines(club.games(disks[-1]), 100 * section)
    evening.name, evening.pairs = f"{SECTIONS} sections of 10 tables", 100 * SECTIONS
    scored, totals = scorer.scored(jar, folder, evening, lines)
    boards = defaultdict(list)
    for hand in scored:
        boards[hand.board].append(hand)
    fields = club.event_ranking(disks, number)
    played = {pair for hand in scored for pair in hand.pairs}
    demand({int(line[1]) for field in fields for line in field} == played and len(played) == 20 * SECTIONS, "the pairs of the sections")
    totals = {pair: total for pair, total in totals.items() if pair in played}
    compare_plays(evening, club.event_plays(disks, number), boards)
    apart = compare_matchpoints(fields, boards, totals) if scoring == "MP" else compare_imps(fields, boards, totals)
    compare_places(fields, totals, scoring)
    evening.pairs = len(played)
    told(evening, boards, apart or [], totals)


def main(program, jar, folder, examples, seed):
    club = Club(program, folder)
    deals = f"{random.Random(seed).getrandbits(256):064x}"
    hands = club.hands(deals)
    wrong = 0
    for evening in all_evenings(examples):
        disk = club.play(evening, evenings.rounds_lines(evening, deals, hands))
        scored, totals = scorer.scored(jar, folder, evening, scorer.board_lines(evening, club.games(disk)))
        try:
            boards, apart = compare(evening, club.ranking(disk), club.plays(disk), scored, totals)
            told(evening, boards, apart, totals)
        except Differs as difference:
            wrong += 1
            print(f"{evening.scoring:3} {evening.name}: DIFFERS: {difference}")
        sys.stdout.flush()
    for scoring in ["MP", "IMP"]:
        try:
            compare_sections(club, jar, folder, deals, hands, scoring)
        except Differs as difference:
            wrong += 1
            print(f"{scoring:3} {SECTIONS} sections: DIFFERS: {difference}")
    print(f"{wrong} evenings differ without a reason" if wrong else "no difference that is not explained")
    return 1 if wrong else 0


sys.exit(main(*sys.argv[1:]))
