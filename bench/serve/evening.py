"""A whole evening of 12 tables, 12 rounds and 3 boards a set, as a configuration and as lines of the table protocol.

`write(folder)` writes `config.txt` and the lines in files of at most 65,536 bytes, `lines00.txt` and on, and gives their
paths. Each deal is bid to one call and played out, each hand playing its lowest card.
"""
import os
import random

SUITS = "CDHS"
RANKS = "23456789TJQKA"
SEATS = "NESW"
MOST = 65_536


def guests(round_, table):
    return (table + 24 - round_) % 12 + 13


def key(pair, place):
    return pair * 2 + place


def config():
    lines = ["EVENT Club-Night", "SITE Town-Hall", "DATE 2026.03.14", "SCORING MP", "BOARDS 3", "MOVEMENT 12 12 12 24 12"]
    for round_ in range(1, 13):
        for table in range(1, 13):
            lines.append(f"ROW {round_} {table} {table} {guests(round_, table)} {round_}")
    lines.append("DIRECTOR 1000")
    for pair in range(1, 25):
        lines.append(f"PAIR {pair} Somebody {key(pair, 0)} Somebody-Else {key(pair, 1)}")
    return "\n".join(lines) + "\n"


def deal(board):
    """Four hands, each a list of (suit, rank), the same for a board in every run."""
    cards = [(suit, rank) for suit in range(4) for rank in range(13)]
    random.Random(board).shuffle(cards)
    return [sorted(cards[13 * seat:13 * seat + 13]) for seat in range(4)]


def hand_text(hand):
    return ".".join("".join(RANKS[r] for s, r in reversed(hand) if s == suit) for suit in (3, 2, 1, 0))


def key_at(round_, table, seat):
    pair = table if seat % 2 == 0 else guests(round_, table)
    return key(pair, 0 if seat < 2 else 1)


def play(round_, table, board, hands):
    """The lines of one play: the dealer's bid, three passes, and 52 cards."""
    declarer = (board - 1) % 4
    level, trump = table % 4 + 1, (round_ + table) % 5
    for place in range(4):
        call = f"{level}{'C D H S NT'.split()[trump]}" if place == 0 else "PASS"
        yield f"CALL {key_at(round_, table, (declarer + place) % 4)} {board} {place} {call}"
    hands = [list(hand) for hand in hands]
    leader, dummy, at = (declarer + 1) % 4, (declarer + 2) % 4, 0
    for _ in range(13):
        trick = []
        for place in range(4):
            seat = (leader + place) % 4
            follow = [card for card in hands[seat] if trick and card[0] == trick[0][1][0]]
            card = min(follow or hands[seat])
            hands[seat].remove(card)
            trick.append((seat, card))
            player = declarer if seat == dummy else seat
            yield f"CARD {key_at(round_, table, player)} {board} {at} {SUITS[card[0]]}{RANKS[card[1]]}"
            at += 1
        led = trick[0][1][0]
        leader = max(trick, key=lambda played: (played[1][0] == trump, played[1][0] == led, played[1][1]))[0]


def lines():
    for round_ in range(1, 13):
        boards = [3 * (round_ - 1) + index for index in (1, 2, 3)]
        hands = {board: deal(board) for board in boards}
        for board in boards:
            yield f"DEAL 1000 {board} N:" + " ".join(hand_text(hand) for hand in hands[board])
        for table in range(1, 13):
            for board in boards:
                yield from play(round_, table, board, hands[board])
        yield f"NEXT 1000 {round_}"


def write(folder):
    with open(os.path.join(folder, "config.txt"), "w") as file:
        file.write(config())
    pieces, piece = [], ""
    for line in lines():
        if len(piece) + len(line) + 1 >= MOST:
            pieces.append(piece)
            piece = ""
        piece += line + "\n"
    pieces.append(piece)
    paths = []
    for number, text in enumerate(pieces):
        paths.append(os.path.join(folder, f"lines{number:02}.txt"))
        with open(paths[-1], "w") as file:
            file.write(text)
    return paths
