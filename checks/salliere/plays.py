"""Plays as lines of the table protocol.

A play is a short auction of legal calls drawn at random, some whole tricks, and a claim by declarer that both defenders
agree to; or it is passed out.
"""
SEATS = "NESW"
SUITS = "CDHS"
RANKS = "23456789TJQKA"
STRAINS = ["C", "D", "H", "S", "NT"]


def dealer_of(board):
    return (board - 1) % 4


def legal_calls(calls):
    """The calls other than a pass that may be made after these, the bids of a level or two alone."""
    made = [(len(calls) - i, call) for i, call in enumerate(calls) if call != "PASS"]
    bids = [call for _, call in made if call not in ("X", "XX")]
    height = 5 * int(bids[-1][0]) + STRAINS.index(bids[-1][1:]) if bids else 4
    found = [f"{h // 5}{STRAINS[h % 5]}" for h in range(height + 1, min(height + 9, 40))]
    if made and made[-1][0] % 2 == 1:
        if made[-1][1] == "X":
            found.append("XX")
        elif made[-1][1] != "XX":
            found += ["X"] * 3
    return found


def draw_calls(chance):
    calls = []
    while len(calls) < 4 or calls[-3:] != ["PASS"] * 3:
        others = legal_calls(calls)
        passes = 0.35 if all(call == "PASS" for call in calls) else 0.6
        calls.append("PASS" if not others or chance.random() < passes else chance.choice(others))
    return calls


def contract_of(calls, dealer):
    """The denomination and declarer's seat, or None where the board is passed out."""
    bids = [(i, call) for i, call in enumerate(calls) if call not in ("PASS", "X", "XX")]
    if not bids:
        return None
    last, bid = bids[-1]
    first = next(i for i, call in bids if call[1:] == bid[1:] and i % 2 == last % 2)
    return bid[1:], (dealer + first) % 4


def played_tricks(chance, hands, trump, declarer, tricks):
    """The cards of so many tricks, each with who plays it, and how many declarer's side has won."""
    hands = [list(hand) for hand in hands]
    leader, cards, won = (declarer + 1) % 4, [], 0
    for _ in range(tricks):
        trick = []
        for place in range(4):
            seat = (leader + place) % 4
            follow = [card for card in hands[seat] if trick and card[0] == trick[0][1][0]]
            card = chance.choice(follow or hands[seat])
            hands[seat].remove(card)
            trick.append((seat, card))
            cards.append((declarer if seat == (declarer + 2) % 4 else seat, card))
        led = trick[0][1][0]
        leader = max(trick, key=lambda one: (one[1][0] == trump, one[1][0] == led, RANKS.index(one[1][1])))[0]
        won += leader % 2 == declarer % 2
    return cards, won


def play_lines(chance, board, keys, hands, calls, wanted, tricks=None):
    """The lines of one play, of none to two whole tricks unless it is said how many, that ends in as many tricks for declarer
    as are wanted, or as near as the tricks played allow. Keys and hands stand from North clockwise."""
    dealer = dealer_of(board)
    lines = [f"CALL {keys[(dealer + at) % 4]} {board} {at} {call}" for at, call in enumerate(calls)]
    contract = contract_of(calls, dealer)
    if contract is None:
        return lines
    trump, declarer = contract
    tricks = chance.randrange(3) if tricks is None else tricks
    cards, won = played_tricks(chance, hands, trump, declarer, tricks)
    lines += [f"CARD {keys[seat]} {board} {at} {card}" for at, (seat, card) in enumerate(cards)]
    claimed = min(max(wanted - won, 0), 13 - tricks)
    lines.append(f"CLAIM {keys[declarer]} {board} 0 {claimed}")
    lines += [f"AGREE {keys[(declarer + 1 + 2 * other) % 4]} {board} 1" for other in range(2)]
    return lines
