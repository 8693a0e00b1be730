"use strict";
// The players' page. It judges nothing: it greys what would be refused, and shows what the server tells.

const SUITS = ["S", "H", "C", "D"];
const HAND_SUITS = ["S", "H", "D", "C"];
const SIGNS = { S: "\u2660\ufe0e", H: "\u2665\ufe0e", D: "\u2666\ufe0e", C: "\u2663\ufe0e" };
const STRAINS = ["C", "D", "H", "S", "NT"];
// Milliseconds: how long results last.
const RESULTS_LAST = 60000;
let results = { made: "", text: "", at: 0 };

// The lines of a reply of several lines, by their first words.
function fields(reply) {
  const found = {};
  for (const line of reply.split("\n")) {
    const words = line.split(" ");
    if (words.length > 1) found[words[0]] = words.slice(1);
  }
  return found;
}

function readPlace(reply) {
  const f = fields(reply);
  const some = (words, value) => (words[0] === "-" ? null : value(words));
  return {
    round: Number(f.ROUND[0]),
    rounds: Number(f.ROUND[1]),
    pair: Number(f.PLAYER[0]),
    name: f.PLAYER[1],
    table: some(f.TABLE, (w) => ({ number: w[0], seat: w[1], first: w[2], last: w[3] })),
    names: some(f.NAMES, (w) => shownAt({ N: w[0], E: w[1], S: w[2], W: w[3] })),
    contract: some(f.CONTRACT, (w) => ({ bid: w[0], declarer: w[1] })),
    answer: f.ANSWER[0] === "DUE",
    next: some(f.NEXT, (w) => ({ number: w[0], seat: w[1], first: w[2], last: w[3] })),
  };
}

function readHand(text) {
  const suits = text.split(".");
  return Object.fromEntries(HAND_SUITS.map((suit, i) => [suit, suits[i]]));
}

function readTrick(words) {
  if (words[0] === "-") return [];
  const leader = SEATS.indexOf(words[0]);
  return words.slice(1).map((card, i) => ({ seat: SEATS[(leader + i) % 4], card }));
}

function readView(reply) {
  const f = fields(reply);
  const none = (words) => words[0] === "-";
  return {
    board: f.PLAY[3],
    seat: f.SEAT[0],
    dealer: f.DEALER[0],
    vulnerable: f.DEALER[2],
    playing: f.PHASE[0] === "PLAY",
    turn: f.TURN[0],
    calls: f.CALLS || [],
    made: { calls: f.AT[0], cards: f.AT[1], claims: f.AT[2] },
    hand: readHand(f.HAND[0]),
    dummy: none(f.DUMMY) ? null : readHand(f.DUMMY[0]),
    trick: readTrick(f.TRICK),
    last: readTrick(f.LAST),
    tricks: { NS: f.TRICKS[0], EW: f.TRICKS[1] },
    claim: none(f.CLAIM) ? null : { seat: f.CLAIM[0], tricks: f.CLAIM[1] },
  };
}

const partner = (seat) => SEATS[(SEATS.indexOf(seat) + 2) % 4];
const nextTo = (seat) => SEATS[(SEATS.indexOf(seat) + 1) % 4];
const cardName = (card) => TEXTS.cardName(TEXTS.ranks[card[1]] || card[1], TEXTS.suits[card[0]]);
const { rankText } = TEXTS;

// The classes that give a suit its colour: of two, or of four where these are chosen.
const SUIT_CLASSES = { S: "", H: " red", D: " red diamond", C: " club" };

function suitSign(suit) {
  return make("span", { className: "suit" + SUIT_CLASSES[suit], aria_hidden: "true" }, SIGNS[suit]);
}

const strainOf = (call) => call.slice(1).replace(/X+$/, "");

function cardNodes(card) {
  return [make("span", { className: card[1] === "T" ? "ten" : "" }, rankText(card[1])),
    make("span", { className: "suit", aria_hidden: "true" }, SIGNS[card[0]])];
}

// A card in a text, its suit before its rank.
const cardInText = (card, label) => make("span", { className: SUIT_CLASSES[card[0]].trim(), role: "img", aria_label: label }, ...cardNodes(card).reverse());

// A call as text nodes; doubles stand behind the bid in a contract.
function callNodes(call) {
  if (call === "PASS") return [make("span", { className: "pass" }, TEXTS.pass)];
  if (call === "X") return [make("span", { className: "double" }, "X")];
  if (call === "XX") return [make("span", { className: "redouble" }, "XX")];
  const strain = strainOf(call);
  return [make("span", { className: "bid" }, call[0], SIGNS[strain] ? suitSign(strain) : strain, call.slice(1 + strain.length))];
}

// A call in words.
function callName(call) {
  const named = { PASS: TEXTS.passName, X: TEXTS.doubleName, XX: TEXTS.redoubleName }[call];
  if (named) return named;
  const strain = strainOf(call);
  const many = strain !== "NT" && call[0] !== "1";
  return TEXTS.bidName(call[0], (many ? TEXTS.suits : TEXTS.pieces)[strain[0]], TEXTS.doubled[call.slice(1 + strain.length)] || "");
}

function vulnerableText(words) {
  return TEXTS.vulnerable[words] || words;
}

// Whose call was the last that was no pass: [call, seat], or null.
function lastCall(view, among) {
  for (let i = view.calls.length - 1; i >= 0; i -= 1) {
    if (among(view.calls[i])) return { call: view.calls[i], seat: SEATS[(SEATS.indexOf(view.dealer) + i) % 4] };
  }
  return null;
}

const isBid = (call) => call !== "PASS" && call !== "X" && call !== "XX";
const isOther = (view, seat) => seat !== view.seat && seat !== partner(view.seat);
const height = (bid) => Number(bid[0]) * 5 + STRAINS.indexOf(bid.slice(1));

function allowedCall(view, call) {
  if (call === "PASS") return true;
  const last = lastCall(view, (made) => made !== "PASS");
  if (call === "X") return last !== null && isBid(last.call) && isOther(view, last.seat);
  if (call === "XX") return last !== null && last.call === "X" && isOther(view, last.seat);
  const bid = lastCall(view, isBid);
  return bid === null || height(call) > height(bid.call);
}

// ---- what is marked before it is sent

// A call or card that was tapped once; which board's claim is being made, and of how many tricks; whether the last trick is looked at.
let marked = null;
let claiming = null;
// The call or card that is on its way, in whose place it is shown already; else empty.
let onWay = "";
let looking = false;
let drawn = () => {};
let movedAt = 0;
// Milliseconds in which a tap or a click counts for nothing, once what can be tapped has moved; and between two taps.
const DEAF = 400;
const TWICE = 250;

// A tap marks and a second one sends, or one sends at once: as is set, and else by what points.
function isSafe() {
  const set = sessionStorage.getItem("sent");
  if (set !== null) return set === "twice";
  return typeof matchMedia === "function" && matchMedia("(pointer: coarse)").matches;
}

// Of a finger or a mouse, which may have meant what stood there before; keys choose what is in the focus.
const isDeaf = (event) => Boolean(event && event.detail > 0 && Date.now() - movedAt < DEAF);

// Draws what a tap here has marked: nothing moves.
function redraw() {
  const was = movedAt;
  drawn();
  movedAt = was;
}

function unmark() {
  marked = null;
  claiming = null;
  looking = false;
}

// Doubles, and bids of the highest two levels, which nobody makes in passing.
const isRare = (line) => /^CALL .* (XX?|[67]\w+)$/.test(line);

// What is marked already is sent, unless that was just now.
function sendMarked(event) {
  if (marked && !isDeaf(event) && Date.now() - marked.at >= TWICE) send(marked.line);
}

function mark(what, line) {
  marked = { what, line, at: Date.now() };
  redraw();
}

// What is tapped is marked, and sent by a second tap; or sent at once, but for rare calls.
function choose(what, line, event) {
  if (isDeaf(event)) return;
  held = what;
  if (marked && marked.what === what) sendMarked(event);
  else if (isSafe() || isRare(line)) mark(what, line);
  else send(line);
}

// Whether the line of what is marked would still be the next one.
function isStillDue(view, line) {
  const [word, , board, made] = line.split(" ");
  return board === view.board && made === view.made[{ CALL: "calls", CARD: "cards", REFUSE: "claims" }[word]] && (view.claim !== null) === (word === "REFUSE");
}

// A tap on the felt takes back what is marked.
function tapFelt(event) {
  if (marked === null || event.target.closest("button")) return;
  unmark();
  redraw();
}

function send(line) {
  unmark();
  return act(line);
}

// What a name stands for, as of a card or a call that can be tapped.
const namedNodes = (what) => (what === "" ? [] : what.startsWith("card-") ? cardNodes(what.slice(5)).reverse() : callNodes(what.slice(5)));

function confirmButton(prompt, sending) {
  const ready = marked !== null && !busy;
  const label = busy ? [onWay ? TEXTS.sendingIt : TEXTS.sending, ...namedNodes(onWay)] : marked ? [sending, ...namedNodes(marked.what)] : prompt;
  const node = button(make("span", null, ...[].concat(label)), "", "confirm", ready, sendMarked);
  node.className = ready ? "send" : busy ? "sending" : "";
  return node;
}

// ---- the table

const placeOf = (view, seat) => ["bottom", "left", "top", "right"][(SEATS.indexOf(seat) - SEATS.indexOf(view.seat) + 4) % 4];
const isVulnerable = (view, seat) => view.vulnerable === "All" || view.vulnerable === (seat === "N" || seat === "S" ? "NS" : "EW");
const count = (hand) => SUITS.reduce((sum, suit) => sum + hand[suit].length, 0);
// A name, which may break behind its signs.
const nameNodes = (name) => (name.match(/[^._-]*[._-]+|[^._-]+/g) || []).flatMap((part, i) => (i ? [make("wbr"), part] : [part]));
const dummyOf = (place) => (place.contract ? partner(place.contract.declarer) : null);
const onTurn = (view) => view.claim === null && view.turn;

// Whose hand plays and whether this player plays it: his own, or dummy's as declarer.
function handPlayed(place, view) {
  if (!view.playing || !place.contract || view.claim) return null;
  const dummy = dummyOf(place);
  if (view.turn === dummy) return view.seat === place.contract.declarer ? "dummy" : null;
  return view.turn === view.seat ? "own" : null;
}

function ledSuit(view) {
  return view.trick.length > 0 && view.trick.length < 4 ? view.trick[0].card[0] : null;
}

function biddingBox(view) {
  const mine = view.turn === view.seat;
  const call = (word, label, name, className) => {
    const id = "call-" + word;
    const line = "CALL " + key + " " + view.board + " " + view.made.calls + " " + word;
    const node = button(label, name, id, mine && allowedCall(view, word), (event) => choose(id, line, event));
    node.className = className;
    node.setAttribute("aria-pressed", String(onWay === id || (marked !== null && marked.what === id)));
    return node;
  };
  const cells = [call("PASS", TEXTS.pass, "", "box-call"), call("X", "X", TEXTS.double, "box-call"), call("XX", "XX", TEXTS.redouble, "box-call"),
    confirmButton(mine ? (isSafe() ? TEXTS.tapCall : TEXTS.yourCall) : TEXTS.toCall(SEAT_NAMES[view.turn]), marked && isBid(marked.what.slice(5)) ? TEXTS.bidIt : TEXTS.callIt)];
  for (let level = 1; level <= 7; level += 1) {
    for (const strain of STRAINS) {
      const word = level + strain;
      cells.push(call(word, make("span", null, String(level), SIGNS[strain] ? suitSign(strain) : strain), callName(word), "bid"));
    }
  }
  const box = make("section", { id: "dock", className: "box", aria_label: TEXTS.biddingBox }, ...cells);
  box.onkeydown = (event) => { arrowKey(event, 5); boxKey(event); };
  oneStop(box);
  return box;
}

// A hand or a box is one stop for Tab: the cell that is in the focus, else the marked one, else the first that may be chosen.
function oneStop(node) {
  const cells = [...node.querySelectorAll("button")].filter((one) => one.id !== "confirm");
  const free = cells.filter((one) => !one.disabled);
  const stop = free.find((one) => one === document.activeElement) || free.find((one) => marked && marked.what === one.id) || free[0];
  for (const one of cells) one.tabIndex = one === stop ? 0 : -1;
}

// In a sheet Tab goes round.
function holdTab(event) {
  if (event.key !== "Tab") return;
  const stops = [...event.currentTarget.querySelectorAll("button, input")].filter((one) => !one.disabled && (one.type !== "radio" || one.checked));
  const [first, last] = [stops[0], stops[stops.length - 1]];
  if (document.activeElement !== (event.shiftKey ? first : last)) return;
  event.preventDefault();
  (event.shiftKey ? last : first).focus();
}

// A sheet over the table: it takes the focus when it comes, holds it, and gives it back to what brought it.
function sheet(id, label, ...nodes) {
  const node = make("section", { id, className: "sheet", role: "dialog", aria_modal: "true", aria_label: label }, ...nodes);
  node.onkeydown = holdTab;
  return node;
}

// The sheet that is open, by the name of the button that brings it and the one that is in the focus first.
const sheetNow = () => (claiming ? ["claim-open", "claim-" + claiming.tricks] : looking ? ["last", "last-close"] : null);
let openSheet = null;
function moveFocus() {
  const now = sheetNow();
  if (now && !openSheet && at(now[1])) at(now[1]).focus();
  if (!now && openSheet && at(openSheet[0]) && document.activeElement === document.body) at(openSheet[0]).focus();
  openSheet = now;
}

// What is said with a claim, while it is being made.
let saying = "";

// Arrows go through what may be chosen in a hand or a box of so many columns.
function arrowKey(event, columns) {
  const nodes = [...event.currentTarget.querySelectorAll("button")];
  const step = { ArrowRight: 1, ArrowLeft: -1, ArrowDown: columns, ArrowUp: -columns }[event.key];
  const from = nodes.indexOf(document.activeElement);
  if (!step || from < 0) return;
  event.preventDefault();
  let to = from + step;
  while (nodes[to] && nodes[to].disabled) to += step;
  if (nodes[to]) nodes[to].focus();
  oneStop(event.currentTarget);
}

// What keys have chosen is in the focus, and as if it were clicked.
function choseKey(node) {
  if (!node || node.disabled) return;
  node.focus();
  node.click();
}

// In a hand keys choose: s, h, d or c, and then a rank, of which 1 is the ten's.
let suitKey = "";
function handKey(event) {
  const word = event.key.toUpperCase();
  if (SUITS.includes(word)) {
    suitKey = word;
    return;
  }
  choseKey(suitKey ? at("card-" + suitKey + (word === "1" ? "T" : word)) : null);
  suitKey = "";
}

// In the box keys choose: p, x, r, or a level and then c, d, h, s or n.
let level = "";
function boxKey(event) {
  const word = event.key.toLowerCase();
  if (/^[1-7]$/.test(word)) {
    level = word;
    return;
  }
  const strain = { c: "C", d: "D", h: "H", s: "S", n: "NT" }[word];
  const chosen = { p: "PASS", x: "X", r: "XX" }[word] || (level && strain ? level + strain : "");
  level = "";
  choseKey(chosen ? at("call-" + chosen) : null);
}

// Of a long auction the row in which a call is due is in view.
// It is asked for with the next frame, in which the page is laid out once; until then nothing is drawn.
const inFrame = (act) => (typeof requestAnimationFrame === "function" ? requestAnimationFrame(act) : act());
function showNewest() {
  const [box, due] = [at("auction"), at("due-call")];
  if (box) box.scrollTop = due ? due.offsetTop + due.offsetHeight - box.clientHeight : box.scrollHeight;
}

function auctionTable(place, view) {
  const columns = ["W", "N", "E", "S"];
  const due = view.playing ? null : view.turn;
  const head = make("tr", null, ...columns.map((seat) => make("th", { scope: "col", className: seat === due ? "turn" : "" },
    make("span",
      { className: "seat" + (isVulnerable(view, seat) ? " vul" : ""), aria_hidden: "true" }, seat), seat === view.dealer ? " " + TEXTS.deals : "", make("br"),
    make("span", { aria_label: SEAT_NAMES[seat] }, ...(seat === view.seat && view.isOwn !== false ? [TEXTS.you] : nameNodes(place.names ? place.names[seat] : ""))))));
  const cells = Array(columns.indexOf(view.dealer)).fill("").concat(view.calls);
  const rows = [];
  // An auction at play has room for twelve calls, so that it stays where it is.
  for (let i = 0; i < Math.max(cells.length + (due ? 1 : 0), due ? 12 : 0); i += 4) {
    rows.push(make("tr", null, ...[0, 1, 2, 3].map((j) => {
      const dueHere = due !== null && i + j === cells.length;
      const chosen = dueHere ? onWay || (marked ? marked.what : "") : "";
      if (chosen.startsWith("call-")) return make("td", { id: "due-call", className: "turn marked" }, ...namedNodes(chosen));
      if (dueHere) return make("td", { id: "due-call", className: "turn", aria_label: TEXTS.dueCall }, "?");
      return make("td", null, ...(cells[i + j] ? callNodes(cells[i + j]) : [""]));
    })));
  }
  return make("table", { aria_label: TEXTS.auction }, make("thead", null, head), make("tbody", null, ...rows));
}

// Which suits stand in which of two rows, for as long as the board is played: so that neither row has more than seven cards.
const rowsKept = new Map();
function rowsOf(hand, board, whose) {
  const name = board + whose;
  if (!rowsKept.has(name)) {
    const pairings = [[["S", "H"], ["C", "D"]], [["S", "D"], ["C", "H"]], [["S", "C"], ["H", "D"]]];
    const fits = pairings.find((rows) => rows.every((row) => row.reduce((sum, suit) => sum + hand[suit].length, 0) <= 7));
    rowsKept.set(name, fits || null);
  }
  const rows = rowsKept.get(name);
  if (rows) return rows.map((row) => row.map((suit) => [suit, hand[suit]]));
  // No pairing fits: in order, cut at seven.
  const all = SUITS.flatMap((suit) => [...hand[suit]].map((rank) => suit + rank));
  const ranksIn = (row, suit) => row.filter((card) => card[0] === suit).map((card) => card[1]).join("");
  return [all.slice(0, 7), all.slice(7)].map((row) => SUITS.map((suit) => [suit, ranksIn(row, suit)]));
}

// A hand; its cards can be tapped where they may be played.
function handNode(view, hand, label, id, mine, where) {
  const led = ledSuit(view);
  const follows = led !== null && hand[led] !== "";
  const node = make("section", { className: "hand" + (mine ? " on" : ""), id, aria_label: label }, make("h2", null, label));
  node.onkeydown = (event) => { arrowKey(event, 1); handKey(event); };
  const card = (suit, rank) => {
    const name = "card-" + suit + rank;
    const line = "CARD " + key + " " + view.board + " " + view.made.cards + " " + suit + rank;
    const made = button("", cardName(suit + rank), name, mine && (!follows || suit === led), (event) => choose(name, line, event));
    made.append(...cardNodes(suit + rank));
    made.className = "card" + SUIT_CLASSES[suit];
    if (mine) made.setAttribute("aria-pressed", String(marked !== null && marked.what === name));
    return made;
  };
  const voidNode = (suit) => make("div", { className: "group void-of in-" + suit }, make("span", { className: "void" }, suitSign(suit), " \u2013"));
  const group = ([suit, ranks]) => (ranks === "" ? voidNode(suit)
    : make("div", { className: "group in-" + suit + (ranks[0] === hand[suit][0] ? "" : " more") },
      ...[...ranks].filter((rank) => onWay !== "card-" + suit + rank).map((rank) => card(suit, rank))));
  const isShown = ([suit, ranks]) => ranks !== "" || (id === "dummy" && hand[suit] === "");
  const suits = where === "left" || where === "right" ? SUITS.map((suit) => [[suit, hand[suit]]]) : rowsOf(hand, view.board, id);
  const rows = suits.map((row) => row.filter(isShown)).filter((row) => row.length > 0);
  node.append(make("div", { className: "cards" }, ...rows.map((row) => make("div", { className: "line" }, ...row.map(group)))));
  oneStop(node);
  return node;
}

function plate(place, view, seat) {
  const declarer = place.contract ? place.contract.declarer : null;
  const acts = onTurn(view) === dummyOf(place) && view.seat === dummyOf(place) ? declarer : onTurn(view);
  const name = place.names ? place.names[seat] : SEAT_NAMES[seat];
  const node = make("div", { className: "plate" + (acts === seat ? " turn" : "") },
    make("b", { className: isVulnerable(view, seat) ? "vul" : "", aria_label: SEAT_NAMES[seat] }, seat), make("span", null, ...nameNodes(name)));
  const role = name.length > 20 ? "" : "roomy";
  if (seat === declarer) node.append(make("em", { className: role, aria_label: TEXTS.declarer }, make("i", null, TEXTS.declarerShort), make("i", null, TEXTS.declarer)));
  if (view.playing && seat === dummyOf(place)) node.append(make("em", null, TEXTS.dummy));
  return node;
}

// A card of a trick, on the side of who played it.
function cardOnTable(view, { seat, card }, won) {
  return make("span", { className: "played " + placeOf(view, seat) + SUIT_CLASSES[card[0]] + (won ? " won" : ""), role: "img",
    aria_label: SEAT_NAMES[seat] + ": " + cardName(card) }, ...cardNodes(card));
}

const dueOnTable = (view, seat) => make("span", { className: "due " + placeOf(view, seat), aria_hidden: "true" }, seat);

// The trick on the table: the one at play, or the last whole one until the next card is led.
function trickNode(view) {
  const sent = onWay.startsWith("card-") ? cardOnTable(view, { seat: view.turn, card: onWay.slice(5) }, false) : null;
  const whole = view.trick.length === 0 && sent === null;
  const trick = whole ? view.last : view.trick;
  const node = make("div", { className: "trick", role: "group", aria_label: whole && trick.length ? TEXTS.lastTrick : TEXTS.trickNow },
    ...trick.map((one) => cardOnTable(view, one, whole && one.seat === view.turn)));
  if (sent) sent.className += " sent";
  if (sent) node.append(sent);
  const due = whole || !onTurn(view) ? null : !sent ? view.turn : trick.length < 3 ? nextTo(view.turn) : null;
  if (due) node.append(dueOnTable(view, due));
  return node;
}

function stageNode(place, view, middle) {
  const node = make("section", { id: "stage", aria_label: TEXTS.table, onclick: tapFelt });
  const dummy = dummyOf(place);
  for (const seat of SEATS) {
    const where = placeOf(view, seat);
    if (where === "bottom") continue;
    const box = make("div", { className: "at-" + where }, plate(place, view, seat));
    if (view.playing && seat === dummy && view.dummy) box.append(handNode(view,
      view.dummy, TEXTS.dummyHand(SEAT_NAMES[seat]), "dummy", !busy && handPlayed(place, view) === "dummy", where));
    node.append(box);
  }
  node.append(middle);
  return node;
}

// The tricks of this player's side and of the other.
const sidesOf = (view) => (view.seat === "N" || view.seat === "S" ? [view.tricks.NS, view.tricks.EW] : [view.tricks.EW, view.tricks.NS]);

// The tricks as cards are turned at a table: ours upright, theirs lying.
function tallyNode(view) {
  const [we, they] = sidesOf(view);
  const marks = Array(Number(we)).fill("ours").concat(Array(Number(they)).fill("theirs"), Array(13 - Number(we) - Number(they)).fill(""));
  return make("span", { className: "tally", role: "img", aria_label: TEXTS.tally(we, they) }, ...marks.map((mark) => make("i", { className: mark })));
}

// The contract, and how many tricks this side needs.
const contractNode = ({ bid }) => make("span", { className: "contract", aria_label: callName(bid) }, ...callNodes(bid));
const isOurs = (view, declarer) => declarer === view.seat || declarer === partner(view.seat);
const needed = (view, { bid, declarer }) => (isOurs(view, declarer) ? 6 + Number(bid[0]) : 8 - Number(bid[0]));

function stripNode({ contract }, view, auction) {
  const { declarer } = contract;
  const words = (declarer === view.seat ? TEXTS.by(declarer, true) : declarer)
    + (isOurs(view, declarer) ? TEXTS.needs : TEXTS.weNeed)(needed(view, contract));
  const calls = make("details", { id: "calls" }, make("summary", null, contractNode(contract), make("span", null, words)), make("div", null, auction));
  return make("section", { id: "strip", aria_label: TEXTS.contract }, calls, tallyNode(view),
    make("span", { className: "score", aria_hidden: "true" }, sidesOf(view).join("\u2013")));
}

// Who won the last trick.
const lastWinner = (place, view) => winnerOf(view.last, strainOf(place.contract.bid)[0]);

function lastTrickNodes(place, view) {
  const winner = lastWinner(place, view);
  return view.last.map(({ seat, card }) => make("span", { className: seat === winner ? "won" : "" },
    make("span", { className: "second", aria_hidden: "true" }, seat + " "), cardInText(card, SEAT_NAMES[seat] + ": " + cardName(card))));
}

// What stands beside the table: the contract and the tricks, the last trick, the auction and the round.
function sideNode(place, view) {
  const { contract } = place;
  const [we, they] = sidesOf(view);
  const due = needed(view, contract);
  const part = (name, title, ...nodes) => make("section", { className: "side-" + name }, make("h2", null, title), ...nodes);
  const node = make("aside", { id: "side", aria_label: TEXTS.theBoard },
    make("section", { className: "side-contract" }, contractNode(contract), make("span", null, make("b", null, TEXTS.bySeat(contract.declarer, contract.declarer === view.seat)), make("br"),
      (isOurs(view, contract.declarer) ? TEXTS.toMake : TEXTS.toBeat)(due, due - Number(we)))),
    part("tricks", TEXTS.tricksHead, make("p", null, make("span", null, TEXTS.weTook(we)), tallyNode(view), make("span", null, TEXTS.theyTook(they)))));
  if (view.last.length) node.append(part("last", TEXTS.lastTrickTo(SEAT_NAMES[lastWinner(place, view)]), make("p", null, ...lastTrickNodes(place, view))));
  const all = worthOfAll(told.boards);
  node.append(part("auction", TEXTS.auction, auctionTable(place, view)),
    part("round", TEXTS.roundSoFar, roundNode(place, view), ...(all ? [make("p", null, TEXTS.eveningSoFar, worthOfSome(all))] : [])));
  return node;
}

// What a contract comes to with so many tricks, in words.
function resultWords(bid, tricks) {
  const over = tricks - 6 - Number(bid[0]);
  return callName(bid) + (over === 0 ? " " : ", ") + TEXTS.made(over);
}

// What the claim of a side comes to, by the tricks that it has and those that it claims.
function claimWords(place, view, seat, tricks) {
  const bid = place.contract.bid;
  const north = seat === "N" || seat === "S";
  const has = Number(north ? view.tricks.NS : view.tricks.EW) + tricks;
  const declares = (place.contract.declarer === "N" || place.contract.declarer === "S") === north;
  const made = declares ? has : 13 - has;
  const score = scoreOf(bid, made, isVulnerable(view, place.contract.declarer));
  const own = (place.contract.declarer === view.seat || place.contract.declarer === partner(view.seat)) ? score : -score;
  return resultWords(bid, made) + ": " + TEXTS.forYou(signed(own));
}

// The score of a contract with so many tricks, for its declarer (Law 77).
function scoreOf(bid, tricks, isVul) {
  const level = Number(bid[0]);
  const strain = strainOf(bid);
  const by = [1, 2, 4][/X*$/.exec(bid)[0].length];
  const over = tricks - 6 - level;
  if (over < 0 && by === 1) return (isVul ? 100 : 50) * over;
  if (over < 0) return -(by / 2) * (isVul ? 300 * -over - 100 : -over <= 3 ? 200 * -over - 100 : 300 * -over - 400);
  const each = strain === "C" || strain === "D" ? 20 : 30;
  const base = (each * level + (strain === "NT" ? 10 : 0)) * by;
  const slam = level === 7 ? (isVul ? 1500 : 1000) : level === 6 ? (isVul ? 750 : 500) : 0;
  return base + (base >= 100 ? (isVul ? 500 : 300) : 50) + slam + (by === 1 ? each * over : (by / 2) * (50 + (isVul ? 200 : 100) * over));
}

const leftOf = (view) => 13 - Number(view.tricks.NS) - Number(view.tricks.EW);

function claimSheet(place, view) {
  const left = leftOf(view);
  const choice = (tricks, label) => {
    const node = button(label, "", "claim-" + tricks, true, () => { claiming = { board: view.board, tricks }; redraw(); });
    node.setAttribute("aria-pressed", String(claiming.tricks === tricks));
    return node;
  };
  const some = Array.from({ length: left - 1 }, (_none, i) => choice(i + 1, String(i + 1)));
  const line = "CLAIM " + key + " " + view.board + " " + view.made.claims + " " + claiming.tricks;
  const said = make("input", { id: "claim-says", type: "text", maxLength: 100, value: saying, oninput: () => { saying = said.value; } });
  // What is said goes with the claim once that stands.
  const makeIt = async () => {
    const words = plainText(saying);
    saying = "";
    if (await send(line) && words) askDesk("STATEMENT " + words);
  };
  const claim = button(TEXTS.claimTricks(claiming.tricks), "", "claim-button", true, (event) => (isDeaf(event) ? undefined : makeIt()));
  claim.className = "send";
  return sheet("claiming", TEXTS.claimTitle, make("h2", null, TEXTS.claimTitle), make("div", null, TEXTS.claimOf(left)),
    make("div", { className: "numbers" }, ...some), make("div", { className: "ends" }, choice(0, TEXTS.claimNone), choice(left, TEXTS.claimAll(left))),
    make("p", null, claimWords(place, view, view.seat, claiming.tricks) + "."),
    make("div", { className: "says" }, make("label", { for: "claim-says" }, TEXTS.claimSays), said), make("p", { className: "second" }, TEXTS.claimHelp(isOurs(view, place.contract.declarer))),
    make("div", { className: "row" }, button(TEXTS.back, "", "claim-back", true, () => { claiming = null; drawn(); }), claim));
}

function lastSheet(place, view) {
  const winner = lastWinner(place, view);
  const close = button(TEXTS.backToPlay, "", "last-close", true, () => { looking = false; drawn(); });
  close.className = "send";
  return sheet("last-trick", TEXTS.lastTrick, make("h2", null, TEXTS.lastTrickTo(SEAT_NAMES[winner])),
    make("div", { className: "trick" }, ...view.last.map((one) => cardOnTable(view, one, one.seat === winner))), close);
}

// Answers to a claim that this player is asked for.
function answerDock(place, view) {
  const line = (word) => word + " " + key + " " + view.board + " " + view.made.claims;
  const agreed = desk.agreed.length ? ". " + TEXTS.agrees(desk.agreed.map((seat) => SEAT_NAMES[seat])) : TEXTS.ifAgreed;
  const said = desk.said ? [make("p", { className: "said" }, TEXTS.saidWith(SEAT_NAMES[view.claim.seat], desk.said))] : [];
  return make("section", { id: "dock", className: "claimed", aria_label: TEXTS.theClaim },
    make("p", null, make("b", null, TEXTS.claims(SEAT_NAMES[view.claim.seat], view.claim.tricks, leftOf(view))), make("br"),
      claimWords(place, view, view.claim.seat, Number(view.claim.tricks)) + agreed), ...said,
    refuseButton(line("REFUSE")), button(TEXTS.agree, "", "agree", true, (event) => { if (!isDeaf(event)) send(line("AGREE")); }));
}

// Whoever refuses is asked: it wants a second press.
function refuseButton(line) {
  const asked = marked !== null && marked.what === "refuse";
  const press = (event) => { if (isDeaf(event)) return; if (asked) sendMarked(event); else mark("refuse", line); };
  const node = button(asked ? TEXTS.reallyRefuse : TEXTS.refuse, "", "refuse", true, press);
  node.setAttribute("aria-pressed", String(asked));
  return node;
}

function playDock(place, view) {
  const played = handPlayed(place, view);
  const isDummy = dummyOf(place) === view.seat;
  const cells = [button(TEXTS.lastTrick, "", "last", view.last.length > 0, () => { looking = !looking; drawn(); })];
  const claim = button(TEXTS.claim, "", "claim-open",
    !isDummy && !view.claim && view.trick.length === 0 && view.made.cards !== "0", () => { claiming = { board: view.board, tricks: leftOf(view) }; drawn(); });
  claim.hidden = isDummy;
  if (isDummy) cells.push(claim, button(TEXTS.myBoards, "", "confirm", true, () => turnLeaf({ card: true })));
  else cells.push(claim, confirmButton(played ? (isSafe() ? TEXTS.tapCard : TEXTS.yourCard) : TEXTS.pleaseWait, TEXTS.playIt));
  return make("section", { id: "dock", className: "play", aria_label: TEXTS.dock }, ...cells);
}

const toPlay = (view, lead) => (view.turn === view.seat ? TEXTS.youAreToPlay : TEXTS.isToPlay(SEAT_NAMES[view.turn], lead));

// Whom the claim asks (Law 68): declarer's both defenders, a defender's declarer alone; who of them has agreed, and who has not.
function answersWords(place, view) {
  const { declarer } = place.contract;
  const asked = view.claim.seat === declarer ? SEATS.filter((seat) => seat !== declarer && seat !== partner(declarer)) : [declarer];
  const [agreed, due] = [true, false].map((is) => asked.filter((seat) => desk.agreed.includes(seat) === is).map((seat) => SEAT_NAMES[seat]));
  return [agreed.length ? TEXTS.agrees(agreed) : "", due.length ? TEXTS.areAsked(due) : ""].filter(Boolean).join(" ");
}

// Declarer's claim asks both defenders: whose answer is due no more has agreed, and his partner is asked.
const hasAgreed = (place, view) => view.claim.seat === place.contract.declarer && isOther(view, view.claim.seat) && !place.answer;

// What is waited for, in a sentence.
function waiting(place, view) {
  if (view.claim) {
    const { seat, tricks } = view.claim;
    if (place.answer) return TEXTS.answerWaited;
    if (hasAgreed(place, view)) return TEXTS.youAgreed(SEAT_NAMES[seat], TEXTS.fewOf(tricks, leftOf(view)), SEAT_NAMES[partner(view.seat)]);
    return (seat === view.seat ? TEXTS.youClaim(tricks, leftOf(view)) : TEXTS.claimsFew(SEAT_NAMES[seat], tricks, leftOf(view))) + answersWords(place, view);
  }
  if (!view.playing) return view.turn === view.seat ? TEXTS.yourTurnToCall : TEXTS.isToCall(SEAT_NAMES[view.turn]);
  const played = handPlayed(place, view);
  if (played) {
    const hand = played === "own" ? view.hand : view.dummy;
    const led = ledSuit(view);
    if (led && hand && hand[led] !== "") return (played === "own" ? TEXTS.follow : TEXTS.followDummy)(TEXTS.pieces[led]);
    if (view.made.cards === "0") return TEXTS.openingLead;
    return played === "own" ? TEXTS.turnIsYours : TEXTS.turnFromDummy;
  }
  if (!place.contract) return toPlay(view, false);
  if (view.seat === dummyOf(place)) return TEXTS.youAreDummy(place.names[place.contract.declarer]);
  if (view.turn === dummyOf(place)) return TEXTS.fromDummy(SEAT_NAMES[place.contract.declarer]);
  return toPlay(view, view.made.cards === "0");
}

function isMine(place, view) {
  if (view.claim) return place.answer;
  return view.playing ? handPlayed(place, view) !== null : view.turn === view.seat;
}

function playNodes(place, view) {
  const dummy = dummyOf(place);
  const own = handNode(view, view.hand,
    view.seat === dummy && view.playing ? TEXTS.ownDummy : TEXTS.ownHand(SEAT_NAMES[view.seat]), "hand", !busy && handPlayed(place, view) === "own");
  if (!view.playing || !place.contract) {
    const stage = stageNode(place, view, make("div", { id: "auction", className: "auction" }, auctionTable(place, view)));
    // The board lies there while there is room.
    if (view.calls.length < 9) stage.append(boardPicture({ number: Number(view.board), side: "NS", calls: [] }, view.seat));
    return [stage, own, biddingBox(view)];
  }
  const nodes = [stripNode(place, view, auctionTable(place, view)), stageNode(place, view, trickNode(view)), own];
  if (claiming && (claiming.board !== view.board || view.claim || view.trick.length > 0)) claiming = null;
  if (claiming) nodes.push(claimSheet(place, view));
  else if (looking && view.last.length) nodes.push(lastSheet(place, view));
  nodes.push(view.claim && place.answer ? answerDock(place, view) : playDock(place, view), sideNode(place, view));
  return nodes;
}

// ---- what is told in passing

// Where the play was when the page looked last; and a notice that stands until the play is elsewhere: its text and where it stands.
let playIs = "";
let passing = null;

function sayPassing(text, where = playIs) {
  passing = { text, where };
  say("notice", text);
}

// The play is where it is shown now.
function playGoesOn(place, view) {
  playIs = [place.round, view ? [view.board, view.made.calls, view.made.cards, view.made.claims].join(" ") : "-"].join(" ");
  if (passing === null || playIs.startsWith(passing.where)) return;
  if (at("notice").textContent === passing.text) say("notice", "");
  passing = null;
}

// ---- what is heard, and what plays itself

let before = null;

// Why a claim stands no more, as far as it is told.
function claimFell() {
  if (!desk.refusedBy) return TEXTS.claimRefused;
  return before && desk.refusedBy === before.seat ? TEXTS.youRefused : TEXTS.claimRefusedBy(SEAT_NAMES[desk.refusedBy]);
}

// What came since the last view of the same board, in words.
function news(view) {
  const old = before;
  before = view;
  if (!old || old.board !== view.board) return TEXTS.board(view.board);
  const said = [];
  view.calls.slice(old.calls.length).forEach((call, i) => said.push(SEAT_NAMES[SEATS[(SEATS.indexOf(view.dealer) + old.calls.length + i) % 4]] + ": " + callName(call)));
  const cards = view.trick.length ? view.trick : view.made.cards === old.made.cards ? [] : view.last;
  const fresh = Number(view.made.cards) - Number(old.made.cards);
  cards.slice(Math.max(0, cards.length - fresh)).forEach(({ seat, card }) => said.push(SEAT_NAMES[seat] + ": " + cardName(card)));
  if (old.claim && !view.claim) sayPassing(claimFell());
  if (fresh < 0) sayPassing(TEXTS.cardBack);
  else if (view.calls.length < old.calls.length) sayPassing(TEXTS.callBack);
  if (view.last.length && view.trick.length === 0 && fresh > 0) said.push(TEXTS.trickTo(SEAT_NAMES[view.turn]));
  return said.join(". ");
}

// The only card of the last trick is played by the page.
const ITSELF = 700;
let played = "";
function playLast(place, view) {
  const whose = handPlayed(place, view);
  const hand = whose === "own" ? view.hand : view.dummy;
  if (!whose || !hand || count(hand) !== 1) return;
  const suit = SUITS.find((one) => hand[one] !== "");
  const line = "CARD " + key + " " + view.board + " " + view.made.cards + " " + suit + hand[suit];
  if (played === line) return;
  played = line;
  setTimeout(() => { if (!busy && key !== null) act(line); }, ITSELF);
}

// ---- pages between the boards

function placeText(place) {
  const table = place.table;
  return table ? TEXTS.boardsOf(table.first, table.last) : TEXTS.sitsOut;
}

function nextText(place) {
  if (place.round >= place.rounds) return "";
  return place.next ? TEXTS.nextRound(place.next.number, SEAT_NAMES[place.next.seat]) : TEXTS.sitsOutNext;
}

function headText(place) {
  return TEXTS.ofPair(shownName(place.pair, place.name), place.pair);
}

// Who sits in some seats, a line each.
const seatsNode = (seats, name) => make("ul", { className: "names" },
  ...seats.map((seat) => make("li", null, make("span", { className: "mark", aria_label: SEAT_NAMES[seat] }, seat), name(seat))));

// Who sits at a table: this player and his partner, then those whom they play.
function namesNodes({ table, names }) {
  const { seat } = table;
  const sides = [[seat, partner(seat)], SEATS.filter((one) => one !== seat && one !== partner(seat))];
  const [ours, theirs] = sides.map((seats) => seatsNode(seats, (one) => (one === seat ? TEXTS.isYou(names[one]) : names[one])));
  return [ours, make("h2", null, TEXTS.opponents), theirs];
}

// What the evening has come to so far, and the way to the score card.
function soFarNodes() {
  const all = worthOfAll(told.boards);
  const words = all ? [make("p", null, TEXTS.eveningSoFar, make("b", null, worthOfSome(all)))] : [];
  return [...words, make("div", { className: "row" }, button(TEXTS.myBoards, "", "between-boards", true, () => turnLeaf({ card: true })))];
}

// The table at which he sits and the one to which he goes.
function wayNodes(table, next) {
  if (!table || table.number === next.number) return [];
  const tile = (className, number, words) => make("li", { className }, make("b", null, number), words);
  return [make("ol", { className: "round" }, tile("here", table.number, TEXTS.youAreHere), tile("now", next.number, TEXTS.youGoHere))];
}

function wayText(table, next) {
  const up = table ? Number(next.number) - Number(table.number) : null;
  return up === 0 ? TEXTS.stay : TEXTS.goTo(next.number, up);
}

// Who sits at his next table: he and his partner, and whom they meet.
function meetNodes(next) {
  if (desk.meets === null) return [];
  const names = shownAt(desk.meets.names);
  const own = [next.seat, partner(next.seat)];
  const others = SEATS.filter((seat) => !own.includes(seat));
  const pair = others.includes("N") ? desk.meets.ns : desk.meets.ew;
  return [seatsNode(own, (seat) => (seat === next.seat ? TEXTS.isYou(names[seat]) : names[seat])),
    make("h2", null, TEXTS.youMeet(pair)), seatsNode(others, (seat) => names[seat])];
}

function betweenNodes(place, next) {
  const nodes = [];
  if (next) {
    nodes.push(make("section", { className: "panel" }, make("p", { className: "second" }, TEXTS.nextOf(place.round + 1, place.rounds)),
      make("p", { className: "large" }, TEXTS.tableSeat(next.number, SEAT_NAMES[next.seat])),
      make("p", null, TEXTS.boardsOf(next.first, next.last) + ". ",
        make("b", null, wayText(place.table, next))), ...wayNodes(place.table, next), ...meetNodes(next),
      make("p", { className: "second" }, TEXTS.roundBegins(place.round + 1))));
  }
  const here = make("section", { className: "panel" }, make("p", { className: "second" }, TEXTS.roundOf(place.round, place.rounds)));
  if (place.table) here.append(
    make("p", { className: "large" }, TEXTS.tableSeat(place.table.number, SEAT_NAMES[place.table.seat])),
    make("p", null, placeText(place) + "."), ...namesNodes(place));
  else here.append(make("p", { className: "large" }, TEXTS.sitOut));
  if (!next || !place.table) nodes.unshift(here);
  const played = told.boards.filter((board) => board.round === String(place.round));
  if (played.length) nodes.push(make("section", { className: "panel wide-panel" }, make("h2", null, TEXTS.roundOwn(place.round)), cardTable(place, played),
    ...soFarNodes()));
  else if (told.boards.length) nodes.push(make("section", { className: "panel" }, ...soFarNodes()));
  return nodes;
}

// ---- the bar

function barFor(place, view) {
  const chip = at("chip");
  chip.hidden = !view;
  if (!view) {
    const { table, names } = place;
    at("title").textContent = shownName(place.pair, place.name);
    at("below").textContent = TEXTS.pairOf(place.pair) + (table ? TEXTS.with(TEXTS.sides[table.seat], names[partner(table.seat)]) : "");
    return;
  }
  const ours = view.seat === "N" || view.seat === "S" ? "NS" : "EW";
  const theirs = ours === "NS" ? "EW" : "NS";
  const is = (side) => view.vulnerable === "All" || view.vulnerable === side;
  chip.className = (is(ours) ? "vul-we " : "") + (is(theirs) ? "vul-they " : "") + "deals-" + placeOf(view, view.dealer);
  chip.textContent = view.board;
  chip.setAttribute("aria-label", TEXTS.boardWords(view.board, SEAT_NAMES[view.dealer], vulnerableText(view.vulnerable)));
  at("title").textContent = TEXTS.board(view.board);
  at("below").replaceChildren(TEXTS.dealsShort(view.dealer) + " \u00b7 " + TEXTS.vulnerableShort[view.vulnerable],
    make("span", { className: "wide" }, place.table ? TEXTS.atTable(place.table.number, place.round, place.rounds) + whichBoard(place.table, view.board) : ""));
}

// Which of the boards of this round it is, where it is one of them.
function whichBoard({ first, last }, board) {
  const [index, count] = [Number(board) - Number(first), Number(last) - Number(first) + 1];
  return index >= 0 && index < count ? TEXTS.boardOf(index, count) : "";
}

// The classes by which the style lays the page out.
function shapeOf(place, view) {
  if (!view) return "between";
  const dummy = dummyOf(place);
  const side = view.playing && dummy && view.dummy ? placeOf(view, dummy) : "";
  return "at-table " + (view.playing && place.contract ? "playing" : "bidding") + (side ? " dummy-" + side : "");
}

function turnTitle(mine) {
  document.title = mine ? TEXTS.yourTurn : TEXTS.title;
}

function showView(placeReply, reply) {
  const place = readPlace(placeReply);
  nextRound = null;
  const refused = refusal(reply);
  const made = placeReply + reply;
  if (refused) {
    before = null;
    unmark();
    turnTitle(false);
    const done = refused === "NotCurrent";
    const status = refused === "NotDealt" ? TEXTS.notDealtYet(place.round === 1 && !told.boards.length) : done ? TEXTS.boardsDone + nextText(place)
      : refused === "SitsOut" ? TEXTS.sitsOut + " " + nextText(place) : TEXTS.refusals[refused] || reply;
    drawn = () => {};
    const goesTo = (done || refused === "SitsOut") && place.next;
    if (showLeaf(place, goesTo ? TEXTS.toRound(place.round + 1) : TEXTS.toNext)) return;
    barFor(place, null);
    nextRound = goesTo ? place.round + 1 : null;
    showClock();
    show(made + told.text + JSON.stringify(desk.meets), status, "between" + (goesTo ? " goes-on" : ""), () => betweenNodes(place, goesTo));
    return;
  }
  const view = readView(reply);
  playGoesOn(place, view);
  if (unsure) sayFate(place, view);
  if (marked && !isStillDue(view, marked.line)) marked = null;
  const mine = isMine(place, view);
  turnTitle(mine);
  const said = news(view);
  if (said) say("heard", said);
  if (showLeaf(place, (mine ? TEXTS.nextYours : TEXTS.nextBoard)(view.board))) return;
  barFor(place, view);
  drawn = () => show(made + JSON.stringify([marked, claiming, looking, isSafe(), desk.said, desk.agreed]),
    waiting(place, view), shapeOf(place, view) + (mine ? " mine" : ""), () => playNodes(place, view), moveFocus);
  drawn();
  inFrame(showNewest);
  playLast(place, view);
}

async function showClosed(placeReply, asked, mine) {
  const place = readPlace(placeReply);
  const first = await ask("/lines", "RANK " + asked + " 1\n");
  const second = await ask("/lines", "RANK " + asked + " 2\n");
  if (mine !== turn) return;
  if (first === null || second === null) return unreachable();
  const made = placeReply + first + second;
  // The results are long: they are asked for again where a ranking has changed, and else once a minute.
  if (results.made !== made || Date.now() - results.at > RESULTS_LAST) {
    const text = await ask("/results", asked);
    if (mine !== turn) return;
    if (text === null) return unreachable();
    // What boards are worth may have changed as well.
    told.at = -BOARDS_LAST;
    results = { made, text, at: Date.now() };
  }
  await lookAtBoards(asked, place, null);
  if (mine !== turn) return;
  turnTitle(false);
  drawn = () => {};
  if (showLeaf(place, TEXTS.toNext)) return;
  const [event, where] = results.text.split("\n").map((line) => line.replace(/-/g, " "));
  at("chip").hidden = true;
  at("title").textContent = TEXTS.finalOf(event);
  at("below").textContent = where;
  const both = [first, second].filter((reply) => !refusal(reply));
  show(made + results.text + told.text, TEXTS.closed, "final", () => finalNodes(place, both));
}

// What has come of the evening for this player's pair: [place, pair, score, per cent] among so many.
function bannerNode(place, own, among, names) {
  const large = (words) => make("p", { className: "large" }, words);
  return make("section", { id: "own", className: "banner" }, large(TEXTS.youAreOf(TEXTS.ordinals[own[0] - 1] || TEXTS.atPlace(own[0]), among)),
    large(own[3] ? TEXTS.percent(own[3]) : own[2]), make("p", null, TEXTS.pairAnd(place.pair, names.get(place.pair))), make("p", null, own[3] ? TEXTS.pointsOf(own[2]) : ""));
}

function finalNodes(place, both) {
  const names = shownPairs(namesIn(results.text));
  const nodes = [];
  for (const lines of both.map(rankingLines)) {
    const own = lines.find((words) => Number(words[1]) === place.pair);
    if (own) nodes.push(bannerNode(place, own, lines.length, names));
  }
  nodes.push(make("div", { className: "sides" },
    ...rankings(both, place.pair, names).map((nodes) => make("section", { className: "panel" }, ...nodes))));
  const card = button(TEXTS.ownCard, "", "my-boards", told.boards.length > 0, () => turnLeaf({ card: true }));
  card.className = "send";
  const all = make("details", { id: "all-results" }, make("summary", null, TEXTS.allBoards), make("pre", { id: "results" }, shownResults(results.text)));
  const turnAll = () => { all.open = !all.open; if (all.open && all.scrollIntoView) all.scrollIntoView(); };
  nodes.push(make("div", { className: "ways" }, card, button(TEXTS.allBoards, "", "all-boards", true, turnAll),
    button(TEXTS.print, "", "print", true, () => window.print())), all);
  return nodes;
}

// Shows where a player sits, and the play there, or what came of the session.
async function showPlayer(place, view, asked, mine) {
  const where = readPlace(place);
  const seen = refusal(view) ? null : readView(view);
  playGoesOn(where, seen);
  if (where.round > where.rounds) return showClosed(place, asked, mine);
  await lookAtBoards(asked, where, seen ? seen.board : null);
  if (mine !== turn) return;
  lastPlace = place;
  showView(place, view);
}

// What his place was when a player was shown it last, and whether a view may be shown over it: the same board goes on, and no
// contract has been made since.
let lastPlace = "";
function goesOn(view) {
  if (before === null || !view.startsWith("OK\n")) return false;
  const now = readView(view);
  return now.board === before.board && now.playing === before.playing;
}

// The line that had no answer; what has become of it the next view tells, where it is of the same board.
let unsure = "";
let unsureAt = 0;
// Milliseconds in which it may still come to the server.
const UNSURE = 3000;
function sayFate(place, view) {
  const [kind, , board, made] = unsure.split(" ");
  const now = { CALL: view.made.calls, CARD: view.made.cards, CLAIM: view.made.claims }[kind];
  const taken = now === undefined ? !place.answer : Number(now) > Number(made);
  if (view.board === board && !taken && Date.now() - unsureAt < UNSURE) return;
  unsure = "";
  say("notice", view.board !== board ? "" : taken ? TEXTS.wasTaken : TEXTS.wasNotTaken);
}

// Milliseconds after which it is said that a line is on its way, and that it has no answer; and the notice that says so.
const ON_WAY = 1500;
const NO_ANSWER = 5000;
let late = false;
function sayLate(what) {
  const status = (words) => { say("status", words); at("status").className = ""; };
  const named = what === "" ? TEXTS.it : what.startsWith("card-") ? TEXTS.theCard(cardName(what.slice(5))) : callName(what.slice(5));
  return [setTimeout(() => status(TEXTS.sending), ON_WAY), setTimeout(() => {
    status(TEXTS.noAnswerFor(NO_ANSWER / 1000));
    say("notice", TEXTS.slow(named));
    late = true;
  }, NO_ANSWER)];
}

// Sends one line, and shows what has become of it.
async function act(line) {
  if (busy) return;
  const asked = key;
  busy = true;
  turn += 1;
  say("notice", "");
  onWay = /^C(ALL|ARD) /.test(line) ? line.slice(0, 4).toLowerCase() + "-" + line.split(" ").pop() : "";
  drawn();
  const timers = sayLate(onWay);
  // Whoever refuses a claim says so first, so that the others are told who did.
  const said = line.startsWith("REFUSE ") ? await ask("/desk", asked + " REFUSAL") : null;
  if (said !== null && key === asked) takeDesk(said);
  // The answer, and what there is to see then.
  const reply = await ask("/lines", line + "\nSEE " + asked + "\n");
  timers.forEach(clearTimeout);
  busy = false;
  onWay = "";
  if (late) say("notice", "");
  late = false;
  if (key !== asked) return key === null ? undefined : look();
  shown = "";
  unsure = reply === null ? line : "";
  unsureAt = Date.now();
  if (reply === null) say("notice", TEXTS.unknownFate);
  else if (refusal(reply)) sayPassing(TEXTS.refusals[refusal(reply)] || reply);
  const view = reply === null ? "" : reply.slice(reply.indexOf("\n") + 1);
  if (/^C(ALL|ARD) /.test(line) && goesOn(view)) showView(lastPlace, view);
  await look();
  return reply !== null && !refusal(reply);
}

// ---- choices, kept for the tab

// One choice of two: what it is about, the name under which it is kept, and for each its value and words.
function choiceOf(title, name, now, options) {
  const radio = ([value, words]) => make("label", null, make("input", {
    type: "radio", name, id: name + "-" + value, checked: value === now, onchange: () => { sessionStorage.setItem(name, value); chosen(); },
  }), words);
  return make("fieldset", null, make("legend", null, title), ...options.map(radio));
}

const lightNow = () => sessionStorage.getItem("light") || "device";

function chosen() {
  unmark();
  document.documentElement.className = [sessionStorage.getItem("suits") === "four" ? "four" : "", lightNow()].join(" ").trim();
  drawn();
}

// The suits in the colours of a choice.
const suitsIn = (colours, words) => make("span", null, make("span", { className: colours + " suits", aria_hidden: "true" }, ...SUITS.map(suitSign)), " " + words);

// The menu: of a player his boards, how he sends and how cards look; of all light and dark, and to leave who has logged in.
function showMenu() {
  const options = [choiceOf(TEXTS.suitsTitle, "suits", sessionStorage.getItem("suits") || "two", [["two", suitsIn("two", TEXTS.suitsTwo)], ["four", suitsIn("four", TEXTS.suitsFour)]]),
    choiceOf(TEXTS.lightTitle, "light", lightNow(), Object.entries(TEXTS.lights))];
  if (key !== null && !isDirector()) {
    options.unshift(button(TEXTS.myBoards, "", "menu-boards", true, () => { closeMenu(); turnLeaf({ card: true }); }),
      choiceOf(TEXTS.sentTitle, "sent", isSafe() ? "twice" : "once", [["twice", TEXTS.sentTwice], ["once", TEXTS.sentOnce]]));
  }
  at("options").replaceChildren(make("h2", null, key === null ? TEXTS.textAndColours : TEXTS.textAndPlay), ...options);
  at("leave").hidden = key === null;
  at("choices").hidden = false;
  [...at("options").querySelectorAll("button"), ...at("options").querySelectorAll("input")][0].focus();
}

function closeMenu() {
  at("choices").hidden = true;
}

at("choices").onkeydown = holdTab;
at("menu").onclick = () => { if (at("choices").hidden) showMenu(); else closeMenu(); };
at("chosen").onclick = () => { closeMenu(); (at("colours") || at("menu")).focus(); };
at("menu").setAttribute("aria-label", TEXTS.menu);
at("chosen").textContent = TEXTS.done;
window.addEventListener("resize", showNewest);
document.addEventListener("keydown", (event) => {
  if (event.key !== "Escape") return;
  if (!at("choices").hidden) at("chosen").onclick();
  closeCall();
  if (at("no")) at("no").click();
  if (marked || claiming || looking) { unmark(); drawn(); }
});
chosen();
