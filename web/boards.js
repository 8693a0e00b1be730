"use strict";
// Boards that are over: what was made of them, their hands, auction and play to step through, and what others did; and a pair's own
// score card. A play is shown to the director in the same way.

// What was told of a key's boards; and what stands in place of the table: nothing, a board, or the score card.
let told = { key: null, at: 0, text: "", boards: [], open: false };
let leaf = null;
// Milliseconds: how long what was told lasts.
const BOARDS_LAST = 30000;
// The board that was at play when the page looked last.
let atBoard = null;

function readResult(words) {
  if (words[0] === "-") return { none: true };
  if (words[0] === "VOID") return { taken: true };
  if (words[0] === "AVERAGE") return { average: { NS: words[1], EW: words[2] } };
  if (words[0] === "PASS") return { passed: true, score: 0 };
  if (words[0] === "ASSIGNED") return { ...readResult(words.slice(1)), assigned: true };
  return { bid: words[0], declarer: words[1], tricks: Number(words[2]), score: Number(words[3]) };
}

// What each line says of a board, by its first word.
const BOARD_LINES = {
  NAMES: (board, w) => { board.own = { N: w[0], E: w[1], S: w[2], W: w[3] }; board.names = shownAt(board.own); },
  DEAL: (board, w) => { board.deal = readDeal(w); },
  CALLS: (board, w) => { board.calls = w; },
  CARDS: (board, w) => { board.cards = w[0] === "-" ? [] : readPlay(w, board.calls); },
  CLAIM: (board, w) => { board.claim = w[0] === "-" ? null : { seat: w[0], tricks: w[1] }; },
  RESULT: (board, w) => { board.result = readResult(w); },
  OTHER: (board, w) => { board.others.push({ table: w[0], ns: w[1], ew: w[2], result: readResult(w.slice(3)) }); },
  WORTH: (board, w) => { board.worth = w[0]; },
};

// A board by its first line.
function blankBoard([number, round, table, index, side]) {
  return { number: Number(number), round, table, index, side, calls: [], cards: [], claim: null, others: [], worth: null };
}

function readBoards(reply) {
  const found = { text: reply, boards: [], open: false };
  for (const line of reply.split("\n")) {
    const [word, ...words] = line.split(" ");
    if (word === "OTHERS") found.open = words[0] === "OPEN";
    else if (word === "BOARD") found.boards.push(blankBoard(words));
    else if (BOARD_LINES[word]) BOARD_LINES[word](found.boards[found.boards.length - 1], words.filter((one) => one !== ""));
  }
  return found;
}

// The four hands of a deal's text, of which the first is the seat's that stands before it; null where nothing is dealt.
function readDeal(words) {
  if (words[0] === "-") return null;
  const first = SEATS.indexOf(words[0][0]);
  const hands = [words[0].slice(2), ...words.slice(1)];
  return Object.fromEntries(hands.map((hand, i) => [SEATS[(first + i) % 4], readHand(hand)]));
}

const RANKS = "23456789TJQKA";
// Whose card wins a trick.
function winnerOf(trick, trump) {
  const worth = (card) => (card[0] === trump ? 100 : card[0] === trick[0].card[0] ? 50 : 0) + RANKS.indexOf(card[1]);
  return trick.reduce((best, one) => (worth(one.card) > worth(best.card) ? one : best)).seat;
}

// Each card with its seat and its trick: the words begin with the leader.
function readPlay(words, calls) {
  const bid = [...calls].reverse().find(isBid);
  const trump = bid ? strainOf(bid)[0] : "";
  const cards = [];
  let seat = SEATS.indexOf(words[0]);
  for (const card of words.slice(1)) {
    cards.push({ seat: SEATS[seat], card, trick: Math.floor(cards.length / 4) });
    const trick = cards.filter((one) => one.trick === cards[cards.length - 1].trick);
    seat = trick.length < 4 ? (seat + 1) % 4 : SEATS.indexOf(winnerOf(trick, trump));
    if (trick.length === 4) trick.forEach((one) => { one.winner = SEATS[seat]; });
  }
  return cards;
}

// Law 2: who deals a board, and who is vulnerable.
const dealerOf = (number) => SEATS[(number - 1) % 4];
const vulnerableOf = (number) => ["None", "NS", "EW", "All"][(number - 1 + Math.floor((number - 1) / 4)) % 4];

// What a play of a board looks like to who shows an auction or a plate: as a view, and as a place.
function viewOf(board, seat) {
  const { number, calls, side } = board;
  return { board: String(number), seat, dealer: dealerOf(number), vulnerable: vulnerableOf(number), calls, playing: true, turn: null, claim: null, isOwn: side !== "-" };
}

// The seat of the player of this name, of the two of his side; South for the director.
function ownSeat(board, name) {
  if (board.side === "-") return "S";
  const [first, second] = board.side === "NS" ? ["N", "S"] : ["E", "W"];
  return board.own[second] === name ? second : first;
}

// ---- results in words

const signed = (score) => (score > 0 ? "+" + score : String(score).replace("-", "\u2212"));
const ownScore = (board) => (board.side === "EW" ? -board.result.score : board.result.score);

// A contract and its tricks, as players write them; or what else came of a play.
function resultNodes(result, seat) {
  if (result.none) return [TEXTS.noResult];
  if (result.taken) return [TEXTS.takenOut];
  if (result.average) return [TEXTS.average(result.average.NS, result.average.EW)];
  if (result.passed) return [TEXTS.passedOut];
  const by = seat === undefined ? [" " + result.declarer] : [" " + TEXTS.by(result.declarer, result.declarer === seat)];
  return [make("span", { className: "contract" }, ...callNodes(result.bid)), ...by, ...(result.assigned ? [" " + TEXTS.assigned] : [])];
}

const isScored = (result) => result.score !== undefined;

// What stands for the score of one side, or nothing.
const scoreText = (board) => (isScored(board.result) ? signed(ownScore(board)) : board.result.average && board.side in board.result.average ? TEXTS.percent(board.result.average[board.side]) : "");

// The worth so far, of matchpoints in per cent.
function worthText(worth) {
  if (worth === null || worth === "-") return "";
  const [points, of] = worth.split("/");
  if (of === undefined) return TEXTS.imps(signed(Number(points)));
  return Number(of) === 0 ? "" : TEXTS.percent((100 * Number(points) / Number(of)).toFixed(1));
}

// The same beside a bar where it is in per cent.
function worthNodes(worth) {
  const text = worthText(worth);
  const [points, of] = text ? worth.split("/").map(Number) : [];
  return of === undefined ? [text] : [make("progress", { max: of, value: points, aria_hidden: "true" }), text];
}

function bandNode(board, seat) {
  const { result } = board;
  const lead = board.cards.length ? board.cards[0] : null;
  const words = result.bid ? [...resultNodes(result, seat), ", " + TEXTS.made(result.tricks - 6 - Number(result.bid[0]))] : resultNodes(result, seat);
  const below = result.bid ? [TEXTS.tricks(result.tricks) + (lead ? " \u00b7 " : "")] : [];
  if (lead) below.push(TEXTS.lead + " ", cardInText(lead.card, cardName(lead.card)), " " + TEXTS.by(lead.seat, lead.seat === seat));
  return make("section", { id: "band", className: "banner", aria_label: TEXTS.result },
    make("p", { className: "large" }, ...words), make("p", { className: "large" }, scoreText(board)),
    make("p", null, ...below), make("p", null, worthText(board.worth) && TEXTS.soFar(worthText(board.worth))));
}

// ---- hands, auction and play

function handLines(board, seat, gone) {
  if (!board.deal) return [];
  return HAND_SUITS.map((suit) => make("div", { className: "suit-line" }, suitSign(suit),
    ...[...board.deal[seat][suit]].flatMap((rank) => [
      make(gone.has(suit + rank) ? "s" : "span", { className: rank === "T" ? "ten" : "" }, rankText(rank)), make("wbr")]),
    board.deal[seat][suit] === "" ? "\u2013" : ""));
}

function handBox(board, seat, own, gone, where) {
  const view = viewOf(board, own);
  return make("section", { className: "of-" + where, aria_label: SEAT_NAMES[seat] },
    make("p", { className: "who" }, make("b", { className: "mark" + (isVulnerable(view, seat) ? " vul" : " safe"), aria_hidden: "true" }, seat),
      make("span", null, ...(board.side !== "-" && seat === own ? [TEXTS.you] : nameNodes(board.names[seat])))),
    ...handLines(board, seat, gone));
}

// The board as it lies on the table, seen from a seat.
function boardPicture(board, own) {
  const view = viewOf(board, own);
  const edge = (where) => SEATS.find((seat) => placeOf(view, seat) === where);
  const node = make("div",
    { className: "board-picture", role: "img", aria_label: TEXTS.boardWords(board.number, SEAT_NAMES[view.dealer], vulnerableText(view.vulnerable)) });
  for (const where of ["top", "left", "right", "bottom"]) {
    const seat = edge(where);
    node.append(make("span",
      { className: where + (isVulnerable(view, seat) ? " vul" : " safe") }, seat + (seat === view.dealer ? " " + TEXTS.deals : "")));
  }
  node.append(make("b", null, String(board.number)));
  return node;
}

// The trick of the latest of so many cards.
function trickPicture(board, own, step) {
  const view = viewOf(board, own);
  const { trick } = board.cards[step - 1];
  const node = make("div", { className: "trick", role: "group", aria_label: TEXTS.trick(trick + 1) });
  const cards = board.cards.slice(0, step).filter((one) => one.trick === trick);
  node.append(...cards.map((one) => cardOnTable(view, one, cards.length === 4 && one.winner === one.seat)));
  // Whose card is due is told to the director alone.
  if (board.result.none && step === board.cards.length && cards.length < 4) node.append(dueOnTable(view, nextTo(board.cards[step - 1].seat)));
  return node;
}

function diagramNodes(board, own, step) {
  const view = viewOf(board, own);
  const gone = new Set(board.cards.slice(0, step).map((one) => one.card));
  return [...SEATS.map((seat) => handBox(board, seat, own, gone, placeOf(view, seat))),
    make("div", { className: "of-middle" }, step === 0 ? boardPicture(board, own) : trickPicture(board, own, step))];
}

// The four hands, and the play to step through. Its own clicks move it, and draw nothing else anew.
function steppedNode(board, own, step, stepped, ...heads) {
  const diagram = make("div", { className: "diagram" });
  const words = make("p", { className: "stepped", role: "status" });
  const slider = make("input",
    { id: "step", type: "range", min: 0, max: board.cards.length, step: 1, aria_label: TEXTS.stepThrough, oninput: () => go(Number(slider.value)) });
  const buttons = [
    ["first", "|\u2039", () => 0], ["back", "\u2039", (now) => now - 1], ["on", "\u203a", (now) => now + 1],
    ["end", "\u203a|", () => board.cards.length]]
    .map(([name, sign, to]) => make("button",
      { type: "button", id: "step-" + name, aria_label: TEXTS.steps[name], onclick: () => go(to(Number(slider.value))) }, sign));
  const go = (now) => {
    diagram.replaceChildren(...diagramNodes(board, own, now));
    words.replaceChildren(
      make("b", null, now === 0 ? TEXTS.beforeLead : TEXTS.trick(board.cards[now - 1].trick + 1)), make("br"),
      now === 0 ? TEXTS.stepThrough : TEXTS.cardOf(now, board.cards.length));
    slider.value = String(now);
    buttons.forEach((one, i) => { one.disabled = i < 2 ? now === 0 : now === board.cards.length; });
    const table = at("tricks");
    for (const row of table ? table.querySelectorAll("tr") : []) row.className = trickClass(board, now, row.id);
    stepped(now);
  };
  const node = make("section", { className: "panel part hands", aria_label: TEXTS.hands }, ...heads, diagram);
  if (board.cards.length) node.append(make("div", { className: "stepper" }, buttons[0], buttons[1], words, buttons[2], buttons[3]), slider);
  go(step);
  return node;
}

// The trick of the latest of so many cards is marked.
const trickClass = (board, step, id) => (step > 0 && id === "trick-" + board.cards[step - 1].trick ? "own" : "");

function tricksTable(board, step) {
  const count = board.cards.length ? board.cards[board.cards.length - 1].trick + 1 : 0;
  const rows = Array.from({ length: count }, (_none, trick) => {
    const cards = board.cards.filter((one) => one.trick === trick);
    const cell = (one) => make("td", { aria_label: one ? cardName(one.card) : "" },
      ...(one ? [make("span", { className: SUIT_CLASSES[one.card[0]].trim() }, ...cardNodes(one.card).reverse())] : []));
    return make("tr",
      { id: "trick-" + trick, className: trickClass(board, step, "trick-" + trick) }, make("td", null, String(trick + 1)),
      make("td", null, cards[0].seat), ...[0, 1, 2, 3].map((i) => cell(cards[i])), make("th", { scope: "row" }, cards[0].winner || ""));
  });
  return make("table", { id: "tricks", className: "list", aria_label: TEXTS.play }, listHeads(TEXTS.trickHeads, 0), make("tbody", null, ...rows));
}

// A claim: players are told of one that was agreed, the director of one that stands too, also under a ruling.
function claimText({ claim: { seat, tricks }, result, side }) {
  const isPlayed = isScored(result) && !result.assigned;
  const words = result.none ? TEXTS.claimWaits : side !== "-" || isPlayed ? TEXTS.claimed : TEXTS.hasClaimed;
  return words(SEAT_NAMES[seat], tricks);
}

function playedNode(board, own, step) {
  const node = make("section",
    { className: "panel part play", aria_label: TEXTS.auctionAndPlay }, make("h2", null, TEXTS.auction),
    auctionTable({ names: board.names }, viewOf(board, own)));
  if (board.cards.length) node.append(make("h2", null, TEXTS.play), tricksTable(board, step));
  if (board.claim) node.append(make("p", null, claimText(board)));
  return node;
}

// The heads of a list, of which the last few stand over numbers.
const listHeads = (heads, numbers) => make("thead", null,
  make("tr", null, ...heads.map((head, i) => make("th", { scope: "col", className: i >= heads.length - numbers ? "number" : "" }, head))));

const numberCell = (text) => make("td", { className: "number" }, text);
const tricksText = (result) => (result.tricks === undefined ? "" : String(result.tricks));

// ---- what others did

// The results of all tables so far, the best of North and South first.
function linesSoFar(board) {
  const own = { table: board.table, result: board.result, own: true };
  const worth = (one) => (isScored(one.result) ? one.result.score : -1e9);
  return [...board.others, own].sort((one, other) => worth(other) - worth(one));
}

// The scores of North and South in a row, where the list of results stands on a part of its own.
function tilesNode(board) {
  const lines = linesSoFar(board).filter((one) => isScored(one.result));
  const tiles = lines.map((one) => make("li", { className: one.own ? "own" : "" }, signed(one.result.score), ...(one.own ? [" ", make("b", null, TEXTS.we)] : [])));
  return make("div", { className: "tiles" }, make("p", { className: "second" }, TEXTS.scoresSoFar(lines.length)), make("ol", null, ...tiles));
}

function scoresNode(board) {
  const node = make("section", { className: "panel part scores", aria_label: TEXTS.scores });
  if (!told.open) {
    node.append(make("h2", null, TEXTS.scores), make("p", null, TEXTS.scoresShut));
    return node;
  }
  const lines = linesSoFar(board);
  const ofSide = (side) => (side === board.side ? TEXTS.weHere : TEXTS.theyHere);
  const pairs = (one) => (one.own ? [ofSide("NS"), ofSide("EW")] : [one.ns, one.ew]);
  const rows = lines.map((one) => make("tr", { className: one.own ? "own" : "" }, ...pairs(one).map((pair) => make("td", null, pair)),
    make("td", null, ...resultNodes(one.result)), numberCell(tricksText(one.result)), numberCell(isScored(one.result) ? signed(one.result.score) : "")));
  node.append(make("h2", null, TEXTS.tablesSoFar(lines.length)),
    make("table", { className: "list", aria_label: TEXTS.scores }, listHeads(TEXTS.scoreHeads, 2), make("tbody", null, ...rows)));
  if (worthText(board.worth)) node.append(make("p", { className: "second" }, TEXTS.ours(board.worth)));
  return node;
}

// ---- a board that is over, and the score card

function partButtons() {
  const parts = [["hands", TEXTS.hands], ["play", TEXTS.auctionAndPlay], ["scores", TEXTS.scores]];
  return make("div", { id: "parts", role: "group", aria_label: TEXTS.parts }, ...parts.map(([part, label]) => {
    const node = button(label, "", "part-" + part, true, () => { leaf.part = part; drawn(); });
    node.setAttribute("aria-pressed", String(leaf.part === part));
    return node;
  }));
}

function turnLeaf(to) {
  leaf = to;
  shown = "";
  unmark();
  look();
}

const showBoard = (board) => turnLeaf({ board: board.number, round: board.round, step: 0, part: "hands" });

function overNodes(place, board, next) {
  const own = ownSeat(board, place.name);
  const onward = button(next, "", "onward", true, () => turnLeaf(null));
  onward.className = "send";
  const hands = steppedNode(board, own, leaf.step, (now) => { if (leaf) leaf.step = now; });
  if (told.open) hands.append(tilesNode(board));
  return [bandNode(board, own), partButtons(),
    make("div", { className: "parts" }, hands, scoresNode(board), playedNode(board, own, leaf.step)),
    make("section", { id: "dock", className: "onward", aria_label: TEXTS.goOn }, button(TEXTS.myBoards, "", "my-boards", true, () => turnLeaf({ card: true })), onward)];
}

// The score card of what this pair has played; a board opens from it.
function cardTable(place, boards) {
  const hasWorth = boards.some((board) => board.worth && board.worth !== "-");
  const rows = boards.map((board) => {
    const others = SEATS.filter((seat) => (seat === "N" || seat === "S") !== (board.side === "NS"));
    const opens = button(String(board.number), TEXTS.openBoard(board.number),
      "open-" + board.round + "-" + board.number, true, () => showBoard(board));
    const [lead] = board.cards;
    return make("tr", null, make("td", null, opens), make("td", { className: "who" },
      ...nameNodes(board.names[others[0]]), " \u2013 ", ...nameNodes(board.names[others[1]])), make("td", null, ...resultNodes(board.result)),
      make("td", null, ...(lead ? [cardInText(lead.card, cardName(lead.card))] : [])),
      numberCell(tricksText(board.result)), numberCell(scoreText(board)), ...(hasWorth ? [make("td", { className: "number" }, ...worthNodes(board.worth))] : []));
  });
  return make("table", { id: "card", className: "list", aria_label: TEXTS.scoreCard },
    listHeads(hasWorth ? TEXTS.cardHeads : TEXTS.cardHeads.slice(0, -1), 3), make("tbody", null, ...rows));
}

// The boards of this round: what came of those that are over, and which is at play.
function roundNode(place, view) {
  const numbers = Array.from({ length: Number(place.table.last) - Number(place.table.first) + 1 }, (_none, i) => Number(place.table.first) + i);
  return make("ol", { className: "round" }, ...numbers.map((number) => {
    const over = told.boards.find((board) => board.number === number && board.round === String(place.round));
    const now = String(number) === view.board;
    const came = over ? worthText(over.worth) || scoreText(over) || "\u2013" : now ? TEXTS.now : number === Number(view.board) + 1 ? TEXTS.next : TEXTS.later;
    return make("li", { className: now ? "now" : "" }, make("b", null, String(number)), came);
  }));
}

// The sum of what the boards are worth so far, as matchpoints or as IMPs.
function worthOfAll(boards) {
  const worths = boards.map((board) => board.worth).filter((worth) => worth && worth !== "-").map((worth) => worth.split("/").map(Number));
  if (worths.length === 0) return null;
  const sum = (i) => worths.reduce((all, worth) => all + (worth[i] || 0), 0);
  if (worths[0].length === 1) return { points: signed(Number(sum(0).toFixed(1))), of: null, percent: null };
  // Nobody else has played any of these boards.
  if (sum(1) === 0) return null;
  return { points: sum(0).toFixed(1), of: sum(1), percent: (100 * sum(0) / sum(1)).toFixed(1) };
}

const worthOfSome = (all) => (all.percent ? TEXTS.percent(all.percent) : TEXTS.imps(all.points));

function scoreCardNodes(place) {
  const all = worthOfAll(told.boards);
  const figure = (large, small) => make("section", { className: "panel figure" },
    make("p", { className: "large" }, large), make("p", { className: "second" }, small));
  const figures = [figure(String(told.boards.length), TEXTS.boardsPlayed(told.boards.length))];
  if (all && all.percent) figures.unshift(figure(TEXTS.percent(all.percent), TEXTS.soFar("")));
  if (all) figures.push(figure(all.points, all.of === null ? TEXTS.impsName : TEXTS.ofPoints(all.of)));
  const back = button(place.round > place.rounds ? TEXTS.toRanking : TEXTS.toTable, "", "onward", true, () => turnLeaf(null));
  back.className = "send";
  return [make("div", { className: "figures" }, ...figures), make("section",
    { className: "panel wide-panel" }, make("h2", null, TEXTS.scoreCard),
    told.boards.length ? cardTable(place, told.boards) : make("p", null, TEXTS.noBoards)),
    make("section", { id: "dock", className: "onward", aria_label: TEXTS.goOn }, button(TEXTS.print, "", "print", true, () => window.print()), back)];
}

const boardOfLeaf = () => told.boards.find((board) => board.number === leaf.board && board.round === leaf.round);

// Shows what stands in place of the table; says whether something does.
function showLeaf(place, next) {
  if (!leaf) return false;
  const board = leaf.card ? null : boardOfLeaf();
  if (!leaf.card && !board) {
    leaf = null;
    return false;
  }
  barFor(place, board ? viewOf(board, ownSeat(board, place.name)) : null, board ? board.table : null);
  if (leaf.card) {
    at("title").textContent = TEXTS.myBoards;
    at("below").textContent = headText(place);
  }
  drawn = () => show(
    told.text + JSON.stringify([leaf.card, leaf.board, leaf.round, leaf.part, next]), "",
    leaf.card ? "boards" : "boards over part-" + leaf.part, () => (leaf.card ? scoreCardNodes(place) : overNodes(place, board, next)));
  drawn();
  return true;
}

// Asks for the boards of this key, and says whether they came; else nothing changes. What the director ruled since is told.
async function loadBoards(asked) {
  const reply = await ask("/boards", asked);
  if (reply === null || refusal(reply)) return false;
  const old = told.key === asked ? told.boards : [];
  told = { key: asked, at: Date.now(), ...readBoards(reply) };
  const same = (one, other) => one.number === other.number && one.round === other.round;
  const isRuled = (board) => old.some((one) => same(one, board) && JSON.stringify(one.result) !== JSON.stringify(board.result));
  const ruled = told.boards.filter(isRuled).map((board) => board.number);
  if (ruled.length) sayPassing(TEXTS.ruledOn(ruled), playIs.split(" ").slice(0, 2).join(" "));
  return true;
}

// Whether a board of this round, at which nothing is played, has not been told as over, since it was passed out in no time.
const lacksBoards = (place, now) => now === null && place.table !== null
  && told.boards.filter((board) => board.round === String(place.round)).length <= Number(place.table.last) - Number(place.table.first);

// Looks at the boards where one was over since the page looked last, which is shown then; and else now and then.
async function lookAtBoards(asked, place, now) {
  const ended = atBoard !== null && atBoard.key === asked && atBoard.board !== now ? atBoard : null;
  const lasts = lacksBoards(place, now) ? LOOK : BOARDS_LAST;
  const isNew = (ended || told.key !== asked || Date.now() - told.at > lasts) && await loadBoards(asked);
  if (key !== asked) return;
  atBoard = now === null ? null : { key: asked, board: now, round: String(place.round) };
  const board = ended && told.boards.find((one) => String(one.number) === ended.board && one.round === ended.round);
  if (board) leaf = { board: board.number, round: board.round, step: 0, part: "hands" };
  // What is played no more and yet not told as over has been ruled on.
  else if (ended && isNew && ended.round === String(place.round)) sayPassing(TEXTS.endedByRuling(ended.board));
}
