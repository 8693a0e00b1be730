"use strict";
// The director's page: tables, rounds, deals, rulings, endings, rankings and results. It asks by lines of the protocol, and
// judges nothing.

const MOST_BOARDS = 36;
const MOST_TABLES = 12;
const MINUTE = 60000;

// Milliseconds: how long standings that are in sight last.
const STANDINGS_LAST = 30000;
let standingsAt = 0;
// The parts of the page, one of which is in sight.
const TABS = ["tables", "boards", "rulings", "standings", "evening"];
let tab = "tables";

// When each table's line was first seen as it is.
const since = new Map();
let boardsOfSet = 1;
let boardsOfAll = MOST_BOARDS;
// Whether lines are out.
let ordered = false;
// The names of pairs; the play that is looked at, or null: its round, table and place in its set, what was told of it, and how it
// is looked at.
let pairNames = new Map();
let opened = null;
// The tables as they were told last.
let lastTables = null;

// A reply of one line in words.
function outcome(reply) {
  const refused = refusal(reply);
  return refused ? TEXTS.directorRefusals[refused] || refused : TEXTS.doneWord;
}

function tell(text) {
  say("told", text);
}

// Takes down a question that stands.
function closeQuestions() {
  for (const id of ["end-question", "rule-question", "deal-question"]) if (at(id)) at(id).replaceChildren();
}

// A place for questions, which is a sheet over the page while one stands.
const questionBox = (id) => make("div", { id, className: "sheet question", role: "dialog", aria_modal: "true", onkeydown: holdTab });

// Asks before it acts; no other question stands beside it, and the focus goes back to what raised it. A yes has its verb.
function confirmFirst(box, question, verb, act, ...more) {
  const raised = document.activeElement;
  const close = () => {
    closeQuestions();
    if (raised) raised.focus();
  };
  tell("");
  closeQuestions();
  box.setAttribute("aria-label", question);
  box.replaceChildren(make("h2", null, question), ...more.map((words) => make("p", null, ...[].concat(words))),
    make("div", { className: "row" },
      button(TEXTS.no, "", "no", true, close), button(TEXTS.yesDo(verb), "", "yes", true, () => { close(); act(); })));
  at("yes").className = "send";
  at("no").focus();
}

// Sends lines without the key, each of a keyword and words, of the protocol or corrections; gives the replies, or null, also while
// other lines are out.
async function order(lines, isCorrection = false) {
  if (ordered) {
    tell(TEXTS.answerAwaited);
    return null;
  }
  ordered = true;
  tell("");
  const body = lines.map((line) => line.replace(/^(\S+)\s*/,
    (_all, word) => (word === "SYNC" ? word : word + " " + key + " ")).trim() + "\n").join("");
  const reply = await (isCorrection ? ask("/correct", body) : ask("/lines", body));
  ordered = false;
  if (reply === null) tell(TEXTS.unknownDone);
  return reply;
}

// Sends such lines, says what became of what they do, and whether none was refused.
async function doAll(lines, what, isCorrection = false) {
  const reply = await order(lines, isCorrection);
  const refused = reply === null ? "" : reply.split("\n").find((line) => refusal(line)) || "";
  if (reply !== null) tell(TEXTS.becameOf(what, outcome(refused)));
  look();
  return reply !== null && refused === "";
}

const doOne = (line, what, isCorrection = false) => doAll([line], what, isCorrection);

// ---- the parts of the page

// Puts a part of the page in sight. Where there is room the standings stand beside the tables too.
function showTab(name) {
  tab = name;
  document.body.className = "director on-" + name;
  for (const one of TABS) {
    at("on-" + one).hidden = one !== name;
    at("tab-" + one).setAttribute("aria-pressed", String(one === name));
  }
  at(name === "tables" ? "aside" : "on-standings").append(at("ranking"));
  if (lastTables) sayBelow();
}

async function openTab(name) {
  tell("");
  showTab(name);
  await look();
  if (name === "boards" && at("dealt")) await findDealt();
}

// The buttons of the parts; that of the tables says how many of them call.
function tabNodes() {
  return TABS.map((name) => make("button", { type: "button", id: "tab-" + name, onclick: () => openTab(name) }, TEXTS.tabs[name]));
}

const seesStandings = () => tab === "standings" || (tab === "tables" && typeof matchMedia === "function" && matchMedia("(min-width: 60em)").matches);

// ---- tables

function readTables(reply) {
  const lines = reply.split("\n").map((line) => line.split(" "));
  const found = (word) => lines.find((words) => words[0] === word);
  const round = found("ROUND");
  const boards = found("BOARDS");
  return {
    round: Number(round[1]),
    rounds: Number(round[2]),
    boards: Number(boards[1]),
    all: Number(boards[2]),
    tables: lines.filter((words) => words[0] === "TABLE").map((words) => ({
      line: words.join(" "), number: words[1], ns: words[2], ew: words[3],
      idle: words[4] === "-" ? words[5] : "", board: words[4], phase: words[5], turn: words[6], calls: words[7], cards: words[8],
    })),
  };
}

function progressText(table) {
  if (table.idle) return TEXTS.idle[table.idle] || table.idle;
  const playing = table.phase === "PLAY";
  return TEXTS.progress(playing, playing ? table.cards : table.calls, SEAT_NAMES[table.turn]);
}

function minutesText(table, now) {
  const known = since.get(table.number);
  if (!known || known.line !== table.line) since.set(table.number, { line: table.line, at: now });
  return String(Math.floor((now - since.get(table.number).at) / MINUTE));
}

// How a table stands, for its colour: the director was called, done, at play, slow, or not dealt.
const SLOW_TABLE = 5;
function standsAs(table, minutes) {
  if (desk.calls.some((call) => call.table === table.number)) return "called";
  if (table.idle === "NotCurrent" || table.idle === "SitsOut") return "done";
  if (table.idle) return "waits";
  return minutes >= SLOW_TABLE ? "slow" : "plays";
}

// How many of a table's boards are done, as marks beside the words.
function marksOf(table) {
  const done = table.idle ? (table.idle === "NotCurrent" ? boardsOfSet : 0) : placeInSet(Number(table.board)) - 1;
  const marks = Array.from({ length: table.idle === "SitsOut" ? 0 : boardsOfSet },
    (_none, i) => make("i", { className: i < done ? "all" : i === done && !table.idle ? "half" : "" }));
  return make("span", { className: "marks", aria_hidden: "true" }, ...marks);
}

// Why a table calls, where it says so.
function reasonNodes(table) {
  const call = desk.calls.find((one) => one.table === table.number);
  return call && call.text ? [make("b", null, call.text), make("br")] : [];
}

const pairText = (pair) => (pair === "0" ? "\u2013" : pairNames.has(Number(pair)) ? pair + " " + pairNames.get(Number(pair)) : pair);

function tablesTable(state) {
  const now = Date.now();
  const rows = state.tables.map((table) => {
    const minutes = minutesText(table, now);
    const stands = standsAs(table, Number(minutes));
    const open = make("button", { type: "button", id: "open-" + table.number, aria_label: TEXTS.openTable(table.number), onclick: () => openTable(table) }, TEXTS.open);
    return make("tr", { className: stands },
      ...[[table.number], [pairText(table.ns)], [pairText(table.ew)],
        [table.idle ? "" : TEXTS.board(table.board)], [...reasonNodes(table), progressText(table)], [marksOf(table), table.idle ? "" : TEXTS.stillFor(Number(minutes))],
        [TEXTS.stands[stands]]].map((words) => make("td", null, ...words)),
      make("td", null, ...(table.idle === "SitsOut" ? [] : [open])));
  });
  return make("table", { id: "tables", className: "tables", hidden: rows.length === 0, aria_label: TEXTS.tables },
    make("thead", null, make("tr", null, ...TEXTS.tableHeads.map((title) => make("th", { scope: "col" }, title)))), make("tbody", null, ...rows));
}

// The place of the board that a table has now, or of the first of its set.
function placeNow(round, number) {
  const table = round === lastTables.round && lastTables.tables.find((one) => one.number === number);
  return table && !table.idle ? placeInSet(Number(table.board)) : 1;
}

// Shows the play at a table: its current one, or the first of its set.
const openTable = (table) => openPlay([lastTables.round, table.number, placeNow(lastTables.round, table.number)]);

// The tables that are still at play and those that wait for a deal, by their numbers, in words; nothing where all are done.
function stillOpen(state) {
  const among = (isOf) => state.tables.filter((table) => isOf(table.idle)).map((table) => table.number);
  return TEXTS.stillOpen(among((idle) => !["NotCurrent", "SitsOut", "NotDealt"].includes(idle)), among((idle) => idle === "NotDealt"));
}

function roundText(state) {
  if (state.round > state.rounds) return TEXTS.closed;
  return TEXTS.roundIs(state.round, state.rounds, stillOpen(state).map((words) => words + ".").join(" ") || TEXTS.allDone);
}

function showTables(state) {
  boardsOfSet = state.boards;
  boardsOfAll = state.all;
  lastTables = state;
  say("status", roundText(state));
  at("status").className = "";
  sayBelow();
  const calls = desk.calls.length ? [" ", make("span", { className: "count" }, String(desk.calls.length))] : [];
  if (at("tab-tables").textContent !== TEXTS.tabs.tables + (calls.length ? " " + desk.calls.length : "")) at("tab-tables").replaceChildren(TEXTS.tabs.tables, ...calls);
  const old = at("tables");
  const tables = tablesTable(state);
  // What stands in the focus stays there.
  const focus = document.activeElement && old.contains(document.activeElement) ? document.activeElement.id : "";
  if (old && !old.isEqualNode(tables)) old.replaceWith(tables);
  if (focus && at(focus)) at(focus).focus();
  const end = at("end-round");
  if (!end) return;
  const closed = state.round > state.rounds;
  const open = stillOpen(state);
  end.disabled = closed || open.length > 0;
  say("round-is", closed ? "" : TEXTS.tablesDone(state.tables.filter((table) => table.idle === "NotCurrent" || table.idle === "SitsOut").length, state.tables.length));
  const label = closed ? TEXTS.allEnded : open.length > 0 ? TEXTS.endWaits(state.round, open) : TEXTS.endRound(state.round, state.round === state.rounds);
  if (end.textContent !== label) end.textContent = label;
  end.onclick = () => confirmFirst(at("end-question"), TEXTS.asks(label), TEXTS.verbs.end, () => doOne("NEXT " + state.round, TEXTS.endOf(state.round)),
    state.round === state.rounds ? TEXTS.closeEffect : TEXTS.endEffect(state.round + 1));
}

// What is in sight, below the title: the play that is looked at, or the round.
function sayBelow() {
  const { round, rounds } = lastTables;
  say("below", tab === "rulings" && opened ? TEXTS.rulingAt(opened.words[1], opened.words[0]) : round > rounds ? "" : TEXTS.roundOf(round, rounds));
}

// ---- a play that is looked at

// What was told last of each play.
const toldPlays = new Map();

// What is told of a play: its text, or null where no answer came.
async function askPlay(words) {
  const text = await ask("/boards", key + " " + words.join(" "));
  if (text !== null) toldPlays.set(words.join(" "), text);
  return text;
}

// The play that a text tells of, or null where it is a refusal.
const playIn = (text) => (text && !refusal(text) ? readBoards(text).boards[0] : null);
const placesInSet = () => Array.from({ length: boardsOfSet }, (_none, i) => i + 1);

// Shows a play as it is now; it stays, and is shown anew as it goes on, until it is closed. The other boards of its set are asked
// for once.
async function openPlay(words) {
  tell("");
  const wanted = { words, text: "", board: null, step: null, back: 1, per: { NS: null, EW: null } };
  opened = wanted;
  showTab("rulings");
  showPlay();
  if (!at("on-rulings").contains(document.activeElement)) at("play-" + words[2]).focus();
  if (typeof scrollTo === "function") scrollTo(0, 0);
  await showOpened();
  for (const place of placesInSet()) if (place !== words[2] && opened === wanted) await askPlay([words[0], words[1], place]);
  showChoosing();
  await showRulings();
}

function closePlay() {
  opened = null;
  showPlay();
  at("rule-table").focus();
}

async function showOpened() {
  const wanted = opened;
  if (!wanted) return;
  const text = await askPlay(wanted.words);
  if (opened !== wanted || text === null || text === wanted.text || !at("opened")) return;
  const isNew = wanted.board === null;
  Object.assign(wanted, { text, board: playIn(text), back: 1 });
  if (!wanted.board) tell(TEXTS.becameOf(TEXTS.playOf(...wanted.words.slice(0, 2), TEXTS.boardInPlace(wanted.words[2])), outcome(text)));
  showPlay(isNew);
}

// Shows what is looked at; what is chosen for a ruling stays while the same play goes on.
function showPlay(isNew = true) {
  const board = opened && opened.board;
  drawAnew(at("opened"), board ? openedNodes(board) : []);
  at("ruling").hidden = !board;
  if (isNew) at("ruling").replaceChildren(...(board ? rulingNodes(board) : []));
  if (board) sayRuling();
  showChoosing();
  sayBelow();
}

// Draws a part anew; what stands in the focus there stays in it.
function drawAnew(part, nodes) {
  const focus = document.activeElement && part.contains(document.activeElement) ? document.activeElement.id : "";
  part.replaceChildren(...nodes);
  if (focus && at(focus)) at(focus).focus();
}

function openedNodes(board) {
  const all = board.cards.length;
  const step = opened.step === null ? all : Math.min(opened.step, all);
  const hands = steppedNode(board, "S", step, (now) => { if (opened) opened.step = now === all ? null : now; }, make("h2", null, ...(board.result.none ? [TEXTS.tableNow] : stateNodes(board))));
  hands.append(make("p", { className: "second" }, TEXTS.onlyDirector));
  return [hands, playedNode(board, "S", all)];
}

// ---- which play is looked at

// The contract that an auction came to, and its declarer; null while it goes on, and where all passed.
function contractOf(board) {
  const { calls } = board;
  const view = viewOf(board, "S");
  const last = lastCall(view, isBid);
  if (!last || calls.slice(-3).some((call) => call !== "PASS")) return null;
  const doubled = lastCall(view, (call) => call !== "PASS").call;
  const lastAt = calls.lastIndexOf(last.call);
  const first = calls.findIndex((call, i) => isBid(call) && strainOf(call) === strainOf(last.call) && (lastAt - i) % 2 === 0);
  return { bid: last.call + (isBid(doubled) ? "" : doubled), declarer: SEATS[(SEATS.indexOf(view.dealer) + first) % 4] };
}

// How far a play is, or what came of it.
function stateNodes(board) {
  const { result } = board;
  if (result.bid) return [...resultNodes(result), ", " + TEXTS.made(result.tricks - 6 - Number(result.bid[0]))];
  if (!result.none) return resultNodes(result);
  const contract = contractOf(board);
  if (contract) return [...resultNodes(contract), ", " + TEXTS.noResult];
  return [board.calls.length ? TEXTS.inAuction : TEXTS.notBegun];
}

// A tile for each board of the set, with what is known of it.
function boardTiles([round, table, chosen]) {
  const told = placesInSet().map((place) => toldPlays.get([round, table, place].join(" ")));
  const known = told.map(playIn);
  const from = known.findIndex(Boolean);
  return told.map((text, i) => {
    const label = from < 0 ? TEXTS.placeOf(i) : String(known[from].number - from + i);
    const state = known[i] ? stateNodes(known[i]) : [text ? TEXTS.dealStates.open : TEXTS.dealStates.unknown];
    const tile = make("button", { type: "button", id: "play-" + (i + 1), className: "tile", onclick: () => openPlay([round, table, i + 1]) },
      make("b", null, label), " ", make("span", null, ...state));
    tile.setAttribute("aria-pressed", String(i + 1 === chosen));
    return tile;
  });
}

// The numbers of the tables: where the session is closed and none was told, all that there may be.
let tableNumbers = Array.from({ length: MOST_TABLES }, (_none, i) => String(i + 1));

// A round and a table from lists, and the table's boards.
function choosingNodes() {
  const { round: now, rounds, tables } = lastTables;
  if (tables.length) tableNumbers = tables.map((table) => table.number);
  const [round, table] = opened ? opened.words.map(String) : [String(Math.min(now, rounds)), ""];
  const list = (id, label, options, value) => {
    const node = choice(id, label, options, value);
    node.onchange = () => {
      const [toRound, toTable] = [Number(at("rule-round").value), at("rule-table").value];
      if (toTable) openPlay([toRound, toTable, placeNow(toRound, toTable)]);
    };
    return node;
  };
  return [
    list("rule-round", TEXTS.round, Array.from({ length: Math.min(now, rounds) }, (_none, i) => [String(i + 1), TEXTS.roundNow(i + 1, i + 1 === now)]), round),
    list("rule-table", TEXTS.tableField, [...(opened ? [] : [["", TEXTS.choose]]), ...tableNumbers.map((number) => [number, number])], table),
    ...(opened ? [make("div", { id: "plays", role: "group", aria_label: TEXTS.boardField }, ...boardTiles(opened.words))] : [make("p", { className: "second" }, TEXTS.chooseTable)]),
    ...(opened ? [make("button", { type: "button", id: "opened-close", onclick: closePlay }, TEXTS.close)] : [])];
}

// Shows them where they have changed, so that a list that is open stays.
let choosingShown = "";
function showChoosing() {
  const { round, rounds, tables } = lastTables;
  const words = opened ? opened.words : [];
  const told = placesInSet().map((place) => toldPlays.get([...words.slice(0, 2), place].join(" ")));
  const made = JSON.stringify([round, rounds, tables.map((table) => table.number), words, told]);
  if (made === choosingShown && at("rule-round")) return;
  choosingShown = made;
  drawAnew(at("choosing"), choosingNodes());
}

// ---- corrections of what players did

// All that was done in a play, the latest last.
function deedsOf(board) {
  const dealer = SEATS.indexOf(dealerOf(board.number));
  const calls = board.calls.map((call, i) => ({ seat: SEATS[(dealer + i) % 4], name: callName(call), isCall: true }));
  const cards = board.cards.map(({ seat, card, trick }) => ({ seat, name: cardName(card), trick }));
  return [...calls, ...cards, ...(board.claim ? [{ seat: board.claim.seat, claim: board.claim.tricks }] : [])];
}

const deedText = ({ seat, name, claim }) => (claim === undefined ? TEXTS.doneBy(SEAT_NAMES[seat], name) : TEXTS.claimBy(SEAT_NAMES[seat], claim));

// How many of some deeds are calls, cards and claims.
const kindsOf = (deeds) => [deeds.filter((one) => one.isCall).length, deeds.filter((one) => one.trick !== undefined).length, deeds.filter((one) => one.claim !== undefined).length];

// What it is called to take back so many.
const backName = (deeds) => TEXTS.takeBackOf(deeds.length === 1 ? deedText(deeds[0]) : TEXTS.someDeeds(...kindsOf(deeds)));

// What becomes of a play of which these are taken back.
function backEffect(board, deeds) {
  const [{ seat, isCall, claim }] = deeds;
  if (claim !== undefined) return TEXTS.claimBackTo;
  const list = deeds.length === 1 ? "" : TEXTS.goBack(deeds.map(deedText));
  if (isCall) return list + TEXTS.callBackTo(SEAT_NAMES[seat]);
  // The leader sits behind declarer, whose partner is dummy.
  const dummy = nextTo(board.cards[0].seat);
  const player = SEAT_NAMES[seat === dummy ? partner(dummy) : seat];
  return list ? list + TEXTS.playsThen(player, seat === dummy) : TEXTS.cardBackTo(player, SEAT_NAMES[seat]);
}

// The latest deeds of the play that is looked at, as many as are to be taken back.
const deedsBack = () => deedsOf(opened.board).slice(-opened.back);

// Does something to the play that is looked at once the question is answered, if it is still what it was when it was asked.
function onceUnchanged(question, verb, act, ...more) {
  const { words, text } = opened;
  confirmFirst(at("rule-question"), question, verb, async () => {
    const now = await askPlay(words);
    if (now !== text) return tell(now === null ? TEXTS.noAnswer : TEXTS.changedSince);
    return act();
  }, ...more);
}

function takeBack(then = () => {}) {
  const { board, words } = opened;
  const deeds = deedsBack();
  const what = TEXTS.atTableOnBoard(backName(deeds), words[1], board.number);
  const back = async () => { if (await doAll(deeds.map(() => "BACK " + words.join(" ")), what, true)) then(); };
  onceUnchanged(TEXTS.asks(what), TEXTS.verbs.back, back, [backEffect(board, deeds)], [TEXTS.playedBy(board.names)]);
}

// The play at a table that asks for its latest call or card back, and the question whether it goes; its call is answered then.
async function grantBack(table) {
  await openTable(table);
  if (opened && opened.board && deedsOf(opened.board).length) takeBack(() => askDesk("ANSWERED " + table.number));
}

// How many are taken back; what they are is struck where it stands.
function backNodes() {
  const step = (by) => () => { opened.back += by; sayRuling(); };
  return [
    make("div", { className: "row steps" }, button("\u2212", TEXTS.less, "back-less", true, step(-1)), make("b", { id: "back-count", className: "large" }),
      button("+", TEXTS.more, "back-more", true, step(1)), make("p", { id: "back-to", role: "status" })),
    button("", "", "opened-back", true, () => takeBack())];
}

function sayBack(board) {
  const all = deedsOf(board);
  opened.back = Math.max(1, Math.min(opened.back, all.length));
  const deeds = all.slice(-opened.back);
  say("back-count", String(deeds.length));
  say("back-to", deeds.length ? TEXTS.backTo(...kindsOf(deeds), SEAT_NAMES[deeds[0].seat], deeds[0].trick) : "");
  say("opened-back", deeds.length ? backName(deeds) : TEXTS.nothingDone);
  at("opened-back").disabled = deeds.length === 0;
  at("back-less").disabled = opened.back <= 1;
  at("back-more").disabled = opened.back >= all.length;
  strike(board, deeds.length);
}

// Strikes the latest that was done, so many, in the auction and in the tricks.
function strike(board, count) {
  const [auction, tricks] = at("opened").querySelectorAll("table");
  const skipped = ["W", "N", "E", "S"].indexOf(dealerOf(board.number));
  const calls = [...auction.querySelectorAll("td")].slice(skipped, skipped + board.calls.length);
  const cards = tricks ? [...tricks.querySelectorAll("tr")].flatMap((row) => [...row.querySelectorAll("td")].slice(2)) : [];
  const done = [...calls, ...cards.slice(0, board.cards.length)];
  const from = done.length + (board.claim ? 1 : 0) - count;
  done.forEach((cell, i) => { cell.className = i >= from ? "struck" : ""; });
}

// ---- deals

function drawSeed() {
  return [...crypto.getRandomValues(new Uint8Array(32))].map((byte) => byte.toString(16).padStart(2, "0")).join("");
}

// The deals of a text: DEAL lines, with a key or without, a number and a deal, or the tag pairs of a PBN file.
function dealsIn(text) {
  const found = [];
  let board = null;
  for (const line of text.split(/\r?\n/)) {
    const tag = /^\s*\[(Board|Deal)\s+"([^"]*)"\]/.exec(line);
    const plain = /^\s*(?:DEAL\s+(?:\d+\s+)?)?(\d+)\s+([NESW]:.+?)\s*$/.exec(line);
    if (tag && tag[1] === "Board") board = tag[2];
    else if (tag && board !== null) found.push([board, tag[2]]);
    else if (plain) found.push([plain[1], plain[2]]);
  }
  return found;
}

// The boards of each answer to a deal, the dealt ones first.
function dealtText(boards, replies) {
  const found = new Map([["OK", []]]);
  boards.forEach((board, i) => found.set(replies[i], [...(found.get(replies[i]) || []), board]));
  const name = (reply, some) => (reply === "OK" ? TEXTS.dealt(some) : TEXTS.notDealt(some, outcome(reply)));
  return [...found].map(([reply, some]) => (some.length ? name(reply, some) : TEXTS.nothingDealt)).join(" ");
}

async function dealAll(lines, boards) {
  const reply = await order(lines);
  if (reply === null) return;
  const replies = reply.split("\n");
  boards.forEach((board, i) => dealtAs.set(Number(board), ["", "AlreadyDealt"].includes(refusal(replies[i] || "ERR 0 -")) ? "dealt" : "refused"));
  tell(dealtText(boards, replies));
  dealtAnew();
  look();
}

// The boards from one to another.
function boardsToShuffle() {
  const [first, last] = ["shuffle-first", "shuffle-last"].map((id) => Number(at(id).value));
  return Array.from({ length: Math.max(0, Math.min(last, MOST_BOARDS) - first + 1) }, (_none, i) => first + i);
}

function shuffleBoards() {
  if (!isFilledIn("dealing")) return;
  const boards = boardsToShuffle();
  if (boards.length === 0) return tell(TEXTS.noBoardsThere);
  confirmFirst(at("deal-question"), TEXTS.asks(TEXTS.shuffleOf(boards[0], boards[boards.length - 1])), TEXTS.verbs.shuffle, () => {
    const seed = drawSeed();
    dealAll(boards.map((board) => "SHUFFLE " + board + " " + seed), boards);
  }, TEXTS.shuffleEffect);
}

// ---- which boards are dealt

// By number: dealt, or refused; and whether it was found which of the others are to be dealt.
const dealtAs = new Map();
let dealsFound = false;
// Which search for them is the last one, and whether it is at work.
let search = 0;
let isSearching = false;
const dealState = (board) => dealtAs.get(board) || (dealsFound ? "open" : "unknown");
const allBoards = () => Array.from({ length: boardsOfAll }, (_none, i) => i + 1);

// The boards that are dealt, as the plays of each round tell: asked until all are known to be, or no round is left.
async function findDealt() {
  const { rounds, tables } = lastTables;
  const found = new Set();
  const [asked, mine] = [key, (search += 1)];
  isSearching = true;
  for (let round = 1; tables.length && round <= rounds && found.size < boardsOfAll; round += 1) {
    // One after the other, so that nobody else waits for them.
    for (const play of tables.flatMap(({ number }) => Array.from({ length: boardsOfSet }, (_none, i) => [round, number, i + 1]))) {
      const reply = await askPlay(play);
      if (mine !== search || key !== asked) return;
      if (reply === null) return endSearch();
      if (playIn(reply)) found.add(playIn(reply).number);
    }
    for (const board of found) dealtAs.set(board, "dealt");
    showDealt();
  }
  endSearch();
  if (!tables.length) return;
  for (const board of allBoards()) if (!found.has(board) && dealState(board) === "dealt") dealtAs.delete(board);
  dealsFound = true;
  showDealt();
  putFirst(allBoards().find((board) => dealState(board) !== "dealt"));
}

function endSearch() {
  isSearching = false;
}

// What was dealt or taken back meanwhile is to be found too.
function dealtAnew() {
  showDealt();
  if (isSearching) findDealt();
}

// The first board that is to be dealt stands in its field, where nobody has written another.
function putFirst(board) {
  if (board && Number(at("shuffle-first").value) === putFirst.last) at("shuffle-first").value = putFirst.last = board;
  sayShuffle();
}

// A tile for each board, and how many there are of each state.
function showDealt() {
  if (!at("dealt")) return;
  at("dealt").replaceChildren(...allBoards().map((board) => make("li", { className: dealState(board) }, make("b", null, String(board)), TEXTS.dealStates[dealState(board)])));
  const counts = ["dealt", "open", "refused"].map((state) => [state, allBoards().filter((board) => dealState(board) === state).length]);
  at("dealt-counts").replaceChildren(...counts.filter(([, count]) => count).map(([state, count]) => make("span", { className: state }, TEXTS.dealCount(state, count))));
}

function sayShuffle() {
  const count = boardsToShuffle().length;
  say("shuffle", count ? TEXTS.shuffleMany(count) : TEXTS.shuffle);
}

// What is wrong with the text of a deal, as far as a page can tell; else nothing.
function faultOf(text) {
  const [, first, rest] = /^([NESW]):(.*)$/.exec(text.trim()) || [];
  const hands = rest === undefined ? [] : rest.split(" ").map((hand) => hand.split(".").flatMap((ranks, i) => [...ranks].map((rank) => HAND_SUITS[i] + rank)));
  if (hands.length !== 4) return TEXTS.noDealText;
  const odd = hands.findIndex((hand) => hand.length !== 13);
  if (odd >= 0) return TEXTS.handHas(SEAT_NAMES[SEATS[(SEATS.indexOf(first) + odd) % 4]], hands[odd].length);
  return new Set(hands.flat()).size === 52 ? "" : TEXTS.cardTwice;
}

const faultsIn = (deals) => deals.map(([board, deal]) => [board, faultOf(deal)]).filter(([, fault]) => fault).map(([board, fault]) => TEXTS.isRefused(board, fault));

// Says which boards a text has, and which of them the session has not, before it deals those that it has.
function dealText(text) {
  const deals = dealsIn(text);
  if (deals.length === 0) return tell(TEXTS.noDeals);
  const isOfSession = ([board]) => Number(board) >= 1 && Number(board) <= boardsOfAll;
  const some = deals.filter(isOfSession);
  const others = deals.filter((deal) => !isOfSession(deal)).map((deal) => deal[0]);
  if (some.length === 0) return tell(TEXTS.notOfSession(others));
  const boards = some.map((deal) => deal[0]);
  return confirmFirst(at("deal-question"), TEXTS.asks(TEXTS.dealThese(boards)), TEXTS.verbs.deal,
    () => dealAll(some.map((deal) => "DEAL " + deal[0] + " " + deal[1]), boards), ...(others.length ? [TEXTS.notOfSession(others)] : []), ...faultsIn(some));
}

// ---- a form of a few fields

function numberField(id, label, low, high, value) {
  return make("span", { className: "field" }, make("label", { for: id }, label), make("input", { id, type: "number", min: low, max: high, value }));
}

function choice(id, label, options, value) {
  const node = make("select", { id }, ...options.map((option) => make("option", { value: option[0] }, option[1])));
  if (value !== undefined) node.value = value;
  return make("span", { className: "field" }, make("label", { for: id }, label), node);
}

const numberAt = (id) => Math.trunc(Number(at(id).value));

// Whether each number of a section is there and in its range.
function isFilledIn(id) {
  const filled = [...at(id).querySelectorAll("input[type=number]")].every((field) => field.value !== "" && field.checkValidity());
  if (!filled) tell(TEXTS.fillIn);
  return filled;
}

// All bids, the lowest first.
const ALL_BIDS = [1, 2, 3, 4, 5, 6, 7].flatMap((level) => ["C", "D", "H", "S", "NT"].map((strain) => level + strain));

const placeInSet = (board) => ((board - 1) % boardsOfSet) + 1;

// ---- rulings

// What a play is now, and what a ruling makes of it, as words of a question.
function beforeAndAfter(board, after) {
  return [
    [TEXTS.nowIs, ...resultNodes(board.result),
      ...(board.result.bid ? [", " + TEXTS.made(board.result.tricks - 6 - Number(board.result.bid[0])) + TEXTS.northSouthScore(signed(board.result.score))] : []),
      TEXTS.thenIs, after,
      "."],
    [TEXTS.playedBy(board.names)]];
}

// Rules on the play that is looked at: what it is called, a keyword, what follows the play, what the result becomes, and whether it
// is a correction.
function rule(what, verb, word, rest, after, isCorrection = false) {
  const { words, board } = opened;
  const name = what + ", " + TEXTS.playOf(words[0], words[1], TEXTS.boardNumber(board.number));
  const line = [word, ...words, rest].join(" ").trim();
  onceUnchanged(TEXTS.asks(name), verb, () => doOne(line, name, isCorrection), ...beforeAndAfter(board, after));
}

// What a contract with so many tricks scores for North and South.
function scoreThen(board, bid, declarer, tricks) {
  const score = scoreOf(bid, tricks, isVulnerable({ vulnerable: vulnerableOf(board.number) }, declarer));
  return signed(declarer === "N" || declarer === "S" ? score : -score);
}

// What a number of tricks makes of the contract of a play.
function withTricks(board, tricks) {
  const { bid, declarer } = board.result.bid ? board.result : contractOf(board) || {};
  if (!bid) return TEXTS.tricks(tricks);
  return callName(bid) + ", " + TEXTS.made(tricks - 6 - Number(bid[0])) + TEXTS.northSouthScore(scoreThen(board, bid, declarer, tricks));
}

const tricksList = (low) => Array.from({ length: 14 - low }, (_none, i) => [String(low + i), TEXTS.tricks(low + i)]);
const action = (id, act) => { const node = button("", "", id, true, act); node.className = "action"; return node; };

function tricksNodes(board) {
  const set = () => { const tricks = numberAt("rule-tricks"); rule(TEXTS.setTricksTo(tricks), TEXTS.verbs.set, "TRICKS", String(tricks), withTricks(opened.board, tricks)); };
  const chosen = choice("rule-tricks", TEXTS.declarersTricks, tricksList(0), String(board.result.tricks === undefined ? 7 : board.result.tricks));
  chosen.onchange = sayRuling;
  return [make("div", { className: "row" }, chosen, make("b", { id: "tricks-then" })), action("rule-set", set)];
}

// The contract that is assigned, its declarer and his tricks.
const assigned = () => [at("assign-bid").value + at("assign-doubled").value, at("assign-declarer").value, numberAt("assign-tricks")];

function assignNodes(board) {
  const now = (board.result.bid && board.result) || contractOf(board) || { bid: ALL_BIDS[0], declarer: "N" };
  const [bid, doubled] = /^(.*?)(X*)$/.exec(now.bid).slice(1);
  const assign = () => {
    const [contract, declarer, tricks] = assigned();
    const score = TEXTS.northSouthScore(scoreThen(opened.board, contract, declarer, tricks));
    rule(TEXTS.assignScore, TEXTS.verbs.assign, "ASSIGN", [contract, declarer, tricks].join(" "), TEXTS.assignedAs(callName(contract), SEAT_NAMES[declarer], TEXTS.made(tricks - 6 - Number(contract[0]))) + score, true);
  };
  const chosen = make("div", { className: "row", onchange: sayRuling },
    choice("assign-bid", TEXTS.contract, ALL_BIDS.map((one) => [one, callName(one)]), bid), choice("assign-doubled", TEXTS.double, TEXTS.doublings, doubled),
    choice("assign-declarer", TEXTS.declarerField, SEATS.map((seat) => [seat, SEAT_NAMES[seat]]), now.declarer),
    choice("assign-tricks", TEXTS.declarersTricks, tricksList(0), String(now.tricks === undefined ? Number(bid[0]) + 6 : now.tricks)));
  const send = action("rule-assign", assign);
  send.className = "action send";
  return [chosen, send];
}

// For each side one of three percentages; both are chosen before they are awarded.
function averageNodes() {
  const side = (name, short, label) => make("div", { className: "per", role: "group", aria_label: label }, make("b", { aria_hidden: "true" }, short),
    ...TEXTS.per.map(([value, words]) => button(words, "", "per-" + name + "-" + value, true, () => { opened.per[name] = value; sayRuling(); })));
  const award = () => { const { NS, EW } = opened.per; rule(TEXTS.award(NS, EW), TEXTS.verbs.award, "ADJUST", NS + " " + EW, TEXTS.average(NS, EW)); };
  return [side("NS", TEXTS.northSouth, TEXTS.northSouthPer), side("EW", TEXTS.eastWest, TEXTS.eastWestPer), action("rule-average", award)];
}

// What the buttons of the rulings say, by what is chosen.
function sayRuling() {
  const { board, per } = opened;
  sayBack(board);
  const tricks = numberAt("rule-tricks");
  say("tricks-then", board.result.none ? "" : withTricks(board, tricks));
  say("rule-set", board.result.none ? TEXTS.notOver : TEXTS.setTricksTo(tricks));
  at("rule-set").disabled = Boolean(board.result.none);
  say("rule-assign", TEXTS.assignIt(scoreThen(board, ...assigned())));
  for (const side of ["NS", "EW"]) for (const [value] of TEXTS.per) at("per-" + side + "-" + value).setAttribute("aria-pressed", String(per[side] === value));
  at("rule-average").disabled = !per.NS || !per.EW;
  say("rule-average", per.NS && per.EW ? TEXTS.award(per.NS, per.EW) : TEXTS.awardAverages);
}

function rulingNodes(board) {
  const whole = Math.max(7, Math.floor(board.cards.length / 4));
  const out = action("rule-void", () => rule(TEXTS.takeOut, TEXTS.verbs.out, "VOID", "", TEXTS.takenOut));
  const back = action("rule-restore", () => rule(TEXTS.takeBack, TEXTS.verbs.back, "RESTORE", "", TEXTS.asPlayed));
  out.append(TEXTS.takeOut);
  back.append(TEXTS.takeBack);
  const first = folded(TEXTS.takeBackDone, ...backNodes());
  first.open = true;
  return [make("h2", null, TEXTS.rule), questionBox("rule-question"), first,
    folded(TEXTS.setTheTricks, ...tricksNodes(board)), folded(TEXTS.assignScore, ...assignNodes(board)), folded(TEXTS.averages, ...averageNodes()),
    folded(TEXTS.takeOut, out), folded(TEXTS.takeBackButton, back),
    folded(TEXTS.solving, make("div", { className: "row" }, choice("solve-tricks", TEXTS.afterTricks, tricksList(7).map(([value, words]) => [value, TEXTS.after(words)]), String(whole)), button(TEXTS.solve, "", "solve", true, solve)),
      make("p", { id: "solved", role: "status" }))];
}

// The parts of the page of rulings: which play, the play, what is ruled on it, and the rulings that stand.
function rulingsNodes() {
  return [
    make("section", { id: "choosing", className: "panel", aria_label: TEXTS.openPlay }),
    make("section", { id: "opened", aria_label: TEXTS.theBoard }),
    make("section", { id: "ruling", className: "panel", aria_label: TEXTS.rule, hidden: true }),
    section("standing", TEXTS.rulingsStand, make("ul", { id: "ruled" }))];
}

// Whether players see what other tables did, and how to turn that; before it is told the same place is taken, so that nothing moves.
function othersNodes(open) {
  const turn = make("button", { type: "button", id: "others-turn", disabled: open === null, onclick: () => turnOthers(open ? "SHUT" : "OPEN") },
    open ? TEXTS.othersShut : TEXTS.othersOpen);
  return [make("p", null, TEXTS.othersTitle + " ", make("b", null, open === null ? "\u2026" : TEXTS.othersAre[open])), turn];
}

// The rulings that stand, and whether players see what other tables did.
async function showRulings() {
  const reply = await ask("/boards", key);
  if (reply === null || refusal(reply) || !at("ruled") || reply === showRulings.shown) return;
  showRulings.shown = reply;
  const lines = reply.split("\n").map((line) => line.split(" "));
  const ruled = lines.filter((words) => words[0] === "RULED").map(([, round, table, index, board, kind, ...words]) => {
    const open = () => openPlay([Number(round), Number(table), Number(index)]);
    return make("li", null, TEXTS.ruled(round, table, board, TEXTS.ruledAs[kind](words)) + " ",
      make("button", { type: "button", aria_label: TEXTS.open + ": " + TEXTS.ruled(round, table, board, ""), onclick: open }, TEXTS.open));
  });
  at("ruled").replaceChildren(...(ruled.length ? ruled : [make("li", null, TEXTS.noRulings)]));
  const open = lines.some((words) => words[0] === "OTHERS" && words[1] === "OPEN");
  at("others").replaceChildren(...othersNodes(open));
}

// ---- the disks

// The disks that the session is on: each with its name, whether it is lost, and its epoch and last action, where they are told.
function disksOf(text, kept) {
  const [, alone, lost] = /^(.*) alone, (.*) is lost$/.exec(text) || [];
  const names = lost !== undefined ? [alone, lost] : text.split(" and ").filter((name) => name !== "");
  return names.map((name, i) => ({ name, isLost: lost !== undefined && i === 1, kept: kept[i] }));
}

// How a disk stands.
function standingOf(isLost, count) {
  if (isLost) return TEXTS.diskIsLost;
  return count > 1 ? TEXTS.diskIsLevel : TEXTS.diskInOrder;
}

// A tile for each, and what is to be done where one fails.
function diskNodes(disks) {
  const isOneLost = disks.some((disk) => disk.isLost);
  const level = isOneLost ? 1 : disks.length;
  const tile = ({ name, isLost, kept }, i) => make("li", { className: isLost ? "is-lost" : "" },
    make("b", null, level > 1 ? TEXTS.diskOf(i) : TEXTS.oneDisk), make("span", { className: "second" }, name),
    make("span", { className: "large" }, standingOf(isLost, level)), ...(kept ? [make("span", null, TEXTS.keptOn(...kept, isLost))] : []),
    make("span", { className: "second" }, isLost ? TEXTS.writtenNoMore : TEXTS.writtenFirst));
  return [make("ul", { className: "disks" }, ...disks.map(tile)), make("h3", null, TEXTS.ifDiskFails),
    make("ol", null, ...TEXTS.diskSteps(disks.length, isOneLost).map((step) => make("li", null, step)))];
}

function showDisks() {
  if (desk.ends === null) return;
  say("serving", TEXTS.serving(timeText(desk.at + SECOND * desk.ends)));
  const told = [desk.disk, ...desk.kept].join("\n");
  if (told === at("disks").shows) return;
  at("disks").shows = told;
  at("disks").replaceChildren(...(desk.disk ? diskNodes(disksOf(desk.disk, desk.kept)) : []));
}

async function turnOthers(word) {
  const reply = await ask("/boards", key + " " + word);
  tell(reply === null ? TEXTS.unknownDone : refusal(reply) ? outcome(reply) : "");
  await showRulings();
}

// ---- endings, rankings, results, lines

async function solve() {
  const reply = await order(["SOLVE " + opened.words.join(" ") + " " + 4 * numberAt("solve-tricks")]);
  if (reply === null) return;
  const words = reply.split("\n")[0].split(" ");
  say("solved", words[0] === "OK" ? TEXTS.solved(words[1], words[2]) : TEXTS.notSolved(outcome(reply)));
}

async function askRankings() {
  tell("");
  await showRankings();
}

async function showRankings() {
  const asked = key;
  standingsAt = Date.now();
  const replies = [await ask("/lines", "RANK " + asked + " 1\n"), await ask("/lines", "RANK " + asked + " 2\n")];
  const text = await ask("/results", asked);
  if (key !== asked) return;
  if (text === null || replies.includes(null)) return tell(TEXTS.noAnswer);
  pairNames = shownPairs(namesIn(text));
  const time = make("p", { className: "small" }, TEXTS.asOf(timeText(Date.now())));
  if (at("rankings")) at("rankings").replaceChildren(time,
    ...rankings(replies, 0, pairNames).flat());
}

async function showResults() {
  const asked = key;
  const text = await ask("/results", asked);
  if (key === asked) say("results", text === null ? TEXTS.noAnswer : shownResults(text));
}

function section(id, title, ...nodes) {
  return make("section", { id, className: "panel", aria_label: title }, make("h2", null, title), ...nodes);
}

// A part of a section, under a heading of its own.
function group(title, ...nodes) {
  return make("div", { className: "subject" }, make("h3", null, title), ...nodes);
}

// The same folded together until its heading is pressed.
function folded(title, ...nodes) {
  return make("details", null, make("summary", null, title), ...nodes);
}

function linesNodes() {
  const box = make("textarea", { id: "box", spellcheck: false });
  const replies = make("pre", { id: "replies", role: "log", aria_label: TEXTS.replies });
  const send = async () => {
    if (ordered) return tell(TEXTS.answerAwaited);
    const reply = await order(box.value.split("\n").map((line) => line.trim()).filter((line) => line !== ""));
    replies.textContent = reply === null ? TEXTS.unknownLines : reply;
  };
  return [make("label", { for: "box" }, TEXTS.linesLabel), box, button(TEXTS.send, "", "send", true, send), replies];
}

function undeal() {
  if (!isFilledIn("dealing")) return;
  const board = numberAt("undeal-board");
  const undo = async () => { if (await doOne("UNDEAL " + board, TEXTS.undealOf(board), true)) { dealtAs.delete(board); dealtAnew(); } };
  confirmFirst(at("deal-question"), TEXTS.asks(TEXTS.undealOf(board)), TEXTS.verbs.back, undo, TEXTS.undealEffect);
}

// The deals of a file stand in the text, to be looked at and dealt.
async function readFile(chosen) {
  if (!chosen) return;
  at("deal-text").value = await chosen.text();
  const deals = dealsIn(at("deal-text").value);
  say("file-has", [TEXTS.fileHas(chosen.name, deals.length), ...faultsIn(deals)].join(". "));
}

function dealNodes() {
  const file = make("input", { id: "deal-file", type: "file", onchange: () => readFile(file.files[0]) });
  const main = (node) => { node.className = "send"; return node; };
  const shuffled = make("div", { className: "row", oninput: sayShuffle },
    numberField("shuffle-first", TEXTS.shuffleFrom, 1, MOST_BOARDS, 1), numberField("shuffle-last", TEXTS.to, 1, MOST_BOARDS, ""));
  const tiles = group(TEXTS.boardsOfEvening, make("p", { id: "deal-of", className: "second" }), make("ol", { id: "dealt" }), make("p", { id: "dealt-counts" }));
  tiles.className += " all-boards";
  return [tiles,
    group(TEXTS.shuffleHere, shuffled, main(button(TEXTS.shuffle, "", "shuffle", true, shuffleBoards)), make("p", { className: "second" }, TEXTS.seedSecret)),
    group(TEXTS.dealFile, file, make("div", { className: "row" }, make("label", { id: "choose-file", for: "deal-file" }, TEXTS.chooseFile),
      make("span", { id: "file-has", role: "status" }, TEXTS.noFile)),
      make("label", { for: "deal-text" }, TEXTS.dealText), make("textarea", { id: "deal-text", spellcheck: false }),
      button(TEXTS.deal, "", "deal", true, () => dealText(at("deal-text").value))), questionBox("deal-question"),
    group(TEXTS.dealtWrongly, make("div", { className: "row" }, numberField("undeal-board", TEXTS.boardField, 1, MOST_BOARDS, 1),
      button(TEXTS.undeal, "", "undeal", true, undeal)), make("p", { className: "second" }, TEXTS.undealHelp))];
}

function directorNodes() {
  const on = (name, ...nodes) => make("div", { id: "on-" + name, hidden: name !== tab }, ...nodes);
  return [
    make("p", { id: "told", role: "status" }),
    on("tables", make("table", { id: "tables" }), make("div", { id: "aside" },
      make("section", { id: "round", className: "panel", aria_label: TEXTS.round }, ...clockNodes(), make("p", { id: "round-is", className: "second" }),
        button(TEXTS.endTheRound, "", "end-round", false, () => {}), questionBox("end-question")),
      section("telling", TEXTS.telling, ...tellingNodes()))),
    on("boards", section("dealing", TEXTS.dealBoards, ...dealNodes())),
    on("rulings", ...rulingsNodes()),
    on("standings", section("ranking", TEXTS.standings, button(TEXTS.showRanking, "", "rank", true, askRankings), make("div", { id: "rankings" }))),
    on("evening", section("keeping", TEXTS.thisEvening, make("p", { id: "serving" }), make("div", { id: "disks" })), section("seeing", TEXTS.othersHead, make("div", { id: "others" }, ...othersNodes(null))),
      section("publishing", TEXTS.results, make("div", { className: "row" },
        button(TEXTS.showResults, "", "show-results", true, showResults), button(TEXTS.print, "", "print", true, () => window.print())),
      make("pre", { id: "results" })),
      section("lines", TEXTS.lines, ...linesNodes()))];
}

// Shows the director's page, built once, with its tables as they are now.
async function showDirector(reply, asked, mine) {
  at("title").textContent = TEXTS.director;
  at("chip").hidden = true;
  const state = readTables(reply);
  if (!at("tables")) {
    shown = "director";
    opened = null;
    showRulings.shown = "";
    toldPlays.clear();
    tab = "tables";
    at("main").replaceChildren(...directorNodes());
    at("tabs").replaceChildren(...tabNodes());
    at("tabs").hidden = false;
    showTab("tables");
    showTables(state);
    showChoosing();
    at("shuffle-last").value = state.all;
    putFirst.last = 1;
    say("deal-of", TEXTS.boardsInSets(state.all, state.boards));
    showDealt();
    sayShuffle();
    standingsAt = 0;
    pairNames = shownPairs(namesIn((await ask("/results", asked)) || ""));
  }
  if (mine !== turn) return;
  showTables(state);
  showDisks();
  showChoosing();
  if (tab === "rulings") await showOpened();
  if (tab === "rulings" || tab === "evening") await showRulings();
  if (seesStandings() && Date.now() - standingsAt > STANDINGS_LAST) await showRankings();
}
