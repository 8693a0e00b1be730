"use strict";
// What stands beside the session: the director's notice, the round's clock, calls for the director, what was said with a claim,
// and who agreed to it or refused it. The server keeps it for as long as it runs.

// How many seconds left of the clock are said.
const CLOCK_SAID = [300, 60];
const SECOND = 1000;

const nothingStands = () => ({ notice: "", clock: null, calls: [], said: "", agreed: [], refusedBy: "", meets: null, now: 0, at: 0, ends: null, disk: "", kept: [] });
// Minutes before the end of the pages from which on they say so.
const ENDS_SOON = 10;
let desk = nothingStands();
let clockTimer = 0;
// What is on the page of it; and the reason that is chosen while the director is being called, or null.
let deskShown = "";
// The round that the clock runs down to, between two.
let nextRound = null;
let reason = null;

const timeText = (time) => new Date(time).toLocaleTimeString(TEXTS.locale, { hour: "2-digit", minute: "2-digit" });
// A reason of the page's own goes on in the sentence.
const reasonText = (words) => (TEXTS.reasons.includes(words) && !words.startsWith("I ") ? words[0].toLowerCase() + words.slice(1) : words);

// A line from so many words on.
const wordsFrom = (line, count) => line.split(" ").slice(count).join(" ");

const DESK_LINES = {
  NOW: (found, line) => {
    const [, now, ends] = line.split(" ");
    found.now = Number(now);
    if (ends !== undefined) found.ends = Number(ends) - found.now;
  },
  DISK: (found, line) => { found.disk = wordsFrom(line, 1); },
  KEPT: (found, line) => { found.kept.push(line.split(" ").slice(1)); },
  NOTICE: (found, line) => { found.notice = wordsFrom(line, 1); },
  CLOCK: (found, line) => { found.clock = Number(wordsFrom(line, 1)) - found.now; },
  CALL: (found, line) => {
    const [, table, since, pair, name] = line.split(" ");
    const seconds = found.now - Number(since);
    found.calls.push({ table, minutes: Math.floor(seconds / 60), time: timeText(found.at - SECOND * seconds), pair, name, text: wordsFrom(line, 5) });
  },
  STATEMENT: (found, line) => { found.said = wordsFrom(line, 1); },
  AGREED: (found, line) => { found.agreed.push(wordsFrom(line, 1)); },
  REFUSED: (found, line) => { found.refusedBy = wordsFrom(line, 1); },
  MEETS: (found, line) => {
    const [, ns, ew, N, E, S, W] = line.split(" ");
    found.meets = { ns, ew, names: { N, E, S, W } };
  },
};

function readDesk(reply) {
  const found = nothingStands();
  found.at = Date.now();
  for (const line of reply.split("\n")) {
    const put = DESK_LINES[line.split(" ")[0]];
    if (put) put(found, line);
  }
  return found;
}

const isDirector = () => role.isDirector;

// A text without what the server takes in none: control characters, and those that turn the direction of others.
const plainText = (text) => text.replace(/[\p{Cc}\u061c\u200e\u200f\u2028-\u202e\u2066-\u2069]/gu, " ").trim();

// Shows what an answer says that stands. A call of this table that stands no more is being answered.
function takeDesk(reply) {
  if (refusal(reply)) return;
  const called = desk.calls.length > 0;
  desk = readDesk(reply);
  const isBack = passing !== null && [TEXTS.callBack, TEXTS.cardBack].includes(passing.text);
  if (called && desk.calls.length === 0 && !isDirector() && !isBack) sayPassing(TEXTS.directorComes);
  if (passing !== null && passing.text === TEXTS.claimRefused && desk.refusedBy) sayPassing(claimFell(), passing.where);
  showDesk();
}

// Asks something of the desk, and shows what stands then; says whether it was done.
async function askDesk(order) {
  const asked = key;
  if (asked === null) return false;
  const reply = await ask("/desk", asked + " " + order);
  if (key !== asked) return false;
  if (reply !== null && !refusal(reply)) {
    takeDesk(reply);
    return true;
  }
  const why = reply === null ? TEXTS.unknownDone : TEXTS.refusals[refusal(reply)] || reply;
  if (isDirector()) tell(why);
  else say("notice", why);
  return false;
}

// Whoever sat here has left.
function leaveDesk() {
  clearTimeout(clockTimer);
  desk = nothingStands();
  closeCall();
  showDesk();
}

// ---- the round's clock, which goes on between two looks

const secondsLeft = () => Math.max(0, desk.clock - Math.floor((Date.now() - desk.at) / SECOND));
const clockText = (seconds) => Math.floor(seconds / 60) + ":" + String(seconds % 60).padStart(2, "0");

function showClock() {
  clearTimeout(clockTimer);
  at("clock").hidden = desk.clock === null;
  if (at("clock-runs")) [at("clock-runs").hidden, at("clock-sets").hidden] = [desk.clock === null, desk.clock !== null];
  if (desk.clock === null) return;
  const left = secondsLeft();
  say("clock-left", clockText(left));
  if (CLOCK_SAID.includes(left)) say("heard", TEXTS.minutesLeft(left / 60));
  at("clock").className = left === 0 ? "over" : "";
  at("clock").replaceChildren(make("b", null, clockText(left)), make("span", null, nextRound === null ? TEXTS.clockLeft : TEXTS.untilRound(nextRound)));
  clockTimer = setTimeout(showClock, SECOND);
}

// ---- what stands above the page

const whoCalls = ({ pair, name }) => TEXTS.ofPair(shownName(pair, name), pair);

function callNodesOf(call) {
  if (!isDirector()) return [make("p", { className: "note called" }, make("span", null, make("b", null, TEXTS.directorCalled(call.time)), " ", (reasonText(call.text) || TEXTS.nothingSaid) + ". ", TEXTS.waitForDirector))];
  const stateOf = (number) => lastTables && lastTables.tables.find((one) => one.number === number);
  const open = () => { const state = stateOf(call.table); if (state) openTable(state); };
  const grant = (number) => { const state = stateOf(number); if (state) grantBack(state); };
  return [make("div", { className: "note called" }, make("p", null, make("b", null, TEXTS.tableCalls(call.table)), " ", call.text ? call.text + ". " : "",
    whoCalls(call) + ", " + TEXTS.minutesAgo(call.minutes) + "."),
  ...(call.text === TEXTS.slip ? [make("button", { type: "button", id: "grant-" + call.table, onclick: () => grant(call.table) }, TEXTS.grant)] : []),
  make("button", { type: "button", id: "answered-" + call.table, onclick: () => askDesk("ANSWERED " + call.table) }, TEXTS.answered),
  make("button", { type: "button", id: "go-" + call.table, className: "send", onclick: open }, TEXTS.openTable(call.table)))];
}

// The director's notice, which he takes down where he reads it.
function noticeNodes() {
  if (!desk.notice) return [];
  return [make("div", { className: "note" }, make("p", null, make("b", null, TEXTS.noticeOf), " ", desk.notice),
    ...(isDirector() ? [make("button", { type: "button", id: "take-down", onclick: () => askDesk("NOTICE") }, TEXTS.takeDown)] : []))];
}

// Which of two disks is kept alone, and which is lost.
const lostDisk = () => (/ is lost$/.test(desk.disk) ? desk.disk : "");

// Shows what stands, where it has changed; the focus stays.
function showDesk() {
  showClock();
  at("bell").hidden = key === null || isDirector();
  const minutes = desk.ends === null ? ENDS_SOON + 1 : Math.max(1, Math.ceil(desk.ends / 60));
  const made = JSON.stringify([desk.notice, desk.calls, desk.said, isDirector(), lostDisk(), minutes <= ENDS_SOON ? minutes : 0]);
  if (made === deskShown) return;
  deskShown = made;
  const focus = document.activeElement ? document.activeElement.id : "";
  const end = minutes <= ENDS_SOON ? [make("p", null, TEXTS.pagesEnd(minutes, isDirector()))] : [];
  const lost = lostDisk() ? [make("p", { id: "lost-disk", className: "note called", role: "alert" }, TEXTS.diskLost(lostDisk()))] : [];
  at("desk").replaceChildren(...lost, ...end, ...noticeNodes(), ...desk.calls.flatMap(callNodesOf));
  if (focus && at(focus)) at(focus).focus();
  drawn();
}

// ---- a call for the director

function showCall() {
  const choice = (words) => {
    const node = button(words, "", "", true, () => { reason = reason === words ? "" : words; showCall(); });
    node.setAttribute("aria-pressed", String(reason === words));
    return node;
  };
  if (reason === null) reason = "";
  const send = button(TEXTS.callDirector, "", "call-director", true, () => { const order = reason ? "CALL " + reason : "CALL"; closeCall(); askDesk(order); });
  send.className = "send";
  const seat = lastPlace ? readPlace(lastPlace).table : null;
  at("calling").replaceChildren(make("h2", null, TEXTS.callTitle(seat && seat.number)), make("p", { className: "second" }, TEXTS.callHelp),
    make("div", { className: "reasons" }, ...TEXTS.reasons.map(choice)), make("div", { className: "row" }, button(TEXTS.back, "", "call-back", true, closeCall), send));
  at("calling").hidden = false;
  send.focus();
}

function closeCall() {
  if (reason !== null && !at("bell").hidden) at("bell").focus();
  reason = null;
  at("calling").hidden = true;
}

at("bell").onclick = () => { if (reason === null) showCall(); else closeCall(); };
at("bell").replaceChildren(make("span", null, TEXTS.bell));
at("bell").setAttribute("aria-label", TEXTS.callDirector);
at("calling").onkeydown = holdTab;

// ---- the director tells all tables, and sets the clock

function tellingNodes() {
  const field = make("input", { id: "tell-text", type: "text", maxLength: 200, aria_label: TEXTS.tellText, placeholder: TEXTS.tellExample });
  const telling = async () => { const words = plainText(field.value); if (words && await askDesk("NOTICE " + words)) field.value = ""; };
  return [make("div", { className: "row" }, field, button(TEXTS.tellAll, "", "tell-all", true, telling))];
}

// A row to start the clock, and in its place one while it runs.
function clockNodes() {
  const start = () => { if (isFilledIn("clock-sets")) askDesk("CLOCK " + numberAt("clock-minutes")); };
  const more = () => { if (desk.clock !== null) askDesk("CLOCK " + (Math.ceil(secondsLeft() / 60) + 2)); };
  return [make("div", { id: "clock-sets", className: "row", hidden: desk.clock !== null }, numberField("clock-minutes", TEXTS.clockMinutes, 1, 240, 20),
    button(TEXTS.clockStart, "", "clock-start", true, start)),
  make("div", { id: "clock-runs", className: "row", hidden: desk.clock === null }, make("b", { id: "clock-left" }, desk.clock === null ? "" : clockText(secondsLeft())),
    button(TEXTS.clockStop, "", "clock-stop", true, () => askDesk("CLOCK")), button(TEXTS.clockMore, "", "clock-more", true, more))];
}
