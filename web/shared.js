"use strict";
// What the players' page and the director's share: how they ask, what is said of a refusal, how nodes are made and shown, who
// has logged in, and when they look.

const SEATS = ["N", "E", "S", "W"];
const SEAT_NAMES = TEXTS.seats;
const LOGIN = "login";
// Milliseconds: an answer that comes later is none, or later than this where it is put off until there is news; how often the page
// looks where it is hidden, where news cannot be waited for, and after one look and more that had no answer.
const LATE = 8000;
const NEWS_LATE = 25000;
const HIDDEN_LOOK = 5000;
const LOOK = 1000;
const AGAIN = [500, 1000, 2000, 4000, 8000];
// Milliseconds that what is asked besides a view waits for it.
const AFTER_VIEW = 15;
// Milliseconds after which the page says that no answer has come.
const SLOW = 3000;
// Whose page this is, once his key is known to be somebody's.
let role = { key: null, isDirector: false };
// What the last look was told, or null where it had no answer; what the page waits with for news of it, since when, and how many
// looks in turn had no answer.
let lastTold = null;
let awaited = { text: null, at: 0 };
let missed = 0;

const at = (id) => document.getElementById(id);
let key = sessionStorage.getItem("key");
let busy = false;
let shown = "";
let timer = 0;
// Raised by each look, each act and Leave: an answer that an earlier look gets is shown no more.
let turn = 0;

function make(tag, properties, ...children) {
  const node = document.createElement(tag);
  for (const [name, value] of Object.entries(properties || {})) {
    if (name.startsWith("aria") || name === "role" || name === "for" || name === "scope") node.setAttribute(name.replace("aria_", "aria-"), value);
    else node[name] = value;
  }
  node.append(...children);
  return node;
}

function button(label, name, id, enabled, act) {
  const node = make("button", { type: "button", id, disabled: busy || !enabled, onclick: act }, label);
  if (name) node.setAttribute("aria-label", name);
  return node;
}

function say(id, text) {
  const node = at(id);
  if (node && node.textContent !== text) node.textContent = text;
}

async function ask(path, body, patience = LATE) {
  const stop = new AbortController();
  const late = setTimeout(() => stop.abort(), patience);
  try {
    const response = await fetch(path, {
      method: "POST",
      headers: { "content-type": "application/x-table-lines" },
      body,
      signal: stop.signal,
    });
    return response.ok ? await response.text() : null;
  } catch (_error) {
    return null;
  } finally {
    clearTimeout(late);
  }
}

// The first refusal of a reply, or an empty text.
function refusal(reply) {
  const words = reply.split("\n")[0].split(" ");
  return words[0] === "ERR" ? words[2] : "";
}

// ---- what is shown

// Whether keys were pressed last; and the call or card that was chosen last. Where the focus was lost while nothing could be
// chosen, keys find it there again.
let byKeys = false;
let held = "";
window.addEventListener("keydown", (event) => {
  byKeys = true;
  // A key that is held down presses a button once.
  if (event && event.repeat && event.key === "Enter" && event.target.tagName === "BUTTON") event.preventDefault();
});
window.addEventListener("pointerdown", () => { byKeys = false; });
const isLost = () => document.activeElement === null || document.activeElement === document.body;

// What an element does, which no attribute says.
const DEEDS = ["onclick", "onkeydown", "oninput"];

// Makes of a node what another one is, where it can be: not of another element, nor of a field. What is folded stays so.
function becomes(node, other) {
  if (node.nodeName !== other.nodeName || node.id !== other.id || node.nodeName === "INPUT") return false;
  if (node.nodeName === "#text") {
    if (node.data !== other.data) node.data = other.data;
    return true;
  }
  for (const name of new Set([...node.getAttributeNames(), ...other.getAttributeNames()])) {
    const value = other.getAttribute(name);
    if (value === node.getAttribute(name) || name === "open") continue;
    if (value === null) node.removeAttribute(name);
    else node.setAttribute(name, value);
  }
  for (const deed of DEEDS) node[deed] = other[deed];
  keepChildren(node, [...other.childNodes]);
  return true;
}

// Gives an element these children, of which those that were there and can become them stay: the less is new, the less is drawn.
function keepChildren(element, nodes) {
  const old = [...element.childNodes];
  for (const [i, node] of nodes.entries()) {
    if (i >= old.length) element.append(node);
    else if (!becomes(old[i], node)) old[i].replaceWith(node);
  }
  for (const node of old.slice(nodes.length)) node.remove();
}

// Shows these nodes on a page of that shape, where what they are made of is new; the focus and what is open stay, but where
// the focus has a reason to move.
function show(made, status, shape, nodes, moveFocus = () => {}) {
  say("status", status);
  at("status").className = shape.split(" ").includes("mine") ? "turn" : "";
  const mark = made + (busy && made !== LOGIN ? " busy" : "");
  if (mark === shown) return;
  shown = mark;
  const main = at("main");
  const focus = isLost() ? (byKeys ? held : "") : main.contains(document.activeElement) ? document.activeElement.id : "";
  const open = [...main.querySelectorAll("details[open]")].map((node) => node.id);
  const isTable = [document.body.className, shape].every((one) => one.startsWith("at-table"));
  document.body.className = shape;
  if (isTable) keepChildren(main, nodes());
  else main.replaceChildren(...nodes());
  for (const id of open) if (at(id)) at(id).open = true;
  movedAt = Date.now();
  // What was in the focus stays there; where it is gone, the first card or call that may be chosen.
  const isChosen = (id) => /^c(ard|all)-/.test(id);
  const kept = !focus || (at(focus) && !at(focus).disabled) ? at(focus)
    : [...main.querySelectorAll("button")].find((node) => isChosen(node.id) && isChosen(focus) && !node.disabled);
  if (kept) kept.focus();
  moveFocus();
}

const rankingLines = (reply) => reply.split("\n").filter((line) => /^\d/.test(line)).map((line) => line.split(" "));

// The names of each pair, as the results have them.
const namesIn = (text) => new Map([...text.matchAll(/^Pair (\d+): (.*)$/gm)].map((found) => [Number(found[1]), found[2]]));

// ---- the names of the list that the program was given, in place of the configuration's

// By pair, the names that the configuration has and those that are shown; none where no list was given.
let people = new Map();
let peopleFor = null;
// A name that may run from the right to the left is kept apart from what stands beside it.
const apart = (name) => (/[^\u0000-\u058f]/.test(name) ? "\u2068" + name + "\u2069" : name);

// What is told of the names: a line a pair, with tabs between its number, its two names in the configuration, and those of the list.
function readPeople(reply) {
  const lines = reply.split("\n").map((line) => line.split("\t")).filter((words) => words.length === 5);
  return new Map(lines.map((words) => [Number(words[0]), { own: words.slice(1, 3), shown: words.slice(3).map(apart) }]));
}

// Asks for them once; until there is an answer the configuration's are shown.
async function askNames(asked) {
  if (peopleFor === asked) return;
  const reply = await ask("/names", asked);
  if (reply === null || key !== asked) return;
  people = readPeople(reply);
  peopleFor = asked;
}

// The name that is shown for a player of that pair; where both have one name in the configuration, that.
function shownName(pair, name) {
  const found = people.get(Number(pair));
  const [first, second] = found ? found.own.map((one) => one === name) : [false, false];
  return first === second ? name : found.shown[first ? 0 : 1];
}

// The names that are shown for those who sit so; the first of a pair sits North or East. Where several pairs have the same names in
// the configuration, those.
function shownAt(names) {
  const shown = { ...names };
  for (const [first, second] of [["N", "S"], ["E", "W"]]) {
    const found = [...people.values()].filter(({ own }) => own[0] === names[first] && own[1] === names[second]);
    if (found.length === 1) [shown[first], shown[second]] = found[0].shown;
  }
  return shown;
}

// The names of pairs, with those that are shown in their place.
const shownPairs = (names) => new Map([...names].map(([pair, both]) => [pair, people.has(pair) ? TEXTS.both(...people.get(pair).shown) : both]));

// About how many columns of a text with letters of one width a name takes: marks none, and the signs of East Asia two.
const NO_COLUMN = /[\p{M}\u200b-\u200f\u2068\u2069]/u;
const TWO_COLUMNS = /[\u1100-\u115f\u2e80-\ua4cf\uac00-\ud7a3\uf900-\ufaff\ufe30-\ufe6f\uff00-\uff60\uffe0-\uffe6\u{1f300}-\u{1faff}\u{20000}-\u{3fffd}]/u;
const columnsOf = (text) => [...text].reduce((sum, sign) => sum + (NO_COLUMN.test(sign) ? 0 : TWO_COLUMNS.test(sign) ? 2 : 1), 0);

// The text of the results with those names: in the headings of score cards, and in the rankings, where they have 53 columns.
function shownResults(text) {
  const names = shownPairs(namesIn(text));
  const inColumns = (both) => both + " ".repeat(Math.max(0, 53 - columnsOf(both)));
  const row = (line, start, pair) => (names.has(Number(pair)) ? start + inColumns(names.get(Number(pair))) : line);
  return text.replace(/^Pair (\d+): .*$/gm, (_line, pair) => "Pair " + pair + ": " + names.get(Number(pair)))
    .replace(/^( {3,}\d+ {3,}(\d+) {2})(?=\S+ and \S).{53}/gm, row);
}

// What stands above a ranking: where there are two, between which pairs it is.
function rankingTitles(lines, alone) {
  const pairs = lines.map((words) => Number(words[1]));
  const ends = [Math.min(...pairs), Math.max(...pairs)];
  return alone ? [TEXTS.ranking, TEXTS.places] : [TEXTS.rankingOfPairs(...ends), TEXTS.placesOfPairs(...ends)];
}

// The rankings among some replies, each by itself.
function rankings(replies, own, names) {
  const there = replies.filter((reply) => !refusal(reply));
  return there.map((reply) => rankingNode(reply, there.length === 1, own, names));
}

// A ranking, with the names of the pairs where they are known.
function rankingNode(reply, alone, own, names) {
  const lines = rankingLines(reply);
  const [title, label] = rankingTitles(lines, alone);
  if (lines.every((words) => words[words.length - 1] === "-")) return [make("h2", null, title), make("p", null, TEXTS.noResults)];
  const named = names.size > 0;
  const titles = TEXTS.rankingHeads.slice(0, lines.length ? lines[0].length : 0);
  if (named) titles.splice(2, 0, TEXTS.names);
  const head = make("tr", null, ...titles.map((title, i) => make("th", { scope: "col", className: named && i === 2 ? "who" : "" }, title)));
  const cells = (words) => (named ? [...words.slice(0, 2), names.get(Number(words[1])) || "", ...words.slice(2)] : words);
  const rows = lines.map((words) => make("tr", { className: Number(words[1]) === own ? "own" : "" },
    ...cells(words).map((word, i) => (named && i === 2 ? make("td", { className: "who" }, ...nameNodes(word)) : make("td", null, word)))));
  return [make("h2", null, title), make("table", { aria_label: label }, make("thead", null, head), make("tbody", null, ...rows))];
}

// ---- who has logged in, and when the page looks

// The event, its site, date and plan, as the server tells them before anybody has sat down; null until it has.
let evening = null;
async function askEvening() {
  if (evening !== null) return;
  const reply = await ask("/desk", "");
  if (reply === null || refusal(reply)) return;
  const told = Object.fromEntries(reply.split("\n").map((line) => [line.split(" ")[0], line.split(" ").slice(1)]));
  if (!told.PLAN) return;
  evening = { event: spaced(told.EVENT[0]), site: spaced(told.SITE[0]), date: told.DATE[0], plan: told.PLAN };
  if (at("login-head")) at("login-head").replaceChildren(...eveningNodes());
}

// A name of the configuration, which has hyphens for blanks.
const spaced = (name) => name.replace(/-/g, " ");

function eveningNodes() {
  const large = (words) => make("p", { className: "large" }, words);
  if (evening === null) return [large(TEXTS.title)];
  const [year, month, day] = evening.date.split(".").map(Number);
  const date = new Date(year, month - 1, day).toLocaleDateString(TEXTS.locale, { weekday: "long", day: "numeric", month: "long", year: "numeric" });
  return [make("p", { className: "second" }, evening.site), large(evening.event), make("p", null, date), make("p", { className: "second" }, TEXTS.planOf(...evening.plan))];
}

function showLogin() {
  at("title").textContent = TEXTS.title;
  at("below").textContent = "";
  at("chip").hidden = true;
  at("tabs").hidden = true;
  at("menu").hidden = true;
  at("choices").hidden = true;
  document.title = TEXTS.title;
  show(LOGIN, "", "login", () => {
    const field = make("input", { id: "key", type: "text", inputMode: "numeric", autocomplete: "off", pattern: "[0-9 ]+", required: true });
    const enter = (event) => {
      event.preventDefault();
      key = field.value.replace(/\s/g, "");
      say("notice", "");
      say("wrong", "");
      look();
    };
    field.setAttribute("aria-describedby", "wrong key-help");
    const form = make("form", { onsubmit: enter, className: "panel" },
      make("div", { className: "login-head", id: "login-head" }, ...eveningNodes()),
      make("div", { className: "login-key" }, make("label", { for: "key" }, TEXTS.yourKey), field, make("p", { id: "wrong", role: "alert" }),
        make("p", { id: "key-help", className: "second" }, TEXTS.keyHelp), make("button", { type: "submit", className: "send" }, TEXTS.sitDown)),
      make("div", { className: "login-more" }, make("p", { className: "second" }, TEXTS.slipLost), button(TEXTS.textAndColours, "", "colours", true, showMenu)));
    field.oninput = () => {
      field.setAttribute("aria-invalid", "false");
      if (field.selectionStart === field.value.length) field.value = field.value.replace(/\s/g, "").replace(/(\d{3})(?=\d)/g, "$1 ");
    };
    return [form];
  });
  if (document.activeElement === document.body) at("key").focus();
  askEvening();
}

function leave() {
  key = null;
  role = { key: null, isDirector: false };
  people = new Map();
  peopleFor = null;
  awaited = { text: null, at: 0 };
  turn += 1;
  sessionStorage.removeItem("key");
  say("notice", "");
  drawn = () => {};
  leaveDesk();
  showLogin();
}

function unreachable() {
  say("status", TEXTS.unreachable);
  at("status").className = "lost";
}

// Looks once, and again once there is news. While a line is out nothing is looked at: its answer is followed by a look.
async function look() {
  clearTimeout(timer);
  const asked = key;
  if (asked === null) return showLogin();
  if (busy) return;
  const mine = turn + 1;
  const before = lastTold;
  const slow = setTimeout(unreachable, SLOW);
  // What is no answer of this server, as that of a network's own login page, cannot be read.
  await lookOnce(asked).catch(unreachable);
  clearTimeout(slow);
  // After a later look, an act or Leave those go on.
  if (turn === mine && key !== null) lookLater(lastTold !== before);
}

function lookAfter(wait) {
  clearTimeout(timer);
  timer = setTimeout(look, wait);
}

function lookLater(isNew) {
  if (lastTold === null) {
    lookAfter(AGAIN[Math.min(missed, AGAIN.length - 1)]);
    missed += 1;
    return;
  }
  missed = 0;
  if (document.hidden) lookAfter(HIDDEN_LOOK);
  else if (unsure) lookAfter(LOOK);
  else if (!isNew && Date.now() - awaited.at < LOOK) lookAfter(LOOK);
  else awaitNews(key + "\n" + lastTold);
}

// Looks as soon as the server would tell something else than this; and soon where it does not say so.
async function awaitNews(text) {
  if (awaited.text === text) return;
  awaited = { text, at: Date.now() };
  const reply = await ask("/wait", text, NEWS_LATE);
  if (awaited.text !== text) return;
  awaited.text = null;
  if (reply !== null && !refusal(reply)) look();
  else lookAfter(LOOK);
}

// What an answer of the desk tells that stands, and is neither of the clock's hand nor of the disks.
const standing = (reply) => reply.split("\n").slice(2, -2).filter((line) => !/^(DISK|KEPT) /.test(line)).map((line) => line + "\n").join("");

async function lookOnce(asked) {
  turn += 1;
  const mine = turn;
  lastTold = null;
  let place;
  // A key that may be nobody's is asked with once.
  if (role.key !== asked) {
    place = await ask("/place", asked);
    if (mine !== turn) return;
    if (place === null) return unreachable();
    const refused = refusal(place);
    if (refused && refused !== "NotAllowed") return refuse(refused);
    role = { key: asked, isDirector: refused === "NotAllowed" };
    enter(asked);
  }
  await askNames(asked);
  if (mine !== turn) return;
  // The view is asked for first, and shown as soon as it is there where it goes on from the one that is shown.
  const view = role.isDirector ? null : ask("/lines", "SEE " + asked + "\n");
  if (view) view.then((text) => { if (mine === turn && text !== null && goesOn(text)) showView(lastPlace, text); });
  // What is asked besides goes a moment later, so that it holds the view up nowhere.
  if (view && !place) await Promise.race([view, new Promise((done) => { setTimeout(done, AFTER_VIEW); })]);
  if (mine !== turn) return;
  const told = role.isDirector ? [ask("/tables", asked)] : [place || ask("/place", asked), view];
  const replies = await Promise.all([...told, ask("/desk", asked)]);
  if (mine !== turn) return;
  if (replies.includes(null)) return unreachable();
  const refused = refusal(replies[0]);
  if (refused) return refuse(refused);
  const stands = replies.pop();
  takeDesk(stands);
  await (role.isDirector ? showDirector(replies[0], asked, mine) : showPlayer(...replies, asked, mine));
  if (mine === turn) lastTold = replies.join("") + standing(stands);
}

function refuse(refused) {
  leave();
  say("wrong", TEXTS.refusals[refused] || TEXTS.noKey);
  at("key").setAttribute("aria-invalid", "true");
}

function enter(asked) {
  sessionStorage.setItem("key", asked);
  sayLeave();
  at("menu").hidden = false;
}

// Leave is asked: it wants a second press within some seconds.
const ASKED = 4000;
let askedAt = -ASKED;
const isAsked = () => Date.now() - askedAt < ASKED;

function sayLeave() {
  const label = isAsked() ? TEXTS.reallyLeave : TEXTS.leave;
  if (at("leave").textContent !== label) at("leave").textContent = label;
}

at("leave").onclick = () => {
  const again = isAsked();
  askedAt = again ? -ASKED : Date.now();
  sayLeave();
  if (again) {
    leave();
    at("key").focus();
  }
};
window.addEventListener("online", () => look());
window.addEventListener("offline", unreachable);
document.addEventListener("visibilitychange", () => { if (!document.hidden) look(); });
// Once the scripts of both pages are there.
document.addEventListener("DOMContentLoaded", () => look());
