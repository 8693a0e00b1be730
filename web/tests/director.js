"use strict";
// The director's page: each click sends its lines and no others, once it was asked where it asks, and each reply shows what it
// says.
const assert = require("node:assert");
const { Page, run } = require("./page.js");

const KEY = "52817";
const RANKS = [`/lines RANK ${KEY} 1\n`, `/lines RANK ${KEY} 2\n`, `/results ${KEY}`];
// What the page says of a refusal.
const SAID = {
  AlreadyDealt: /already dealt/, BadDeal: /not four hands/, BadLine: /cannot be read/, LongLine: /cannot be read/, NoSuchPlay: /no such play/,
  NotYet: /has not begun/, RoundOpen: /still at play/, NoContract: /no contract/, NotFinished: /not over/, NotAnEnding: /six whole tricks/,
  NotMatchPoints: /for matchpoints/, WrongPhase: /not possible/, Stale: /not the round/, Closed: /closed/, Disk: /disk has failed/, EpochsSpent: /used up/,
};

const AT_PLAY = ["TABLE 1 1 8 4 AUCTION E 3 0", "TABLE 2 2 9 6 PLAY S 7 21", "TABLE 3 3 10 - NotDealt", "TABLE 4 4 0 - SitsOut"];
const DONE = ["TABLE 1 1 8 - NotCurrent", "TABLE 2 2 9 - NotCurrent"];
const tables = (lines, round = 2) => ["OK", `ROUND ${round} 7`, "BOARDS 3 21", ...lines, ".", ""].join("\n");

// What is told of a play at table 2, and otherwise.
const played = (other = {}) => ["OK", "OTHERS SHUT", ...Object.entries({
  BOARD: "6 2 2 3 -", NAMES: "Cat Eve Dan Fay", DEAL: "N:K73.AK652.A.Q652 J652.Q8.QT976.K4 AQ9.J7.K43.JT987 T84.T943.J852.A3", CALLS: "3NT PASS PASS PASS",
  CARDS: "S H3 H4 H5 H6 D2", CLAIM: "-", RESULT: "3NT E 8 100", ...other,
}).map(([word, rest]) => `${word} ${rest}`), ".", ""].join("\n");

// A page at which the director has logged in; lines are answered so, and a play is told so.
async function opened(told, done = "OK\n", play = played(), stands = undefined, people = undefined) {
  const page = new Page((where, body) => {
    if (where === "/place") return "ERR 2 NotAllowed\n";
    if (where === "/boards") return typeof play === "function" ? play(body) : play;
    return where === "/tables" ? told : typeof done === "function" ? done(where, body) : done;
  }, { key: KEY }, people);
  if (stands) page.stands = stands;
  await page.settle();
  assert.deepStrictEqual(page.asked, [`/place ${KEY}`, `/tables ${KEY}`, `/results ${KEY}`]);
  return page;
}

const LOOKS = [`/tables ${KEY}`];
// With the rulings that stand, where they are in sight.
const RULED_LOOKS = [...LOOKS, `/boards ${KEY}`];

// The same with another part of the page in sight. With the boards it is asked which of them are dealt: each play of a round.
const plays = (round, count) => Array.from({ length: count }, (_none, i) => [1, 2, 3].map((place) => `/boards ${KEY} ${round} ${i + 1} ${place}`)).flat();
async function openedAt(tab, ...words) {
  const page = await opened(...words);
  if (tab === "boards") {
    const asked = await page.click("tab-boards");
    assert.deepStrictEqual([asked[0], ...asked.slice(1, 13)], [...LOOKS, ...plays(1, 4)]);
    await page.settle();
    return page;
  }
  assert.deepStrictEqual(await page.click("tab-" + tab), tab === "rulings" || tab === "evening" ? RULED_LOOKS : tab === "standings" ? [...LOOKS, ...RANKS] : LOOKS);
  return page;
}

function fill(page, values) {
  for (const [id, value] of Object.entries(values)) page.at(id).value = value;
}

// What a page asks for that shows a play at table 2 and the other boards of its set; and the play at each look.
const PLAY = `/boards ${KEY} 2 2 3`;
const OPENS = [PLAY, `/boards ${KEY} 2 2 1`, `/boards ${KEY} 2 2 2`, `/boards ${KEY}`];

// A page that shows the play at table 2.
async function openedPlay(...words) {
  const page = await opened(tables(AT_PLAY), ...words);
  assert.deepStrictEqual(await page.click("open-2"), OPENS);
  return page;
}

// What is sent at a click, and at Yes where it asks; a look follows. A play that is ruled on is asked for after the question.
async function sent(page, id, question, asked = []) {
  const first = await page.click(id);
  const looks = page.at("on-rulings").hidden ? LOOKS : [...LOOKS, PLAY, `/boards ${KEY}`];
  if (!question) {
    assert.deepStrictEqual(first.slice(1), looks);
    return first[0];
  }
  assert.deepStrictEqual(first, []);
  assert.match(page.text("main"), question);
  const again = await page.click("yes");
  assert.deepStrictEqual(again.slice(0, asked.length), asked);
  const [line, ...rest] = again.slice(asked.length);
  assert.deepStrictEqual(rest, looks);
  assert.strictEqual(page.at("yes"), null);
  return line;
}

// The seed that the random bytes of the test make.
const SEED = [...Array(32).keys()].map((i) => (i + 1).toString(16).padStart(2, "0")).join("");

run({
  "the tables stand as they are told": async () => {
    const page = await opened(tables(AT_PLAY), "Pair 1: Ann and Bob\n");
    assert.deepStrictEqual(page.rows(page.at("tables")), [
      ["Table", "N-S", "E-W", "Board", "What goes on", "Min.", "Stands", "Open"],
      ["1", "1 Ann and Bob", "8", "Board 4", "Auction, East to call", "moved just now", "Playing", "Open"],
      ["2", "2", "9", "Board 6", "Trick 6, South to play", "moved just now", "Playing", "Open"],
      ["3", "3", "10", "", "Waits for its deal", "", "No deal", "Open"],
      ["4", "4", "\u2013", "", "Sits out", "", "Done", ""],
    ]);
    assert.strictEqual(page.text("status"), "Round 2 of 7. Still at play: tables 1, 2. No deal yet: table 3.");
    assert.strictEqual(page.text("title"), "Director");
    page.now += 119000;
    assert.deepStrictEqual(await page.look(), LOOKS);
    assert.deepStrictEqual(page.rows(page.at("tables")).map((row) => row[5]), ["Min.", "still for 2 min", "still for 2 min", "", ""]);
    page.now += 180000;
    await page.look();
    assert.deepStrictEqual(page.rows(page.at("tables")).map((row) => row[6]), ["Stands", "Slow", "Slow", "No deal", "Done"]);
    assert.strictEqual(page.at("shuffle-last").value, "21");
  },

  "that the server does not answer is said for as long as it does not": async () => {
    const page = await opened(tables(AT_PLAY));
    page.answer = () => null;
    await page.look();
    assert.deepStrictEqual([page.text("status"), page.at("status").className], ["The server does not answer. Trying again.", "lost"]);
    page.answer = () => tables(AT_PLAY);
    await page.look();
    assert.deepStrictEqual([page.text("status").slice(0, 13), page.at("status").className], ["Round 2 of 7.", ""]);
  },

  "the names of the list stand in the tables, in plays and with calls": async () => {
    const page = await opened(tables(AT_PLAY), "Pair 1: Ann and Bob\nPair 2: Cat and Dan\n", played(), "OK\nNOW 7 14400\nCALL 2 7 2 Dan Slow\n.\n",
      "OK\n2\tCat\tDan\tC\u00e1t\tD\u00e1n\n.\n");
    assert.deepStrictEqual(page.rows(page.at("tables")).slice(1, 3).map((row) => row[1]), ["1 Ann and Bob", "2 C\u00e1t and D\u00e1n"]);
    assert.match(page.text("desk"), /D\u00e1n/);
    await page.click("go-2");
    assert.match(page.text("main"), /NC\u00e1t.*EEve.*SD\u00e1n.*WFay/);
  },

  "a round is ended once all tables are done": async () => {
    assert.ok((await opened(tables(AT_PLAY))).at("end-round").disabled);
    assert.strictEqual((await opened(tables(AT_PLAY))).text("end-round"), "End round 2. Still at play: tables 1, 2; no deal yet: table 3");
    const undealt = await opened(tables(["TABLE 1 1 8 - NotDealt", "TABLE 2 2 9 - NotCurrent"]));
    assert.ok(undealt.at("end-round").disabled);
    assert.deepStrictEqual([undealt.text("end-round"), undealt.text("status"), undealt.text("round-is")],
      ["End round 2. No deal yet: table 1", "Round 2 of 7. No deal yet: table 1.", "1 of 2 tables done"]);
    const page = await opened(tables(DONE));
    assert.strictEqual(page.text("status"), "Round 2 of 7. All tables have done their boards.");
    await page.click("end-round");
    assert.ok(page.text("end-question").includes("All tables go on to round 3."));
    assert.deepStrictEqual(await page.click("no"), []);
    assert.strictEqual(page.at("yes"), null);
    assert.strictEqual(await sent(page, "end-round", /End round 2\?/), `/lines NEXT ${KEY} 2\n`);
    assert.strictEqual(page.text("told"), "End of round 2: done.");
    const last = await opened(tables(DONE, 7));
    assert.strictEqual(await sent(last, "end-round", /End round 7, and close the session\?/), `/lines NEXT ${KEY} 7\n`);
    const closed = await opened(tables([], 8));
    assert.ok(closed.at("end-round").disabled);
    assert.strictEqual(closed.text("status"), "The session is closed.");
  },

  "boards are shuffled by numbers that nobody can guess": async () => {
    const page = await openedAt("boards", tables(AT_PLAY), "OK\nERR 22 AlreadyDealt\nOK\n");
    fill(page, { "shuffle-first": "4", "shuffle-last": "6" });
    assert.strictEqual(await sent(page, "shuffle", /Shuffle boards 4 to 6\?Boards that are dealt already stay as they are\./), `/lines ${[4, 5, 6].map((board) => `SHUFFLE ${KEY} ${board} ${SEED}\n`).join("")}`);
    assert.strictEqual(page.text("told"), "Dealt: 4, 6. Board 5: already dealt.");
    fill(page, { "shuffle-last": "37" });
    assert.deepStrictEqual(await page.click("shuffle"), []);
    assert.match(page.text("told"), /in its range/);
  },

  "which boards are dealt is found from the plays, and stands on a tile for each": async () => {
    // At table T of round R, which has the boards of set T + R - 1: those up to 7, and of set 3 no more, are dealt.
    const dealt = (body) => {
      const [, round, table, index] = body.split(" ").map(Number);
      const board = 3 * ((table + round - 2) % 7) + index;
      return board <= 7 ? played({ BOARD: `${board} ${round} ${table} ${index} -` }) : "ERR 8 NotDealt\n";
    };
    const seven = [1, 2, 3, 4, 5, 6, 7].map((table) => `TABLE ${table} ${table} ${table + 7} - NotDealt`);
    const page = await opened(tables(seven), (where, body) => (where === "/lines" ? "OK\nERR 23 BadDeal\nERR 22 AlreadyDealt\n" : "OK\n"), dealt);
    const tiles = () => page.at("dealt").nodes.map((tile) => tile.textContent);
    assert.deepStrictEqual([tiles()[0], page.text("dealt-counts"), page.text("shuffle")], ["1\u2026", "", "Shuffle 21 boards"]);
    await page.click("tab-boards");
    await page.settle();
    assert.deepStrictEqual(tiles().slice(5, 9), ["6dealt", "7dealt", "8to deal", "9to deal"]);
    assert.deepStrictEqual([page.at("shuffle-first").value, page.text("shuffle"), page.text("dealt-counts")], ["8", "Shuffle 14 boards", "dealt, 7to deal, 14"]);
    fill(page, { "shuffle-last": "10" });
    page.at("shuffle-first").parent.parent.oninput();
    assert.strictEqual(page.text("shuffle"), "Shuffle 3 boards");
    await page.click("shuffle");
    await page.click("yes");
    assert.deepStrictEqual(tiles().slice(6, 11), ["7dealt", "8dealt", "9refused", "10dealt", "11to deal"]);
    fill(page, { "undeal-board": "8" });
    page.answer = (where) => (where === "/tables" ? tables(seven) : "OK\n");
    await page.click("undeal");
    assert.match(page.text("deal-question"), /^Take back the deal of board 8\?Nobody has its cards then/);
    await page.click("yes");
    assert.strictEqual(tiles()[7], "8to deal");
    // What another device has dealt or taken back is found when the boards are opened again.
    page.answer = (where, body) => (where === "/tables" ? tables(seven) : where === "/boards" && body.includes(" ") ? (body.endsWith(" 1 1 1") ? played({ BOARD: "1 1 1 1 -" }) : "ERR 8 NotDealt\n") : "OK\n");
    await page.click("tab-boards");
    await page.settle();
    assert.deepStrictEqual([page.text("dealt-counts"), page.at("shuffle-first").value], ["dealt, 1to deal, 19refused, 1", "2"]);
  },

  "what is dealt while it is found which boards are dealt is not forgotten": async () => {
    let held = null;
    const page = await opened(tables(AT_PLAY));
    page.answer = (where) => (where === "/tables" ? tables(AT_PLAY) : where === "/lines" ? "OK\n" : held ? "ERR 8 NotDealt\n" : new Promise((resolve) => { held = resolve; }));
    await page.asks(() => { page.at("tab-boards").click(1); });
    fill(page, { "shuffle-first": "1", "shuffle-last": "1" });
    const release = held;
    await page.click("shuffle");
    page.answer = (where, body) => (where === "/tables" ? tables(AT_PLAY) : where === "/lines" ? "OK\n" : body.endsWith(" 1 1 1") ? played({ BOARD: "1 1 1 1 -" }) : "ERR 8 NotDealt\n");
    await page.click("yes");
    release("ERR 8 NotDealt\n");
    await page.settle();
    assert.strictEqual(page.text("dealt-counts"), "dealt, 1to deal, 20");
  },

  "what is wrong with a deal is said before it is dealt": async () => {
    const page = await openedAt("boards", tables(AT_PLAY));
    const good = "N:AKQJ.T98.765.432 432.AKQJ.T98.765 765.432.AKQJ.T98 T98.765.432.AKQJ";
    const [short, twice] = [good.replace("432.AKQJ.T98.765", "432.AKQJ.T98.76"), good.replace("AKQJ.T98.765.432", "AKQJ.T98.765.AKQ")];
    page.at("deal-file").files = [{ name: "a.pbn", text: async () => `1 ${good}\n9 ${short}\n10 ${twice}\n11 N:AK Q\n` }];
    await page.asks(() => page.at("deal-file").onchange());
    const faults = ["Board 9: East has 12 cards", "Board 10: a card is in it twice", "Board 11: that is no deal"];
    assert.ok(faults.every((fault) => page.text("file-has").includes(fault)) && !page.text("file-has").includes("Board 1:"), page.text("file-has"));
    await page.click("deal");
    assert.ok(faults.every((fault) => page.text("deal-question").includes(fault)), page.text("deal-question"));
  },

  "deals of a text are sent as they stand": async () => {
    const page = await openedAt("boards", tables(AT_PLAY), "OK\nOK\nERR 23 BadDeal\n");
    const deal = "N:AKQJ.T98.765.432 432.AKQJ.T98.765 765.432.AKQJ.T98 T98.765.432.AKQJ";
    fill(page, { "deal-text": `1 ${deal}\nDEAL 100 2 ${deal}\n[Event "x"]\n[Board "7"]\n[Deal "${deal}"]\n` });
    assert.strictEqual(await sent(page, "deal", /Deal boards 1, 2, 7\?/), `/lines ${[1, 2, 7].map((board) => `DEAL ${KEY} ${board} ${deal}\n`).join("")}`);
    assert.strictEqual(page.text("told"), "Dealt: 1, 2. Board 7: these are not four hands of thirteen cards.");
    fill(page, { "deal-text": `21 ${deal}\n22 ${deal}\n0 ${deal}\n` });
    assert.strictEqual(await sent(page, "deal", /Deal board 21\?The session has no boards 22, 0: left out\./), `/lines DEAL ${KEY} 21 ${deal}\n`);
    fill(page, { "deal-text": `36 ${deal}` });
    assert.deepStrictEqual(await page.click("deal"), []);
    assert.strictEqual(page.text("told"), "The session has no board 36: left out.");
    fill(page, { "deal-text": "nothing" });
    assert.deepStrictEqual(await page.click("deal"), []);
    assert.strictEqual(page.text("told"), "No deal was found in this text.");
  },

  "a file of deals is read into the text": async () => {
    const page = await openedAt("boards", tables(AT_PLAY));
    assert.strictEqual(page.text("file-has"), "No file is chosen.");
    for (const [text, has] of [["1 N:AKQJ.T98.765.432 432.AKQJ.T98.765 765.432.AKQJ.T98 T98.765.432.AKQJ", "tonight.pbn: 1 deal"], ["none", "tonight.pbn: 0 deals"]]) {
      page.at("deal-file").files = [{ name: "tonight.pbn", text: async () => text }];
      assert.deepStrictEqual(await page.asks(() => page.at("deal-file").onchange()), []);
      assert.deepStrictEqual([page.at("deal-text").value, page.text("file-has")], [text, has]);
    }
    page.at("deal-file").files = [];
    assert.deepStrictEqual(await page.asks(() => page.at("deal-file").onchange()), []);
  },

  "a ruling sends its play and what is ruled": async () => {
    const page = await openedPlay();
    const play = "round 2, table 2, board 6";
    const now = "Now: 3NT E, one down \\(\\+100 for N\u2013S\\)\\. Then: ";
    const names = "North Cat, East Eve, South Dan, West Fay\\.";
    fill(page, { "rule-tricks": "9" });
    page.at("rule-tricks").parent.onchange();
    assert.deepStrictEqual([page.text("tricks-then"), page.text("rule-set")], ["3 no trump, made (\u2212600 for N\u2013S)", "Set declarer's tricks to 9"]);
    assert.strictEqual(await sent(page, "rule-set", new RegExp(`Set declarer's tricks to 9, ${play}\\?${now}3 no trump, made \\(\u2212600 for N\u2013S\\)\\.${names}NoYes, set`), [PLAY]), `/lines TRICKS ${KEY} 2 2 3 9\n`);
    assert.strictEqual(page.text("told"), `Set declarer's tricks to 9, ${play}: done.`);
    assert.strictEqual(await sent(page, "rule-void", new RegExp(`Take the play out, ${play}\\?${now}taken out by the director\\.${names}NoYes, take out`), [PLAY]), `/lines VOID ${KEY} 2 2 3\n`);
    assert.strictEqual(await sent(page, "rule-restore", new RegExp(`Take the ruling back, ${play}\\?${now}as it was played\\.${names}`), [PLAY]), `/lines RESTORE ${KEY} 2 2 3\n`);
  },

  "averages are chosen for each side by one tap, and awarded once both are": async () => {
    const page = await openedPlay();
    const pressed = () => ["NS", "EW"].map((side) => ["60", "50", "40"].filter((per) => page.at(`per-${side}-${per}`).getAttribute("aria-pressed") === "true").join());
    assert.deepStrictEqual([pressed(), page.at("rule-average").disabled, page.at("per-NS-60").parent.getAttribute("aria-label")], [["", ""], true, "North and South, per cent"]);
    for (const [ns, ew] of [["60", "40"], ["40", "60"], ["50", "60"]]) {
      assert.deepStrictEqual([await page.click(`per-NS-${ns}`), await page.click(`per-EW-${ew}`)], [[], []]);
      assert.deepStrictEqual([pressed(), page.text("rule-average")], [[ns, ew], `Award ${ns} and ${ew} per cent`]);
      assert.strictEqual(await sent(page, "rule-average", new RegExp(`Award ${ns} and ${ew} per cent, round 2, table 2, board 6\\?Now: 3NT E, one down \\(\\+100 for N\u2013S\\). Then: average, ${ns}\u00a0% and ${ew}\u00a0%\\.`), [PLAY]), `/lines ADJUST ${KEY} 2 2 3 ${ns} ${ew}\n`);
    }
  },

  "what is chosen for a ruling stays while the play goes on, and not with another play": async () => {
    let told = played({ RESULT: "-" });
    const page = await opened(tables(AT_PLAY), "OK\n", (body) => (body.endsWith(" 2 2 3") ? told : played({ BOARD: "4 2 2 1 -" })));
    await page.click("open-2");
    assert.deepStrictEqual([page.at("rule-set").disabled, page.text("rule-set")], [true, "The play is not over yet"]);
    await page.click("per-NS-60");
    await page.click("back-more");
    told = played({ RESULT: "-", CARDS: "S H3 H4 H5 H6 D2 D3" });
    await page.look();
    assert.deepStrictEqual([page.at("per-NS-60").getAttribute("aria-pressed"), page.text("back-count"), page.text("opened-back")], ["true", "1", "Take back South's 3 of diamonds"]);
    await page.click("play-1");
    assert.strictEqual(page.at("per-NS-60").getAttribute("aria-pressed"), "false");
  },

  "a question holds the focus, is closed by Escape, and gives the focus back": async () => {
    const page = await opened(tables(DONE));
    page.at("end-round").focus();
    await page.click("end-round");
    const box = page.at("end-question");
    assert.deepStrictEqual([box.getAttribute("role"), box.getAttribute("aria-label"), page.document.activeElement.id], ["dialog", "End round 2?", "no"]);
    page.at("yes").focus();
    box.onkeydown({ key: "Tab", currentTarget: box, preventDefault() {} });
    assert.strictEqual(page.document.activeElement.id, "no");
    page.document.listeners.get("keydown")({ key: "Escape" });
    assert.deepStrictEqual([page.at("no"), page.document.activeElement.id], [null, "end-round"]);
  },

  "each ruling is folded together under its heading, but that which takes back": async () => {
    const page = await openedPlay();
    const folded = page.at("ruling").querySelectorAll("details");
    assert.deepStrictEqual(folded.map((one) => [one.nodes[0].tag, one.nodes[0].textContent, one.open]), [
      "Take back calls or cards", "Set the tricks", "Assign a score", "Average: 60, 50 or 40 per cent", "Take the play out", "Take a ruling back", "What can still be won"]
      .map((title, i) => ["summary", title, i === 0]));
    const within = ["opened-back", "rule-set", "rule-assign", "rule-average", "rule-void", "rule-restore", "solve"];
    assert.ok(folded.every((one, i) => one.contains(page.at(within[i]))));
  },

  "why a table calls stands on it, and how many call beside the tables": async () => {
    const page = await opened(tables(AT_PLAY), "OK\n", played(), "OK\nNOW 200 14400\nCALL 2 70 2 Dan Slow play\n.\n");
    assert.deepStrictEqual(page.rows(page.at("tables")).slice(1).map((row) => [row[4], row[6]]), [
      ["Auction, East to call", "Playing"], ["Slow playTrick 6, South to play", "Called"], ["Waits for its deal", "No deal"], ["Sits out", "Done"]]);
    assert.strictEqual(page.text("tab-tables"), "Tables 1");
  },

  "the director's menu has nothing of a player's": async () => {
    const page = await opened(tables(AT_PLAY));
    await page.click("menu");
    assert.deepStrictEqual(["menu-boards", "sent-once"].map((id) => page.at(id)), [null, null]);
    assert.ok(page.at("leave").isShown && page.at("suits-two").checked);
  },

  "a play that changed since it was looked at is not ruled on": async () => {
    const page = await openedPlay();
    assert.deepStrictEqual(await page.click("rule-void"), []);
    page.answer = (where) => (where === "/boards" ? played({ RESULT: "AVERAGE 60 40" }) : "OK\n");
    assert.deepStrictEqual(await page.click("yes"), [PLAY]);
    assert.match(page.text("told"), /has changed since/);
    await page.click("rule-void");
    page.answer = (where) => (where === "/boards" ? null : "OK\n");
    assert.deepStrictEqual(await page.click("yes"), [PLAY]);
    assert.strictEqual(page.text("told"), "No answer came.");
  },

  "a table is opened with its hands, its auction and its play": async () => {
    const page = await openedPlay();
    const hearts = ["3", "4", "5", "6"].map((rank) => "\u2665\ufe0e" + rank);
    assert.deepStrictEqual(page.rows(page.at("tricks")).slice(1), [["1", "S", ...hearts, "E"], ["2", "E", "\u2666\ufe0e2", "", "", "", ""]]);
    assert.ok(page.named("Auction").textContent.includes("Dan") && !page.text("opened").includes("You"));
    assert.deepStrictEqual(["rule-round", "rule-table"].map((id) => page.at(id).value), ["2", "2"]);
    assert.deepStrictEqual([page.text("below"), page.text("opened").slice(0, 14)], ["Ruling \u00b7 table 2, round 2", "3NT E, one dow"]);
    assert.ok(!page.at("on-rulings").hidden && page.at("on-tables").hidden);
    assert.deepStrictEqual(await page.look(), [...LOOKS, PLAY, `/boards ${KEY}`]);
    assert.strictEqual(page.document.activeElement.id, "play-3");
    assert.deepStrictEqual(await page.click("play-1"), [`/boards ${KEY} 2 2 1`, `/boards ${KEY} 2 2 2`, PLAY, `/boards ${KEY}`]);
    await page.click("opened-close");
    assert.deepStrictEqual([page.at("tricks"), page.at("ruling").hidden, page.text("below")], [null, true, "Round 2 of 7"]);
    assert.deepStrictEqual(await page.click("tab-tables"), LOOKS);
    assert.ok(page.at("on-rulings").hidden);
    const idle = await opened(tables(AT_PLAY), "OK\n", "ERR 8 NotYet\n");
    assert.deepStrictEqual(await idle.click("open-3"), [...[1, 2, 3].map((place) => `/boards ${KEY} 2 3 ${place}`), `/boards ${KEY}`]);
    assert.match(idle.text("told"), /round 2, table 3, board in place 1 of its set: that round has not begun/);
    assert.ok(idle.at("ruling").hidden);
  },

  "the play is chosen by a round, a table, and a tile for each board": async () => {
    const results = { 1: { RESULT: "ASSIGNED 4SX W 8 -500" }, 2: { CALLS: "1S PASS 2S PASS PASS DOUBLE".replace("DOUBLE", "X"), CARDS: "-", RESULT: "-" }, 3: { CALLS: "1H X 2H PASS 4H PASS PASS PASS", RESULT: "-" } };
    const page = await openedAt("rulings", tables(AT_PLAY), "OK\n", (body) => {
      const [, round, table, place] = body.split(" ").map(Number);
      if (!place) return "OK\nOTHERS SHUT\n.\n";
      return table === 3 ? "ERR 8 NotDealt\n" : played({ BOARD: `${3 * (table - 1) + place} ${round} ${table} ${place} -`, ...results[place] });
    });
    assert.deepStrictEqual(page.at("rule-round").nodes.map((option) => option.textContent), ["1", "2 (now)"]);
    assert.deepStrictEqual([page.at("rule-table").value, page.at("plays"), page.at("ruling").hidden], ["", null, true]);
    const choose = (id, value) => page.asks(() => { fill(page, { [id]: value }); page.at(id).parent.onchange(); });
    assert.deepStrictEqual(await choose("rule-round", "1"), []);
    const asks = (round, table, ...places) => [...places.map((place) => `/boards ${KEY} ${round} ${table} ${place}`), `/boards ${KEY}`];
    assert.deepStrictEqual(await choose("rule-table", "2"), asks(1, 2, 1, 2, 3));
    const tiles = () => page.at("plays").nodes.map((tile) => [tile.textContent, tile.getAttribute("aria-pressed")]);
    const spade = "\u2660\ufe0e";
    assert.deepStrictEqual(tiles(), [[`4 4${spade}X W (assigned), two down`, "true"], ["5 auction", "false"], ["6 4\u2665\ufe0e E, at play", "false"]]);
    // In the round at play it is the board that the table has.
    assert.deepStrictEqual(await choose("rule-round", "2"), asks(2, 2, 3, 1, 2));
    assert.deepStrictEqual(await page.click("play-2"), asks(2, 2, 2, 1, 3));
    assert.deepStrictEqual(tiles().map(([, pressed]) => pressed), ["false", "true", "false"]);
    assert.deepStrictEqual(await choose("rule-table", "3"), asks(2, 3, 1, 2, 3));
    assert.deepStrictEqual(tiles(), [["1st to deal", "true"], ["2nd to deal", "false"], ["3rd to deal", "false"]]);
  },

  "plays are chosen too once the session is closed": async () => {
    const page = await openedAt("rulings", tables([], 8));
    assert.deepStrictEqual([page.at("rule-round").value, page.at("rule-table").nodes.length], ["7", 13]);
    fill(page, { "rule-round": "2", "rule-table": "2" });
    assert.deepStrictEqual(await page.asks(() => page.at("rule-table").parent.onchange()), [`/boards ${KEY} 2 2 1`, `/boards ${KEY} 2 2 2`, PLAY, `/boards ${KEY}`]);
  },

  "rulings that stand are listed, and what others did is opened and shut": async () => {
    let others = "SHUT";
    const page = await opened(tables(AT_PLAY), "OK\n", (body) => {
      if (body.endsWith("OPEN")) others = "OPEN";
      return `OK\nOTHERS ${others}\nRULED 1 3 1 7 AVERAGE 60 40\nRULED 1 5 2 11 TRICKS 9\nRULED 2 1 1 4 VOID\n.\n`;
    });
    assert.deepStrictEqual(await page.click("tab-rulings"), RULED_LOOKS);
    assert.deepStrictEqual(page.at("ruled").nodes.map((node) => node.textContent), ["Round 1, table 3, board 7: 60 and 40 per cent Open", "Round 1, table 5, board 11: 9 tricks Open", "Round 2, table 1, board 4: taken out Open"]);
    await page.click("tab-evening");
    assert.ok(page.text("others").includes("hidden"));
    assert.deepStrictEqual(await page.click("others-turn"), [`/boards ${KEY} OPEN`, `/boards ${KEY}`]);
    assert.ok(page.text("others").includes("shown"));
  },

  "the latest claim, card or call of a play is taken back, if it is still the latest": async () => {
    for (const [other, latest, effect, turn] of [
      [{ CLAIM: "E 6" }, "East's claim of 6 tricks", "The claim falls, and play goes on.", "claim, play goes on"],
      [{}, "East's 2 of diamonds", "It goes back to the hand of East, and East is to play.", "card, back to East's turn in trick 2"],
      [{ CARDS: "S H3 H4" }, "West's 4 of hearts", "It goes back to dummy, West, and East is to play.", "card, back to West's turn in trick 1"],
      [{ CARDS: "-" }, "North's pass", "North is to call again.", "call, back to North's call"], [{ CARDS: "-", CALLS: "1C X" }, "South's double", "South is to call again.", "call, back to South's call"],
    ]) {
      const page = await openedPlay("OK\n", played(other));
      assert.deepStrictEqual([page.text("back-count"), page.text("back-to")], ["1", turn]);
      assert.deepStrictEqual(await page.click("opened-back"), []);
      assert.ok(page.text("rule-question").startsWith(
        `Take back ${latest}, table 2, board 6?${effect} All four are told.North Cat, East Eve, South Dan, West Fay.NoYes, take back`), page.text("rule-question"));
      assert.deepStrictEqual((await page.click("yes")).slice(0, 2), [PLAY, `/correct BACK ${KEY} 2 2 3\n`]);
      assert.strictEqual(page.text("told"), `Take back ${latest}, table 2, board 6: done.`);
      await page.click("opened-back");
      page.answer = (where) => (where === "/boards" ? played({ ...other, RESULT: "VOID" }) : "OK\n");
      assert.deepStrictEqual(await page.click("yes"), [PLAY]);
      assert.match(page.text("told"), /has changed since/);
    }
    const none = await openedPlay("OK\n", played({ CARDS: "-", CALLS: "" }));
    assert.ok(["opened-back", "back-less", "back-more"].every((id) => none.at(id).disabled));
    assert.strictEqual(none.text("opened-back"), "Nothing was done yet");
  },

  "several are taken back by a line each, and are struck before": async () => {
    const page = await openedPlay("OK\nOK\nERR 50 NothingToTakeBack\n");
    const struck = () => page.at("opened").querySelectorAll("td").filter((cell) => cell.className === "struck").map((cell) => cell.textContent);
    assert.deepStrictEqual(struck(), ["\u2666\ufe0e2"]);
    await page.click("back-more");
    await page.click("back-more");
    assert.deepStrictEqual([struck(), page.text("back-to")], [["\u2665\ufe0e5", "\u2665\ufe0e6", "\u2666\ufe0e2"], "cards, back to North's turn in trick 1"]);
    await page.click("opened-back");
    assert.ok(page.text("rule-question").startsWith("Take back 3 cards, table 2, board 6?North's 5 of hearts, East's 6 of hearts, East's 2 of diamonds. North is to play. All four are told."), page.text("rule-question"));
    assert.deepStrictEqual((await page.click("yes")).slice(0, 2), [PLAY, `/correct ${`BACK ${KEY} 2 2 3\n`.repeat(3)}`]);
    assert.strictEqual(page.text("told"), "Take back 3 cards, table 2, board 6: nothing was done yet that could be taken back.");
    for (let i = 0; i < 3; i += 1) await page.click("back-more");
    assert.deepStrictEqual([page.text("opened-back"), page.text("back-to")], ["Take back 5 cards and 1 call", "cards and call, back to North's call"]);
    assert.deepStrictEqual(struck().slice(0, 2), ["Pass", "\u2665\ufe0e3"]);
    await page.click("back-less");
    assert.strictEqual(page.text("back-count"), "5");
  },

  "a claim is told as what came of it": async () => {
    for (const [other, words] of [
      [{ CLAIM: "E 6", RESULT: "-" }, "East claims 6 tricks, and not all have answered."],
      [{ CLAIM: "E 6" }, "East claimed 6 tricks, and it was agreed."],
      [{ CLAIM: "E 1", RESULT: "VOID" }, "East claimed 1 trick."],
    ]) {
      const page = await openedPlay("OK\n", played(other));
      assert.ok(page.document.root.textContent.includes(words), words);
    }
  },

  "a slip that a table calls for is taken back": async () => {
    const page = await opened(tables(AT_PLAY), "OK\n", played(), "OK\nNOW 9 14400\nCALL 2 5 2 Dan I did not mean my last call or card\nCALL 1 7 8 Fay Claim\n.\n");
    assert.strictEqual(page.at("grant-1"), null);
    assert.deepStrictEqual(await page.click("grant-2"), OPENS);
    assert.match(page.text("rule-question"), /^Take back East's 2 of diamonds, table 2, board 6\?/);
    const then = await page.click("yes");
    const granted = then.indexOf(`/correct BACK ${KEY} 2 2 3\n`);
    assert.ok(granted >= 0 && then.indexOf(`/desk ${KEY} ANSWERED 2`) > granted, then.join());
    // What was refused leaves the call.
    page.answer = (where) => (where === "/boards" ? played() : where === "/tables" ? tables(AT_PLAY) : "ERR 5 WrongPhase\n");
    await page.click("grant-2");
    assert.ok(!(await page.click("yes")).some((one) => one.startsWith("/desk")));
  },

  "a score is assigned, and a deal is taken back": async () => {
    const page = await openedPlay();
    assert.deepStrictEqual(["assign-bid", "assign-doubled", "assign-declarer", "assign-tricks"].map((id) => page.at(id).value), ["3NT", "", "E", "8"]);
    fill(page, { "assign-bid": "4S", "assign-doubled": "X", "assign-declarer": "W" });
    page.at("assign-bid").parent.parent.onchange();
    assert.strictEqual(page.text("rule-assign"), "Assign +500 for N\u2013S");
    const became = "Now: 3NT E, one down \\(\\+100 for N\u2013S\\). Then: 4 spades doubled by West, two down \\(\\+500 for N\u2013S\\).";
    assert.strictEqual(await sent(page, "rule-assign", new RegExp(`Assign a score, round 2, table 2, board 6\\?${became}`), [PLAY]), `/correct ASSIGN ${KEY} 2 2 3 4SX W 8\n`);
    await page.click("tab-boards");
    fill(page, { "undeal-board": "7" });
    assert.strictEqual(await sent(page, "undeal", /Take back the deal of board 7\?/), `/correct UNDEAL ${KEY} 7\n`);
  },

  "a play without a contract is assigned one": async () => {
    const page = await openedPlay("OK\n", played({ CALLS: "", CARDS: "-", RESULT: "-" }));
    fill(page, { "assign-tricks": "7" });
    assert.strictEqual(await sent(page, "rule-assign", /Now: at play\. Then: 1 club by North, made \(\+70 for N\u2013S\)\./, [PLAY]), `/correct ASSIGN ${KEY} 2 2 3 1C N 7\n`);
  },

  "each refusal has its sentence": async () => {
    for (const [name, said] of Object.entries(SAID)) {
      const page = await openedPlay(`ERR 5 ${name}\n`);
      await sent(page, "rule-void", /Take the play out/, [PLAY]);
      assert.match(page.text("told"), said, name);
    }
  },

  "an ending is solved for both sides": async () => {
    const page = await openedPlay("OK 6 0\n");
    assert.strictEqual(page.at("solve-tricks").value, "7");
    fill(page, { "solve-tricks": "8" });
    assert.deepStrictEqual(await page.click("solve"), [`/lines SOLVE ${KEY} 2 2 3 32\n`]);
    assert.strictEqual(page.text("solved"), "Of the tricks left North and South can win 6, and East and West 0.");
  },

  "a table that calls is shown, opened and answered": async () => {
    const page = await opened(tables(AT_PLAY), "OK\nNOW 200 14400\n.\n", played(), "OK\nNOW 200 14400\nCALL 1 70 2 Dan Slow play\n.\n");
    assert.deepStrictEqual(page.waits.map((wait) => wait.body), [`${KEY}\n${tables(AT_PLAY)}CALL 1 70 2 Dan Slow play\n`]);
    assert.match(page.text("desk"), /^Table 1 calls: Slow play\. Dan.*pair 2, 2 minutes ago\./);
    assert.match((await page.click("go-1"))[0], new RegExp(`^/boards ${KEY} 2 1 \\d$`));
    assert.deepStrictEqual(await page.click("answered-1"), [`/desk ${KEY} ANSWERED 1`]);
  },

  "all tables are told, and the clock is set": async () => {
    const desks = [];
    const page = await opened(tables(AT_PLAY), () => desks.shift());
    const desk = async (id, answer) => {
      desks.push(`OK\nNOW 10 14400\n${answer}.\n`);
      return page.click(id);
    };
    const shown = () => ["clock-sets", "clock-runs", "take-down"].map((id) => page.at(id) !== null && page.at(id).isShown);
    assert.deepStrictEqual(shown(), [true, false, false]);
    fill(page, { "tell-text": "Tea after round 4", "clock-minutes": "0" });
    assert.deepStrictEqual(await page.click("clock-start"), []);
    fill(page, { "clock-minutes": "20" });
    assert.deepStrictEqual(await desk("tell-all", "NOTICE Tea after round 4\n"), [`/desk ${KEY} NOTICE Tea after round 4`]);
    assert.strictEqual(page.at("tell-text").value, "");
    assert.deepStrictEqual(await desk("clock-start", "NOTICE Tea after round 4\nCLOCK 1210\n"), [`/desk ${KEY} CLOCK 20`]);
    assert.deepStrictEqual(shown(), [false, true, true]);
    assert.strictEqual(page.text("clock-left"), "20:00");
    assert.deepStrictEqual(await desk("take-down", "CLOCK 1210\n"), [`/desk ${KEY} NOTICE`]);
    assert.deepStrictEqual(await desk("clock-more", "CLOCK 1330\n"), [`/desk ${KEY} CLOCK 22`]);
    assert.deepStrictEqual(await desk("clock-stop", ""), [`/desk ${KEY} CLOCK`]);
    assert.deepStrictEqual(shown(), [true, false, false]);
  },

  "the disk is named, and is nothing that is waited with": async () => {
    const page = await opened(tables(AT_PLAY), "OK\n", played(), "OK\nNOW 0 14400\nDISK tonight.disk\nKEPT 2 17\nNOTICE Tea\n.\n");
    assert.match(page.text("serving"), /^The pages close at /);
    assert.match(page.text("disks"), /^Disktonight\.diskIn orderSnapshot 2 and 17 actionsEach action is on it before it is answered\./);
    assert.deepStrictEqual(page.waits.map((wait) => wait.body), [`${KEY}\n${tables(AT_PLAY)}NOTICE Tea\n`]);
  },

  "a disk that is lost is told above the page": async () => {
    const named = (name) => opened(tables(AT_PLAY), "OK\n", played(), `OK\nNOW 0 14400\nDISK ${name}\nKEPT 5 0\nKEPT 3 17\n.\n`);
    assert.strictEqual((await named("a.disk and b.disk")).at("lost-disk"), null);
    assert.strictEqual((await named("b.disk alone, a.disk is lost")).text("lost-disk"), "A disk has failed: b.disk alone, a.disk is lost. The evening goes on.");
    const tiles = async (name) => (await named(name)).at("disks").nodes[0].nodes.map((tile) => tile.nodes.slice(0, 4).map((node) => node.textContent).join(" "));
    assert.deepStrictEqual(await tiles("a.disk and b.disk"), ["First disk a.disk Level Snapshot 5", "Second disk b.disk Level Snapshot 3 and 17 actions"]);
    assert.deepStrictEqual(await tiles("b.disk alone, a.disk is lost"), ["Disk b.disk In order Snapshot 5", "Disk a.disk Lost Lost at snapshot 3 and 17 actions"]);
  },

  "each field stands under its heading": async () => {
    const ranks = { 1: "OK\n1 2 6.0/8.0 75.00\n2 1 2.0/8.0 25.00\n.\n", 2: "OK\n1 8 3.0/8.0 37.50\n2 7 1.0/8.0 12.50\n.\n" };
    const page = await opened(tables(AT_PLAY), (where, body) => (where === "/results" ? "Pair 2: Cy and Di\n" : ranks[body.trim().split(" ")[2]]));
    await page.click("tab-standings");
    assert.deepStrictEqual(await page.click("rank"), RANKS);
    const shown = page.at("rankings").nodes;
    assert.deepStrictEqual(shown.filter((node) => node.tag === "h2").map((node) => node.textContent), ["Ranking, pairs 1 to 2", "Ranking, pairs 7 to 8"]);
    assert.deepStrictEqual(shown.filter((node) => node.tag === "table").map((table) => page.rows(table)[1].slice(1, 3)), [["2", "Cy and Di"], ["8", ""]]);
    assert.strictEqual(shown[shown.indexOf(page.named("Places of pairs 1 to 2")) - 1].textContent, "Ranking, pairs 1 to 2");
  },

  "one field is the ranking": async () => {
    const page = await opened(tables(AT_PLAY), (where, body) => (where === "/results" ? "" : body.endsWith(" 1\n") ? "OK\n1 2 6.0/8.0 75.00\n.\n" : "ERR 4 NoSuchPlay\n"));
    await page.click("tab-standings");
    await page.click("rank");
    assert.deepStrictEqual(page.at("rankings").nodes.filter((node) => node.tag === "h2").map((node) => node.textContent), ["Ranking"]);
    assert.deepStrictEqual(page.rows(page.named("Places of all pairs"))[1], ["1", "2", "6.0/8.0", "75.00"]);
    const first = await opened(tables(AT_PLAY), (where, body) => (where === "/results" ? "" : body.endsWith(" 1\n") ? "OK\n1 1 0.0/0.0 -\n1 2 0.0/0.0 -\n.\n" : "ERR 4 NoSuchPlay\n"));
    await first.click("tab-standings");
    await first.click("rank");
    assert.match(first.text("rankings"), /No results yet\.$/);
  },

  "results are shown, and printed": async () => {
    const page = await openedAt("evening", tables(AT_PLAY), "Club-Night\n");
    assert.deepStrictEqual(await page.click("show-results"), [`/results ${KEY}`]);
    assert.strictEqual(page.text("results"), "Club-Night\n");
    await page.click("print");
    assert.strictEqual(page.printed, 1);
  },

  "lines are sent with the key": async () => {
    const page = await openedAt("evening", tables(AT_PLAY), "OK\nERR 4 NoSuchPlay\n");
    fill(page, { box: " SYNC\n\nVOID 1 1 1 \n" });
    assert.deepStrictEqual(await page.click("send"), [`/lines SYNC\nVOID ${KEY} 1 1 1\n`]);
    assert.strictEqual(page.text("replies"), "OK\nERR 4 NoSuchPlay\n");
  },

  "no answer says so, and nothing is sent beside what is out": async () => {
    const page = await openedAt("boards", tables(AT_PLAY), null);
    fill(page, { "shuffle-first": "1", "shuffle-last": "1" });
    await page.click("shuffle");
    assert.deepStrictEqual((await page.click("yes")).length, 1);
    assert.match(page.text("told"), /No answer came/);
    let release;
    page.answer = () => new Promise((resolve) => { release = () => resolve("OK\n"); });
    await page.click("shuffle");
    assert.deepStrictEqual((await page.click("yes")).length, 1);
    await page.click("shuffle");
    assert.deepStrictEqual(await page.click("yes"), []);
    assert.match(page.text("told"), /still waited for/);
    release();
    await page.settle();
  },
});
