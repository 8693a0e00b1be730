"use strict";
// The players' page: each click sends its line and no other, and each reply shows what it says.
const assert = require("node:assert");
const { Page, run } = require("./page.js");

const KEY = "31007";
const SEATS = ["N", "E", "S", "W"];
const STRAINS = ["C", "D", "H", "S", "NT"];
const BIDS = [1, 2, 3, 4, 5, 6, 7].flatMap((level) => STRAINS.map((strain) => level + strain));
// What a sentence for each refusal speaks of.
const SAID = {
  NoKey: /nobody/i, NotAllowed: /not yours/, Closed: /closed/, SitsOut: /sit out/, NotCurrent: /not being played/, NotDealt: /not dealt/,
  WrongPhase: /not possible/, Stale: /came first/, NoClaim: /no claim/i, ClaimStands: /claim stands/, NotAsked: /does not ask/,
  NotYourTurn: /not your turn/, MidTrick: /between tricks/, TooManyTricks: /not so many tricks/, InsufficientBid: /not sufficient/,
  InadmissibleDouble: /may double/, InadmissibleRedouble: /may redouble/, NotHeld: /not in the hand/, MustFollow: /follow suit/,
  ClaimsSpent: /no more claims/i, Disk: /disk has failed/, EpochsSpent: /used up/, BadLine: /cannot be read/,
};

const reply = (lines) => ["OK", ...Object.entries(lines).map(([word, rest]) => (rest === "" ? word : `${word} ${rest}`)), ".", ""].join("\n");

// The place of South at table 2, and what is told of it otherwise.
const place = (other = {}) => reply({ ROUND: "1 3", PLAYER: "2 Dan", TABLE: "2 S 4 6", NAMES: "Cat Eve Dan Fay", CONTRACT: "-", ANSWER: "-", NEXT: "1 W 7 9", ...other });

// What South sees in the auction, in turn, and otherwise.
const view = (other = {}) => reply({
  PLAY: "1 2 1 4", SEAT: "S", DEALER: "N VUL EW", PHASE: "AUCTION", TURN: "S", AT: "2 0 0", HAND: "AK2.QJ3.T98.7654", DUMMY: "-", CALLS: "PASS PASS",
  TRICK: "-", LAST: "-", TRICKS: "0 0", CLAIM: "-", ...other,
});

// What South sees in the play of a contract, on lead, and otherwise.
const play = (other = {}) => view({ PHASE: "PLAY", AT: "7 0 0", CALLS: "PASS PASS 1H PASS 2S PASS PASS", ...other });

// A board that South's pair has played, and otherwise.
const board = (other = {}) => Object.entries({
  BOARD: "4 1 2 1 NS", NAMES: "Cat Eve Dan Fay", DEAL: "W:T84.T943.J852.A3 K73.AK652.A.Q652 J652.Q8.QT976.K4 AQ9.J7.K43.JT987", CALLS: "PASS 1H PASS 3NT PASS PASS PASS",
  CARDS: "W D2 DA D6 D3 C2 C4 CJ CA D5", CLAIM: "N 9", RESULT: "3NT S 9 600", ...other,
}).map(([word, rest]) => (rest === "" ? word : `${word} ${rest}`)).join("\n");
const boards = (...some) => ["OK", "OTHERS SHUT", ...some, ".", ""].join("\n");

// A page at which a player has logged in; what is done is answered so, and then the same is seen.
async function seated(placed, seen, done = "OK\n", over = boards(), stands = undefined, people = undefined) {
  const page = new Page((where, body) => {
    if (where === "/place") return placed;
    if (where === "/boards") return over;
    return body.startsWith("SEE ") ? seen : done;
  }, { key: KEY }, people);
  if (stands) page.stands = stands;
  await page.settle();
  assert.deepStrictEqual(page.asked, [...FIRST, `/boards ${KEY}`]);
  return page;
}

// What a look asks for; what each line is followed by.
// What is asked at the first look, and at later ones.
const FIRST = [`/place ${KEY}`, `/lines SEE ${KEY}\n`];
const LOOKS = [`/lines SEE ${KEY}\n`, `/place ${KEY}`];
const THEN = `SEE ${KEY}\n`;

// The line that is sent at a click; a look follows it.
async function sent(page, id) {
  const [first, ...rest] = await page.click(id);
  assert.deepStrictEqual(rest, LOOKS);
  assert.ok(first.endsWith(THEN));
  return first.slice(0, -THEN.length);
}

const enabled = (page, prefix) => page.document.root.all().filter((element) => element.id.startsWith(prefix) && !element.disabled).map((element) => element.id.slice(prefix.length));

run({
  "a key is asked for, and sent in a body": async () => {
    const page = new Page(() => "ERR 1 NoKey\n");
    await page.settle();
    assert.deepStrictEqual(page.asked, []);
    assert.ok(page.at("menu").hidden);
    page.at("key").value = " 31007 ";
    const form = page.document.root.all().find((element) => element.tag === "form");
    assert.deepStrictEqual(await page.asks(() => form.onsubmit({ preventDefault() {} })), ["/place 31007"]);
    assert.match(page.text("wrong"), /nobody/i);
    assert.strictEqual(page.at("key").getAttribute("aria-invalid"), "true");
    assert.deepStrictEqual([...page.kept], []);
  },

  "before a key is known colours are chosen, and nothing of a player's": async () => {
    const page = new Page(() => "ERR 1 NoKey\n");
    await page.settle();
    assert.deepStrictEqual(await page.click("colours"), []);
    assert.deepStrictEqual(["choices", "leave", "menu-boards", "sent-once"].map((id) => page.at(id) && page.at(id).isShown), [true, false, null, null]);
    page.at("suits-four").onchange();
    assert.strictEqual(page.document.documentElement.className, "four device");
    await page.click("chosen");
    assert.ok(page.at("choices").hidden && page.document.activeElement.id === "colours");
  },

  "Leave forgets the key": async () => {
    const page = await seated(place(), view());
    assert.deepStrictEqual([...page.kept], [["key", KEY]]);
    await page.click("menu");
    assert.deepStrictEqual(await page.click("leave"), []);
    assert.deepStrictEqual([...page.kept], [["key", KEY]]);
    assert.strictEqual(page.text("leave"), "Really leave?");
    page.now += 4000;
    await page.click("leave");
    assert.deepStrictEqual([...page.kept], [["key", KEY]]);
    assert.deepStrictEqual(await page.click("leave"), []);
    assert.deepStrictEqual([...page.kept], []);
    assert.ok(page.document.activeElement === page.at("key") && !page.named("Auction"));
  },

  "an answer that comes after Leave is not shown": async () => {
    let release;
    const page = new Page(() => new Promise((resolve) => { release = () => resolve(place()); }), { key: KEY });
    await page.settle();
    page.at("choices").hidden = false;
    page.at("leave").click();
    page.at("leave").click();
    release();
    await page.settle();
    assert.deepStrictEqual(page.asked, [`/place ${KEY}`]);
    assert.deepStrictEqual([...page.kept], []);
    assert.ok(page.at("key"));
  },

  "each call sends its line, and doubles and bids of six or seven once they are confirmed": async () => {
    const marked = async (page, call) => {
      assert.deepStrictEqual(await page.click(`call-${call}`), []);
      assert.deepStrictEqual(await page.click(`call-${call}`, 249), [], "a second click that is too soon");
      assert.strictEqual(await sent(page, "confirm"), `/lines CALL ${KEY} 4 2 ${call}\n`);
    };
    for (const call of ["PASS", ...BIDS]) {
      const page = await seated(place(), view());
      if (/^[67]/.test(call)) await marked(page, call);
      else assert.strictEqual(await sent(page, `call-${call}`), `/lines CALL ${KEY} 4 2 ${call}\n`);
    }
    const doubled = { AT: "2 0 0", CALLS: "1H PASS" };
    await marked(await seated(place(), view({ ...doubled, CALLS: "PASS 1H" })), "X");
    await marked(await seated(place(), view({ ...doubled, CALLS: "1H X" })), "XX");
  },

  "only calls that are legal can be clicked": async () => {
    for (const [calls, due] of [
      ["PASS PASS", ["PASS", ...BIDS]],
      ["1H PASS", ["PASS", ...BIDS.slice(3)]],
      ["PASS 1H", ["PASS", "X", ...BIDS.slice(3)]],
      ["1H X", ["PASS", "XX", ...BIDS.slice(3)]],
      ["PASS 7NT", ["PASS", "X"]],
    ]) {
      assert.deepStrictEqual(enabled(await seated(place(), view({ CALLS: calls })), "call-"), due, calls);
    }
    assert.deepStrictEqual(enabled(await seated(place(), view({ TURN: "W" })), "call-"), []);
  },

  "the auction stands under who called": async () => {
    const page = await seated(place(), view({ DEALER: "E VUL None", CALLS: "1C X PASS 2NT XX" }));
    assert.deepStrictEqual(page.rows(page.named("Auction")), [["WFay", "NCat", "E dealsEve", "SYou"], ["", "", "1\u2663\ufe0e", "X"], ["Pass", "2NT", "XX", "?"], ["", "", "", ""]]);
    assert.strictEqual(page.named("to call").textContent, "?");
  },

  "each card sends its line": async () => {
    const cards = ["SA", "SK", "S2", "HQ", "HJ", "H3", "C7", "C6", "C5", "C4", "DT", "D9", "D8"];
    const lead = place({ CONTRACT: "1H E" });
    assert.deepStrictEqual(enabled(await seated(lead, play()), "card-"), cards);
    for (const card of cards) {
      assert.strictEqual(await sent(await seated(lead, play()), `card-${card}`), `/lines CARD ${KEY} 4 0 ${card}\n`);
    }
    const led = play({ AT: "7 2 0", TRICK: "E H7 H9", DUMMY: "5.A4.K2.KQJ" });
    assert.deepStrictEqual(enabled(await seated(lead, led), "card-"), ["HQ", "HJ", "H3"]);
  },

  "declarer plays dummy's cards, and dummy none": async () => {
    const seen = { AT: "7 9 0", TURN: "N", TRICK: "W D7", DUMMY: "QJ.A.K2.Q" };
    const page = await seated(place({ CONTRACT: "2H S" }), play(seen));
    assert.deepStrictEqual(enabled(page, "card-"), ["DK", "D2"]);
    assert.strictEqual(await sent(page, "card-DK"), `/lines CARD ${KEY} 4 9 DK\n`);
    const dummy = await seated(place({ CONTRACT: "2H N" }), play({ ...seen, TURN: "S" }));
    assert.deepStrictEqual(enabled(dummy, "card-"), []);
    assert.ok(dummy.named("Your hand, which is dummy"));
  },

  "a claim sends the tricks that its side wins": async () => {
    for (const [tricks, comes] of [["0", "1 heart, four over"], ["3", "1 heart, one over"], ["8", "1 heart, four down"]]) {
      const page = await seated(place({ CONTRACT: "1H E" }), play({ AT: "7 20 1", TRICKS: "2 3", HAND: "AK.QJ3.T98." }));
      assert.deepStrictEqual(await page.click("claim-open"), []);
      assert.strictEqual(page.text("claim-button"), "Claim 8 tricks");
      assert.strictEqual(page.at("claim-9"), null);
      assert.deepStrictEqual(await page.click(`claim-${tricks}`), []);
      assert.ok(page.text("claiming").includes(comes.replace("four over", "4 over").replace("four down", "4 down")), page.text("claiming"));
      assert.strictEqual(await sent(page, "claim-button"), `/lines CLAIM ${KEY} 4 1 ${tricks}\n`);
    }
    const page = await seated(place({ CONTRACT: "1H E" }), play({ AT: "7 20 0", TRICKS: "2 3" }));
    await page.click("claim-open");
    assert.deepStrictEqual(await page.click("claim-back"), []);
    assert.strictEqual(page.at("claiming"), null);
    assert.ok((await seated(place({ CONTRACT: "1H E" }), play({ AT: "7 5 0", TRICK: "E H7" }))).at("claim-open").disabled);
    assert.ok((await seated(place({ CONTRACT: "1H E" }), play())).at("claim-open").disabled, "before the lead");
    assert.ok((await seated(place({ CONTRACT: "1H N" }), play())).at("claim-open").hidden);
  },

  "a claim says what it comes to, as the score table has it": async () => {
    for (const [bid, vulnerable, has, comes] of [["3NT", "None", "9", "400"], ["4HX", "NS", "10", "790"], ["6SXX", "None", "13", "1820"], ["1C", "NS", "7", "70"], ["2DX", "None", "8", "180"],
      ["7NT", "NS", "13", "2220"], ["4S", "None", "8", "\u2212100"], ["4SX", "None", "6", "\u2212800"], ["4SX", "NS", "8", "\u2212500"], ["4SXX", "NS", "9", "\u2212400"]]) {
      const seen = play({ DEALER: `N VUL ${vulnerable}`, TURN: "W", AT: "7 0 0", TRICKS: `0 ${13 - Number(has)}`, CLAIM: `E 0` });
      const page = await seated(place({ CONTRACT: `${bid} S`, ANSWER: "DUE" }), seen);
      assert.ok(page.text("dock").includes(`: ${comes.startsWith("\u2212") ? "" : "+"}${comes} for you`), `${bid} with ${has}: ${page.text("dock")}`);
    }
  },

  "Agree agrees, and Refuse refuses": async () => {
    for (const [id, word] of [["agree", "AGREE"], ["refuse", "REFUSE"]]) {
      const page = await seated(place({ CONTRACT: "1H E", ANSWER: "DUE" }), play({ AT: "7 20 1", CLAIM: "E 5" }));
      assert.strictEqual(page.text("status"), "Your answer is waited for");
      assert.ok(page.text("dock").startsWith("East claims 5 of the 13 tricks left. "), page.text("dock"));
      assert.strictEqual(page.text(id).toUpperCase(), word);
      if (id === "refuse") {
        assert.deepStrictEqual(await page.click(id), []);
        assert.strictEqual(page.text(id), "Really refuse?");
        assert.deepStrictEqual(await page.click(id, 249), [], "a second click that is too soon");
        page.document.listeners.get("keydown")({ key: "Escape" });
        assert.strictEqual(page.text(id), "Refuse");
        await page.click(id);
      }
      const [asks, lines] = id === "refuse" ? [await page.click(id), `/desk ${KEY} REFUSAL`] : [[await sent(page, id)], `/lines ${word} ${KEY} 4 1\n`];
      assert.strictEqual(asks[0], lines);
      if (id === "refuse") assert.ok(asks[1].startsWith(`/lines ${word} ${KEY} 4 1\n`), asks[1]);
    }
    const page = await seated(place({ CONTRACT: "1H E" }), play({ CLAIM: "S 5" }));
    assert.strictEqual(page.at("agree"), null);
    assert.strictEqual(page.text("status"), "You claim 5 of 13. East is asked.", "a defender's claim");
    const agreed = (contract, claim) => seated(place({ CONTRACT: contract }), play({ AT: "7 20 1", CLAIM: claim }));
    assert.strictEqual((await agreed("1H E", "E 5")).text("status"), "You agreed: East has 5 of 13. North is asked.");
    assert.strictEqual((await agreed("1H N", "N 5")).text("status"), "North claims 5 of 13. East and West are asked.", "dummy is not asked");
    assert.strictEqual((await agreed("1H E", "N 5")).text("status"), "North claims 5 of 13. East is asked.", "a defender's claim asks declarer alone");
  },

  "the table shows what is seen": async () => {
    const page = await seated(place({ CONTRACT: "4SX W" }), play({ TURN: "N", AT: "9 6 0", TRICK: "W ST H2", LAST: "W CA C2 C3 C4", TRICKS: "1 0", DUMMY: "-" }));
    assert.strictEqual(page.text("title"), "Board 4");
    assert.strictEqual(page.text("below"), "N deals \u00b7 E\u2013W vul \u00b7 Table 2 \u00b7 Round 1 of 3 \u00b7 1st of 3 boards");
    assert.strictEqual(page.at("chip").getAttribute("aria-label"), "Board 4, dealer North, East and West vulnerable");
    assert.strictEqual(page.at("chip").className, "vul-they deals-top");
    assert.ok(page.text("strip").includes("4\u2660\ufe0eXW \u00b7 we need 4"), page.text("strip"));
    assert.ok(page.named("Tricks: we 1, they 0"));
    assert.strictEqual(page.named("West: 10 of spades").textContent, "10\u2660\ufe0e");
    assert.strictEqual(page.named("North: 2 of hearts").textContent, "2\u2665\ufe0e");
    assert.strictEqual(page.named("West: 10 of spades").className, "played left");
    assert.ok(page.text("side").includes("W A\u2663\ufe0eN 2\u2663\ufe0eE 3\u2663\ufe0eS 4\u2663\ufe0e".replace(/(.)\u2663\ufe0e/g, "\u2663\ufe0e$1")), page.text("side"));
    assert.strictEqual(page.text("status"), "North is to play.");
    const hand = page.named("Your hand, South").querySelectorAll("button").map((card) => card.getAttribute("aria-label"));
    assert.deepStrictEqual(hand.slice(0, 4), ["ace of spades", "king of spades", "2 of spades", "queen of hearts"]);
    assert.strictEqual(page.document.title, "Bridge table");
  },

  "a whole trick stays with its winner marked until the next card": async () => {
    const page = await seated(place({ CONTRACT: "4S W" }), play({ TURN: "N", AT: "9 4 0", LAST: "W CA C2 C3 C4", TRICKS: "1 0" }));
    assert.strictEqual(page.named("North: 2 of clubs").className, "played top club won");
    assert.strictEqual(page.named("West: ace of clubs").className, "played left club");
    await page.click("last");
    assert.ok(page.at("last-trick"));
    await page.click("last-close");
    assert.strictEqual(page.at("last-trick"), null);
  },

  "the last trick is looked at with its winner marked, a trump too": async () => {
    for (const [bid, winner, name] of [["4S W", "North", "2 of spades"], ["3NT W", "West", "ace of clubs"]]) {
      const page = await seated(place({ CONTRACT: bid }), play({ TURN: "E", AT: "9 5 0", TRICK: "N D5", LAST: "W CA S2 C3 C4", TRICKS: "1 0" }));
      await page.click("last");
      const sheet = page.at("last-trick");
      assert.strictEqual(sheet.querySelectorAll("h2")[0].textContent, `Last trick, won by ${winner}`);
      assert.deepStrictEqual(sheet.all().filter((one) => one.className.endsWith(" won")).map((one) => one.getAttribute("aria-label")), [`${winner}: ${name}`]);
      assert.ok(page.text("side").includes(`Last trick, won by ${winner}`));
    }
  },

  "beside the table stands what the contract still needs, and which board comes next": async () => {
    for (const [contract, tricks, due] of [
      ["4S S", "7 2", "by South, you10 tricks needed: 3 to go"], ["4S N", "10 0", "by North10 tricks needed: made"], ["4S E", "3 4", "by EastWe need 4 to beat it: 1 to go"],
      ["4S E", "4 2", "by EastWe need 4 to beat it: it is down"]]) {
      const page = await seated(place({ CONTRACT: contract }), play({ AT: "9 40 0", TRICKS: tricks }));
      assert.ok(page.text("side").includes(due), page.text("side"));
      assert.ok(page.text("side").endsWith("This round4now5next6later"), page.text("side"));
    }
  },

  "where two taps send, the first marks": async () => {
    const twice = async (seen, placed = place()) => {
      const page = new Page((where, body) => (where === "/place" ? placed : where === "/boards" ? boards() : body.startsWith("SEE ") ? seen : "OK\n"), { key: KEY, sent: "twice" });
      await page.settle();
      return page;
    };
    let page = await twice(view());
    assert.deepStrictEqual(await page.click("call-1H"), []);
    assert.strictEqual(page.at("call-1H").getAttribute("aria-pressed"), "true");
    assert.deepStrictEqual(await page.click("call-1H", 249), [], "a second tap that is too soon");
    assert.deepStrictEqual(await page.click("call-2C", 0), []);
    assert.strictEqual(page.at("call-1H").getAttribute("aria-pressed"), "false");
    assert.deepStrictEqual(await page.click("confirm", 249), [], "a tap on the button that is too soon");
    assert.deepStrictEqual((await page.click("call-2C", 1))[0], `/lines CALL ${KEY} 4 2 2C\n${THEN}`);
    page = await twice(play(), place({ CONTRACT: "1H E" }));
    assert.ok(page.at("confirm").disabled);
    assert.deepStrictEqual(await page.click("card-HQ"), []);
    page.document.listeners.get("keydown")({ key: "Escape" });
    assert.strictEqual(page.at("card-HQ").getAttribute("aria-pressed"), "false");
    await page.click("card-HQ");
    page.at("stage").onclick({ target: page.named("West") });
    assert.strictEqual(page.at("card-HQ").getAttribute("aria-pressed"), "false", "a tap on the felt");
    assert.deepStrictEqual(await page.click("card-HJ"), []);
    page.at("stage").onclick({ target: page.at("card-HJ") });
    assert.strictEqual(page.at("card-HJ").getAttribute("aria-pressed"), "true", "a tap on a card");
    assert.deepStrictEqual((await page.click("confirm"))[0], `/lines CARD ${KEY} 4 0 HJ\n${THEN}`);
    await page.click("menu");
    assert.ok(page.at("sent-twice").checked && page.at("suits-two").checked && page.at("light-device").checked);
    page.at("sent-once").onchange();
    page.at("suits-four").onchange();
    page.at("light-dark").onchange();
    assert.deepStrictEqual([page.kept.get("sent"), page.kept.get("suits"), page.kept.get("light")], ["once", "four", "dark"]);
    assert.strictEqual(page.document.documentElement.className, "four dark");
    await page.click("chosen");
    assert.ok(page.at("choices").hidden);
  },

  "a tap or a click counts for nothing just after the table has moved, and a key does": async () => {
    const page = await seated(place(), view());
    assert.deepStrictEqual(await page.click("call-1H", 399), []);
    assert.deepStrictEqual((await page.click("call-1H", 1))[0], `/lines CALL ${KEY} 4 2 1H\n${THEN}`);
    assert.deepStrictEqual((await page.asks(() => page.at("call-1H").click()))[0], `/lines CALL ${KEY} 4 2 1H\n${THEN}`);
    // The second click of two that wins a trick leads nothing.
    const lead = { AT: "7 4 0", LAST: "E H2 HQ H3 H4", TRICKS: "1 0" };
    const play4 = await seated(place({ CONTRACT: "1H E" }), play({ AT: "7 1 0", TRICK: "E H2" }), "OK\n" + play(lead));
    play4.answer = (where, body) => (where === "/place" ? place({ CONTRACT: "1H E" }) : body.startsWith("CARD ") ? "OK\n" + play(lead) : play(lead));
    assert.strictEqual((await play4.click("card-HQ"))[0], `/lines CARD ${KEY} 4 1 HQ\n${THEN}`);
    assert.deepStrictEqual(await play4.click("card-HJ", 150), []);
    assert.strictEqual((await play4.click("card-HJ", 250))[0], `/lines CARD ${KEY} 4 4 HJ\n${THEN}`);
  },

  "of a claim the number may be chosen and sent at once, and not the sheet that has just come": async () => {
    const page = await seated(place({ CONTRACT: "1H E" }), play({ AT: "7 20 1", TRICKS: "2 3" }));
    await page.click("claim-open");
    assert.deepStrictEqual(await page.click("claim-button", 399), []);
    await page.click("claim-3", 1);
    assert.strictEqual((await page.click("claim-button", 0))[0], `/lines CLAIM ${KEY} 4 1 3\n${THEN}`);
  },

  "a key that is held down presses a button once": async () => {
    const page = await seated(place(), view());
    const prevented = (repeat, tagName) => {
      let stopped = false;
      page.listeners.get("keydown")({ key: "Enter", repeat, target: { tagName }, preventDefault: () => { stopped = true; } });
      return stopped;
    };
    assert.deepStrictEqual([prevented(false, "BUTTON"), prevented(true, "BUTTON"), prevented(true, "TEXTAREA")], [false, true, false]);
  },

  "the last card plays itself": async () => {
    const page = await seated(place({ CONTRACT: "1H E" }), play({ AT: "7 50 0", HAND: "..A.", TRICK: "N D2 D3", TRICKS: "6 6" }));
    assert.deepStrictEqual((await page.pass(700))[0], `/lines CARD ${KEY} 4 50 DA\n${THEN}`);
  },

  "what comes is said": async () => {
    const page = await seated(place(), view({ TURN: "E", CALLS: "PASS" }));
    assert.strictEqual(page.text("heard"), "Board 4");
    page.answer = (where) => (where === "/place" ? place() : view());
    await page.look();
    assert.strictEqual(page.text("heard"), "East: pass");
    assert.ok(page.document.title.includes("Your turn"));
    page.answer = (where) => (where === "/place" ? place({ CONTRACT: "1H E" }) : play({ AT: "7 0 0" }));
    await page.look();
    page.answer = (where) => (where === "/place" ? place({ CONTRACT: "1H E" }) : play({ AT: "7 4 0", LAST: "S HQ H2 H3 H4", TRICKS: "1 0" }));
    await page.look();
    assert.strictEqual(page.text("heard"), "South: queen of hearts. West: 2 of hearts. North: 3 of hearts. East: 4 of hearts. Trick to South");
  },

  "the page waits for news of what it was told, and looks where there is some": async () => {
    const seen = view({ TURN: "W" });
    const page = await seated(place(), seen, "OK\n", boards(), "OK\nNOW 7 14400\nNOTICE Tea\nCLOCK 90\n.\n");
    const text = `${KEY}\n${place()}${seen}NOTICE Tea\nCLOCK 90\n`;
    assert.deepStrictEqual(page.waits.map((wait) => wait.body), [text]);
    page.stands = "OK\nNOW 8 14400\nNOTICE Tea\nCLOCK 90\n.\n";
    assert.deepStrictEqual(await page.asks(page.listeners.get("online")), LOOKS);
    assert.deepStrictEqual(page.waits.map((wait) => wait.body), [text]);
    page.answer = (where) => (where === "/place" ? place() : view());
    assert.deepStrictEqual(await page.news(), LOOKS);
    assert.strictEqual(page.text("status"), "Your turn to call");
    assert.deepStrictEqual(page.waits.map((wait) => wait.body), [`${KEY}\n${place()}${view()}NOTICE Tea\nCLOCK 90\n`]);
  },

  "what others do on the board is shown before the place is told": async () => {
    const page = await seated(place(), view({ TURN: "W", AT: "1 0 0", CALLS: "PASS" }));
    page.answer = (where) => (where === "/place" ? new Promise(() => {}) : view());
    assert.deepStrictEqual(await page.news(), LOOKS);
    assert.strictEqual(page.text("status"), "Your turn to call");
  },

  "where news cannot be waited for the page looks every second": async () => {
    const page = await seated(place(), view());
    assert.deepStrictEqual(await page.news(null), []);
    assert.deepStrictEqual(await page.pass(1000), LOOKS);
    page.waits.pop().release("OK\n");
    await page.settle();
    assert.deepStrictEqual(await page.pass(1000), LOOKS);
  },

  "where no look has an answer the page looks again after longer and longer": async () => {
    const page = await seated(place(), view());
    page.answer = () => null;
    await page.news();
    for (const wait of [500, 1000, 2000, 4000, 8000, 8000]) assert.deepStrictEqual(await page.pass(wait), LOOKS, wait);
    assert.match(page.text("status"), /does not answer/);
    page.answer = (where) => (where === "/place" ? place() : where === "/boards" ? boards() : view());
    await page.pass(8000);
    assert.strictEqual(page.text("status"), "Your turn to call");
    assert.strictEqual(page.waits.length, 1);
  },

  "what a call makes of the table is shown by its answer": async () => {
    const page = await seated(place(), view(), "OK\n" + view({ AT: "3 0 0", TURN: "W", CALLS: "PASS PASS 1C" }));
    page.answerTo = (where, body) => (body.startsWith("CALL") ? page.answer(where, body) : new Promise(() => {}));
    page.at("call-1C").click();
    await page.settle();
    assert.strictEqual(page.text("status"), "West is to call.");
  },

  "in the box keys choose": async () => {
    const page = await seated(place(), view());
    const press = (key) => page.asks(() => page.at("dock").onkeydown({ key, currentTarget: page.at("dock"), preventDefault() {} }));
    assert.deepStrictEqual(await press("3"), []);
    assert.deepStrictEqual((await press("n"))[0], `/lines CALL ${KEY} 4 2 3NT\n${THEN}`);
    assert.deepStrictEqual((await press("p"))[0], `/lines CALL ${KEY} 4 2 PASS\n${THEN}`);
    assert.deepStrictEqual(await press("x"), []);
  },

  "in a hand keys choose, and arrows go through what may be chosen": async () => {
    const page = await seated(place({ CONTRACT: "1H E" }), play());
    const press = (key) => page.asks(() => page.at("hand").onkeydown({ key, currentTarget: page.at("hand"), preventDefault() {} }));
    assert.deepStrictEqual(await press("d"), []);
    assert.deepStrictEqual((await press("1"))[0], `/lines CARD ${KEY} 4 0 DT\n${THEN}`);
    assert.deepStrictEqual(await press("k"), []);
    page.at("card-SA").focus();
    await press("ArrowRight");
    assert.strictEqual(page.document.activeElement.id, "card-SK");
    await press("ArrowLeft");
    assert.strictEqual(page.document.activeElement.id, "card-SA");
  },

  "what has not changed stays in its place, and does what is due": async () => {
    const page = await seated(place(), view({ TURN: "W" }));
    const [box, bid, card] = ["dock", "call-1S", "card-SA"].map((id) => page.at(id));
    page.answer = (where, body) => (where === "/place" ? place() : body.startsWith("SEE ") ? view({ AT: "4 0 0", CALLS: "PASS PASS 1H PASS" }) : "OK\n");
    await page.look();
    assert.ok(box === page.at("dock") && bid === page.at("call-1S") && card === page.at("card-SA"));
    assert.deepStrictEqual([bid.disabled, page.at("call-1H").disabled, page.named("Auction").querySelectorAll("td")[3].textContent], [false, true, page.at("call-1H").textContent]);
    assert.deepStrictEqual((await page.click("call-1S"))[0], `/lines CALL ${KEY} 4 4 1S\n${THEN}`);
  },

  "a hand is one stop for Tab, and a sheet holds the focus": async () => {
    const page = await seated(place({ CONTRACT: "1H E" }), play({ AT: "7 4 0", LAST: "S HK H2 H3 H4" }));
    const stops = () => page.at("hand").querySelectorAll("button").filter((one) => one.tabIndex === 0).map((one) => one.id);
    assert.strictEqual(stops().length, 1);
    const [first, second] = page.at("hand").querySelectorAll("button").filter((one) => !one.disabled);
    first.focus();
    page.at("hand").onkeydown({ key: "ArrowRight", currentTarget: page.at("hand"), preventDefault() {} });
    assert.deepStrictEqual(stops(), [second.id]);
    await page.click("claim-open");
    const claiming = page.at("claiming");
    assert.ok(claiming.contains(page.document.activeElement));
    page.at("claim-button").focus();
    claiming.onkeydown({ key: "Tab", currentTarget: claiming, preventDefault() {} });
    assert.strictEqual(page.document.activeElement.id, "claim-1");
  },

  "whose turn it is": async () => {
    for (const [turn, contract, seen, due] of [
      ["S", "-", view(), "Your turn to call"],
      ["W", "-", view({ TURN: "W" }), "West is to call."],
      ["S", "1H E", play(), "Your turn: the opening lead"],
      ["S", "1H E", play({ AT: "7 2 0", TRICK: "E H7 H9" }), "Your turn: follow with a heart"],
      ["N", "1H S", play({ AT: "7 5 0", TURN: "N" }), "Your turn: play from dummy"],
      ["E", "1H W", play({ AT: "7 5 0", TURN: "E" }), "West is to play from dummy."],
    ]) {
      assert.strictEqual((await seated(place({ CONTRACT: contract }), seen)).text("status"), due, turn);
    }
  },

  "where nothing is played it says why": async () => {
    for (const [why, placed, due] of [
      ["NotDealt", place({ ROUND: "2 3" }), "The next board is not dealt yet."],
      ["NotDealt", place(), "The first board is not dealt yet."],
      ["NotCurrent", place(), "Your boards of this round are done. Next round: table 1, West."],
      ["NotCurrent", place({ ROUND: "3 3", NEXT: "-" }), "Your boards of this round are done. "],
      ["SitsOut", place({ TABLE: "-", NAMES: "-" }), "You sit out in this round. Next round: table 1, West."],
      ["SitsOut", place({ TABLE: "-", NAMES: "-", NEXT: "-" }), "You sit out in this round. You sit out in the next round."],
    ]) {
      assert.strictEqual((await seated(placed, `ERR 8 ${why}\n`)).text("status"), due, why);
    }
  },

  "between two rounds the way to the next table is shown, and the partner is named": async () => {
    const tiles = (page) => page.document.root.all().filter((one) => one.tag === "li" && one.parent.className === "round").map((one) => one.textContent);
    const page = await seated(place(), "ERR 8 NotCurrent\n");
    assert.deepStrictEqual(tiles(page), ["2you are here", "1you go here"]);
    assert.match(page.text("main"), /Boards 7 to 9\. Move down one table\./);
    for (const [next, way] of [["3", "Move up one table."], ["4", "Go to table 4."], ["2", "Stay at your table."]]) {
      assert.ok((await seated(place({ NEXT: `${next} W 7 9` }), "ERR 8 NotCurrent\n")).text("main").includes(way), way);
    }
    assert.deepStrictEqual([page.text("title"), page.text("below")], ["Dan", "Pair 2, North\u2013South \u00b7 with Cat"]);
    assert.deepStrictEqual(tiles(await seated(place({ NEXT: "2 W 7 9" }), "ERR 8 NotCurrent\n")), []);
    const out = await seated(place({ TABLE: "-", NAMES: "-" }), "ERR 8 SitsOut\n");
    assert.deepStrictEqual([tiles(out), out.text("below")], [[], "Pair 2"]);
    const panels = out.document.root.all().filter((one) => one.className === "panel").map((one) => one.textContent);
    assert.match(panels[0], /You sit out$/);
    assert.match(panels[1], /Table 1, West/);
  },

  "each refusal has its sentence": async () => {
    for (const [name, said] of Object.entries(SAID)) {
      const page = await seated(place(), view(), `ERR 5 ${name}\n`);
      await page.click("call-PASS");
      assert.match(page.text("notice"), said, name);
    }
  },

  "no answer says so, and the page looks again": async () => {
    const page = await seated(place(), view(), null);
    await page.click("call-PASS");
    assert.match(page.text("notice"), /No answer came/);
    assert.deepStrictEqual(await page.look(), LOOKS);
    page.answer = () => null;
    await page.look();
    assert.match(page.text("status"), /does not answer/);
  },

  "an answer that does not come within 8 seconds is none": async () => {
    const page = await seated(place(), view());
    page.answer = () => new Promise(() => {});
    await page.asks(() => { page.at("call-PASS").click(); });
    page.answer = (where) => (where === "/place" ? place() : view());
    assert.deepStrictEqual(await page.pass(8000), LOOKS);
    assert.match(page.text("notice"), /No answer came/);
  },

  "while an answer is due it says so, first that it is on its way and then that there is none": async () => {
    for (const [act, what, where, seen, then, due] of [
      ["call-2C", "2 clubs", place(), view(), view({ AT: "3 0 0", TURN: "W", CALLS: "PASS PASS 2C" }), "West is to call."],
      ["card-HQ", "the queen of hearts", place({ CONTRACT: "1H E" }), play(), play({ AT: "7 1 0", TURN: "W", TRICK: "S HQ" }), "East is to play from dummy."]]) {
      const page = await seated(where, seen);
      let release;
      page.answer = () => new Promise((resolve) => { release = resolve; });
      await page.asks(() => { page.at(act).click(); });
      await page.pass(1500);
      assert.deepStrictEqual([page.text("status"), page.at("status").className, page.text("notice")], ["Sending \u2026", "", ""]);
      await page.pass(5000);
      assert.deepStrictEqual([page.text("status"), page.text("notice")], ["No answer for 5 seconds", `No answer yet. What you see next tells whether ${what} was taken.`]);
      page.answer = (at) => (at === "/place" ? where : then);
      release("OK\n");
      await page.settle();
      assert.deepStrictEqual([page.text("status"), page.text("notice")], [due, ""]);
    }
    const idle = await seated(place(), view());
    let release;
    idle.answer = (where) => new Promise((resolve) => { if (where === "/place") release = () => resolve(place()); else resolve(view()); });
    idle.look();
    await idle.settle();
    await idle.pass(3000);
    assert.match(idle.text("status"), /does not answer/);
    idle.answer = (where) => (where === "/place" ? place() : view());
    release();
    await idle.settle();
    assert.strictEqual(idle.text("status"), "Your turn to call");
  },

  "once the network is back it looks at once": async () => {
    const page = await seated(place(), view());
    assert.deepStrictEqual(await page.asks(page.listeners.get("online")), LOOKS);
  },

  "where the page is hidden it looks every 5 seconds, and at once when it is shown": async () => {
    const page = await seated(place(), view());
    page.document.hidden = true;
    await page.look();
    assert.deepStrictEqual(await page.pass(5000), LOOKS);
    page.document.hidden = false;
    assert.deepStrictEqual(await page.asks(page.document.listeners.get("visibilitychange")), LOOKS);
  },

  "what is on its way is shown where it goes, and comes back where no answer comes": async () => {
    const hearts = "\u2665\ufe0e";
    const answer = (seen, contract) => (where) => (where === "/place" ? place({ CONTRACT: contract }) : where === "/boards" ? boards() : seen);
    const card = await seated(place({ CONTRACT: "1H E" }), play({ AT: "7 4 0", LAST: "S HK H2 H3 H4", TRICKS: "1 0" }));
    card.answer = () => new Promise(() => {});
    await card.asks(() => { card.at("card-HQ").click(); });
    assert.strictEqual(card.at("card-HQ"), null);
    assert.strictEqual(card.named("South: queen of hearts").className, "played bottom red sent");
    assert.deepStrictEqual([card.text("confirm"), card.at("confirm").className, card.named("Trick").nodes.map((one) => one.className)],
      ["Sending " + hearts + "Q", "sending", ["played bottom red sent", "due left"]]);
    assert.deepStrictEqual(enabled(card, "card-"), []);
    card.answer = answer(play({ AT: "7 4 0", LAST: "S HK H2 H3 H4", TRICKS: "1 0" }), "1H E");
    await card.pass(8000);
    assert.ok(!card.at("card-HQ").disabled && card.named("South: queen of hearts") === undefined);
    const call = await seated(place(), view());
    call.answer = () => new Promise(() => {});
    await call.asks(() => { call.at("call-1H").click(); });
    assert.deepStrictEqual([call.text("confirm"), call.at("call-1H").getAttribute("aria-pressed"), call.rows(call.named("Auction"))[1]],
      ["Sending 1" + hearts, "true", ["", "Pass", "Pass", "1" + hearts]]);
    assert.deepStrictEqual(enabled(call, "call-"), []);
  },

  "one click, one line": async () => {
    const page = await seated(place(), view());
    const asked = await page.asks(() => {
      page.at("call-1C").click();
      assert.throws(() => page.at("call-1D").click(), /cannot be clicked/);
    });
    assert.deepStrictEqual(asked.filter((one) => one.includes("CALL")), [`/lines CALL ${KEY} 4 2 1C\n${THEN}`]);
  },

  "once the session is closed each field stands under its heading, and the results are asked for again after a minute": async () => {
    const RESULTS = "Club-Night\nTown-Hall, 2026.03.14\nScore cards\n\nPair 1: Ann and Bob\n\nPair 2: Cy and Di\n  Total: 6.0 of 8.0\n\nPair 3: Eve and Flo\n";
    const closed = place({ ROUND: "4 3", TABLE: "-", NAMES: "-", NEXT: "-" });
    const ranks = { 1: "OK\n1 2 6.0/8.0 75.00\n2 1 2.0/8.0 25.00\n.\n", 2: "OK\n1 4 5.0/8.0 62.50\n2 3 3.0/8.0 37.50\n.\n" };
    const page = new Page((where, body) => {
      if (where === "/place") return closed;
      if (where === "/boards") return boards(board({ RESULT: "3NT E 8 -50" }));
      if (body.startsWith("SEE ")) return "ERR 3 Closed\n";
      return where === "/results" ? RESULTS : ranks[body.trim().split(" ")[2]];
    }, { key: KEY });
    await page.settle();
    const ranked = [`/lines RANK ${KEY} 1\n`, `/lines RANK ${KEY} 2\n`];
    const asked = [...LOOKS, ...ranked];
    assert.deepStrictEqual(page.asked, [...FIRST, ...ranked, `/results ${KEY}`, `/boards ${KEY}`]);
    const titles = ["Place", "Pair", "Names", "Score", "%"];
    assert.deepStrictEqual([page.text("title"), page.text("below")], ["Club Night, final", "Town Hall, 2026.03.14"]);
    assert.deepStrictEqual(page.rows(page.named("Places of pairs 1 to 2")), [titles, ["1", "2", "Cy and Di", "6.0/8.0", "75.00"], ["2", "1", "Ann and Bob", "2.0/8.0", "25.00"]]);
    assert.deepStrictEqual(page.rows(page.named("Places of pairs 3 to 4")), [titles, ["1", "4", "", "5.0/8.0", "62.50"], ["2", "3", "Eve and Flo", "3.0/8.0", "37.50"]]);
    assert.strictEqual(page.text("own"), "You are first of 275.00\u00a0%Pair 2, Cy and Di6.0 of 8.0");
    assert.strictEqual(page.named("Places of pairs 3 to 4").parent.nodes[0].textContent, "Ranking, pairs 3 to 4");
    assert.strictEqual(page.named("Places of pairs 1 to 2").querySelectorAll("tr")[1].className, "own");
    assert.strictEqual(page.text("results"), RESULTS);
    assert.strictEqual(page.text("status"), "The session is closed.");
    assert.deepStrictEqual(await page.look(), asked);
    page.now += 60000;
    assert.deepStrictEqual(await page.look(), [...asked, `/results ${KEY}`, `/boards ${KEY}`]);
    assert.ok(!page.at("all-results").open);
    await page.click("all-boards");
    assert.ok(page.at("all-results").open);
    await page.click("print");
    assert.strictEqual(page.printed, 1);
    assert.deepStrictEqual(await page.click("my-boards"), asked);
    assert.deepStrictEqual(page.rows(page.at("card"))[1], ["4", "Eve \u2013 Fay", "3NT E", "\u2666\ufe0e2", "8", "\u221250"]);
    assert.strictEqual(page.text("onward"), "To the ranking");
    await page.click("onward");
    assert.ok(page.at("own"));
  },

  "a board that is over stays until the player goes on": async () => {
    const page = await seated(place({ CONTRACT: "3NT S" }), play({ AT: "7 9 0" }));
    page.answer = (where) => (where === "/place" ? place() : where === "/boards" ? boards(board()) : view({ PLAY: "1 2 2 5" }));
    assert.deepStrictEqual(await page.look(), [...LOOKS, `/boards ${KEY}`]);
    assert.strictEqual(page.text("title"), "Board 4");
    assert.strictEqual(page.text("band"), "3NT by you, made+6009 tricks \u00b7 lead \u2666\ufe0e2 by West");
    assert.strictEqual(page.text("onward"), "Next: board 5, your turn");
    await page.look();
    assert.ok(page.at("band"));
    assert.deepStrictEqual(await page.click("onward"), LOOKS);
    assert.strictEqual(page.at("band"), null);
    assert.strictEqual(page.text("title"), "Board 5");
  },

  "the play of a board is stepped through": async () => {
    const page = await seated(place(), view({ PLAY: "1 2 2 5" }), "OK\n", boards(board()));
    await page.click("menu");
    await page.click("menu-boards");
    assert.deepStrictEqual(page.rows(page.at("card")), [["Board", "Against", "Contract", "Lead", "Tr.", "Score"], ["4", "Eve \u2013 Fay", "3NT S", "\u2666\ufe0e2", "9", "+600"]]);
    await page.click("open-1-4");
    const signed = (suit, cards) => cards.map((card) => suit + "\ufe0e" + card);
    assert.deepStrictEqual(page.rows(page.at("tricks")).slice(1), [
      ["1", "W", ...signed("\u2666", ["2", "A", "6", "3"]), "N"], ["2", "N", ...signed("\u2663", ["2", "4", "J", "A"]), "W"], ["3", "W", ...signed("\u2666", ["5"]), "", "", "", ""]]);
    const marked = () => page.at("tricks").querySelectorAll("tr").filter((row) => row.className === "own").map((row) => row.id);
    const gone = () => page.document.root.all().filter((element) => element.tag === "s").map((element) => element.textContent);
    assert.deepStrictEqual([marked(), gone()], [[], []]);
    assert.ok(page.at("step-back").disabled);
    for (let i = 0; i < 4; i += 1) assert.deepStrictEqual(await page.click("step-on"), []);
    assert.deepStrictEqual([marked(), gone()], [["trick-0"], ["A", "6", "3", "2"]]);
    assert.strictEqual(page.named("North: ace of diamonds").className, "played top red diamond won");
    await page.click("step-end");
    assert.ok(page.at("step-on").disabled);
    assert.deepStrictEqual(marked(), ["trick-2"]);
    assert.ok(page.document.root.textContent.includes("North claimed 9 tricks, and it was agreed."));
  },

  "trumps win a trick": async () => {
    const page = await seated(place(), view({ PLAY: "1 2 2 5" }), "OK\n", boards(board({ CALLS: "PASS 4C PASS PASS PASS", CARDS: "E DQ D3 C3 DA", CLAIM: "-", RESULT: "4C N 9 -100" })));
    await page.click("menu");
    await page.click("menu-boards");
    await page.click("open-1-4");
    assert.strictEqual(page.rows(page.at("tricks"))[1].pop(), "W");
    assert.strictEqual(page.text("band"), "4\u2663\ufe0e by North, one down\u22121009 tricks \u00b7 lead \u2666\ufe0eQ by East");
  },

  "each result of a board is told for one's own side": async () => {
    for (const [result, side, words, score] of [["PASS 0", "NS", "passed out", "0"], ["VOID", "EW", "taken out by the director", ""], ["AVERAGE 60 40", "EW", "average, 60\u00a0% and 40\u00a0%", "40\u00a0%"],
      ["3NT S 9 600", "EW", "3NT by South, made", "\u2212600"], ["1H E 8 -110", "EW", "1\u2665\ufe0e by you, one over", "+110"]]) {
      const page = await seated(place({ PLAYER: "7 Eve", TABLE: "2 E 4 6" }), view({ PLAY: "1 2 2 5", SEAT: "E" }), "OK\n", boards(board({ BOARD: `4 1 2 1 ${side}`, CARDS: "-", RESULT: result })));
      await page.click("menu");
      await page.click("menu-boards");
      await page.click("open-1-4");
      assert.ok(page.text("band").startsWith(words + score), page.text("band"));
    }
  },

  "what other tables did is shown where the director opened it": async () => {
    const told = boards(`${board({ RESULT: "3NT S 9 600" })}\nOTHER 5 2 8 3NT N 7 -200\nOTHER 6 6 9 3NT N 10 630\nWORTH 3.0/4`).replace("SHUT", "OPEN");
    const page = await seated(place(), view({ PLAY: "1 2 2 5" }), "OK\n", told);
    await page.click("menu");
    await page.click("menu-boards");
    assert.strictEqual(page.rows(page.at("card"))[1].pop(), "75.0\u00a0%");
    await page.click("open-1-4");
    assert.deepStrictEqual(page.rows(page.named("Scores").querySelectorAll("table")[0]).slice(1), [["6", "9", "3NT N", "10", "+630"], ["we", "they", "3NT S", "9", "+600"], ["2", "8", "3NT N", "7", "\u2212200"]]);
    assert.ok(page.named("Scores").textContent.endsWith("Ours: 3.0 of 4 matchpoints."), page.named("Scores").textContent);
    const tiles = page.document.root.all().filter((one) => one.tag === "li" && one.parent.parent.className === "tiles");
    assert.deepStrictEqual(tiles.map((one) => one.textContent + one.className), ["+630", "+600 (we)own", "\u2212200"]);
    const shut = await seated(place(), view({ PLAY: "1 2 2 5" }), "OK\n", boards(board()));
    await shut.click("menu");
    await shut.click("menu-boards");
    await shut.click("open-1-4");
    assert.ok(shut.named("Scores").textContent.includes("once the director opens it"));
  },

  "a ruling is told to those who played": async () => {
    const page = await seated(place(), view({ PLAY: "1 2 2 5" }), "OK\n", boards(board()));
    page.answer = (where) => (where === "/place" ? place() : where === "/boards" ? boards(board({ RESULT: "VOID" })) : view({ PLAY: "1 2 2 5" }));
    page.now += 30000;
    await page.look();
    assert.strictEqual(page.text("notice"), "The director has ruled on board 4.");
    page.answer = (where) => (where === "/place" ? place() : where === "/boards" ? boards(board({ RESULT: "VOID" }), board({ BOARD: "5 1 2 2 NS" })) : view({ PLAY: "1 2 3 6" }));
    await page.look();
    assert.strictEqual(page.text("notice"), "");
  },

  "a board that the director has ended is told to those who played it": async () => {
    for (const [over, told] of [[boards(), "Board 4 is not played on: the director has ruled so."], [boards(board()), ""], [null, ""]]) {
      const page = await seated(place(), view());
      page.answer = (where) => (where === "/place" ? place() : where === "/boards" ? over : view({ PLAY: "1 2 2 5" }));
      await page.look();
      assert.strictEqual(page.text("notice"), told);
    }
  },

  "rulings on several boards are told together": async () => {
    const both = (result) => boards(board({ RESULT: result }), board({ BOARD: "5 1 2 2 NS", RESULT: result }));
    const page = await seated(place(), view({ PLAY: "1 2 3 6" }), "OK\n", both("3NT S 9 600"));
    page.answer = (where) => (where === "/place" ? place() : where === "/boards" ? both("AVERAGE 60 40") : view({ PLAY: "1 2 3 6" }));
    page.now += 30000;
    await page.look();
    assert.strictEqual(page.text("notice"), "The director has ruled on boards 4, 5.");
  },

  "what the director has taken back is told until play goes on": async () => {
    const calls = (made, words) => view({ AT: `${made} 0 0`, CALLS: words, TURN: ["N", "E", "S", "W"][made % 4] });
    const cards = (made, trick) => play({ AT: `7 ${made} 0`, TRICK: trick });
    for (const [one, back, on, told] of [
      [calls(3, "PASS PASS 1C"), calls(2, "PASS PASS"), calls(3, "PASS PASS 1D"), "The director has taken back the last call."],
      [cards(2, "S SA S3"), cards(1, "S SA"), cards(2, "S SA S4"), "The director has taken back the last card."]]) {
      const page = await seated(place({ CONTRACT: "1H E" }), one);
      assert.strictEqual(page.text("notice"), "");
      for (const [seen, due] of [[back, told], [back, told], [on, ""]]) {
        page.answer = (where) => (where === "/place" ? place({ CONTRACT: "1H E" }) : where === "/boards" ? boards() : seen);
        await page.look();
        assert.strictEqual(page.text("notice"), due);
      }
    }
  },

  "keys find their place again at the next turn, and nothing else does": async () => {
    for (const [input, due] of [["keydown", "call-PASS"], ["pointerdown", ""]]) {
      const page = await seated(place(), view());
      page.listeners.get("keydown")();
      page.listeners.get(input)();
      const see = async (seen) => { page.answer = (where) => (where === "/place" ? place() : where === "/boards" ? boards() : seen); await page.look(); };
      const then = view({ AT: "3 0 0", CALLS: "PASS PASS 2D", TURN: "W" });
      page.answer = (where, body) => (where === "/place" ? place() : body.startsWith("CALL ") ? "OK\n" + then : then);
      page.at("call-2D").focus();
      await page.click("call-2D");
      page.document.activeElement = null;
      await see(view({ AT: "4 0 0", CALLS: "PASS PASS 2D PASS", TURN: "N" }));
      await see(view({ AT: "6 0 0", CALLS: "PASS PASS 2D PASS PASS X", TURN: "S" }));
      assert.strictEqual(page.document.activeElement ? page.document.activeElement.id : "", due);
    }
  },

  "boards that nobody else has played come to nothing so far": async () => {
    const page = await seated(place(), "ERR 6 NotCurrent\n", "OK\n", boards(board({ WORTH: "0.0/0" })));
    assert.ok(!page.text("main").includes("so far:"));
    page.answer = (where) => (where === "/place" ? place() : where === "/boards" ? boards(board({ WORTH: "1.0/2" })) : "ERR 6 NotCurrent\n");
    page.now += 30000;
    await page.look();
    assert.match(page.text("main"), /Evening so far: 50\.0\s%/);
    assert.deepStrictEqual(page.rows(page.at("card"))[0].slice(-2), ["Score", "So far"]);
  },

  "what had no answer is told once something came": async () => {
    for (const [seen, fate] of [[view({ AT: "3 0 0", TURN: "W", CALLS: "PASS PASS PASS" }), "It was taken."], [view(), "It was not taken: please try again."]]) {
      const page = await seated(place(), view(), null);
      page.answer = (where) => (where === "/place" ? place() : where === "/boards" ? boards() : null);
      await page.click("call-PASS");
      page.answer = (where) => (where === "/place" ? place() : seen);
      page.now += 3000;
      await page.look();
      assert.strictEqual(page.text("notice"), fate);
    }
  },

  "the director is called with a reason or without, and all see it": async () => {
    for (const [words, order] of [["Out of turn", " CALL Out of turn"], ["", " CALL"]]) {
      const page = await seated(place(), view());
      assert.deepStrictEqual(await page.click("bell"), []);
      assert.strictEqual(page.at("calling").querySelectorAll("h2")[0].textContent, "Call the director to table 2?");
      if (words) page.button(words).click();
      const { answer } = page;
      page.answer = () => `OK\nNOW 7 14400\nCALL 2 7 2 Dan ${words}\n.\n`;
      assert.deepStrictEqual(await page.click("call-director"), [`/desk ${KEY}${order}`]);
      const time = new Date(page.now).toLocaleTimeString("en-GB", { hour: "2-digit", minute: "2-digit" });
      assert.strictEqual(page.text("desk"), `Director called, ${time}: ${words ? "out of turn" : "no reason said"}. Please wait, play nothing.`);
      page.answer = answer;
      await page.look();
      assert.deepStrictEqual([page.text("desk"), page.text("notice")], ["", "The director has seen the call and is on the way."]);
    }
  },

  "what the director took back for a call is not hidden by what is told of the call": async () => {
    const page = await seated(place(), view({ AT: "3 0 0", CALLS: "PASS PASS 1C", TURN: "W" }), "OK\n", boards(), "OK\nNOW 70 14400\nCALL 2 7 2 Dan Slip\n.\n");
    page.answer = (where) => (where === "/place" ? place() : view());
    await page.look();
    page.stands = "OK\nNOW 71 14400\n.\n";
    await page.look();
    assert.strictEqual(page.text("notice"), "The director has taken back the last call.");
  },

  "the notice and the clock of the round are shown": async () => {
    const page = await seated(place(), view(), "OK\n", boards(), "OK\nNOW 20 14400\nNOTICE Tea after round 4\nCLOCK 321\n.\n");
    assert.strictEqual(page.text("desk"), "The director: Tea after round 4");
    assert.strictEqual(page.text("clock"), "5:01left");
    page.now += 1000;
    page.context.showClock();
    assert.strictEqual(page.text("clock"), "5:00left");
    assert.strictEqual(page.text("heard"), "5 minutes left in this round");
    const between = await seated(place(), "ERR 8 NotCurrent\n", "OK\n", boards(), "OK\nNOW 20 14400\nCLOCK 110\n.\n");
    between.context.showClock();
    assert.strictEqual(between.text("clock"), "1:30to round 2");
  },

  "that the pages close is said ten minutes before": async () => {
    for (const [now, said] of [[13799, ""], [13800, "In 10 minutes the pages close. What was played is kept."], [14399, "In a minute the pages close. What was played is kept."]]) {
      const page = await seated(place(), view(), "OK\n", boards(), `OK\nNOW ${now} 14400\n.\n`);
      assert.strictEqual(page.text("desk"), said);
    }
  },

  "what is said with a claim follows it once it stands, and is shown to who answers": async () => {
    const claims = async (done) => {
      const page = await seated(place({ CONTRACT: "1H E" }), play({ AT: "7 4 0" }), done);
      await page.click("claim-open");
      page.at("claim-says").value = " drawing trumps\u202e ";
      page.at("claim-says").oninput();
      return page.click("claim-button");
    };
    assert.deepStrictEqual((await claims("OK\n")).filter((one) => one.startsWith("/desk")), [`/desk ${KEY} STATEMENT drawing trumps`]);
    assert.deepStrictEqual((await claims("ERR 11 ClaimStands\n")).filter((one) => one.startsWith("/desk")), []);
    const asked = await seated(place({ CONTRACT: "1H E", ANSWER: "DUE" }), play({ AT: "7 20 1", CLAIM: "E 5" }), "OK\n", boards(), "OK\nNOW 9 14400\nSTATEMENT the rest are mine\n.\n");
    assert.match(asked.text("dock"), /\u201cthe rest are mine\u201d/);
  },

  "who has agreed to a claim is told, and who has refused it": async () => {
    const agreed = "OK\nNOW 9 14400\nAGREED W\n.\n";
    const shows = (contract, claim, due) => seated(place(due ? { CONTRACT: contract, ANSWER: "DUE" } : { CONTRACT: contract }), play({ AT: "7 20 1", CLAIM: claim }), "OK\n", boards(), agreed);
    assert.strictEqual((await shows("1H S", "S 5")).text("status"), "You claim 5 of 13. West agrees. East is asked.");
    assert.match((await shows("1H E", "E 5", true)).text("dock"), /West agrees\./);
    const page = await seated(place({ CONTRACT: "1H S" }), play({ AT: "7 20 1", CLAIM: "S 5" }));
    page.answer = (where) => (where === "/place" ? place({ CONTRACT: "1H S" }) : play({ AT: "7 20 1" }));
    page.stands = "OK\nNOW 9 14400\nREFUSED E\n.\n";
    await page.look();
    assert.strictEqual(page.text("notice"), "East does not agree to the claim. Play goes on; call the director if need be.");
  },

  "that a claim was refused is told": async () => {
    const page = await seated(place({ CONTRACT: "1H E" }), play({ AT: "7 20 1", CLAIM: "S 5" }));
    page.answer = (where) => (where === "/place" ? place({ CONTRACT: "1H E" }) : play({ AT: "7 20 1" }));
    await page.look();
    assert.match(page.text("notice"), /stands no more/);
  },

  "before the login it is told which evening it is": async () => {
    const evening = "OK\nEVENT Thursday-Pairs\nSITE Old-Mill\nDATE 2026.11.26\nPLAN 7 7 3 MP\n.\n";
    const page = new Page(() => "ERR 1 NoKey\n", {}, undefined, evening);
    await page.settle();
    const words = page.at("login-head").nodes.map((one) => one.textContent);
    assert.deepStrictEqual([words[0], words[1], words[3]], ["Old Mill", "Thursday Pairs", "7 tables \u00b7 3 boards a round \u00b7 matchpoints"]);
    assert.match(words[2], /Thursday.*26.*2026/);
    const untold = new Page(() => "ERR 1 NoKey\n", {}, undefined, "ERR 30 BadLine\n");
    await untold.settle();
    assert.strictEqual(untold.text("login-head"), "Bridge table");
  },

  "a board that is not told yet is asked for again once the table is done": async () => {
    const all = ["4 1 2 1 NS", "5 1 2 2 NS", "6 1 2 3 NS"].map((BOARD) => board({ BOARD }));
    for (const [told, asks] of [[all.slice(0, 1), true], [all, false]]) {
      const page = await seated(place(), "ERR 8 NotCurrent\n", "OK\n", boards(...told));
      page.now += 1;
      assert.strictEqual((await page.look()).includes(`/boards ${KEY}`), asks);
    }
  },

  "between rounds it is told whom one meets next": async () => {
    const meets = "OK\nNOW 9 14400\nMEETS 3 2 Ann Dan Bob Cat\n.\n";
    for (const [next, pair, names] of [["1 W 7 9", "3", ["NAnn", "SBob"]], ["1 S 7 9", "2", ["EDan", "WCat"]]]) {
      const page = await seated(place({ NEXT: next }), "ERR 8 NotCurrent\n", "OK\n", boards(), meets);
      assert.ok(page.text("main").includes("You meet pair " + pair), page.text("main"));
      const told = page.document.root.all().filter((one) => one.tag === "li").map((one) => one.textContent);
      assert.deepStrictEqual(told.slice(-2), names);
    }
  },

  "the names of the list stand in place of the configuration's": async () => {
    const LISTED = "OK\n1\tEve\tFay\t\u674e \u5c0f\u9f8d\tFay <b>O'Brien</b>\n2\tCat\tDan\tC\u00e1t Lind\tD\u00e1n Lind\n3\tAnn\tBob\tAnn\tBob\n.\n";
    const FIRST = "\u2068\u674e \u5c0f\u9f8d\u2069";
    const page = await seated(place(), "ERR 8 NotDealt\n", "OK\n", boards(board()), undefined, LISTED);
    assert.deepStrictEqual(page.document.root.all().filter((one) => one.tag === "li").map((one) => one.textContent),
      ["SYou, D\u00e1n Lind", "NC\u00e1t Lind", "E" + FIRST, "WFay <b>O'Brien</b>"]);
    assert.deepStrictEqual(page.rows(page.at("card"))[1].slice(0, 2), ["4", FIRST + " \u2013 Fay <b>O'Brien</b>"]);
    await page.click("menu");
    await page.click("menu-boards");
    assert.strictEqual(page.text("below"), "D\u00e1n Lind, pair 2");
    // Two pairs of the same names in the configuration have those.
    for (const people of ["OK\n1\tEve\tFay\tA\tB\n2\tEve\tFay\tC\tD\n.\n", "ERR 1 NoKey\n", null]) {
      const other = await seated(place(), "ERR 8 NotDealt\n", "OK\n", boards(), undefined, people);
      assert.ok(other.text("main").includes("Eve"), other.text("main"));
    }
  },

  "the names of the list stand in the results": async () => {
    const row = (start, names, rest) => start + names.padEnd(53) + rest;
    const results = (one, other, both) => "Club-Night\n\n" + row("      1      2  ", one, "       6.0        8.0   75.00\n") + row("      2     11  ", other, "       2.0        8.0   25.00\n")
      + "\nPair 2: " + both + "\n      1      4  NS          1  3NT       S           9        600        2.0\n\nPair 11: " + other + "\n";
    const closed = place({ ROUND: "4 3", TABLE: "-", NAMES: "-", NEXT: "-" });
    const page = new Page((where, body) => {
      if (where === "/place") return closed;
      if (where === "/boards") return boards();
      if (body.startsWith("SEE ")) return "ERR 3 Closed\n";
      if (where === "/results") return results("Cat and Dan", "Ann and Bob", "Cat and Dan");
      return "OK\n1 2 6.0/8.0 75.00\n2 11 2.0/8.0 25.00\n.\n";
    }, { key: KEY }, "OK\n2\tCat\tDan\tC\u00e1t Lind\t\u674e\n.\n");
    await page.settle();
    const shown = "C\u00e1t Lind and \u2068\u674e\u2069";
    assert.deepStrictEqual(page.rows(page.named("Places of pairs 2 to 11")).slice(1).map((words) => words[2]), [shown, "Ann and Bob"]);
    // The sign takes two columns, and what keeps it apart none.
    assert.strictEqual(page.text("results"), results(shown + " ".repeat(53 - 15), "Ann and Bob", shown));
    assert.ok(page.text("own").includes(shown));
  },
});
