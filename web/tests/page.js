"use strict";
// The page in a browser of the tests' own: its scripts as the page names them, a server that keeps what it is asked, a clock
// that goes where the test says, and numbers that the test knows.
const assert = require("node:assert");
const fs = require("node:fs");
const path = require("node:path");
const vm = require("node:vm");
const { readPage } = require("./document.js");

const WEB = path.join(__dirname, "..");
// What may be asked, and how.
const PATHS = ["/lines", "/place", "/tables", "/results", "/boards", "/desk", "/wait", "/correct", "/names"];
const TYPE = "application/x-table-lines";

// The random bytes of the test: 1, 2, 3 ..
function fill(bytes) {
  bytes.forEach((_byte, i) => { bytes[i] = i + 1; });
  return bytes;
}

class Page {
  constructor(answer, kept = {}, people = "OK\n.\n", stands = "OK\nNOW 0 14400\n.\n") {
    this.asked = [];
    this.answer = answer;
    // What the desk tells at a look, the names of the list, and what is waited with; they are not among what is asked.
    this.stands = stands;
    this.people = people;
    this.waits = [];
    this.kept = new Map(Object.entries(kept));
    this.timers = new Map();
    this.listeners = new Map();
    this.printed = 0;
    this.now = 0;
    this.document = readPage(fs.readFileSync(path.join(WEB, "page.html"), "utf8"));
    this.context = vm.createContext(this.globals());
    vm.runInContext("Math.random = () => { throw new Error('a number that can be guessed'); };", this.context);
    this.context.clock = () => this.now;
    vm.runInContext("Date.now = clock;", this.context);
    for (const script of this.document.scripts) {
      const file = path.join(WEB, script);
      vm.runInContext(fs.readFileSync(file, "utf8"), this.context, { filename: file });
    }
    this.document.listeners.get("DOMContentLoaded")();
  }

  globals() {
    const { kept, timers } = this;
    return {
      document: this.document,
      window: { print: () => { this.printed += 1; }, addEventListener: (name, act) => this.listeners.set(name, act) },
      sessionStorage: {
        getItem: (name) => (kept.has(name) ? kept.get(name) : null),
        setItem: (name, value) => { kept.set(name, String(value)); },
        removeItem: (name) => { kept.delete(name); },
      },
      crypto: { getRandomValues: fill },
      AbortController,
      setTimeout: (act, wait) => { timers.set(timers.size + 1, { act, wait }); return timers.size; },
      clearTimeout: (timer) => { if (timers.has(timer)) timers.set(timer, null); },
      fetch: (where, request) => this.fetch(where, request),
    };
  }

  // An answer of the server: a text, or none, also where the page waits no longer.
  async fetch(where, { method, headers, body, signal }) {
    assert.ok(PATHS.includes(where), `asked at ${where}`);
    assert.strictEqual(method, "POST");
    assert.strictEqual(headers["content-type"], TYPE);
    const late = new Promise((_resolve, reject) => { signal.addEventListener("abort", () => reject(new Error("too late"))); });
    const text = await Promise.race([this.answerTo(where, body), late]);
    if (text === null) throw new Error("no answer");
    return { ok: true, text: async () => text };
  }

  answerTo(where, body) {
    if (where === "/wait") return new Promise((release) => { this.waits.push({ body, release }); });
    if (where === "/desk" && !body.includes(" ")) return this.stands;
    if (where === "/names") return this.people;
    this.asked.push(`${where} ${body}`);
    return this.answer(where, body);
  }

  // Waits until nothing more comes by itself.
  async settle() {
    for (let i = 0; i < 5; i += 1) await new Promise((resolve) => { setImmediate(resolve); });
  }

  // What is asked from now on until nothing more comes, of what is acted.
  async asks(act) {
    this.asked.length = 0;
    await act();
    await this.settle();
    return [...this.asked];
  }

  // Lets so many milliseconds pass for which one timer waits.
  async pass(wait) {
    const due = [...this.timers].filter(([, timer]) => timer !== null && timer.wait === wait);
    assert.strictEqual(due.length, 1, `timers of ${wait} milliseconds`);
    this.timers.set(due[0][0], null);
    this.now += wait;
    return this.asks(() => due[0][1].act());
  }

  // Lets the next look come: by its time, or because there is news.
  async look() {
    const due = [500, 1000].find((wait) => [...this.timers.values()].some((timer) => timer !== null && timer.wait === wait));
    return due === undefined ? this.news() : this.pass(due);
  }

  // Lets what is waited for come, or this answer.
  async news(answer = "OK\n") {
    this.now += 1000;
    return this.asks(() => this.waits.splice(0).pop().release(answer));
  }

  at(id) {
    return this.document.getElementById(id);
  }

  text(id) {
    return this.at(id).textContent;
  }

  // The elements of a role or a tag, by the name that they are read out by.
  named(name) {
    return this.document.root.all().find((element) => element.getAttribute("aria-label") === name);
  }

  button(label) {
    return this.document.root.all().find((element) => element.tag === "button" && element.textContent === label);
  }

  // A click of the mouse, so many milliseconds after what came before.
  async click(id, after = 400) {
    this.now += after;
    return this.asks(() => this.at(id).click(1));
  }

  // The cells of a table, row by row.
  rows(table) {
    return table.querySelectorAll("tr").map((row) => row.nodes.map((cell) => cell.textContent));
  }
}

// Runs the tests of a file, each over pages of its own, and says which fail. A test that never ends fails too.
async function run(tests) {
  let failed = false;
  process.exitCode = 1;
  for (const [name, test] of Object.entries(tests)) {
    try {
      await test();
    } catch (error) {
      failed = true;
      console.error(`${name}: ${error.stack}`);
    }
  }
  if (!failed) process.exitCode = 0;
}

module.exports = { Page, run };
