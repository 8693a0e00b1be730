"use strict";
// A document of a few words: as much of a browser's as the pages use, so that their scripts run without one.

// Elements that have nothing within.
const EMPTY = new Set(["meta", "link", "br", "input"]);

// What stands in an element: another, or a text.
class Node {
  replaceWith(node) {
    const { parent } = this;
    parent.nodes[parent.nodes.indexOf(this)] = node;
    node.parent = parent;
    this.parent = null;
  }

  remove() {
    this.parent.nodes.splice(this.parent.nodes.indexOf(this), 1);
    this.parent = null;
  }
}

class Text extends Node {
  constructor(data) {
    super();
    Object.assign(this, { data: String(data), parent: null, nodeName: "#text" });
  }

  get textContent() {
    return this.data;
  }
}

// What an element has that no attribute says.
const INNER = ["owner", "tag", "nodes", "parent", "attributes", "typed"];

class Element extends Node {
  constructor(owner, tag) {
    super();
    Object.assign(this, { owner, tag, id: "", className: "", nodes: [], parent: null, attributes: new Map(), hidden: false, disabled: false, open: false, defaultValue: "" });
    this.typed = null;
  }

  get nodeName() {
    return this.tag.toUpperCase();
  }

  get childNodes() {
    return this.nodes;
  }

  get value() {
    if (this.typed !== null) return this.typed;
    return this.tag === "select" && this.nodes.length > 0 ? this.nodes[0].value : String(this.defaultValue);
  }

  set value(text) {
    this.typed = String(text);
  }

  append(...nodes) {
    for (const one of nodes) {
      const node = one instanceof Node ? one : new Text(one);
      node.parent = this;
      this.nodes.push(node);
    }
  }

  replaceChildren(...nodes) {
    for (const node of this.nodes) node.parent = null;
    this.nodes = [];
    this.append(...nodes);
  }

  // The attributes, with those that are kept as properties.
  getAttributeNames() {
    return [...this.attributes.keys(), ...Object.keys(this).filter((name) => !INNER.includes(name) && typeof this[name] !== "function")];
  }

  setAttribute(name, value) {
    if (Object.hasOwn(this, name)) this[name] = value;
    else this.attributes.set(name, String(value));
  }

  getAttribute(name) {
    if (this.attributes.has(name)) return this.attributes.get(name);
    return Object.hasOwn(this, name) ? this[name] : null;
  }

  removeAttribute(name) {
    this.attributes.delete(name);
  }

  get textContent() {
    return this.nodes.map((node) => node.textContent).join("");
  }

  set textContent(text) {
    this.replaceChildren(...(text === "" ? [] : [text]));
  }

  // This element and all within, in the order of the page.
  all() {
    return [this, ...this.nodes.flatMap((node) => (node instanceof Element ? node.all() : []))];
  }

  // The elements within that have a tag, and where it is asked for an attribute: `tag`, `tag[name]` or `tag[name=value]`, or one
  // of several such behind commas.
  querySelectorAll(selectors) {
    const fits = selectors.split(", ").map((selector) => {
      const [, tag, name, value] = /^(\w+)(?:\[(\w+)(?:=(\w+))?\])?$/.exec(selector);
      const has = (element) => name === undefined || (value === undefined ? Boolean(element[name]) : element[name] === value);
      return (element) => element.tag === tag && has(element);
    });
    return this.all().slice(1).filter((element) => fits.some((one) => one(element)));
  }

  contains(other) {
    return this.all().includes(other);
  }

  isEqualNode(other) {
    return this.textContent === other.textContent && this.hidden === other.hidden;
  }

  focus() {
    this.owner.activeElement = this;
  }

  // A number that is there, whole, and in the field's range.
  checkValidity() {
    if (this.value === "") return !this.required;
    const number = Number(this.value);
    return Number.isInteger(number) && (this.min === undefined || number >= this.min) && (this.max === undefined || number <= this.max);
  }

  // Whether it and all round it are shown, but for what is folded together.
  get isShown() {
    return !this.hidden && (this.parent === null || this.parent.isShown);
  }

  // This element or the next one round it that has a tag, or null.
  closest(tag) {
    return this.tag === tag || this.parent === null ? (this.tag === tag ? this : null) : this.parent.closest(tag);
  }

  // A click of a mouse or a finger, or with no detail of keys, which a button that is greyed or hidden does not get.
  click(detail = 0) {
    if (this.disabled || !this.isShown) throw new Error(`#${this.id} cannot be clicked`);
    return this.onclick({ preventDefault() {}, detail, target: this });
  }
}

// The document of a page's text, with the addresses of its scripts in their order.
function readPage(text) {
  const found = { scripts: [], styles: [], listeners: new Map(), activeElement: null, hidden: false };
  found.createElement = (tag) => new Element(found, tag);
  found.root = found.createElement("root");
  found.title = "";
  Object.defineProperty(found, "body", { get: () => found.root.all().find((element) => element.tag === "body") });
  Object.defineProperty(found, "documentElement", { get: () => found.root.all().find((element) => element.tag === "html") });
  found.getElementById = (id) => found.root.all().find((element) => element.id === id) || null;
  found.addEventListener = (name, act) => found.listeners.set(name, act);
  let within = found.root;
  for (const [, end, tag, words] of text.matchAll(/<(\/?)(\w+)([^>]*)>/g)) {
    if (end) {
      within = within.parent;
      continue;
    }
    const element = found.createElement(tag);
    for (const [, name, value] of words.matchAll(/([\w-]+)(?:="([^"]*)")?/g)) {
      if (name === "id" || name === "hidden") element[name] = value === undefined ? true : value;
      else element.setAttribute(name, value);
    }
    within.append(element);
    if (tag === "script") found.scripts.push(element.getAttribute("src"));
    if (tag === "link" && element.getAttribute("rel") === "stylesheet") found.styles.push(element.getAttribute("href"));
    if (!EMPTY.has(tag)) within = element;
  }
  return found;
}

module.exports = { readPage };
