// The sentence at the line: below the line just done what it did, below the next one what it will
// do, with the parts of its word as boxes; words byte by byte; the names of cells.
import { make } from "./dom.js";
import { OPERATIONS } from "./operations.js";

const SYMBOL = /\d*[A-Z][A-Z\d]*/g;
const LOOK = { coverGutter: true, noHScroll: true, handleMouseEvents: true };
const FARTHEST = 999; // cells behind a symbol that have its name
const bytesIn = (word) => word.split(" "); // a word is its sign and its bytes

// A word, a byte a box: leading zeros are pale, and what is other than `before` is new.
export function putWord(box, word, before = word) {
  if (box.drawn === `${word} ${before}`) return;
  box.drawn = `${word} ${before}`;
  const [bytes, old] = [bytesIn(word), bytesIn(before)];
  const first = bytes.findIndex((byte, at) => at > 0 && byte !== "00");
  const kindOf = (byte, at) => {
    if (old.length === bytes.length && old[at] !== byte) return "new";
    return at > 0 && (first < 0 || at < first) ? "pale" : "";
  };
  const boxes = bytes.map((byte, at) => make("span", { class: `byte ${kindOf(byte, at)}` }, byte));
  box.replaceChildren(...boxes.flatMap((each, at) => (at > 0 ? [" ", each] : [each])));
}

// The symbols that name places: labels of words, and what an address begins with.
export function placesIn({ rows, symbols }, text) {
  const lines = text.toUpperCase().split("\n").map((line) => line.split(/[ \t]+/));
  const labels = rows.map(({ line }) => line && lines[line - 1]?.[0]);
  const used = lines.filter(([, name]) => name === "ORIG" || OPERATIONS.get(name)?.uses === "cell");
  const named = used.flatMap(([, , address = ""]) => address.split(/[,(=]/)[0].match(SYMBOL) || []);
  const places = new Set([...labels, ...named]);
  const found = symbols.filter(({ name }) => places.has(name));
  return found.map(({ name, number }) => ({ name, cell: Number(number) })).sort((one, other) => other.cell - one.cell);
}

export function placeOf(places, cell) {
  const near = places.find((place) => place.cell <= cell);
  if (!near || cell - near.cell > FARTHEST) return "";
  return near.cell === cell ? near.name : `${near.name}+${cell - near.cell}`;
}

function part(text, name, kind = "") {
  return make("span", { class: `part ${kind}` }, make("b", {}, text), make("small", {}, name));
}

// The word of an instruction in its five parts, how M comes about, and the field of the operand.
function anatomyOf(/** @type {View} */ { next, state, wordIn }, address) {
  const { operation, index, field, address: m, value } = next.instruction;
  const { uses, code } = OPERATIONS.get(operation);
  const [sign, high, low] = bytesIn(wordIn(next.location).word);
  const a = `${sign === "-" ? "-" : ""}${64 * Number(high) + Number(low)}`;
  const isField = uses === "cell" && operation !== "MOVE" && value !== undefined;
  const added = state.registers.find(({ name }) => name === `I${index}`)?.number;
  const isNamed = /[A-Z*]/i.test(address) && !address.includes("=");
  const parts = [
    part(sign, "sign"), part(a.replace("-", ""), isNamed ? `A = ${address}` : "A", "used"),
    part(String(index), "I", index > 0 ? "used" : ""),
    part(isField ? `${field >> 3}:${field & 7}` : String(field), "F", isField ? "used" : ""),
    part(operation, `C = ${code}`),
  ];
  const sum = index > 0 ? `${a} + rI${index} (${added}) = ` : "";
  const told = make("span", { class: "address" }, `M = ${sum}`, make("b", {}, m));
  if (!isField) return make("div", { class: "anatomy" }, ...parts, told);
  const bytes = bytesIn(wordIn(Number(m)).word).map((byte, at) => {
    return make("span", { class: `byte ${at >= field >> 3 && at <= (field & 7) ? "in" : ""}` }, byte);
  });
  return make("div", { class: "anatomy" }, ...parts, told, make("span", { class: "operand" }, `cell ${m} `, ...bytes));
}

// Both sentences, as widgets of the editor. The status tells them to a screen reader.
export class AtLine {
  widgets = [];

  constructor(/** @type {Listing} */ listing) { this.listing = listing; }

  put(line, kind, ...content) {
    const { cm } = this.listing;
    const told = make("div", { class: `told ${kind}`, "aria-hidden": "true" }, ...content);
    if (line) this.widgets.push(cm.addLineWidget(line - 1, told, LOOK));
    return Boolean(line);
  }

  clear() {
    for (const widget of this.widgets) widget.clear();
    this.widgets = [];
  }

  // Whether each has a line.
  show(/** @type {View} */ view) {
    const { listing } = this;
    const { state, change, next, asked, sentences: { lastHere, nextHere } } = view;
    const [last, ahead] = [change && lastHere, next].map((each, at) => {
      return each && listing.lineOf.get(at === 0 ? change.location : state.location);
    });
    return listing.cm.operation(() => {
      this.clear();
      const isDone = this.put(last, "past", make("b", {}, "done: "), lastHere);
      const address = (ahead ? listing.lineText(ahead) : "").split(/[ \t]+/)[2] || "";
      const isDrawn = next?.instruction && !asked;
      const anatomy = isDrawn ? [anatomyOf(view, address.split(/[,(]/)[0])] : [];
      const isNext = this.put(ahead, "future", make("b", {}, "next: "), nextHere || "?", ...anatomy);
      return [isDone, isNext];
    });
  }
}
