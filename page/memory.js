// Registers and flags, cells, symbols. What the last change altered is marked, with what it was
// before; each name asks who wrote it.
import { $, fourDigits, keepRows, keepStop, make, on, onResize, put, walks } from "./dom.js";
import { placeOf, putWord } from "./anatomy.js";
import { CELLS, CellRange, isCell, upTo } from "./range.js";
import { OPERATIONS } from "./operations.js";
import { COMPARED, itemOf, nameOf, toldWord } from "./sentence.js";

const CELLS_SHOWN = 500; // rows
const NONE = "+ 00 00 00 00 00";

function asks(part, label, given = {}) {
  const name = `${nameOf(part)}: who wrote it?`;
  return make("button", { type: "button", "data-part": part, "aria-label": name, ...given }, label);
}

// Beside the name of a cell its symbol, beside the number of an index register where it points.
const REGISTER_ROW = ["word", "number", "points", "chars", "was"];
const CELL_ROW = ["symbol", "word", "number", "chars", "was"];

function wordRow(kinds, part, label, given = {}) {
  const unseen = [1, 2].map(() => make("span", { class: "unseen" }));
  const head = make("th", { scope: "row", role: "rowheader" }, asks(part, label, { tabindex: "-1" }), ...unseen);
  const cells = kinds.map((kind) => make("td", { class: kind, role: "cell" }));
  const was = make("span", {}, make("span", { class: "unseen" }), make("s"));
  cells[cells.length - 1].append(was, make("span", { class: "will" }));
  return make("tr", { "data-part": part, role: "row", ...given }, head, ...cells);
}

// `text` stands where the number otherwise does, `beside` where its place or its symbol does.
function showWord(row, part, word, /** @type {View} */ view, { more = [], text = "", beside = "" }) {
  const { altered, change, next } = view;
  const [isAltered, was, will] = [altered.has(part), itemOf(change, part), itemOf(next, part)];
  const told = part.startsWith("cell ") ? (_, number) => number : toldWord; // a row of cells has room for a number
  const cellOf = (kind) => row.querySelector(`.${kind}`);
  putWord(cellOf("word"), word.word, isAltered && was ? was.before : word.word);
  put(cellOf("number"), text || word.number);
  put(cellOf("symbol, .points"), beside);
  put(cellOf("chars"), text || word.characters.trim() === "" ? "" : `“${word.characters}”`);
  cellOf("number").classList.toggle("code", text !== "");
  const [label, old] = row.lastChild.firstChild.children;
  put(label, isAltered && was ? "was " : "");
  put(old, isAltered && was ? told(was.before, was.beforeValue) : "");
  put(row.lastChild.lastChild, will ? ` → ${told(will.after, will.afterValue)}` : "");
  row.classList.toggle("altered", isAltered);
  row.classList.toggle("next", Boolean(will));
  put(row.querySelector(".unseen"), [isAltered && "altered", ...more].filter(Boolean).join(", "));
}

// What a view holds: registers, flags, location and clock, and cells; each with its name, the part
// that may be asked for, and its word or what it says.
export const heldIn = (/** @type {View} */ { state, wordIn }, cells = []) => /** @type {any[]} */ ([
  ...state.registers.map((word) => ({ name: `r${word.name}`, part: word.name, word })),
  { name: nameOf("over"), part: "over", said: state.over ? "on" : "off" },
  { name: nameOf("cmp"), part: "cmp", said: COMPARED[state.cmp] },
  { name: "location", part: "", said: fourDigits(state.location) },
  { name: "clock", part: "", said: `${state.clock} u` },
  ...cells.map((cell) => ({ name: `cell ${fourDigits(cell)}`, part: `cell ${cell}`, word: wordIn(cell) })),
]);

// The cell to which each index register points: that which the first instruction from here on that
// uses a cell by it would use now.
export function pointersOf(/** @type {State} */ { cells, location }, isCode, isNear = isCell) {
  const found = new Map();
  const code = cells.filter(({ cell, instruction }) => instruction && isCode(cell));
  const ahead = code.filter(({ cell }) => cell >= location);
  for (const { instruction: { operation, index, address } } of [...ahead, ...code]) {
    const isUse = OPERATIONS.get(operation).uses === "cell" && index > 0 && isNear(Number(address));
    if (isUse && !found.has(index)) found.set(index, Number(address));
  }
  return found;
}

export function showRegisters(/** @type {View} */ view, /** @type {Listing} */ { places, lineOf }) {
  const [registers, flags] = [true, false].map((isWord) => heldIn(view).filter(({ word }) => Boolean(word) === isWord));
  const pointers = pointersOf(view.state, (cell) => lineOf.has(cell));
  const row = ({ part, name }) => wordRow(REGISTER_ROW, part, name);
  const held = () => make("dd", {}, make("span"), make("span", { class: "will" }));
  const flag = ({ name, part }) => make("div", {}, make("dt", {}, part ? asks(part, name) : name), held());
  keepRows($("register-rows"), registers, ({ part }) => part, row, (element, { part, word }) => {
    const cell = pointers.get(Number(part.slice(1)));
    const place = cell === undefined ? "" : placeOf(places, cell);
    const beside = cell === undefined ? "" : `→ ${fourDigits(cell)}${place ? ` (${place})` : ""}`;
    showWord(element, part, word, view, { beside });
  });
  keepStop($("register-rows"));
  keepRows($("flags"), flags, ({ name }) => name, flag, (element, { part, said }) => {
    const will = itemOf(view.next, part)?.after;
    put(element.lastChild.firstChild, said);
    put(element.lastChild.lastChild, will ? ` → ${COMPARED[will] || will}` : "");
    element.classList.toggle("altered", view.altered.has(part));
    element.classList.toggle("next", Boolean(will));
  });
}

// A moment as a text, to copy.
export function momentOf(/** @type {View} */ view, shown, lineOf) {
  const line = lineOf.get(view.state.location);
  const [more, held] = [{ location: line ? ` (line ${line})` : "" }, heldIn(view, shown)];
  const texts = held.filter(({ word }) => word).map(({ name, word: { word, number, characters } }) => {
    return `${name.replace("cell ", "").padEnd(4)} ${word.padEnd(16)} ${number.padStart(11)}  “${characters}”`;
  });
  const flags = held.filter(({ word }) => !word).map(({ name, said }) => `${name} ${said}${more[name] || ""}`);
  if (view.state.halted) flags.push("halted");
  texts.splice(view.state.registers.length, 0, flags.join(", "));
  return `${texts.join("\n")}\n`;
}

// The cells around M, which the next step uses; those that are not zero, or other than at the
// start; or a range.
export class Memory {
  middle = 0; // the cell around which cells are shown
  wanted = null; // the cell that is in view
  shownCells = [];

  constructor(/** @type {Store} */ store, /** @type {Listing} */ listing) {
    this.store = store;
    this.listing = listing;
    this.range = new CellRange(store, "cells", () => this.show());
    on("cells-which", "change", () => this.show());
    store.on("view", (_, answer) => this.show(Boolean(answer)));
    onResize($("cells-box"), () => this.reveal());
    store.on("forget", () => Object.assign(this, { middle: -1 }));
    walks("cell-rows", 10);
    walks("register-rows", 9);
  }

  showFrom(name, last = `${name}+19`) {
    $("cells-which").value = "range";
    this.range.choose([name, last]);
  }

  // The cells that are other than at the start.
  written(filled) {
    const { view, session: { first } } = this.store;
    const all = [...new Set([...filled, ...first.keys()])].sort((one, other) => one - other);
    return all.filter((cell) => view.wordIn(cell).word !== (first.get(cell) ?? NONE));
  }

  show(isDone = false) {
    const { store: { view }, listing: { places, isCode } } = this;
    if (!view) return;
    const { operation, address } = view.next?.instruction || {};
    const used = OPERATIONS.get(operation)?.uses === "cell" && isCell(address) ? Number(address) : null;
    const { cell: met, unit, until } = view.conflict || {};
    const first = this.middle < 0 ? Math.min(view.state.location, CELLS - 1) : null; // of another program
    const written = isDone && view.lastCell !== undefined ? view.lastCell : null;
    this.middle = met ?? used ?? written ?? first ?? this.middle;
    const near = upTo(Math.max(0, this.middle - 8), this.middle + 16);
    const filled = view.state.cells.map(({ cell }) => cell);
    const which = $("cells-which").value;
    const all = which === "written" ? this.written(filled) : { near, filled, range: this.range.cells }[which];
    const shown = all.slice(0, CELLS_SHOWN);
    this.shownCells = shown;
    const fresh = (cell) => wordRow(CELL_ROW, `cell ${cell}`, fourDigits(cell), { "data-cell": String(cell) });
    keepRows($("cell-rows"), shown, (cell) => cell, fresh, (element, cell) => {
      const isMet = cell === met;
      const more = [cell === used && "M", isMet && "conflict"];
      const text = isCode(cell) ? view.wordIn(cell).text : "";
      showWord(element, `cell ${cell}`, view.wordIn(cell), view, { more, text, beside: placeOf(places, cell) });
      element.classList.toggle("here", cell === used);
      element.classList.toggle("conflict", isMet);
      if (cell === this.middle) keepStop($("cell-rows"), element);
    });
    keepStop($("cell-rows"));
    put($("cells-use"), until ? `Cell ${fourDigits(met)}: unit ${unit} until ${until}` : "");
    const more = all.length - shown.length;
    const same = which === "written" ? "No cell is other than at the start." : "All cells are zero.";
    const none = all.length > 0 ? "" : same;
    put($("cells-more"), more > 0 ? `${more} more are not shown: choose a range.` : none);
    this.wanted = met ?? shown.find((cell) => view.altered.has(`cell ${cell}`)) ?? used ?? written ?? first;
    this.reveal();
    this.store.emit("cells");
  }

  reveal() {
    const [row, box] = [$("cell-rows").querySelector(`[data-cell="${this.wanted}"]`), $("cells-box")];
    if (!row) return;
    const { offsetTop: top, offsetHeight: high } = row;
    const isSeen = top >= box.scrollTop && top + high <= box.scrollTop + box.clientHeight;
    if (!isSeen) box.scrollTop = top - box.clientHeight / 3;
  }
}

// Gives the warnings of symbols that are not defined.
export function showSymbols({ symbols }, found, { listing, memory }) {
  const warnings = found.filter(({ code }) => code === "undefined-symbol");
  const textOf = ({ line, column, endColumn }) => [...listing.lineText(line)].slice(column - 1, endColumn - 1).join("");
  const missing = new Set(warnings.map((each) => textOf(each).toUpperCase()));
  const row = ({ name, value, number }) => {
    const label = `${name}: show the cells from there on`;
    const button = make("button", { type: "button", "aria-label": label, click: () => memory.showFrom(name) }, name);
    const isWrong = missing.has(name);
    const cells = [["number", number], ["word", value], ["", isWrong ? "not defined" : ""]];
    const head = make("th", { scope: "row" }, isCell(number) ? button : name);
    const parts = cells.map(([kind, text]) => make("td", { class: kind }, text));
    return make("tr", { class: isWrong && "wrong" }, head, ...parts);
  };
  $("symbol-rows").replaceChildren(...symbols.map(row));
  return warnings.length > 0 ? `Warning: ${warnings.map(({ text }) => text).join("; ")}.` : "";
}
