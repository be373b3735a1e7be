// The units: what was written, what is still to be read, tapes and disks by block.
import { $, all, counted, keepRows, make, put } from "./dom.js";

const CARDS_SHOWN = 200; // cards
const capital = (text) => text[0].toUpperCase() + text.slice(1);
const busyOf = ({ until }, { clock }) => (BigInt(until) > BigInt(clock) ? `, busy until ${until} u` : "");

export class Units {
  constructor(/** @type {Store} */ store) {
    this.store = store;
    this.open = new Set(); // the blocks that are shown, as "8 0"
    store.on("view", (view) => this.show(view));
    store.on("forget", () => this.open.clear());
  }

  get requests() {
    const named = [...this.open].map((key) => key.split(" ").map(Number));
    return named.map(([unit, block]) => ["mix/units", { unit, block }]);
  }

  show(/** @type {View} */ view) {
    const { state, units, blocks, altered, change } = view;
    const isRead = (/** @type {Unit} */ { unread, blocks: held }) => unread && held + unread.length > 0;
    const used = units.filter((unit) => !unit.rows || unit.delay !== "0" || isRead(unit));
    const fresh = ({ unit }) => make("div", { class: "unit", "data-unit": unit });
    keepRows($("unit-list"), used, ({ unit }) => unit, fresh, (box, unit) => {
      const busy = busyOf(unit, state);
      const open = [...blocks].filter(([key]) => key.startsWith(`${unit.unit} `) && this.open.has(key));
      const isOut = unit.kind === "tape" && change?.instruction?.operation === "OUT"; // it writes where the head was
      const items = (change?.items || []).filter(({ part }) => part === `unit ${unit.unit}`);
      const written = items.map(({ block, what, before }) => (isOut && what === "place" ? Number(before) : block));
      const drawn = JSON.stringify([{ ...unit, rows: 0, pages: 0 }, busy, open, written]);
      box.classList.toggle("altered", altered.has(`unit ${unit.unit}`));
      if (box.drawn === drawn) return;
      box.drawn = drawn;
      const focused = box.contains(document.activeElement) && document.activeElement.ariaLabel;
      const delay = unit.delay === "0" ? "" : `, delay ${unit.delay} u`;
      const title = make("h3", {}, make("b", {}, capital(unit.kind)), ` unit ${unit.unit}${delay}${busy}`);
      const shown = unit.rows ? [] : this.blocks(unit, open, written);
      box.replaceChildren(title, ...(unit.unread ? this.unread(unit) : shown));
      if (focused) all("[aria-label]", box).find(({ ariaLabel }) => ariaLabel === focused)?.focus();
    });
  }

  unread({ kind, unit, unread, place, blocks }) {
    if (blocks === 0 && unread.length === 0 && kind !== "card reader") return [];
    const thing = kind === "card reader" ? "cards" : "lines";
    const read = `${place} of ${blocks} ${thing} read`;
    if (unread.length === 0) return [make("p", {}, read)];
    const cards = unread.slice(0, CARDS_SHOWN).map((row) => make("div", { class: "card mono" }, row || " "));
    cards[0].classList.add("next");
    if (unread.length > CARDS_SHOWN) cards.push(make("p", {}, `… and ${unread.length - CARDS_SHOWN} more`));
    const region = regionOf("div", `Unit ${unit}: ${thing} still to be read`, { class: "cards" }, ...cards);
    return [make("p", {}, `${read}; still to be read:`), region];
  }

  // A strip of blocks, with the head at the next one; a click on a block shows its words.
  blocks({ unit, place, blocks }, open, written) {
    const list = Array.from({ length: blocks + 1 }, (_, block) => {
      const [isNext, isNew] = [block === place, written.includes(block)];
      const kind = `block${isNext ? " head" : ""}${isNew ? " altered" : ""}`;
      if (block === blocks) return make("span", { class: `${kind} end` });
      const [key, told] = [`${unit} ${block}`, `${isNext ? ", the next" : ""}${isNew ? ", just written" : ""}`];
      const given = { type: "button", "aria-expanded": String(this.open.has(key)), click: () => this.toggle(key) };
      return make("button", { ...given, class: kind, "aria-label": `block ${block}${told}` }, String(block));
    });
    const words = open.map(([key, each]) => {
      const text = each.map(({ word }, index) => word + (index % 5 === 4 ? "\n" : "   ")).join("");
      return regionOf("pre", `words of block ${key.split(" ")[1]}`, {}, text);
    });
    return [make("p", {}, `at block ${place} of ${blocks}`), make("div", { class: "tape" }, ...list), ...words];
  }

  toggle(key) {
    this.open[this.open.has(key) ? "delete" : "add"](key);
    this.store.look();
  }
}

// A part that can be scrolled by keys too.
function regionOf(name, label, given, ...children) {
  return make(name, { tabindex: "0", role: "region", "aria-label": label, ...given }, ...children);
}

// The paper of units, in a box; `whose` begins their names.
export class Papers {
  constructor(id, whose = "") {
    this.id = id;
    this.whose = whose;
  }

  show(/** @type {Partial<View>} */ { state, units, altered } = { units: [] }) {
    const written = units.filter(({ rows, pages }) => rows && rows.length + pages.length > 0);
    keepRows($(this.id), written, ({ unit }) => unit, (unit) => this.box(unit), (box, unit) => {
      this.update(box, unit, altered.has(`unit ${unit.unit}`), busyOf(unit, state));
    });
  }

  box({ kind, unit }) {
    const name = this.whose + kind;
    const title = make("h3", {}, make("b", {}, capital(name)), make("span", { class: "about" }));
    const look = { printer: " printer", "card punch": " punched" }[kind] || "";
    const given = { class: `paper${look}`, id: `${this.id.slice(0, -1)}-${unit}` };
    const paper = regionOf("div", `${name}: what was written`, given);
    return make("div", { class: "unit", "data-unit": unit }, title, paper);
  }

  // When more rows are written, the first of them is in view.
  update(box, /** @type {Unit} */ { unit, rows, pages }, isAltered, busy) {
    const paper = box.querySelector(".paper");
    const old = paper.childElementCount;
    const lines = withPages(rows, pages).map((text, at) => ({ text, at }));
    keepRows(paper, lines, ({ at }) => at, () => make("div"), (row, { text, at }) => {
      put(row, text ?? "new page");
      row.classList.toggle("page", text === null);
      row.classList.toggle("new", isAltered && at === lines.length - 1);
    });
    box.classList.toggle("altered", isAltered);
    put(box.querySelector(".about"), ` unit ${unit}, ${counted(rows.length, "row")}${busy}`);
    const topOf = (element) => element.getBoundingClientRect().top;
    if (lines.length > old) paper.scrollTop += topOf(paper.children[old]) - topOf(paper) - paper.clientTop;
  }
}

function withPages(rows, pages) {
  const pagesAt = (at) => pages.filter((page) => page === at).map(() => null);
  return [...rows.flatMap((row, at) => [...pagesAt(at), row]), ...pagesAt(rows.length)];
}
