// A range of cells as bars, with the index registers that point into it.
import { $, counted, fourDigits, mark, on, onResize, put, sizeOf } from "./dom.js";
import { placeOf } from "./anatomy.js";
import { pointersOf } from "./memory.js";
import { Strip, keepsPictures } from "./pictures.js";
import { isNothingShown } from "./stage.js";
import { CellRange } from "./range.js";
import { OPERATIONS } from "./operations.js";
import { itemOf } from "./sentence.js";
import { WHOLE } from "./session.js";
import { barsOf } from "./svg.js";

const MAX_BARS = 120;
const LEAST_BARS = 5; // a range of fewer cells is not shown unless somebody asks for it
const SHOWS = /^\s*show\s+(?:cells|values)\s+(\S+)\s+(\S+)\s*$/i;
const FLIGHT = 180; // milliseconds in which a number goes along its way
const CALM = window.matchMedia("(prefers-reduced-motion: reduce)");
const FIELD = /^\s*([0-5]):([0-5])\s*$/;

export class Bars {
  constructor(/** @type {Store} */ store, /** @type {Listing} */ listing) {
    this.store = store;
    this.listing = listing;
    this.strip = new Strip(store);
    this.code = new Set(); // the cells of instructions
    this.range = new CellRange(store, "bars", () => this.show());
    for (const [id, event] of [["bars-box", "toggle"], ["bars-by", "change"], ["bars-field", "input"]]) {
      on(id, event, () => this.show());
    }
    store.on("view", (_, answer, before) => this.show(answer && before));
    onResize($("bars"), () => this.show());
    store.on("program", ({ rows }) => {
      this.code = new Set(rows.filter(({ instruction }) => instruction).map(({ cell }) => cell));
    });
    store.on("forget", () => this.forget());
    keepsPictures(store, "bars", "picture", "#stage:not(.strip) #bars svg, #strip:not([hidden]) svg");
  }

  get isOpen() { return $("bars-box").open; }
  get by() { return $("bars-by").value; }

  // The field by which they are drawn, as MIX writes it; null where what was written is none.
  get field() {
    if (!this.isOpen || this.by === "number") return WHOLE;
    if (this.by === "characters") return 13;
    const [, left, right] = FIELD.exec($("bars-field").value) || [];
    return left <= right ? 8 * Number(left) + Number(right) : null;
  }

  get cells() { return this.isOpen ? this.range.cells.slice(0, MAX_BARS) : []; }

  // What a file keeps of it; "" if it is shut.
  get kept() {
    const by = this.by === "field" ? $("bars-field").value.trim() : this.by;
    const kept = [...this.range.ends, by, ...(this.strip.isOpen ? ["strip"] : [])];
    return this.isOpen && kept.every((word) => /^\S+$/.test(word)) ? kept.join(" ") : "";
  }

  // Another program: the bars that were kept, or the widest range of cells that its script shows,
  // unless another picture is open.
  async open(kept, script) {
    const [from, to, by, strip] = kept.split(" ");
    const named = script.map((line) => SHOWS.exec(line)).filter(Boolean).map(([, first, last]) => [first, last]);
    const { store } = this;
    const isAsked = !kept && named.length > 0;
    const numbers = isAsked ? await store.enqueue(() => store.session.values(named.flat())) : [];
    if (!numbers) return; // another program was opened meanwhile
    const widths = named.map((_, index) => numbers[2 * index + 1] - numbers[2 * index] + 1 || 0);
    const best = Math.max(0, ...widths.filter((width) => width <= MAX_BARS));
    $("bars-by").value = FIELD.test(by) ? "field" : by === "characters" ? by : "number";
    if (FIELD.test(by)) $("bars-field").value = by;
    this.strip.toggle(strip === "strip");
    if (kept || (best >= LEAST_BARS && isNothingShown())) $("bars-box").open = true;
    await this.range.choose(kept ? [from, to] : named[widths.indexOf(best)] || ["0", "9"]);
  }

  forget() {
    this.range.cells = [];
    $("bars").replaceChildren();
  }

  show(/** @type {View} */ before = null) {
    const { cells, store } = this;
    const { view } = store;
    if (!view || cells.length === 0) return;
    const { field } = this;
    mark($("bars-field"), "aria-invalid", field === null);
    if (field !== null && field !== view.field) store.look();
    if (field !== view.field) return;
    const bars = this.bars(view, cells);
    const arrows = this.arrows(view.state, cells[0], cells[cells.length - 1]);
    const by = this.by === "field" ? ` (${field >> 3}:${field & 7})` : "";
    const title = `Cells ${this.range.ends.join(" to ")} by ${this.by}${by}`;
    const { cell: met, unit, until } = view.conflict || {};
    const conflict = cells.includes(met) ? { cell: met, use: `unit ${unit} until ${until}` } : null;
    const text = textOf(bars, arrows) + (conflict ? ` Conflict at ${met}: ${conflict.use}.` : "");
    const after = `after ${counted(view.state.done, "change")}`;
    const [size, nameOf] = [sizeOf($("bars")), (cell) => placeOf(this.listing.places, cell) || fourDigits(cell)];
    const [flow, moved] = [flowOf(view, view.next, cells), this.movedSince(before, view, cells)];
    const drawn = { title: `${title}, ${after}`, text, bars, arrows, conflict, flow, moved, size, nameOf };
    $("bars").replaceChildren(barsOf(drawn));
    this.fly(moved);
    this.strip.show({ cells, field, title });
    const all = this.range.cells.length;
    put($("bars-more"), all > cells.length ? `These are the first ${MAX_BARS} of ${counted(all, "cell")}.` : "");
  }

  // What a single step has moved, or a step back, which moves it back.
  movedSince(before, /** @type {View} */ view, cells) {
    const steps = before && before.field === view.field ? view.state.done - before.state.done : 0;
    if (Math.abs(steps) !== 1 || CALM.matches) return null;
    const flow = steps > 0 ? flowOf(before, before.next, cells) : flowOf(view, view.next, cells);
    return flow && !flow.isCompared ? { ...flow, isBack: steps < 0 } : null;
  }

  fly(moved) {
    const number = $("bars").querySelector(".flying");
    if (!number) return;
    Object.assign(number.style, { offsetPath: `path("${number.dataset.way}")`, offsetRotate: "0deg" });
    const way = [{ offsetDistance: "0%" }, { offsetDistance: "100%" }];
    number.animate(moved.isBack ? way.reverse() : way, FLIGHT).onfinish = () => number.remove();
  }

  bars(/** @type {View} */ { inField: { change, next }, wordIn }, cells) {
    return cells.map((cell) => {
      const { value, characters } = wordIn(cell);
      const [written, will] = [change, next].map((each) => itemOf(each, `cell ${cell}`));
      const text = this.by === "characters" ? characters.trimEnd() : value;
      const [was, after] = [written?.beforeValue ?? value, will?.afterValue ?? value].map(Number);
      const willText = will && (this.by === "characters" ? will.after : will.afterValue);
      const is = { isWritten: Boolean(written), isNext: Boolean(will) };
      return { cell, value: Number(value), text, was, will: after, willText, ...is };
    });
  }

  // The index registers that point to a cell of the range, or beside it: of each the cell that the
  // first instruction that uses it for one of these would use now.
  arrows(/** @type {State} */ state, from, to) {
    const isNear = (cell) => cell >= from - 1 && cell <= to + 1;
    const found = pointersOf({ ...state, location: 0 }, (cell) => this.code.has(cell), isNear);
    return [...found].sort().map(([index, cell]) => ({ name: `rI${index}`, cell }));
  }
}

// What the next step brings from a register to a cell of the range, or from there to the register;
// or compares.
function flowOf({ state }, next, cells) {
  const { operation, address } = next?.instruction || {};
  const cell = Number(address);
  const { name = "", register } = OPERATIONS.get(operation) || {};
  const [isStore, isLoad, isCompared] = ["ST", "LD", "CMP"].map((begin) => name.startsWith(begin) && Boolean(register));
  if (!(isStore || isLoad || isCompared) || !cells.includes(cell) || !next.items) return null;
  const held = state.registers.find((each) => `r${each.name}` === register).number;
  const given = isLoad ? next.items.find(({ part }) => `r${part}` === register)?.afterValue ?? held : held;
  const number = isCompared ? `${held} ? ${next.instruction.value}` : given;
  return { cell, register, number, isLoad: isLoad || isCompared, isCompared };
}

function textOf(bars, arrows) {
  const [first, last] = [bars[0].cell, bars[bars.length - 1].cell];
  const told = bars.map(({ cell, text, isWritten, was, value, isNext, will }) => {
    const written = was === value ? " (written)" : ` (written, was ${was})`;
    return `${cell}: ${text || "blank"}${isWritten ? written : ""}${isNext ? ` (will be ${will})` : ""}`;
  });
  const place = (cell) => (cell < first ? `before ${first}` : cell > last ? `behind ${last}` : `to ${cell}`);
  return [`${told.join(", ")}.`, ...arrows.map(({ name, cell }) => `${name} points ${place(cell)}.`)].join(" ");
}
