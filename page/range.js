// A range of cells, whose ends a person writes as W-values.
import { $, mark, put } from "./dom.js";

export const CELLS = 4000;
export const isCell = (number) => number >= 0 && number < CELLS;

export function upTo(from, to) {
  const last = Math.min(to, CELLS - 1);
  return Array.from({ length: Math.max(0, last - from + 1) }, (_, index) => from + index);
}

export class CellRange {
  cells = [];

  // `name` begins the ids of its fields; `taken` hears of another range.
  constructor(/** @type {Store} */ store, name, taken) {
    this.store = store;
    this.taken = taken;
    this.fault = `${name}-fault`;
    this.fields = [$(`${name}-from`), $(`${name}-to`)];
    for (const field of this.fields) field.addEventListener("input", () => this.ask());
    store.on("program", () => this.ask());
  }

  get ends() { return this.fields.map((field) => field.value.trim()); }

  choose(ends) {
    this.fields.forEach((field, index) => Object.assign(field, { value: ends[index] }));
    return this.ask();
  }

  async ask() {
    const { store, ends } = this;
    const numbers = await store.enqueue(() => store.session.values(ends), () => null);
    if (!numbers) return;
    const faults = ends.flatMap((end, index) => {
      mark(this.fields[index], "aria-invalid", !isCell(numbers[index]));
      if (isCell(numbers[index])) return [];
      const number = `is ${numbers[index]}, and cells are 0 to 3999`;
      const none = "has no value: write a number or a symbol of the program, as TABLE+1";
      return [`“${end || "nothing"}” ${Number.isNaN(numbers[index]) ? none : number}`];
    });
    const [from, to] = numbers;
    if (faults.length === 0 && from > to) faults.push(`the range ends at ${to}, before it begins at ${from}`);
    put($(this.fault), faults.length > 0 ? `Not shown: ${faults[0]}.` : "");
    if (faults.length > 0) return;
    this.cells = upTo(from, to);
    this.taken();
  }
}
