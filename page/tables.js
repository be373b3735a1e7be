// Tables of what the engine says of all changes: the counts of the book beside those measured, and
// the passages of a line.
import { $, counted, keepRows, make, mark, on, put } from "./dom.js";
import { refusalOf } from "./machine.js";
import { OPERATIONS } from "./operations.js";
import { Picture } from "./pictures.js";

const [HOLDS, FAILS] = [["✓ ", "holds"], ["✗ ", "fails"]];
const VERDICTS = { ok: HOLDS, true: HOLDS, no: FAILS, false: FAILS };

export function csvOf(rows) {
  const spelled = (text) => (/^(?!-\d+$)[=+@\t\r-]/.test(text) ? `'${text}` : text); // no formula of a spreadsheet
  const quoted = (text) => (/[",\n]/.test(text) ? `"${text.replaceAll('"', '""')}"` : text);
  return rows.map((row) => `${row.map(spelled).map(quoted).join(",")}\n`).join("");
}

// What the engine tells of formulas: a row for each line that has one, and what is said beside them.
export function analysisIn({ lines, text }) {
  const rows = lines.map(({ line, formula, value, count, verdict }) => [String(line), formula, value, count, verdict]);
  return { heads: ["line", "formula", "value", "count", "equal"], rows, more: text.trimEnd() };
}

// And of passages: a row for each, whose last word is of the assertion, if there is one.
export function passagesIn({ columns, assertion, rows, before }) {
  const told = rows.map(({ state, numbers, holds }) => [state, ...numbers, ...(assertion ? [holds] : [])].map(String));
  const more = before ? `.. and ${before} before` : "";
  return { heads: ["state", ...columns, assertion].filter(Boolean), rows: told, more };
}

// The answer to a request, whose words a field completes. A click on a row chooses its first number.
class Table extends Picture {
  constructor(/** @type {Store} */ store, /** @type {Listing} */ listing) {
    super(store);
    const { name } = this;
    this.listing = listing;
    store.on("view", () => this.show());
    on(`${name}-box`, "toggle", () => this.show());
    on(`${name}-asked`, "input", () => this.show());
    on(`${name}-copy`, "click", () => store.copy(csvOf([this.found.heads, ...this.found.rows]), "The table, as CSV,"));
    on(`${name}-rows`, "click", ({ target }) => {
      const row = target.closest("tr");
      if (row) this.choose(Number(row.dataset.key));
    });
  }

  get name() { return ""; }
  get isMoment() { return false; } // whether a row is that of a moment
  get isOpen() { return $(`${this.name}-box`).open; }
  get asked() { return $(`${this.name}-asked`).value.trim(); }

  // What a file keeps of it; "" if it is shut.
  get kept() { return this.isOpen ? this.asked : ""; }

  open(kept, isOpen) {
    $(`${this.name}-asked`).value = kept;
    $(`${this.name}-box`).open = isOpen;
  }

  show() { this.look(this.asked); }
  choose(_) {}
  read(_) { return {}; }

  async find(session) {
    const answer = await session.told([`mix/${this.name}`, { of: this.of }]);
    const read = answer.success ? this.read(answer.body) : { heads: [], rows: [] };
    return { ...read, total: session.total, refusal: refusalOf(answer) };
  }

  draw() {
    const { name, found, store: { view } } = this;
    const { heads = [], rows = [], more = "", refusal = "", total = 0 } = found || {};
    const after = found && !refusal ? `After ${counted(total, "change")}.` : "";
    put($(`${name}-fault`), refusal && `Not shown: ${refusal}.`);
    put($(`${name}-more`), [after, more].filter(Boolean).join("\n"));
    $(`${name}-copy`).disabled = rows.length === 0;
    $(`${name}-heads`).replaceChildren(...heads.map((text) => make("th", { scope: "col" }, text)));
    const here = rows.findLast(([first]) => Number(first) <= (view ? view.state.done : 0));
    const fresh = ([first]) => make("tr", {}, make("th", { scope: "row" }, make("button", { type: "button" }, first)));
    keepRows($(`${name}-rows`), rows, ([first]) => first, fresh, (row, words) => {
      const [sign, kind] = VERDICTS[words[words.length - 1]] || ["", "number"]; // only the last one is a verdict
      const cells = words.slice(1).map((word) => make("td", { class: "number" }, word));
      Object.assign(cells[cells.length - 1], { className: kind, textContent: `${sign}${words[words.length - 1]}` });
      row.replaceChildren(row.firstChild, ...cells);
      mark(row.firstChild.firstChild, "aria-current", this.isMoment && words === here ? "step" : "false");
    });
  }
}

export class Analysis extends Table {
  get name() { return "analysis"; }
  read(body) { return analysisIn(body); }
  choose(line) { this.listing.source.goTo(line); }
}

export class Passages extends Table {
  get name() { return "passages"; }
  get isMoment() { return true; }
  read(body) { return passagesIn(body); }
  choose(moment) { this.store.slide(moment); }

  // At first the passages of the line of the cursor, with the registers that the program loads.
  show() {
    const { listing: { program, source }, store: { view } } = this;
    if (this.isOpen && this.asked === "" && program && view && document.activeElement !== $("passages-asked")) {
      const cells = new Set(program.rows.filter(({ instruction }) => instruction).map(({ cell }) => cell));
      const code = view.state.cells.filter(({ cell }) => cells.has(cell));
      const names = code.map(({ instruction }) => OPERATIONS.get(instruction?.operation)?.register);
      const registers = [...new Set(names)].filter(Boolean).sort();
      $("passages-asked").value = `line ${source.caretLine} of ${registers.join(" ") || "rA"}`;
    }
    super.show();
  }
}
