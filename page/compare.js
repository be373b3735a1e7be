// Two runs side by side after as many changes. The one that was kept has an engine of its own, and
// does its commands again.
import { $, all, counted, keepRows, listed, make, on, put } from "./dom.js";
import { Machine } from "./machine.js";
import { heldIn } from "./memory.js";
import { Picture } from "./pictures.js";
import { Session, WHOLE } from "./session.js";
import { Papers } from "./units.js";

const CELLS_COMPARED = 100; // cells that differ
const MOST_NAMES = 30; // of what differs
const valueOfPart = ({ name, word, said }) => [name, said ?? `${word.number} “${word.characters}”`];

export class Compare extends Picture {
  constructor(store) {
    super(store);
    this.machine = new Machine(store.machine.program, store.machine.module);
    store.on("view", (view) => this.look(view));
    this.papers = new Papers("other-papers", "the other run’s ");
    on("compare-open", "click", () => store.enqueue(() => this.keep()));
    on("compare-close", "click", () => this.close());
    on("stop", "click", () => this.machine.stop());
  }

  get isOpen() { return Boolean(this.session); }

  keep() {
    const { texts, log, state } = this.store.session;
    const other = new Session(this.machine, texts, () => ({ blocks: [], field: WHOLE }));
    this.session = Object.assign(other, { log: [...log], state });
    this.forget();
    $("stage-tabs").querySelector("[data-box=compare-box]").hidden = false;
    $("compare-box").open = true;
    this.look(this.store.view);
  }

  close() {
    this.session = null;
    this.machine.stop();
    this.machine.end();
    $("compare").hidden = true;
    $("stage-tabs").querySelector("[data-box=compare-box]").hidden = true;
    if ($("compare-box").open) $("output-box").open = true;
    this.papers.show();
    for (const row of all("#papers .differs")) row.classList.remove("differs");
    $("compare-open").focus();
  }

  // After all of its changes, if more are done here.
  async find() {
    const { session, of: { state: { done } } } = this;
    return session.look(Math.min(done, session.total));
  }

  // Nothing while another moment is shown already.
  draw() {
    const { found: other, of: view, session } = this;
    if (!other || !session || view !== this.store.view) return;
    const cells = differingCells(view, other);
    const more = Math.max(0, cells.length - CELLS_COMPARED);
    const [mine, others] = [view, other].map((each) => heldIn(each, cells).map(valueOfPart));
    const rows = mine.map(([name, here], at) => ({ name, here, there: others[at][1] }));
    this.papers.show(other);
    const printed = markRows();
    $("compare").hidden = false;
    const behind = view.state.done > session.total ? ", and is shown after the last of them" : "";
    put($("compare-what"), `The other run has ${counted(session.total, "change")}${behind}.`);
    const different = [...rows.filter(({ here, there }) => here !== there).map(({ name }) => name), ...printed];
    const told = `Different: ${listed(different, MOST_NAMES)}.`;
    put($("compare-text"), different.length > 0 ? told : "Nothing is different.");
    const shown = rows.slice(0, rows.length - more);
    keepRows($("compare-rows"), shown, ({ name }) => name, freshRow, ({ children }, { name, here, there }) => {
      const isSame = here === there;
      [`${name}${isSame ? "" : " ≠"}`, here, there].forEach((text, index) => put(children[index], text));
      children[0].parentNode.classList.toggle("differs", !isSame);
    });
    put($("compare-more"), more > 0 ? `${more} more cells are different.` : "");
  }
}

const freshRow = () => make("tr", {}, make("th", { scope: "row" }), make("td"), make("td"));

function differingCells(/** @type {View} */ view, /** @type {View} */ other) {
  const cells = new Set([...view.state.cells, ...other.state.cells].map(({ cell }) => cell));
  return [...cells].filter((cell) => view.wordIn(cell).word !== other.wordIn(cell).word).sort((a, b) => a - b);
}

// Marks rows that only one run has written, or that differ; their names.
function markRows() {
  const rowsOf = (box, unit) => all(`#${box} [data-unit="${unit}"] .paper div:not(.page)`);
  const units = new Set(all(":is(#papers, #other-papers) [data-unit]").map(({ dataset }) => dataset.unit));
  return [...units].flatMap((unit) => {
    const [mine, others] = [rowsOf("papers", unit), rowsOf("other-papers", unit)];
    const longer = mine.length > others.length ? mine : others;
    return longer.flatMap((_, at) => {
      const [one, two] = [mine[at], others[at]];
      const isSame = one && two && one.textContent === two.textContent;
      for (const row of [one, two]) if (row) row.classList.toggle("differs", !isSame);
      return isSame ? [] : [`row ${at + 1} of unit ${unit}`];
    });
  });
}
