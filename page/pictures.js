// Pictures of all changes: a strip of moments below the bars, the map of time, and the tints of
// lines and cells.
import { $, all, counted, heats, isPressed, mark, on, onResize, partOf, put, saved, sizeOf } from "./dom.js";
import { mapWith } from "./path.js";
import { fileOf, mapOf, stripOf } from "./svg.js";

const COLUMNS = 60; // of the strip, at most
const SHADES = 10;
const MOST_CHANGES = 50000; // after which cells have no tint

// One ask gives all of a picture; it is asked again only where the changes, or what is asked, are
// others. `find` asks a session for what is drawn, `draw` draws what was found, or nothing.
export class Picture {
  constructor(/** @type {Store} */ store) {
    this.store = store;
    store.on("forget", () => this.forget());
    this.forget();
  }

  get isOpen() { return false; }
  async find(/** @type {Session} */ _) { return /** @type {any} */ (null); }
  draw() {}

  forget() {
    this.of = /** @type {any} */ ("");
    this.changes = null;
    this.found = null;
    this.draw();
  }

  look(of) {
    const { session } = this.store;
    if (!this.isOpen || !session) return;
    if (this.of !== of || this.changes !== session.changes) this.store.enqueue(() => this.ask(of));
    if (this.found) this.draw();
  }

  async ask(of) {
    const { session } = this.store;
    if (this.of === of && this.changes === session.changes) return;
    Object.assign(this, { of, changes: session.changes, found: null }); // what fails or is stopped is not asked again
    try {
      this.found = await this.find(session);
    } finally {
      this.draw();
    }
  }
}

export function keepsPictures(store, name, what, selector) {
  const give = (id, work) => on(id, "click", () => {
    const drawn = all(selector);
    if (drawn.length > 0) work(fileOf(drawn));
    else store.tell("Nothing is drawn yet.", true);
  });
  give(`${name}-save`, (file) => saved(file, "image/svg+xml", `${name}.svg`));
  give(`${name}-copy`, (file) => store.copy(file, `The ${what}, as SVG,`));
}

// A column for each of some moments, a row for each cell, as dark as its value is large.
export class Strip extends Picture {
  constructor(store) {
    super(store);
    this.shown = null; // the cells that are drawn, by which field, the title
    on("strip", "click", (event) => {
      const column = this.found?.[Math.floor(partOf($("strip").firstChild, event) * this.found.length)];
      if (column) store.slide(column.moment);
    });
    on("bars-strip", "click", () => this.toggle(!this.isOpen));
  }

  get isOpen() { return isPressed("bars-strip"); }

  toggle(isOpen) {
    mark($("bars-strip"), "aria-pressed", isOpen);
    $("strip").hidden = !isOpen;
    if (isOpen) $("bars-box").open = true;
    if (this.shown) this.show(this.shown);
  }

  show(shown) {
    this.shown = shown;
    this.look([shown.field, ...shown.cells].join());
  }

  forget() {
    this.shown = null;
    super.forget();
  }

  async find(session) {
    const { cells, field } = this.shown;
    const count = Math.min(COLUMNS, session.total + 1);
    const momentOf = (index) => Math.round((session.total * index) / Math.max(1, count - 1));
    const moments = Array.from({ length: count }, (_, index) => momentOf(index));
    const found = await session.cellsAt(moments, cells, field);
    return found.map((values, index) => ({ moment: moments[index], values }));
  }

  draw() {
    $("strip").replaceChildren();
    if (!this.found) return;
    const { title, cells } = this.shown;
    $("strip").append(stripOf({ title, cells, columns: this.found, done: this.store.view.state.done }));
  }
}

// Of each of some groups of cells how often it was executed in each column, and how dark that is.
export function darksOf(sums, groups, width, total) {
  return groups.map((cells) => {
    const before = sums.map((times) => cells.reduce((sum, cell) => sum + times[cell], 0));
    const counts = before.slice(1).map((sum, column) => sum - before[column]);
    const darks = counts.map((count, column) => {
      return Math.ceil((SHADES * count) / (Math.min(total, (column + 1) * width) - column * width));
    });
    return { count: before[before.length - 1], darks };
  });
}

// Which lines were executed: a row for each label, darker where its lines were oftener; below what
// was written to units, and to the part of which somebody asked last who wrote it. The slider lies
// over it.
export class TimeMap extends Picture {
  constructor(store, /** @type {Listing} */ listing) {
    super(store);
    this.listing = listing;
    store.on("view", () => this.show());
    onResize($("map"), () => this.redraw());
  }

  get isOpen() { return true; }

  forget() {
    this.part = ""; // of which is shown when it was written
    this.drawn = null;
    super.forget();
  }

  watch(part) {
    this.part = part;
    this.show();
  }

  show() { this.look(`${this.part} ${this.listing.breakCells}`); }
  find(session) { return mapWith(session, this.part, this.store.view); }

  redraw() {
    this.drawn = null;
    this.draw();
  }

  // The lines of the program by their labels, in the order of the source.
  groups() {
    const { listing: { program, lineOf, breakCells }, found: { sums } } = this;
    const last = sums[sums.length - 1];
    const done = program.rows.filter(({ cell, line }) => line && last[cell] > 0);
    const rows = done.sort((one, other) => one.line - other.line);
    const groups = new Map();
    for (const { cell, line } of rows) {
      const name = this.listing.labelAbove(line);
      groups.set(name, [...(groups.get(name) || []), cell]);
    }
    const others = [...last.keys()].filter((cell) => last[cell] > 0 && !lineOf.get(cell));
    if (others.length > 0) groups.set("other", others);
    const isBreak = (cells) => cells.some((cell) => breakCells.includes(cell));
    return [...groups].map(([name, cells]) => ({ name, cells, isBreak: isBreak(cells) }));
  }

  draw() {
    const { found, store: { view }, listing } = this;
    if (!found || !view || !listing.program) {
      $("map").replaceChildren();
      return;
    }
    if (this.drawn?.of !== found) this.drawn = { of: found, ...this.picture() };
    const { future, present, x, right } = this.drawn;
    const at = x(view.state.done);
    future.setAttribute("x", at);
    future.setAttribute("width", Math.max(0, right - at));
    for (const end of ["x1", "x2"]) present.setAttribute(end, at);
  }

  picture() {
    const { total, width, sums, marks } = this.found;
    const groups = this.groups();
    const found = darksOf(sums, groups.map(({ cells }) => cells), width, total);
    const rows = groups.map((group, at) => ({ ...group, ...found[at] }));
    const [size, title] = [sizeOf($("map"), 1), `Map of ${counted(total, "change")}`];
    const drawn = mapOf({ title, text: this.textOf(rows), rows, columns: width, total, marks, size });
    $("map").replaceChildren(drawn.svg);
    $("slider").parentNode.style.setProperty("--left", `${drawn.x(0)}px`);
    return { ...drawn, right: drawn.x(Math.max(1, total)) };
  }

  textOf(rows) {
    const { total, width, marks } = this.found;
    const end = (column) => Math.min(total, (column + 1) * width);
    const told = rows.map(({ name, count, darks }) => {
      const [from, to] = [darks.findIndex(Boolean), darks.findLastIndex(Boolean)];
      return `${name}: ${counted(count, "time")}, between changes ${from * width + 1} and ${end(to)}.`;
    });
    const parts = marks.map(({ part, numbers }) => {
      const changes = counted(numbers.length, "change");
      return `Written to ${part} by ${changes}, the first ${numbers[0]}, the last ${numbers[numbers.length - 1]}.`;
    });
    return [...told, ...parts].join(" ");
  }
}

// Of each cell that is shown by how many of all changes altered it, which its row says too; the
// listing tints its lines.
export class Heat extends Picture {
  constructor(/** @type {Store} */ store, /** @type {Listing} */ listing, /** @type {Memory} */ memory) {
    super(store);
    this.memory = memory;
    store.on("cells", () => this.show());
    on("heat", "click", () => {
      mark($("heat"), "aria-pressed", !this.isOpen);
      $("main").classList.toggle("heat", this.isOpen); // a style that asks for the button takes time at each key
      listing.draw();
      this.show();
    });
  }

  get isOpen() { return isPressed("heat"); }

  show() {
    const { session } = this.store;
    if (this.isOpen && session && session.total <= MOST_CHANGES) this.look(this.memory.shownCells.join());
    else if (this.found) this.forget();
  }

  find(session) { return session.altersOf(this.memory.shownCells); }

  draw() {
    const counts = this.found || new Map();
    const heatOf = heats([...counts.values()]);
    for (const row of all("#cell-rows tr")) {
      const count = counts.get(Number(row.dataset.cell)) || 0;
      row.style.setProperty("--heat", heatOf(count));
      row.title = count > 0 ? `altered by ${counted(count, "change")}` : "";
      put(row.querySelector(".unseen + .unseen"), row.title);
    }
  }
}
