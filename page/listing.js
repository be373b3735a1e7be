// Beside each line its location, its word and how often it was executed. The lines of the last and
// of the next step are marked, with a bow where a jump lies between, and those with a fault.
import { placesIn } from "./anatomy.js";
import { $, between, fourDigits, heats, isPressed, make, mark, on, onResize, put, stepOf } from "./dom.js";
import { Source } from "./source.js";

const PAGE = 15; // lines
const PLACES = ["wrap", "gutter"]; // where a line has its class

export class Listing {
  points = new Set(); // the lines with a breakpoint
  classed = []; // lines with a class
  marks = []; // of what is wrong
  found = /** @type {Found[]} */ ([]); // faults and warnings
  said = new Map(); // their texts, by their lines
  marked = 0; // the line that is next
  left = 0; // the line just done
  stop = null; // the line to which the tab key comes
  bow = make("div", { class: "bow", "aria-hidden": "true" });

  constructor(/** @type {Store} */ store, grammar) {
    this.store = store;
    this.source = new Source(grammar, {
      edited: (changes) => this.edited(changes),
      refused: (reason) => store.tell(`The text was not taken: ${reason}.`, true),
      moved: (told) => store.tell(told),
      drawn: () => this.draw(),
      said: (line) => this.said.get(line),
      symbols: () => (this.program ? this.program.symbols.map(({ name }) => name) : []),
    });
    this.cm = this.source.cm;
    this.setProgram(null);
    on("listing", "click", ({ target }) => {
      const row = target.closest(".line");
      if (row) this.ask(Number(row.firstChild.textContent));
    });
    on("listing", "keydown", (event) => this.walk(event));
    on("columns", "click", () => this.shut(!this.isShut));
    onResize($("listing"), () => {
      this.cm.refresh();
      this.reveal();
    });
    window.addEventListener("beforeprint", () => this.print());
  }

  get text() { return this.source.text; }

  set text(text) {
    this.points.clear();
    this.setProgram(null);
    this.source.text = text;
    this.draw();
  }

  // Another text, by an edit of the lines that differ. It can be undone, and breakpoints elsewhere
  // stay.
  replace(text) {
    const [old, lines] = [this.text, text].map((each) => each.split("\n"));
    const least = Math.min(old.length, lines.length);
    let [head, tail] = [0, 0];
    while (head < least && old[head] === lines[head]) head += 1;
    while (tail < least - head && old[old.length - 1 - tail] === lines[lines.length - 1 - tail]) tail += 1;
    const more = lines.slice(head, lines.length - tail).map((line) => `${line}\n`).join("");
    if (text !== this.text) this.cm.replaceRange(more, { line: head, ch: 0 }, { line: old.length - tail, ch: 0 });
  }

  // The label of the line, or of the last line above it that has one.
  labelAbove(line) {
    const labels = this.text.split("\n", line).map((text) => text.split(/[ \t]/)[0]);
    return labels.findLast((label) => label && !label.startsWith("*"))?.toUpperCase() ?? `line ${line}`;
  }

  lineText(line) { return this.cm.getLine(line - 1) || ""; }

  edited(changes) {
    if (changes.some(({ text, removed }) => text.length !== removed.length)) this.draw();
    if (changes.some(({ text }) => text.some((line) => line.startsWith("%")))) this.store.emit("bundle", this.text);
    else this.store.edited();
  }

  // A breakpoint goes with its line.
  get breaks() {
    const lines = [...this.points].map((handle) => this.cm.getLineNumber(handle));
    return lines.filter((line) => line !== null).map((line) => line + 1).sort((a, b) => a - b);
  }

  toggle(line) { // whether it is set now
    const handle = this.cm.getLineHandle(line - 1);
    const isSet = Boolean(handle) && !this.points.delete(handle);
    if (isSet) this.points.add(handle);
    this.draw();
    return isSet;
  }

  ask(asked) {
    const { store } = this;
    const line = this.lineFrom(asked);
    if (!line) return store.tell(`No line from ${asked} on gives a word, so there is no breakpoint.`, true);
    const told = this.toggle(line) ? "Breakpoint" : "No breakpoint";
    const why = line === asked ? "" : `, the first from line ${asked} on that gives a word`;
    return store.tell(`${told} at line ${line}${why}.`);
  }

  // The line that gives the word of a breakpoint asked for at a line; 0 where none does.
  lineFrom(line) {
    if (!this.program || this.cellOf.has(line)) return line;
    const lines = [...this.cellOf.keys()].filter((other) => other >= line);
    return lines.length > 0 ? Math.min(...lines) : 0;
  }

  get breakCells() {
    const cells = this.breaks.map((line) => this.cellOf.get(this.lineFrom(line)));
    return [...new Set(cells)].filter((cell) => cell !== undefined).sort((a, b) => a - b);
  }

  // No program while the text is refused.
  setProgram(program) {
    const rows = program ? program.rows : [];
    this.program = program;
    this.lineOf = new Map(rows.map(({ line, cell }) => [cell, line]));
    this.cellOf = new Map(rows.filter(({ line }) => line).map(({ line, cell }) => [line, cell]));
    const code = new Set(rows.filter(({ instruction }) => instruction).map(({ cell }) => cell));
    this.isCode = (cell) => code.has(cell) && this.store.view?.wordIn(cell).instruction;
    this.places = program ? placesIn(program, this.text) : [];
    if (!program) this.mark(0, 0);
  }

  get isShut() { return !isPressed("columns"); }

  shut(isShut) {
    mark($("columns"), "aria-pressed", !isShut);
    $("source").classList.toggle("shut", isShut);
    this.cm.refresh();
    this.reveal();
  }

  // Marks the line at the location, or that of a HLT which was done, and the one that was left.
  show(/** @type {View} */ { state, change }) {
    const last = this.lineOf.get(change?.location) || 0;
    $("listing").classList.toggle("halted", state.halted);
    this.mark(state.halted ? last : this.lineOf.get(state.location) || 0, state.halted ? 0 : last);
  }

  // When both sentences stand at their lines.
  reveal() {
    const { cm, marked, left } = this;
    this.source.reveal(marked, left);
    if (!marked || !left || Math.abs(marked - left) < 2) return;
    const middle = (line) => cm.heightAtLine(line - 1, "local") + cm.defaultTextHeight() / 2;
    const [top, bottom] = [middle(Math.min(left, marked)), middle(Math.max(left, marked))];
    this.bow.className = `bow ${marked < left ? "up" : "down"}`;
    cm.addWidget({ line: 0, ch: 0 }, this.bow);
    Object.assign(this.bow.style, { top: `${top}px`, height: `${bottom - top}px`, left: "" });
  }

  mark(marked, left) {
    const { cm } = this;
    Object.assign(this, { marked, left });
    this.bow.remove();
    const found = this.found.map(({ line, isFault }) => [line, isFault ? "wrong" : "warned"]);
    const wanted = [[marked, "at"], [left === marked ? 0 : left, "left"], ...found];
    cm.operation(() => {
      for (const [handle, name] of this.classed) for (const where of PLACES) cm.removeLineClass(handle, where, name);
      this.classed = wanted.map(([line, name]) => [cm.getLineHandle(line - 1), name]).filter(([handle]) => handle);
      for (const [handle, name] of this.classed) for (const where of PLACES) cm.addLineClass(handle, where, name);
    });
    this.draw();
  }

  draw() {
    const { cm, store: { view } } = this;
    const { from, to } = cm.getViewport();
    const isDrawn = (handle) => handle && between(from, cm.getLineNumber(handle), to - 1) === cm.getLineNumber(handle);
    const heatOf = isPressed("heat") && view ? heats([...view.times]) : () => 0;
    let stop = [this.stop, cm.getLineHandle(this.marked - 1)].find(isDrawn);
    cm.operation(() => cm.eachLine(from, to, (handle) => {
      stop ??= handle;
      this.drawRow(handle, cm.getLineNumber(handle) + 1, handle === stop, heatOf);
    }));
  }

  rowOf(handle) { return handle.gutterMarkers?.beside; } // what was drawn beside a line

  drawRow(handle, line, isStop, heatOf) {
    if (!this.rowOf(handle)) {
      const beside = ["loc", "word", "times"].map((kind) => make("span", { class: kind }));
      const given = { class: "line", "cm-ignore-events": "true" };
      this.cm.setGutterMarker(handle, "beside", make("div", given, make("button", { type: "button" }), ...beside));
    }
    const row = this.rowOf(handle);
    const [button, ...beside] = row.children;
    const [known, isSet] = [this.knownOf(line), this.points.has(handle)];
    const [heat, title] = [heatOf(Number(known.times)), this.said.get(line) || ""];
    const drawn = [line, ...Object.values(known), isSet, isStop, heat, title].join(" ");
    if (row.drawn === drawn) return;
    row.drawn = drawn;
    put(button, String(line));
    for (const span of beside) put(span, known[span.className]);
    row.style.setProperty("--heat", heat);
    Object.assign(button, { tabIndex: isStop ? 0 : -1, title });
    const said = known.loc ? `, location ${known.loc}, ${known.word}, ${known.times || "0"} times` : "";
    mark(button, "aria-label", `Line ${line}${said}: breakpoint`);
    mark(button, "aria-pressed", isSet);
  }

  knownOf(line) {
    const { view } = this.store;
    const cell = this.cellOf.get(line);
    if (cell === undefined || !view) return { loc: "", word: "", times: "" };
    return { loc: fourDigits(cell), word: view.wordIn(cell).word, times: String(view.times[cell] || "") };
  }

  walk(event) {
    const [row, step] = [event.target.closest(".line"), stepOf(event.key, PAGE)];
    if (!row || !step) return;
    event.preventDefault();
    const line = between(1, Number(row.firstChild.textContent) + step, this.cm.lineCount());
    this.stop = this.cm.getLineHandle(line - 1);
    this.source.reveal(line);
    this.draw();
    this.rowOf(this.stop).firstChild.focus();
  }

  setFound(/** @type {Found[]} */ found) {
    const { cm } = this;
    for (const each of this.marks) each.clear();
    this.marks = found.filter(({ column }) => column).map(({ line, column, endColumn, isFault }) => {
      const letters = [...this.lineText(line)]; // some are two of those that the editor counts
      const place = (at) => ({ line: line - 1, ch: letters.slice(0, at - 1).join("").length });
      const first = column === endColumn ? Math.max(1, column - 1) : column; // the letter before what is missing
      return cm.markText(place(first), place(endColumn), { className: isFault ? "fault-text" : "warned-text" });
    });
    this.found = found;
    this.said.clear();
    for (const { line, text } of found) this.said.set(line, [this.said.get(line), text].filter(Boolean).join("; "));
    mark($("text"), "aria-invalid", found.some(({ isFault }) => isFault));
    this.mark(this.marked, this.left);
  }

  print() {
    const rows = this.text.split("\n").map((text, index) => {
      const beside = [String(index + 1), ...Object.values(this.knownOf(index + 1))].map((each) => make("td", {}, each));
      return make("tr", {}, ...beside, make("td", { class: "source" }, text));
    });
    $("printed").replaceChildren(...rows);
  }
}
