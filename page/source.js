// The source in CodeMirror: colours, keys for columns, finding, folding, completion.
import { kindOf } from "./colours.js";
import { $, TURNS, all, furnished, make, nameOfTurn, on } from "./dom.js";
import { explained, namesOfAll } from "./operations.js";

const MOST_LETTERS = 1048576; // the engine takes no more bytes, and a browser draws a longer line for too long
const FIELD_COLUMNS = [0, 8, 13, 26]; // where label, operation, address and remark begin
const TAB = 8; // columns
const SHOWN_AROUND = 25; // lines beside those in view that are drawn too

// Why a text is not put into the editor. What the engine does not take is seen there.
export function tooLarge({ length }) {
  const [found, most] = [length, MOST_LETTERS].map((number) => number.toLocaleString("en"));
  return length > MOST_LETTERS ? `it has ${found} letters, and a source has at most ${most} bytes` : "";
}

const SPECIAL = /[\u0000-\u001f\u007f-\u009f\u00ad\u061c\u200b\u200e\u200f\u2028\u2029\ufeff\ufff9-\ufffc]/;
const specialChars = new RegExp(`${SPECIAL.source}|${TURNS.source}`);

// What is seen of a character that otherwise is not: its number, of one that turns the direction.
function specialCharPlaceholder(letter) {
  const name = nameOfTurn(letter);
  return make("span", { class: "cm-invalidchar", title: name, "aria-label": name }, letter.match(TURNS) ? name : "•");
}

const isRemark = (text) => text.startsWith("*");

function operationAt(text) {
  const [before] = (isRemark(text) ? null : /^\S*[ \t]+(?=\S)/.exec(text)) || [""];
  return before.length || undefined;
}

// A new line begins at the column of the operation above; behind a remark, at the first one. What
// is broken off stays at its column, and so does an operation.
function modeOf(grammar) {
  const begin = (text, state) => {
    const [column, isBlank] = [operationAt(text) ?? state.column, text !== "" && text.trim() === ""];
    Object.assign(state, grammar(text, state.open), { column, isBlank, indented: isRemark(text) ? 0 : column });
  };
  return () => ({
    startState: () => ({ open: null, names: [], column: FIELD_COLUMNS[1], indented: FIELD_COLUMNS[1] }),
    copyState: (state) => ({ ...state }),
    blankLine: (state) => begin("", state),
    indent({ indented, isBlank }, after, line) {
      const isKept = after !== "" && (!isBlank || isRemark(after));
      return isKept ? window.CodeMirror.countColumn(line, null, TAB) : indented;
    },
    token(stream, state) {
      if (stream.sol()) begin(stream.string, state);
      const { names } = state;
      const name = names[stream.pos];
      while (!stream.eol() && names[stream.pos] === name) stream.next();
      return kindOf(name) || null;
    },
  });
}

// At the first of some remark lines: all up to the next of such lines.
function foldAt(cm, { line }) {
  if (!isRemark(cm.getLine(line)) || (line > 0 && isRemark(cm.getLine(line - 1)))) return undefined;
  let last = line;
  while (last < cm.lastLine() && isRemark(cm.getLine(last + 1))) last += 1;
  while (last < cm.lastLine() && !isRemark(cm.getLine(last + 1))) last += 1;
  while (last > line && cm.getLine(last).trim() === "") last -= 1;
  const end = (at) => window.CodeMirror.Pos(at, cm.getLine(at).length);
  return { from: end(line), to: end(last) };
}

// A word alone at the column of the operation that is none is a label, and begins its line.
function moveLabel(cm, told) {
  const { line, ch } = cm.getCursor();
  const text = cm.getLine(line);
  const [, word] = /^[ \t]+([A-Z\d]*[A-Z][A-Z\d]*)$/i.exec(text) || [];
  if (!word || ch !== text.length || namesOfAll().includes(word.toUpperCase())) return false;
  cm.replaceRange(`${word.padEnd(FIELD_COLUMNS[1] - 1)} `, { line, ch: 0 }, { line, ch }, "+input");
  told(`${word} is no operation, so it is a label now: a label begins in column 1.`);
  return true;
}

// Over blanks or over the rest of a word; behind the text it makes blanks.
function nextColumn(cm) {
  const { line, ch } = cm.getCursor();
  const text = cm.getLine(line);
  const next = /\S*[ \t]+(?=\S)/g;
  next.lastIndex = ch;
  const found = next.exec(text);
  if (found && found.index === ch) return cm.setCursor({ line, ch: ch + found[0].length });
  const column = FIELD_COLUMNS.find((at) => at > text.length) ?? text.length + 1;
  cm.setCursor({ line, ch: text.length });
  return cm.replaceSelection(" ".repeat(column - text.length), "end", "+input");
}

// Blanks that nothing follows are taken away.
function columnBefore(cm) {
  const { line, ch } = cm.getCursor();
  const text = cm.getLine(line);
  const column = FIELD_COLUMNS.findLast((at) => at < ch) ?? 0;
  if (text.slice(column).trim() === "") cm.replaceRange("", { line, ch: column }, { line, ch: text.length }, "+input");
  cm.setCursor({ line, ch: column });
}

export class Source {
  // `edited` and `drawn` are called after an edit and when other lines are drawn, `refused` with
  // the reason why a text was not taken; `said` gives what is said of a line.
  constructor(grammar, { edited, refused, moved, drawn, said, symbols }) {
    const { CodeMirror } = window;
    CodeMirror.defineMode("mixal", modeOf(grammar));
    const hints = (cm) => this.hints(cm, symbols());
    const complete = (cm) => cm.showHint({ hint: hints, completeSingle: false });
    const orElse = (work) => (cm) => moveLabel(cm, moved) || work(cm);
    const keys = { Tab: orElse(nextColumn), Space: orElse(() => CodeMirror.Pass) };
    const extraKeys = { ...keys, "Shift-Tab": columnBefore, "Ctrl-Space": complete };
    const gutters = ["beside", "CodeMirror-foldgutter"];
    const off = { specialChars, specialCharPlaceholder, maxHighlightLength: 2000, electricChars: false };
    this.cm = CodeMirror($("listing"), {
      mode: "mixal", theme: "mix", lineWrapping: true, gutters, foldGutter: { rangeFinder: foldAt }, extraKeys,
      tabSize: TAB, viewportMargin: SHOWN_AROUND, screenReaderLabel: "Source", undoDepth: 1000, dragDrop: false, ...off,
    });
    const { cm } = this;
    furnished(cm.getInputField(), {
      id: "text", title: "Tab goes to the next column. After Escape it leaves the source.",
      "aria-keyshortcuts": "F9", "aria-describedby": "wrong-text",
    }, []);
    let leaves = false; // Escape was pressed last
    cm.on("keydown", (_, event) => {
      if (event.key === "Tab" && leaves) event.codemirrorIgnore = true;
      if (event.key !== "Shift") leaves = event.key === "Escape";
    });
    cm.on("beforeChange", (_, change) => {
      const reason = tooLarge(change.text.join("\n"));
      if (!reason) return;
      change.cancel();
      refused(reason);
    });
    cm.on("changes", (_, changes) => changes[0].origin === "setValue" || edited(changes));
    cm.on("viewportChange", drawn);
    cm.on("update", () => {
      for (const row of all("#listing .CodeMirror-gutter-wrapper[aria-hidden]")) row.removeAttribute("aria-hidden");
    });
    on("listing", "mousemove", ({ clientX, clientY, target }) => {
      const { line, ch } = cm.coordsChar({ left: clientX, top: clientY }, "window");
      const word = () => cm.getTokenAt({ line, ch: ch + 1 }).string;
      const told = target.closest(".CodeMirror-line") ? said(line + 1) || explained(word()) : "";
      if ($("listing").title !== told) $("listing").title = told;
    });
  }

  get text() { return this.cm.getValue(); }

  // The edit that brings the text before back is kept.
  set text(text) {
    const isFirst = this.cm.historySize().undo === 0 && this.text === "";
    this.cm.setValue(text);
    if (isFirst) this.cm.clearHistory();
  }

  get caretLine() { return this.cm.getCursor().line + 1; }

  get caretExplained() {
    return this.cm.getLine(this.caretLine - 1).split(/[ \t]+/).slice(0, 2).reverse().map(explained).find(Boolean) || "";
  }

  hints(cm, symbols) {
    const { line, ch } = cm.getCursor();
    const before = cm.getLine(line).slice(0, ch);
    const [word] = /[A-Za-z0-9]*$/.exec(before);
    const isOperation = /^\S*[ \t]+[A-Za-z0-9]*$/.test(before);
    const names = isOperation ? namesOfAll() : symbols;
    const list = names.filter((name) => name.startsWith(word.toUpperCase())).sort();
    const shown = isOperation ? list.map((name) => ({ text: name, displayText: explained(name) })) : list;
    return { list: shown, from: { line, ch: ch - word.length }, to: { line, ch } };
  }

  // Brings a line into view with what is told below it, and another one too if there is room.
  reveal(line, other = 0) {
    const { cm } = this;
    const high = cm.getScrollInfo().clientHeight;
    const spanOf = (first, last) => {
      const [top, bottom] = [first - 1, last].map((at) => cm.heightAtLine(at, "local"));
      return { left: 0, right: 0, top, bottom };
    };
    if (line < 1 || line > cm.lineCount()) return;
    const both = other ? spanOf(Math.min(line, other), Math.max(line, other)) : null;
    const span = both && both.bottom - both.top < high ? both : spanOf(line, line);
    cm.scrollIntoView(span, Math.max(0, Math.min(60, (high - span.bottom + span.top) / 3)));
  }

  goTo(line, ch = 0) {
    this.cm.focus();
    this.cm.setCursor({ line: line - 1, ch });
    this.reveal(line);
  }
}
