// The cases of an exercise that its hand-out tells: the program of the editor is run on each as
// grade/case runs a source, in an engine beside the session that is shown.
import { cardsApart } from "./bundle.js";
import { $, choose, counted, fourDigits, on, put } from "./dom.js";
import { Machine, refusalOf } from "./machine.js";
import { nameOf, toldWord, wordOf } from "./sentence.js";
import { Session, WHERE, WHOLE, repl } from "./session.js";

const [IS_REGISTER, LIMIT] = [/^(A|X|I[1-6]|J)$/, /^((?:writes )?(\S+)) ([<>]?=) (\d+)$/];
const KNOWN = { clock: "the clock", steps: "the number of steps", conflicts: "the number of conflicts" };
const BOUNDS = { "<=": "at most ", ">=": "at least ", "=": "" };
const NEW_PAGE = "(new page) ";
const PARTS = ["source", "deck", "cards"];
const labelOf = (line) => line.split(/\s/)[0].toUpperCase();
const linesOfFile = (text = "") => text.split("\n").slice(0, -1);
const limitsIn = (limits) => linesOfFile(limits).map((line) => LIMIT.exec(line));
const toldNumber = (n) => (n === undefined ? n : toldWord(wordOf(n), n));

// A source with the constants and the blocks of a case in place of its own, as grade/given.awk
// writes it; a line that it lacks.
export function withData(source, data) {
  const [constants, blocks, met] = [new Map(), new Map(), new Set()];
  let open = ""; // the first line of a block
  for (const line of linesOfFile(data)) {
    if (line.startsWith("* end of ")) open = "";
    else if (line.startsWith("* ")) blocks.set(open = line, []);
    else if (open) blocks.get(open).push(line);
    else constants.set(labelOf(line), line);
  }
  const lastOf = (first) => first.replace("* ", "* end of ");
  const lines = source.split("\n").flatMap((line) => {
    if (open && line !== lastOf(open)) return [];
    open = blocks.has(line) ? line : "";
    const label = labelOf(line);
    met.add(open || label);
    return open ? [line, ...blocks.get(line)] : [constants.get(label) ?? line];
  });
  const lacks = [...constants.keys(), ...blocks.keys()].find((each) => !met.has(each));
  return { source: lines.join("\n"), lacks: open ? lastOf(open) : lacks };
}

// The numbers of the registers and cells that are named, each with the name of what holds it. A
// range that the program lacks has its ends alone.
export function numbersIn(named, registers, ranges) {
  const held = registers.filter(({ name }) => named.includes(name));
  const ofCell = ({ cell, number }) => ({ what: `cell ${fourDigits(cell)}`, found: number });
  const ofRange = ({ ends, cells }) => {
    return cells?.map(ofCell) ?? [{ what: `${[...new Set(ends)].join(" or ")}, which the program lacks,` }];
  };
  return [...held.map(({ name, number }) => ({ what: nameOf(name), found: number })), ...ranges.flatMap(ofRange)];
}

async function numbersOf(session, files) {
  const named = linesOfFile(files.cells);
  const ends = named.filter((line) => !IS_REGISTER.test(line)).map((line) => line.split(" "));
  const values = await session.values(ends.flatMap((each) => [each[0], each[each.length - 1]]));
  const asked = ends.map((_, at) => ["mix/state", { cells: [values.slice(2 * at, 2 * at + 2)] }]);
  const [{ registers }, ...found] = await session.bodies([WHERE, ...asked]);
  return numbersIn(named, registers, ends.map((each, at) => ({ ends: each, cells: found[at].cells })));
}

// The rows of units, or of one unit, with the marks of new pages before them.
export function rowsOf(units, unit) {
  const asked = units.filter(({ rows, unit: each }) => rows && (!unit || each === Number(unit)));
  return asked.flatMap(({ unit: of, rows, pages }) => {
    const marked = [...rows, ""].map((row, at) => NEW_PAGE.repeat(pages.filter((page) => page === at).length) + row);
    if (marked[rows.length] === "") marked.pop();
    return marked.map((found, at) => ({ what: `row ${at + 1} of unit ${of}`, found }));
  });
}

// What limits count, by their names: by labels how often their lines were executed, by cells the
// writes.
async function countsOf(session, { limits }, source, { done, clock }) {
  const cells = limitsIn(limits).filter(([, name, cell]) => name !== cell).map(([, , cell]) => cell);
  const numbers = await session.values(cells);
  const parts = numbers.map((cell) => ["mix/writes", { part: `cell ${cell}`, count: 0, total: true }]);
  const others = [["mix/program", {}], ["mix/counts", { conflicts: true }]];
  const [{ rows }, { cells: executed, conflicts }, ...totals] = await session.bodies([...others, ...parts]);
  const times = new Map(executed.map(({ cell, count }) => [cell, count]));
  const lines = source.split("\n");
  const labelled = rows.filter(({ instruction, line }) => instruction && line);
  return new Map([
    ...labelled.map(({ cell, line }) => [labelOf(lines[line - 1]), times.get(cell) ?? "0"]),
    ["steps", String(done)], ["clock", clock], ["conflicts", String(conflicts)],
    ...cells.map((cell, at) => [`writes ${cell}`, totals[at].total?.toString()]),
  ]);
}

// The first limit that is not kept.
function missedIn(limits, counts) {
  for (const [, name, cell, sign, limit] of limitsIn(limits)) {
    const found = counts.get(name) ?? counts.get(name.toUpperCase());
    const more = Number(found) - Number(limit); // of a label that the program lacks no number
    const isKept = more === 0 || (sign === "<=" && more < 0) || (sign === ">=" && more > 0);
    const what = KNOWN[name] || (name === cell ? `the count of ${name}` : `the number of writes to ${cell}`);
    if (!isKept) return { what, wanted: `${BOUNDS[sign]}${limit}`, found };
  }
  return undefined;
}

// The first that is not what is wanted, or nothing; `found` is what the program has.
export function differenceIn({ wanted, cells, unit, limits }, found, counts) {
  const rows = linesOfFile(wanted);
  for (let at = 0; at < Math.max(rows.length, found.length); at += 1) {
    const what = unit ? `row ${at + 1} of unit ${Number(unit)}` : `number ${at + 1}`;
    const [is, was] = [found[at]?.found, rows[at]].map(cells ? toldNumber : (row) => row);
    if (rows[at] !== found[at]?.found) return { what, ...found[at], found: is, wanted: was };
  }
  return counts && missedIn(limits, counts);
}

// How a run ended, as a sentence; `met` is the change that a strict run does not do.
export function endOf(/** @type {Partial<State>} */ { done: steps, location, clock, halted }, fault, met) {
  const done = counted(steps, "step");
  if (met) return `The run ended before a conflict at ${fourDigits(met.location)}: ${met.conflict.text}.`;
  if (halted) return `The run ended by HLT after ${done}, clock ${Number(clock).toLocaleString("en")} u.`;
  if (!fault) return `The run has not ended after ${done}, the most of this case.`;
  const at = fourDigits(location);
  return `The run ended after ${done}, at ${at}, by the fault ${fault.exceptionId} ${fault.description}.`;
}

// Whether a program with the texts of a case is right, the first that differs, and how it ended.
async function judged(machine, files, { lacks, ...texts }) {
  if (lacks) return { end: `The program lacks the line ${lacks}.` };
  const session = new Session(machine, texts, () => ({ blocks: [], field: WHOLE }));
  const command = `run ${files.steps.trim()}${files.strict ? " until conflict" : ""}`;
  const [{ body }, { body: ran }] = await session.ask([repl(command), WHERE]);
  const refusal = refusalOf(session.launched);
  if (refusal) return { end: `With the data of the case it is refused: ${refusal}.` };
  const last = files.strict && ran.done > 0 ? [["mix/change", { number: ran.done, conflict: true }]] : [];
  const met = (await session.bodies(last)).find(({ conflict }) => conflict);
  if (met) await session.ask([repl("back 1")]);
  const units = async () => rowsOf((await session.bodies([["mix/units", {}]]))[0].units, files.unit);
  const found = await (files.cells ? numbersOf(session, files) : units());
  const counts = files.cells && files.limits ? await countsOf(session, files, texts.source, ran) : undefined;
  const differs = differenceIn(files, found, counts);
  return { isRight: !differs && !met && ran.halted, differs, end: endOf(ran, body.fault, met) };
}

export class Check {
  cases = []; // of the lesson that is shown
  checked = ""; // the source that was checked
  first = /** @type {any} */ (null); // the texts of the first case that is not right

  constructor(/** @type {Store} */ store, /** @type {Listing} */ listing, exercises) {
    this.store = store;
    this.listing = listing;
    this.exercises = exercises;
    this.machine = new Machine(store.machine.program, store.machine.module);
    store.on("texts", ({ texts }) => this.meet(texts));
    on("check-run", "click", () => store.enqueue(() => this.check()));
    on("check-open", "click", () => this.open());
    on("stop", "click", () => this.machine.stop());
  }

  get data() { return this.cases.map(({ data = "" }) => data).join(""); }

  setLesson(/** @type {Lesson} */ lesson) {
    const { keeps, cases } = this.exercises[lesson?.name.split("/")[0]] || { keeps: "", cases: [] };
    this.cases = cases;
    $("keeps-text").innerHTML = keeps;
    for (const id of ["keeps", "check"]) $(id).hidden = cases.length === 0;
    this.show([]);
  }

  // What was found is told of the program that was checked, with any data.
  meet(texts) {
    if (![this.checked, this.first?.source].includes(texts.source)) this.show([]);
    const { first } = this;
    $("check-open").hidden = !first || Boolean(first.lacks) || PARTS.every((part) => first[part] === texts[part]);
  }

  textsFor({ data, deck = "", cards = "" }, source) {
    return { ...withData(source, data), ...cardsApart(deck), ...(cards && { cards }) };
  }

  async check() {
    const { cases, machine, store } = this;
    const { source } = store.read();
    const found = [];
    for (const files of cases) found.push(await judged(machine, files, this.textsFor(files, source)));
    machine.end();
    if (cases !== this.cases) return;
    this.checked = source;
    this.show(found);
    this.meet(store.read());
  }

  show(found) {
    const right = found.filter(({ isRight }) => isRight).length;
    const at = found.findIndex(({ isRight }) => !isRight);
    const { differs, end = "" } = found[at] || {};
    this.first = found[at] ? this.textsFor(this.cases[at], this.checked) : null;
    const score = `${right} of ${counted(found.length, "case")} ${right === 1 ? "is" : "are"} right`;
    put($("check-told"), found.length > 0 ? score : "");
    $("check-first").hidden = !found[at];
    put($("check-what"), `Case ${at + 1}${differs ? `: ${differs.what} is not what is wanted.` : " is not right."}`);
    $("check-rows").hidden = !differs;
    for (const name of ["wanted", "found"]) put($(`check-${name}`), differs?.[name] ?? "nothing");
    put($("check-end"), end);
  }

  // The program keeps its text but for the data, by an edit that can be undone.
  open() {
    const { store, listing, first } = this;
    listing.replace(first.source);
    for (const part of ["deck", "cards"]) $(part).value = first[part];
    $("given").open = first.deck + first.cards !== "";
    choose("program");
    store.edited();
    store.enqueue(() => {
      store.tell("The program has the data of this case, and begins anew.");
      $("step").focus();
    });
  }
}
