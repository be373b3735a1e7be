// The modules of the page that need no page: node tests/page/pure.mjs [SEED]. The last line counts.
import { readFileSync } from "node:fs";
import { MADE, bundleIn, bundleOf, cardsApart, fragmentOf, openedOf, partsOf, scriptOf, withCards } from "../../page/bundle.js";
import { differenceIn, endOf, numbersIn, rowsOf, withData } from "../../page/check.js";
import { grammarOf } from "../../page/colours.js";
import { CARD, CHARACTERS, OPERATIONS, PSEUDO, explained, filled, takeTables } from "../../page/operations.js";
import { upTo } from "../../page/range.js";
import { Path, mapWith } from "../../page/path.js";
import { subjectOf, verdictOn } from "../../page/predict.js";
import { Session } from "../../page/session.js";
import { tooLarge } from "../../page/source.js";
import { barsOf, stripOf, valuesOf } from "../../page/svg.js";
import { tellings } from "./told.mjs";

const packs = (() => { try { return new CompressionStream("deflate-raw"); } catch { return false; } })(); // not in Node 18
const read = (name) => readFileSync(new URL(`../../${name}`, import.meta.url), "utf8");
const SEED = Number(process.argv[2]) || Math.floor(Date.now() / 86400000);
let [passed, failed, state] = [0, 0, SEED];

function row(name, ...given) {
  const [found, wanted] = given.map((each) => JSON.stringify(each));
  if (found !== wanted) console.log(`FAILED ${name}: ${found}, and ${wanted} was wanted`.slice(0, 1000));
  [passed, failed] = found === wanted ? [passed + 1, failed] : [passed, failed + 1];
}

// Park and Miller's numbers, below a bound.
function drawn(below) {
  state = (state * 48271) % 2147483647;
  return state % below;
}
const some = (most, make) => Array.from({ length: drawn(most + 1) }, make);

// What the tables say of operations, of each with its register. They are compared with the
// program by tests/test_tables.py.
takeTables(read("docs/operations.tsv"), read("docs/characters.tsv"));
const known = [...OPERATIONS.values()].filter(({ name }) => ["ST6", "SRC", "J5NP"].includes(name)).map(({ name, code, f, register }) => [name, code, f, register]);
row("operations: a register, and an F that names it", [OPERATIONS.size, PSEUDO.size, CHARACTERS.length, known], [144, 5, 56, [["SRC", 6, 5, ""], ["ST6", 30, null, "rI6"], ["J5NP", 45, 5, "rI5"]]]);
for (const { name, sentence } of CARD) row(`operations: the sentence of ${name}`, /[{}]|undefined/.test(filled(sentence, {})), false);
row("operations: at the pointer", explained("dec2"), "DEC2: rI2 becomes rI2 - M. C = 50, F = 1, 1 u.");

// What is asked of an operation as the change of a number; which answers are right.
const subject = (operation, number, items = [], address = "100") => subjectOf({ state: { ahead: 0 }, next: { instruction: { operation, address }, items, location: 0, number } });
const ASKED = { ADD: "A", MUL: "X", DIV: "A", CHAR: "X", SLA: "A", SRC: "X", MOVE: "I1", LD2N: "I2", ST3: "cell 100", STZ: "cell 100", JBUS: "jump", JOV: "jump", J1P: "jump", JMP: "J", INC4: "I4", ENNX: "X", CMP5: "cmp" };
row("predict: what is asked", Object.fromEntries(Object.keys(ASKED).map((name) => [name, subject(name, 1)])), ASKED);
row("predict: nothing is asked", [...OPERATIONS.keys()].filter((name) => subject(name, 1) === ""), ["NOP", "HLT", "IOC", "IN", "OUT", "JSJ"]);
row("predict: rA and rX in turn, overflow", [subject("MUL", 2), subject("INCA", 8), subject("INC1", 8), subject("ADD", 1, [{ part: "over" }])], ["A", "over", "I1", "over"]);
row("predict: where it would not be seen whether it jumps", subject("JE", 1, [], "1"), "");
const holding = (word, number) => ({ state: { registers: [{ name: "A", word, number }], cmp: "L", over: true }, wordIn: () => ({ word, number }) });
const verdicts = (guesses, part, ...given) => guesses.map((guess) => verdictOn(guess, part, holding(...given))?.isRight);
row("predict: numbers and bytes", verdicts(["-4097", "- 01 00 01", "-00 0 1 0 1", "4097", "01 00 01", "-64 1", "- 4097"], "A", "- 00 00 01 00 01", "-4097"), [true, true, true, false, false, false, true]);
row("predict: -0", verdicts(["0", "-0", "- 0 0", "0 0", "x", "1 x", "--1"], "cell 5", "- 00 00 00 00 00", "-0"), [true, true, true, false, undefined, undefined, undefined]);
row("predict: one of some", [verdicts(["less", "equal"], "cmp", "+ 00", "0"), verdicts(["on", "off"], "over", "+ 00", "0")], [[true, false], [true, false]]);

// The cases of exercises: the data of a case, what is asked after its run, and the first that
// differs, by grade/README.md and the replies of docs/FORMATS.md.
const [HEAD, BLOCK, REST] = ["N       EQU  3\n", "* data\n        CON  1\n* end of data\n", "START   ENT1 N\n* end of it\n        END  START\n"];
const OTHER = ["N       EQU  12\n", "* data\n        CON  7\n        CON  8\n* end of data\n"];
row("cases: other data", [OTHER.join(""), OTHER[0], ""].map((data) => withData(HEAD + BLOCK + REST, data).source), [OTHER.join("") + REST, OTHER[0] + BLOCK + REST, HEAD + BLOCK + REST]);
row("cases: a label is a word", ["N\tEQU 3\n", "n equ 3\n", "NN EQU 3\n", " N EQU 3\n", "*N EQU 3\n"].map((line) => withData(line, OTHER[0])), [{ source: OTHER[0] }, { source: OTHER[0] }, ...["NN EQU 3\n", " N EQU 3\n", "*N EQU 3\n"].map((source) => ({ source, lacks: "N" }))]);
row("cases: a line that is lacking", [HEAD + REST, HEAD + REST + BLOCK, BLOCK, HEAD + BLOCK.slice(0, 10) + REST].map((source) => withData(source, OTHER.join("")).lacks), ["* data", undefined, "N", "* end of data"]);
const cellsOf = (...numbers) => numbers.map((number, at) => ({ cell: 1002 + at, number }));
const REGISTERS = [["A", "97"], ["X", "-23"], ["I1", "3"]].map(([name, number]) => ({ name, number }));
const HELD = numbersIn(["I1", "X", "TABLE+3 TABLE+4"], REGISTERS, [{ ends: ["TABLE+3", "TABLE+4"], cells: cellsOf("33", "-0") }]);
row("cases: numbers by their names", HELD, [{ what: "rX", found: "-23" }, { what: "rI1", found: "3" }, { what: "cell 1002", found: "33" }, { what: "cell 1003", found: "-0" }]);
const COUNTS = new Map([["SWAP", "3"], ["CLOCK", "3"], ["STEPS", "3"], ["steps", "7"], ["clock", "63"], ["conflicts", "0"], ["writes X", "1"], ["writes Y", undefined]]);
const numbers = (wanted, counts, limits) => differenceIn({ wanted, limits, cells: "X\nI1\nTABLE+3 TABLE+4\n" }, HELD, counts) ?? null;
row("cases: numbers", ["-23\n3\n33\n-0\n", "-23\n4\n33\n-0\n", "-23\n3\n33\n0\n", "-23\n3\n33\n-0\n5\n", "-23\n3\n33\n"].map((wanted) => numbers(wanted)), [null, { what: "rI1", found: "3", wanted: "4" }, { what: "cell 1003", found: "-0", wanted: "0" }, { what: "number 5", wanted: "5" }, { what: "cell 1003", found: "-0" }]);
row("cases: a large number as its letters", differenceIn({ wanted: "35991752\n", cells: "X\n" }, [{ what: "rX", found: "34885832" }]), { what: "rX", found: "“BEECH”", wanted: "“BIRCH”" });
row("cases: limits", ["clock <= 63\nsteps >= 7\nSWAP = 3\n", "clock <= 62\n", "steps >= 8\n", "swap = 4\n", "NEXT <= 9\n"].map((limits) => numbers("-23\n3\n33\n-0\n", COUNTS, limits)), [null, { what: "the clock", wanted: "at most 62", found: "63" }, { what: "the number of steps", wanted: "at least 8", found: "7" }, { what: "the count of swap", wanted: "4", found: "3" }, { what: "the count of NEXT", wanted: "at most 9" }]);
row("cases: writes", ["writes X <= 1\n", "writes X = 2\n", "writes Y = 0\n", "conflicts = 0\n"].map((limits) => numbers("-23\n3\n33\n-0\n", COUNTS, limits)), [null, { what: "the number of writes to X", wanted: "2", found: "1" }, { what: "the number of writes to Y", wanted: "0" }, null]);
row("cases: a name that is lacking", differenceIn({ wanted: "5\n", cells: "SUM\n" }, numbersIn(["SUM"], REGISTERS, [{ ends: ["SUM"] }])), { what: "SUM, which the program lacks,", wanted: "5" });
const written = (wanted, unit, units) => differenceIn({ wanted, unit }, rowsOf(units, unit)) ?? null;
const printer = (rows, pages = []) => [{ unit: 8 }, { unit: 18, rows, pages }, { unit: 19, rows: ["TYPED"], pages: [] }];
row("cases: rows", [["A", "  B"], ["A"], ["A", "B"], ["A", "  B", ""]].map((rows) => written("A\n  B\n", "18\n", printer(rows))), [null, { what: "row 2 of unit 18", wanted: "  B" }, { what: "row 2 of unit 18", found: "B", wanted: "  B" }, { what: "row 3 of unit 18", found: "" }]);
row("cases: new pages, and a unit of several", [written("A\n", "18\n", printer(["A"], [0])), written("A\n", "18\n", printer(["A"], [1])), written("", undefined, printer([]))], [{ what: "row 1 of unit 18", found: "(new page) A", wanted: "A" }, { what: "row 2 of unit 18", found: "(new page) " }, { what: "row 1 of unit 19", found: "TYPED" }]);
const [halted, left] = [{ done: 7, location: 3009, clock: "63", halted: true }, { done: 20000, location: 3009, clock: "50000", halted: false }];
const FAULT = { exceptionId: "M5", description: "no such cell" };
row("cases: how it ended", [endOf(halted), endOf(left), endOf({ ...left, done: 1, location: 1 }, FAULT)], ["The run ended by HLT after 7 steps, clock 63 u.", "The run has not ended after 20,000 steps, the most of this case.", "The run ended after 1 step, at 0001, by the fault M5 no such cell."]);
row("cases: before a conflict", endOf(halted, undefined, { location: 2, conflict: { text: "cell 0100 is used while unit 16 reads into it until 501" } }), "The run ended before a conflict at 0002: cell 0100 is used while unit 16 reads into it until 501.");

// The first letters of a name that has this colour in the samples of the editors.
const COLOURS = {
  L: "entity.name.label", O: "support.function.operation", P: "keyword.control.directive", N: "constant.numeric", S: "variable.other", h: "variable.language.location",
  o: "keyword.operator", p: "punctuation", '"': "string", r: "comment", m: "keyword.control.marker", u: "keyword.other.unit", c: "keyword.other.command", "!": "invalid", " ": "",
};
const grammar = grammarOf(JSON.parse(read("editors/vscode/syntaxes/mixal.tmLanguage.json")));
for (const group of read("editors/samples.txt").split("\n\n")) {
  const rows = group.split("\n").filter((line) => line.startsWith("|")).map((line) => line.slice(1));
  let open = null;
  for (let at = 0; at + 1 < rows.length; at += 2) {
    const [line, wanted] = [rows[at], rows[at + 1].padEnd(rows[at].length)];
    const { names, open: after } = grammar(line, open);
    open = after;
    const isRight = (name, sign) => (sign === " " ? /^(meta|$)/.test(name) : name.startsWith(COLOURS[sign]));
    const wrong = [...line].filter((letter, column) => !" \t".includes(letter) && !isRight(names[column], wanted[column]));
    row(`colours: ${line}`, wrong, []);
  }
}

// How often cells were executed is what the changes say, at moments in any order, also when later
// changes are others.
for (let round = 0; round < 20; round += 1) {
  const path = new Path();
  const changes = [];
  const told = ([, { from, until, columns }]) => ({ columns: Array.from({ length: columns }, (_, column) => {
    const counts = new Map();
    changes.slice(from, until).forEach((cell, at) => {
      if (Math.floor((at * columns) / (until - from)) === column) counts.set(cell, (counts.get(cell) || 0) + 1);
    });
    return { cells: [...counts].map(([cell, count]) => ({ cell, count })) };
  }) });
  const counted = (until) => changes.slice(0, until).reduce((times, cell) => ({ ...times, [cell]: (times[cell] || 0) + 1 }), {});
  const found = (times) => Object.fromEntries([...times.entries()].filter(([, count]) => count > 0));
  for (let move = 0; move < 6; move += 1) {
    if (drawn(3) === 0) {
      changes.length = drawn(changes.length + 1);
      path.cut(changes.length);
    }
    changes.push(...some(1500, () => drawn(5)));
    const until = drawn(changes.length + 1);
    const times = path.timesAt(until, path.requestsTo(until).map(told));
    row("path: a moment", found(times), counted(until));
    const { width, sums } = path;
    row("path: columns", sums.map(found), sums.map((_, at) => counted(at * width)));
    row("path: not too many", sums.length - 1 <= 480, true);
  }
}
row("cells of a range", [upTo(3, 5), upTo(3998, 5000), upTo(5, 4)], [[3, 4, 5], [3998, 3999], []]);

// What is put together comes apart again: bundles, what the page keeps in them, cards, links.
const lineOf = () => ["step 4", " LDA X", "", "* a remark", "%UNIT 19", "äöü", "X"][drawn(7)];
const textOf = (lines) => lines.map((line) => `${line}\n`).join("");
// The lines of the parts, each but the first behind a marker.
function toldOf(parts) {
  let before = 0;
  return Object.entries(parts).flatMap(([part, text]) => {
    if (text === "") return [];
    const from = before + (part === "source" ? 1 : 2);
    before = from + text.split("\n").length - 2;
    return [{ part, from, until: before }];
  });
}
for (let round = 0; round < 200; round += 1) {
  const [source, cards] = [textOf(some(5, lineOf)), textOf(some(3, () => ["5", "", "A CARD"][drawn(3)]))];
  const done = some(4, () => ["step 4", "", "* mine"][drawn(3)]);
  const kept = { left: some(2, () => "run 5"), breaks: some(3, () => 1 + drawn(99)), bars: ["", "KEY KEY+N number"][drawn(2)], nodes: ["", "from A to B, 2 words each, links 0(4:5)"][drawn(2)], passages: ["", "line 5 of A assert A < 0"][drawn(2)], names: ["", "N=10"][drawn(2)], score: ["", "3 of 5"][drawn(2)], shown: ["", "map no-words"][drawn(2)], lesson: ["", "05_a/b"][drawn(2)] };
  const deck = textOf(some(4, () => ["%UNIT 19 delay 10", "B", ""][drawn(3)]));
  const parts = { source, deck, script: scriptOf({ done, ...kept }) };
  const bundle = bundleOf(parts);
  row("a bundle by its lines", [partsOf(bundle, toldOf(parts)), partsOf(bundle.replaceAll("\n", "\r\n"), toldOf(parts))], [parts, parts]);
  const { shown, ...opened } = openedOf(parts, false);
  const { bars, nodes, passages, names, score, lesson } = kept;
  row("a bundle", opened, { source, deck, breaks: kept.breaks, bars, nodes, passages, names, score, lesson, done, left: kept.left });
  row("a bundle: what is shown", shown.join(" "), kept.shown);
  row("a bundle that waits", openedOf(parts, true).left, done.length > 0 && kept.left.length > 0 ? [...done, MADE, ...kept.left] : [...done, ...kept.left]);
  const whole = withCards(deck, cards);
  row("cards apart from a deck", cardsApart(whole).cards, cards);
  row("cards in their deck again", withCards(cardsApart(whole).deck, cards), whole);
  if (packs) row("a link", await bundleIn(await fragmentOf(bundle)), bundle);
}
row("cards in the place of those of a deck", withCards("%UNIT 16 delay 5\nA\nB\n%UNIT 18\n", "C"), "%UNIT 16 delay 5\nC\n%UNIT 18\n");
if (packs) row("a link that holds too much", await bundleIn(await fragmentOf("x".repeat(4194305))).catch(({ message }) => message), "it holds more than 4,194,304 bytes");
row("a source of too many letters", ["x".repeat(1048576), "x".repeat(1048577)].map(tooLarge), ["", "it has 1,048,577 letters, and a source has at most 1,048,576 bytes"]);

// A person's words are kept, and done again, as the line that the engine tells; what asks is shown.
const LINES = { "b 5": "break 5", "show regs": "show regs", "p A": undefined };
const asked = [];
const answerTo = ([, { expression }]) => {
  if (expression) asked.push(expression);
  const body = { done: 0, ahead: 0, halted: false, cells: [], altered: [], units: [], result: "said\n", line: LINES[expression], error: { id: 201 } };
  return { success: expression !== "zz", message: "C1 no such command", body };
};
const machine = { holder: null, ask: async (holder, requests) => Object.assign(machine, { holder }) && requests.map(answerTo) };
const session = new Session(machine, {}, () => ({ blocks: [], field: 5 }));
for (const typed of [...Object.keys(LINES), "zz"]) await session.act([typed]);
row("console: what is shown", session.log.map(({ command }) => command), ["break 5", "show regs", "p A", "zz"]);
row("console: what a file holds", session.lines, ["break 5", "show regs", "zz"]);
row("console: a refusal, as in a script", session.log[3].reply, "? C1 no such command\n");
machine.holder = null;
asked.length = 0;
await session.act(["show regs"]);
row("console: what is done again", asked, session.lines);

// Each request has the arguments that the adapter takes, by the table in docs/DAP.md, and beside
// them what it does not read.
const FORMS = { text: (it) => typeof it === "string", number: (it) => Number.isSafeInteger(it) && it >= 0, list: Array.isArray, true: (it) => typeof it === "boolean" };
const UNREAD = ["adapterID", "clientID", "threadId"];
const documented = read("docs/DAP.md");
const namesIn = (text) => [...text.matchAll(/`(\w+)`/g)].map(([, name]) => name);
const takes = new Map(documented.split("\n").filter((line) => /^\| `[\w/]+` \|/.test(line)).map((line) => {
  const [, name, needs, may] = line.split("|");
  const listed = [needs, may].flatMap((cell) => cell.split("; ").map((part) => [part.split(":")[0], part.split(":").slice(1).join()]));
  const forms = listed.flatMap(([names, form]) => namesIn(names).map((each) => [each, [/text|number|list|true/.exec(form)?.[0], Number((/at most ([\d,]+)/.exec(form) || [0, "Infinity"])[1].replace(",", ""))]]));
  return [name.trim().slice(1, -1), { needs: needs.split("; ").flatMap((part) => namesIn(part.split(":")[0])), forms: new Map(forms) }];
}));
function wrongIn([name, given]) {
  const { needs, forms } = takes.get(name) || { needs: [], forms: new Map() };
  const wrong = Object.entries(given).filter(([key, value]) => value !== undefined && !UNREAD.includes(key) && !(forms.has(key) && FORMS[forms.get(key)[0]](value) && !(value > forms.get(key)[1])));
  return [...(documented.includes(`\`${name}\``) ? [] : [name]), ...needs.filter((key) => given[key] === undefined), ...wrong.map(([key]) => key)];
}
const sent = [];
const many = Array.from({ length: 1000 }, (_, at) => ({ number: 2000 - at, before: {}, after: {} }));
for (const ahead of [0, 4000]) {
  const body = { done: 2000, ahead, cells: [], altered: [], units: [{ unit: 18, rows: ["A"], pages: [] }, { unit: 19, rows: ["A"], pages: [], unread: [] }], columns: [], writes: many, diagnostics: [], parts: [], result: "", line: "run 5", total: 2000 };
  const client = { holder: null, ask: async (holder, requests) => {
    sent.push(...requests);
    return Object.assign(client, { holder }) && requests.map(() => ({ success: true, body: { ...body, writes: [...many] }, stopped: { reason: "exception" } }));
  } };
  const asks = new Session(client, { source: " END 0\n", deck: "", cards: "A" }, () => ({ blocks: [["mix/units", { unit: 8, block: 0 }]], field: 13, nodes: "from 0 to 9, 1 words each, links 0(4:5)" }));
  await asks.begin();
  await asks.act(["run 5"], { met: 3 });
  await asks.slide(7);
  for (const way of ["continue", "reverseContinue"]) await asks.stop(way, { cells: [5], filters: ["conflict"] });
  await asks.values(["TABLE+1"]);
  await asks.cellsAt([1, 2], [10, 11], 5);
  await mapWith(asks, "A", await asks.look());
  for (const name of ["analysis", "passages"]) await asks.told([`mix/${name}`, { of: "N=3" }]);
  await asks.altersOf([100]);
  await asks.writesOf("cell 100");
}
for (const name of new Set(sent.map(([each]) => each))) row(`requests: ${name} has the arguments that it takes`, sent.filter(([each]) => each === name).map(wrongIn).filter(({ length }) => length > 0), []);
row("requests: those that look", [...new Set(sent.map(([name]) => name).filter((name) => name.startsWith("mix/")))].sort(), ["analysis", "change", "check", "next", "nodes", "passages", "path", "program", "state", "units", "writes"].map((name) => `mix/${name}`));

// The pictures, with elements that hold what they are given.
const element = (name) => ({ name, given: {}, inside: [], setAttribute(key, value) { this.given[key] = value; }, append(...more) { this.inside.push(...more); } });
globalThis.document = { createElementNS: (_, name) => element(name) };
const within = (shape, name) => [...(shape.name === name ? [shape.given] : []), ...(shape.inside || []).flatMap((each) => within(each, name))];
tellings(row, within);
const bars = [4, -2, 0].map((value, at) => ({ cell: 10 + at, value, text: String(value), isWritten: at === 1, was: at === 1 ? 8 : value, isNext: at === 2, will: at === 2 ? 6 : value }));
const heights = within(barsOf({ title: "", text: "", bars, arrows: [], size: { width: 720, height: 160, em: 10 }, nameOf: String }), "rect").map(({ height }) => height);
row("bars: of 8 to -2 in 79 points, a dashed one for what was, a hollow one for what will be", heights, [31.6, 15.8, 63.2, 0, 47.4]);
const strip = within(stripOf({ title: "", cells: [1], columns: [5, 5, -10, 0].map((value, moment) => ({ moment, values: [value] })), done: 1 }), "rect");
row("strip: a box for each run of a value, and the moment", strip.map(({ x, width, "fill-opacity": dark }) => [x, width, dark]), [[0, 48, "0.5"], [48, 24, "1"], [24, 24, undefined]]);
const writes = [[50, 0, 7], [100, 7, 14]].map(([number, before, after]) => ({ number, before: { number: before }, after: { number: after } }));
const curve = (isCut) => within(valuesOf({ title: "", text: "", writes, isCut, total: 100, done: 0 }), "path")[0].d;
row("values: from the start to the end, or what is known", [curve([false, false]), curve([true, true])], ["M 4 76 H 244 V 41 H 484 V 6 H 484", "M 244 76 H 244 V 41 H 484 V 6"]);

console.log(`seed ${SEED}`);
console.log(`${passed} passed, ${failed} failed`);
process.exit(failed ? 1 : 0);
