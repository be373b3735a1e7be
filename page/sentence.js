// What the last change did and what the next step will do, as a sentence each, by the values of the
// engine; the status.
import { counted, fourDigits, listed } from "./dom.js";
import { refusalOf } from "./machine.js";
import { CHARACTERS, OPERATIONS, conditionOf, filled } from "./operations.js";
import { WHOLE } from "./session.js";

export const COMPARED = { L: "less", E: "equal", G: "greater" };
export const STEPS = 1000000; // the most steps of one command
const LARGE = 10000000; // a number from here on is told as bytes
const MOST_PARTS = 4; // that are named
const THAN = { L: "less than", E: "equal to", G: "greater than" };
export const isCommand = (/** @type {Change} */ { time }) => time === "0";
export const itemOf = (change, part) => change?.items?.find((item) => item.part === part);
export function nameOf(part) {
  const flag = { over: "overflow", cmp: "comparison" }[part];
  return flag || (/^(A|X|J|I\d)$/.test(part) ? `r${part}` : part);
}

// A word in a sentence: its number if that is small, else its letters, or its sign and bytes.
export function toldWord(word, number) {
  if (number !== undefined && Math.abs(Number(number)) < LARGE) return number;
  const letters = word.split(" ").slice(1).map((byte) => CHARACTERS[Number(byte)] ?? "?").join("");
  return number && word.startsWith("+") && /^[A-Z\d ]+$/.test(letters) ? `“${letters.trimEnd()}”` : word;
}

// The word that a number is.
export function wordOf(number) {
  const bytes = [4, 3, 2, 1, 0].map((place) => Math.floor(Math.abs(Number(number)) / 64 ** place) % 64);
  return [String(number).startsWith("-") ? "-" : "+", ...bytes.map((byte) => String(byte).padStart(2, "0"))].join(" ");
}

const fieldName = (f) => (f === WHOLE ? "" : `(${f >> 3}:${f & 7})`);

function whereIs(location, { lineOf }) {
  return lineOf.get(location) ? `line ${lineOf.get(location)}` : `location ${fourDigits(location)}`;
}

// Operation and address are as they are in the source, if they come from there.
function named({ location, text }, operation, listing) {
  const line = listing.lineOf.get(location);
  const [, written = "", address = ""] = (line ? listing.lineText(line) : "").split(/[ \t]+/);
  const shown = OPERATIONS.get(operation)?.uses === "-" ? written : `${written} ${address}`.trimEnd();
  return `${line || fourDigits(location)} ${written.toUpperCase() === operation ? shown : text}`;
}

// A unit has written so many rows `more` with the change than the view has.
function alterationsOf(/** @type {Change} */ { items }, /** @type {View} */ { units }, operation = "", more = 0) {
  return items.map(({ part, what, block, before, after, beforeValue, afterValue }) => {
    if (part === "over") return `overflow goes ${after}`;
    if (part === "cmp") return `the comparison goes from ${COMPARED[before]} to ${COMPARED[after]}`;
    if (part.startsWith("break ")) return `breakpoint ${part.slice(6)} ${after}`;
    if (part.startsWith("unit ")) {
      if (block !== undefined) return `${part}: block ${block} is written`;
      const rows = units.find(({ unit }) => `unit ${unit}` === part)?.rows?.length || 0;
      const output = operation === "IOC" ? `${part} begins a new page` : `${part} writes row ${rows + more}`;
      return { output, place: `${part} goes to block ${after}` }[what];
    }
    return `${nameOf(part)} from ${toldWord(before, beforeValue)} to ${toldWord(after, afterValue)}`;
  }).filter(Boolean);
}

// What decides whether the program jumps.
function factOf(row, f, /** @type {View} */ { state, units }) {
  const condition = conditionOf(row);
  if (!condition) return "";
  const { clock, cmp, over, registers } = state;
  const until = units.find(({ unit }) => unit === f)?.until || "0";
  const unit = BigInt(until) > BigInt(clock) ? `busy until ${until}` : "ready";
  const fact = { unit, cmp: COMPARED[cmp], over: over ? "on" : "off" }[condition];
  return `; it is ${fact ?? registers.find(({ name }) => `r${name}` === condition).number}`;
}

// The instruction, and what it will do.
function nextOf(/** @type {View} */ view, /** @type {Listing} */ listing) {
  const { next, state: { cmp, registers } } = view;
  if (isCommand(next)) return [next.text, listed(alterationsOf(next, view), MOST_PARTS)];
  const { operation, field: f, address: m, value } = next.instruction || {};
  const name = named(next, operation, listing);
  if (view.asked) return [name];
  if (!next.items) return [name, `a step would be a fault, ${next.exceptionId} ${next.description}`];
  const row = OPERATIONS.get(operation);
  const V = `${value && toldWord(wordOf(value), value)} (cell ${m}${fieldName(f)})`;
  if (row.name.startsWith("CMP")) {
    const after = itemOf(next, "cmp")?.after || cmp;
    const held = registers.find((each) => `r${each.name}` === row.register);
    const whole = f === WHOLE && toldWord(held.word, held.number);
    const becomes = `the comparison ${after === cmp ? "stays" : "becomes"} ${COMPARED[after]}`;
    return [name, `${whole || row.register + fieldName(f)} is ${THAN[after]} ${V}, so ${becomes}`];
  }
  const M = /^(INC|DEC|ENN)/.test(row.name) && m.startsWith("-") ? `(${m})` : m;
  const [cell, line] = [`cell ${m}${fieldName(f)}`, whereIs(Number(m), listing)];
  const will = filled(row.sentence, { r: row.register, M, V, cell, line, F: String(f) });
  if (row.uses === "jump") return [name, `${will}${factOf(row, f, view)}`];
  const parts = alterationsOf(next, view, operation, 1);
  const subject = nameOf(next.items[0]?.part ?? "");
  const isPlain = parts.length === 1 && will.startsWith(`${subject} becomes `);
  if (isPlain) return [name, `${will}, ${parts[0].slice(subject.length + 1)}`];
  return [name, will, ...(parts.length > 0 ? [listed(parts, MOST_PARTS)] : [])];
}

// Of a view as it is after the change.
function didOf(/** @type {Change} */ change, /** @type {View} */ view, listing) {
  const { text, time } = change;
  const { state } = view;
  const none = "nothing is altered";
  if (isCommand(change)) return [text, listed(alterationsOf(change, view), MOST_PARTS) || none];
  const { operation } = change.instruction;
  const [row, did] = [OPERATIONS.get(operation), alterationsOf(change, view, operation)];
  if (row.uses === "jump") {
    did.unshift(change.taken ? `jumps to ${whereIs(state.location, listing)}` : "does not jump");
  }
  if (did.length === 0 && row.name.startsWith("CMP")) did.push(`the comparison stays ${COMPARED[state.cmp]}`);
  if (operation === "HLT") did.push("halts");
  return [named(change, operation, listing), `${listed(did, MOST_PARTS) || none} (${time} u)`];
}

// What is told of a moment. `answer` is that to the command which led to it from the view `before`;
// without one the moment is only looked at.
export function toldOf(/** @type {Shown} */ { answer, before, view, listing }) {
  const { state, change, next: step } = view;
  const [was, at] = [before ? before.state.done : state.done, whereIs(state.location, listing)];
  const [done, will] = [change ? didOf(change, view, listing) : [], step ? nextOf(view, listing) : []];
  const [lastHere, nextHere] = [done, will].map((parts) => parts.slice(1).join(": "));
  const last = done.join(": ");
  const next = step ? `Next: ${will.join(": ")}.` : "";
  const here = { last, lastHere, nextHere, isFault: false, isPlain: false };
  const [refusal, fault] = [answer ? refusalOf(answer) : "", answer?.body.fault];
  if (fault) {
    const count = state.done - was;
    const steps = count > 0 ? ` ${counted(count, "step")} ${count === 1 ? "was" : "were"} done before it.` : "";
    const did = `Fault ${fault.exceptionId} ${fault.description}, at ${at}.${steps} The step was not done.`;
    return { ...here, did, next, isFault: true };
  }
  const help = refusal.startsWith("C1 ") ? ", Help has a list of the commands" : "";
  if (refusal) return { ...here, did: `Refused: ${refusal}${help}.`, next, isFault: true };
  const rows = printed(before, view);
  const conflict = view.conflict ? `Conflict: ${view.conflict.text}. ` : "";
  if (state.halted) return { ...here, did: conflict + haltedAt(state, was) + rows, next: "Back takes the HLT back." };
  const begin = listing.breakCells.includes(state.location) ? `Breakpoint at ${at}. ` : "";
  const isPlain = !view.judged && !conflict && !begin && !rows && Math.abs(state.done - was) <= 1;
  const did = (view.judged || "") + conflict + begin + wayOf(before, was, state, last, rows);
  return { ...here, did, next, isPlain };
}

function haltedAt(/** @type {State} */ { done, clock }, was) {
  const steps = was > 0 && done - was > 1 ? `, the last ${(done - was).toLocaleString("en")} now` : "";
  return `Halted after ${counted(done, "change")}, clock ${Number(clock).toLocaleString("en")} u${steps}.`;
}

export function rowsIn(/** @type {View} */ { units }) {
  return units.reduce((sum, { rows }) => sum + (rows ? rows.length : 0), 0);
}

function printed(before, view) {
  const rows = before ? rowsIn(view) - rowsIn(before) : 0;
  if (rows === 0) return "";
  return rows > 0 ? ` ${counted(rows, "row")} printed.` : ` ${counted(-rows, "row")} taken back.`;
}

function wayOf(/** @type {View} */ before, was, /** @type {State} */ { done, ahead }, last, rows) {
  const here = done === 0 ? "At the start." : `The last: ${last}.`;
  if (done === was) return (last ? `Did ${last}.` : here) + rows;
  if (done === was - 1) return `Taken back: ${before.sentences.last}.${rows}`;
  if (done < was) return `${counted(was - done, "change")} taken back.${rows} ${here}`;
  if (done === was + 1) return `Did ${last}.${rows}`;
  const isRun = done === was + STEPS && ahead + before.state.ahead === 0;
  if (isRun) return `A million steps were done without a halt. Press Run to go on.${rows}`;
  return `${counted(done - was, "change")} done.${rows} ${here}`;
}
