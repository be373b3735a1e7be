// All that the page says of an operation: what the next step will do, the help at the pointer, and
// the card.
//
// In a sentence {r} is the register, {V} the value of field F of cell M, {cell} the field that is
// written, {M} the address, {line} the place that is jumped to, {F} the field as a number.
import { $, make, on } from "./dom.js";

export const CARD = []; // the rows as they are printed: those of eight registers are one, with a small r in the name
export const OPERATIONS = new Map(); // each operation by its name, with its register
export const CHARACTERS = []; // each at its code

export const PSEUDO = new Map([
  ["EQU", "the symbol at the left becomes the value at the right"],
  ["ORIG", "the next words go to the cells from this location on"],
  ["CON", "a cell with this word"],
  ["ALF", "a cell with these five characters"],
  ["END", "the end of the program; it begins at this location"],
]);

export const namesOfAll = () => [...OPERATIONS.keys(), ...PSEUDO.keys()];

// Takes the tables of docs. F is null where it does not name the operation.
export function takeTables(operations, characters) {
  const rowsOf = (table) => table.split("\n").slice(1, -1).map((line) => line.split("\t"));
  const rows = rowsOf(operations);
  for (const [name, code, field, time, uses, sentence] of rows) {
    const isShared = rows.filter((row) => row[1] === code).length > 1;
    const row = { name, code: Number(code), f: isShared ? Number(field) : null, time, uses, sentence };
    CARD.push(row);
    const registers = name.includes("r") ? ["rA", "rI1", "rI2", "rI3", "rI4", "rI5", "rI6", "rX"] : [""];
    registers.forEach((register, at) => {
      const whole = name.replace("r", register.slice(-1));
      OPERATIONS.set(whole, { ...row, name: whole, code: row.code + at, register });
    });
  }
  CHARACTERS.push(...rowsOf(characters).map(([, character]) => character));
}

// What is not given stands as it is read.
export function filled(sentence, given) {
  const general = { V: "V", cell: "field F of cell M", M: "M", line: "M", F: "F", r: "the register", ...given };
  return sentence.replace(/\{(\w+)\}/g, (_, name) => general[name]);
}

// What decides whether an operation jumps: a unit, "over", "cmp", or a register.
export function conditionOf({ code, f, uses, register }) {
  if (uses !== "jump") return "";
  if (code !== 39) return register || "unit";
  return f < 2 ? "" : f < 4 ? "over" : "cmp";
}

export function explained(word) {
  const name = word.toUpperCase();
  const row = OPERATIONS.get(name);
  if (!row) return PSEUDO.has(name) ? `${name}: ${PSEUDO.get(name)}.` : "";
  const sentence = filled(row.sentence, row.register ? { r: row.register } : {});
  return `${name}: ${sentence}. C = ${row.code}${row.f === null ? "" : `, F = ${row.f}`}, ${row.time} u.`;
}

export function fillCard() {
  const codeOf = ({ name, code }) => `${code}${name.includes("r") ? "+r" : ""}`;
  const rows = CARD.map((row) => [row.name, codeOf(row), String(row.f ?? ""), row.time, filled(row.sentence, {})]);
  const words = [...PSEUDO].map(([name, text]) => [name, "", "", "", text]);
  const rowOf = (texts) => make("tr", {}, ...texts.map((text) => make("td", {}, text)));
  $("card-rows").replaceChildren(...[...rows, ...words].map(rowOf));
  on("card-open", "click", () => {
    $("help-box").close();
    $("card").showModal();
  });
  on("card-print", "click", () => {
    document.body.classList.add("card-alone");
    window.print();
    document.body.classList.remove("card-alone");
  });
}
