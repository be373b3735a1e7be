// Who wrote this? The last change of a part, all others, the ways there, and a field to set it.
import { $, counted, fourDigits, make, on, put } from "./dom.js";
import { refusalOf } from "./machine.js";
import { heldIn } from "./memory.js";
import { CHARACTERS } from "./operations.js";
import { COMPARED, isCommand, nameOf } from "./sentence.js";
import { valuesOf } from "./svg.js";

// As a W-value: also a word byte by byte and five characters in quotes, as the page shows them.
function valueOf(typed) {
  const text = typed.trim();
  const letters = (/^["“]([^"”]{1,5})["”]$/.exec(text.toUpperCase()) || [])[1];
  const isWord = /^[+-]( \d{1,2}){2,5}$/.test(text);
  if (!letters && !isWord) return text;
  const codeOf = (letter) => CHARACTERS.indexOf(letter);
  const bytes = isWord ? text.split(" ").slice(1).map(Number) : [...letters.padEnd(5)].map(codeOf);
  if (bytes.includes(-1)) return text;
  const first = 6 - bytes.length; // in the word
  const parts = bytes.map((byte, at) => (byte > 0 ? `${byte}(${first + at}:${first + at})` : "")).filter(Boolean);
  return [...(text.startsWith("-") ? ["-0(0:0)"] : []), ...parts].join(",") || "0";
}

const FLAGS = { true: "on", false: "off", ...COMPARED };
const worthOf = (value) => value.number ?? FLAGS[value] ?? String(value);

function heldBy(part, view) {
  const { word, said } = heldIn(view, [Number(part.slice(5))]).find((each) => each.part === part);
  return said ?? `${word.word} = ${word.number} = “${word.characters}”`;
}

const ALLOWED = {
  over: "Write on or off.", cmp: "Write L, E or G.",
  small: "Write a number of two bytes, -4095 to 4095 (rJ: 0 to 4095), or a symbol, as KEY+1.",
  word: "Write a number, as -5; a word, as + 00 00 00 01 36; five characters in quotes; or a symbol, as KEY+1.",
};

export class Who {
  part = ""; // what comes after `until` in a command
  last = /** @type {Change} */ (null); // the last change that wrote it
  next = 0; // the next one

  constructor(/** @type {Store} */ store, /** @type {Listing} */ listing) {
    this.store = store;
    this.listing = listing;
    on("who-back", "click", () => this.leave(this.last.number));
    on("who-before", "click", () => this.leave(this.last.number - 1));
    on("who-forth", "click", () => this.leave(this.next));
    on("who-value", "input", () => this.refuse(""));
    on("who-form", "submit", (event) => {
      event.preventDefault();
      if ($("who-value").value.trim() !== "") store.enqueue(() => this.set(valueOf($("who-value").value)));
    });
  }

  leave(moment) {
    $("who").close();
    this.store.go(`goto ${moment}`);
  }

  async open(part) {
    const { session, view } = this.store;
    const { done, ahead } = session;
    const found = await session.writesOf(part);
    const { writes, last, next } = found;
    const name = nameOf(part);
    Object.assign(this, { part, last, next });
    this.showWrites(name, found, session);
    put($("who-title"), `Who wrote ${name}?`);
    put($("who-word"), heldBy(part, view));
    put($("who-text"), this.told(last, writes.findLast(({ number }) => number <= done)));
    $("who-back").disabled = !last || last.number === done;
    $("who-before").disabled = !last;
    $("who-forth").disabled = !next;
    $("who-value").value = "";
    this.refuse("");
    put($("who-ahead"), ahead > 0 ? `To change it here drops the ${counted(ahead, "change")} ahead.` : "");
    put($("who-set"), ahead > 0 ? "Set and drop" : "Set");
    if (!$("who").open) $("who").showModal();
    const here = $("who-writes").querySelector("[aria-current]");
    if (here) here.scrollIntoView({ block: "center" });
    $(!last ? "who-value" : last.number === done ? "who-before" : "who-back").focus();
  }

  showWrites(name, { writes, isCut, many }, { done, total }) {
    const here = writes.filter(({ number }) => number <= done).length - 1;
    const items = writes.map(({ number, before, after }, at) => {
      const given = { type: "button", "aria-current": at === here && "step", click: () => this.leave(number) };
      return make("li", {}, make("button", given, `change ${number}: ${worthOf(before)} → ${worthOf(after)}`));
    });
    const isList = items.length > 1;
    $("who-writes").replaceChildren(...items);
    const before = `${isCut[0] ? "the last " : ""}${counted(here + 1, "change")} up to here`;
    const after = `${isCut[1] ? "the next " : ""}${counted(writes.length - 1 - here, "change")} after it`;
    const told = isCut.includes(true)
      ? `Of ${counted(many, "change")} that wrote it: these are ${before}, and ${after}.`
      : `All ${counted(writes.length, "change")} that wrote it.`;
    put($("who-many"), isList ? told : "");
    const isDrawn = isList && writes[0].before.number !== undefined;
    const named = { title: `${name} over ${counted(total, "change")}`, text: "The list below has each value." };
    $("who-values").replaceChildren(...(isDrawn ? [valuesOf({ ...named, writes, isCut, total, done })] : []));
  }

  told(change, write) {
    if (!change) return "No change: it is as it was loaded.";
    const { number, location, text } = change;
    const became = `; from ${worthOf(write.before)} to ${worthOf(write.after)}.`;
    if (isCommand(change)) return `Change ${number}, a command: ${text}${became}`;
    const line = this.listing.lineOf.get(location);
    return `Change ${number}: ${text} at location ${fourDigits(location)}${line ? `, line ${line}` : ""}${became}`;
  }

  async set(value) {
    const { store, part } = this;
    const found = await store.session.act([`set ${part} ${value}`], { isTried: true });
    const refusal = refusalOf(found.answer);
    if (refusal) {
      this.refuse(`Refused: ${refusal}. ${ALLOWED[part] || ALLOWED[/^(I\d|J)$/.test(part) ? "small" : "word"]}`);
      return;
    }
    $("who").close();
    store.did(found);
  }

  refuse(text) {
    put($("who-fault"), text);
    $("who-value").setAttribute("aria-invalid", String(text !== ""));
  }
}
