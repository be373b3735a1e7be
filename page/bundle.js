// The bundle: a source, perhaps a deck, perhaps a script. Cards are shown apart from the rest of
// the deck. What the page keeps in a script are remarks.
import { seen } from "./dom.js";

const MOST = 4194304; // bytes of what a link holds
const HEADER_OF_CARDS = /^%unit[ \t]+0?16(?![0-9])/i;
const KEPT = "* Kept by the page, and no commands:";
export const MADE = "* So far it was done when this was saved or shared.";
const NAMES = {
  lesson: "lesson", breaks: "breakpoints at lines", bars: "bars", nodes: "nodes", passages: "passages",
  names: "values of names", score: "right predictions", shown: "shown too", left: "still to do",
};
const remark = (name, text) => `* ${NAMES[name]}: ${text}`;
const linesOf = (text) => text.split(/\r?\n/);
const whole = (text) => (text === "" || text.endsWith("\n") ? text : `${text}\n`);
const linesIn = (text) => linesOf(whole(text)).slice(0, -1); // without what is behind the last end of a line
const textOfLines = (lines) => lines.map((line) => `${line}\n`).join("");

// The parts of a text by their lines, as the engine tells them.
export function partsOf(text, told) {
  const lines = linesOf(text);
  const [source, deck, script] = ["source", "deck", "script"].map((name) => {
    const { from, until } = told.find(({ part }) => part === name) || { from: 1, until: 0 };
    return lines.slice(from - 1, until).join("\n") + (from <= until && until < lines.length ? "\n" : "");
  });
  return { source, deck, script };
}

export function bundleOf({ source, deck, script }) {
  const rest = (deck === "" ? "" : `%DEVICES\n${whole(deck)}`) + (script === "" ? "" : `%SCRIPT\n${whole(script)}`);
  return rest === "" ? source : whole(source) + rest;
}

// A script of the commands that were done, and what else the page holds, as remarks.
export function scriptOf({ done, left, breaks, ...texts }) {
  const held = { ...texts, breaks: breaks.join(" ") };
  const named = Object.keys(NAMES).filter((name) => held[name]).map((name) => remark(name, held[name]));
  const kept = [...named, ...left.map((line) => remark("left", line))];
  return textOfLines(kept.length > 0 ? [...done, KEPT, ...kept] : done);
}

// What the parts of a bundle open. Where the page kept nothing, all lines of a script are to be
// done at once; of one that waits none is, and a remark says how far it was done.
export function openedOf({ source, deck, script }, waits) {
  const lines = linesIn(seen(script));
  const at = lines.includes(KEPT) ? lines.lastIndexOf(KEPT) : lines.length;
  const after = (name) => {
    const begin = remark(name, "");
    return lines.slice(at + 1).filter((line) => line.startsWith(begin)).map((line) => line.slice(begin.length));
  };
  const [done, left, shown] = [lines.slice(0, at), after("left"), after("shown").join(" ").split(" ")];
  const breaks = after("breaks").join(" ").split(" ").map(Number).filter((line) => line > 0);
  const texts = ["bars", "nodes", "passages", "names", "score", "lesson"].map((name) => [name, after(name).join(" ")]);
  const opened = { source, deck: seen(deck), breaks, shown, ...Object.fromEntries(texts) };
  const parted = done.length > 0 && left.length > 0 ? [...done, MADE, ...left] : [...done, ...left];
  return waits ? { ...opened, done: [], left: parted } : { ...opened, done, left };
}

// After the header of unit 16, up to the next header.
function placeOfCards(lines) {
  const from = lines.findIndex((line) => HEADER_OF_CARDS.test(line)) + 1;
  if (from === 0) return null;
  const more = lines.slice(from).findIndex((line) => line.startsWith("%"));
  return [from, more < 0 ? lines.length : from + more];
}

export function cardsApart(deck) {
  const lines = linesOf(deck);
  const [from, to] = placeOfCards(lines) || [0, 0];
  if (from === 0) return { deck, cards: "" };
  const [cards, isLast] = [lines.splice(from, to - from), from === lines.length];
  return { deck: lines.join("\n") + (isLast ? "\n" : ""), cards: isLast ? cards.join("\n") : textOfLines(cards) };
}

// Cards replace those that the deck gives to unit 16.
export function withCards(deck, cards) {
  if (cards === "") return deck;
  const lines = linesIn(deck);
  if (!placeOfCards(lines)) lines.push("%UNIT 16");
  const [from, to] = placeOfCards(lines);
  lines.splice(from, to - from, ...linesIn(cards));
  return textOfLines(lines);
}

// A bundle in the fragment of a link: compressed, in letters that a link may hold.
async function through(stream, bytes, most = Infinity) {
  const reader = new Blob([bytes]).stream().pipeThrough(stream).getReader();
  const parts = [];
  for (let length = 0; ; ) {
    const { done, value } = await reader.read();
    if (done) return new Uint8Array(await new Blob(parts).arrayBuffer());
    length += value.length;
    parts.push(value);
    if (length <= most) continue;
    await reader.cancel();
    throw new RangeError(`it holds more than ${most.toLocaleString("en")} bytes`);
  }
}

const lettersIn = (base64) => atob(base64.replace(/-/g, "+").replace(/_/g, "/"));
const bytesOf = (base64) => Uint8Array.from(lettersIn(base64), (letter) => letter.charCodeAt(0));
const inflate = (base64, most) => through(new DecompressionStream("deflate-raw"), bytesOf(base64), most);

function lettersOf(bytes) {
  const text = Array.from(bytes, (byte) => String.fromCharCode(byte)).join("");
  return btoa(text).replace(/\+/g, "-").replace(/\//g, "_").replace(/=+$/, "");
}

export async function fragmentOf(bundle) {
  return `#mix=${lettersOf(await through(new CompressionStream("deflate-raw"), new TextEncoder().encode(bundle)))}`;
}

// Nothing where the fragment is none of ours; a RangeError where it holds too much.
export async function bundleIn(fragment) {
  const given = new URLSearchParams(fragment.replace(/^#/, ""));
  return given.has("mix") ? new TextDecoder().decode(await inflate(given.get("mix"), MOST)) : null;
}

export const bytesOfBlock = (id) => inflate(document.getElementById(id).textContent.trim());
export const textOfBlock = async (id) => new TextDecoder().decode(await bytesOfBlock(id));
