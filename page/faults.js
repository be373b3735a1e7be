// What is wrong with a text, in a list, with remedies; why a text is refused.
import { $, counted, make, put, seen } from "./dom.js";
import { CHARACTERS } from "./operations.js";

const NO_CHARACTER = 404; // the number of K4

// Gives the faults.
export function showFound(/** @type {Found[]} */ found, listing) {
  const all = found.map(({ severity, code, text, ...each }) => {
    const isFault = severity === "error";
    return { ...each, isFault, text: seen(isFault ? `${code} ${text}` : text) };
  });
  listing.setFound(all);
  const rows = all.map(({ line, isFault, text, remedy }, at) => {
    const told = `Line ${line}: ${[text, remedy].filter(Boolean).join("; ")}`;
    const given = { id: at === 0 && "wrong-text", class: isFault ? "wrong" : "warned" };
    return make("li", given, make("button", { type: "button", click: () => listing.source.goTo(line) }, told));
  });
  $("fault-rows").replaceChildren(...rows);
  return all.filter(({ isFault }) => isFault);
}

// Of a source all that is said of the first line with a fault.
export function toldRefusal(refusal, /** @type {any[]} */ [first, ...more], texts, listing) {
  put($("deck-fault"), "");
  if (!refusal) return "";
  const { id, variables: { text, line, reason } } = refusal;
  if (text === "source") {
    listing.source.reveal(first.line);
    const rest = more.length > 0 && counted(more.length, "more fault");
    return [`Line ${line}: ${listing.said.get(first.line)}`, first.remedy, rest].filter(Boolean).join("; ");
  }
  const [place, all] = text === "cards" ? ["Card", texts.cards] : ["Deck, line", texts.deck];
  const row = all.split("\n")[line - 1] || "";
  const at = id === NO_CHARACTER ? [...row.toUpperCase()].findIndex((letter) => !CHARACTERS.includes(letter)) : -1;
  const letter = at < 0 ? "" : `: “${[...row][at]}” at column ${at + 1}`;
  const told = `${place} ${line}: ${reason}${letter}`;
  put($("deck-fault"), told);
  $("given").open = true;
  return told;
}
