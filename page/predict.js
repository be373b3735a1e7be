// Predict, then step: a question on the next step, what a person predicts, and the score. What the
// step did is what the engine says of it.
import { $, make, on, put } from "./dom.js";
import { heldIn } from "./memory.js";
import { OPERATIONS, conditionOf } from "./operations.js";
import { isCommand, itemOf, nameOf } from "./sentence.js";

const CHOICES = { jump: ["yes", "no"], cmp: ["less", "equal", "greater"], over: ["on", "off"] };
const MAY_OVERFLOW = /^(ADD|SUB|DIV|INC[AX]|DEC[AX])$/;
const OVER_EVERY = 8; // so many changes overflow is asked about, even where it stays as it is
const BOTH = /^(MUL|CHAR|SLAX|SRAX|SLC|SRC)$/; // they alter rA and rX
const ONE = { ADD: "A", SUB: "A", DIV: "A", NUM: "A", SLA: "A", SRA: "A", MOVE: "I1", JMP: "J" };
const nameIn = (part) => (part === "cmp" ? "the comparison" : nameOf(part));

// The part that is asked about, or "jump", or "". What becomes of a part does not decide it, so the
// question does not give the answer away; overflow is asked about at other times too.
export function subjectOf(/** @type {View} */ { state, next }) {
  const { operation, address } = next?.instruction || {};
  if (!operation || !next.items || state.ahead > 0) return "";
  const row = OPERATIONS.get(operation);
  const { name, register } = row;
  if (name.startsWith("CMP")) return "cmp";
  if (conditionOf(row)) return address === String(next.location + 1) ? "" : "jump";
  const isTurn = MAY_OVERFLOW.test(operation) && next.number % OVER_EVERY === 0;
  if (isTurn || itemOf(next, "over")) return "over";
  if (BOTH.test(operation)) return ["A", "X"][next.number % 2];
  return ONE[operation] ?? (name.startsWith("ST") ? `cell ${address}` : register.slice(1));
}

// A number, or that of some bytes with their sign; nothing where a text is neither.
function numberIn(text) {
  const [, sign, digits] = /^([-+]?)\s*(\d+(?:\s+\d+)*)$/.exec(text) || [];
  if (!digits) return null;
  const bytes = digits.split(/\s+/).map(Number);
  const isWrong = bytes.length > 1 && bytes.some((byte) => byte > 63);
  return isWrong ? NaN : (sign === "-" ? -1 : 1) * bytes.reduce((sum, byte) => 64 * sum + byte);
}

// Whether a guess is right, and what is the case, told as it was guessed; nothing where it is none.
// The number of -0 is 0, its bytes have a sign.
export function verdictOn(guess, part, /** @type {View} */ view) {
  if (part === "jump") {
    const { taken } = view.change;
    return { isRight: taken === (guess === "yes"), told: `it ${taken ? "jumps" : "does not jump"}` };
  }
  const cells = part.startsWith("cell ") ? [Number(part.slice(5))] : [];
  const { word, said } = heldIn(view, cells).find((each) => each.part === part);
  const isBytes = /\d\s+\d/.test(guess);
  const is = said || (isBytes ? word.word : word.number);
  const [given, held] = [guess, is].map(numberIn);
  if (word && given === null) return null;
  const isRight = said ? guess === said : isBytes ? Object.is(given, held) : given === held;
  return { isRight, told: `${nameIn(part)} is ${is}${isRight ? "" : `, not ${guess}`}` };
}

// To the answer, if something is asked.
export function toAnswer() { if (!$("answers").hidden) ($("choices").firstChild || $("guess")).focus(); }

export class Predict {
  right = 0;
  asked = 0; // so many questions were answered
  isLent = false; // the focus, to Step while there is nothing to ask

  constructor(/** @type {Store} */ store) {
    store.on("texts", () => this.ask(""));
    on("predict", "change", () => store.session && store.look());
    on("guess-form", "submit", (event) => {
      event.preventDefault();
      $("step").click();
    });
  }

  // What a file keeps of the score.
  get kept() { return this.asked > 0 ? `${this.right} of ${this.asked}` : ""; }

  open(kept, isOn) {
    [this.right, this.asked] = /^\d+ of \d+$/.test(kept) ? kept.split(" of ").map(Number) : [0, 0];
    if (isOn) $("predict").checked = true;
    this.showScore();
  }

  showScore() { put($("score"), this.kept && `${this.kept} right`); }

  // What a view has besides, which does not have then what is asked.
  meet(/** @type {View} */ view, /** @type {View} */ before) {
    const { state, change, inField } = view;
    const isStep = before?.asked && state.done === before.state.done + 1 && !isCommand(change);
    const guess = $("guess").value.trim();
    const verdict = isStep && guess !== "" ? verdictOn(guess, before.asked, view) : null;
    if (verdict) {
      this.asked += 1;
      this.right += verdict.isRight ? 1 : 0;
      this.showScore();
    }
    const judged = verdict ? `${verdict.isRight ? "Right" : "Wrong"}, ${verdict.told}. ` : "";
    const asked = $("predict").checked ? subjectOf(view) : "";
    if (before) $("guess").value = "";
    this.ask(asked);
    const next = asked ? { ...view.next, items: [] } : view.next;
    return { asked, judged, next, inField: asked ? { ...inField, next } : inField };
  }

  // Where the focus is in the answer, it goes to the next one.
  ask(part) {
    const [box, step, active] = [$("answers"), $("step"), document.activeElement];
    const isHere = box.contains(active) || (this.isLent && active === step);
    const choose = ({ target }) => {
      $("guess").value = target.textContent;
      step.click();
    };
    const button = (each) => make("button", { type: "button", class: "low", click: choose }, each);
    if (part === "") $("guess").value = "";
    put($("question"), part === "jump" ? "Does it jump?" : part && `What is ${nameIn(part)} after it?`);
    $("choices").replaceChildren(...(CHOICES[part] || []).map(button));
    $("typed").hidden = part in CHOICES;
    box.hidden = part === "";
    this.isLent = isHere && part === "";
    if (this.isLent) step.focus();
    else if (isHere) toAnswer();
  }
}
