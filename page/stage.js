// What is shown where: one picture at a time at the foot, the lesson beside the program, a page for
// a wall, larger and smaller letters.
import { $, all, between, isPressed, mark, on, put, walks } from "./dom.js";
import { rowsIn } from "./sentence.js";

const [BOXES, TABS] = [all("#picture > details"), all("#stage-tabs button")];
const KEPT_TOO = { analysis: "analysis-box", tapes: "units-box", cards: "given", symbols: "symbols-box" }; // in a file
const SIZES = [0.7, 0.8, 0.9, 1, 1.15, 1.3, 1.5, 1.75, 2]; // of letters
const HAS_TAPES = /^%UNIT\s+(\d|1[0-5])\b/im; // or disks
const NARROW = window.matchMedia("(max-width: 70rem)"); // no room for a lesson beside a program
export const isNothingShown = () => BOXES.every(({ open }) => !open);

const present = (id) => Object.assign($(id), { open: true }); // the others are shut

export class Stage {
  isChosen = false; // by a person, for this program
  rows = 0; // that are printed
  size = SIZES.indexOf(1);

  constructor(/** @type {Store} */ store, strip) {
    for (const tab of TABS) tab.addEventListener("click", () => this.choose(tab, strip));
    for (const box of BOXES) box.addEventListener("toggle", () => this.show(box, strip));
    on("bars-strip", "click", () => this.mark(strip));
    walks("stage-tabs", 3);
    store.on("forget", () => {
      this.isChosen = false;
      for (const box of BOXES) box.open = false;
      for (const part of all("#picture .panel, #notes-box, #cells-box")) part.scrollTop = 0;
    });
    store.on("view", (view, answer, before) => this.meet(view, answer && before));
    this.read(!NARROW.matches);
    NARROW.addEventListener("change", ({ matches }) => this.read(!matches));
    on("read", "click", () => this.read(!isPressed("read")));
    on("wall", "click", () => mark($("wall"), "aria-pressed", document.body.classList.toggle("wall")));
    for (const [id, step] of [["smaller", -1], ["larger", 1]]) on(id, "click", () => this.grow(step));
    document.addEventListener("click", ({ target }) => {
      if (!target.closest("#ways") || target.closest("#ways button")) $("ways").open = false;
    });
    on("ways", "keydown", ({ key }) => key === "Escape" && Object.assign($("ways"), { open: false }));
  }

  read(isRead) {
    mark($("read"), "aria-pressed", isRead);
    $("main").classList.toggle("folded", !isRead);
  }

  grow(step) {
    this.size = between(0, this.size + step, SIZES.length - 1);
    document.documentElement.style.setProperty("--scale", String(SIZES[this.size]));
    [$("smaller").disabled, $("larger").disabled] = [this.size === 0, this.size === SIZES.length - 1];
  }

  // What a file keeps of it, beside what the pictures keep themselves.
  get kept() {
    return Object.keys(KEPT_TOO).find((name) => $(KEPT_TOO[name]).open && (this.isChosen || name !== "cards")) ?? "";
  }

  // Another program: what was kept; else its tapes or cards as long as nothing is shown, or its output.
  open(shown, deck) {
    const name = shown.find((word) => word in KEPT_TOO);
    if (name) present(KEPT_TOO[name]);
    this.isChosen = Boolean(name);
    if (isNothingShown()) present(HAS_TAPES.test(deck) ? "units-box" : deck ? "given" : "output-box");
  }

  choose(tab, strip) {
    this.isChosen = true;
    if (tab.id === "" && strip.isOpen && tab.dataset.box === "bars-box") strip.toggle(false);
    present(tab.dataset.box);
    this.mark(strip);
  }

  show(box, strip) {
    if (box.open) for (const other of BOXES) if (other !== box) other.open = false;
    this.mark(strip);
    this.fit();
  }

  // An empty paper takes little room.
  fit() { $("main").classList.toggle("bare", $("output-box").open && this.rows === 0); }

  mark(strip) {
    for (const tab of TABS.filter(({ id }) => id === "")) {
      const isStrip = tab.dataset.box === "bars-box" && strip.isOpen;
      mark(tab, "aria-pressed", $(tab.dataset.box).open && !isStrip);
    }
    $("stage").classList.toggle("strip", strip.isOpen);
  }

  // The output comes by itself when there is some, unless a picture is shown or somebody chose. In a
  // narrow window the part in which a step changed something is marked.
  meet(/** @type {View} */ view, /** @type {View} */ before) {
    const rows = rowsIn(view);
    for (const id of ["output-rows", "tab-rows"]) put($(id), rows > 0 ? ` ${rows.toLocaleString("en")}` : "");
    const isMore = Boolean(before) && rows > rowsIn(before);
    if (isMore && !this.isChosen && ["given", "units-box"].some((id) => $(id).open)) present("output-box");
    this.rows = rows;
    this.fit();
    const fresh = { machine: Boolean(before) && view.altered.size > 2, stage: isMore }; // a step alters loc and clock
    for (const tab of all("#tabs button")) {
      tab.classList.toggle("fresh", Boolean(fresh[tab.dataset.tab]) && tab.dataset.tab !== $("main").dataset.tab);
    }
  }
}
