// The page: the parts that show a program, and how it is opened.
import { AtLine } from "./anatomy.js";
import { Bars } from "./bars.js";
import { cardsApart, openedOf, scriptOf, withCards } from "./bundle.js";
import { Compare } from "./compare.js";
import { $, all, choose, counted, on, onResize, put, seen } from "./dom.js";
import { showFound, toldRefusal } from "./faults.js";
import { Listing } from "./listing.js";
import { Broken, STOPPED } from "./machine.js";
import { Memory, showRegisters, showSymbols } from "./memory.js";
import { Nodes } from "./nodes.js";
import { Heat, TimeMap } from "./pictures.js";
import { Predict } from "./predict.js";
import { toldOf } from "./sentence.js";
import { WHOLE } from "./session.js";
import { Stage } from "./stage.js";
import { Store } from "./store.js";
import { Analysis, Passages } from "./tables.js";
import { Talk } from "./talk.js";
import { Time } from "./time.js";
import { Papers, Units } from "./units.js";
import { Who } from "./who.js";

export class App {
  isOpening = false; // a program, whose script stays as it came
  said = ["", false, "", false]; // what the status says, and whether a line says it too

  constructor(machine, grammar) {
    const shown = () => ({ blocks: this.units.requests, field: this.bars.field ?? WHOLE, nodes: this.nodes.kept });
    const store = new Store(machine, () => this.texts, shown);
    this.store = store;
    this.predict = new Predict(store);
    store.on("texts", (begun) => this.showTexts(begun));
    this.listing = new Listing(store, grammar);
    store.on("view", (view) => showRegisters(view, this.listing));
    this.memory = new Memory(store, this.listing);
    this.bars = new Bars(store, this.listing);
    this.nodes = new Nodes(store, this.memory);
    this.map = new TimeMap(store, this.listing);
    this.analysis = new Analysis(store, this.listing);
    this.passages = new Passages(store, this.listing);
    const papers = new Papers("papers");
    store.on("view", (view) => papers.show(view));
    store.on("forget", () => papers.show());
    this.stage = new Stage(store, this.bars.strip);
    const atLine = new AtLine(this.listing);
    store.on("texts", () => atLine.clear());
    this.units = new Units(store);
    new Heat(store, this.listing, this.memory);
    new Compare(store);
    const time = new Time(store, this.listing);
    this.talk = new Talk(store);
    const who = new Who(store, this.listing);
    store.completed = (seen, answer, before) => {
      const view = { ...seen, ...this.predict.meet(seen, before) };
      return { ...view, sentences: toldOf({ answer, before, view, listing: this.listing }) };
    };
    store.on("view", (view) => {
      const { did, isFault, next, isPlain } = view.sentences;
      this.listing.show(view);
      const [isDone, isNext] = atLine.show(view);
      $("status").classList.toggle("next-below", isNext && !view.asked);
      const pin = time.pinAt(view.state.done);
      store.tell(pin ? `Pin: ${pin} ${did}` : did, isFault, next, isPlain && isDone && !pin);
      this.listing.reveal();
    });
    store.on("tell", (did, isFault = false, next = isFault ? "" : this.said[2], isBelow = false) => {
      this.said = [did, isFault, next, isBelow];
      this.showStatus(...this.said);
    });
    store.on("busy", (isBusy) => $("main").setAttribute("aria-busy", String(isBusy)));
    store.on("slow", (isSlow) => {
      $("stop").hidden = !isSlow;
      this.showStatus(...(isSlow ? ["Working …"] : this.said));
    });
    machine.counted = (done, all) => this.showStatus(`Working … ${done} of ${counted(all, "long command")} done.`);
    store.on("failed", (fault) => this.failed(fault));
    store.on("bundle", async (text) => {
      const parts = await store.cut(text);
      if (parts?.source === text) store.edited();
      else if (parts) this.open(openedOf(parts, true));
    });
    document.addEventListener("input", (/** @type {any} */ { target }) => {
      const isMarked = target.id === "text" || target.value === seen(target.value); // the editor marks them itself
      if (!isMarked) target.value = seen(target.value);
    }, true);
    for (const id of ["cards", "deck"]) on(id, "input", () => store.edited());
    on("anew", "click", () => store.add(() => store.begin()));
    on("main", "click", async ({ target }) => {
      const part = target.closest("[data-part]")?.dataset.part;
      if (!part || !window.getSelection().isCollapsed) return; // where something is marked, somebody copies it
      await store.enqueue(() => who.open(part));
      this.map.watch(part);
    });
    for (const tab of all("#tabs button")) tab.addEventListener("click", () => choose(tab.dataset.tab));
    onResize($("time"), () => document.documentElement.style.setProperty("--bar", `${$("time").offsetHeight}px`));
  }

  get texts() { return { source: this.listing.text, deck: $("deck").value, cards: $("cards").value }; }

  showTexts({ found, refusal, program, texts }) {
    const { store, listing } = this;
    listing.setProgram(program);
    store.refusal = toldRefusal(refusal, showFound(found, listing), texts, listing);
    $("main").classList.toggle("stale", Boolean(refusal)); // what is seen is that of an older program
    if (program) store.warning = showSymbols(program, found, this);
  }

  showStatus(did, isFault = false, next = "", isBelow = false) {
    $("status").classList.toggle("fault", isFault);
    $("status").classList.toggle("done-below", isBelow);
    put($("did"), did);
    put($("next"), next);
  }

  failed(fault) {
    const { store } = this;
    const rest = "The text, the breakpoints and the commands are as they were.";
    if (!(fault instanceof Broken)) {
      console.error(fault);
      store.tell(`The page itself has a fault: ${fault}`, true);
    } else if (fault.message === STOPPED) store.tell(`Stopped. ${rest}`);
    else store.tell(`Not done: ${fault.message}. ${rest}`, true);
  }

  // The lines of the script that are done are done again, and those that are left are shown.
  open({ source, deck, done, left, breaks, bars, nodes, passages, names, score, shown }) {
    const { store, listing, talk } = this;
    store.drop();
    return store.add(async () => {
      const { deck: others, cards } = cardsApart(deck);
      listing.text = source;
      $("cards").value = cards;
      $("deck").value = others;
      store.emit("forget");
      choose("program");
      for (const line of new Set(breaks)) listing.toggle(line);
      listing.shut(shown.includes("no-words"));
      this.predict.open(score, shown.includes("predict"));
      this.nodes.open(nodes, [...source.split("\n"), ...done, ...left]);
      this.analysis.open(names, shown.includes("analysis"));
      this.passages.open(passages, passages !== "");
      talk.lines = [...done, ...left];
      this.isOpening = true;
      await store.begin().finally(() => Object.assign(this, { isOpening: false }));
      const { generation } = store;
      const ready = store.session ? this.bars.open(bars, talk.lines) : Promise.resolve(); // in its turn
      ready.then(() => generation === store.generation && this.stage.open(shown, deck));
      if (store.session && done.length > 0) await talk.act(done);
      store.isEdited = false;
    });
  }

  partsFor(lesson) {
    const { source, deck, cards } = this.texts;
    const { listing: { breaks, isShut }, talk: { lines: left }, stage: { kept }, analysis } = this;
    const [bars, nodes, passages, names, score] = [this.bars, this.nodes, this.passages, analysis, this.predict]
      .map(({ kept }) => kept);
    const is = { [kept]: true, "no-words": isShut, predict: $("predict").checked };
    const shown = Object.keys(is).filter((word) => word && is[word]).join(" ");
    const done = this.store.session?.lines || [];
    const script = scriptOf({ done, left, breaks, bars, nodes, passages, names, score, shown, lesson });
    return { source, deck: withCards(deck, cards), script };
  }
}
