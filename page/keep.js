// Lessons, opening, saving and sharing. `assemble` has made their menu, and HTML of their notes.
import { $, copied, make, on, put, saved } from "./dom.js";
import { bundleIn, bundleOf, fragmentOf, openedOf } from "./bundle.js";
import { tooLarge } from "./source.js";
import { momentOf } from "./memory.js";

const FRAMED = ["bars", "registers", "output", "memory"]; // what a frame may show beside the program
const FRAMES = { bars: ["stage", "bars-box", "nodes-box"], output: ["stage", "output-box"] }; // the parts that are
const HELD_EVERY = 1000; // milliseconds
const LONGEST_HELD = 100000; // letters of an address
const LONG_LINK = 2000; // letters; mail and chats may cut what is longer
const FRESH = "* What the program does\n        ORIG 1000\nSTART   ENTA 5            put 5 into rA\n"
  + "        HLT\n        END  START\n";
const EMBED = new URLSearchParams(window.location.search).get("embed"); // the parts that a frame shows, if it is one
export const IN_FRAME = EMBED !== null;
const TO_LESSON = /^#(\d+)(?:@(\d+))?$/; // a lesson, and a moment of its program
const STEPS_ALONE = 100000; // that a link of a lesson does by itself
const addressOf = (fragment, search = "") => window.location.href.split(/[?#]/)[0] + search + fragment;

function sharedLines(text, other) {
  const lines = new Set(other.split("\n").filter((line) => line.trim() !== ""));
  return text.split("\n").filter((line) => lines.has(line)).length;
}

function isOf(/** @type {Lesson} */ lesson, text) {
  return Boolean(lesson) && [lesson.bundle, lesson.solution].some((parts) => parts?.source === text);
}

export class Keep {
  lesson = /** @type {Lesson} */ (null);
  isOther = false; // the text is another than the lesson's

  constructor(/** @type {App} */ app, /** @type {Lesson[]} */ lessons, /** @type {Check} */ check) {
    this.app = app;
    this.lessons = lessons;
    this.check = check;
    app.store.on("texts", () => this.recognize());
    on("lessons", "change", () => this.choose());
    on("open", "click", () => $("file").click());
    on("file", "change", () => this.openFile());
    on("save", "click", () => this.save());
    on("share", "click", () => this.share());
    on("new", "click", () => this.openFresh());
    for (const name of FRAMED) on(`frame-${name}`, "change", () => this.putFrame());
    for (const name of ["link", "frame"]) on(`${name}-copy`, "click", () => this.copy(`${name}-text`));
    on("moment-copy", "click", () => this.copyMoment());
    on("answer-open", "click", () => this.openLesson(this.lesson, this.lesson.solution));
    on("help", "click", () => $("help-box").showModal());
    window.addEventListener("beforeprint", () => put($("on-paper"), this.heading));
    window.addEventListener("hashchange", () => this.openLink());
    document.body.classList.toggle("embed", IN_FRAME);
    if (IN_FRAME) this.frame();
    else {
      setInterval(() => this.hold(), HELD_EVERY);
      window.addEventListener("beforeunload", (event) => {
        if (app.store.isEdited && this.held !== this.bundle) event.preventDefault();
      });
    }
  }

  isFree() {
    if (!this.app.store.isEdited) return Promise.resolve(true);
    const box = $("leave");
    box.returnValue = "";
    box.showModal();
    return new Promise((resolve) => {
      box.addEventListener("close", () => resolve(box.returnValue === "leave"), { once: true });
    });
  }

  setLesson(/** @type {Lesson} */ lesson) {
    const { title = "", notes = "", answer = "", solution = null } = lesson || {};
    this.lesson = lesson;
    this.check.setLesson(lesson);
    $("notes-title").textContent = title;
    $("notes-text").innerHTML = notes;
    $("answer-text").innerHTML = answer;
    Object.assign($("answer"), { open: false, hidden: !answer && !solution });
    $("answer-open").hidden = !solution;
    $("read").disabled = !lesson;
  }

  // Names the text: a lesson, an edited one, or one's own, which has no line of it, nor of the data
  // of its exercise.
  recognize() {
    const { talk, isOpening, listing: { text } } = this.app;
    const other = isOf(this.lesson, text) ? null : this.lessons.find((lesson) => isOf(lesson, text));
    const isOwn = this.lesson && !other && sharedLines(text, this.lesson.bundle.source + this.check.data) === 0;
    if (other || isOwn) {
      this.setLesson(other || null);
      if (!isOpening) talk.lines = other ? openedOf(other.bundle, true).left : [];
    }
    this.isOther = Boolean(this.lesson) && !isOf(this.lesson, text);
    put($("lessons").options[0], this.isOther ? this.title : "your own program");
    $("lessons").value = this.lesson && !this.isOther ? String(this.lessons.indexOf(this.lesson)) : "";
    if (this.lesson) put($("notes-title"), this.title);
  }

  async choose() {
    const lesson = this.lessons[$("lessons").value];
    if (lesson) await this.openLesson(lesson);
    this.recognize();
  }

  async put(lesson, opened) {
    this.setLesson(lesson);
    await this.app.open(opened);
    this.held ??= this.bundle; // what is opened first is what this address says
  }

  async openLesson(lesson, parts = lesson.bundle) {
    if (await this.isFree()) await this.put(lesson, openedOf(parts, true));
  }

  async openFresh() {
    await this.openLesson(null, { source: FRESH, deck: "", script: "" });
    this.app.listing.cm.focus();
  }

  // A bundle that was saved or shared, whose commands may have to wait; the reason why it is not
  // opened.
  async openBundle(bundle, waits) {
    const { store } = this.app;
    store.drop();
    const parts = await store.cut(bundle);
    if (!parts) return "";
    const opened = openedOf(parts, waits);
    const reason = tooLarge(opened.source);
    if (!reason) await this.put(this.lessons.find(({ name }) => name === opened.lesson) || null, opened);
    return reason;
  }

  async openFile() {
    const [file] = $("file").files;
    $("file").value = "";
    if (!file || !(await this.isFree())) return;
    const reason = await this.openBundle(await file.text(), false);
    if (reason) this.app.store.tell(`${file.name} was not opened: ${reason}.`, true);
  }

  // Whether it is a link of the page. What this tab itself has put into its address is done again
  // at once, and of a link from elsewhere nothing is done until somebody wants it.
  async openLink() {
    const [, number, moment] = TO_LESSON.exec(window.location.hash) || [];
    const lesson = number && this.lessons.find(({ name }) => parseInt(name, 10) === Number(number));
    if (lesson) {
      await this.openLesson(lesson);
      await this.goTo(Number(moment || 0));
      return true;
    }
    const isOwn = Boolean(window.history.state?.isHeld);
    const bundle = await bundleIn(window.location.hash).catch((fault) => fault);
    if (bundle === null) return false;
    let reason = bundle instanceof RangeError && bundle.message;
    if (typeof bundle === "string") {
      reason = (await this.isFree()) && (await this.openBundle(bundle, !isOwn));
      if (!reason && !isOwn) this.app.talk.wait();
      if (!reason) return true;
    }
    if (!this.lesson) await this.openLesson(this.lessons[0]);
    const told = reason ? `is not opened: ${reason}` : "is cut or was changed: it holds no program";
    this.app.store.tell(`This link ${told}.`, true);
    return true;
  }

  // The whole run if it is short, and back to the moment; of a long one the commands wait.
  goTo(moment) {
    const { store, talk } = this.app;
    const commands = [`run ${Math.max(moment, STEPS_ALONE)}`, `goto ${moment}`];
    if (moment === 0) return undefined;
    if (moment <= STEPS_ALONE) return store.enqueue(() => store.act(commands, null));
    talk.lines = commands;
    return talk.wait();
  }

  get title() { return this.lesson ? `${this.lesson.title}${this.isOther ? ", edited" : ""}` : "A program"; }

  get heading() {
    const { session } = this.app.store;
    const moment = session ? `, change ${session.done} of ${session.total}` : "";
    return `${this.title}${moment}, ${new Date().toISOString().slice(0, 10)}`;
  }

  get bundle() { return bundleOf(this.app.partsFor(this.lesson ? this.lesson.name : "")); }

  save() {
    const name = this.lesson ? this.lesson.name.replace("/", "_") : "program";
    saved(this.bundle, "text/plain", `${name}${this.isOther ? "-edited" : ""}.mixal`);
    this.app.store.isEdited = false;
  }

  // Holds all in the address, so that nothing is lost by a reload. What is too long is not held.
  async hold() {
    const { app: { store }, bundle, held } = this;
    if (store.isBusy || held === undefined || bundle === held) return;
    const fragment = await fragmentOf(bundle);
    if (bundle !== this.bundle) return;
    this.held = fragment.length <= LONGEST_HELD ? bundle : "";
    const address = this.held ? fragment : addressOf("#no-tour", window.location.search);
    window.history.replaceState({ isHeld: true }, "", address);
  }

  // The parts that the author of a frame chose stand beside the program, and a link leads to the
  // whole page.
  frame() {
    const asked = EMBED.split(",").filter((name) => FRAMED.includes(name));
    for (const name of asked.length > 0 ? asked : FRAMED.slice(0, 3)) {
      for (const part of FRAMES[name] || [name]) $(part).classList.add("chosen");
    }
    this.app.store.on("view", async () => {
      const { bundle } = this;
      const fragment = await fragmentOf(bundle);
      if (bundle === this.bundle) $("whole").href = addressOf(fragment);
    });
  }

  putFrame() {
    const parts = FRAMED.filter((name) => $(`frame-${name}`).checked).join(",");
    const given = { title: this.lesson ? this.title : "A program of MIX", width: 800, height: 500 };
    const src = addressOf($("link-text").value.replace(/^[^#]*/, ""), `?embed=${parts}`);
    $("frame-text").value = make("iframe", { src, ...given }).outerHTML;
  }

  async share() {
    const link = addressOf(await fragmentOf(this.bundle));
    $("link-text").value = link;
    this.putFrame();
    $("file-note").hidden = window.location.protocol !== "file:";
    const many = link.length.toLocaleString("en");
    const told = `The link has ${many} letters: mail and chats may cut it, so try it or send the file.`;
    put($("link-note"), link.length > LONG_LINK ? told : "");
    $("link").showModal();
    $("link-text").select();
  }

  copyMoment() {
    const { memory, bars, listing, store } = this.app;
    const cells = [...new Set([...memory.shownCells, ...bars.cells])].sort((a, b) => a - b);
    if (!store.session) store.tell(`${store.refusal}. Nothing was copied.`, true);
    else store.copy(`${this.heading}\n${momentOf(store.view, cells, listing.lineOf)}`, "The moment, as a text,");
  }

  copy(id) {
    const isDone = copied($(id).value);
    $(id).select();
    put($("link-note"), isDone ? "Copied." : "The text is marked: copy it by Ctrl C.");
  }
}
