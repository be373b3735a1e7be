// The texts, the session of what they say, and the moment that is seen. What is asked for is done
// in its turn, and who has subscribed is told of what is new.
import { partsOf } from "./bundle.js";
import { copied, counted } from "./dom.js";
import { Session } from "./session.js";

const PAUSE = 200; // milliseconds without a key before a text is assembled
const SESSIONS = 5; // sessions of other texts that can come back
const SLOW = 400; // milliseconds before a stop is offered

export class Store extends EventTarget {
  session = /** @type {Session} */ (null); // none while the texts are refused
  view = /** @type {View} */ (null);
  refusal = ""; // why there is no session
  warning = ""; // of a program that is accepted
  isEdited = false; // since the program was opened or saved
  kept = new Map(); // the last sessions of other texts in which something was done, by their texts
  assembled = ""; // the texts of the session or of the refusal
  timer = 0; // runs while a text is not assembled yet
  last = /** @type {Promise<any>} */ (Promise.resolve()); // of what is to be done
  left = 0; // so much still has to be done
  generation = 0;
  completed = (/** @type {View} */ view, _, __) => view; // with its sentences

  // `read` gives the texts as they are now, and `shown` what a session has to look at too.
  constructor(machine, read, shown) {
    super();
    this.machine = machine;
    this.read = read;
    this.shown = shown;
  }

  // Calls `work` whenever something is new:
  // - "texts": others; with what was found in them, the refusal or the program, and the first view
  // - "program": it is accepted; "forget": another one was opened; "bundle": a text that may be one
  // - "view": a moment is seen, with the answer that led to it and the view before; "cells": others are shown
  // - "tell": something; "busy", "slow": whether it is; "failed": what went wrong
  on(what, work) { this.addEventListener(what, (/** @type {any} */ { detail }) => work(...detail)); }
  emit(what, ...given) { this.dispatchEvent(new CustomEvent(what, { detail: given })); }
  tell(...said) { this.emit("tell", ...said); }
  get isBusy() { return this.left > 0 || this.timer !== 0; }

  copy(text, name) {
    const isDone = copied(text);
    this.tell(isDone ? `${name} is copied.` : "This browser does not let the page copy.", !isDone);
  }

  // What it gives, or nothing where it fails or was dropped.
  add(work) {
    const { generation } = this;
    this.left += 1;
    this.emit("busy", true);
    this.last = this.last.then(async () => {
      const timer = setTimeout(() => this.emit("slow", true), SLOW);
      try {
        return generation === this.generation ? await work() : undefined;
      } catch (fault) {
        if (generation === this.generation) this.emit("failed", fault);
        return undefined;
      } finally {
        clearTimeout(timer);
        this.emit("slow", false);
        this.left -= 1;
        this.emit("busy", this.isBusy);
      }
    });
    return this.last;
  }

  // What waits is not done any more, and of what is under way nothing is told.
  drop() {
    clearTimeout(this.timer);
    this.timer = 0;
    this.generation += 1;
    this.machine.stop();
  }

  // `unready` answers where the texts are refused.
  enqueue(work, unready = () => this.tell(`${this.refusal}. Nothing was done.`, true)) {
    return this.add(async () => {
      await this.assemble();
      return this.session ? work() : unready();
    });
  }

  edited() {
    this.isEdited = true;
    clearTimeout(this.timer);
    this.timer = setTimeout(() => {
      this.timer = 0;
      this.enqueue(() => undefined, () => undefined);
    }, PAUSE);
    this.emit("busy", true);
  }

  // A session that was left for other texts comes back when its texts do.
  async assemble() {
    const texts = this.read();
    const key = JSON.stringify(texts);
    if (key === this.assembled) return;
    const back = this.kept.get(key);
    const session = back || new Session(this.machine, texts, this.shown);
    const begun = await session.begin();
    const isLeft = this.session && this.session.log.length > 0;
    if (isLeft) this.kept.set(this.assembled, this.session);
    if (this.kept.size > SESSIONS) this.kept.delete(this.kept.keys().next().value);
    this.kept.delete(key);
    Object.assign(this, { assembled: key, session: null });
    this.emit("texts", { ...begun, texts });
    if (begun.refusal) {
      this.tell(`${this.refusal}.`, true);
      return;
    }
    this.session = session;
    this.emit("program", begun.program);
    this.show(begun.view);
    const done = counted(session.log.length, "command");
    if (back) this.tell(`The text is as it was, and what was done with it is back: ${done}.`);
    else if (isLeft) this.tell("The text is another, so it begins anew. Undo the edit, and what was done comes back.");
    else if (this.warning) this.tell(this.warning);
  }

  begin() {
    this.kept.clear();
    Object.assign(this, { session: null, assembled: "" });
    return this.assemble();
  }

  // The parts of a text that may be a bundle, or nothing as `add` has it. Any session can tell
  // them.
  async cut(text) {
    const { machine } = this;
    const told = await this.add(() => machine.ask(machine.holder ?? this, [["mix/bundle", { text }]]));
    return told && partsOf(text, told[0].body.parts);
  }

  // `answer` is that to the command which led here from the moment of the view `before`. A view is
  // whole before it is shown, so those who are shown it may be so in any order.
  show(view, answer = null, before = null) {
    this.view = this.completed(view, answer, before);
    this.emit("view", this.view, answer, before);
  }

  look() {
    return this.enqueue(async () => {
      const { state, conflict } = this.view;
      this.show({ ...(await this.session.look(state.done)), conflict });
    });
  }

  async did(found, before = this.view) {
    const { answer, view } = await found;
    this.isEdited = true;
    this.show(view, answer, before);
  }

  // Does commands, at whose end a change that conflicts is `met`, if there is one.
  act(commands, before, met) { return this.did(this.session.act(commands, { met }), before); }
  go(command) { return this.enqueue(() => this.act([command])); }
  slide(moment) { return this.enqueue(() => this.did(this.session.slide(moment))); }
}
