// The commands with their replies, and the script that came with a program.
import { MADE } from "./bundle.js";
import { $, between, counted, make, on, put } from "./dom.js";

const LETTERS_SHOWN = 200000; // letters of a reply that are shown
const ROWS_SHOWN = 10; // of a script
const isToDo = (line) => line.trim() !== "" && !line.startsWith("*");

export class Talk {
  shown = /** @type {Logged[]} */ ([]);
  typed = []; // what was typed, for the arrow keys
  at = 0;
  agreed = ""; // a command that is done when it is given again

  constructor(/** @type {Store} */ store) {
    this.store = store;
    on("command-form", "submit", (event) => {
      event.preventDefault();
      const command = $("command").value;
      this.answer("", "");
      if (command.trim() === "") return;
      this.at = this.typed.push(command);
      $("log").setAttribute("aria-live", "polite");
      this.give(command);
    });
    on("command", "keydown", (event) => {
      const step = { ArrowUp: -1, ArrowDown: 1 }[event.key];
      if (!step || this.typed.length === 0) return;
      event.preventDefault();
      this.at = between(0, this.at + step, this.typed.length);
      $("command").value = this.typed[this.at] || "";
    });
    on("script-lines", "input", () => Object.assign(store, { isEdited: true }));
    for (const [id, count] of [["script-next", 1], ["script-all", Infinity], ["link-all", Infinity]]) {
      on(id, "click", () => store.enqueue(() => this.act(this.first(count))));
    }
    store.on("view", () => this.show(store.session.log));
    store.on("forget", () => {
      this.show([]);
      $("link-all").hidden = true;
    });
  }

  answer(command, text) {
    $("command").value = command;
    put($("command-note"), text);
  }

  // A `set` that would drop what is ahead is done when it is given twice.
  give(command) {
    const { store } = this;
    const work = () => {
      const { ahead } = store.session;
      const drops = /^\s*set?\s/i.test(command) && ahead > 0 && this.agreed !== command;
      if (!drops) return store.act([command]);
      this.agreed = command;
      return this.answer(command, `This drops ${counted(ahead, "change")} ahead. Press Enter again to do it.`);
    };
    store.enqueue(work, () => this.answer(command, `Not done, since the text is refused. ${store.refusal}.`));
  }

  // Does the first lines of the script; if one fails, they are still to be done.
  async act(lines) {
    const found = await this.store.session.act(lines);
    this.lines = this.lines.slice(lines.length);
    return this.store.did(found);
  }

  // The commands of a link wait until somebody wants them.
  wait() {
    const count = this.first(Infinity).filter(isToDo).length;
    $("link-all").hidden = count === 0;
    if (count > 0) this.store.tell(`This link brings ${counted(count, "command")}, not done yet: Do all does them.`);
  }

  // The first lines of the script with so many commands; comments and blank lines are none.
  first(count) {
    const { lines } = this;
    const given = lines.includes(MADE) ? lines.slice(0, lines.indexOf(MADE)) : lines;
    const last = given.map((line, at) => (isToDo(line) ? at + 1 : 0)).filter(Boolean)[count - 1];
    return given.slice(0, last);
  }

  // The commands of the script that are still to be done, which a person may alter.
  get lines() { return $("script-lines").value === "" ? [] : $("script-lines").value.split("\n"); }

  set lines(lines) {
    const left = lines[0] === MADE ? lines.slice(1) : lines;
    Object.assign($("script-lines"), { value: left.join("\n"), rows: between(1, left.length, ROWS_SHOWN) });
  }

  // Only what was typed is read out from here; the status tells the rest.
  show(log) {
    const box = $("log");
    this.agreed = "";
    if (log.length > 0) $("link-all").hidden = true;
    const isMore = this.shown.every((entry, index) => entry === log[index]);
    if (!isMore) box.replaceChildren();
    const more = isMore ? log.slice(this.shown.length) : log;
    for (const { command, reply } of more) {
      const rest = `\n(${reply.length} letters; the file that is saved gives them all)`;
      const isLong = reply.length > LETTERS_SHOWN;
      const shown = isLong ? `${reply.slice(0, LETTERS_SHOWN)} …${rest}` : reply.replace(/\n$/, "");
      box.append(make("p", {}, command), make("pre", {}, shown));
    }
    this.shown = [...log];
    if (more.length > 0) box.scrollTop = box.scrollHeight;
    setTimeout(() => box.setAttribute("aria-live", "off"));
  }
}
