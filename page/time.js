// Buttons, keys and the slider: ways through the changes, and the commands that they are.
import { $, all, choose, on, put } from "./dom.js";
import { toAnswer } from "./predict.js";
import { STEPS } from "./sentence.js";

const FIELDS = "textarea, select, input:not([type=range], [type=checkbox])"; // in which a letter is a letter
const PIN = /^\*\s*at\s+(\d+):\s*(.*)$/gim; // a remark of the source about a moment
const CONTROLS = all("#time [data-needs]"); // each is of use where there is what it needs

export class Time {
  constructor(/** @type {Store} */ store, /** @type {Listing} */ listing) {
    this.store = store;
    this.listing = listing;
    this.isDragged = false;
    this.wanted = undefined; // the moment that the slider asks for
    this.keys = {
      F9: () => listing.ask(listing.source.caretLine),
      F2: toAnswer,
      F1: () => store.tell(listing.source.caretExplained || "The cursor is at no operation."),
      "Control+Enter": () => {
        const isCommand = document.activeElement === $("command");
        choose(isCommand ? "program" : "stage");
        if (!isCommand) $("talk-box").open = true;
        (isCommand ? listing.cm : $("command")).focus();
      },
      r: () => $("read").click(),
      w: () => $("wall").click(),
      n: () => $("pin").click(),
    };
    on("pin", "click", () => this.toPin());
    for (const button of CONTROLS.filter(({ type, id }) => type === "button" && id !== "pin")) {
      button.addEventListener("click", () => this.press(button));
      this.keys[button.getAttribute("aria-keyshortcuts")] = () => button.click();
    }
    on("slider", "input", () => this.preview(Number($("slider").value)));
    on("slider", "change", () => {
      this.isDragged = false;
      store.slide(Number($("slider").value));
    });
    on("moment", "change", () => {
      const n = $("moment").value.trim();
      if (/^\d{1,10}$/.test(n)) store.go(`goto ${Number(n)}`);
      else $("moment").value = $("slider").value;
    });
    on("stop", "click", () => store.machine.stop());
    document.addEventListener("keydown", (event) => {
      const { key, ctrlKey, shiftKey, altKey, metaKey } = event;
      const isTyped = key.length === 1 && event.target.closest(FIELDS);
      const work = !isTyped && this.keys[`${ctrlKey ? "Control+" : ""}${shiftKey ? "Shift+" : ""}${key}`];
      if (!work || altKey || metaKey || document.querySelector("dialog[open]")) return;
      event.preventDefault();
      work();
    });
    store.on("view", (_, answer) => this.show(this.isDragged && !answer));
    for (const what of ["failed", "forget"]) store.on(what, () => this.show(false));
    store.on("texts", ({ refusal }) => {
      if (refusal) for (const control of CONTROLS) control.disabled = true;
    });
  }

  // What remarks say of moments.
  get pins() {
    const pins = [...this.listing.text.matchAll(PIN)].map(([, moment, text]) => ({ moment: Number(moment), text }));
    return pins.sort((one, other) => one.moment - other.moment);
  }

  pinAt(done) { return this.pins.filter(({ moment }) => moment === done).map(({ text }) => text).join("; "); }

  // To the next moment that a remark names, behind the last one to the first.
  toPin() {
    const { store } = this;
    store.enqueue(() => {
      const { done, ahead, total } = store.session;
      const { moment } = this.pins.find((pin) => pin.moment > done) || this.pins[0] || { moment: done };
      const more = `run ${moment - total}`;
      return store.act(moment <= total ? [`goto ${moment}`] : ahead > 0 ? ["forth all", more] : [more], store.view);
    });
  }

  // Where more moments come than can be shown, the last. A key ends at once what it begins, so
  // nothing is looked at before the events that come together are done.
  async preview(moment) {
    const isUnderWay = this.wanted !== undefined;
    Object.assign(this, { isDragged: true, wanted: moment });
    $("moment").value = moment;
    if (isUnderWay) return;
    const { store } = this;
    await store.enqueue(async () => {
      await new Promise((resolve) => setTimeout(resolve));
      for (let seen; seen !== this.wanted && this.isDragged; ) {
        seen = this.wanted;
        store.show(await store.session.look(seen));
      }
    });
    this.wanted = undefined;
  }

  // What a key that is held down asks for does not pile up, and what was done meanwhile may have
  // made it needless.
  press(button) {
    const { store, listing } = this;
    if (store.left > 2) return;
    store.enqueue(async () => {
      if (button.disabled || button.hasAttribute("aria-disabled")) return;
      const { session, view } = store;
      const out = Number(view.state.registers.find(({ name }) => name === "J").number);
      const filters = $("conflicts").checked ? ["conflict"] : [];
      const points = { cells: listing.breakCells, filters, out };
      for await (const [command, met] of commandsOf(button.id, session, points)) await store.act([command], view, met);
    });
  }

  // A control that has the focus keeps it: it is only marked.
  show(isDragged) {
    const { session, view } = this.store;
    this.isDragged = isDragged;
    if (!session || !view) return;
    const { done, ahead, total, isHalted } = session;
    const { state } = view;
    $("slider").max = total;
    for (const id of isDragged ? [] : ["slider", "moment"]) $(id).value = done;
    $("moment").size = Math.max(4, String(total).length);
    put($("total"), String(total));
    const where = `location ${state.location}, clock ${state.clock}`;
    $("slider").setAttribute("aria-valuetext", `change ${state.done} of ${total}, ${where}`);
    const has = { done, ahead, total, way: !isHalted, halt: isHalted, pins: this.pins.length };
    put($("clock"), ` · clock ${Number(state.clock).toLocaleString("en")} u`);
    for (const control of CONTROLS) {
      const is = Boolean(has[control.dataset.needs]);
      const isKept = !is && control === document.activeElement;
      control.disabled = !is && !isKept;
      control.ariaDisabled = isKept ? "true" : null;
    }
  }
}

// The commands of a button, one by one, each perhaps with a change that conflicts at its end.
// The engine says where one of the breakpoints at `cells` is met, or one of `filters`, and what is
// kept are the steps. `out` is the cell in rJ.
async function* commandsOf(name, session, points) {
  const { done, ahead } = session;
  const forth = ahead > 0 ? "forth 1" : "step 1";
  const plain = { step: forth, beyond: forth, back: "back 1", "to-start": "back all", "to-end": "forth all" }[name];
  if (plain) yield [plain];
  else if (name === "over") yield* overOf(session, points);
  else if (name !== "to-break") yield* runOf(session, { ...points, cells: points.cells.concat(points[name] ?? []) });
  else {
    const end = await session.stop("reverseContinue", points);
    yield [end.reason === "entry" ? "back all" : `back ${done - end.done}`, end.met];
  }
}

// As many steps as the engine goes over, of which it does those again that were taken back.
async function* overOf(session, points) {
  const { done, ahead } = session;
  const end = await session.stop("next", points);
  const count = end.done - done + (end.isFault ? 1 : 0);
  if (count <= ahead) yield [`forth ${count}`, end.met];
  else {
    if (ahead > 0) yield ["forth all"];
    yield [count > 1 ? `run ${count - ahead}` : "step 1", end.met];
  }
}

// Does again what was taken back, then goes on, by one step more where it stops at a fault, which
// is told then.
async function* runOf(session, points) {
  const { cells, filters } = points;
  if (session.ahead > 0) {
    const met = await session.next([...cells.map((cell) => `loc ${cell}`), ...filters]);
    yield met ? [`forth ${met - session.done}`, filters.length > 0 && met] : ["forth all"];
    if (met || session.isHalted) return;
  }
  const isWatched = cells.length + filters.length > 0;
  const end = isWatched ? await session.stop("continue", points) : { done: session.done + STEPS };
  yield [`run ${end.done - session.done + (end.isFault ? 1 : 0)}`, end.met];
}
