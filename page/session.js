// A program with its units, and the commands that were given to it, each with its reply. Where the
// engine has lost the session, or holds that of another text, it does the commands again.
import { replyOf } from "./machine.js";
import { Path } from "./path.js";

const LOOKED_BACK = 32; // changes in which the last cell is looked for
const MOST_WRITES = 1000; // that the engine tells at once
export const WHOLE = 5; // the field (0:5)
export const WHERE = /** @type {Asked} */ (["mix/state", { cells: [], nonzero: false }]); // how many changes are done
const ZERO = { word: "+ 00 00 00 00 00", number: "0", characters: "     ", value: "0" };
export const repl = (expression) => ["evaluate", { expression, context: "repl" }];

function openingOf({ deck, cards, source }) {
  const texts = { sourceText: source, devicesText: deck, cardsText: cards || undefined };
  return [
    ["initialize", { adapterID: "mixrev", clientID: "page", linesStartAt1: true }],
    ["launch", { program: "program.mixal", ...texts, stopOnEntry: true }],
    ["configurationDone", {}],
  ];
}

// Where words only ask something, they stand for no line.
function loggedOf(command, answer) {
  const { line } = answer.success ? answer.body : { line: command };
  return { command: line ?? command, reply: replyOf(answer), isSaid: line === undefined };
}

export class Session {
  // `shown` gives the requests for blocks of tapes and disks, the field of cells that is shown, and
  // perhaps the words that ask for nodes.
  constructor(machine, texts, shown) {
    this.machine = machine;
    this.texts = texts;
    this.shown = shown;
    this.launched = null; // the answer to the launch
    this.first = /** @type {Map<number, string>} */ (null); // the cells that were not zero at the start
    this.log = /** @type {Logged[]} */ ([]); // each command with its reply
    this.state = /** @type {Partial<State>} */ ({ done: 0, ahead: 0 }); // that after the last command
    this.at = 0; // so many changes are done in the engine
    this.changes = {}; // another object whenever the list of changes may be another one
    this.path = new Path(); // how often each cell was executed
    this.written = new Map(); // of units that print the changes that are known, and how much they had printed
  }

  get done() { return this.state.done; }
  get ahead() { return this.state.ahead; }
  get total() { return this.done + this.ahead; }
  get lines() { return this.log.filter(({ isSaid }) => !isSaid).map(({ command }) => command); }
  get isHalted() { return this.ahead === 0 && this.state.halted; }

  // The bodies of the answers to requests that only look.
  async bodies(requests, at = this.done) {
    const answers = await this.ask(requests, at);
    return answers.map(({ body }) => body);
  }

  /** @returns {Promise<any[]>} The answers to requests, of which the first finds so many changes done. */
  async ask(requests, at = this.done) {
    if (requests.length === 0) return [];
    const isLost = this.machine.holder !== this;
    const way = isLost ? [...openingOf(this.texts), ...this.lines.map(repl)] : [];
    if (at !== (isLost ? this.done : this.at)) way.push(repl(`goto ${at}`));
    const answers = await this.machine.ask(this, [...way, ...requests]);
    if (isLost) this.launched = answers[1];
    this.at = at;
    return answers.slice(way.length);
  }

  async see(commands, at = this.done) {
    const { blocks, field, nodes = "" } = this.shown();
    const all = ["mix/state", { cells: [], nonzero: true, instructions: true, field }];
    const drawn = nodes ? [["mix/nodes", { of: nodes }]] : [];
    const asked = [...commands.map(repl), all, ["mix/units", {}], ...blocks, ...drawn];
    const answers = await this.ask(asked, at);
    const [state, units, ...found] = answers.slice(commands.length).map(({ body }) => body);
    this.at = state.done;
    const isSlid = commands.length === 1 && commands[0].startsWith("goto ");
    const logged = commands.map((command, index) => loggedOf(command, answers[index]));
    if (commands.length > 0) this.noticed(logged, state);
    const held = blocks.flatMap(([, { unit, block }], index) => {
      const { units: one } = found[index];
      return one ? [[`${unit} ${block}`, one[0].block]] : [];
    });
    const cells = new Map(state.cells.map((cell) => [cell.cell, cell]));
    /** @type {View} */
    const view = {
      state, units: units.units, blocks: new Map(held), wordIn: (cell) => cells.get(cell) || ZERO,
      altered: new Set(state.altered), lastCell: isSlid ? undefined : await this.lastCell(state.done, at), field,
      nodes, told: nodes ? answers[answers.length - 1] : null,
      ...(await this.momentOf(state, field)),
    };
    return { answers, logged, view };
  }

  // The cell that was written last, after a way of more than a step.
  async lastCell(done, from) {
    const count = Math.abs(done - from) > 1 ? Math.min(LOOKED_BACK, done) : 0;
    const asked = Array.from({ length: count }, (_, back) => ["mix/change", { number: done - back }]);
    const parts = (await this.bodies(asked, done)).flatMap(({ items = [] }) => items.map(({ part }) => part));
    const cell = parts.find((part) => part.startsWith("cell "));
    return cell && Number(cell.slice(5));
  }

  // The last change and the next step, with the numbers of whole words, and in a field; how often
  // cells were executed.
  async momentOf({ done, ahead, halted }, field) {
    const last = done > 0 ? [["mix/change", { number: done }]] : [];
    const next = ahead > 0 ? ["mix/change", { number: done + 1 }] : ["mix/next", {}];
    const both = halted ? last : [...last, next];
    const fields = [...new Set([WHOLE, field])];
    const asked = fields.flatMap((each) => both.map(([name, given]) => [name, { ...given, field: each }]));
    const bodies = await this.bodies([...asked, ...this.path.requestsTo(done)], done);
    const ends = (at) => ({ change: done > 0 ? bodies[at] : null, next: halted ? null : bodies[at + last.length] });
    const inField = ends(asked.length - both.length);
    return { ...ends(0), inField, times: this.path.timesAt(done, bodies.slice(asked.length)) };
  }

  // Forgets what may be another now. To go to a moment alters nothing.
  noticed(logged, { done, ahead }) {
    if (logged.every(({ command, isSaid }) => isSaid || /^\s*(back|forth|goto)\b/i.test(command))) return;
    const isAlone = logged.length === 1;
    if (isAlone && done + ahead === this.total && (done <= this.done || ahead > 0)) return;
    this.changes = {};
    this.path.cut(isAlone ? this.done : 0);
    if (!isAlone || this.ahead > 0) this.written.clear();
  }

  async begin() {
    const [check, program] = await this.bodies([["mix/check", { source: this.texts.source }], ["mix/program", {}]]);
    const found = check.diagnostics;
    if (!this.launched.success) return { found, refusal: this.launched.body.error };
    const view = await this.look();
    this.first ??= new Map(view.state.cells.map(({ cell, word }) => [cell, word]));
    this.state = view.state;
    return { found, program, view };
  }

  async look(at = this.done) { return (await this.see([], at)).view; }

  // The answer to the last command, and a view, with the conflict of the change that is `met`. What
  // is tried is not kept if it is refused.
  async act(commands, { from = this.done, isTried = false, met = 0 } = {}) {
    const { answers, logged, view } = await this.see(commands, from);
    const asked = met ? [["mix/change", { number: met, conflict: true }]] : [];
    for (const { conflict } of await this.bodies(asked, this.at)) view.conflict = conflict;
    const answer = answers[commands.length - 1];
    if (isTried && !answer.success) return { view, answer };
    this.log.push(...logged);
    this.state = view.state;
    return { view, answer };
  }

  // A slide takes the place of one before it, so that such a way is one command.
  async slide(moment) {
    const last = this.log[this.log.length - 1];
    const isSlide = last && last.slidFrom !== undefined;
    const from = isSlide ? last.slidFrom : this.done;
    const found = await this.act([`goto ${moment}`], { from });
    if (isSlide) this.log.splice(-2, 1);
    this.log[this.log.length - 1].slidFrom = from;
    return found;
  }

  // Where and why a run stops, with breakpoints at cells, and filters of exceptions; none of it is
  // kept. `isFault` says that a fault is next; `met` is the number of a change that conflicts. What
  // is ahead may be dropped on the way to its end; then the engine does all again.
  async stop(way, { cells, filters }, from = this.done) {
    const breakpoints = cells.map((cell) => ({ instructionReference: String(6 * cell) }));
    const sets = [["setInstructionBreakpoints", { breakpoints }], ["setExceptionBreakpoints", { filters }]];
    const goes = [[way, { threadId: 1 }], ["exceptionInfo", { threadId: 1 }], WHERE];
    for (let [at, requests] = [from, [...sets, ...goes]]; ; [at, requests] = [this.at, goes]) {
      const answers = await this.ask(requests, at);
      const [{ stopped: { reason } }, { success: isFault }, { body: { done, ahead } }] = answers.slice(-3);
      this.at = done;
      if (this.ahead > 0 && ahead === 0) this.machine.holder = null;
      const isBack = way === "reverseContinue";
      const met = reason === "exception" && !isFault ? done + (isBack ? 1 : 0) : 0;
      if (reason !== "pause" || !isBack) return { done, reason, isFault, met };
    }
  }

  // The first of the moments ahead at which a condition of `until` holds, if there is one.
  async next(conditions) {
    const back = repl(`goto ${this.done}`);
    const tries = conditions.flatMap((condition) => [repl(`forth until ${condition}`), WHERE, back]);
    const moments = (await this.bodies(tries)).map(({ done }) => done).filter((done) => done > this.done);
    return moments.length > 0 ? Math.min(...moments) : undefined;
  }

  // The numbers of W-values; NaN for one that has none.
  async values(expressions) {
    const bodies = await this.bodies(expressions.map((expression) => ["evaluate", { expression, context: "watch" }]));
    return bodies.map(({ number }) => Number(number));
  }

  async cellsAt(moments, cells, field) {
    const look = ["mix/state", { cells: [[cells[0], cells[cells.length - 1]]], nonzero: false, field }];
    const found = await this.bodies(moments.flatMap((moment) => [repl(`goto ${moment}`), look]));
    this.at = moments[moments.length - 1];
    return moments.map((_, index) => found[2 * index + 1].cells.map(({ value }) => Number(value)));
  }

  // The answer to a request that asks something of all changes.
  async told(request) { return (await this.ask([request], this.total))[0]; }

  async altersOf(cells) {
    const asked = cells.map((cell) => ["mix/writes", { part: `cell ${cell}`, count: 0, total: true }]);
    const found = await this.bodies(asked, this.total);
    return new Map(cells.map((cell, index) => [cell, found[index].total]));
  }

  // The changes around this moment that wrote a part, whether more may stand before or behind them,
  // and then `many` in all; the last one that is done; the first one that is ahead.
  async writesOf(part) {
    const { done, total } = this;
    const writesUpTo = async (ends) => {
      const found = await this.bodies(ends.map((until) => ["mix/writes", { part, until }]), total);
      return found.map(({ writes }) => writes.reverse());
    };
    const [before, all = before] = await writesUpTo(done < total ? [done, total] : [done]);
    // The last of all, if they reach back to here; else the last of those that are near.
    const reaches = (writes) => writes.length < MOST_WRITES || writes[0].number <= done + 1;
    const near = reaches(all) ? [] : await writesUpTo([done + MOST_WRITES, done + 32 * MOST_WRITES]);
    const ahead = [...near, all].filter(reaches).pop().filter(({ number }) => number > done);
    const isCut = [before.length === MOST_WRITES, !reaches(all)];
    const counts = isCut.includes(true) ? [["mix/writes", { part, count: 0, total: true }]] : [];
    const lasts = before.slice(-1).map(({ number }) => ["mix/change", { number }]);
    const bodies = await this.bodies([...counts, ...lasts], total);
    const [many, last] = [counts.length > 0 && bodies[0].total, bodies[counts.length]];
    const next = ahead.length > 0 ? ahead[0].number : await this.next([part]);
    return { writes: [...before, ...ahead], isCut, many, last, next };
  }
}
