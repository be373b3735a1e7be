// What the engine takes on this machine, in time and in memory: `node tests/page/measure.mjs
// [MODULE]`. Each session launches a program and does a million steps, and then goes to moments
// among them, as the slider does. Times are those of the processor.

import { readFileSync } from "node:fs";
import { Engine } from "../../page/engine.js";
import { framesOf } from "../../page/machine.js";

const bytes = readFileSync(process.argv[2] || new URL("../../page/out/engine.wasm", import.meta.url));
const MILLION = 1000000;
const reader = new TextDecoder();

const repl = (expression) => ["evaluate", { expression, context: "repl" }];
const looks = [["mix/state", { cells: [], nonzero: true }], ["mix/units", {}]];
const run = repl(`run ${MILLION}`);
const drags = Array.from({ length: 21 }, (_, k) => (7 * k) % 20); // twentieths of the way, now near, now far

function opening(name) {
  const text = readFileSync(new URL(`../../bench/machine/${name}.mixal`, import.meta.url), "latin1");
  const sourceText = text.replace(/^ROUNDS .*$/m, "ROUNDS  EQU  4000");
  return [["initialize", {}], ["launch", { sourceText, stopOnEntry: true }], ["configurationDone", {}]];
}

function work() {
  const { user, system } = process.cpuUsage();
  return (user + system) / 1000;
}

// Milliseconds of an ask, in whose messages a text has to stand.
function timed(engine, requests, wanted) {
  const frames = framesOf(requests);
  const began = work();
  const text = reader.decode(engine.ask(frames));
  const took = work() - began;
  if (!text.includes(wanted)) throw new Error(text.slice(-300));
  return took;
}

function show(what, times) {
  const sorted = [...times].sort((a, b) => a - b).map((time) => time.toFixed(0));
  console.log(`${what}: median ${sorted[sorted.length >> 1]}, most ${sorted[sorted.length - 1]} milliseconds`);
}

for (const name of ["tight", "subroutine", "move"]) {
  const engine = await Engine.load(bytes);
  const millions = (count) => {
    const began = work();
    engine.open();
    timed(engine, [...opening(name), ...Array(count).fill(run), ...looks], `ran ${MILLION} `);
    return work() - began;
  };
  const memory = () => console.log(`${name}: ${(engine.memory / 1048576).toFixed(0)} MiB`);
  const look = (moment) => timed(engine, [repl(`goto ${moment}`), ...looks, ["mix/change", { number: Math.max(1, moment) }]], "mix/state");
  show(`${name}: a million steps, and a look`, Array.from({ length: 11 }, () => millions(1)));
  memory();
  show(`${name}: how often each cell was executed`, Array.from({ length: 11 }, () => timed(engine, [["mix/counts", {}]], "mix/counts")));
  show(`${name}: to any of them, and a look`, drags.map((at) => look((MILLION * at) / 20)));
  show(`${name}: a step back`, drags.map(() => timed(engine, [repl(`goto ${MILLION}`), repl("back 1"), ...looks], "back 1 ")));
  if (name === "move") continue;
  show(`${name}: ten million steps`, [millions(10)]);
  memory();
  show(`${name}: to any of them, and a look`, drags.map((at) => look((MILLION * at) / 2)));
}
