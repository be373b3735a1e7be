// The engine with little memory, page/out/small.wasm: where memory is refused, the call says so,
// and the next call is right. Runs of more and more steps are tried until memory is refused for
// ten of them. Before that the room of an answer, byte by byte. The line counts the calls.

import assert from "node:assert/strict";
import { readFileSync } from "node:fs";
import { framesOf } from "../../page/machine.js";
import { Talking } from "./talking.js";

const module = readFileSync(process.argv[2] || new URL("../../page/out/small.wasm", import.meta.url));
const engine = await Talking.load(module);
const writer = new TextEncoder();
const reader = new TextDecoder();
const SOURCE = " ENT1 1\nL STA 100,1\n INC1 1\n CMP1 =3000=\n JNE L\n ENT1 1\n JMP L\n END 0\n"; // no end
const opening = [["initialize", {}], ["launch", { sourceText: SOURCE, stopOnEntry: true }], ["configurationDone", {}]];
const repl = (expression) => ["evaluate", { expression, context: "repl" }];
let calls = 0;

function talk(requests) {
  calls += 1;
  const { status, bytes, errors } = engine.talk(framesOf(requests));
  return { status, sent: reader.decode(bytes), told: reader.decode(errors) };
}

// Talks without the glue, in a room of so many bytes, each 7 before: the status, the two lengths,
// and the room after it.
const { exports } = (await WebAssembly.instantiate(module)).instance;
const bytesAt = (place, size) => new Uint8Array(exports.memory.buffer, Number(place), size);

function inRoom(text, size) {
  const frames = writer.encode(text);
  const [input, out, lengths] = [frames.length, size, 16].map((needed) => exports.room(BigInt(needed)));
  bytesAt(input, frames.length).set(frames);
  bytesAt(out, size).fill(7);
  calls += 1;
  const status = Number(exports.talk(input, BigInt(frames.length), out, BigInt(size), lengths, lengths + 8n));
  const [count, told] = [...new BigUint64Array(exports.memory.buffer, Number(lengths), 2)].map(Number);
  return { status, count, told, room: bytesAt(out, size).slice() };
}

// What a client sends, the status, and what is told on the error output, which stands behind what
// is sent; the rest of the room stays.
const DISCONNECT = 'Content-Length: 51\r\n\r\n{"seq":1,"type":"request","command":"disconnect"}  ';
for (const [text, status, error] of [
  ["", 0, ""],
  [DISCONNECT, 0, ""],
  ["Content-Length: 3\r\n\r\n{}", 2, "mixrev: T7 input cut\n"],
  ["Content-Length: 999999999\r\n\r\n", 2, "mixrev: T6 input too long\n"],
]) {
  const given = inRoom(text, 512);
  const told = reader.decode(given.room);
  assert.deepEqual([given.status, given.told], [status, error.length], text);
  assert.ok(given.count === 0 || told.startsWith("Content-Length: "), text);
  assert.ok(told.startsWith(error, given.count), text);
  assert.ok(given.room.subarray(given.count + given.told).every((byte) => byte === 7), text);
}
// A room that is too small stays, and the length that it needs is told.
const large = inRoom(DISCONNECT, 512);
assert.deepEqual(inRoom(DISCONNECT, 16), { status: 3, count: large.count, told: 0, room: new Uint8Array(16).fill(7) });

// A short talk has the same answer as before, whatever was refused before it.
const short = [...opening, repl("run 5"), ["stackTrace", { threadId: 1 }], repl("show regs")];
const wanted = talk(short);
assert.equal(wanted.status, 0);
assert.match(wanted.sent, /ran 5 to 0001 clock 7: limit/);
const right = () => assert.deepEqual(talk(short), wanted);

// Commands, each of at most a million steps: all done, or memory is refused, which ends the talk;
// more steps need no less memory.
const MILLION = 1000000;
const MOST = 10 * MILLION; // steps that 32 MiB have no room for: each takes more than four bytes
const REFUSED = 10;
let refused = 0;
for (let steps = 10000; refused < REFUSED; steps += 30000) {
  assert.ok(steps < MOST);
  const runs = Array(Math.floor(steps / MILLION)).fill(MILLION);
  if (steps % MILLION > 0) runs.push(steps % MILLION);
  const { status, sent, told } = talk([...opening, ...runs.map((run) => repl(`run ${run}`)), repl("show changes")]);
  if (status === 0) {
    assert.equal(refused, 0);
    assert.deepEqual([...sent.matchAll(/"ran (\d+) to/g)].map(([, ran]) => Number(ran)), runs);
    assert.match(sent, new RegExp(`changes ${steps}\\\\n`));
  } else {
    refused += 1;
    assert.deepEqual([status, told], [2, "mixrev: T1 out of memory\n"]);
  }
  right();
}

// Runs by `continue`, each of which pauses after 1,000,000 changes, stop where memory is refused,
// and say so; what was done stands, and can be taken back.
const goes = Array(MOST / MILLION).fill(["continue", { threadId: 1 }]);
const { status, sent } = talk([...opening, ...goes, ["stepBack", { threadId: 1 }]]);
assert.equal(status, 0);
assert.match(sent, /"T1 out of memory"/);
assert.match(sent, new RegExp(`"command":"stepBack","request_seq":${opening.length + goes.length + 1},"seq":\\d+,"success":true`));
right();

// Texts that there is no room for.
const text = "* " + "x".repeat(78) + "\n";
let none = 0;
for (let lines = 1000; lines <= 600000; lines *= 2) {
  const long = [["initialize", {}], ["launch", { sourceText: text.repeat(lines) + SOURCE, stopOnEntry: true }], ["configurationDone", {}], repl("run 5")];
  try {
    const answer = talk(long);
    if (answer.status === 2) none += 1;
    else assert.match(answer.sent, lines < 16000 ? /ran 5 to/ : /ran 5 to|line \d+: A\d+/);
  } catch (fault) {
    assert.equal(fault.message, "T1 out of memory");
    none += 1;
  }
  right();
}
assert.ok(none > 2);
console.log(`${calls} calls with little memory, ${refused + none + 1} of them refused: as they should be`);
