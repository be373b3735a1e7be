// page/engine.js over a module that gives back what comes in, or goes wrong when it is asked to.
// The line counts the calls.

import assert from "node:assert/strict";
import { readFileSync } from "node:fs";
import { Engine } from "../../page/engine.js";

const bytes = readFileSync(new URL("../../page/out/fake.wasm", import.meta.url));
const NO_MEMORY = "T1 out of memory";
const MIDDLE = "it stopped in the middle: ";
let calls = 0;

function asked(engine, text) {
  calls += 1;
  return new TextDecoder().decode(engine.ask(new TextEncoder().encode(text)));
}

// What is said of a call that fails, after which the instance is thrown away; a session that is
// opened then is as it should be.
function fault(engine, text) {
  let said = "";
  try {
    asked(engine, text);
  } catch (error) {
    said = error.message;
    assert.equal(engine.memory, 0, "the instance is thrown away");
    assert.throws(() => asked(engine, "hello"), "its session is lost");
  }
  engine.open();
  assert.equal(asked(engine, "hello"), "hello", "the next session is another one");
  return said;
}

const engine = await Engine.load(bytes);
engine.open();
for (const text of ["hello", "", "error", "again"]) assert.equal(asked(engine, text), text);
for (let round = 0; round < 3; round += 1) {
  // an unreachable instruction, a stack that is used up, a place beyond the memory
  for (const text of ["trap", "stack", "outside"]) assert.ok(fault(engine, text).startsWith(MIDDLE), text);
  assert.equal(fault(engine, "good"), "");
}
// A session that is broken off, for memory or for what is no frame.
assert.equal(fault(engine, "1"), NO_MEMORY);
assert.ok(fault(engine, "2").startsWith(MIDDLE));
// An answer that is larger than the first room, and one for which there is none; what is asked
// then is answered alone.
const long = "3" + "x".repeat(300000);
assert.equal(asked(engine, long), long.repeat(3));
assert.equal(asked(engine, "hello"), "hello");
assert.equal(fault(engine, "3" + "x".repeat(3000000)), NO_MEMORY);
assert.equal(fault(engine, "y".repeat(9000000)), NO_MEMORY);
// All the memory is used up.
assert.equal(fault(engine, "memory"), NO_MEMORY);
// Sessions one after another give back what they took.
const taken = [];
for (let round = 0; round < 3000; round += 1) {
  if (round % 10 === 0) engine.open();
  const text = "z".repeat((round % 1000) * 30);
  assert.equal(asked(engine, text), text);
  taken.push(engine.memory);
}
assert.equal(taken[2999], taken[999]);
await assert.rejects(Engine.load(new Uint8Array([1, 2, 3])), WebAssembly.CompileError);
console.log(`${calls + 1} calls of the glue: as they should be`);
