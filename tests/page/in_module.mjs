// The C in a module for WebAssembly, lowered as the engine is: products and shifts against whole
// numbers of any size, and the heap against a model, up to the most memory that the module may
// have. The word is a seed; the line counts the calls.

import assert from "node:assert/strict";
import { readFileSync } from "node:fs";

const bytes = readFileSync(new URL("../../page/out/c.wasm", import.meta.url));
const c = new WebAssembly.Instance(new WebAssembly.Module(bytes)).exports;
const MOST = 8388608;
let calls = 0;
let state = BigInt(process.argv[2] || 1) * 2654435761n + 88172645463325252n;

function drawn(below) {
  const word = (n) => BigInt.asUintN(64, n);
  state ^= word(state << 13n);
  state ^= state >> 7n;
  state ^= word(state << 17n);
  return Number(state % BigInt(below));
}

function drawnBits(bits) {
  let number = 0n;
  for (let k = 0; k < bits; k += 1) number = (number << 1n) | BigInt(drawn(2));
  return number;
}

function numbers() {
  const place = c.room(32n);
  const low = (1n << 64n) - 1n;
  const edges = [0n, 1n, 0xffffffffn, 1n << 32n, (1n << 63n) - 1n, 1n << 63n, low, 1n << 64n, (1n << 127n) - 1n, 1n << 127n, (1n << 128n) - 1n];
  const pairs = edges.flatMap((a) => edges.map((b) => [a, b]));
  for (let k = 0; k < 2000; k += 1) pairs.push([drawnBits(1 + drawn(128)), drawnBits(1 + drawn(128))]);
  for (const [a, b] of pairs) {
    const words = new BigUint64Array(c.memory.buffer, Number(place), 4);
    words.set([a & low, a >> 64n, b & low, b >> 64n]);
    c.product_of(place);
    assert.equal(words[0] | (words[1] << 64n), BigInt.asUintN(128, a * b), `${a} * ${b}`);
    const places = b % 128n;
    words.set([a & low, a >> 64n, 0n, 0n]);
    c.shifts_of(place, places);
    assert.equal(words[0] | (words[1] << 64n), BigInt.asUintN(128, a << places), `${a} << ${places}`);
    assert.equal(words[2] | (words[3] << 64n), a >> places, `${a} >> ${places}`);
    calls += 3;
  }
  for (let k = 0; k < 1000; k += 1, calls += 1) {
    const both = Uint8Array.from({ length: 32 }, () => drawn(256));
    const bytes = new Uint8Array(c.memory.buffer, Number(place), 32);
    bytes.set(both);
    c.shuffle_of(place);
    const wanted = both.map((byte, at) => (at >= 16 ? byte : both[at + 16] < 128 ? both[both[at + 16] % 16] : 0));
    assert.deepEqual(bytes, wanted);
  }
  c.leave(place);
}

// Blocks that are in use: where, how long, and the byte that fills each.
const live = [];
let marks = 0;
const seen = { refused: 0, moved: 0, stayed: 0 };

const view = (block, size) => new Uint8Array(c.memory.buffer, Number(block), size);
const holds = (block, size, mark) => view(block, size).every((byte) => byte === mark);

function taken(block, size) {
  assert.equal(block % 16n, 0n);
  const begin = Number(block);
  assert.ok(begin >= 1048576, "above the stack");
  assert.ok(begin + size <= c.memory.buffer.byteLength, "within the memory");
  for (const one of live) assert.ok(begin + size <= one.begin || one.begin + one.size <= begin, "apart from the others");
  marks = (marks % 255) + 1;
  view(block, size).fill(marks);
  live.push({ block, begin, size, mark: marks });
}

function turn() {
  const size = drawn(1 << (1 + drawn(drawn(8) ? 12 : 22)));
  const what = live.length > 300 ? 9 : drawn(10);
  if (what < 5 || live.length === 0) {
    const block = drawn(2) ? c.room(BigInt(size)) : c.tries_alloc(BigInt(size));
    if (block === 0n) seen.refused += 1;
    else taken(block, size);
    return;
  }
  const [one] = live.splice(drawn(live.length), 1);
  assert.ok(holds(one.block, one.size, one.mark));
  if (what >= 7) {
    (drawn(2) ? c.leave : c.rattle_dealloc)(one.block);
    return;
  }
  const kept = Math.min(size, one.size);
  const block = c.tries_realloc(one.block, BigInt(kept), BigInt(size));
  if (block === 0n) {
    seen.refused += 1;
    assert.ok(holds(one.block, one.size, one.mark));
    live.push(one);
    return;
  }
  if (block === one.block) seen.stayed += 1;
  else seen.moved += 1;
  assert.ok(holds(block, kept, one.mark));
  taken(block, size);
}

numbers();
for (const size of [1n << 40n, (1n << 40n) + 1n, 1n << 63n, (1n << 64n) - 1n]) assert.equal(c.room(BigInt.asIntN(64, size)), 0n, `${size} bytes`);
for (let k = 0; k < 20000; k += 1, calls += 1) turn();
// Whatever the draws have left, small blocks fill the memory up to its most.
for (let block = c.room(1000n); block !== 0n; block = c.room(1000n), calls += 1) taken(block, 1000);
for (const one of live.splice(0)) c.leave(one.block);
assert.ok(seen.refused && seen.moved && seen.stayed);
assert.equal(c.memory.buffer.byteLength, MOST);
const whole = BigInt(MOST - 1048576 - 65536);
assert.notEqual(c.room(whole), 0n, "what was given back is one room again");
assert.deepEqual([c.tells_grown(0xffffffffn), c.tells_grown(-1n), c.tells_grown(0n), c.tells_grown(9n)], [0, 0, 1, 1]);
assert.deepEqual([c.tells_pages(0n), c.tells_pages(1n), c.tells_pages(65536n), c.tells_pages(65537n)], [0n, 1n, 1n, 2n]);
console.log(`${calls + 12} calls in a module: ${seen.refused} refused, ${seen.moved} blocks moved, ${seen.stayed} stayed: as the model says`);
