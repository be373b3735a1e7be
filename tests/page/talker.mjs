// The talks of the engine as a program that answers, for the comparisons: from standard input it
// reads the length of some frames, of 4 bytes, and the frames, again and again; for each it
// writes the status, of 1 byte, the lengths of what is sent and told, of 4 bytes each, and both.
// A fault of the engine has the status 255, and its text is told. The word names the module.

import { readFileSync, readSync, writeSync } from "node:fs";
import { Talking } from "./talking.js";

const engine = await Talking.load(readFileSync(process.argv[2]));

function read(size) {
  const bytes = new Uint8Array(size);
  for (let at = 0; at < size; ) {
    const count = readSync(0, bytes, at, size - at);
    if (count === 0) return null;
    at += count;
  }
  return bytes;
}

function write(bytes) {
  for (let at = 0; at < bytes.length; ) at += writeSync(1, bytes, at);
}

function answer(frames) {
  try {
    return engine.talk(frames);
  } catch (fault) {
    return { status: 255, bytes: new Uint8Array(0), errors: new TextEncoder().encode(fault.message) };
  }
}

for (let head = read(4); head; head = read(4)) {
  const frames = read(new DataView(head.buffer).getUint32(0));
  const { status, bytes, errors } = answer(frames);
  const told = new DataView(new ArrayBuffer(9));
  told.setUint8(0, status);
  told.setUint32(1, bytes.length);
  told.setUint32(5, errors.length);
  write(new Uint8Array(told.buffer));
  write(bytes);
  write(errors);
}
