// The module's function of bytes: all that a client sends goes in, all that it is sent comes out,
// and nothing is kept. The page does without it.

import { Engine } from "../../page/engine.js";

const NO_ROOM = 3; // the status where the room for the answer was too small
const LARGE = 1 << 28; // an instance with more memory than this is not kept for another talk

export class Talking extends Engine {
  // The status, 0 or 2; the bytes that the client is sent; the bytes that are told on the error
  // output, which say why a status is 2.
  talk(frames) {
    return this.safely(() => {
      if (!this.exports || this.memory > LARGE) this.exports = new WebAssembly.Instance(this.module).exports;
      const [input, lengths] = [this.room(frames.length), this.room(16)]; // the two lengths that a call tells
      this.bytes(input, frames.length).set(frames);
      for (let size = 1 << 18; ; ) {
        const out = this.room(size);
        const status = Number(this.exports.talk(input, BigInt(frames.length), out, BigInt(size), lengths, lengths + 8n));
        const [sent, told] = [...new BigUint64Array(this.exports.memory.buffer, Number(lengths), 2)].map(Number);
        const given = status === NO_ROOM ? null : this.bytes(out, sent + told).slice();
        for (const place of given ? [out, lengths, input] : [out]) this.exports.leave(place);
        if (given) return { status, bytes: given.subarray(0, sent), errors: given.subarray(sent) };
        size = sent + told;
      }
    });
  }
}
