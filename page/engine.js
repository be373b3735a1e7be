// The proved engine as a module of WebAssembly: what a client sends goes in as bytes, what it is
// sent comes out. It keeps one session, and nothing here knows what a request does.
const [DONE, MEMORY, NO_ROOM] = [0, 1, 3]; // statuses of a call
const FIRST_ROOM = 1 << 18;
const LARGE = 1 << 28; // an instance with more memory than this is not kept for another session
const NO_MEMORY = "T1 out of memory";

export class Engine {
  module = null;
  exports = null;
  handle = 0n; // of 16 bytes in the module's memory, by which it knows the session

  static async load(bytes) {
    const engine = new this();
    engine.module = await WebAssembly.compile(bytes);
    return engine;
  }

  // Begins a session in the place of the one before.
  open() {
    this.safely(() => {
      if (this.memory > LARGE) this.exports = null;
      if (!this.exports) {
        this.exports = new WebAssembly.Instance(this.module).exports;
        this.handle = this.room(16);
        this.bytes(this.handle, 16).fill(0);
      }
      if (Number(this.exports.engine_open(this.handle)) !== DONE) throw new Error(NO_MEMORY);
    });
  }

  ask(frames) {
    return this.safely(() => {
      const [input, count] = [this.room(frames.length), this.room(8)];
      this.bytes(input, frames.length).set(frames);
      for (let [length, size] = [frames.length, FIRST_ROOM]; ; ) {
        const out = this.room(size);
        const status = Number(this.exports.engine_ask(this.handle, input, BigInt(length), out, BigInt(size), count));
        if (status === MEMORY) throw new Error(NO_MEMORY);
        if (status !== DONE && status !== NO_ROOM) throw new Error(`it has the status ${status}`);
        const sent = Number(new BigUint64Array(this.exports.memory.buffer, Number(count), 1)[0]);
        const answer = status === DONE ? this.bytes(out, sent).slice() : null;
        for (const place of answer ? [out, count, input] : [out]) this.exports.leave(place);
        if (answer) return answer;
        [length, size] = [0, sent]; // it waits for the room that it needs
      }
    });
  }

  get memory() { return this.exports ? this.exports.memory.buffer.byteLength : 0; }

  // If this fails, the instance is thrown away with its session; `open` makes another one.
  safely(work) {
    try {
      return work();
    } catch (fault) {
      this.exports = null;
      throw fault.message === NO_MEMORY ? fault : new Error(`it stopped in the middle: ${fault.message}`);
    }
  }

  room(size) {
    const place = this.exports.room(BigInt(size));
    if (place === 0n) throw new Error(NO_MEMORY);
    return place;
  }

  bytes(place, size) { return new Uint8Array(this.exports.memory.buffer, Number(place), size); }
}
