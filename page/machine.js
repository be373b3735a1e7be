// The engine as the page sees it: requests go in, answers come out, and the page is not held up.
export const STOPPED = "it was stopped";
const BRACE = 123; // with which the body of a frame begins; a header has none
const HEADER = "Content-Length: ";
const [writer, reader] = [new TextEncoder(), new TextDecoder()];

export function framesOf(requests) {
  const frames = requests.map(([command, given], index) => {
    const body = JSON.stringify({ seq: index + 1, type: "request", command, arguments: given });
    return `${HEADER}${writer.encode(body).length}\r\n\r\n${body}`;
  });
  return writer.encode(frames.join(""));
}

const isLong = ([, { expression = "" }]) => /^run \d{6}/.test(expression); // a command

// Requests up to each that may take long, so that it can be said how far one is.
function inParts(requests) {
  const ends = requests.flatMap((request, at) => (isLong(request) ? [at + 1] : []));
  const cuts = [0, ...ends.filter((end) => end < requests.length), requests.length];
  return cuts.slice(1).map((end, at) => requests.slice(cuts[at], end));
}

// Where the program has stopped after a request, `stopped` says why.
function answersOf(bytes) {
  const answers = [];
  for (let at = 0; at < bytes.length; ) {
    const begin = bytes.indexOf(BRACE, at);
    const end = begin + Number(reader.decode(bytes.subarray(at + HEADER.length, begin)));
    const message = JSON.parse(reader.decode(bytes.subarray(begin, end)));
    at = end;
    if (message.type === "response") answers.push(message);
    else if (message.event === "stopped") answers[answers.length - 1].stopped = message.body;
  }
  return answers;
}

export const refusalOf = (/** @type {Answer} */ { success, message }) => (success ? "" : message);

// A refusal of the session is written as in a script.
export function replyOf(/** @type {Answer} */ { success, body, message }) {
  if (success) return body.result;
  return `${Math.floor(body.error.id / 100) === 2 ? "?" : "??"} ${message}\n`;
}

// No memory, a trap, or a stop: the session of the engine is lost then.
export class Broken extends Error {}

export class Machine {
  constructor(program, module) {
    this.program = program;
    this.module = module;
    this.url = URL.createObjectURL(new Blob([program], { type: "text/javascript" }));
    this.worker = null;
    this.holder = null; // whose session the engine holds
    this.drop = null;
    this.counted = (/** @type {number[]} */ ..._) => {}; // hears how far a long way is
  }

  // Where the engine does not hold the session of the holder, the requests begin one.
  async ask(holder, requests) {
    const [answers, parts] = [[], inParts(requests)];
    for (const [at, part] of parts.entries()) {
      if (at > 0) this.counted(at, requests.filter(isLong).length);
      answers.push(...(await this.askPart(holder, part)));
    }
    return answers;
  }

  async askPart(holder, requests) {
    if (!this.worker) {
      this.worker = new Worker(this.url);
      this.worker.postMessage({ module: this.module });
    }
    const isNew = this.holder !== holder;
    this.holder = null;
    const { bytes, fault } = await new Promise((/** @type {(given: any) => void} */ resolve) => {
      this.drop = () => resolve({ fault: STOPPED });
      this.worker.onmessage = ({ data }) => resolve(data);
      this.worker.onerror = (event) => resolve({ fault: event.message || "the engine does not start" });
      const frames = framesOf(requests);
      this.worker.postMessage({ isNew, frames }, [frames.buffer]);
    });
    this.drop = null;
    if (fault !== undefined) throw new Broken(fault);
    const answers = answersOf(bytes);
    if (answers.length < requests.length) throw new Broken("it has answered too little");
    this.holder = holder;
    return answers;
  }

  // Ends the call that is under way; the next one gets a new worker.
  stop() {
    if (!this.drop) return;
    this.end();
    this.drop();
  }

  end() {
    if (this.worker) this.worker.terminate();
    Object.assign(this, { worker: null, holder: null });
  }
}
