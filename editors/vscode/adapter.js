// The debug adapter inside the extension. The proved engine runs in a thread of its own: it takes
// the requests that `mixrev dap` would read, and gives the messages that it would write. It opens
// no files, so the adapter reads the files of a launch and passes their texts.

import { FrameReader, concat, encodeFrame } from "./frames.js";
import * as vscode from "vscode";

const TEXTS = { program: "sourceText", devices: "devicesText", cards: "cardsText", typewriter: "typewriterText" };
const INTERRUPTS = ["pause", "terminate", "disconnect"];
const MAX_FRAME = 134217728; // bytes
const CANCELLED = "stopped before its end, so nothing of it is done";

// A module of Node, or null in a browser.
export function nodeModule(name) {
  try {
    return require(`node:${name}`);
  } catch {
    return null;
  }
}

// Starts the thread of the engine; `onAnswer` gets what it posts.
function startThread(program, onAnswer) {
  const threads = nodeModule("worker_threads");
  if (threads) {
    const self = "const { parentPort } = require('node:worker_threads');\n" +
      "const self = { postMessage: (data) => parentPort.postMessage(data) };\n" +
      "parentPort.on('message', (data) => self.onmessage({ data }));\n";
    const worker = new threads.Worker(self + program, { eval: true });
    return worker.on("message", onAnswer).on("error", ({ message }) => onAnswer({ fault: message }));
  }
  const url = URL.createObjectURL(new Blob([program], { type: "text/javascript" }));
  const worker = new Worker(url);
  worker.onmessage = ({ data }) => onAnswer(data);
  worker.onerror = ({ message }) => onAnswer({ fault: message || "the engine does not start" });
  return worker;
}

// A file is UTF-16 if it begins with a byte order mark, otherwise UTF-8, or Latin-1 if it is not.
function decode(bytes) {
  const mark = bytes.length > 1 ? 256 * bytes[0] + bytes[1] : 0;
  if (mark === 0xfffe) return new TextDecoder("utf-16le").decode(bytes);
  if (mark === 0xfeff) return new TextDecoder("utf-16be").decode(bytes);
  try {
    return new TextDecoder("utf-8", { fatal: true, ignoreBOM: true }).decode(bytes);
  } catch {
    return new TextDecoder("latin1").decode(bytes);
  }
}

async function readText(uri) {
  if (uri.scheme !== "untitled") return decode(await vscode.workspace.fs.readFile(uri));
  const isIt = (document) => document.uri.toString() === uri.toString();
  return vscode.workspace.textDocuments.find(isIt).getText();
}

export const pathOf = (uri) => (uri.scheme === "file" ? uri.fsPath : uri.toString());

export class Adapter {
  queue = [];
  history = []; // frames that were answered; a new engine answers them first
  worker = null;
  cancel = null; // ends the request that the engine is working on
  timer = null;
  grace = 500; // milliseconds until a request is cancelled if an interrupt waits
  isBusy = false;
  isDisposed = false;
  seq = 0;
  sent = new vscode.EventEmitter();
  onDidSendMessage = this.sent.event;

  // `engine` has the program of the thread and its module.
  constructor(engine, folder, log) {
    Object.assign(this, { engine, folder, log });
  }

  handleMessage(message) {
    this.queue.push(message);
    this.cancelSoon();
    if (!this.isBusy) this.answerAll();
  }

  async answerAll() {
    this.isBusy = true;
    while (this.queue.length > 0) await this.answer(this.queue.shift());
    this.isBusy = false;
  }

  async answer(request) {
    const frame = encodeFrame(request.command === "launch" ? await this.withTexts(request) : request);
    const { bytes, fault } = await this.ask(frame).catch(({ message }) => this.end(message));
    if (this.isDisposed) return;
    if (fault === undefined) {
      this.history.push(frame);
      for (const message of new FrameReader().read(bytes)) this.send(message);
      return;
    }
    this.log(`${request.command}: ${fault}`);
    const { seq, command } = request;
    this.send({ type: "response", request_seq: seq, command, success: false, message: fault });
  }

  // Numbers the messages as the engine does, since it did not send all of them.
  send(message) {
    this.seq += 1;
    this.sent.fire({ ...message, seq: this.seq });
  }

  async ask(frame) {
    if (frame.length > MAX_FRAME) return { fault: "T6 input too long" };
    if (!this.worker) {
      const { fault } = await this.post({ module: await this.engine.module, isNew: true, frames: concat(this.history) });
      if (fault !== undefined) return this.end(fault);
    }
    const answer = this.post({ frames: frame });
    this.cancelSoon();
    const { bytes, fault } = await answer;
    clearTimeout(this.timer);
    Object.assign(this, { cancel: null, timer: null });
    return fault === undefined ? { bytes } : this.end(fault);
  }

  async post(data) {
    this.worker ??= startThread(await this.engine.program, (answer) => this.onAnswer(answer));
    return new Promise((resolve) => {
      this.onAnswer = resolve;
      if (!data.isNew) this.cancel = () => resolve({ fault: CANCELLED });
      this.worker.postMessage(data);
    });
  }

  // Cancels a long request if the user wants to stop.
  cancelSoon() {
    if (!this.cancel || !this.queue.some(({ command }) => INTERRUPTS.includes(command))) return;
    this.timer ??= setTimeout(this.cancel, this.grace);
  }

  // Ends the engine; the next request starts a new one.
  end(fault) {
    clearTimeout(this.timer);
    this.worker?.terminate();
    Object.assign(this, { worker: null, cancel: null, timer: null });
    return { fault };
  }

  dispose() {
    Object.assign(this, { queue: [], isDisposed: true });
    this.end();
  }

  // A launch with the texts of its files. If a file can't be read, the engine gets its name only,
  // and refuses it. The program's path becomes the one that the editor uses.
  async withTexts(request) {
    const given = { ...request.arguments };
    for (const [name, text] of Object.entries(TEXTS)) {
      if (typeof given[name] !== "string" || typeof given[text] === "string") continue;
      const uri = this.uriOf(given[name]);
      if (name === "program") given.program = pathOf(uri);
      try {
        given[text] = await readText(uri);
      } catch (error) {
        this.log(`${pathOf(uri)}: ${error.message}`);
      }
    }
    return { ...request, arguments: given };
  }

  // A name is a URI, an absolute path, or a path relative to the open folder.
  uriOf(name) {
    const folder = this.folder?.uri;
    if (/^[a-z][a-z0-9+.-]+:/i.test(name)) return vscode.Uri.parse(name);
    if (!folder) return vscode.Uri.file(name);
    if (!/^([a-z]:)?[\\/]/i.test(name)) return vscode.Uri.joinPath(folder, name);
    return folder.scheme === "file" ? vscode.Uri.file(name) : folder.with({ path: name });
  }
}
