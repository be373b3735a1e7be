// The extension in a worker of headless Chromium, which is driven through a pipe. The policy of the
// page allows threads of blobs and evaluated code, as the host of VS Code for browsers needs, and no
// request.
"use strict";
const { spawn } = require("node:child_process");
const fs = require("node:fs");
const path = require("node:path");

const POLICY = "default-src 'none'; child-src blob:; script-src 'unsafe-eval' 'unsafe-inline' blob:; connect-src 'none'";
const HOST = fs.readFileSync(path.join(__dirname, "host.cjs"), "utf8");

// The worker: each talk has an adapter of its own.
const WORKER = `onmessage = async ({ data: { files, talks } }) => {
  const host = hostOf((uri) => files[uri.path] ?? (() => { throw new Error("no such file"); })());
  const extension = host.load(new TextDecoder().decode(files["/extension/extension.js"]));
  extension.activate(host.context);
  const dialogues = [];
  for (const talk of talks) {
    const adapter = host.seen.debug.factory.createDebugAdapterDescriptor({}).parts[0];
    dialogues.push(await talkWith(adapter, talk));
    adapter.dispose();
  }
  await extension.deactivate();
  postMessage({ dialogues, log: host.seen.lines });
};`;

// The page: it starts the worker and waits for its answer.
const pageProgram = (program, files, talks) => `new Promise((resolve, reject) => {
  const files = Object.fromEntries(${JSON.stringify(files)}.map(([name, text]) => [name, Uint8Array.from(atob(text), (letter) => letter.charCodeAt(0))]));
  const worker = new Worker(URL.createObjectURL(new Blob([${JSON.stringify(program)}])));
  worker.onmessage = ({ data }) => resolve(data);
  worker.onerror = (event) => reject(new Error(event.message));
  worker.postMessage({ files, talks: ${JSON.stringify(talks)} });
})`;

// The messages for each list of requests, and the log; `files` are pairs of a name and bytes.
exports.inBrowser = async (folder, files, talks) => {
  const words = ["--headless=new", "--no-sandbox", "--disable-gpu", "--disable-dev-shm-usage", "--remote-debugging-pipe", `--user-data-dir=${folder}`];
  const browser = spawn("chromium", words, { stdio: ["ignore", "ignore", "ignore", "pipe", "pipe"] });
  const waiting = new Map();
  let [text, count] = ["", 0];
  browser.stdio[4].setEncoding("utf8").on("data", (part) => {
    const messages = (text + part).split("\0");
    text = messages.pop();
    for (const message of messages.map((one) => JSON.parse(one))) waiting.get(message.id)?.(message);
  });
  const ask = (method, params, sessionId) => new Promise((resolve) => {
    count += 1;
    waiting.set(count, resolve);
    browser.stdio[3].write(`${JSON.stringify({ id: count, method, params, sessionId })}\0`);
  });
  const page = `data:text/html,<meta http-equiv="Content-Security-Policy" content="${POLICY}">`;
  const { result: { targetId } } = await ask("Target.createTarget", { url: page });
  const { result: { sessionId } } = await ask("Target.attachToTarget", { targetId, flatten: true });
  const coded = files.map(([name, bytes]) => [name, Buffer.from(bytes).toString("base64")]);
  const given = { expression: pageProgram(HOST + WORKER, coded, talks), awaitPromise: true, returnByValue: true };
  const { result } = await ask("Runtime.evaluate", given, sessionId);
  browser.kill();
  await new Promise((resolve) => browser.on("exit", resolve));
  return result.result.value ?? { dialogues: [], log: [JSON.stringify(result.exceptionDetails)] };
};
