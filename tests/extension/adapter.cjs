// The debug adapter inside the extension, in Node and in a browser's worker, against `mixrev dap`:
// the same requests get the same messages. Then files in other encodings, names that only an editor
// has, runs that are cancelled, and an engine that does not start.
"use strict";
const { spawnSync } = require("node:child_process");
const fs = require("node:fs");
const path = require("node:path");
const { talkWith } = require("./host.cjs");
const { inBrowser } = require("./browser.cjs");

const TOP = path.join(__dirname, "../..");
const requestsOf = (pairs) => pairs.map(([command, given], at) => ({ seq: at + 1, type: "request", command, arguments: given }));
const repl = (expression) => ["evaluate", { expression, context: "repl" }];

// A session with a program, forwards and backwards: requests that work, and some that are refused.
function session(program, more = {}) {
  const source = { path: program };
  return requestsOf([
    ["initialize", { linesStartAt1: true, columnsStartAt1: true, supportsInvalidatedEvent: true }],
    ["launch", { program, stopOnEntry: true, ...more }],
    ["setBreakpoints", { source, breakpoints: [{ line: 8 }, { line: 12, condition: "I1 = 1" }, { line: 15, hitCondition: "2" }] }],
    ["setBreakpoints", { source: { path: `${program}.other` }, breakpoints: [{ line: 8 }] }],
    ["breakpointLocations", { source, line: 1, endLine: 30 }],
    ["setExceptionBreakpoints", { filters: ["conflict"] }],
    ["configurationDone"],
    ["threads"],
    ["stackTrace", { threadId: 1 }],
    ["scopes", { frameId: 1 }],
    ...[1, 2, 3, 4].map((variablesReference) => ["variables", { variablesReference }]),
    ["next", { threadId: 1 }],
    ["continue", { threadId: 1 }],
    ["stackTrace", { threadId: 1 }],
    ["continue", { threadId: 1 }],
    ["stepBack", { threadId: 1 }],
    ["stepOut", { threadId: 1 }],
    ["reverseContinue", { threadId: 1 }],
    ["evaluate", { expression: "rA", context: "watch" }],
    repl("run 100000"),
    repl("show units"),
    repl("back until I1"),
    repl("no such command"),
    ["completions", { text: "show ", column: 6 }],
    ["exceptionInfo", { threadId: 1 }],
    ["setVariable", { variablesReference: 1, name: "A", value: "77" }],
    ["readMemory", { memoryReference: "0x0000", count: 60 }],
    ["disassemble", { memoryReference: "0x0000", instructionCount: 5 }],
    ["mix/counts"],
    ["mix/state", { cells: [[0, 20]] }],
    ["mix/units"],
    ["setBreakpoints", {}],
    ["no such request"],
    ["restart"],
    ["disconnect"],
  ]);
}

// The messages that the program writes.
function nativeMessages(program, talk, cwd) {
  const input = talk.map((one) => JSON.stringify(one)).map((body) => `Content-Length: ${Buffer.byteLength(body)}\r\n\r\n${body}`).join("");
  const bytes = spawnSync(program, ["dap"], { input, cwd, maxBuffer: 1 << 28 }).stdout;
  const messages = [];
  for (let at = 0; at < bytes.length; ) {
    const begin = bytes.indexOf("{", at);
    at = begin + Number(bytes.toString("latin1", at, begin).match(/\d+/)[0]);
    messages.push(JSON.parse(bytes.toString("utf8", begin, at)));
  }
  return messages;
}

function examples() {
  const folders = ["examples", "tests/adapter/programs"].map((name) => path.join(TOP, name));
  const all = folders.flatMap((folder) => fs.readdirSync(folder).map((name) => path.join(folder, name)));
  return all.filter((name) => name.endsWith(".mixal")).filter((_, at) => at % 2 === 0); // each begins an engine
}

// Launches with unusual files, and the launch of the program that must get the same messages.
function oddFiles(room) {
  const put = (name, bytes) => {
    fs.writeFileSync(path.join(room, name), bytes);
    return path.join(room, name);
  };
  const utf16 = (text) => Buffer.from(`\ufeff${text}`, "utf16le");
  const turned = (text) => utf16(text).swap16();
  const source = put("reads.mixal", " ORIG 100\nSTART IN 0(16)\n JBUS *(16)\n LD1 0\n HLT\n END START\n");
  const card = "MIX CARDS ARE READ";
  const cards = put("plain.cards", `${card}\n`);
  const marked = "START ENTA 5 \xe9t\xe9\n HLT\n END START\n";
  fs.mkdirSync(path.join(room, "wide"));
  return [
    [{ program: source, cards: put("wide.cards", utf16(`${card}\n`)) }, { program: source, cards }],
    [{ program: source, cards: put("turned.cards", turned(`${card}\n`)) }, { program: source, cards }],
    [{ program: put("wide/reads.mixal", utf16(fs.readFileSync(source, "latin1"))), cards }, { program: source, cards }],
    [{ program: source, cards: put("latin.cards", Buffer.from("CAF\xc9\n", "latin1")) }],
    [{ program: put("latin.mixal", Buffer.from(marked, "latin1")) }],
    [{ program: put("greek.mixal", "START ENTA 5 \u03b1\u03b2\n HLT\n END START\n") }],
    [{ program: put("marked.mixal", "\ufeffSTART ENTA 5\n HLT\n END START\n") }],
    [{ program: path.join(room, "none.mixal") }],
    [{ program: source, devices: path.join(room, "none.deck") }],
    [{ program: source, typewriter: cards, cards }],
    [{ program: source, cardsText: "A\n", cards: path.join(room, "none.cards") }],
    [{ program: source, cards: put("long.cards", "A".repeat(200)) }],
    [{ program: put("empty.mixal", "") }],
  ];
}

// The messages have the name that the launch gave.
const renamed = (messages, from, to) => JSON.parse(JSON.stringify(messages).replaceAll(from, to));

exports.adapter = async ({ row, note, program, room, host, files }) => {
  const extension = host.load(String(files.get("/extension/extension.js")));
  extension.activate(host.context);
  const newAdapter = (folder) => host.seen.debug.factory.createDebugAdapterDescriptor({ workspaceFolder: folder }).parts[0];
  const converse = async (talk, folder) => {
    const adapter = newAdapter(folder);
    const messages = await talkWith(adapter, talk);
    adapter.dispose();
    return messages;
  };
  const texts = examples().map((name) => session(name));
  const deck = path.join(TOP, "tests/adapter/programs/cards.deck");
  texts.push(session(examples()[0], { devices: deck }), session(examples()[1], { noDebug: true }));
  const wanted = texts.map((talk) => nativeMessages(program, talk));
  for (const [at, talk] of texts.entries()) row(`inside and outside: ${talk[1].arguments.program}`, await converse(talk), wanted[at]);
  const count = texts.flat().length;
  note(`${count} requests, ${wanted.flat().length} messages`);
  row("requests", count >= 200, true);

  const odd = oddFiles(room);
  for (const [given, other = given] of odd) {
    const found = await converse(session(given.program, given));
    row(`files ${JSON.stringify(given)}`, renamed(found, given.program, other.program), nativeMessages(program, session(other.program, other)));
  }
  // A relative name is a file of the open folder, and the answers have its whole path.
  const folder = { uri: host.vscode.Uri.file(room) };
  const near = await converse(session(path.join(room, "reads.mixal")).map((one) => (one.command === "launch" ? { ...one, arguments: { program: "reads.mixal", stopOnEntry: true } } : one)), folder);
  row("a name in the folder that is open", near, nativeMessages(program, session(path.join(room, "reads.mixal"))));
  const text = fs.readFileSync(path.join(room, "greek.mixal"), "utf8");
  for (const address of ["untitled:Untitled-1", "vscode-vfs://github/knuth/mix/greek.mixal"]) {
    files.set(address, text);
    host.vscode.workspace.textDocuments.push({ languageId: "mixal", uri: host.vscode.Uri.parse(address), getText: () => text });
    const talk = session(address);
    row(address, await converse(talk), nativeMessages(program, [talk[0], { ...talk[1], arguments: { ...talk[1].arguments, sourceText: text } }, ...talk.slice(2)]));
    host.vscode.window.activeTextEditor = { document: host.vscode.workspace.textDocuments.at(-1) };
    row(`F5 on ${address}`, host.seen.debug.configurations.resolveDebugConfiguration(undefined, {}).program, address);
  }
  await testCancelled({ row, note, program, newAdapter });
  await testBroken({ row, program, newAdapter, files });

  if (spawnSync("chromium", ["--version"]).error) return note("not run: the adapter in a browser, since chromium is not there");
  const read = [...new Set(texts.map((talk) => talk[1].arguments).flatMap(({ program: one, devices }) => [one, devices ?? one]))].map((name) => [name, fs.readFileSync(name)]);
  const inside = ["extension.js", "worker.js", "engine.wasm"].map((name) => [`/extension/${name}`, files.get(`/extension/${name}`)]);
  const { dialogues, log } = await inBrowser(path.join(room, "chromium"), [...read, ...inside], texts);
  for (const [at, talk] of texts.entries()) row(`in a browser: ${talk[1].arguments.program} (${log})`, dialogues[at], wanted[at]);
};

// A run back over ten million steps is cancelled: it is refused, and everything is as before it.
async function testCancelled({ row, note, program, newAdapter }) {
  const endless = path.join(TOP, "tests/adapter/programs/endless.mixal");
  const before = [...session(endless).slice(0, 2).map((one) => [one.command, one.arguments]), ["configurationDone"], ...Array(10).fill(["continue", { threadId: 1 }])];
  const look = [["mix/state", { cells: [] }], repl("back 1"), ["stackTrace", { threadId: 1 }]];
  for (const [stop, after] of [["pause", look], ["disconnect", []]]) {
    const talk = requestsOf([...before, ["reverseContinue", { threadId: 1 }], [stop, { threadId: 1 }], ...after]);
    const long = talk[before.length];
    const adapter = Object.assign(newAdapter(), { grace: 20 });
    const start = Date.now();
    const found = await talkWith(adapter, talk, [stop]);
    note(`ten million steps, and a run back that is stopped by ${stop}: ${Date.now() - start} ms`);
    adapter.dispose();
    const at = found.findIndex((one) => one.request_seq === long.seq);
    row(`${stop}: the run is refused`, [found[at]?.success, found[at]?.message], [false, "stopped before its end, so nothing of it is done"]);
    const rest = found.filter((_, k) => k !== at).map((one, k) => ({ ...one, seq: k + 1 }));
    row(`${stop}: and all is as before it`, rest, nativeMessages(program, talk.filter((one) => one !== long)));
    row(`${stop}: the messages are counted`, found.map((one) => one.seq), found.map((_, k) => k + 1));
  }
}

// An engine that does not start, and then one that does.
async function testBroken({ row, program, newAdapter, files }) {
  const talk = session(examples()[0]);
  const whole = files.get("/extension/worker.js");
  const adapter = newAdapter();
  adapter.engine = { program: Promise.resolve("throw new Error('no engine')"), module: adapter.engine.module };
  const found = await talkWith(adapter, talk.slice(0, 3));
  row("no engine", found.map((one) => [one.success, one.message]), Array(3).fill([false, "no engine"]));
  adapter.engine = { program: Promise.resolve(String(whole)), module: adapter.engine.module };
  const again = (await talkWith(adapter, talk)).slice(0);
  row("and then an engine", again.map(({ seq, ...one }) => one), nativeMessages(program, talk).map(({ seq, ...one }) => one));
  adapter.dispose();
}
