// The language client: its questions to `mixrev lsp` and the answers in VS Code's terms; servers
// that die, hang, write no frames or do not exist.
"use strict";
const { spawn } = require("node:child_process");
const fs = require("node:fs");
const path = require("node:path");
const { hostOf } = require("./host.cjs");

const NAME = "file:///t.mixal";
const FILE = { scheme: "file", authority: "", path: "/t.mixal" };
const TEXT = "START LDA  X\n     ADDD Y\nX    CON  5\n     END  START\n";
const ended = (child) => new Promise((resolve) => (child.exitCode === null && child.signalCode === null ? child.on("exit", resolve) : resolve()));
const later = () => new Promise((resolve) => setTimeout(resolve, 20));

// A host with open sources, its extension, and the servers that the extension started.
function hostWith(files, program, uris = [NAME]) {
  const children = [];
  const spawned = (...words) => {
    children.push(spawn(...words));
    return children.at(-1);
  };
  const host = hostOf((uri) => files.get(uri.path), (name) => (name === "node:child_process" ? { spawn: spawned } : require(name)));
  if (program) host.seen.settings.program = program;
  for (const uri of uris) {
    host.vscode.workspace.textDocuments.push({ languageId: "mixal", version: 1, uri: host.vscode.Uri.parse(uri), getText: () => TEXT });
  }
  const extension = host.load(String(files.get("/extension/extension.js")));
  const heard = (event) => new Promise((resolve) => {
    const listening = event.event((given) => {
      listening.dispose();
      resolve(given);
    });
  });
  const hover = (token) => {
    const at = new host.vscode.Position(0, 7);
    return host.seen.providers.registerHoverProvider.provideHover(host.vscode.workspace.textDocuments[0], at, token).then((found) => found?.parts[0], (error) => error);
  };
  const news = () => heard(host.events.Published);
  const start = () => extension.activate(host.context);
  const until = async (test) => {
    for (let k = 0; k < 1500 && !test(); k += 1) await later();
  };
  return { ...host, children, extension, news, start, hover, until };
}

// Each kind of question, about one source.
async function testRequests(row, host) {
  const { seen, events, news, vscode } = host;
  const { Position, Range } = vscode;
  const at = (line, character) => new Position(line, character);
  const [document] = vscode.workspace.textDocuments;
  const first = news();
  host.start();
  await first;
  const shown = () => seen.published.get("file:///t.mixal").map((one) => [one.range.start.line, one.range.start.character, one.code, one.severity]);
  row("a fault", shown(), [[1, 5, "A2", 0]]);
  const meant = await seen.providers.registerCodeActionsProvider.provideCodeActions(document, new Range(at(1, 0), at(1, 5)));
  row("the operation that is meant", meant.map((one) => [one.parts[0], one.edit.texts[0][1].map((edit) => edit.parts)]), [
    ["Write ADD", [[{ start: { line: 1, character: 5 }, end: { line: 1, character: 9 } }, "ADD"]]],
  ]);
  row("no hint in a text with a fault", await seen.providers.registerInlayHintsProvider.provideInlayHints(document, new Range(at(0, 0), at(4, 0))), []);
  const second = news();
  events.Change.fire({ document: { ...document, version: 2 }, contentChanges: [{ range: new Range(at(1, 8), at(1, 9)), text: "" }] });
  await second;
  row("a warning after a change", shown(), [[1, 9, "undefined-symbol", 1]]);
  const hints = await seen.providers.registerInlayHintsProvider.provideInlayHints(document, new Range(at(1, 0), at(2, 3)));
  row("what lines make", hints.map((one) => [...one.parts, one.paddingLeft]), [
    [{ line: 1, character: 10 }, "0001  + 00 03 00 05 01", true],
    [{ line: 2, character: 11 }, "0002  + 00 00 00 00 05", true],
  ]);
  row("the kinds of tokens", seen.legends.map((one) => one.parts), [[["label", "keyword", "variable", "number", "macro", "string", "comment"], []]]);
  const tokens = await seen.providers.registerDocumentSemanticTokensProvider.provideDocumentSemanticTokens(document);
  row("tokens", Array.from(tokens.parts[0]), [
    0, 0, 5, 0, 0, 0, 6, 3, 1, 0, 0, 5, 1, 2, 0, 1, 5, 3, 1, 0, 0, 4, 1, 2, 0, 1, 0, 1, 0, 0, 0, 5, 3, 1, 0, 0, 5, 1, 3, 0, 1, 5, 3, 1, 0, 0, 5, 5, 2, 0,
  ]);
  const definition = await seen.providers.registerDefinitionProvider.provideDefinition(document, at(0, 11));
  row("the definition", definition.map((one) => one.parts), [[FILE, { start: { line: 2, character: 0 }, end: { line: 2, character: 1 } }]]);
  const uses = await seen.providers.registerReferenceProvider.provideReferences(document, at(0, 11), { includeDeclaration: false });
  row("the uses", uses.map((one) => one.parts[1].start), [{ line: 0, character: 11 }]);
  const marks = await seen.providers.registerDocumentHighlightProvider.provideDocumentHighlights(document, at(2, 0));
  row("read and written", marks.map((one) => one.parts[1]), [1, 2]);
  const symbols = await seen.providers.registerDocumentSymbolProvider.provideDocumentSymbols(document);
  row("the names", symbols.map((one) => one.parts[0]), ["START", "X"]);
  const renaming = seen.providers.registerRenameProvider;
  row("what is renamed", await renaming.prepareRename(document, at(2, 0)), { start: { line: 2, character: 0 }, end: { line: 2, character: 1 } });
  const edits = await renaming.provideRenameEdits(document, at(2, 0), "TOTAL");
  row("a new name", edits.texts[0][1].map((one) => one.parts[1]), ["TOTAL", "TOTAL"]);
  const layout = await seen.providers.registerDocumentFormattingEditProvider.provideDocumentFormattingEdits(document, {});
  const whole = (line, length) => ({ start: { line, character: 0 }, end: { line, character: length } });
  row("in columns", layout.map((one) => one.parts), [
    [whole(0, 12), "START   LDA  X"],
    [whole(1, 10), "        ADD  Y"],
    [whole(2, 11), "X       CON  5"],
    [whole(3, 15), "        END  START"],
  ]);
  row("no name", await renaming.prepareRename(document, at(1, 6)).catch((error) => error.message), "no name stands here");
  const hover = await seen.providers.registerHoverProvider.provideHover(document, at(0, 7));
  row("a hover", hover.parts, ["LDA: rA becomes V (C = 8, F = 5, 2u)"]);
  const items = await seen.providers.registerCompletionItemProvider.provideCompletionItems(document, at(0, 11));
  row("what completes ADDRESS", items.map((one) => one.parts[0]), ["START", "X"]);
  const other = news();
  events.Change.fire({ document: { ...document, version: 3 }, contentChanges: [{ range: new Range(at(1, 0), at(1, 9)), text: "* one\n* two\nADD  Y" }] });
  await other;
  const folds = await seen.providers.registerFoldingRangeProvider.provideFoldingRanges(document);
  row("remarks", folds.map((one) => one.parts), [[1, 2, 1]]);
  const actions = await seen.providers.registerCodeActionsProvider.provideCodeActions(document, new Range(at(3, 0), at(3, 1)));
  row("what mends a line", actions.map((one) => one.edit.texts[0][1][0].parts[1]), [" "]);
  const third = news();
  events.Close.fire(document);
  await third;
  row("closed", shown(), []);
  await host.extension.deactivate();
}

// Servers that are killed: three are replaced, and the fourth is not.
async function testKilled(row, host) {
  const { seen, children, news, hover, vscode } = host;
  let again = news();
  host.start();
  await again;
  const right = "LDA: rA becomes V (C = 8, F = 5, 2u)";
  for (let k = 1; k <= 3; k += 1) {
    again = news();
    const server = children.at(-1);
    server.kill("SIGSTOP"); // so that it cannot answer before it is killed
    const answer = hover();
    server.kill("SIGKILL");
    row(`a question to server ${k}, which is killed`, (await answer) instanceof vscode.CancellationError, true);
    await again;
    row(`server ${k + 1} knows the text`, await hover(), right);
  }
  children.at(-1).kill("SIGKILL");
  await host.until(() => seen.warnings.length > 0);
  row("four servers and a warning", [children.length, seen.warnings.length, /ended 4 times/.test(seen.warnings[0])], [4, 1, true]);
  row("no more faults, and nothing waits", [seen.published.size, await hover()], [0, null]);
  row("the log", seen.lines.filter((line) => line.endsWith("lsp: it ended with SIGKILL")).length, 4);
}

// Requests that are cancelled, and a server that hangs.
async function testHung(row, host) {
  const { seen, children, news, hover, vscode } = host;
  let again = news();
  host.start();
  await again;
  const cancelling = new vscode.EventEmitter();
  children[0].kill("SIGSTOP");
  const asked = hover({ onCancellationRequested: cancelling.event });
  cancelling.fire();
  row("a request that is cancelled", (await asked) instanceof vscode.CancellationError, true);
  children[0].kill("SIGCONT");
  row("and the one after it", await hover({ onCancellationRequested: cancelling.event }), "LDA: rA becomes V (C = 8, F = 5, 2u)");
  again = news();
  children[0].kill("SIGSTOP");
  const start = Date.now();
  row("a request that is not answered", (await hover()) instanceof vscode.CancellationError, true);
  const seconds = (Date.now() - start) / 1000;
  row(`is given up after ten seconds, here ${seconds}`, seconds > 9.9 && seconds < 20, true);
  await again;
  row("and asked of another server", await hover(), "LDA: rA becomes V (C = 8, F = 5, 2u)");
  row("the log says why", seen.lines.some((line) => line.endsWith("no answer to textDocument/hover in 10 s")), true);
  const left = children.map(ended);
  await host.extension.deactivate();
  await Promise.all(left);
  row("no server is left, and none is begun", children.length, 2);
}

exports.server = async ({ row, program, room, files }) => {
  const host = hostWith(files, program);
  await testRequests(row, host);
  const others = ["git:/t.mixal", "untitled:Untitled-1", "vscode-vfs://github/knuth/mix/t.mixal", "output:mixal"];
  const several = hostWith(files, program, [NAME, ...others]);
  several.start();
  await several.until(() => several.seen.published.size >= 3);
  row("what is served", [...several.seen.published.keys()], [NAME, others[1], others[2]]);
  await several.extension.deactivate();
  await testKilled(row, hostWith(files, program));
  await testHung(row, hostWith(files, program));

  // No setting, without and with a program on the PATH; another setting; settings that are wrong.
  const before = process.env.PATH;
  process.env.PATH = path.join(room, "bin");
  const none = hostWith(files);
  for (let k = 0; k < 2; k += 1) {
    none.start();
    await none.until(() => none.seen.lines.filter((line) => line.startsWith("there is no program")).length > k);
  }
  row("said once and quietly", [none.seen.notes.length, none.seen.warnings], [1, []]);
  fs.mkdirSync(process.env.PATH);
  fs.symlinkSync(program, path.join(process.env.PATH, "mixrev"));
  const found = hostWith(files);
  const published = found.news();
  found.start();
  await published;
  row("the program on the PATH", [found.children[0].spawnfile, found.seen.notes], ["mixrev", []]);
  process.env.PATH = before;
  const changed = found.news();
  found.seen.settings.program = program;
  found.events.Configuration.fire({ affectsConfiguration: (name) => name === "mixrev.program" });
  await changed;
  row("another setting, another server", found.children.map((one) => one.spawnfile), ["mixrev", program]);
  row("the first one has ended", await ended(found.children[0]).then(() => found.children[0].exitCode), 0);
  const folder = { uri: found.vscode.Uri.file("/folder") };
  const debugs = found.seen.debug.factory.createDebugAdapterDescriptor({ workspaceFolder: folder });
  row("and it debugs", debugs.parts, [program, ["dap"], { cwd: "/folder" }]);
  await found.extension.deactivate();
  const lost = hostWith(files, path.join(room, "no_such_program"));
  lost.start();
  await lost.until(() => lost.seen.warnings.length > 0);
  row("a setting that names nothing", [lost.seen.warnings.length, lost.children.length], [1, 1]);
  const noise = path.join(room, "noise");
  fs.writeFileSync(noise, "#!/bin/sh\necho 'what is this {'\nexec cat >/dev/null\n", { mode: 0o755 });
  const loud = hostWith(files, noise);
  loud.start();
  await loud.until(() => loud.seen.warnings.length > 0);
  row("what is no frame", [loud.children.length, loud.seen.lines.filter((line) => line.endsWith("it does not write frames")).length], [4, 4]);
  await Promise.all(loud.children.map(ended));
};
