// The language client. It starts `mixrev lsp`, sends it each open source, and asks it what VS Code
// asks. A server that ends is restarted, and no request waits for ever.

import { FrameReader, encodeFrame } from "./frames.js";
import { PROVIDERS, diagnostic, range } from "./providers.js";
import { nodeModule } from "./adapter.js";
import * as vscode from "vscode";

export const LANGUAGE = "mixal";
const RESTARTS = 3;
const TIMEOUT = 10000; // milliseconds until an answer
const SHUTDOWN_TIMEOUT = 1000;

// Panes of git and others show a source a second time, and are not served.
function isServed({ languageId, uri }) {
  const isOfUser = ["file", "untitled"].includes(uri.scheme) || vscode.workspace.getWorkspaceFolder(uri);
  return languageId === LANGUAGE && Boolean(isOfUser);
}

export class Client {
  lastId = 0;
  pending = new Map();
  opened = new Set();
  server = null;
  starts = 0;
  isInitialized = false;
  isRegistered = false;
  isStopping = false;
  diagnostics = vscode.languages.createDiagnosticCollection("mixrev");
  disposables = [this.diagnostics];

  // Calls `onMissing` if there is no such program.
  constructor(command, log, onMissing) {
    Object.assign(this, { command, log, onMissing });
    const { workspace } = vscode;
    this.disposables.push(
      workspace.onDidOpenTextDocument((document) => this.open(document)),
      workspace.onDidChangeTextDocument((event) => this.change(event)),
      workspace.onDidCloseTextDocument((document) => this.close(document)),
    );
    this.start();
  }

  start() {
    this.starts += 1;
    const reader = new FrameReader();
    const server = nodeModule("child_process").spawn(this.command, ["lsp"], { windowsHide: true });
    this.server = server;
    server.stdout.on("data", (part) => {
      if (server !== this.server) return;
      try {
        for (const message of reader.read(part)) this.receive(message);
      } catch (error) {
        this.end(server, error);
      }
    });
    server.stderr.on("data", (part) => this.log(`mixrev lsp: ${String(part).trimEnd()}`));
    server.stdin.on("error", () => {});
    server.on("error", (error) => this.end(server, error));
    server.on("exit", (status, signal) => this.end(server, new Error(`it ended with ${signal ?? `status ${status}`}`)));
    this.initialize().catch(() => {});
  }

  async initialize() {
    const general = { positionEncodings: ["utf-16"] };
    const { capabilities } = await this.request("initialize", { processId: process.pid, rootUri: null, capabilities: { general } });
    this.log(`${this.command} lsp is started`);
    this.isInitialized = true;
    this.notify("initialized", {});
    for (const document of vscode.workspace.textDocuments) this.open(document);
    if (!this.isRegistered) this.register(capabilities);
  }

  // A server has ended, or is ended since it does not work; it is restarted, but not for ever.
  end(server, error) {
    if (server !== this.server) return;
    server.kill("SIGKILL");
    Object.assign(this, { server: null, isInitialized: false });
    this.opened.clear();
    for (const { reject } of this.pending.values()) reject(new vscode.CancellationError());
    if (this.isStopping) return;
    if (error.code === "ENOENT") return this.onMissing();
    this.log(`${this.command} lsp: ${error.message}`);
    if (this.starts <= RESTARTS) return this.start();
    this.diagnostics.clear();
    vscode.window.showWarningMessage(`mixrev lsp has ended ${this.starts} times and is not started again. The output "mixrev" says why.`);
  }

  notify(method, params) {
    this.server?.stdin.write(encodeFrame({ jsonrpc: "2.0", method, params }));
  }

  request(method, params, token, timeout = TIMEOUT) {
    const { server } = this;
    if (!server) return Promise.reject(new vscode.CancellationError());
    this.lastId += 1;
    const id = this.lastId;
    return new Promise((resolve, reject) => {
      const timer = setTimeout(() => this.end(server, new Error(`no answer to ${method} in ${timeout / 1000} s`)), timeout);
      const settle = (act) => (value) => {
        clearTimeout(timer);
        listener?.dispose();
        this.pending.delete(id);
        act(value);
      };
      const handlers = { resolve: settle(resolve), reject: settle(reject) };
      const listener = token?.onCancellationRequested(() => {
        this.notify("$/cancelRequest", { id });
        handlers.reject(new vscode.CancellationError());
      });
      this.pending.set(id, handlers);
      server.stdin.write(encodeFrame({ jsonrpc: "2.0", id, method, params }));
    });
  }

  receive({ id, method, params, result, error }) {
    if (method === "textDocument/publishDiagnostics") {
      this.diagnostics.set(vscode.Uri.parse(params.uri), params.diagnostics.map(diagnostic));
    }
    const handlers = this.pending.get(id);
    if (error) handlers?.reject(new Error(error.message));
    else handlers?.resolve(result);
  }

  // Registers a provider for each capability of the server, once.
  register(capabilities) {
    this.isRegistered = true;
    for (const [capability, register, functions] of PROVIDERS) {
      if (!capabilities[capability]) continue;
      const provide = ([method, paramsOf, convert]) => async (document, ...given) => {
        const uri = document.uri.toString();
        if (!this.opened.has(uri)) return undefined;
        const token = given.find((one) => one?.onCancellationRequested);
        return convert(await this.request(`textDocument/${method}`, { textDocument: { uri }, ...paramsOf(...given) }, token));
      };
      const provider = Object.fromEntries(Object.entries(functions).map(([name, question]) => [name, provide(question)]));
      const { legend } = capabilities[capability];
      const more = legend ? [new vscode.SemanticTokensLegend(legend.tokenTypes, legend.tokenModifiers)] : [];
      this.disposables.push(vscode.languages[register](LANGUAGE, provider, ...more));
    }
  }

  open(document) {
    const uri = document.uri.toString();
    if (!this.isInitialized || !isServed(document) || this.opened.has(uri)) return;
    this.opened.add(uri);
    const textDocument = { uri, languageId: LANGUAGE, version: document.version, text: document.getText() };
    this.notify("textDocument/didOpen", { textDocument });
  }

  change({ document, contentChanges }) {
    const uri = document.uri.toString();
    if (!this.opened.has(uri)) return;
    const changes = contentChanges.map((one) => ({ range: range(one.range), text: one.text }));
    this.notify("textDocument/didChange", { textDocument: { uri, version: document.version }, contentChanges: changes });
  }

  close(document) {
    const uri = document.uri.toString();
    if (this.opened.delete(uri)) this.notify("textDocument/didClose", { textDocument: { uri } });
  }

  async stop() {
    this.isStopping = true;
    for (const part of this.disposables) part.dispose();
    await this.request("shutdown", null, null, SHUTDOWN_TIMEOUT).catch(() => {});
    this.notify("exit", null);
  }
}
