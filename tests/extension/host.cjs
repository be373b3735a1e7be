// A stand-in for VS Code, in Node and in a browser: the parts that the extension uses, and a record
// of what it did. `readFile` returns the bytes of a file, or throws; `others` is the `require` of
// other modules.
"use strict";

class Uri {
  constructor(scheme, authority, path) {
    Object.assign(this, { scheme, authority, path });
  }
  static parse(text) {
    const [, scheme, , authority, path] = /^([^:]+):(\/\/([^/]*))?(.*)$/.exec(text);
    return new Uri(scheme, authority ?? "", path);
  }
  static file(path) {
    return new Uri("file", "", path);
  }
  static joinPath(uri, name) {
    return uri.with({ path: `${uri.path}/${name}` });
  }
  with({ path }) {
    return new Uri(this.scheme, this.authority, path);
  }
  get fsPath() {
    return this.path;
  }
  toString() {
    return this.scheme === "untitled" ? `untitled:${this.path}` : `${this.scheme}://${this.authority}${this.path}`;
  }
}

class EventEmitter {
  listeners = [];
  event = (listener) => {
    this.listeners.push(listener);
    return { dispose: () => (this.listeners = this.listeners.filter((one) => one !== listener)) };
  };
  fire(given) {
    for (const listener of this.listeners) listener(given);
  }
}

class Position {
  constructor(line, character) {
    Object.assign(this, { line, character });
  }
}
class Range {
  constructor(start, end) {
    Object.assign(this, { start, end });
  }
}
// Any class of VS Code that only keeps what it is made of.
const kept = () => class {
  constructor(...parts) {
    this.parts = parts;
  }
};
const KEPT = ["Location", "TextEdit", "DocumentHighlight", "SymbolInformation", "Hover", "CompletionItem", "FoldingRange", "CodeAction",
  "InlayHint", "SemanticTokens", "SemanticTokensLegend", "DebugAdapterExecutable", "DebugAdapterInlineImplementation"];

function hostOf(readFile, others = () => { throw new Error("there is no such module"); }) {
  const events = Object.fromEntries(["Open", "Change", "Close", "Configuration", "Published"].map((name) => [name, new EventEmitter()]));
  const seen = { lines: [], warnings: [], notes: [], published: new Map(), providers: {}, legends: [], state: new Map(), settings: {}, debug: {} };
  const disposable = { dispose() {} };
  const diagnostics = {
    set(uri, list) {
      seen.published.set(uri.toString(), list);
      events.Published.fire();
    },
    clear: () => seen.published.clear(),
    dispose() {},
  };
  const register = (name) => (language, provider, ...more) => {
    seen.providers[name] = provider;
    seen.legends.push(...more);
    return disposable;
  };
  const remember = (name) => (type, given) => {
    seen.debug[name] = given;
    return disposable;
  };
  const vscode = {
    ...Object.fromEntries(KEPT.map((name) => [name, kept()])),
    Uri, EventEmitter, Position, Range,
    CancellationError: class extends Error {},
    DiagnosticSeverity: { Error: 0, Warning: 1 },
    Diagnostic: class {
      constructor(range, message, severity) {
        Object.assign(this, { range, message, severity });
      }
    },
    MarkdownString: class {
      appendText(text) {
        return text;
      }
    },
    FoldingRangeKind: { Comment: 1 },
    CodeActionKind: { QuickFix: "quickfix" },
    WorkspaceEdit: class {
      texts = [];
      set(uri, edits) {
        this.texts.push([uri.toString(), edits]);
      }
    },
    languages: new Proxy({}, { get: (_, name) => (name === "createDiagnosticCollection" ? () => diagnostics : register(name)) }),
    debug: {
      registerDebugAdapterDescriptorFactory: remember("factory"),
      registerDebugConfigurationProvider: remember("configurations"),
    },
    window: {
      createOutputChannel: () => ({ appendLine: (line) => seen.lines.push(line), dispose() {} }),
      showWarningMessage: (text) => seen.warnings.push(text),
      setStatusBarMessage: (text) => seen.notes.push(text),
      activeTextEditor: undefined,
    },
    workspace: {
      textDocuments: [],
      fs: { readFile: async (uri) => readFile(uri) },
      getConfiguration: () => ({ get: (name, without) => seen.settings[name] ?? without }),
      getWorkspaceFolder: (uri) => (uri.scheme === "vscode-vfs" ? { uri } : undefined),
      onDidOpenTextDocument: events.Open.event,
      onDidChangeTextDocument: events.Change.event,
      onDidCloseTextDocument: events.Close.event,
      onDidChangeConfiguration: events.Configuration.event,
    },
  };
  const context = {
    extensionUri: Uri.file("/extension"),
    extension: { packageJSON: { version: "0" } },
    subscriptions: [],
    globalState: { get: (name) => seen.state.get(name), update: (name, value) => seen.state.set(name, value) },
  };
  // Loads the program as VS Code for browsers does.
  const load = (source) => {
    const module = { exports: {} };
    new Function("module", "exports", "require", source)(module, module.exports, (name) => (name === "vscode" ? vscode : others(name)));
    return module.exports;
  };
  return { vscode, context, events, seen, load };
}

// The messages of an adapter, up to the response to the last request and its events. A request is
// sent when all before it are answered, or at once if `hurry` names its command.
function talkWith(adapter, requests, hurry = []) {
  const [messages, left] = [[], [...requests]];
  let waited = 0; // responses
  const send = () => {
    do {
      waited += 1;
      adapter.handleMessage(left.shift());
    } while (hurry.includes(left[0]?.command));
  };
  return new Promise((resolve) => {
    adapter.onDidSendMessage((message) => {
      messages.push(message);
      if (message.type !== "response") return;
      waited -= 1;
      if (waited === 0) setTimeout(() => (left.length > 0 ? send() : resolve(messages)), 0);
    });
    send();
  });
}

if (typeof module === "object") module.exports = { hostOf, talkWith };
