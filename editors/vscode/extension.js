// The extension for VS Code, on a computer and in a browser: the debug adapter, which is the engine
// inside or the program that the setting names, and the client of the program's language server.

import { Adapter, nodeModule, pathOf } from "./adapter.js";
import { Client, LANGUAGE } from "./client.js";
import * as vscode from "vscode";

const TYPE = "mixrev";
const HINT_KEY = "mixrev.hint"; // whether the hint was shown
const HINT = "MIX: the debugger is inside; for faults as you type, hovers and renaming install mixrev and see its setting.";
const HINT_TIME = 20000; // milliseconds

let client = null;
let log;

const programSetting = () => vscode.workspace.getConfiguration("mixrev").get("program", "").trim();

function startClient(context) {
  const program = programSetting();
  const onMissing = () => {
    log(`there is no program ${program || "mixrev"}, so there is no language server`);
    if (program) vscode.window.showWarningMessage(`The setting mixrev.program names ${program}, which cannot be started.`);
    else if (!context.globalState.get(HINT_KEY)) {
      context.globalState.update(HINT_KEY, true);
      vscode.window.setStatusBarMessage(HINT, HINT_TIME);
    }
  };
  if (nodeModule("child_process")) client = new Client(program || "mixrev", log, onMissing);
  else log("a browser starts no programs, so there is no language server");
}

// F5 without a launch.json debugs the source in the active editor.
function resolveDebugConfiguration(folder, given) {
  if (given.type || given.request || given.name) return given;
  const document = vscode.window.activeTextEditor?.document;
  if (document?.languageId !== LANGUAGE) return given;
  return { type: TYPE, request: "launch", name: "MIX: this file", program: pathOf(document.uri), stopOnEntry: true };
}

export function activate(context) {
  const output = vscode.window.createOutputChannel("mixrev");
  log = (text) => output.appendLine(text);
  log(`version ${context.extension.packageJSON.version}`);
  const read = (name) => vscode.workspace.fs.readFile(vscode.Uri.joinPath(context.extensionUri, name));
  let engine = null;
  const createDebugAdapterDescriptor = ({ workspaceFolder: folder }) => {
    const program = programSetting();
    if (program && nodeModule("child_process")) {
      const options = folder?.uri.scheme === "file" ? { cwd: folder.uri.fsPath } : {};
      return new vscode.DebugAdapterExecutable(program, ["dap"], options);
    }
    engine ??= { program: read("worker.js").then((bytes) => new TextDecoder().decode(bytes)), module: read("engine.wasm") };
    return new vscode.DebugAdapterInlineImplementation(new Adapter(engine, folder, log));
  };
  const onConfiguration = async (event) => {
    if (!event.affectsConfiguration("mixrev.program")) return;
    await deactivate();
    startClient(context);
  };
  context.subscriptions.push(
    output,
    vscode.debug.registerDebugAdapterDescriptorFactory(TYPE, { createDebugAdapterDescriptor }),
    vscode.debug.registerDebugConfigurationProvider(TYPE, { resolveDebugConfiguration }),
    vscode.workspace.onDidChangeConfiguration(onConfiguration),
  );
  startClient(context);
}

export async function deactivate() {
  const ending = client;
  client = null;
  await ending?.stop();
}
