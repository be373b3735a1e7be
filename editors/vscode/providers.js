// What VS Code asks a language server: for each capability the function that registers a provider,
// and for each function of the provider the method, its parameters, and the answer converted.

import * as vscode from "vscode";

const place = (at) => ({ line: at.line, character: at.character });
const position = (at) => new vscode.Position(at.line, at.character);
const span = (one) => new vscode.Range(position(one.start), position(one.end));
const edit = (one) => new vscode.TextEdit(span(one.range), one.newText);
const location = (one) => new vscode.Location(vscode.Uri.parse(one.uri), span(one.range));
const at = (where) => ({ position: place(where) });
const nothing = () => ({});
const each = (convert) => (found) => found.map(convert);
const severities = [vscode.DiagnosticSeverity.Error, vscode.DiagnosticSeverity.Warning];

export const range = (one) => ({ start: place(one.start), end: place(one.end) });

export function diagnostic(one) {
  const shown = new vscode.Diagnostic(span(one.range), one.message, severities[one.severity - 1]);
  return Object.assign(shown, { source: one.source, code: one.code });
}

function workspaceEdit(one) {
  const edits = new vscode.WorkspaceEdit();
  for (const [uri, list] of Object.entries(one.changes)) edits.set(vscode.Uri.parse(uri), list.map(edit));
  return edits;
}

function renamed(found) {
  if (!found) throw new Error("no name stands here");
  return span(found);
}

const symbol = (one) => new vscode.SymbolInformation(one.name, one.kind - 1, "", location(one.location));
const mark = (one) => new vscode.DocumentHighlight(span(one.range), one.kind - 1);
const hover = (found) => found && new vscode.Hover(new vscode.MarkdownString().appendText(found.contents.value));
const item = (one) => Object.assign(new vscode.CompletionItem(one.label, one.kind - 1), { detail: one.detail });
const fold = (one) => new vscode.FoldingRange(one.startLine, one.endLine, vscode.FoldingRangeKind.Comment);
const action = (one) => Object.assign(new vscode.CodeAction(one.title, vscode.CodeActionKind.QuickFix), { edit: workspaceEdit(one.edit) });
const hint = (one) => Object.assign(new vscode.InlayHint(position(one.position), one.label), { paddingLeft: one.paddingLeft });
const tokens = (found) => new vscode.SemanticTokens(new Uint32Array(found.data));
const within = (chosen) => ({ range: range(chosen) });
const mends = (chosen) => ({ ...within(chosen), context: { diagnostics: [] } });

export const PROVIDERS = [
  ["definitionProvider", "registerDefinitionProvider", { provideDefinition: ["definition", at, each(location)] }],
  ["referencesProvider", "registerReferenceProvider", {
    provideReferences: ["references", (where, context) => ({ ...at(where), context }), each(location)],
  }],
  ["documentHighlightProvider", "registerDocumentHighlightProvider", { provideDocumentHighlights: ["documentHighlight", at, each(mark)] }],
  ["renameProvider", "registerRenameProvider", {
    prepareRename: ["prepareRename", at, renamed],
    provideRenameEdits: ["rename", (where, newName) => ({ ...at(where), newName }), workspaceEdit],
  }],
  ["documentSymbolProvider", "registerDocumentSymbolProvider", { provideDocumentSymbols: ["documentSymbol", nothing, each(symbol)] }],
  ["hoverProvider", "registerHoverProvider", { provideHover: ["hover", at, hover] }],
  ["completionProvider", "registerCompletionItemProvider", { provideCompletionItems: ["completion", at, each(item)] }],
  ["foldingRangeProvider", "registerFoldingRangeProvider", { provideFoldingRanges: ["foldingRange", nothing, each(fold)] }],
  ["codeActionProvider", "registerCodeActionsProvider", { provideCodeActions: ["codeAction", mends, each(action)] }],
  ["inlayHintProvider", "registerInlayHintsProvider", { provideInlayHints: ["inlayHint", within, each(hint)] }],
  ["semanticTokensProvider", "registerDocumentSemanticTokensProvider", {
    provideDocumentSemanticTokens: ["semanticTokens/full", nothing, tokens],
  }],
  ["documentFormattingProvider", "registerDocumentFormattingEditProvider", {
    provideDocumentFormattingEdits: ["formatting", (options) => ({ options }), each(edit)],
  }],
];
