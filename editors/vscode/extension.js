// The language server of r2u2-check in VS Code, without a package from elsewhere: its messages go over the
// standard streams of the program, and what comes back goes to the editor.
"use strict";
const { spawn } = require("child_process");
const vscode = require("vscode");

const CHOSEN = [{ language: "c2po" }];
const KINDS = { 5: "Field", 6: "Variable", 14: "Keyword", 21: "Constant", 22: "Struct" };
let child = null, waiting = new Map(), number = 0, found = null, ready = null;

function send(message) {
  if (!child) return;
  const raw = Buffer.from(JSON.stringify({ jsonrpc: "2.0", ...message }));
  child.stdin.write(`Content-Length: ${raw.length}\r\n\r\n`);
  child.stdin.write(raw);
}

function ask(method, params) {
  if (!child) return Promise.resolve(null);
  const id = ++number;
  return new Promise((done) => {
    waiting.set(id, done);
    send({ id, method, params });
  });
}

const tell = (method, params) => send({ method, params });

// Cuts the bytes that come into messages.
function reader(take) {
  let kept = Buffer.alloc(0);
  return (block) => {
    kept = Buffer.concat([kept, block]);
    for (;;) {
      const end = kept.indexOf("\r\n\r\n");
      const size = end < 0 ? null : /content-length: *(\d+)/i.exec(kept.subarray(0, end).toString("latin1"));
      if (!size || kept.length < end + 4 + Number(size[1])) return;
      const message = JSON.parse(kept.subarray(end + 4, end + 4 + Number(size[1])).toString("utf8"));
      kept = kept.subarray(end + 4 + Number(size[1]));
      take(message);
    }
  };
}

const range = (it) => new vscode.Range(it.start.line, it.start.character, it.end.line, it.end.character);
const at = (document, place) => ({ textDocument: { uri: document.uri.toString() }, position: { line: place.line, character: place.character } });

function take(message) {
  if (message.id !== undefined && waiting.has(message.id)) {
    waiting.get(message.id)(message.result === undefined ? null : message.result);
    waiting.delete(message.id);
  } else if (message.method === "textDocument/publishDiagnostics") {
    const faults = message.params.diagnostics.map((it) => {
      const severity = it.severity === 1 ? vscode.DiagnosticSeverity.Error : vscode.DiagnosticSeverity.Warning;
      return Object.assign(new vscode.Diagnostic(range(it.range), it.message, severity), { source: it.source, code: it.code });
    });
    found.set(vscode.Uri.parse(message.params.uri), faults);
  }
}

function ended(text) {
  child = null;
  for (const done of waiting.values()) done(null);
  waiting.clear();
  if (text) vscode.window.showWarningMessage(text);
}

function start() {
  const [command, ...words] = vscode.workspace.getConfiguration("c2po").get("server");
  child = spawn(command, words, { stdio: ["pipe", "pipe", "ignore"] });
  child.on("error", () => ended(`${command} isn't there: install r2u2, or set c2po.server`));
  child.on("exit", () => ended(""));
  child.stdin.on("error", () => {});
  child.stdout.on("data", reader(take));
  ready = ask("initialize", { processId: process.pid, rootUri: null, capabilities: {} }).then(() => tell("initialized", {}));
  return ready;
}

const isOurs = (document) => document.languageId === "c2po";
const opened = (it) => isOurs(it) && tell("textDocument/didOpen", { textDocument: { uri: it.uri.toString(), languageId: "c2po", version: it.version, text: it.getText() } });
const changed = (it) => isOurs(it) && tell("textDocument/didChange", { textDocument: { uri: it.uri.toString(), version: it.version }, contentChanges: [{ text: it.getText() }] });
const closed = (it) => isOurs(it) && tell("textDocument/didClose", { textDocument: { uri: it.uri.toString() } });

const hover = {
  provideHover: async (document, place) => {
    const it = await ask("textDocument/hover", at(document, place));
    return it ? new vscode.Hover(new vscode.MarkdownString(it.contents.value), range(it.range)) : null;
  },
};
const definition = {
  provideDefinition: async (document, place) => {
    const list = await ask("textDocument/definition", at(document, place));
    return (list || []).map((it) => new vscode.Location(vscode.Uri.parse(it.uri), range(it.range)));
  },
};
const completion = {
  provideCompletionItems: async (document, place) => {
    const list = await ask("textDocument/completion", at(document, place));
    return ((list && list.items) || []).map((it) => {
      const item = new vscode.CompletionItem(it.label, vscode.CompletionItemKind[KINDS[it.kind]]);
      item.detail = it.detail;
      if (it.insertText) item.insertText = new vscode.SnippetString(it.insertText);
      return item;
    });
  },
};
const format = {
  provideDocumentFormattingEdits: async (document) => {
    const list = await ask("textDocument/formatting", { textDocument: { uri: document.uri.toString() }, options: {} });
    return (list || []).map((it) => new vscode.TextEdit(range(it.range), it.newText));
  },
};

async function activate(context) {
  found = vscode.languages.createDiagnosticCollection("c2po");
  const { workspace, languages } = vscode;
  await start();
  workspace.textDocuments.forEach(opened);
  context.subscriptions.push(
    found, { dispose: deactivate },
    workspace.onDidOpenTextDocument(opened), workspace.onDidCloseTextDocument(closed),
    workspace.onDidChangeTextDocument((it) => changed(it.document)),
    languages.registerHoverProvider(CHOSEN, hover), languages.registerDefinitionProvider(CHOSEN, definition),
    languages.registerCompletionItemProvider(CHOSEN, completion, "."),
    languages.registerDocumentFormattingEditProvider(CHOSEN, format),
  );
}

async function deactivate() {
  if (!child) return;
  await ask("shutdown", null);
  tell("exit", null);
}

module.exports = { activate, deactivate };
