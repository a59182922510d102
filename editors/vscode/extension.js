// Asks the language server `flux lsp`, which it starts for the first program of Flux that is opened; with the setting
// `flux.command` by its words in place of flux.
"use strict";
const { spawn } = require("child_process");
const vscode = require("vscode");

const LANGUAGE = "flux";
let server, diagnostics;

/** Messages to and from the server. */
class Client {
  constructor(command, args) {
    this.buffer = Buffer.alloc(0);
    this.waiting = new Map();
    this.last = 0;
    this.process = spawn(command, args, { stdio: ["pipe", "pipe", "ignore"] });
    this.process.stdout.on("data", (piece) => this.read(piece));
    this.process.on("error", () => vscode.window.showErrorMessage(`${command} can't be started: ./flux install puts flux on the path`));
  }

  send(message) {
    const body = Buffer.from(JSON.stringify({ jsonrpc: "2.0", ...message }));
    this.process.stdin.write(`Content-Length: ${body.length}\r\n\r\n`);
    this.process.stdin.write(body);
  }

  notify(method, params) {
    this.send({ method, params });
  }

  ask(method, params) {
    const id = ++this.last;
    this.send({ id, method, params });
    return new Promise((answered) => this.waiting.set(id, answered));
  }

  read(piece) {
    this.buffer = Buffer.concat([this.buffer, piece]);
    for (;;) {
      const end = this.buffer.indexOf("\r\n\r\n");
      if (end < 0) return;
      const length = Number(/content-length: *(\d+)/i.exec(this.buffer.toString("latin1", 0, end))[1]);
      if (this.buffer.length < end + 4 + length) return;
      const message = JSON.parse(this.buffer.toString("utf8", end + 4, end + 4 + length));
      this.buffer = this.buffer.subarray(end + 4 + length);
      this.take(message);
    }
  }

  take(message) {
    if (message.id !== undefined) {
      this.waiting.get(message.id)(message.result);
      this.waiting.delete(message.id);
    } else if (message.method === "textDocument/publishDiagnostics") {
      diagnostics.set(vscode.Uri.parse(message.params.uri), message.params.diagnostics.map(diagnosticOf));
    } else if (message.method === "window/showMessage") {
      vscode.window.showInformationMessage(message.params.message);
    }
  }
}

const rangeOf = ({ start, end }) => new vscode.Range(start.line, start.character, end.line, end.character);

function diagnosticOf(it) {
  const found = new vscode.Diagnostic(rangeOf(it.range), it.message, it.severity - 1);
  found.code = it.code;
  found.source = it.source;
  return found;
}

const at = (document, position) => ({
  textDocument: { uri: document.uri.toString() },
  position: { line: position.line, character: position.character },
});

const placesOf = (found) => (found || []).map((it) => new vscode.Location(vscode.Uri.parse(it.uri), rangeOf(it.range)));

async function hover(document, position) {
  const found = await server.ask("textDocument/hover", at(document, position));
  return found && new vscode.Hover(new vscode.MarkdownString(found.contents.value), rangeOf(found.range));
}

async function complete(document, position) {
  const found = await server.ask("textDocument/completion", at(document, position));
  return found.map((it) => Object.assign(new vscode.CompletionItem(it.label, it.kind - 1), { detail: it.detail }));
}

async function format(document) {
  const found = await server.ask("textDocument/formatting", { textDocument: { uri: document.uri.toString() } });
  return (found || []).map((it) => vscode.TextEdit.replace(rangeOf(it.range), it.newText));
}

function opened(document) {
  if (document.languageId !== LANGUAGE) return;
  server.notify("textDocument/didOpen", { textDocument: { uri: document.uri.toString(), text: document.getText() } });
}

function changed({ document }) {
  if (document.languageId !== LANGUAGE) return;
  const contentChanges = [{ text: document.getText() }];
  server.notify("textDocument/didChange", { textDocument: { uri: document.uri.toString() }, contentChanges });
}

function closed(document) {
  if (document.languageId !== LANGUAGE) return;
  server.notify("textDocument/didClose", { textDocument: { uri: document.uri.toString() } });
}

async function activate(context) {
  diagnostics = vscode.languages.createDiagnosticCollection(LANGUAGE);
  const [command, ...words] = vscode.workspace.getConfiguration("flux").get("command", ["flux"]);
  server = new Client(command, [...words, "lsp"]);
  await server.ask("initialize", { capabilities: {} });
  server.notify("initialized", {});
  vscode.workspace.textDocuments.forEach(opened);
  const places = (method) => async (document, position) => placesOf(await server.ask(method, at(document, position)));
  context.subscriptions.push(
    diagnostics,
    vscode.workspace.onDidOpenTextDocument(opened),
    vscode.workspace.onDidChangeTextDocument(changed),
    vscode.workspace.onDidCloseTextDocument(closed),
    vscode.languages.registerHoverProvider(LANGUAGE, { provideHover: hover }),
    vscode.languages.registerCompletionItemProvider(LANGUAGE, { provideCompletionItems: complete }, "{", "[", "(", " "),
    vscode.languages.registerDefinitionProvider(LANGUAGE, { provideDefinition: places("textDocument/definition") }),
    vscode.languages.registerReferenceProvider(LANGUAGE, { provideReferences: places("textDocument/references") }),
    vscode.languages.registerDocumentFormattingEditProvider(LANGUAGE, { provideDocumentFormattingEdits: format }),
  );
}

async function deactivate() {
  if (!server) return;
  await server.ask("shutdown", null);
  server.notify("exit", null);
}

module.exports = { activate, deactivate };
