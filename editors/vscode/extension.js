// Speaks with the language server, editors/cryptyc_lsp.py, over its standard streams. It needs no node modules.
'use strict';
const vscode = require('vscode');
const { spawn } = require('child_process');
const fs = require('fs');
const path = require('path');

const LANGUAGE = 'cryptyc';

// The command of the server: the one that is set, or the file above this folder, or `cryptyc-lsp` on the PATH.
function command(settings) {
  const program = settings.get('program');
  const beside = path.join(fs.realpathSync(__dirname), '..', 'cryptyc_lsp.py');
  const server = settings.get('server') || (fs.existsSync(beside) ? beside : 'cryptyc-lsp');
  const words = program ? [program] : [];
  return server.endsWith('.py') ? ['python3', [server, ...words]] : [server, words];
}

// A running server. It is given messages by `ask` and `note`, and gives its own to `hear`.
class Server {
  constructor(program, words, hear, ended) {
    this.waiting = new Map();
    this.number = 0;
    this.read = Buffer.alloc(0);
    this.hear = hear;
    this.process = spawn(program, words, { stdio: ['pipe', 'pipe', 'ignore'] });
    this.process.stdout.on('data', (part) => this.take(part));
    this.process.stdin.on('error', () => {});
    this.process.on('error', (error) => this.end(ended, error.message));
    this.process.on('exit', (status) => this.end(ended, `it ended with status ${status}`));
  }

  end(ended, why) {
    for (const done of this.waiting.values()) done(null);
    this.waiting.clear();
    if (!this.stopped) ended(why);
    this.stopped = true;
  }

  take(part) {
    this.read = Buffer.concat([this.read, part]);
    for (;;) {
      const head = this.read.indexOf('\r\n\r\n');
      if (head < 0) return;
      const length = Number(/Content-Length: *(\d+)/i.exec(this.read.toString('ascii', 0, head))[1]);
      if (this.read.length < head + 4 + length) return;
      const message = JSON.parse(this.read.toString('utf8', head + 4, head + 4 + length));
      this.read = this.read.subarray(head + 4 + length);
      const done = message.method ? undefined : this.waiting.get(message.id);
      if (done) {
        this.waiting.delete(message.id);
        done(message.result);
      } else if (message.method) {
        this.hear(message.method, message.params);
      }
    }
  }

  put(message) {
    if (this.stopped) return;
    const body = Buffer.from(JSON.stringify({ jsonrpc: '2.0', ...message }));
    this.process.stdin.write(`Content-Length: ${body.length}\r\n\r\n`);
    this.process.stdin.write(body);
  }

  note(method, params) {
    this.put({ method, params });
  }

  ask(method, params) {
    if (this.stopped) return Promise.resolve(null);
    const id = ++this.number;
    return new Promise((done) => {
      this.waiting.set(id, done);
      this.put({ id, method, params });
    });
  }

  stop() {
    return this.ask('shutdown').then(() => {
      this.stopped = true;
      this.process.stdin.end();
    });
  }
}

let server;

function range(it) {
  return new vscode.Range(it.start.line, it.start.character, it.end.line, it.end.character);
}

function activate(context) {
  const shown = vscode.languages.createDiagnosticCollection(LANGUAGE);
  const at = (document, position) => ({
    textDocument: { uri: document.uri.toString() },
    position: { line: position.line, character: position.character },
  });
  const hear = (method, params) => {
    if (method === 'window/showMessage') vscode.window.showInformationMessage(params.message);
    if (method !== 'textDocument/publishDiagnostics') return;
    shown.set(vscode.Uri.parse(params.uri), params.diagnostics.map((it) => {
      const { Error, Warning } = vscode.DiagnosticSeverity;
      const diagnostic = new vscode.Diagnostic(range(it.range), it.message, it.severity === 2 ? Warning : Error);
      diagnostic.relatedInformation = (it.relatedInformation || []).map(({ location, message }) =>
        new vscode.DiagnosticRelatedInformation(new vscode.Location(vscode.Uri.parse(location.uri), range(location.range)), message));
      diagnostic.source = it.source;
      diagnostic.code = it.code;
      return diagnostic;
    }));
  };
  const ended = (why) => vscode.window.showErrorMessage(`Cryptyc: the language server isn't there: ${why}`);
  server = new Server(...command(vscode.workspace.getConfiguration(LANGUAGE)), hear, ended);
  server.ask('initialize', { processId: process.pid, rootUri: null, capabilities: {} });
  const open = (document) => {
    if (document.languageId !== LANGUAGE) return;
    const file = { uri: document.uri.toString(), languageId: LANGUAGE, version: document.version };
    server.note('textDocument/didOpen', { textDocument: { ...file, text: document.getText() } });
  };
  const change = ({ document }) => {
    if (document.languageId !== LANGUAGE) return;
    const file = { uri: document.uri.toString(), version: document.version };
    server.note('textDocument/didChange', { textDocument: file, contentChanges: [{ text: document.getText() }] });
  };
  const close = (document) => {
    if (document.languageId !== LANGUAGE) return;
    server.note('textDocument/didClose', { textDocument: { uri: document.uri.toString() } });
  };
  const hover = async (document, position) => {
    const found = await server.ask('textDocument/hover', at(document, position));
    return found ? new vscode.Hover(new vscode.MarkdownString(found.contents.value), range(found.range)) : undefined;
  };
  const definition = async (document, position) => {
    const found = await server.ask('textDocument/definition', at(document, position));
    return found ? new vscode.Location(vscode.Uri.parse(found.uri), range(found.range)) : undefined;
  };
  const format = async (document) => {
    const found = await server.ask('textDocument/formatting', { textDocument: { uri: document.uri.toString() } });
    return found ? found.map((it) => vscode.TextEdit.replace(range(it.range), it.newText)) : [];
  };
  context.subscriptions.push(
    shown,
    vscode.workspace.onDidOpenTextDocument(open),
    vscode.workspace.onDidChangeTextDocument(change),
    vscode.workspace.onDidCloseTextDocument(close),
    vscode.languages.registerHoverProvider(LANGUAGE, { provideHover: hover }),
    vscode.languages.registerDefinitionProvider(LANGUAGE, { provideDefinition: definition }),
    vscode.languages.registerDocumentFormattingEditProvider(LANGUAGE, { provideDocumentFormattingEdits: format }),
  );
  vscode.workspace.textDocuments.forEach(open);
}

function deactivate() {
  return server && server.stop();
}

module.exports = { activate, deactivate };
