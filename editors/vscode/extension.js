// Starts mungo-lsp for protocols and typestates, and for Java files in whose folder one of them stands; shows its diagnostics,
// hover and inlay hints, and what else it offers; starts it again where it ends by itself. It stands on VS Code and node alone.
"use strict";
const fs = require("node:fs");
const path = require("node:path");
const vscode = require("vscode");
const { Client } = require("./client.js");

let client = null;
let starting = null;
let shown = null;
let output = null;
// A server that ends by itself is started again, at most so many times in so many milliseconds; and when it last was.
const MOST_RESTARTS = 5;
const WITHIN = 3 * 60 * 1000;
let restarts = [];
// What the server says that it can do.
let offers = {};
// The names of the documents that the server knows as open, as the server has them.
const open = new Map();

const isSource = (name) => /^[^.].*\.(scr|protocol)$/.test(name);

// Whether a document is one of a program of mungo.
function isOurs(document) {
    if (["scribble", "typestate"].includes(document.languageId)) return true;
    if (document.languageId !== "java" || document.uri.scheme !== "file") return false;
    try {
        return fs.readdirSync(path.dirname(document.uri.fsPath)).some(isSource);
    } catch {
        return false;
    }
}

const nameOf = (document) => document.uri.toString();
const rangeOf = ({ start, end }) => new vscode.Range(start.line, start.character, end.line, end.character);
const saidRange = ({ start, end }) => ({ start: saidPlace(start), end: saidPlace(end) });
const saidPlace = ({ line, character }) => ({ line, character });

function diagnosticOf(told) {
    const fault = new vscode.Diagnostic(rangeOf(told.range), told.message, vscode.DiagnosticSeverity.Error);
    fault.code = told.code;
    fault.source = told.source;
    return fault;
}

function told(method, params) {
    if (method !== "textDocument/publishDiagnostics") return;
    shown.set(vscode.Uri.parse(params.uri, true), params.diagnostics.map(diagnosticOf));
}

function ended(why, ran) {
    client = starting = null;
    open.clear();
    shown.clear();
    const now = Date.now();
    restarts = restarts.filter((time) => now - time < WITHIN);
    if (ran && restarts.length < MOST_RESTARTS) {
        restarts.push(now);
        output.appendLine(`mungo-lsp: ${why}, and is started again.`);
        start();
        return;
    }
    const often = ran ? ` It was started again ${MOST_RESTARTS} times in three minutes, and now it isn't, until a file is opened.` : "";
    const told = `mungo-lsp: ${why}.${often} The setting mungo.server names the program.`;
    output.appendLine(told);
    vscode.window.showWarningMessage(told);
}

// The documents are told when the server has answered; until then `client` is null, and `starting` is the server.
async function start() {
    if (starting) return;
    const begun = new Client(vscode.workspace.getConfiguration("mungo").get("server") || "mungo-lsp", told, ended);
    starting = begun;
    const capabilities = { general: { positionEncodings: ["utf-16"] } };
    const answer = await begun.request("initialize", { processId: process.pid, rootUri: null, capabilities });
    if (starting !== begun || answer === null) return;
    begun.notify("initialized", {});
    offers = answer.capabilities ?? {};
    client = begun;
    vscode.workspace.textDocuments.forEach(opened);
}

function opened(document) {
    if (!client || open.has(nameOf(document)) || !isOurs(document)) return;
    open.set(nameOf(document), document);
    const { languageId, version } = document;
    client.notify("textDocument/didOpen", { textDocument: { uri: nameOf(document), languageId, version, text: document.getText() } });
}

function changed({ document, contentChanges }) {
    if (!client || !open.has(nameOf(document)) || contentChanges.length === 0) return;
    const changes = contentChanges.map(({ range, text }) => ({ range: saidRange(range), text }));
    const textDocument = { uri: nameOf(document), version: document.version };
    client.notify("textDocument/didChange", { textDocument, contentChanges: changes });
}

function saved(document) {
    if (client && open.has(nameOf(document))) client.notify("textDocument/didSave", { textDocument: { uri: nameOf(document) } });
}

function closed(document) {
    if (!client || !open.delete(nameOf(document))) return;
    client.notify("textDocument/didClose", { textDocument: { uri: nameOf(document) } });
}

async function hover(document, position) {
    if (!client || !open.has(nameOf(document))) return null;
    const asked = { textDocument: { uri: nameOf(document) }, position: saidPlace(position) };
    const answer = await client.request("textDocument/hover", asked);
    if (!answer) return null;
    const text = new vscode.MarkdownString().appendCodeblock(answer.contents.value, "text");
    return new vscode.Hover(text, answer.range ? rangeOf(answer.range) : undefined);
}

async function hints(document, range) {
    if (!client || !open.has(nameOf(document))) return [];
    const asked = { textDocument: { uri: nameOf(document) }, range: saidRange(range) };
    const answer = await client.request("textDocument/inlayHint", asked);
    return (answer ?? []).map(({ position, label, paddingLeft }) => {
        const hint = new vscode.InlayHint(new vscode.Position(position.line, position.character), label);
        hint.paddingLeft = paddingLeft === true;
        return hint;
    });
}

// Asks about a document that the server knows, where it offers such answers; else null.
async function ask(offer, document, method, more) {
    if (!client || !open.has(nameOf(document)) || !offers[offer]) return null;
    return client.request(method, { textDocument: { uri: nameOf(document) }, ...more });
}

async function complete(document, position) {
    const answer = await ask("completionProvider", document, "textDocument/completion", { position: saidPlace(position) });
    return (answer ?? []).map(({ label, detail, sortText, labelDetails }) => {
        const description = labelDetails?.description;
        const item = new vscode.CompletionItem(description ? { label, description } : label, vscode.CompletionItemKind.Method);
        return Object.assign(item, { detail, sortText });
    });
}

const locationOf = ({ uri, range }) => new vscode.Location(vscode.Uri.parse(uri, true), rangeOf(range));

async function define(document, position) {
    const answer = await ask("definitionProvider", document, "textDocument/definition", { position: saidPlace(position) });
    return (answer ?? []).map(locationOf);
}

async function outline(document) {
    const answer = await ask("documentSymbolProvider", document, "textDocument/documentSymbol", {});
    // VS Code counts kinds from 0, and the protocol from 1.
    return (answer ?? []).map((it) => new vscode.SymbolInformation(it.name, it.kind - 1, it.containerName ?? "", locationOf(it.location)));
}

// Shows the diagram of the document that is edited, beside it, as a page of Markdown.
async function draw() {
    const document = vscode.window.activeTextEditor?.document;
    if (!client || !document || !open.has(nameOf(document)) || !offers.executeCommandProvider) return;
    const drawn = await client.request("workspace/executeCommand", { command: "mungo.diagram", arguments: [nameOf(document)] });
    if (drawn === null) return;
    const page = await vscode.workspace.openTextDocument({ language: "markdown", content: `\`\`\`mermaid\n${drawn}\`\`\`\n` });
    await vscode.window.showTextDocument(page, vscode.ViewColumn.Beside);
}

function activate(context) {
    shown = vscode.languages.createDiagnosticCollection("mungo");
    output = vscode.window.createOutputChannel("mungo");
    restarts = [];
    const selector = ["scribble", "typestate", "java"].map((language) => ({ language }));
    context.subscriptions.push(
        shown,
        output,
        vscode.workspace.onDidOpenTextDocument((document) => (client ? opened(document) : isOurs(document) && start())),
        vscode.workspace.onDidChangeTextDocument(changed),
        vscode.workspace.onDidSaveTextDocument(saved),
        vscode.workspace.onDidCloseTextDocument(closed),
        vscode.languages.registerHoverProvider(selector, { provideHover: hover }),
        vscode.languages.registerInlayHintsProvider(selector, { provideInlayHints: hints }),
        vscode.languages.registerCompletionItemProvider(selector, { provideCompletionItems: complete }, "."),
        vscode.languages.registerDefinitionProvider(selector, { provideDefinition: define }),
        vscode.languages.registerDocumentSymbolProvider(selector, { provideDocumentSymbols: outline }),
        vscode.commands.registerCommand("mungo.diagram", draw),
    );
    if (vscode.workspace.textDocuments.some(isOurs)) return start();
}

function deactivate() {
    const last = starting;
    client = starting = null;
    return last ? last.stop() : undefined;
}

module.exports = { activate, deactivate };
