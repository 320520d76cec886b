// Runs the extension of VS Code by node, over a stand-in for the part of VS Code that it uses: opens, changes, and asks;
// writes what it saw, a line for each, into the file of SAW. FILE is the Java file, MUNGO_LSP the server.
"use strict";
const fs = require("node:fs");
const Module = require("node:module");
const path = require("node:path");
const { pathToFileURL } = require("node:url");

class Position { constructor(line, character) { Object.assign(this, { line, character }); } }
class Range { constructor(l, c, m, d) { this.start = new Position(l, c); this.end = new Position(m, d); } }
class Diagnostic { constructor(range, message) { Object.assign(this, { range, message }); } }
class MarkdownString { constructor() { this.value = ""; } appendCodeblock(text) { this.value += text; return this; } }
class Hover { constructor(contents, range) { Object.assign(this, { contents, range }); } }
class Location { constructor(uri, range) { Object.assign(this, { uri, range }); } }
class SymbolInformation { constructor(name, kind, within, location) { Object.assign(this, { name, kind, within, location }); } }
class CompletionItem { constructor(label, kind) { Object.assign(this, { label, kind }); } }
class InlayHint { constructor(position, label) { Object.assign(this, { position, label }); } }

const shown = new Map(), heard = {}, providers = {}, warnings = [], pages = [], output = [];
const provider = (name) => (_, it) => { providers[name] = it; return { dispose() {} }; };
const on = (name) => (call) => { heard[name] = call; return { dispose() {} }; };
let server = process.env.MUNGO_LSP;
const vscode = {
    Position, Range, Diagnostic, MarkdownString, Hover, InlayHint, DiagnosticSeverity: { Error: 0 },
    Location, SymbolInformation, CompletionItem, CompletionItemKind: { Method: 1 }, ViewColumn: { Beside: -2 },
    commands: { registerCommand: (_, it) => { providers.draw = it; return { dispose() {} }; } },
    Uri: { parse: (text) => ({ toString: () => text }) },
    window: {
        showWarningMessage: (text) => warnings.push(text), showTextDocument: (page) => pages.push(page.content),
        createOutputChannel: () => ({ appendLine: (text) => output.push(text), dispose() {} }),
    },
    languages: {
        createDiagnosticCollection: () =>
            ({ set: (uri, list) => shown.set(uri.toString(), list), clear: () => shown.clear(), dispose() {} }),
        registerHoverProvider: provider("hover"), registerInlayHintsProvider: provider("hints"),
        registerCompletionItemProvider: provider("complete"), registerDefinitionProvider: provider("define"),
        registerDocumentSymbolProvider: provider("outline"),
    },
    workspace: {
        textDocuments: [],
        openTextDocument: async (page) => page,
        getConfiguration: () => ({ get: () => server }),
        onDidOpenTextDocument: on("opened"), onDidChangeTextDocument: on("changed"),
        onDidSaveTextDocument: on("saved"), onDidCloseTextDocument: on("closed"),
    },
};
// Each server that the extension starts.
const servers = [], child = require("node:child_process"), spawn = child.spawn;
child.spawn = (...words) => {
    servers.push(spawn(...words));
    return servers.at(-1);
};
const load = Module._load;
Module._load = (name, ...more) => (name === "vscode" ? vscode : load(name, ...more));
const extension = require(path.join(process.env.MUNGO_EDITORS, "vscode/extension.js"));

const file = process.env.FILE;
const uri = { scheme: "file", fsPath: file, toString: () => pathToFileURL(file).href };
const document = { uri, languageId: "java", version: 1, text: fs.readFileSync(file, "utf8"), getText() { return this.text; } };
const beside = path.join(path.dirname(file), "C.scr");
const protocol = { ...document, languageId: "scribble", text: fs.readFileSync(beside, "utf8") };
protocol.uri = { scheme: "file", fsPath: beside, toString: () => pathToFileURL(beside).href };
const seen = [];
const saw = (name, value) => seen.push(`${name}: ${value}`);
const faults = () => (shown.get(uri.toString()) ?? []).map((it) => `${it.range.start.line + 1} ${it.code}`).join(", ");

async function wait(holds) {
    const end = Date.now() + 120000;
    while (!holds() && Date.now() < end) await new Promise((go) => setTimeout(go, 20));
    return holds();
}

function change(line, until, text) {
    document.version += 1;
    const lines = document.text.split("\n");
    lines.splice(line, until - line, ...(text === "" ? [] : [text.slice(0, -1)]));
    document.text = lines.join("\n");
    heard.changed({ document, contentChanges: [{ range: new Range(line, 0, until, 0), text }] });
}

// A server that is killed is started again, and told what is open; five times in three minutes, and then when a file is opened.
async function kill(row) {
    change(row, row + 1, "");
    await wait(() => faults() !== "");
    const told = faults();
    for (let kills = 1; kills <= 6; kills++) {
        servers.at(-1).kill("SIGKILL");
        if (kills <= 5) await wait(() => servers.length === kills + 1 && faults() === told);
        else await wait(() => warnings.length > 0);
        if (kills === 1) saw("behind a kill", `${faults() === told} ${servers.length} ${output}`);
    }
    saw("behind six kills", `'${faults()}' ${servers.length} ${output.length} ${warnings}`);
    heard.closed(document);
    heard.opened(document);
    saw("behind a file that is opened", `${await wait(() => faults() === told)} ${servers.length}`);
}

async function drive() {
    vscode.workspace.textDocuments.push(document);
    await extension.activate({ subscriptions: [] });
    saw("managed", (await wait(() => shown.has(uri.toString()))) ? "yes" : "no");
    saw("at first", faults());
    const lines = document.text.split("\n"), row = lines.findIndex((line) => line.includes("receive_"));
    change(row, row + 1, "");
    saw("without it", (await wait(() => faults() !== "")) ? faults() : "nothing");
    change(row, row, `${lines[row]}\n`);
    saw("with it again", (await wait(() => faults() === "")) ? "nothing" : faults());
    const call = lines.findIndex((line) => line.includes("c.send_byeToS"));
    const said = await providers.hover.provideHover(document, new Position(call, lines[call].indexOf("send_byeToS") + 2));
    saw("hover", said ? said.contents.value.split("\n")[0] : "none");
    saw("hints", (await providers.hints.provideInlayHints(document, new Range(0, 0, lines.length, 0))).length);
    // What a server may offer besides: nothing is told of what it doesn't.
    const outline = await providers.outline.provideDocumentSymbols(document);
    saw("outline", outline.map((it) => `${it.kind} ${it.name}`).join(", "));
    const spot = new Position(call, lines[call].indexOf("send_byeToS") + 2);
    const places = await providers.define.provideDefinition(document, spot);
    saw("define", places.map((it) => `${path.basename(it.uri.toString())} ${it.range.start.line + 1}`).join(", "));
    saw("complete", (await providers.complete.provideCompletionItems(document, spot)).map((it) => it.label.label ?? it.label).join(", "));
    vscode.window.activeTextEditor = { document: protocol };
    vscode.workspace.textDocuments.push(protocol);
    heard.opened(protocol);
    const rows = protocol.text.split("\n"), bye = rows.findIndex((line) => line.includes("bye("));
    const over = await providers.hover.provideHover(protocol, new Position(bye, rows[bye].indexOf("bye(") + 1));
    saw("hover in a protocol", over ? over.contents.value.split("\n")[0] : "none");
    await providers.draw();
    saw("diagram", pages.length ? pages[0].split("\n").slice(0, 2).join(" ") : "none");
    await kill(row);
    heard.closed(document);
    const started = servers.length, last = servers.at(-1);
    await extension.deactivate();
    saw("stopped", `${await wait(() => last.exitCode !== null || last.signalCode !== null)} ${servers.length - started}`);
    server = "/nowhere/mungo-lsp";
    output.length = warnings.length = 0;
    await extension.activate({ subscriptions: [] });
    await wait(() => warnings.length > 0);
    saw("no server", `${warnings.length} ${output.length} ${servers.length - started}`);
}

drive().catch((fault) => saw("fault", String(fault))).finally(() => fs.writeFileSync(process.env.SAW, `${seen.join("\n")}\n`));
