// The protocol's side of the extension: a server as a child process, its frames, and the responses to requests.
"use strict";
const { spawn } = require("node:child_process");

const END_OF_HEAD = Buffer.from("\r\n\r\n");

// The bodies in some bytes, and the bytes behind them that aren't a whole frame yet.
function cut(bytes) {
    const bodies = [];
    for (;;) {
        const head = bytes.indexOf(END_OF_HEAD);
        const length = head < 0 ? null : /(?:^|\r\n)content-length: *(\d+)/i.exec(bytes.toString("latin1", 0, head));
        if (head >= 0 && !length) throw new Error("the server put what is no frame");
        const begin = head + END_OF_HEAD.length;
        if (head < 0 || bytes.length < begin + Number(length[1])) return { bodies, rest: bytes };
        bodies.push(bytes.toString("utf8", begin, begin + Number(length[1])));
        bytes = bytes.subarray(begin + Number(length[1]));
    }
}

// A server that runs. `told` gets the parameters of each notification, by its method; `ended` why the server is gone, and
// whether it ran: a program that isn't there didn't.
class Client {
    constructor(program, told, ended) {
        this.told = told;
        this.ended = ended;
        this.waiting = new Map();
        this.number = 0;
        this.rest = Buffer.alloc(0);
        this.gone = false;
        this.process = spawn(program, [], { stdio: ["pipe", "pipe", "ignore"] });
        this.process.on("error", (fault) => this.end(fault.message));
        this.process.on("exit", (status, signal) => this.end(`it ended with ${signal ?? status}`));
        this.process.stdin.on("error", () => {});
        this.process.stdout.on("data", (bytes) => this.hear(bytes));
    }

    // What was asked of a server that is gone has no answer.
    end(why) {
        if (this.gone) return;
        this.gone = true;
        for (const answer of this.waiting.values()) answer(null);
        this.waiting.clear();
        this.ended(why, this.process.pid !== undefined);
    }

    hear(bytes) {
        try {
            const { bodies, rest } = cut(Buffer.concat([this.rest, bytes]));
            this.rest = rest;
            for (const body of bodies) this.take(JSON.parse(body));
        } catch (fault) {
            this.end(fault.message);
            this.process.kill();
        }
    }

    take(message) {
        if (message.method !== undefined) return this.told(message.method, message.params);
        const answer = this.waiting.get(message.id);
        this.waiting.delete(message.id);
        if (answer) answer(message.result ?? null);
    }

    put(message) {
        if (this.gone) return;
        const body = Buffer.from(JSON.stringify({ jsonrpc: "2.0", ...message }));
        this.process.stdin.write(`Content-Length: ${body.length}\r\n\r\n`);
        this.process.stdin.write(body);
    }

    notify(method, params) {
        this.put({ method, params });
    }

    // The result, or null where the server refuses the request or is gone.
    request(method, params) {
        if (this.gone) return Promise.resolve(null);
        const id = ++this.number;
        return new Promise((answer) => {
            this.waiting.set(id, answer);
            this.put({ id, method, params });
        });
    }

    // Ends the server; it isn't told that it ended.
    async stop() {
        this.ended = () => {};
        await this.request("shutdown");
        this.notify("exit");
        if (!this.gone) this.process.stdin.end();
    }
}

module.exports = { Client, cut };
