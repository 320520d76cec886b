//! The program behind the page: words and files in, what a command of mungo gives out. Nothing else of the page knows
//! how the program runs. Each command has an instance of its own, so nothing of one is left for the next.
'use strict';

const toBytes = text => new TextEncoder().encode(text);
const toText = bytes => new TextDecoder().decode(bytes);

// The module, once it is there.
let program = null;

// Unpacks the module, which stands in the page as text.
async function loadProgram(packed) {
    const bytes = Uint8Array.from(atob(packed.trim()), letter => letter.charCodeAt(0));
    const unpacked = new Blob([bytes]).stream().pipeThrough(new DecompressionStream('gzip'));
    program = await WebAssembly.compile(await new Response(unpacked).arrayBuffer());
}

// Joins pieces of bytes.
function joined(pieces) {
    const whole = new Uint8Array(pieces.reduce((sum, piece) => sum + piece.length, 0));
    let at = 0;
    for (const piece of pieces) {
        whole.set(piece, at);
        at += piece.length;
    }
    return whole;
}

// Pieces as the program reads them, each behind its length in four bytes, the highest first; and such pieces in bytes.
function piecesOf(pieces) {
    const lengthOf = piece => {
        const bytes = new Uint8Array(4);
        new DataView(bytes.buffer).setUint32(0, piece.length);
        return bytes;
    };
    return joined(pieces.flatMap(piece => [lengthOf(piece), piece]));
}
function piecesIn(bytes) {
    const pieces = [], view = new DataView(bytes.buffer, bytes.byteOffset, bytes.length);
    for (let at = 0; at < bytes.length;) {
        const from = at + 4, until = from + view.getUint32(at);
        pieces.push(bytes.subarray(from, until));
        at = until;
    }
    return pieces;
}

// The bytes of the answer to what two rows of bytes ask. The program puts them into room that it is given, as far as that
// goes, and says how long they are; where there is too little, it is asked once more.
function answerBytes(words, files) {
    const { memory, take, answer } = new WebAssembly.Instance(program, {}).exports, MUCH = (1 << 20) - 16;
    const took = length => {
        const at = take(length) >>> 0;
        if (!at) throw new Error('there is too little memory');
        return at;
    };
    const put = bytes => {
        const at = took(bytes.length);
        new Uint8Array(memory.buffer, at, bytes.length).set(bytes);
        return [at, bytes.length];
    };
    const asked = [...put(words), ...put(files)];
    for (let space = MUCH; ;) {
        const room = took(space), length = answer(...asked, room, space) >>> 0;
        if (!length) throw new Error('there is too little memory');
        if (length <= space) return new Uint8Array(memory.buffer, room, length).slice();
        space = length;
    }
}

// Runs `mungo WORDS` over files, a map from names to texts or bytes, of which it sees those that are words. It gives the
// status, what was put on standard output and on standard error, and the files that were written, a map from names to
// bytes, without those that were so before. Where the browser stopped the program, as for want of stack, the status is
// null, and `err` says why.
function answer(words, files) {
    const bytesOf = name => typeof files.get(name) === 'string' ? toBytes(files.get(name)) : files.get(name);
    const given = new Map([...new Set(words)].filter(word => files.has(word)).map(word => [word, bytesOf(word)]));
    try {
        const told = [...given].flatMap(([name, bytes]) => [toBytes(name), bytes]);
        const bytes = answerBytes(piecesOf(words.map(toBytes)), piecesOf(told));
        const [out, err, ...after] = piecesIn(bytes.subarray(1)), stand = new Map();
        for (let at = 0; at < after.length; at += 2) stand.set(toText(after[at]), after[at + 1]);
        const isNew = ([name, content]) => !given.has(name) || !isSame(given.get(name), content);
        const written = new Map([...stand].filter(isNew));
        return { status: bytes[0], out: toText(out), err: toText(err), written };
    } catch (fault) {
        const err = `the browser stopped the program: ${fault.message}`;
        return { status: null, out: '', err, written: new Map() };
    }
}
const isSame = (one, other) => one.length === other.length && one.every((byte, at) => byte === other[at]);
