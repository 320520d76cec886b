//! A program in a link: its files and what is open, packed, behind the # of the address, which no server is sent.
'use strict';

const MOST_UNPACKED = 2 << 20, MOST_FILES = 500, IS_LINK = /^#p=/;

async function pack(content) {
    const packed = new Blob([content]).stream().pipeThrough(new CompressionStream('deflate-raw'));
    const bytes = new Uint8Array(await new Response(packed).arrayBuffer());
    const letters = btoa(Array.from(bytes, byte => String.fromCharCode(byte)).join(''));
    return letters.replace(/\+/g, '-').replace(/\//g, '_').replace(/=+$/, '');
}

// Unpacks bytes, and stops where they become more than MOST_UNPACKED: then it answers null. A stream unpacks at once all
// that it is given, up to a thousand times as much, so it is given a little at a time.
async function unpacked(bytes) {
    const { readable, writable } = new DecompressionStream('deflate-raw'), LITTLE = 512, pieces = [];
    const writer = writable.getWriter(), reader = readable.getReader();
    const give = async () => {
        for (let at = 0; at < bytes.length; at += LITTLE) await writer.write(bytes.subarray(at, at + LITTLE));
        await writer.close();
    };
    give().catch(() => {}); // the reader hears of it too
    for (let size = 0; ;) {
        const { value, done } = await reader.read();
        if (done) return joined(pieces);
        size += value.length;
        if (size > MOST_UNPACKED) {
            await reader.cancel();
            return null;
        }
        pieces.push(value);
    }
}

// The link of a program { files, at, words }, or null where that is too large to be opened.
async function linkOf({ files, at, words }) {
    const content = toBytes(JSON.stringify({ files: Object.fromEntries(files), at, words }));
    return content.length > MOST_UNPACKED || files.size > MOST_FILES ? null : '#p=' + await pack(content);
}

// The program of a link { files, at, words }, or { why } where it has none that can be opened.
async function programOf(hash) {
    try {
        const letters = atob(hash.replace(IS_LINK, '').replace(/-/g, '+').replace(/_/g, '/'));
        const bytes = await unpacked(Uint8Array.from(letters, letter => letter.charCodeAt(0)));
        if (!bytes) return { why: `The link has more than ${MOST_UNPACKED >> 20} MiB, and isn’t opened.` };
        const text = new TextDecoder('utf-8', { fatal: true }).decode(bytes), linked = programIn(JSON.parse(text));
        if (linked.files.size > MOST_FILES) return { why: `The link has more than ${MOST_FILES} files, and isn’t opened.` };
        return linked;
    } catch {
        return { why: 'The link is damaged: no program can be read in it.' };
    }
}

// The program in a value that was kept as JSON. It throws where there is none.
function programIn({ files, at, words }) {
    const isName = name => name !== '' && name.length <= MOST_NAME && !name.startsWith('-');
    const isFile = ([name, text]) => isName(name) && typeof text === 'string';
    const entries = Object.entries(files);
    if (!entries.length || !entries.every(isFile)) throw new Error('there are no files');
    const kept = new Map(entries);
    return { files: kept, at: kept.has(at) ? at : entries[0][0], words: typeof words === 'string' ? words : null };
}
