//! Places in texts: lines, where a fault stands, and what a fault or a call there is about.
'use strict';

// The offset at which each line of a text begins; and the line, from 0 on, in which an offset stands.
function lineStarts(text) {
    const starts = [0];
    for (let at = text.indexOf('\n'); at >= 0; at = text.indexOf('\n', at + 1)) starts.push(at + 1);
    return starts;
}
function lineAt(starts, offset) {
    let low = 0, high = starts.length;
    while (high - low > 1) {
        const middle = (low + high) >> 1;
        if (starts[middle] <= offset) low = middle; else high = middle;
    }
    return low;
}

// Where a fault stands in a text whose lines begin at `starts`: the offset of its first letter, and that behind its word.
// Columns count bytes.
function spanOf(text, starts, { line, column }) {
    const begin = starts[line - 1] ?? text.length, end = starts[line] ?? text.length;
    const from = begin + toText(toBytes(text.slice(begin, Math.min(end, begin + column))).slice(0, column - 1)).length;
    const word = /^(\w+|[^])/.exec(text.slice(from, from + MOST_NAME));
    return [Math.min(from, text.length), Math.min(from + (word ? word[0].length : 0), text.length)];
}
const MOST_NAME = 255; // letters, as LANGUAGE.md says

// The typestate of the class that a variable is declared of, before a place { file, line, column } if it is; or null.
function typestateOf(variable, place, { sources, classes, typestates }) {
    const text = sources.get(place.file);
    if (!text || !/^\w+$/.test(variable)) return null;
    const declared = new RegExp(`\\b(\\w+)\\s+${variable}\\b`, 'g'), [, until] = spanOf(text, lineStarts(text), place);
    const found = [...withoutComments(text).matchAll(declared)].map(it => ({ at: it.index, name: it[1] }));
    const known = found.map(it => ({ at: it.at, typestate: typestates.get(classes.get(it.name)) }))
        .filter(it => it.typestate);
    // A field may be declared behind the methods that use it.
    return (known.filter(it => it.at < until).pop() ?? known[0])?.typestate ?? null;
}

// The state that a fault tells, where it tells a variable and a state: that of the class that the variable is declared
// of, and what it offers. Else null.
function stateOf(fault, judged) {
    const [variable, state] = (fault?.about ?? '').split(' ');
    const typestate = state ? typestateOf(variable, fault, judged) : null;
    if (!typestate?.states.includes(state)) return null;
    return { typestate, state, offers: typestate.calls.filter(call => call.from === state).map(call => call.text) };
}
