//! The calls that `show` tells: what an object may be before each, and after it; beside the text, and as a table.
'use strict';

const SEEN = /^(.+):(\d+):(\d+): (\S+)\.(\w+) (.+) -> (.+)$/;

// The calls, by their files: a map to lists of { file, line, column, variable, method, before, after }, in the order of
// places; before and after are lists of states, empty where nothing comes there.
function readSeen(out) {
    const calls = out.split('\n').map(line => SEEN.exec(line)).filter(Boolean).map(seenCall);
    return grouped(calls, call => call.file);
}
function seenCall([, file, line, column, variable, method, before, after]) {
    const states = text => text === '-' ? [] : text.split(' ');
    const place = { file, line: Number(line), column: Number(column) };
    return { ...place, variable, method, before: states(before), after: states(after) };
}

// What is told behind calls on a line: where each leads, behind the name of its variable where they are of several.
const setText = states => states.join(' ') || '–';
function seenText(calls) {
    const rows = [...grouped(calls, call => call.variable)], isOne = rows.length === 1;
    const told = ([name, list]) => [...isOne ? [] : [name], ...list.map(call => `→ ${setText(call.after)}`)].join(' ');
    return rows.map(told).join(', ');
}

// What stands beside the lines of a text that have calls, by their numbers; and such a text behind its line, in which blanks
// stand for the line.
function besideLines(calls) {
    return new Map([...grouped(calls, call => call.line)].map(([line, list]) => [line, seenText(list)]));
}
const besideLine = (line, told) => `${line.replace(/[^\t]/gu, ' ')}   ${told}`;

// All calls as a table, each with a button that leads to its place.
function seenTable(seen) {
    const cell = text => tag('td', {}, escaped(text)), head = text => tag('th', {}, text);
    const button = (call, at) => {
        return tag('button', { 'data-call': at, title: 'goes to the place' }, escaped(`${call.file}:${call.line}`));
    };
    const row = (call, at) => {
        const texts = [`${call.variable}.${call.method}`, setText(call.before), setText(call.after)];
        return tag('tr', {}, tag('td', {}, button(call, at)), ...texts.map(cell));
    };
    const heads = tag('tr', {}, ...['at', 'call', 'before', 'after'].map(head)), calls = [...seen.values()].flat();
    const rows = calls.slice(0, MOST_LISTED).map(row);
    return tag('table', { class: 'seen' }, heads, ...rows) + notListed(calls.length);
}
