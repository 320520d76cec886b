//! A run as a sequence, as SVG: a line for each role, its calls as bars, and messages between the lines. Each event has
//! a row of its own, and its text stands in that row, so that no text covers another.
'use strict';

const ROW = 17, HEAD = 34, SIGN = 6.7, MOST_ROWS = 400;

const shortCall = method => method.replace(/^(send|receive)_/, '');
const messageText = event => event.what + (event.more ? `(${event.more})` : '');
function callText(call) {
    const name = call.isOne ? shortCall(call.what) : `${call.whom} ${shortCall(call.what)}`;
    return call.answer ? `${name} = ${call.answer}` : name;
}

// What is told of a run whatever part of it is shown: its roles, calls with where they end and how deep they stand
// inside one another, for each message that is taken where it was sent, and the messages that no one has taken.
function readRun(events) {
    const calls = [], open = new Map(), sent = new Map(), messages = new Map(), made = new Map();
    const list = (map, key) => map.get(key) ?? map.set(key, []).get(key);
    for (const event of events) if (event.kind === 'made') made.set(event.role, (made.get(event.role) ?? 0) + 1);
    for (const event of events) {
        if (event.kind === 'enter') {
            const stack = list(open, event.role), isOne = made.get(event.role) === 1;
            const call = { ...event, until: events.length, depth: stack.length, answer: '', isOne };
            stack.push(call);
            calls.push(call);
        }
        if (event.kind === 'leave') {
            const call = list(open, event.role).pop();
            if (call) Object.assign(call, { until: event.at, answer: event.more });
        }
        if (event.kind === 'send') list(sent, `${event.role} ${event.whom}`).push(event.at);
        if (event.kind === 'take') messages.set(event.at, list(sent, `${event.whom} ${event.role}`).shift());
    }
    const roles = [...new Set(events.map(event => event.role))], waiting = new Set([...sent.values()].flat());
    return { events, roles, calls, messages, waiting };
}

// Where the line of each role stands: there is room beside it for its calls, and between two lines for messages too.
function columnsOf(run) {
    const takes = run.events.filter(event => event.kind === 'take'), columns = new Map();
    const widest = (role, list, text) => {
        return list.reduce((width, it) => it.role === role ? Math.max(width, SIGN * text(it).length) : width, 0);
    };
    let at = 0, room = 0;
    for (const [number, role] of run.roles.entries()) {
        const calls = 26 + widest(role, run.calls, callText);
        const messages = 30 + Math.max(40, widest(role, takes, messageText));
        at += number ? Math.max(room + messages, 120) : Math.max(calls, 90);
        columns.set(role, at);
        room = number ? calls : 10;
    }
    return { columns, width: Math.ceil(at + Math.max(room, 60)) };
}

// Draws the rows from `first` on, at most MOST_ROWS, of a run. What belongs to an event has its number as `data-at`,
// where the first has the number 1.
function sequence(run, first) {
    const last = Math.min(run.events.length, first + MOST_ROWS), { columns, width } = columnsOf(run);
    const height = HEAD + ROW * (last - first) + 8, shown = run.events.slice(first, last);
    const scene = { run, first, last, columns, height, y: at => HEAD + ROW * (at - first + 0.5) };
    const calls = run.calls.filter(call => call.at < last && call.until >= first);
    const rows = shown.map(event => tag('rect', {
        class: 'row', 'data-at': event.at + 1, x: 0, y: scene.y(event.at) - ROW / 2, width, height: ROW,
    }, tag('title', {}, escaped(event.line))));
    return tag('svg', {
        class: 'sequence', width, height, viewBox: `0 0 ${width} ${height}`, role: 'img',
        'aria-label': 'the run as a sequence, which stands below in words',
    }, arrowHead('go'), ...[...columns].map(([role, x]) => lifeShape(role, x, height)),
    ...calls.map(call => callShape(scene, call)), ...shown.map(event => eventShape(scene, event)), ...rows);
}
function lifeShape(role, x, height) {
    return tag('text', { class: 'role', x, y: 16, 'text-anchor': 'middle' }, escaped(role))
        + tag('line', { class: 'life', x1: x, x2: x, y1: 24, y2: height });
}

// A text beside the line of a role: at the left of the first, and at the right of others.
function besideShape(scene, kind, event, text, far) {
    const isLeft = event.role === scene.run.roles[0], x = scene.columns.get(event.role) + (isLeft ? -12 : 12 + far);
    const anchor = isLeft ? 'end' : 'start';
    return tag('text', { class: kind, x, y: scene.y(event.at) + 4, 'text-anchor': anchor }, escaped(text));
}
function callShape(scene, call) {
    const far = 5 * call.depth, x = scene.columns.get(call.role) - 6 + far;
    const top = Math.max(scene.y(call.at) - 7, HEAD), bottom = Math.min(scene.y(call.until) + 5, scene.height);
    const height = Math.max(bottom - top, 8);
    const isInside = call.at >= scene.first;
    return tag('g', { 'data-at': call.at + 1 }, tag('rect', { class: 'busy', x, y: top, width: 12, height, rx: 3 }),
        isInside ? besideShape(scene, 'call', call, callText(call), far) : '');
}
function eventShape(scene, event) {
    const x = scene.columns.get(event.role), y = scene.y(event.at), of = { 'data-at': event.at + 1 };
    const dot = r => tag('circle', { class: event.kind, cx: x, cy: y, r });
    if (event.kind === 'made') return tag('g', of, dot(3), besideShape(scene, 'made', event, `new ${event.whom}`, 0));
    if (event.kind === 'look') return tag('g', of, dot(4));
    if (!scene.columns.has(event.whom)) return '';
    if (event.kind === 'send' && scene.run.waiting.has(event.at)) return waitingShape(scene, event, x, y);
    return event.kind === 'take' ? messageShape(scene, event, x, y) : '';
}
function messageShape(scene, event, x, y) {
    const from = scene.columns.get(event.whom), way = x < from ? -1 : 1;
    const sent = scene.run.messages.get(event.at) ?? event.at;
    const begin = Math.max(scene.y(sent), HEAD), of = { 'data-at': event.at + 1, 'data-sent': sent + 1 };
    const line = { d: `M${from + 7 * way},${begin} L${x - 8 * way},${y}`, 'marker-end': 'url(#go)' };
    const text = { x: x - 14 * way, y: y + 10, 'text-anchor': way > 0 ? 'end' : 'start' };
    const label = tag('text', text, escaped(messageText(event)));
    return tag('g', { class: 'message', ...of }, tag('path', line), label);
}
// A message that no one has taken stays near its sender.
function waitingShape(scene, event, x, y) {
    const way = x < scene.columns.get(event.whom) ? 1 : -1, end = x + 60 * way;
    const text = { x: x + 14 * way, y: y + 10, 'text-anchor': way > 0 ? 'start' : 'end' };
    return tag('g', { class: 'message waiting', 'data-at': event.at + 1 },
        tag('path', { d: `M${x + 7 * way},${y} L${end},${y}`, 'marker-end': 'url(#go)' }),
        tag('text', text, escaped(messageText(event))));
}

// Shows that the first `count` events have been: what comes later is pale, messages that are sent and not yet taken are
// dashed, and the row of the last event is marked.
function markStep(lines, count) {
    for (const it of lines.querySelectorAll('g[data-at]')) {
        const isLater = Number(it.dataset.at) > count, isSent = Number(it.dataset.sent) <= count;
        it.classList.toggle('later', isLater && !isSent);
        it.classList.toggle('waiting', !it.dataset.sent && it.classList.contains('waiting') || isLater && isSent);
    }
    for (const it of lines.querySelectorAll('.row')) it.classList.toggle('now', Number(it.dataset.at) === count);
    const list = lines.querySelector('ol');
    for (const [at, it] of [...list.children].entries()) {
        if (list.start + at === count) it.setAttribute('aria-current', 'step'); else it.removeAttribute('aria-current');
    }
}
