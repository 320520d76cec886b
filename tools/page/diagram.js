//! Diagrams of typestates, as SVG: states, and between them the calls that lead from one to another.
'use strict';

const escaped = text => String(text).replace(/[&<>"']/g, sign => `&#${sign.charCodeAt(0)};`);

// An element of HTML or SVG as text: its attributes, and what is inside, which is such text already.
function tag(name, attributes, ...inside) {
    const text = Object.entries(attributes).map(([key, value]) => ` ${key}="${escaped(value)}"`).join('');
    return `<${name}${text}>${inside.join('')}</${name}>`;
}

// The head of an arrow, by a name, in the colour of its line.
const arrowHead = id => tag('defs', {}, tag('marker', {
    id, viewBox: '0 0 8 8', refX: 7.5, refY: 4, markerWidth: 7, markerHeight: 7, markerUnits: 'userSpaceOnUse',
    orient: 'auto',
}, tag('path', { class: 'tip', d: 'M0,0 L8,4 L0,8 z' })));

// The width of a text in the font of the diagrams.
const measure = (() => {
    const context = document.createElement('canvas').getContext('2d');
    let family = null;
    return (text, size) => {
        family ??= getComputedStyle(document.documentElement).getPropertyValue('--mono');
        context.font = `${size}px ${family}`;
        return context.measureText(text).width;
    };
})();

const STATE_FONT = 12, CALL_FONT = 11, LINE = 14, MOST_STATES = 120, MOST_ENDS = 400;

const stateKey = (state, ...words) => [state, ...words].join(' ');
function grouped(list, keyOf) {
    const groups = new Map();
    for (const it of list) {
        const key = keyOf(it), group = groups.get(key);
        if (group) group.push(it); else groups.set(key, [it]);
    }
    return groups;
}

// The parts and links of a typestate. A call without answers is a text on the line to where it leads, and calls that
// lead the same way share it. One with answers is a text from which a line goes for each way, with the answers on it.
function partsOf(typestate) {
    const parts = [], edges = [], states = new Map();
    const add = part => parts.push(part) - 1;
    const label = lines => {
        const width = Math.max(...lines.map(line => measure(line.text, CALL_FONT))) + 6;
        return add({ kind: 'label', lines, height: LINE * lines.length + 2, width });
    };
    for (const name of typestate.states) {
        const width = Math.max(56, measure(name, STATE_FONT) + 22);
        const end = { kind: 'end', name, width: 24, height: 24, last: true };
        states.set(name, add(name === 'end' ? end : { kind: 'state', name, width, height: 30 }));
    }
    const hasAnswers = call => call.ends.some(end => end.label !== null);
    for (const [state, calls] of grouped(typestate.calls, call => call.from)) {
        const from = states.get(state), textOf = call => ({ text: call.text, key: stateKey(state, call.method) });
        for (const [to, same] of grouped(calls.filter(call => !hasAnswers(call)), call => call.ends[0].to)) {
            edges.push({ from, by: label(same.map(textOf)), to: states.get(to) });
        }
        for (const call of calls.filter(hasAnswers)) {
            const asked = label([textOf(call)]);
            edges.push({ from, by: null, to: asked });
            for (const [to, ends] of grouped(call.ends, end => end.to)) {
                const answers = ends.map(end => ({ text: end.label, key: stateKey(state, call.method, end.label) }));
                edges.push({ from: asked, by: label(answers), to: states.get(to) });
            }
        }
    }
    return { parts, links: linksOf(parts, edges) };
}

// Links without a cycle: an edge that leads back to where a walk has come from is turned round, and its tip is above.
function linksOf(parts, edges) {
    markBack(parts, edges);
    const links = [];
    for (const { from, by, to, back } of edges) {
        const keys = parts[by ?? to].lines.map(line => line.key);
        const link = (upper, lower, tip) => links.push({ from: upper, to: lower, tip, keys });
        if (by === null) link(from, to, '');
        else if (from === to) { link(from, by, ''); link(from, by, 'up'); }
        else if (back) { parts[by].low = true; link(to, by, 'up'); link(by, from, ''); }
        else { link(from, by, ''); link(by, to, 'down'); }
    }
    return links;
}

// Marks the edges that lead back to a part that a walk is still in: depth first, from the first state on.
function markBack(parts, edges) {
    const out = parts.map(() => []), NEW = 0, OPEN = 1, DONE = 2, mark = parts.map(() => NEW);
    for (const edge of edges) out[edge.from].push(edge);
    for (const start of parts.keys()) {
        if (mark[start] !== NEW || parts[start].kind === 'label') continue;
        const open = [{ part: start, next: 0 }];
        mark[start] = OPEN;
        while (open.length) {
            const top = open[open.length - 1], edge = out[top.part][top.next++];
            if (!edge) {
                mark[top.part] = DONE;
                open.pop();
                continue;
            }
            edge.back = mark[edge.to] === OPEN;
            if (mark[edge.to] === NEW) {
                mark[edge.to] = OPEN;
                open.push({ part: edge.to, next: 0 });
            }
        }
    }
}

// The line of a link, an SVG path, from below to above where its tip is at its upper end. Before a tip it is straight.
function lineOf(link) {
    const place = (x, y) => `${x.toFixed(1)},${y.toFixed(1)}`, TIP = 9, isLast = at => at === link.gaps.length - 1;
    const over = (x1, y1, x2, y2) => `C${place(x1, (y1 + y2) / 2)} ${place(x2, (y1 + y2) / 2)} ${place(x2, y2)}`;
    const down = ({ x1, y1, a, x2, y2, b }, at) => {
        const curve = over(x1, a, x2, link.tip && isLast(at) ? b - TIP : b);
        return `${place(x1, y1)} L${place(x1, a)} ${curve} L${place(x2, y2)}`;
    };
    const up = ({ x1, y1, a, x2, y2, b }, at) => {
        const curve = over(x2, b, x1, isLast(at) ? a + TIP : a);
        return `${place(x2, y2)} L${place(x2, b)} ${curve} L${place(x1, y1)}`;
    };
    return 'M' + (link.tip === 'up' ? [...link.gaps].reverse().map(up) : link.gaps.map(down)).join(' L');
}

// Draws a typestate. States have their name as `data-state`, texts and lines the keys of their calls as `data-keys`.
function diagram(typestate) {
    const { parts, links } = partsOf(typestate), size = layOut(parts, links), EDGE = 16, FIRST = 26;
    const lines = links.map(link => tag('path', {
        class: 'line', 'data-keys': `|${link.keys.join('|')}|`, d: lineOf(link),
        ...link.tip && { 'marker-end': 'url(#tip)' },
    }));
    const top = parts[0].y - parts[0].height / 2, x = parts[0].x;
    const start = tag('circle', { class: 'start', cx: x, cy: top - FIRST + 4, r: 4 })
        + tag('path', { class: 'line', d: `M${x},${top - FIRST + 8} L${x},${top - 1}`, 'marker-end': 'url(#tip)' });
    const shapes = parts.map(part => part.kind === 'label' ? labelShape(part) : stateShape(part));
    const box = [-EDGE, -FIRST - EDGE / 2, size.width + 2 * EDGE, size.height + FIRST + 1.5 * EDGE].map(Math.ceil);
    return tag('svg', {
        class: 'diagram', width: box[2], height: box[3], viewBox: box.join(' '), role: 'img',
        'aria-label': `the typestate ${typestate.name}, which stands below in words`,
    }, arrowHead('tip'), start, ...lines, ...shapes);
}
function stateShape({ kind, name, x, y, width, height }) {
    const circle = (r, more) => tag('circle', { cx: x, cy: y, r, ...more });
    const shape = kind === 'end' ? [circle(11), circle(6, { class: 'dot' })]
        : [tag('rect', { x: x - width / 2, y: y - height / 2, width, height, rx: 9 }),
            tag('text', { x, y: y + 4, 'text-anchor': 'middle' }, escaped(name))];
    return tag('g', { class: 'state', 'data-state': name }, ...shape);
}
function labelShape({ lines, x, y, height }) {
    const text = (line, at) => tag('text', {
        class: 'call', 'data-keys': `|${line.key}|`, x, y: y - height / 2 + LINE * at + 11, 'text-anchor': 'middle',
    }, escaped(line.text));
    return lines.map(text).join('');
}

// Lights the states in which objects stand, and the calls of the keys that are given, in a diagram that is shown.
function light(svg, states, keys) {
    const isMeant = it => keys.some(key => it.dataset.keys.includes(`|${key}|`));
    for (const it of svg.querySelectorAll('[data-state]')) it.classList.toggle('on', states.has(it.dataset.state));
    for (const it of svg.querySelectorAll('[data-keys]')) it.classList.toggle('on', isMeant(it));
}
