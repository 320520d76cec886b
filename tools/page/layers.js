//! Where the parts of a diagram stand, drawn top down: parts in layers, so that none covers another, and lines that run
//! through the gaps between them. It knows nothing of typestates: parts have a width and a height, and links join them.
'use strict';

const BETWEEN = 18, BELOW = 30, THIN = 10;

// Lays out parts { width, height, last, low } and links { from, to }, whose ends are numbers of parts. A link stands
// for a line between an upper part `from` and a lower one `to`, and links have no cycle. A part that is `last` stands
// in the lowest layer, and one that is `low` just above those that it leads to.
// Gives each part `x` and `y`, its middle, and each link `gaps`, through which it runs; answers width and height.
function layOut(parts, links) {
    if (!parts.length) return { width: 0, height: 0 };
    rank(parts, links);
    const { cells, ways } = cellsOf(parts, links), rows = rowsOf(cells);
    reduceCrossings(rows);
    setColumns(rows);
    const height = setHeights(rows);
    for (const way of ways) way.link.gaps = gapsOf(way);
    return { width: Math.max(...cells.map(cell => cell.x + cell.width / 2)), height };
}

// The layer of each part: one below the lowest of those above it, but for those that are last or low.
function rank(parts, links) {
    const below = parts.map(() => []), waits = parts.map(() => 0);
    for (const link of links) {
        below[link.from].push(link.to);
        waits[link.to]++;
    }
    const queue = parts.map((_, number) => number).filter(number => !waits[number]);
    for (const part of parts) part.layer = 0;
    for (const number of queue) for (const to of below[number]) {
        parts[to].layer = Math.max(parts[to].layer, parts[number].layer + 1);
        if (!--waits[to]) queue.push(to);
    }
    const deepest = Math.max(...parts.map(part => part.layer));
    for (const [number, part] of parts.entries()) {
        if (part.last) part.layer = deepest;
        if (part.low) part.layer = Math.min(...below[number].map(to => parts[to].layer)) - 1;
    }
}

// Each part is a cell; where a link runs through a layer it has a thin cell there. A way is the list of a link's cells.
function cellsOf(parts, links) {
    const cells = parts.map(part => Object.assign(part, { up: [], down: [] }));
    const thin = layer => ({ layer, up: [], down: [], width: THIN, height: 0, thin: true });
    const ways = links.map(link => {
        const way = [parts[link.from]];
        for (let layer = parts[link.from].layer + 1; layer < parts[link.to].layer; layer++) {
            cells.push(thin(layer));
            way.push(cells[cells.length - 1]);
        }
        way.push(parts[link.to]);
        for (let at = 1; at < way.length; at++) {
            way[at - 1].down.push(way[at]);
            way[at].up.push(way[at - 1]);
        }
        return { link, cells: way };
    });
    return { cells, ways };
}

// The cells of each layer, in the order in which walks from above meet them.
function rowsOf(cells) {
    const rows = Array.from({ length: 1 + Math.max(...cells.map(cell => cell.layer)) }, () => []), seen = new Set();
    for (const first of [...cells].sort((one, other) => one.layer - other.layer)) {
        const open = [first];
        while (open.length) {
            const cell = open.pop();
            if (seen.has(cell)) continue;
            seen.add(cell);
            rows[cell.layer].push(cell);
            open.push(...[...cell.down].reverse());
        }
    }
    rows.forEach(number);
    return rows;
}
function number(row) { row.forEach((cell, place) => { cell.place = place; }); }

// How often lines cross between a row and the one below: pairs of lines whose ends stand in other orders. They are
// counted from left to right, by a tree of sums over the places below.
function crossings(row, next) {
    const sums = new Array(next.length + 1).fill(0);
    let count = 0, lines = 0;
    for (const cell of row) {
        const ends = cell.down.map(to => to.place);
        for (const end of ends) {
            count += lines;
            for (let at = end + 1; at > 0; at -= at & -at) count -= sums[at];
        }
        for (const end of ends) {
            lines++;
            for (let at = end + 1; at <= next.length; at += at & -at) sums[at]++;
        }
    }
    return count;
}
const allCrossings = rows => rows.slice(1).reduce((sum, next, at) => sum + crossings(rows[at], next), 0);

// Sorts each row by where its cells' neighbours stand, downwards and upwards in turn, and keeps the best that is met.
function reduceCrossings(rows) {
    let best = rows.map(row => [...row]), fewest = allCrossings(rows);
    for (let turn = 0; turn < 16 && fewest; turn++) {
        const side = turn % 2 ? 'down' : 'up';
        for (const row of turn % 2 ? [...rows].reverse() : rows) {
            for (const cell of row) cell.want = middle(cell[side].map(it => it.place)) ?? cell.place;
            row.sort((one, other) => one.want - other.want || one.place - other.place);
            number(row);
        }
        swapNeighbours(rows);
        const found = allCrossings(rows);
        if (found < fewest) {
            fewest = found;
            best = rows.map(row => [...row]);
        }
    }
    for (const [at, row] of best.entries()) rows[at].splice(0, row.length, ...row);
    rows.forEach(number);
}
function middle(places) {
    places.sort((one, other) => one - other);
    return places.length ? (places[(places.length - 1) >> 1] + places[places.length >> 1]) / 2 : null;
}

// Swaps neighbours in a row where that takes away crossings.
function swapNeighbours(rows) {
    const left = (place, list) => list.filter(it => it.place < place).length;
    const between = (one, other, side) => one[side].reduce((sum, it) => sum + left(it.place, other[side]), 0);
    const both = (one, other) => between(one, other, 'up') + between(one, other, 'down');
    for (const row of rows) for (let at = 1; at < row.length; at++) {
        const [one, other] = [row[at - 1], row[at]];
        if (both(other, one) < both(one, other)) {
            [row[at - 1], row[at]] = [other, one];
            number(row);
        }
    }
}

// Moves cells to where their neighbours stand, as far as the order and the widths allow. Straight lines weigh more.
function setColumns(rows) {
    const TURNS = 40, DOWN_AND_UP = 24;
    for (const row of rows) place(row, row.map(() => ({ at: 0, weight: 1 })));
    for (let turn = 0; turn < TURNS; turn++) {
        const sides = turn >= DOWN_AND_UP ? ['up', 'down'] : turn % 2 ? ['down'] : ['up'];
        for (const row of turn % 2 ? [...rows].reverse() : rows) place(row, row.map(cell => wanted(cell, sides)));
    }
    const cells = rows.flat(), left = Math.min(...cells.map(cell => cell.x - cell.width / 2));
    for (const cell of cells) cell.x -= left;
}
function wanted(cell, sides) {
    let sum = 0, all = 0;
    for (const it of sides.flatMap(side => cell[side])) {
        const weight = cell.thin && it.thin ? 16 : cell.thin || it.thin ? 3 : 1;
        sum += weight * it.x;
        all += weight;
    }
    return all ? { at: sum / all, weight: all } : { at: cell.x, weight: 0.1 };
}

// The places nearest to those wanted at which cells keep their order and distances: cells that touch move as one block.
function place(row, wishes) {
    const blocks = [], middleOf = block => block.sum / block.weight;
    let offset = 0;
    for (const [number, cell] of row.entries()) {
        if (number) offset += (row[number - 1].width + cell.width) / 2 + BETWEEN;
        cell.offset = offset;
        const { at, weight } = wishes[number];
        let block = { sum: (at - offset) * weight, weight, cells: [cell] };
        while (blocks.length && middleOf(blocks[blocks.length - 1]) > middleOf(block)) {
            const before = blocks.pop();
            const sum = before.sum + block.sum;
            block = { sum, weight: before.weight + block.weight, cells: [...before.cells, ...block.cells] };
        }
        blocks.push(block);
    }
    for (const block of blocks) for (const cell of block.cells) cell.x = middleOf(block) + cell.offset;
}

// Sets the height of each row, and answers the sum.
function setHeights(rows) {
    let top = 0;
    for (const row of rows) {
        const height = Math.max(...row.map(cell => cell.height));
        for (const cell of row) Object.assign(cell, { y: top + height / 2, above: top, below: top + height });
        top += height + BELOW;
    }
    return top - BELOW;
}

// Where a way leaves or meets a side of a part: those of one side stand apart, in the order of their other ends.
function port(cell, side, other, way) {
    const count = cell[side].length;
    if (cell.thin || count < 2) return cell.x;
    cell.ports ??= {};
    cell.ports[side] ??= cell[side].map(it => ({ it, way: null })).sort((one, two) => one.it.x - two.it.x);
    const ports = cell.ports[side], at = ports.findIndex(one => one.it === other && one.way === null);
    ports[at].way = way;
    return cell.x + (at - (count - 1) / 2) * Math.min(16, (cell.width - 12) / count);
}

// The gaps that a way runs through, from above to below: a line leaves a part at (x1, y1), is straight down to the edge
// of its row, `a`, then goes over to x2 at the edge of the next row, `b`, and is straight down to y2.
function gapsOf(way) {
    return way.cells.slice(1).map((lower, at) => {
        const upper = way.cells[at];
        const x1 = port(upper, 'down', lower, way), y1 = upper.thin ? upper.above : upper.y + upper.height / 2;
        const x2 = port(lower, 'up', upper, way), y2 = lower.thin ? lower.above : lower.y - lower.height / 2;
        return { x1, y1, a: upper.below, x2, y2, b: lower.above };
    });
}
