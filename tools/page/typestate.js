//! Typestates, read from the text of a file that the program has read or printed. What isn't a typestate gives null.
'use strict';

// A typestate { name, states, calls }. A call of a state has the text that is shown, and where it leads, by its answer:
//   { from, method, text, ends: [{ label, to }] }      label is null where there are no answers and one end
function readTypestate(text) {
    const plain = text.replace(/\/\*[^]*?(?:\*\/|$)|\/\/[^\n]*/g, ' '), head = /\btypestate\s+(\w+)/.exec(plain);
    if (!head) return null;
    const typestate = { name: head[1], states: [], calls: [] };
    for (const [, state, body] of plain.slice(head.index).matchAll(/\b(\w+)\s*=\s*\{([^{}]*)\}/g)) {
        typestate.states.push(state);
        typestate.calls.push(...callsOf(state, body));
    }
    const known = new Set([...typestate.states, 'end']);
    for (const call of typestate.calls) call.ends = call.ends.filter(end => known.has(end.to));
    typestate.calls = typestate.calls.filter(call => call.ends.length);
    if (typestate.calls.some(call => call.ends.some(end => end.to === 'end'))) typestate.states.push('end');
    return typestate.states.length ? typestate : null;
}

// The calls in the body of a state, and `drop` where it has `drop: end`.
function callsOf(from, body) {
    const calls = [], trimmed = (list, sign) => list.split(sign).map(it => it.trim());
    for (const [, method, types, target] of body.matchAll(/\b(\w+)\s*\(([^()]*)\)\s*:\s*(<[^<>]*>|\w+)/g)) {
        const list = target[0] === '<' ? trimmed(target.slice(1, -1), ',') : null;
        const pairs = list ? list.map(pair => trimmed(pair, ':')) : [[null, target]];
        const text = `${method}(${trimmed(types, ',').join(', ')})`;
        calls.push({ from, method, text, ends: pairs.map(([label, to]) => ({ label, to })) });
    }
    const bare = body.replace(/<[^<>]*>|\([^()]*\)/g, ' ');
    if (/(^|,)\s*drop\s*:\s*end\s*(,|$)/.test(bare)) {
        calls.push({ from, method: '', text: 'drop', ends: [{ label: null, to: 'end' }] });
    }
    return calls;
}

// What stands around a state: the states that lead to it or that it leads to, by at most `steps` calls.
function surroundings(typestate, state, steps) {
    let near = new Set([state]);
    for (let step = 0; step < steps; step++) {
        const more = new Set(near);
        for (const call of typestate.calls) for (const end of call.ends) {
            if (near.has(call.from)) more.add(end.to);
            if (near.has(end.to)) more.add(call.from);
        }
        near = more;
    }
    const kept = call => ({ ...call, ends: call.ends.filter(end => near.has(end.to)) });
    const calls = typestate.calls.filter(call => near.has(call.from)).map(kept).filter(call => call.ends.length);
    return { name: typestate.name, states: typestate.states.filter(it => near.has(it)), calls };
}
