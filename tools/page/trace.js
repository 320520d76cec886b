//! The events of a run, read from the lines of its trace, and where its objects stand after each of them.
'use strict';

const MOST_EVENTS = 50000, EVENT = /^(\w+) (made|enter|leave|send|look|take) (\S+)(?: (\w+))?(?: ([^]*))?$/;

// The events of a trace: ROLE KIND WHOM WHAT MORE, as `C send S add 1`. `at` is the number of the event. Of a long trace
// they are the first MOST_EVENTS.
function readTrace(text) {
    const events = [];
    for (let from = 0; from < text.length && events.length < MOST_EVENTS;) {
        const end = text.indexOf('\n', from), line = text.slice(from, end < 0 ? text.length : end);
        from += line.length + 1;
        const found = EVENT.exec(line);
        if (!found) continue;
        const [, role, kind, whom, what = '', more = ''] = found;
        events.push({ at: events.length, line, role, kind, whom, what, more });
    }
    return events;
}

// The lines behind the events: how each role stands at the end.
function endings(text) {
    const lines = [];
    for (let until = text.trimEnd().length; until > 0;) {
        const from = text.lastIndexOf('\n', until - 1) + 1, line = text.slice(from, until);
        if (!/^\S+: /.test(line)) break;
        lines.unshift(line);
        until = from - 1;
    }
    return lines;
}

// The classes of texts of Java that have a typestate: a map from the class to the typestate's name.
function classTypestates(texts) {
    const declared = /@Typestate\s*\(\s*"(\w+)"\s*\)\s*(?:(?:public|final)\s+)*class\s+(\w+)/g;
    return new Map(texts.flatMap(text => [...text.matchAll(declared)]).map(([, typestate, name]) => [name, typestate]));
}

// Follows the objects of a run through their typestates: a map from ROLE OBJECT to { key, typestate, calls, steps }. A
// step is an event that moves the object: the state in which it stands then, and the keys of the calls that led there.
function follow(events, typestates, classes) {
    const objects = new Map();
    for (const event of events) {
        const key = `${event.role} ${event.whom}`;
        if (event.kind === 'made') {
            const typestate = typestates.get(classes.get(event.whom.replace(/#.*/, '')));
            const first = { at: event.at, state: typestate?.states[0], keys: [] };
            if (typestate) objects.set(key, { key, typestate, calls: [], steps: [first] });
        }
        const object = objects.get(key);
        if (object && event.kind === 'enter') enter(object, event);
        if (object && event.kind === 'leave') leave(object, event);
    }
    return objects;
}
// Of calls of one object inside one another the outermost counts.
function enter(object, event) {
    const { state } = object.steps[object.steps.length - 1];
    object.calls.push(event.what);
    if (object.calls.length === 1) object.steps.push({ at: event.at, state, keys: [stateKey(state, event.what)] });
}
function leave(object, event) {
    object.calls.pop();
    if (object.calls.length) return;
    const { state } = object.steps[object.steps.length - 1];
    const call = object.typestate.calls.find(it => it.from === state && it.method === event.what);
    const end = call?.ends.find(it => it.label === null || it.label === event.more);
    if (!end) return;
    const keys = [stateKey(state, event.what)];
    if (end.label !== null) keys.push(stateKey(state, event.what, end.label));
    object.steps.push({ at: event.at, state: end.to, keys });
}

// Where an object stands after the first `count` events: its last step among them, or null where it isn't made yet.
function standing(object, count) {
    let low = 0, high = object.steps.length;
    while (low < high) {
        const middle = (low + high) >> 1;
        if (object.steps[middle].at < count) low = middle + 1; else high = middle;
    }
    return low ? object.steps[low - 1] : null;
}
