//! What is drawn and what is judged, in words: for who doesn't see the page.
'use strict';

const folded = (title, list) => tag('details', {}, tag('summary', {}, title), list);

// A typestate: a line for each state, with what each of its calls leads to.
function diagramWords({ states, calls }) {
    const named = state => state === 'end' ? 'the end' : state, byState = grouped(calls, call => call.from);
    const led = ({ label, to }) => label === null ? `leads to ${named(to)}` : `with ${label} leads to ${named(to)}`;
    const told = call => call.text === 'drop' ? 'an object may be left here' : `${call.text} ${call.ends.map(led).join(', ')}`;
    const line = state => `${state}: ${(byState.get(state) ?? []).map(told).join('; ')}.`;
    const lines = states.filter(state => state !== 'end').map(state => tag('li', {}, escaped(line(state))));
    return folded('The diagram in words', tag('ul', {}, ...lines));
}

// An event of a run.
function eventWords(event) {
    const { role, kind, whom, what, more } = event;
    const answer = more ? `, which answers ${more}` : '';
    return {
        made: `${role} makes ${whom}`, enter: `${role} calls ${what} of ${whom}`,
        leave: `${role} comes back from ${what} of ${whom}${answer}`, send: `${role} sends ${messageText(event)} to ${whom}`,
        look: `${role} looks at what ${whom} has sent: ${what}`, take: `${role} takes ${messageText(event)} from ${whom}`,
    }[kind];
}

// The rows of a run that are drawn, from `first` on, with the number of each.
function sequenceWords(run, first) {
    const lines = run.events.slice(first, first + MOST_ROWS).map(event => tag('li', {}, escaped(`${eventWords(event)}.`)));
    return folded('The run in words', tag('ol', { start: first + 1 }, ...lines));
}

// The verdict, in one short sentence.
function verdictWords({ told, fitted, faults, program }) {
    if (!told) return program.length ? `Accepted${fitted ? ', and the roles fit' : ''}.` : 'Nothing is refused.';
    const [{ file, line, kind } = {}] = faults, count = faults.length;
    if (told.status === null) return 'The browser stopped the program.';
    const where = file ? ` in line ${line} of ${file}` : '';
    return `Refused${count > 1 ? ` by ${count} faults, the first` : ''}: ${kind}${where}.`;
}
