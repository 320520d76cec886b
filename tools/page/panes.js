//! What stands in the panes of the page: the files, the verdict, the typestates and the run.
'use strict';

// A button of a bar, by a name; and how a bar gets its buttons: the one that had the focus, by its place, has it again.
function nameButton(name, isCurrent, more, text = name) {
    return tag('button', { 'data-name': name, ...isCurrent && { 'aria-current': 'true' }, ...more }, escaped(text));
}
function setBar(bar, html) {
    const place = [...bar.children].indexOf(document.activeElement);
    bar.innerHTML = html;
    if (place >= 0) bar.children[Math.min(place, bar.children.length - 1)]?.focus();
}
// Puts HTML into a pane. Where something was unfolded in it, it is again.
function setFolded(pane, html) {
    const isOpen = pane.querySelector('details')?.open ?? false;
    pane.innerHTML = html;
    for (const it of pane.querySelectorAll('details')) it.open = isOpen;
}

// ---- files ----
function showFiles(page) {
    const { given } = page.judged, bad = new Set(faultsNow(page).map(it => it.file));
    const isBad = name => bad.has(name) ? 'bad' : '';
    const own = [...page.files.keys()].map(name => nameButton(name, name === page.at, { class: isBad(name) }));
    const made = [...given].map(([name, { by }]) => {
        return nameButton(name, name === page.at, { class: `made ${isBad(name)}`, title: `made by mungo ${by}` });
    });
    const action = (what, text, title) => tag('button', { 'data-do': what, title, 'aria-label': title }, text);
    setBar(element('tabs'), [
        ...own, action('add', '+', 'add a file'), action('rename', '✎', 'rename the file that is shown'),
        action('remove', '×', 'remove the file that is shown'), ...made,
    ].join(''));
    showFile(page);
}
function showFile(page) {
    const text = page.textOf(page.at), starts = lineStarts(text), seen = page.isJudged() ? page.judged.seen : new Map();
    const spans = faultsNow(page).filter(it => it.file === page.at).map(it => spanOf(text, starts, it));
    showText(text, spans, besideLines(seen.get(page.at) ?? []), !page.files.has(page.at));
}
const faultsNow = page => page.isJudged() ? page.judged.faults : [];

// ---- the verdict ----
function showVerdict(page) {
    element('say').innerHTML = page.judged.told ? refusedText(page) : acceptedText(page.judged);
    sayAloud(verdictWords(page.judged));
}
// Puts a sentence where it is read aloud. One that stands there already isn't said again.
function sayAloud(sentence) {
    if (element('told').textContent !== sentence) element('told').textContent = sentence;
}
function acceptedText({ verdict, fitted, globals, program }) {
    const lines = verdict.out.split('\n').filter(Boolean), rows = lines.slice(0, MOST_LISTED).map(line => line.split(' = '));
    const row = ([what, held = '']) => tag('tr', {}, tag('td', {}, escaped(what)), tag('td', {}, escaped(held)));
    const table = tag('p', {}, 'What variables may hold:') + tag('table', {}, ...rows.map(row));
    const fits = fitted ? ` The roles fit ${globals[0]}: in no run do they get stuck on one another.` : '';
    const verdictText = program.length ? `Accepted.${fits}` : 'Nothing is refused.';
    return tag('div', { class: 'yes' }, escaped(verdictText)) + (rows.length ? table + notListed(lines.length) : '');
}
// The lines that refuse, each a button that leads to its place, and what is to be said of the one that is chosen.
function refusedText({ judged, fault: chosen }) {
    const { verdict, told, faults, globals } = judged;
    const lines = told.err.split('\n').filter(Boolean), fault = faults[chosen];
    const lineButton = (text, at) => tag('button', {
        class: 'no', 'data-fault': at, title: 'goes to the place', ...at === chosen && { id: 'fault' },
        ...at === chosen && lines.length > 1 && { 'aria-current': 'true' },
    }, escaped(text));
    const list = (lines.length ? lines : [statusText(told.status)]).slice(0, MOST_LISTED).map(lineButton).join('');
    const more = notListed(lines.length);
    const alone = `The program is accepted by \`check\`; \`fit\` refuses it with ${globals[0]}.`;
    const which = verdict.status === 0 ? tag('p', {}, inline(alone)) : '', section = sections[fault?.kind];
    return list + more + which + offersText(stateOf(fault, judged)) + ledText(fault, judged)
        + (section ? explanation(section, fault.file) : '');
}
// The calls on its variable before a fault that lead to the state that it tells.
function ledText(fault, { seen }) {
    const [variable, state] = (fault?.about ?? '').split(' '), isBefore = call => call.line < fault.line
        || call.line === fault.line && call.column < fault.column;
    const calls = state ? (seen.get(fault.file) ?? []).filter(call => call.variable === variable) : [];
    const led = calls.filter(call => isBefore(call) && call.after.includes(state));
    const told = call => `\`${variable}.${call.method}\` in line ${call.line}`;
    return led.length ? tag('p', {}, inline(`There led ${led.map(told).join(', ')}.`)) : '';
}
// What the state offers that a fault tells.
function offersText(found) {
    const code = text => tag('code', {}, escaped(text));
    if (!found) return '';
    const offers = found.offers.map(code).join(', ') || 'nothing';
    return tag('p', {}, `${code(found.state)} of ${code(found.typestate.name)} offers ${offers}.`);
}

// ---- typestates ----
function showTypestates(page) {
    const { typestates, isTranslated } = page.judged, drawn = element('drawn');
    // While a protocol is being changed, and is refused, the diagrams of before stay, and are pale.
    const isStale = !page.isJudged() || !isTranslated && !typestates.size && page.typestates.size > 0;
    if (!isStale) page.typestates = typestates;
    const names = [...page.typestates.keys()];
    if (!names.includes(page.shown)) page.shown = names[0] ?? '';
    setBar(element('states'), names.map(name => nameButton(name, name === page.shown)).join(''));
    drawn.classList.toggle('stale', isStale);
    const none = page.isJudged() ? hint('No typestate here.') : '';
    const html = names.length ? typestateHtml(page, page.typestates.get(page.shown)) : none;
    if (page.drawn !== html) setFolded(drawn, html);
    page.drawn = html;
    lightStates(page);
}
// A typestate as a diagram; of one with many states what stands around the place of its object, or around the first.
function typestateHtml(page, typestate) {
    const drawing = it => diagram(it) + diagramWords(it);
    if (isDrawable(typestate)) return drawing(typestate);
    const here = objectsOf(page, typestate.name)[0]?.step.state ?? typestate.states[0];
    const around = surroundings(typestate, here, 2);
    const line = hint(`${typestate.states.length} states. These are at most two calls away from ${here}:`);
    return line + (isDrawable(around) ? drawing(around) : hint('They, and their calls, are too many to be drawn.'));
}
const isDrawable = ({ states, calls }) => states.length <= MOST_STATES
    && calls.reduce((sum, call) => sum + call.ends.length, 0) <= MOST_ENDS;
// The objects of a typestate, each with where it stands at the step that is shown; the one that moved last comes first.
function objectsOf(page, name) {
    const mine = [...page.objects.values()].filter(object => object.typestate.name === name);
    const placed = mine.map(object => ({ object, step: standing(object, page.step) })).filter(it => it.step);
    return placed.sort((one, other) => other.step.at - one.step.at);
}
// Lights the states in which objects stand, and the calls by which the last one moved; or the state that a fault tells.
function lightStates(page) {
    const svg = element('drawn').querySelector('svg'), found = stateOf(page.judged.faults[page.fault], page.judged);
    if (!svg) return;
    if (page.call?.typestate.name === page.shown) return lightCall(svg, page.call);
    const objects = objectsOf(page, page.shown), states = new Set(objects.map(it => it.step.state));
    if (found?.typestate.name === page.shown) states.add(found.state);
    light(svg, states, objects[0]?.step.keys ?? []);
    intoSight(element('drawn'), svg.querySelector('.state.on'));
}
// Lights the states in which an object may be at a call that `show` tells, and the call in each of them.
function lightCall(svg, { before, method }) {
    light(svg, new Set(before), before.map(state => stateKey(state, method)));
    intoSight(element('drawn'), svg.querySelector('.state.on'));
}
// Scrolls a pane so that something in it is seen, and leaves the page where it is.
function intoSight(pane, it) {
    if (!it) return;
    const room = pane.getBoundingClientRect(), box = it.getBoundingClientRect(), NEAR = 30;
    if (box.top < room.top + NEAR) pane.scrollTop -= room.top + NEAR - box.top;
    else if (box.bottom > room.bottom - NEAR) pane.scrollTop += box.bottom - room.bottom + NEAR;
    if (box.width > room.width) return;
    if (box.left < room.left + NEAR) pane.scrollLeft -= room.left + NEAR - box.left;
    else if (box.right > room.right - NEAR) pane.scrollLeft += box.right - room.right + NEAR;
}

// ---- the run ----
// Runs the program, where it is accepted.
async function runProgram(page) {
    const { verdict, program, sources, typestates, classes } = page.judged;
    page.auto = runWords(sources);
    const words = (page.words ?? page.auto).split(/\s+/).filter(Boolean), isAccepted = verdict.status === 0;
    page.ran = isAccepted && words.length ? await ask(['run', '--trace', ...words, ...program], sources) : null;
    page.run = page.ran && readRun(readTrace(page.ran.err));
    page.objects = page.run ? follow(page.run.events, typestates, classes) : new Map();
    page.step = Math.min(page.step, page.run?.events.length ?? 0);
}
function runBody(page) {
    if (document.activeElement !== element('words')) element('words').value = page.words ?? page.auto;
    element('slide').max = page.run?.events.length ?? 0;
    page.window = null;
    const isAccepted = page.judged.verdict.status === 0;
    if (!page.ran) return hint(isAccepted ? 'No class here has a `main`.' : 'A program that is refused isn’t run.');
    const ends = endings(page.ran.err).join('\n') || page.ran.err;
    const said = [page.ran.out.trimEnd(), ends].filter(Boolean).map(beginning).join('\n');
    const cut = page.run.events.length < MOST_EVENTS ? '' : hint(`Of the run the first ${MOST_EVENTS} events are shown.`);
    return cut + tag('div', { class: 'columns' }, tag('div', { id: 'lines' }), tag('pre', { class: 'plain' }, escaped(said)));
}
// Shows the run up to a step: the sequence, and where objects stand. Where `follows` is set the typestate is drawn
// whose object moved.
function showStep(page, step, follows) {
    const count = page.run?.events.length ?? 0;
    page.step = Math.max(0, Math.min(step, count));
    const event = page.run?.events[page.step - 1], moved = event && page.objects.get(`${event.role} ${event.whom}`);
    if (page.view === 'run') {
        element('slide').value = page.step;
        element('step').textContent = count ? `${page.step} of ${count}${event ? `: ${event.line}` : ''}` : '';
        showSequence(page);
    }
    if (follows && moved && moved.typestate.name !== page.shown) {
        page.shown = moved.typestate.name;
        showTypestates(page);
    } else if (page.typestates.has(page.shown) && !isDrawable(page.typestates.get(page.shown))) showTypestates(page);
    else lightStates(page);
}
// Of a long run only the rows around the step are drawn: `page.window` is the first of them.
function showSequence(page) {
    const lines = element('lines'), count = page.run?.events.length;
    if (!lines || !count) return;
    const isInside = page.window !== null && page.step >= page.window && page.step <= page.window + MOST_ROWS;
    if (!isInside) {
        page.window = Math.max(0, Math.min(count - MOST_ROWS, page.step - MOST_ROWS / 2));
        setFolded(lines, sequence(page.run, page.window) + sequenceWords(page.run, page.window));
    }
    markStep(lines, page.step);
    if (page.step) intoSight(element('view'), lines.querySelector('.row.now')); else element('view').scrollTop = 0;
}
