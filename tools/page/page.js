//! The page: which files are open, when they are judged, and what the user does.
'use strict';

const examples = JSON.parse(element('examples').textContent), sections = JSON.parse(element('faults').textContent);

// What is known of files that aren't judged.
const UNJUDGED = {
    verdict: { status: 0, out: '', err: '', written: new Map() }, fitted: null, told: null, faults: [], globals: [],
    sources: new Map(), program: [], given: new Map(), isTranslated: true, typestates: new Map(), classes: new Map(),
    shown: null, seen: new Map(),           // what `show` gave, and the calls that it tells, as seen.js reads them
};

const page = {
    files: new Map(), at: '',               // the files, a map from names to texts, and the one that is shown
    pick: null, isWritten: false, link: '', // the example that was opened, or null; whether it was changed; its link
    judged: null, took: 0, count: 0,        // what judge.js says of them, in how many milliseconds, for the which time
    change: 0, judgedChange: 0,             // how often the files have changed, and behind which change they were judged
    fault: 0, call: null,                   // which of the faults is chosen, and the call of `show` that is, or null
    words: null, auto: '',                  // the words of the run that were written, or null, and those found
    ran: undefined, run: null,              // what `run` gave, null where nothing runs, and what sequence.js reads in it
    objects: new Map(), step: 0, window: null,      // the run's objects, the step that is shown, and the first row
    typestates: new Map(), shown: '', drawn: '',    // the typestates, the one that is drawn, and its HTML
    view: 'run', viewed: 0,                 // the view, and how often one was asked for
    isJudged() { return this.change === this.judgedChange; },
    textOf(name) { return this.files.get(name) ?? this.judged.given.get(name)?.text ?? ''; },
    texts() { return joinedTexts([...this.judged.given].map(([name, made]) => [name, made.text]), this.files); },
};

// ---- judging ----
// The files have changed. What is under way ends, since it is about what isn't there any more, and what was said of the
// files before isn't shown: it is hidden at once, or where the last judgement was quick when this one takes longer.
// Typed text is judged when nothing has been typed for PAUSE milliseconds.
const QUICK = 40, PAUSE = 60, REST = 150;
let pause = 0, later = 0;
function filesChanged(isTyping = false) {
    page.change++;
    work.end();
    clearTimeout(pause);
    clearTimeout(later);
    later = 0;
    document.body.dataset.waits = isTyping && page.took < QUICK ? 'briefly' : 'long';
    for (const id of ['drawn', 'view']) element(id).classList.add('stale');
    element('time').textContent = 'judging';
    pause = setTimeout(judgeNow, isTyping ? PAUSE : 0, isTyping);
    showBusy();
    if (!keep(page)) notice('This browser has no room to keep what is written: a reload would lose it.');
}
// Judges the files, and shows the verdict, then the states beside the text, where the last judgement was quick both at
// once; and what takes longer when the user pauses.
async function judgeNow(isTyping) {
    const began = performance.now(), isQuick = page.took < QUICK;
    pause = 0;
    const judged = { ...UNJUDGED, ...await askJudge(page.files) };
    if (isQuick) await addCalls(judged);
    takeVerdict(judged);
    page.took = performance.now() - began;
    element('time').textContent = `${page.took.toFixed(0)} ms`;
    if (!isQuick && await addCalls(judged)) {
        showFile(page);
        if (judged.told) showVerdict(page);
    }
    later = setTimeout(showRest, isTyping ? REST : 0);
}
// Adds to what was judged the calls that `show` tells. Whether there is a program that may have some.
async function addCalls(judged) {
    const { program, sources } = judged;
    if (!program.length) return false;
    judged.shown = await ask(['show', ...program], sources);
    judged.seen = readSeen(judged.shown.out);
    return true;
}
function takeVerdict(judged) {
    Object.assign(page, { judged, fault: 0, call: null, judgedChange: page.change, count: page.count + 1 });
    if (!page.files.has(page.at) && !judged.given.has(page.at)) page.at = [...page.files.keys()][0] ?? '';
    forgetRun();
    showFiles(page);
    showVerdict(page);
    delete document.body.dataset.waits;
}
// The run isn't known any more. Where it was shown to its end, the next one is.
function forgetRun() {
    const isAtEnd = !page.run || page.step === page.run.events.length;
    Object.assign(page, { ran: undefined, run: null, objects: new Map(), step: isAtEnd ? Infinity : page.step });
}
// Shows the typestates, the run and the view.
async function showRest() {
    later = 0;
    element('view').classList.add('stale');
    page.shown = stateOf(page.judged.faults[page.fault], page.judged)?.typestate.name ?? page.shown;
    showTypestates(page);
    await runProgram(page);
    await showView();
}
function goToStep(step) {
    if (!page.run) return;
    page.call = null;
    showStep(page, step, true);
}
// Shows the view that was asked for last. Where the files aren't judged it comes when they are.
async function showView() {
    const view = views[page.view], controls = element('controls'), turn = ++page.viewed;
    const tabs = Object.entries(views).map(([name, { title }]) => nameButton(name, name === page.view, {}, title));
    setBar(element('views'), tabs.join(''));
    if (controls.dataset.view !== page.view) controls.innerHTML = view.controls;
    controls.dataset.view = page.view;
    if (!page.isJudged()) return;
    element('view').classList.add('stale');
    const html = await view.body(page);
    if (turn !== page.viewed) return;
    element('view').innerHTML = html;
    element('view').classList.remove('stale');
    showStep(page, page.step, false);
}
// Ends what is under way, and says so.
function stop(why = 'Stopped.') {
    const button = tag('button', { class: 'again' }, 'Again'), stopped = hint(why) + tag('p', {}, button);
    work.end();
    clearTimeout(pause);
    clearTimeout(later);
    pause = later = 0;
    if (!page.isJudged()) {
        page.judged = UNJUDGED;
        showFiles(page);
        element('say').innerHTML = stopped;
        element('time').textContent = '';
        delete document.body.dataset.waits;
    }
    page.viewed++;
    element('view').innerHTML = stopped;
    element('view').classList.remove('stale');
    sayAloud(why);
    showBusy();
}
// A change of the text.
function typed() {
    if (!page.files.has(page.at)) return;
    page.files.set(page.at, element('text').value);
    page.isWritten = true;
    const isQuick = page.took < QUICK;
    showText(element('text').value, isQuick ? sheet.spans : [], isQuick ? sheet.beside : new Map(), false);
    filesChanged(true);
}
// A text that would grow over what is shown stays as it is.
function refuseLarge(event) {
    const why = tooLarge(element('text').value + (event.data ?? ''));
    if (!why || !event.data) return;
    event.preventDefault();
    notice('That would be more than is read and written here.');
}

// ---- programs ----
// Opens a program { files, at, words }, of an example by its number, or of none.
function openProgram({ files, at, words = null }, about = '', pick = null) {
    Object.assign(page, { files: new Map(files), at, words, pick, isWritten: false, judged: UNJUDGED, took: Infinity });
    Object.assign(page, { shown: '', ran: undefined, run: null, objects: new Map(), typestates: new Map() });
    element('about').textContent = element('about').title = about;
    if (pick === null) element('pick').selectedIndex = -1; else element('pick').value = String(pick);
    for (const id of ['say', 'view']) element(id).innerHTML = '';
    notice('');
    filesChanged();
    showFiles(page);
    showTypestates(page);
    element('text').scrollTop = element('text').scrollLeft = 0;
    scrollText();
}
function openExample(number) {
    const { of, about, files, at, without = [] } = examples[number];
    const isKept = ([name]) => !without.includes(name);
    openProgram({ files: Object.entries({ ...examples[of]?.files, ...files }).filter(isKept), at }, about, number);
}
async function pickExample(number) {
    if (await mayReplace(page)) openExample(number);
    else if (page.pick === null) element('pick').selectedIndex = -1;
    else element('pick').value = String(page.pick);
}
async function makeLink() {
    const link = await linkOf(page);
    if (!link) return notice(`The program has more than ${MOST_UNPACKED >> 20} MiB: a link to it would not be opened.`);
    history.replaceState(null, '', link);
    page.link = location.hash;
    keep(page);
    const isCopied = await navigator.clipboard?.writeText(location.href).then(() => true, () => false);
    element('link').textContent = isCopied ? 'Copied' : 'In the address';
    setTimeout(() => { element('link').textContent = 'Link'; }, 2000);
}
// Opens the program of the link in the address, where there is one. Whether it did; where it doesn't, it says why.
async function openLink() {
    if (!IS_LINK.test(location.hash)) return false;
    const linked = await programOf(location.hash);
    if (linked.why) notice(linked.why);
    else if (await mayReplace(page)) {
        page.link = location.hash;
        openProgram(linked, 'from a link');
    } else history.replaceState(null, '', page.link || location.href.replace(/#.*/, ''));
    return !linked.why;
}
// Opens the program that was open before a reload, and then a link that came with it; or a link; or the first example.
async function openFirst() {
    const kept = keptProgram(), hasLink = IS_LINK.test(location.hash);
    page.link = kept?.link ?? '';
    const isOther = hasLink && kept?.link !== location.hash;
    if (kept && (kept.isWritten || !isOther)) {
        openProgram(kept, kept.pick === null ? '' : examples[kept.pick].about, kept.pick);
        Object.assign(page, { isWritten: kept.isWritten, view: kept.view });
        keep(page);
        if (!isOther) return;
    }
    if (!await openLink() && !page.files.size) {
        const { textContent } = element('noted');
        openExample(0);
        notice(textContent);
    }
}
// Shows a sentence above the page, or none.
function notice(text) {
    element('noted').textContent = text;
    element('notice').hidden = !text;
}

// ---- files ----
function openFile(name) {
    page.at = name;
    showFiles(page);
    element('text').scrollTop = 0;
    scrollText();
}
// Goes to a place { file, line, column }.
function goToPlace(place) {
    if (!place?.file || !page.textOf(place.file)) return;
    openFile(place.file);
    const text = page.textOf(place.file);
    goTo(spanOf(text, lineStarts(text), place)[0]);
}
function chooseFault(number) {
    const fault = page.judged.faults[number];
    Object.assign(page, { fault: number, call: null });
    showVerdict(page);
    page.shown = stateOf(fault, page.judged)?.typestate.name ?? page.shown;
    showTypestates(page);
    goToPlace(fault);
}
// Goes to a call that `show` tells, by its number, and lights its states.
function chooseCall(number) {
    const call = [...page.judged.seen.values()].flat()[number];
    const typestate = typestateOf(call.variable, call, page.judged);
    page.call = typestate && { ...call, typestate };
    page.shown = typestate?.name ?? page.shown;
    showTypestates(page);
    goToPlace(call);
}
function toggleBeside() {
    const isShown = element('beside').hidden;
    element('beside').hidden = !isShown;
    element('states-beside').setAttribute('aria-pressed', isShown);
}
// Asks for a name, to add a file, or to rename the one that is shown.
function askName(what) {
    element('naming').hidden = false;
    element('naming').dataset.what = what;
    element('named').textContent = what === 'add' ? 'Add' : 'Rename';
    element('name').value = what === 'add' ? '' : page.at;
    element('name').focus();
}
function takeName() {
    const name = element('name').value.trim(), isNew = element('naming').dataset.what === 'add';
    endNaming();
    if (!name || name.startsWith('-') || page.files.has(name)) return;
    const renamed = [...page.files].map(([old, text]) => [old === page.at ? name : old, text]);
    page.files = new Map(isNew ? [...page.files, [name, '']] : renamed);
    writtenAt(name);
}
// Files were written anew, of which one is shown.
function writtenAt(name) {
    Object.assign(page, { at: name, isWritten: true });
    filesChanged();
    showFiles(page);
}
function endNaming() {
    element('naming').hidden = true;
    element('text').focus();
}
function removeFile() {
    if (page.files.size < 2 || !page.files.delete(page.at)) return;
    writtenAt([...page.files.keys()][0]);
}

// ---- what the user does ----
const on = (id, kind, then) => element(id).addEventListener(kind, then);
const pressed = (id, then) => on(id, 'click', event => {
    const it = event.target.closest('button');
    if (it) then(it);
});
function listen() {
    listenToHead();
    listenToFiles();
    listenToPanes();
    window.addEventListener('hashchange', openLink);
    window.addEventListener('resize', scrollText);
    window.addEventListener('pagehide', () => keep(page));
}
function listenToHead() {
    on('pick', 'change', ({ target }) => pickExample(Number(target.value)));
    on('link', 'click', makeLink);
    on('states-beside', 'click', toggleBeside);
    on('stop', 'click', () => stop());
    on('unnoted', 'click', () => notice(''));
    for (const id of ['replace', 'leave']) on(id, 'click', () => element('question').close(id));
}
function listenToFiles() {
    pressed('tabs', ({ dataset }) => {
        if (dataset.name) openFile(dataset.name);
        else if (dataset.do === 'remove') removeFile();
        else askName(dataset.do);
    });
    on('named', 'click', takeName);
    on('unnamed', 'click', endNaming);
    on('naming', 'keydown', event => {
        if (event.key === 'Escape') endNaming();
        if (event.key !== 'Enter' || event.target.id !== 'name') return;
        event.preventDefault();
        takeName();
    });
    on('text', 'scroll', scrollText);
    on('text', 'beforeinput', refuseLarge);
    on('text', 'input', typed);
    pressed('say', it => { if (it.dataset.fault && page.isJudged()) chooseFault(Number(it.dataset.fault)); });
    pressed('say', againWhenPressed);
}
function listenToPanes() {
    const steps = { begin: () => 0, back: () => page.step - 1, next: () => page.step + 1, finish: () => Infinity };
    pressed('states', it => { page.shown = it.dataset.name; showTypestates(page); });
    pressed('views', it => { page.view = it.dataset.name; showView(); });
    pressed('controls', it => { if (it.id === 'go') showView(); else goToStep(steps[it.id]()); });
    on('controls', 'input', ({ target }) => { if (target.id === 'slide') goToStep(Number(target.value)); });
    on('controls', 'change', ({ target }) => {
        if (target.id === 'words') wordsChanged(target.value.trim() || null);
        if (target.tagName === 'SELECT') showView();
    });
    on('controls', 'keydown', ({ key, target }) => { if (key === 'Enter' && target.id === 'command') showView(); });
    pressed('view', againWhenPressed);
    on('view', 'click', event => {
        const row = event.target.closest('.row'), call = event.target.closest('[data-call]');
        if (row) goToStep(Number(row.dataset.at));
        if (call && page.isJudged()) chooseCall(Number(call.dataset.call));
    });
}
const againWhenPressed = it => { if (it.classList.contains('again')) filesChanged(); };
// The words of the run are others: what runs by the earlier ones ends.
function wordsChanged(words) {
    Object.assign(page, { words, isWritten: true });
    keep(page);
    if (!page.isJudged()) return;
    work.end();
    forgetRun();
    showRest();
}

async function start() {
    try {
        await loadProgram(element('module').textContent);
        work.failed = why => stop(`The browser ended the program: ${why}`);
        work.begin();
    } catch (fault) {
        element('say').textContent = `This page needs WebAssembly, DecompressionStream and Worker: ${fault.message}`;
        document.body.dataset.ready = 'no';
        return;
    }
    const option = ({ name }, value) => tag('option', { value }, escaped(name));
    const options = examples.map((it, at) => ({ isRefused: it.of !== undefined, html: option(it, at) }));
    const group = (label, list) => tag('optgroup', { label }, ...list.map(it => it.html));
    element('pick').innerHTML = group('Examples', options.filter(it => !it.isRefused))
        + group('Refused', options.filter(it => it.isRefused));
    listen();
    await openFirst();
    document.body.dataset.ready = 'yes';
}
start();
