//! The views below the diagram: what commands say of the files that are open. A view has controls, which stay as long
//! as it is shown, and a body, which is made anew after each judgement, of what page.js knows.
'use strict';

const ENDS = [
    'done', 'refused', 'the words are no command', 'a file couldn’t be read', 'a file couldn’t be written',
    'memory ran out', 'zero divisor', 'mismatch', 'waits', 'bound', 'broken',
];
const statusText = status => status === null ? 'stopped' : `status ${status}: ${ENDS[status] ?? ''}`;
const hint = text => tag('p', { class: 'hint' }, inline(text));

// What is long is shown in part: of a list so many rows, and of a text so many letters, with how many there are.
const MOST_LISTED = 500, MOST_LETTERS = 100000;
const notListed = count => count > MOST_LISTED ? hint(`and ${count - MOST_LISTED} more`) : '';
const beginning = text => text.length <= MOST_LETTERS ? text
    : `${text.slice(0, MOST_LETTERS)}\n.. and ${text.length - MOST_LETTERS} letters more`;
const block = text => text ? tag('pre', {}, escaped(beginning(text))) : '';
const joinedTexts = (...maps) => new Map(maps.flatMap(map => [...map]));

// What a command gave, and the files that it wrote.
function given({ status, out, err }) {
    return tag('p', { class: status === 0 ? 'yes' : 'no' }, escaped(statusText(status))) + block(out) + block(err);
}
function writtenFiles(files) {
    const size = bytes => tag('p', {}, `${bytes.length} bytes`);
    const content = (name, bytes) => name.endsWith('.class') ? size(bytes) : block(toText(bytes));
    const shown = [...files].slice(0, MOST_LISTED).map(([name, bytes]) => tag('h3', {}, escaped(name)) + content(name, bytes));
    return shown.join('') + notListed(files.size);
}

// A list of names to choose from, behind a text; and how it is filled: what was chosen stays, if it is still there.
const list = (text, id) => tag('label', {}, `${text} `, tag('select', { id }));
function fill(id, names, first) {
    const it = element(id), chosen = [it.value, first, names[0]].find(name => names.includes(name));
    it.innerHTML = names.map(name => tag('option', name === chosen ? { selected: '' } : {}, escaped(name))).join('');
    return chosen;
}
// A line for words, behind a text; and a button.
const field = (text, id, more) => tag('label', { for: id }, text)
    + tag('input', { class: 'words', id, spellcheck: 'false', autocomplete: 'off', ...more }).replace('</input>', '');
const button = (id, text, title) => tag('button', { id, title, 'aria-label': title }, text);

const views = {
    run: {
        title: 'Run',
        controls: field('mungo run --trace', 'words')
            + button('begin', '|◀', 'to the beginning') + button('back', '◀', 'a step back')
            + button('next', '▶', 'a step on') + button('finish', '▶|', 'to the end')
            + '<input type="range" id="slide" min="0" value="0" aria-label="the step of the run">'
            + '<span id="step"></span>',
        async body(page) {
            if (page.ran === undefined) await runProgram(page);
            return runBody(page);
        },
    },
    show: {
        title: 'Show',
        controls: '<span>mungo show</span>',
        body({ judged: { shown, seen } }) {
            if (!shown) return hint('There is no program here.');
            if (shown.status !== 0) return given(shown);
            const text = 'What each object may be where a method is called on it, in whatever way the call is come to.';
            return hint(text) + (seen.size ? seenTable(seen) : hint('No method of a typestate is called here.'));
        },
    },
    client: {
        title: 'Client',
        controls: list('mungo client', 'played'),
        async body({ at, judged: { program, sources } }) {
            const chosen = fill('played', program.filter(name => name.endsWith('.scr')), at);
            if (!chosen) return hint('No file here has a local protocol. The example `adder` has two.');
            const made = await ask(['client', chosen], sources);
            if (made.status !== 0) return given(made);
            const text = 'A class that plays all of the protocol, to begin with: its own choices are made in turn.';
            return hint(text) + writtenFiles(made.written);
        },
    },
    project: {
        title: 'Project',
        controls: list('mungo project', 'global'),
        async body(page) {
            const chosen = fill('global', page.judged.globals);
            if (!chosen) return hint('No file here has a global protocol. The example `global_adder` has one.');
            const projected = await ask(['project', chosen], page.files);
            if (projected.status !== 0) return given(projected);
            const text = 'What each role does. A role that has no file here plays by this one.';
            return hint(text) + writtenFiles(projected.written);
        },
    },
    fit: {
        title: 'Fit',
        controls: list('mungo fit', 'whole'),
        async body(page) {
            const { globals, sources, verdict } = page.judged, chosen = fill('whole', globals);
            if (!chosen) return hint('No file here has a global protocol. The example `global_adder` has one.');
            const words = verdict.status === 0 ? fitWords(chosen, sources) : [];
            if (!words.length) return hint('Asks for an accepted program, with a class that plays each role.');
            const text = 'Whether the roles can get stuck on one another, in any run: not, where they fit.';
            const said = await ask(words, joinedTexts(sources, page.files));
            return hint(text) + block(`mungo ${words.join(' ')}`) + given(said);
        },
    },
    conform: {
        title: 'Conform',
        controls: list('mungo conform', 'protocol') + list('with the calls of', 'calls'),
        async body(page) {
            const protocol = fill('protocol', page.judged.program.filter(name => name.endsWith('.scr')));
            const calls = fill('calls', [...page.files.keys()].filter(name => !isSource(name)));
            const texts = joinedTexts(page.judged.sources, page.files);
            if (protocol && calls) return given(await ask(['conform', protocol, calls], texts));
            return hint('Asks for a local protocol, and for a file with a call in each line, whose name has no ending '
                + 'of a source. The example `adder` has both.');
        },
    },
    refine: {
        title: 'Refine',
        controls: list('mungo refine', 'one') + list('for', 'other'),
        async body(page) {
            const texts = page.texts(), names = [...texts.keys()].filter(name => name.endsWith('.protocol')).sort();
            const one = fill('one', names, names[names.length - 1]), other = fill('other', names);
            if (one) return given(await ask(['refine', one, other], texts));
            return hint('Tells whether an object of one typestate can stand for one of another. The example `logging` '
                + 'has three.');
        },
    },
    classes: {
        title: 'Class files',
        controls: '<span>mungo compile, and mungo verify of what it writes</span>',
        async body({ judged: { program, sources } }) {
            const compiled = program.length ? await ask(['compile', ...program], sources) : null;
            if (!compiled || compiled.status !== 0) return compiled ? given(compiled) : '';
            const cell = text => tag('td', {}, escaped(text)), { written } = compiled;
            const row = ([name, bytes]) => tag('tr', {}, cell(name), cell(`${bytes.length} bytes`));
            const verified = written.size ? given(await ask(['verify', ...written.keys()], written)) : '';
            return tag('table', {}, ...[...written].map(row)) + verified;
        },
    },
    command: {
        title: 'Command',
        controls: field('mungo', 'command', { placeholder: 'check *' }) + button('go', 'Go', 'runs the command'),
        async body(page) {
            const { program, sources, verdict } = page.judged, texts = page.texts();
            const written = element('command').value.split(/\s+/).filter(Boolean);
            const words = written.flatMap(word => word === '*' ? program : [word]);
            if (!words.length) {
                return hint('Any command, over the files that are open, those that are made of them, and their class '
                    + 'files, as `verify CMain.class`. `*` stands for the files of the program.');
            }
            const compiles = verdict.status === 0 && words.some(word => word.endsWith('.class'));
            const classes = compiles ? (await ask(['compile', ...program], sources)).written : new Map();
            const said = await ask(words, joinedTexts(texts, classes));
            return given(said) + writtenFiles(said.written);
        },
    },
};
