//! What the program says of a set of files: the verdict, and what it makes of them. It is asked after each change, and
//! runs in the Worker.
'use strict';

const FAULT = /^(.+):(\d+):(\d+): ([A-Z][A-Za-z]+)(?: ([^:\n]*))?$/, BARE = /^mungo: (\w+) ?(.*)$/;

const isSource = name => /\.(scr|protocol|java)$/.test(name);
const isGlobal = (name, text) => name.endsWith('.scr') && /\bglobal\s+protocol\b/.test(withoutComments(text));
// A text with blanks in place of comments, so that places stay.
function withoutComments(text) {
    return text.replace(/\/\*[^]*?(?:\*\/|$)|\/\/[^\n]*/g, comment => comment.replace(/[^\n]/g, ' '));
}

// Judges files, a map from names to texts. The answer:
//   verdict     what the first command gave that refuses them, or `check --all`
//   fitted      what `fit` gave of an accepted program and its one global protocol; null where there is nothing to fit
//   told        what refuses: the verdict, or else what `fit` gave; null where nothing does
//   faults      of a refusal its lines, as { file, line, column, kind, about }; file is null where one has no place
//   globals     the names of the files with global protocols
//   sources     the files that are one program, a map in order; those are among them that `project` made
//   program     their names
//   given       the files that were made: a map from their names to { text, by }, where `by` is the command
//   isTranslated            whether the local protocols were
//   typestates, classes     a map of typestates by their names, and one from classes to the names of their typestates
function judge(files) {
    const given = new Map(), sources = new Map(), globals = [...files.keys()].filter(it => isGlobal(it, files.get(it)));
    const give = ({ written }, by) => {
        for (const [name, bytes] of written) if (!files.has(name)) given.set(name, { text: toText(bytes), by });
    };
    let verdict = null;
    for (const name of globals) {
        const projected = answer(['project', name], files);
        if (projected.status !== 0) verdict ??= projected;
        give(projected, 'project');
    }
    for (const [name, text] of files) if (isSource(name) && !globals.includes(name)) sources.set(name, text);
    for (const [name, made] of given) sources.set(name, made.text);
    const program = [...sources.keys()], locals = program.filter(name => name.endsWith('.scr'));
    const translated = locals.length ? answer(['translate', ...locals], sources) : null;
    if (translated) give(translated, 'translate');
    if (program.length) verdict ??= answer(['check', '--all', ...program], sources);
    verdict ??= { status: 0, out: '', err: '', written: new Map() };
    const words = verdict.status === 0 && globals.length === 1 ? fitWords(globals[0], sources) : [];
    const fitted = words.length ? answer(words, new Map([...sources, ...files])) : null;
    const told = [verdict, fitted].find(it => it && it.status !== 0) ?? null, faults = told ? faultsOf(told.err) : [];
    const isTranslated = !translated || translated.status === 0;
    const made = { globals, sources, program, given, isTranslated };
    return { verdict, fitted, told, faults, ...made, ...meaningOf(sources, given) };
}

// The words that ask whether the roles of a program fit a global protocol; none where no class plays a role.
function fitWords(global, sources) {
    const roles = runWords(sources).split(' ');
    return roles[0] === '--role' ? ['fit', ...roles, global, ...sources.keys()] : [];
}

// The typestates and the classes in sources, and in files that were made of them.
function meaningOf(sources, given) {
    const texts = new Map([...sources, ...[...given].map(([name, made]) => [name, made.text])]);
    const ending = kind => [...texts].filter(([name]) => name.endsWith(kind)).map(([, text]) => text);
    const typestates = ending('.protocol').map(readTypestate).filter(Boolean);
    return {
        typestates: new Map(typestates.map(it => [it.name, it])),
        classes: classTypestates(ending('.java').map(withoutComments)),
    };
}

// The parts of the lines that refuse.
function faultsOf(err) {
    return err.split('\n').filter(Boolean).map(faultOf);
}
function faultOf(line) {
    const placed = FAULT.exec(line), bare = BARE.exec(line);
    if (!placed) return { file: null, line: 0, column: 0, kind: bare?.[1] ?? '', about: bare?.[2] ?? '' };
    const [, file, row, column, kind, about = ''] = placed;
    return { file, line: Number(row), column: Number(column), kind, about };
}

// The words of the run of a program, by its classes with a main: those that make the object of a role play that role.
// Of several for a role, and of several where none has a role, the last is taken.
function runWords(sources) {
    const texts = [...sources].filter(([name]) => name.endsWith('.java')).map(([, text]) => withoutComments(text));
    const mains = texts.flatMap(mainsOf), roles = new Map(mains.filter(it => it.role).map(it => [it.role, it.class]));
    if (roles.size) return [...roles].sort().map(([role, name]) => `--role ${role}=${name}`).join(' ');
    return mains.length ? `--main ${mains[mains.length - 1].class}` : '';
}
function mainsOf(text) {
    const parts = text.split(/\bclass\s+(?=\w)/).slice(1);
    const withMain = parts.filter(part => /\bstatic\s+void\s+main\s*\(\s*String\b/.test(part));
    const role = part => /\bnew\s+(\w+)Role\s*\(/.exec(part)?.[1] ?? null;
    return withMain.map(part => ({ class: /^\w+/.exec(part)[0], role: role(part) }));
}
