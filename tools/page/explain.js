//! What docs/FAULTS.md has of a fault, as HTML. Of Markdown it knows what that page has: paragraphs, lists, tables,
//! blocks, headings, code, links and strong words.
'use strict';

function inline(text) {
    const forms = [
        [/`([^`]*)`/g, '<code>$1</code>'], [/\[([^\]]*)\]\([^)]*\)/g, '$1'], [/\*\*([^*]*)\*\*/g, '<b>$1</b>'],
    ];
    return forms.reduce((html, [form, made]) => html.replace(form, made), escaped(text));
}

function paragraph(text) {
    if (/^#+ /.test(text)) return tag('h3', {}, inline(text.replace(/^#+ /, '')));
    const items = text.split(/^[-*] /m).slice(1).map(it => tag('li', {}, inline(it.trim())));
    if (/^[-*] /.test(text)) return tag('ul', {}, ...items);
    if (!text.startsWith('|')) return tag('p', {}, inline(text));
    const cells = line => line.replace(/^\||\|\s*$/g, '').split('|').map(cell => tag('td', {}, inline(cell.trim())));
    const lines = text.split('\n').filter(line => !/^[|\s:-]*$/.test(line));
    return tag('table', {}, ...lines.map(line => tag('tr', {}, ...cells(line))));
}

// A text as HTML. Blocks of commands are left out, since here the page is the command.
function markdown(text) {
    const parts = text.split(/^(```[^]*?^```[ \t]*$)/m);
    const content = part => escaped(part.replace(/^```.*\n|```\s*$/g, ''));
    const block = part => part.startsWith('```console') ? '' : tag('pre', {}, content(part));
    const paragraphs = part => part.split(/\n\s*\n/).map(it => it.trim()).filter(Boolean).map(paragraph).join('');
    return parts.map(part => part.startsWith('```') ? block(part) : paragraphs(part)).join('');
}

// What is told of a fault in a file: of several parts those that are about files of that kind, or else about sources.
function explanation(section, file) {
    const kinds = [
        [/\.scr$/, 'Protocols'], [/\.protocol$/, 'Typestates'], [/\.java$/, 'Java sources'], [/\.class$/, 'Class files'],
        [/(^|\/)[^.]*$/, 'Files and words'],
    ];
    const [head, ...parts] = `\n${section}`.split(/^(?=### )/m), mine = file && kinds.find(([ending]) => ending.test(file));
    const of = kind => parts.filter(part => part.split('\n')[0] === `### ${kind}`);
    const fitting = mine ? [of(mine[1]), of('Java sources'), []].find(list => list.length) ?? [] : parts;
    return markdown([head, ...fitting].join('\n'));
}
