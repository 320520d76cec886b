//! The text of a file: a plain text area, over the lines of it that are in sight with colours, with their numbers at the
//! left. Of a text only these are drawn, so that a long one takes no longer than a short one.
'use strict';

const KEYWORDS = new Set(`typestate local global protocol module type role self rec choice at or from to continue do as
    class enum public private static final void int boolean String new while if else switch case default break return
    true false null this end drop import package`.split(/\s+/));
const COMMENT = /(\/\/[^\n]*|\/\*[^]*?(?:\*\/|$))/, QUOTE = /("(?:[^"\\\n]|\\.)*"?)/;
const TOKEN = new RegExp(`${COMMENT.source}|${QUOTE.source}|(\\w+)|([&<>])`, 'g');
const COVERING = new RegExp(`${COMMENT.source}|${QUOTE.source}`, 'g');
const LINE_HEIGHT = 19, EDGE = 8; // as in page.css
// A file that has more than the program reads, or more lines than a text area can hold in time, isn't drawn. One with a
// longer line has no colours; and so many lines are drawn above and below those in sight.
const MOST_BYTES = 1048576, MOST_LINES = 20000, LONGEST_LINE = 4000, AROUND = 40;

const element = id => document.getElementById(id);

// ---- lines ----
// How many lines a text has, and whether one of them is too long for colours.
function lineCount(text) {
    let count = 1;
    for (let at = text.indexOf('\n'); at >= 0; at = text.indexOf('\n', at + 1)) count++;
    return count;
}
const hasLongLine = (text, starts) => starts.some((from, at) => (starts[at + 1] ?? text.length) - from > LONGEST_LINE);

// Why a text isn't drawn, or null where it is.
function tooLarge(text) {
    const number = value => value.toLocaleString('en'), lines = lineCount(text);
    if (text.length <= MOST_BYTES && lines <= MOST_LINES) return null;
    return `This file has ${number(lines)} lines and ${number(text.length)} letters, and isn’t shown: `
        + `here files are read and written of at most ${number(MOST_LINES)} lines and ${number(MOST_BYTES)} letters.`;
}

// ---- colours ----
// A text with colours, as HTML.
function coloured(text) {
    return text.replace(TOKEN, (all, comment, quote, word, sign) => {
        if (comment) return tag('span', { class: 'c' }, escaped(comment));
        if (quote) return tag('span', { class: 's' }, escaped(quote));
        if (sign) return escaped(sign);
        return KEYWORDS.has(word) ? tag('span', { class: 'k' }, word) : word;
    });
}

// The comments of a text that go over several lines, as pairs of offsets.
function longComments(text) {
    const found = [];
    for (const { 0: all, index } of text.matchAll(COVERING)) {
        if (all[0] === '/' && all.includes('\n')) found.push([index, index + all.length]);
    }
    return found;
}

// The part of a text between two offsets with colours: what of it is in a comment that began before, and the rest.
function colouredPart({ text, comments }, from, to) {
    const around = comments.find(([begin, end]) => begin < from && from < end);
    const until = around ? Math.min(around[1], to) : from;
    return tag('span', { class: 'c' }, escaped(text.slice(from, until))) + coloured(text.slice(until, to));
}

// The part of a sheet between two offsets with colours, in which words are marked: those at its spans.
function markedPart(sheet, from, to) {
    const parts = [];
    let at = from;
    for (const span of sheet.spans.filter(span => span[0] < to && span[1] >= from)) {
        const [begin, end] = [Math.max(at, span[0]), Math.min(to, span[1])];
        const word = escaped(sheet.text.slice(begin, end)).trim() || ' ';
        parts.push(colouredPart(sheet, at, begin), tag('u', {}, word));
        at = Math.max(begin, end);
    }
    return parts.join('') + colouredPart(sheet, at, to) + '\n';
}

// Spans in their order, of which those are left out that meet an earlier one.
function apart(spans) {
    const kept = [];
    for (const span of [...spans].sort((one, other) => one[0] - other[0])) {
        if (!kept.length || span[0] >= kept[kept.length - 1][1]) kept.push(span);
    }
    return kept;
}

// ---- the sheet ----
// What is shown: the text, where its lines begin, its long comments; the places where faults stand in it, as spans; what
// stands beside its lines, a map from their numbers to texts; and which lines are drawn, from `first` to before `last`.
const sheet = { text: '', starts: [0], comments: [], spans: [], beside: new Map(), first: 0, last: 0 };

// Shows a text, the places where faults stand in it, whose lines are lit and whose words are underlined, and what stands
// beside its lines. Of a text that is too large stands there why.
function showText(text, spans, beside, isReadOnly) {
    const area = element('text'), why = tooLarge(text), kept = why ? '' : text;
    if (area.value !== kept) area.value = kept;
    area.readOnly = isReadOnly || why !== null;
    element('large').textContent = why ?? '';
    element('pen').classList.toggle('large', why !== null);
    if (sheet.text !== kept) {
        const starts = lineStarts(kept), isPlain = hasLongLine(kept, starts);
        element('pen').classList.toggle('plain', isPlain);
        Object.assign(sheet, { text: kept, starts, comments: isPlain ? [] : longComments(kept) });
        element('margin').style.minWidth = `${Math.max(4, String(starts.length).length + 2)}ch`;
    }
    Object.assign(sheet, { spans: why ? [] : apart(spans), beside, last: 0 });
    scrollText();
}

// The lines that are in sight, from the first to before the last.
function linesInSight() {
    const area = element('text'), first = Math.floor(area.scrollTop / LINE_HEIGHT);
    return [first, Math.min(sheet.starts.length, first + Math.ceil(area.clientHeight / LINE_HEIGHT) + 1)];
}

// Draws the lines in sight, and some above and below.
function drawLines(first, last) {
    Object.assign(sheet, { first, last });
    const { starts, text } = sheet, from = starts[first], to = last < starts.length ? starts[last] - 1 : text.length;
    const isPlain = element('pen').classList.contains('plain'), lines = text.slice(from, to).split('\n');
    element('shown').innerHTML = isPlain ? '' : markedPart(sheet, from, to);
    element('numbers').textContent = lines.map((_, at) => first + at + 1).join('\n');
    element('beside').textContent = isPlain ? '' : lines.map((line, at) => {
        const told = sheet.beside.get(first + at + 1);
        return told ? besideLine(line, told) : '';
    }).join('\n');
    const lit = new Set(sheet.spans.map(span => lineAt(starts, span[0])).filter(line => line >= first && line < last));
    element('faulty').replaceChildren(...[...lit].map(line => {
        const light = document.createElement('i');
        light.style.top = `${EDGE + LINE_HEIGHT * line}px`;
        return light;
    }));
}

// Moves what stands behind the text area to where that has been scrolled.
function scrollText() {
    const area = element('text'), [first, last] = linesInSight();
    if (first < sheet.first || last > sheet.last) {
        drawLines(Math.max(0, Math.min(first, last - 1) - AROUND), Math.min(sheet.starts.length, last + AROUND));
    }
    const top = LINE_HEIGHT * sheet.first - area.scrollTop;
    for (const id of ['shown', 'beside']) element(id).style.transform = `translate(${-area.scrollLeft}px, ${top}px)`;
    element('numbers').style.transform = `translateY(${top}px)`;
    element('faulty').style.transform = `translateY(${-area.scrollTop}px)`;
}

// Puts the caret at an offset, and its line into sight.
function goTo(offset) {
    const area = element('text'), line = lineAt(sheet.starts, offset);
    area.focus();
    area.setSelectionRange(offset, offset);
    area.scrollTop = Math.max(0, LINE_HEIGHT * line - area.clientHeight / 2);
    scrollText();
}
