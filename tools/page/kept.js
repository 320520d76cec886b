//! What outlives a reload of the page: the program that is open, in the storage of the tab, which ends with it; and the
//! question before what was written is replaced.
'use strict';

const KEPT = 'mungo';

// Keeps the program that is open, with the link or the example that it was opened of. Whether there was room for it.
function keep({ files, at, words, view, pick, isWritten, link }) {
    const value = { files: Object.fromEntries(files), at, words, view, pick, isWritten, link };
    try {
        sessionStorage.setItem(KEPT, JSON.stringify(value));
        return true;
    } catch {
        return false;
    }
}

// The program that was kept, with what keep.js put beside it; or null where there is none.
function keptProgram() {
    try {
        const { view, pick, isWritten, link, ...rest } = JSON.parse(sessionStorage.getItem(KEPT));
        const isExample = Number.isInteger(pick) && pick in examples;
        const more = { pick: isExample ? pick : null, isWritten: isWritten === true, link: String(link) };
        return { ...programIn(rest), ...more, view: Object.hasOwn(views, view) ? view : 'run' };
    } catch {
        return null;
    }
}

// Asks whether what was written may be replaced, where something was. The answer comes later.
function mayReplace({ isWritten }) {
    const question = element('question');
    if (!isWritten) return Promise.resolve(true);
    if (!question.open) question.showModal();
    question.returnValue = '';
    return new Promise(then => {
        question.addEventListener('close', () => then(question.returnValue === 'replace'), { once: true });
    });
}
