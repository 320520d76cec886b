//! The Worker beside the page, in which all commands run, so that the page never waits for one, and can end it.
'use strict';

const work = {
    count: 0, waiting: new Map(),           // how many were asked, and those that aren't answered: by number, who waits
    worker: null, place: '',                // the Worker, and where its text stands
    failed: () => {},                       // is called with what the browser says where the Worker ended by itself

    // Begins a Worker: its text are scripts of this page, in an order in which each has what it stands on.
    begin() {
        const PARTS = ['answer', 'typestate', 'trace', 'judge', 'worker'];
        this.place ||= URL.createObjectURL(new Blob(PARTS.map(name => element(`script-${name}`).textContent)));
        this.worker = new Worker(this.place);
        this.worker.onmessage = ({ data: { number, said } }) => {
            const then = this.waiting.get(number);
            this.waiting.delete(number);
            showBusy();
            then?.(said);
        };
        this.worker.onerror = fault => {
            fault.preventDefault();
            this.end();
            this.failed(fault.message);
        };
        this.worker.postMessage({ module: program });
    },

    // Ends what is under way: those who wait for it hear nothing, since what they asked for isn't wanted any more.
    end() {
        if (!this.waiting.size) return;
        this.worker.terminate();
        this.waiting.clear();
        this.begin();
        showBusy();
    },

    ask(words, files) {
        return new Promise(then => {
            this.waiting.set(++this.count, then);
            this.worker.postMessage({ number: this.count, words, files });
            showBusy();
        });
    },
};

// What a command says of files, as `answer`; and what judge.js says of them. Both come later, or never.
const ask = (words, files) => work.ask(words, files);
const askJudge = files => work.ask(null, files);

// While something is under way it can be stopped.
function showBusy() {
    element('stop').disabled = !work.waiting.size && !pause;
}
