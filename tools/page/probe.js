//! What tools/test-page asks of the page, beside what the page's own scripts have. It is no part of the page.
'use strict';

const probe = (() => {
    // A generator of numbers below a bound, from a seed.
    function generator(seed) {
        let state = seed;
        return below => {
            state = (Math.imul(state, 1103515245) + 12345) & 0x7fffffff;
            return (state >> 8) % below;
        };
    }

    // Waits until nothing is under way, and all of it has been shown.
    const isIdle = () => !pause && !later && !work.waiting.size;
    async function settled() {
        for (let quiet = 0; quiet < 3;) {
            await new Promise(then => setTimeout(then, 2));
            quiet = isIdle() ? quiet + 1 : 0;
        }
    }

    // A command over the files of the program that is open; the files that it writes are letters of base 64.
    async function answered(words) {
        const { written, ...said } = await ask(words, joinedTexts(page.judged.sources, page.files));
        const letters = bytes => btoa(Array.from(bytes, byte => String.fromCharCode(byte)).join(''));
        return { ...said, written: Object.fromEntries([...written].map(([name, bytes]) => [name, letters(bytes)])) };
    }

    // The program that is open, as `check` takes it.
    function opened() {
        const { program, sources, globals } = page.judged;
        return { program, globals, words: page.auto, files: Object.fromEntries(joinedTexts(sources, page.files)) };
    }

    // Which of some shapes cover one another; `above` and `below` a text there may be room that has no letters.
    function covered(chosen, room) {
        const boxes = [...document.querySelectorAll(chosen)].map(it => ({ text: it.textContent, box: it.getBBox() }));
        const meets = (from, length, other, long, by) => from + by < other + long && other + by < from + length;
        const cover = (a, b) => meets(a.x, a.width, b.x, b.width, 1) && meets(a.y, a.height, b.y, b.height, room);
        const under = (one, at) => boxes.slice(0, at).filter(other => cover(one.box, other.box));
        return boxes.flatMap((one, at) => under(one, at).map(other => `${one.text} and ${other.text}`));
    }

    // Which texts of the diagram a line runs over: a point of it is well inside of their box.
    function crossed() {
        const found = new Set(), STEP = 3, NEAR = 2.5;
        const calls = [...document.querySelectorAll('#drawn text.call')];
        const texts = calls.map(it => ({ text: it.textContent, box: it.getBBox() }));
        const inside = (at, from, length) => at > from + NEAR && at < from + length - NEAR;
        for (const line of document.querySelectorAll('#drawn .line')) {
            for (let at = 0; at < line.getTotalLength(); at += STEP) {
                const { x, y } = line.getPointAtLength(at);
                const over = texts.filter(({ box }) => inside(x, box.x, box.width) && inside(y, box.y, box.height));
                for (const { text } of over) found.add(text);
            }
        }
        return [...found];
    }

    // What the typestate that is drawn has, and what is drawn of it.
    function drawn() {
        const { states, calls } = page.typestates.get(page.shown);
        const shapes = chosen => [...document.querySelectorAll(chosen)];
        const labels = calls.flatMap(call => call.ends.map(end => end.label)).filter(label => label !== null);
        return {
            states: [...states].sort(),
            statesDrawn: shapes('#drawn .state').map(it => it.dataset.state).sort(),
            calls: [...calls.map(call => call.text), ...labels].sort(),
            callsDrawn: shapes('#drawn text.call').map(it => it.textContent).sort(),
            covered: covered('#drawn .state, #drawn text.call', 2),
            crossed: crossed(),
        };
    }
    // The lines that refuse, as they are told; and the calls in the table of `show`, as rows of texts.
    function told() {
        const lines = [...document.querySelectorAll('#say [data-fault]')].map(it => it.textContent);
        return lines.length ? lines.join('\n') : null;
    }
    function calls() {
        const room = document.createElement('div');
        room.innerHTML = views.show.body(page);
        const rows = [...room.querySelectorAll('tr')].slice(1);
        return rows.map(row => [...row.children].map(it => it.textContent));
    }
    // What stands beside the lines of the text that is open, by their numbers, as far as they are drawn, window by window.
    function beside() {
        const found = {}, area = element('text');
        for (let top = 0; top <= area.scrollHeight; top += area.clientHeight) {
            area.scrollTop = top;
            scrollText();
            const lines = element('beside').textContent.split('\n');
            for (const [at, line] of lines.entries()) if (line.trim()) found[sheet.first + at + 1] = line.trim();
        }
        area.scrollTop = 0;
        scrollText();
        return found;
    }
    const lit = () => [...document.querySelectorAll('#drawn .state.on')].map(it => it.dataset.state);

    // The objects of the run that at the step that is shown are neither at their end nor where they may be left.
    function unfinished() {
        const isFree = (object, state) => object.typestate.calls.some(it => it.text === 'drop' && it.from === state);
        const isDone = (object, { state }) => state === 'end' || isFree(object, state);
        const left = [...page.objects.values()].filter(object => !isDone(object, standing(object, page.step)));
        return left.map(object => object.key);
    }

    // What has the focus, by its id, its name or what it does.
    const nameOf = it => it.id || it.dataset.name || it.dataset.do || it.tagName;
    const focus = () => nameOf(document.activeElement);
    const seen = chosen => [...document.querySelectorAll(chosen)].filter(it => it.getClientRects().length);
    const controls = () => seen('button:enabled, select, input, textarea').map(nameOf);

    // What stands outside of a window of a width, or is too small to be used.
    function outside(width) {
        const isOut = box => box.left < -0.5 || box.right > width + 0.5 || box.width < 8 || box.height < 8;
        const shown = seen('button, select, input, textarea, #say, #drawn, #view');
        return shown.filter(it => isOut(it.getBoundingClientRect())).map(nameOf);
    }

    // The heap of host.c under a random load: whether blocks keep what is put into them, and don't cover one another.
    function heap(turns) {
        const heap = new WebAssembly.Instance(program, {}).exports;
        const random = generator(7), live = [], sizeOf = () => random(20) ? random(300) : random(70000);
        const view = ({ at, size }) => new Uint8Array(heap.memory.buffer, at, size);
        const keeps = (block, count) => view(block).subarray(0, count).every(byte => byte === block.mark);
        const filled = (at, size, mark) => {
            if (!at || at % 16) throw new Error(`a block stands at ${at}`);
            const block = { at, size, mark };
            view(block).fill(mark);
            return block;
        };
        for (let turn = 0; turn < turns; turn++) {
            const what = random(10), number = random(live.length || 1), block = live[number], size = sizeOf();
            if (what < 5 || !block) { live.push(filled(heap.take(size), size, turn & 255)); continue; }
            if (!keeps(block, block.size)) return 'a block was lost';
            if (what < 7) {
                const kept = Math.min(block.size, size), at = heap.retake(block.at, kept, size);
                if (!keeps({ ...block, at, size }, kept)) return 'a block was not copied';
                live[number] = filled(at, size, turn & 255);
            } else {
                heap.give(block.at);
                live[number] = live[live.length - 1];
                live.pop();
            }
        }
        live.sort((one, other) => one.at - other.at);
        const isApart = live.slice(1).every((block, at) => live[at].at + live[at].size <= block.at);
        if (!isApart) return 'blocks cover one another';
        return hasEnd(heap) ? 'right' : 'there is memory without end';
    }
    // Whether the heap says so when there is no more memory.
    function hasEnd(heap) {
        const GIBI = 2 ** 30;
        for (let turn = 0; turn < 8; turn++) if (heap.take(GIBI) === 0) return true;
        return false;
    }

    // Random edits of random files of random examples, through the text area, and steps and views between them.
    const PIECES = [
        '{', '}', ';', '(', ')', '\n', ' ', '"', '/*', '//', '<', '>', ':', 'end', 'State0', 'null', '0', 'c', 'ü', '😀',
        'int x = 1;', 'while (true) { }', 'rec X { continue X; }', 'choice at C { } or { }', 'new CRole()',
        'class A { }', 'drop: end', '@Typestate("P")', 'a(int) to S;', 'global protocol G(role A) { }',
    ];
    const random = generator(60);
    function edit() {
        const area = element('text'), text = area.value, at = random(text.length + 1);
        const until = Math.min(text.length, at + random(12)), piece = PIECES[random(PIECES.length)];
        const [head, cut, tail] = [text.slice(0, at), text.slice(at, until), text.slice(until)];
        const edited = [head + tail, head + piece + cut + tail, head + cut + cut + tail, head + piece + tail][random(4)];
        area.value = edited.toWellFormed();
        area.dispatchEvent(new Event('input'));
    }
    async function edits(count) {
        for (let turn = 0; turn < count; turn++) {
            if (!random(40)) openExample(random(examples.length));
            if (!random(4)) openFile([...page.files.keys()][random(page.files.size)]);
            edit();
            if (random(8)) continue;
            if (random(2)) await settled();
            page.view = Object.keys(views)[random(7)];
            showView();
            showStep(page, random(60), true);
            if (!random(6)) stop();
        }
        filesChanged();
        await settled();
        return opened();
    }

    const seeing = { told, calls, beside, drawn, lit, unfinished };
    return { settled, answered, opened, covered, ...seeing, focus, controls, outside, heap, edits };
})();
