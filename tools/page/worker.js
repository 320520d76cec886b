//! What runs beside the page, in a Worker: the program, and what is read in its answers. work.js asks.
'use strict';

// The first message has the module. Each later one has a number, which its answer has too, and asks for what a command
// says of files, or without words for what judge.js says of them.
onmessage = ({ data: { module, number, words, files } }) => {
    if (module) program = module;
    else postMessage({ number, said: words ? answer(words, files) : judge(files) });
};
