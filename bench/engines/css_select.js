// css-select on the tree of htmlparser2 (node-css-select, node-htmlparser2).
"use strict";

const fs = require("fs");
const { compile, selectAll } = require("css-select");
const { parseDocument } = require("htmlparser2");

const [page, selectors, runs] = process.argv.slice(2);
const html = fs.readFileSync(page, "utf8");
const texts = fs.readFileSync(selectors, "utf8").trimEnd().split("\n");

function best(work, count) {
    let least = Infinity;
    let given;
    for (let run = 0; run < count; run += 1) {
        const begin = process.hrtime.bigint();
        given = work();
        least = Math.min(least, Number(process.hrtime.bigint() - begin) / 1e9);
    }
    return [least, given];
}

const [parse, tree] = best(() => parseDocument(html), Number(runs));
const compiled = new Map();

function find(text) {
    if (!compiled.has(text)) {
        compiled.set(text, compile(text));
    }
    return selectAll(compiled.get(text), tree).length;
}

const all = () => texts.reduce((sum, text) => sum + find(text), 0);
const [first, found] = best(all, 1);
const [later] = best(all, Number(runs));
console.log(JSON.stringify({ parse, first, later, found }));
