// Decides by css-select, on a tree of domhandler (node-css-select, node-domhandler). See __init__.py for what it reads.
"use strict";

const readline = require("readline");
const { selectAll } = require("css-select");
const { Document, Element } = require("domhandler");

function treeOf(elements) {
    const document = new Document([]);
    const made = [];
    for (const [parent, namespace, name, attributes] of elements) {
        const element = new Element(name, {}, []);
        for (const [prefix, local, value] of attributes) {
            element.attribs[prefix ? `${prefix}:${local}` : local] = value;
        }
        element.namespace = namespace;
        element.number = made.length;
        element.parent = parent === null ? document : made[parent];
        const before = element.parent.children;
        if (before.length > 0) {
            element.prev = before[before.length - 1];
            element.prev.next = element;
        }
        before.push(element);
        made.push(element);
    }
    return document;
}

function answer(document, selector) {
    try {
        return selectAll(selector, document).map((element) => element.number).sort((a, b) => a - b);
    } catch (refusal) {
        return String(refusal);
    }
}

readline.createInterface({ input: process.stdin }).on("line", (line) => {
    const asked = JSON.parse(line);
    const document = treeOf(asked.elements);
    console.log(JSON.stringify(asked.selectors.map((selector) => answer(document, selector))));
});
