// Tells the tags that parse5's tokenizer reads, driven by its tree construction. Pages come on standard input, each after a line with its
// length; for each a line of JSON is written: `tags`, the start tags as [start, end, name, attributes, namespace or null where the tree
// ignores it]; `edits`, which write out what the tree does, as [start, end, text]; `middle`, whether an element left the middle of its stack.
"use strict";
const { Parser, defaultTreeAdapter } = require("parse5");
const NAMESPACES = { "http://www.w3.org/1999/xhtml": "html", "http://www.w3.org/2000/svg": "svg", "http://www.w3.org/1998/Math/MathML": "mathml" };

class Told extends Parser {
    constructor(tree) {
        super({ treeAdapter: tree, sourceCodeLocationInfo: true, scriptingEnabled: true });
        tree.told = this;
        Object.assign(this, { tags: [], edits: [], middle: false, written: new Set(), made: null, popped: [], attrs: null });
        const stack = this.openElements;
        const remove = stack.remove.bind(stack);
        stack.remove = (node) => {
            if (stack.current !== node) this.middle = true;
            remove(node);
        };
    }
    onStartTag(token) {
        const { startOffset, endOffset } = token.location;
        const tag = [startOffset, endOffset, token.tagName, token.attrs.map(({ name, value }) => [name, value]), null];
        Object.assign(this, { made: null, popped: [], attrs: token.attrs });
        super.onStartTag(token);
        this.attrs = null;
        if (this.made) tag[4] = NAMESPACES[this.made.namespaceURI];
        const left = this.popped.filter((node) => node !== this.made).map((node) => `</${node.tagName}>`).join("");
        if (left) this.edits.push([startOffset, startOffset, left]);
        if (!this.made) this.edits.push([startOffset, endOffset, ""]);
        this.tags.push(tag);
    }
    onEndTag(token) {
        const { startOffset, endOffset } = token.location;
        const { tagName } = token;
        this.popped = [];
        super.onEndTag(token);
        const names = this.popped.map((node) => node.tagName.toLowerCase());
        if (names.length !== 1 || names[0] !== tagName) this.edits.push([startOffset, endOffset, names.map((name) => `</${name}>`).join("")]);
    }
    onItemPop(node, isTop) {
        if (this.written.has(node)) this.popped.push(node);
        super.onItemPop(node, isTop);
    }
}

function read(page) {
    const tree = {
        ...defaultTreeAdapter,
        createElement(name, namespace, attrs) {
            const node = defaultTreeAdapter.createElement(name, namespace, attrs);
            if (attrs === this.told.attrs) {
                this.told.made = node;
                this.told.written.add(node);
            }
            return node;
        },
    };
    const told = new Told(tree);
    told.tokenizer.write(page, true);
    return { tags: told.tags, edits: told.edits, middle: told.middle };
}

let waiting = Buffer.alloc(0);
process.stdin.on("data", (data) => {
    waiting = Buffer.concat([waiting, data]);
    for (;;) {
        const end = waiting.indexOf(10);
        if (end < 0) return;
        const length = Number(waiting.subarray(0, end).toString());
        if (waiting.length < end + 1 + length) return;
        const page = waiting.subarray(end + 1, end + 1 + length).toString("latin1");
        waiting = waiting.subarray(end + 1 + length);
        process.stdout.write(JSON.stringify(read(page)) + "\n");
    }
});
