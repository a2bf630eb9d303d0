// The parts of the page: tables, the tree with its node's numbers, notes beside inputs.
import { curvePicture, signed, treePicture } from './picture.js';
import { nodeOf } from './work.js';
import { per100 } from './prices.js';

export const part = name => document.getElementById(name);
const REACH = 26;
const GAP = 40;
const STEPS = { ArrowLeft: [-1, 0], ArrowRight: [1, 0], ArrowUp: [0, 1], ArrowDown: [0, -1] };

export function element(name, text = '', kind = '') {
    const made = document.createElement(name);
    made.textContent = text;
    if (kind) made.className = kind;
    return made;
}

/** Fills a table: heads, and lines whose first cell may be a heading. A cell is a text or { words, kind }. */
export function fill(name, heads, lines, headed = true) {
    const table = part(name);
    const head = element('tr');
    head.append(...heads.map(text => Object.assign(element('th', text), { scope: 'col' })));
    const body = lines.map(cells => {
        const line = element('tr');
        cells.forEach((cell, k) => {
            const { words, kind = '', span = 1 } = typeof cell === 'object' ? cell : { words: cell };
            const made = element(k === 0 && headed ? 'th' : 'td', words, kind);
            if (k === 0 && headed) made.scope = 'row';
            if (span > 1) made.colSpan = span;
            line.append(made);
        });
        return line;
    });
    const [top, rest] = [element('thead'), element('tbody')];
    top.append(head);
    rest.append(...body);
    table.replaceChildren(top, rest);
}

/** A table as lines of cells parted by tabs, for a spreadsheet. */
export function tabbed(name, comma) {
    const number = text => text.replace('\u2212', '-').replace(/^\+/, '');
    return [...part(name).rows].map(line => [...line.cells].map(cell => {
        const words = cell.textContent;
        if (!/^[+\u2212-]?\d+(\.\d+)?$/.test(words)) return words;
        return comma ? number(words).replace('.', ',') : number(words);
    }).join('\t')).join('\n');
}

export function showPrices({ kind, table, total, unit }) {
    const name = `${kind[0].toUpperCase()}${kind.slice(1)}`;
    part('price-name').textContent = unit === 'job' ? `${name}, per 100` : `${name}, dirty, per 100`;
    part('price').textContent = per100(total.value);
    part('bound').textContent = `exact on this tree to ${total.bound} billionth${total.bound === 1n ? '' : 's'}`;
    fill('prices', ['', 'per 100', 'exact on this tree to, billionths'],
        table.map(({ name, value, bound }) => [name, value, bound]));
}

export function showTables(found) {
    part('strip-part').hidden = !found.strip.length;
    const clean = found.strip.some(({ clean: each }) => each !== null && each !== undefined);
    fill('strip', ['price of exercise', 'option', 'exact to, billionths', 'dirty', 'exact to, billionths', ...clean
        ? ['clean'] : []],
        found.strip.map(({ at, option, total, clean: each, refused }) => refused
            ? [at, { words: `refused ${refused.number}: ${refused.cause}; ${refused.advice}`, kind: 'words',
                span: clean ? 5 : 4 }]
            : [at, per100(option.value), String(option.bound), per100(total.value), String(total.bound), ...clean
                ? [per100(each)] : []]));
    const asked = { discount: 'asked, discount', job: 'asked' }[found.unit] ?? `asked, ${found.unit} percent`;
    fill('rows', ['row', 'tenor', ...found.hasDates ? ['date'] : [], asked, 'discount taken', 'the tree gives',
        'difference', 'exact to, billionths'],
        found.rows.map(line => [String(line.row), line.tenor, ...found.hasDates ? [line.date] : [], signed(line.asked),
            line.discount, line.sum,
            line.difference, line.bound]), false);
    part('notes').replaceChildren(...noteLines(found).map(words => element('li', words)));
}

function noteLines({ estimate, notes, unit }) {
    const cost = estimate ? `what the steps cost, an estimate: ${per100(estimate.difference, true)} with ${estimate.frequency} steps a year in their place`
        : 'what the steps cost: there is no estimate, since no other tree has every day on a row';
    return unit === 'job' ? notes : [cost, ...notes];
}

// ---- the tree

export class TreeView {
    constructor(engine) {
        Object.assign(this, { engine, chosen: null, pinned: false, shown: null });
        const svg = part('tree');
        svg.addEventListener('pointermove',
            event => { if (event.pointerType === 'mouse' && !this.pinned) this.show(this.nearest(event)); });
        svg.addEventListener('pointerleave',
            event => { if (event.pointerType === 'mouse' && !this.pinned) this.show(null); });
        svg.addEventListener('click', event => { this.show(this.nearest(event)); this.pinned = this.chosen !== null; });
        svg.addEventListener('keydown', event => this.key(event));
        svg.addEventListener('blur', () => { this.pinned = false; this.show(null); });
    }

    /** Draws the tree into the width that there is. */
    draw(found) {
        const svg = part('tree');
        const width = Math.max(280, Math.round(part('scroll').clientWidth));
        const height = width < 560 ? 330 : Math.round(Math.min(430, Math.max(320, width * 0.46)));
        const { svg: inner, nodes } = treePicture(found.picture, width, height);
        this.shown = { ...found, nodes };
        svg.setAttribute('viewBox', `0 0 ${width} ${height}`);
        svg.innerHTML = inner;
        const below = nodes.filter(node => node.rate < 0).length;
        const steps = found.tree.steps;
        const title = `Fitted rate tree: ${steps} step${steps === 1 ? '' : 's'}, ${found.tree.frequency} a year, ${nodes.length} nodes`;
        part('tree-name').textContent = title;
        svg.setAttribute('aria-label',
            `${title}; ${below} nodes have a rate below zero. Arrow keys go from node to node.`);
        part('count-above').textContent = `rate zero or above (${nodes.length - below})`;
        part('count-below').textContent = `rate below zero (${below})`;
        part('flags').textContent = found.picture.side ? `; \u25be ${found.picture.side} days` : '';
        this.show(null);
        this.pinned = false;
    }

    /** Draws the curve below the tree. */
    drawCurve({ along, points }) {
        const svg = part('zero-rates');
        const width = Math.max(280, Math.round(part('scroll').clientWidth));
        const height = width < 560 ? 210 : 230;
        svg.setAttribute('viewBox', `0 0 ${width} ${height}`);
        svg.innerHTML = curvePicture(along, points, width, height);
    }

    nearest(event) {
        const screen = part('tree').getScreenCTM();
        const at = new DOMPoint(event.clientX, event.clientY).matrixTransform(screen.inverse());
        let [best, least] = [null, REACH / screen.a];
        for (const node of this.shown.nodes) {
            const distance = Math.hypot(node.x - at.x, node.y - at.y);
            if (distance < least) [best, least] = [node, distance];
        }
        return best;
    }

    key(event) {
        if (event.key === 'Escape') {
            this.pinned = false;
            this.show(null);
        }
        if (!STEPS[event.key]) return;
        event.preventDefault();
        this.pinned = true;
        const [rows, numbers] = this.chosen ? STEPS[event.key] : [0, 0];
        const from = this.chosen ?? this.shown.nodes[0];
        const row = this.shown.nodes.filter(node => node.row === from.row + rows);
        const number = from.number + numbers;
        const found = row.find(node => node.number === number) ?? (rows ? row[number < 0 ? 0 : row.length - 1] : null);
        if (found) this.show(found);
    }

    show(node) {
        this.chosen = node;
        const [note, ring] = [part('note'), part('ring')];
        note.hidden = !node;
        ring?.setAttribute('visibility', node ? 'visible' : 'hidden');
        if (!node) return;
        const ringed = { cx: node.x, cy: node.y, r: node.size + 4 };
        for (const [name, value] of Object.entries(ringed)) ring.setAttribute(name, value);
        this.describe(node);
        this.place(node);
    }

    describe({ row, number }) {
        const { tree, picture } = this.shown;
        const found = nodeOf(this.engine, tree, picture, row, number);
        const [mark, kind] = found.below ? ['\u25a0', 'below'] : ['\u25cf', 'above'];
        const list = element('dl');
        const lines = [['years from today', String(row / tree.frequency)], ['discount', found.discount],
            ['state price', found.statePrice],
            ['rate of the step', `${mark} ${found.rate} %`, kind], ['rate a year', `${mark} ${found.yearly} %`, kind],
            ...found.branches.map(([end, share]) => [`to node ${signed(end)}`, share])];
        for (const [name, words, colour = ''] of lines) list.append(element('dt', name), element('dd', words, colour));
        part('note').replaceChildren(element('h3', `Row ${row}, node ${signed(number)}`), list);
    }

    /** Beside the node; in a small window at the edge that is further from it. */
    place(node) {
        const [note, scroll] = [part('note'), part('scroll')];
        const at = new DOMPoint(node.x, node.y).matrixTransform(part('tree').getScreenCTM());
        const edge = scroll.getBoundingClientRect();
        note.className = at.y > window.innerHeight / 2 ? 'upper' : '';
        note.style.left = note.style.top = '';
        if (getComputedStyle(note).position === 'fixed') return;
        const [x, y] = [at.x - edge.left, at.y - edge.top];
        note.style.left = `${x < scroll.clientWidth / 2 ? x + GAP : x - GAP - note.offsetWidth}px`;
        note.style.top = `${Math.max(0, Math.min(y - note.offsetHeight / 2, edge.height - note.offsetHeight))}px`;
    }
}
