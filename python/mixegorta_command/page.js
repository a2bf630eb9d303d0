'use strict';
(() => {
    const tree = JSON.parse(document.getElementById('data').textContent);
    const svg = document.getElementById('tree');
    const scroll = document.getElementById('scroll');
    const note = document.getElementById('note');
    const ring = document.getElementById('ring');
    const reach = 26;
    const gap = 48;
    let chosen = null;
    let pinned = false;

    // In a narrow window the rows stand closer, so that the whole tree is seen; what is left of the axis stays, and heights do.
    const [, top, wide, height] = svg.getAttribute('viewBox').split(' ').map(Number);
    const [start, rim] = [Number(svg.dataset.left), Number(svg.dataset.right)];
    const small = window.matchMedia('(max-width: 720px)');
    const narrow = 520;
    const moved = (x, to) => x <= start ? x : start + (x - start) * (to - start - rim) / (wide - start - rim);
    const kept = new Map();

    function keep(part) {
        if (!kept.has(part)) kept.set(part, Object.fromEntries(['x', 'x1', 'x2', 'cx', 'd', 'width'].map(name => [name, part.getAttribute(name)])));
        return kept.get(part);
    }

    function place(part, to) {
        const old = keep(part);
        for (const name of ['x1', 'x2', 'cx']) if (old[name] !== null) part.setAttribute(name, moved(Number(old[name]), to));
        if (part.classList.contains('ground')) part.setAttribute('width', moved(start + Number(old.width), to) - start);
        else if (old.x !== null) part.setAttribute('x', moved(Number(old.x) + (old.width / 2 || 0), to) - (old.width / 2 || 0));
        if (part.classList.contains('cut')) part.setAttribute('d', old.d.replace(/l([\d.]+) /g, (all, step) => `l${step * (moved(wide, to) - start) / (wide - start)} `));
        else if (old.d !== null) part.setAttribute('d', old.d.replace(/([ML])([\d.]+) /g, (all, letter, x) => `${letter}${moved(Number(x), to)} `));
    }

    function lay() {
        const to = small.matches ? narrow : wide;
        svg.classList.toggle('narrow', small.matches);
        svg.setAttribute('viewBox', `0 ${top} ${to} ${height}`);
        for (const part of svg.querySelectorAll('line, circle:not(#ring), rect, path, text:not([transform])')) if (!part.closest('.legend')) place(part, to);
        for (const node of tree.nodes) {
            node.wide ??= node.x;
            node.x = moved(node.wide, to);
        }
        if (chosen) show(chosen);
    }

    const signed = text => text.replace('-', '\u2212');

    function nearest(event) {
        const screen = svg.getScreenCTM();
        const at = new DOMPoint(event.clientX, event.clientY).matrixTransform(screen.inverse());
        let best = null;
        let least = reach / screen.a;
        for (const node of tree.nodes) {
            const distance = Math.hypot(node.x - at.x, node.y - at.y);
            const same = best && distance === least && Math.abs(node.number) < Math.abs(best.number);
            if (distance < least || same) [best, least] = [node, distance];
        }
        return best;
    }

    function element(name, text, kind) {
        const made = document.createElement(name);
        made.textContent = text;
        if (kind) made.className = kind;
        return made;
    }

    function list(heading, pairs) {
        const made = document.createElement('dl');
        for (const [name, text, kind] of pairs) made.append(element('dt', name), element('dd', text, kind));
        note.append(element('h4', heading), made);
    }

    function rate(text) {
        const below = text.startsWith('-');
        return [`${below ? '\u25a0' : '\u25cf'} ${signed(text)} %`, below ? 'below' : 'above'];
    }

    function describe(node) {
        note.replaceChildren(element('h3', `Row ${node.row}, node ${signed(String(node.number))}`));
        list('from the sheet', [['discount', node.discount], ['step rate', ...rate(node.rate)]]);
        if (!tree.frequency) return;
        list('worked out from the job by the reference', [['years from today', node.years], ['yearly rate', ...rate(node.yearly)], ['state price', node.price],
            ...tree.branches[node.number].map(([end, share]) => [`to node ${signed(String(end))}`, share])]);
    }

    // Beside the node, clear of a rate above it; in a small window at the edge that is further from the node.
    function put(node) {
        const [box, edge] = [svg.getBoundingClientRect(), scroll.getBoundingClientRect()];
        const at = new DOMPoint(node.x, node.y).matrixTransform(svg.getScreenCTM());
        note.className = at.y > window.innerHeight / 2 ? 'upper' : '';
        note.style.left = note.style.top = '';
        if (getComputedStyle(note).position === 'fixed') return;
        const [x, y] = [at.x - edge.left, at.y - edge.top];
        const left = x < scroll.clientWidth / 2 ? x + gap : x - gap - note.offsetWidth;
        note.style.left = `${left + scroll.scrollLeft}px`;
        note.style.top = `${Math.max(0, Math.min(y - note.offsetHeight / 2, box.height - note.offsetHeight))}px`;
    }

    function show(node) {
        chosen = node;
        note.hidden = !node;
        ring.setAttribute('visibility', node ? 'visible' : 'hidden');
        if (!node) return;
        ring.setAttribute('cx', node.x);
        ring.setAttribute('cy', node.y);
        ring.setAttribute('r', node.size + 4);
        describe(node);
        put(node);
    }

    function step(rows, numbers) {
        const from = chosen || tree.nodes[0];
        const row = tree.nodes.filter(node => node.row === from.row + (chosen ? rows : 0));
        const number = from.number + (chosen ? numbers : 0);
        const found = row.find(node => node.number === number) || (rows && row[number < 0 ? 0 : row.length - 1]);
        if (found) show(found);
    }

    small.addEventListener('change', lay);
    if (small.matches) lay();

    const steps = {ArrowLeft: [-1, 0], ArrowRight: [1, 0], ArrowUp: [0, 1], ArrowDown: [0, -1]};
    svg.addEventListener('pointermove', event => { if (event.pointerType === 'mouse' && !pinned) show(nearest(event)); });
    svg.addEventListener('pointerleave', event => { if (event.pointerType === 'mouse' && !pinned) show(null); });
    svg.addEventListener('click', event => { show(nearest(event)); pinned = chosen !== null; });
    svg.addEventListener('keydown', event => {
        if (event.key === 'Escape') { pinned = false; show(null); }
        if (!steps[event.key]) return;
        event.preventDefault();
        pinned = true;
        step(...steps[event.key]);
    });
})();
