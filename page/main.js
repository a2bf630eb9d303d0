// The page: inputs, what is worked out of them, files, links and the clipboard.
import { Engine } from '../javascript/engine.js';
import { Refused } from '../javascript/refusals.js';
import { DEFAULTS, EXAMPLES } from './examples.js';
import { InputError } from './rationals.js';
import { TextError } from './texts.js';
import { TreeView, element, part, showPrices, showTables, tabbed } from './view.js';
import { acceptedVolatility, bytesOfText, fitWith, ofDesk, ofJob, textOfBytes } from './work.js';

const FIELDS = Object.keys(DEFAULTS).filter(name => name !== 'mode');
const [MOST_FILE, MOST_LINK] = [1 << 20, 60_000];
// Refusals that less volatility may mend.
const BY_VOLATILITY = [8, 9, 12];
// What is below the tree waits for a frame, and at most so long where none is drawn.
const LATEST_MS = 100;
let engine = null;
let tree = null;
let shown = null;
// The bytes of a job that was opened, while its text stands as it was opened.
let opened = null;

// ---- inputs

function inputs() {
    const found = { mode: document.querySelector('input[name=mode]:checked').value };
    for (const name of FIELDS) found[name] = part(name).value;
    return found;
}

function set(given) {
    const all = { ...DEFAULTS, ...given };
    for (const name of FIELDS) part(name).value = all[name];
    document.querySelector(`input[name=mode][value=${all.mode === 'job' ? 'job' : 'desk'}]`).checked = true;
    modes();
}

function modes() {
    const job = inputs().mode === 'job';
    part('desk').hidden = job;
    part('text').hidden = !job;
    const none = part('right').value === 'none';
    for (const name of ['at', 'days', 'strikes']) part(name).disabled = none;
}

function say(words) {
    part('said').textContent = words;
}

/** Clears what stands beside the inputs, and shows warnings and an error there. */
function beside(warnings, error) {
    for (const note of document.querySelectorAll('.note')) {
        note.textContent = '';
        note.className = 'note';
    }
    for (const field of FIELDS) part(field).removeAttribute('aria-invalid');
    for (const [field, words] of warnings) {
        const note = part(`${field}-note`);
        note.className = 'note warned';
        note.textContent = `${note.textContent ? `${note.textContent} ` : ''}Warning: ${words}.`;
    }
    if (!error || !part(`${error.field}-note`)) return;
    part(error.field).setAttribute('aria-invalid', 'true');
    part(`${error.field}-note`).className = 'note wrong';
    part(`${error.field}-note`).textContent = `${error.message}.`;
}

// ---- working out

function workedOut(given, warn) {
    if (given.mode === 'desk') return ofDesk(engine, given, warn);
    const bytes = opened && opened.text === given.job ? opened.bytes : bytesOfText(engine, given.job);
    return ofJob(engine, bytes);
}

/** Works everything out again and shows it, or what is wrong. */
function update() {
    const [given, warnings] = [inputs(), []];
    modes();
    try {
        shown = workedOut(given, (field, words) => warnings.push([field, words]));
    } catch (error) {
        failed(error, given, warnings);
        return;
    }
    beside(warnings, null);
    part('refused').hidden = true;
    part('answer').hidden = false;
    part('told').textContent = told(given);
    showPrices(shown);
    tree.draw(shown);
    saving(true);
    below(shown);
}

/** Fills in what stands below the tree once the tree is on the screen; until then nothing is seen there. */
function below(found) {
    document.body.dataset.below = 'waiting';
    let done = false;
    const finish = () => {
        if (done || shown !== found) return;
        done = true;
        Object.assign(found, found.later());
        tree.drawCurve(found.zero);
        showTables(found);
        document.body.dataset.below = 'shown';
    };
    requestAnimationFrame(() => setTimeout(finish));
    setTimeout(finish, LATEST_MS);
}

function redraw() {
    if (!shown) return;
    tree.draw(shown);
    if (shown.zero) tree.drawCurve(shown.zero);
}

/** The inputs in words, for paper. */
function told(given) {
    if (given.mode === 'job') return `Job text:\n${given.job}`;
    const chosen = name => part(name).selectedOptions[0].textContent;
    const points = given.curve.trim().split(/\r\n?|\n/).map(line => line.trim().replace(/\s+/g, ' ')).join('; ');
    const lines = [`Curve, ${chosen('compounding')}: ${points}.`,
        `Volatility ${given.volatility} basis points a year, reversion ${given.reversion} a year; ${shown.tree.frequency} steps a year.`,
        `Bond of ${given.coupon} %, ${given.coupons} coupon${given.coupons === '1' ? '' : 's'} a year, to ${given.maturity}, redeemed at ${given.redemption}.`];
    if (given.right !== 'none') lines.push(`The ${chosen('right')} it at ${given.at} on ${given.days}.`);
    if (given.valuation) lines.push(`Valuation date ${given.valuation}.`);
    return lines.join('\n');
}

function saving(possible) {
    for (const name of ['save-job', 'save-text']) part(name).disabled = !possible;
}

/** Shows an error in words, with what to do; no result of other inputs stays beside it. */
function failed(error, given, warnings) {
    shown = null;
    part('answer').hidden = true;
    saving(false);
    const box = part('refused');
    box.hidden = false;
    if (error instanceof Refused) {
        const advice = error.advice ? `What to do: ${error.advice}.` : '';
        box.replaceChildren(element('h2', `Refused ${error.number}: ${error.cause}`), element('p', advice),
            element('p', lessVolatility(error, given)));
        beside(warnings, null);
    } else if (error instanceof InputError || error instanceof TextError) {
        const field = error instanceof TextError ? 'job' : error.field;
        box.replaceChildren(element('h2', 'This input cannot be taken'), element('p', error.message));
        beside(warnings, { field, message: error.message });
    } else {
        box.replaceChildren(element('h2', 'This page has a fault'), element('p', String(error?.message ?? error)));
        throw error;
    }
}

/** Which volatility the same inputs are accepted with, where that is what the refusal is about. */
function lessVolatility(error, given) {
    if (given.mode !== 'desk' || !BY_VOLATILITY.includes(error.number)) return '';
    const most = Math.min(500, Math.ceil(Number(given.volatility.replace(',', '.'))) || 500);
    const found = acceptedVolatility(volatility => fitWith(engine, given, volatility), most);
    return found ? `A volatility of ${found} basis points fits a tree on these inputs.` : '';
}

// ---- files, links and the clipboard

function save(name, content, type) {
    const address = URL.createObjectURL(new Blob([content], { type }));
    const link = Object.assign(document.createElement('a'), { href: address, download: name });
    link.click();
    setTimeout(() => URL.revokeObjectURL(address), 10_000);
    say(`${name} was saved.`);
}

const heading = () => ['written by the page of mixegorta', shown.kind];

function saveText() {
    const text = textOfBytes(engine, shown.job, heading());
    if (text === null) say('This job has no text: it holds what only its bytes say. Save the job.');
    else save('mixegorta.txt', text, 'text/plain');
}

/** Opens a job or a text: a job has zero bytes in its lengths, a text in UTF-8 has none. */
function openBytes(bytes, name) {
    try {
        if (bytes.length > MOST_FILE) throw new TextError(`${name} has ${bytes.length} bytes, and is no job`);
        if (!bytes.includes(0)) {
            opened = null;
            set({ ...inputs(), mode: 'job',
                job: new TextDecoder('utf-8', { fatal: true }).decode(bytes).replace(/^\uFEFF/, '') });
        } else {
            engine.readJob(bytes);
            const text = textOfBytes(engine, bytes) ?? '# a job that no text says; it is kept as its bytes\n';
            opened = { text, bytes };
            set({ ...inputs(), mode: 'job', job: text });
            // A text area may give its lines back in another form.
            opened.text = part('job').value;
        }
        say(`${name} was opened.`);
        update();
    } catch (error) {
        const known = error instanceof Refused || error instanceof TextError;
        say(`${name} cannot be opened: ${known ? error.message : 'it is neither a job nor a text in UTF-8'}.`);
    }
}

async function copy(text, what) {
    try {
        await navigator.clipboard.writeText(text);
    } catch {
        const area = Object.assign(document.createElement('textarea'), { value: text, className: 'skip' });
        document.body.append(area);
        area.select();
        document.execCommand('copy');
        area.remove();
    }
    say(`${what} copied.`);
}

/** The inputs that differ from the first ones, as the fragment of a link. */
export function fragment(given) {
    const changed = Object.fromEntries(Object.entries(given).filter(([name, value]) => value !== DEFAULTS[name]));
    const bytes = new TextEncoder().encode(JSON.stringify(changed));
    return btoa(String.fromCharCode(...bytes)).replace(/\+/g, '-').replace(/\//g, '_').replace(/=+$/, '');
}

function fromFragment() {
    const text = location.hash.slice(1);
    if (!text || text === 'results' || text.length > MOST_LINK) return null;
    try {
        const bytes = Uint8Array.from(atob(text.replace(/-/g, '+').replace(/_/g, '/')), each => each.charCodeAt(0));
        const found = JSON.parse(new TextDecoder().decode(bytes));
        return Object.fromEntries(Object.entries(found).filter(([name, value]) => name in DEFAULTS
            && typeof value === 'string'));
    } catch {
        say('The link carries no inputs that can be read; these are those of the first example.');
        return null;
    }
}

function startInputs() {
    const given = fromFragment();
    set(given ?? EXAMPLES[0][1]);
    part('example').value = given ? '' : '0';
}

// ---- the page

function listen() {
    part('inputs').addEventListener('input', event => {
        if (event.target.name === 'mode' && event.target.value === 'job' && shown) {
            opened = { text: textOfBytes(engine, shown.job, heading()) ?? '', bytes: shown.job };
            part('job').value = opened.text;
        }
        part('example').value = '';
        update();
    });
    part('inputs').addEventListener('submit', event => event.preventDefault());
    part('example').addEventListener('change', event => {
        if (event.target.value === '') return;
        set(EXAMPLES[Number(event.target.value)][1]);
        say('');
        update();
    });
    part('open').addEventListener('click', () => part('file').click());
    part('file').addEventListener('change', async event => {
        const [file] = event.target.files;
        if (file) openBytes(new Uint8Array(await file.arrayBuffer()), file.name);
        event.target.value = '';
    });
    part('save-job').addEventListener('click', () => save('mixegorta.job', shown.job, 'application/octet-stream'));
    part('save-text').addEventListener('click', saveText);
    part('copy-link').addEventListener('click',
        () => copy(`${location.href.split('#')[0]}#${fragment(inputs())}`, 'The link was'));
    part('print').addEventListener('click', () => window.print());
    for (const button of document.querySelectorAll('.copy')) {
        button.addEventListener('click',
            () => copy(tabbed(button.dataset.table, part('comma').checked), 'The table was'));
    }
    window.addEventListener('hashchange', () => { if (fromFragment()) { startInputs(); update(); } });
    window.addEventListener('dragover', event => event.preventDefault());
    window.addEventListener('drop', async event => {
        event.preventDefault();
        const [file] = event.dataTransfer.files;
        if (file) openBytes(new Uint8Array(await file.arrayBuffer()), file.name);
    });
    for (const kind of ['resize', 'beforeprint', 'afterprint']) window.addEventListener(kind, redraw);
}

/** Starts the page with the engine's bytes in base 64. */
export async function start(encoded) {
    const bytes = Uint8Array.from(atob(encoded), each => each.charCodeAt(0));
    engine = new Engine(await WebAssembly.compile(bytes));
    tree = new TreeView(engine);
    const none = Object.assign(element('option', 'own inputs'), { value: '' });
    part('example').append(none,
        ...EXAMPLES.map(([name], k) => Object.assign(element('option', name), { value: String(k) })));
    // What a spreadsheet's own language writes is copied back in the same way.
    part('comma').checked = (1.5).toLocaleString().includes(',');
    startInputs();
    listen();
    update();
    document.body.dataset.ready = 'yes';
}
