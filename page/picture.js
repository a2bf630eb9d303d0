// The tree and the curve as SVG texts: places are floats, and nothing of them is proved. Rates below zero are squares
// of another colour on tinted ground under a line at zero; the area of a mark is the state price of its node.

const BEYOND = 0.005;
const LEAST_SAVED = 0.15;
const CUT = 30;
const [LARGEST, SMALLEST, SMALLEST_PART, OUTLINED] = [14, 0.9, 0.15, 2.4];
const near = value => Math.round(value * 10) / 10;
export const signed = text => String(text).replace('-', '\u2212');

/** Round numbers of a range, at most so many parts, with their texts. */
export function ticks(low, high, most) {
    const power = 10 ** Math.floor(Math.log10((high - low) / most));
    const step = [1, 2, 5, 10].map(k => k * power).find(each => high - low <= each * most * (1 + 1e-9));
    const digits = Math.max(0, -Math.floor(Math.log10(step) + 1e-9));
    const found = [];
    for (let k = Math.ceil(low / step - 1e-9); k <= Math.floor(high / step + 1e-9); k += 1) {
        found.push([k * step, signed((k * step).toFixed(digits).replace(/^-(0\.?0*)$/, '$1'))]);
    }
    return found;
}

function firstPast(numbers, part) {
    let total = 0;
    const place = numbers.findIndex(each => (total += each) > part);
    return place < 0 ? numbers.length - 1 : place;
}

/** The rates, zero among them, between which each row has nearly all of its state price. */
function held(rows) {
    let [low, high] = [0, 0];
    for (const { rates, prices } of rows) {
        const part = prices.reduce((sum, each) => sum + each, 0) * BEYOND;
        low = Math.min(low, rates[firstPast(prices, part)]);
        high = Math.max(high, rates[rates.length - 1 - firstPast([...prices].reverse(), part)]);
    }
    return [low, high];
}

/** Where rows and rates stand. */
class Frame {
    constructor(rows, frequency, width, height) {
        const all = rows.flatMap(({ rates }) => [rates[0], rates[rates.length - 1]]);
        [this.lowest, this.highest] = [Math.min(0, ...all), Math.max(0, ...all)];
        const least = LEAST_SAVED * (this.highest - this.lowest);
        const [low, high] = held(rows);
        this.cutLow = low - this.lowest > least;
        this.cutHigh = this.highest - high > least;
        const [from, to] = [this.cutLow ? low : this.lowest, this.cutHigh ? high : this.highest];
        const room = (to - from || 1) * 0.06;
        [this.low, this.high] = [from - room, to + room];
        Object.assign(this, { frequency, width, height, left: width < 560 ? 42 : 56, right: width - 10, top: 14,
            bottom: height - 40 });
        this.count = rows.length;
    }

    x(row) {
        const inner = this.count < 5 ? (this.right - this.left) / 8 : 16;
        if (this.count === 1) return (this.left + this.right) / 2;
        return this.left + inner + row * (this.right - this.left - 2 * inner) / (this.count - 1);
    }

    y(rate) {
        const [top, bottom] = [this.top + (this.cutHigh ? CUT : 0), this.bottom - (this.cutLow ? CUT : 0)];
        if (rate > this.high) return top - 5 - (CUT - 10) * (rate - this.high) / (this.highest - this.high || 1);
        if (rate < this.low) return bottom + 5 + (CUT - 10) * (this.low - rate) / (this.low - this.lowest || 1);
        return bottom - (rate - this.low) * (bottom - top) / (this.high - this.low);
    }
}

const text = (x, y, words, anchor, kind = '') =>
    `<text x="${near(x)}" y="${near(y)}" text-anchor="${anchor}" class="${kind}">${words}</text>`;
const line = (x1, y1, x2, y2, kind) =>
    `<line x1="${near(x1)}" y1="${near(y1)}" x2="${near(x2)}" y2="${near(y2)}" class="${kind}"/>`;

function rowTicks({ frequency, count, width }) {
    const most = width < 560 ? 6 : 12;
    const steps = [1, ...[4, 2].filter(part => frequency % part === 0
        && frequency > part).map(part => frequency / part),
        ...[1, 2, 5, 10, 20].map(k => frequency * k)].sort((a, b) => a - b);
    const step = steps.find(each => count - 1 <= each * most) ?? frequency * 60;
    return Array.from({ length: Math.floor((count - 1) / step) + 1 },
        (_, k) => [k * step, String(near(k * step / frequency * 100) / 100)]);
}

function ground(frame) {
    const zero = Math.min(Math.max(frame.y(0), frame.top), frame.bottom);
    const parts = [`<rect class="tint" x="${frame.left}" y="${near(zero)}" width="${frame.right - frame.left}" height="${near(Math.max(0, frame.bottom - zero))}"/>`];
    for (const [rate, words] of ticks(frame.low, frame.high, 8)) {
        parts.push(line(frame.left, frame.y(rate), frame.right, frame.y(rate), 'grid'),
            text(frame.left - 6, frame.y(rate) + 4, words, 'end'));
    }
    for (const [row, words] of rowTicks(frame)) {
        parts.push(line(frame.x(row), frame.bottom, frame.x(row), frame.bottom + 5, 'axis'),
            text(frame.x(row), frame.bottom + 18, words, 'middle'));
    }
    parts.push(line(frame.left, frame.top, frame.left, frame.bottom, 'axis'),
        line(frame.left, frame.bottom, frame.right, frame.bottom, 'axis'));
    parts.push(text((frame.left + frame.right) / 2, frame.height - 4, 'years from today', 'middle', 'name'));
    parts.push(text(0, 9, 'percent a year', 'start'));
    return parts.join('');
}

/** A torn line where the scale ends, and how many nodes stand beyond it. */
function torn(frame, y, count, upper) {
    const teeth = Math.max(1, Math.round((frame.right - frame.left) / 16));
    const half = (frame.right - frame.left) / teeth / 2;
    const tip = upper ? -3 : 3;
    const words = `cut: ${count} node${count === 1 ? '' : 's'} ${upper ? 'above' : 'below'}, to ${signed((upper ? frame.highest : frame.lowest).toFixed(1))} %, not to scale`;
    return `<path class="torn" d="M${frame.left} ${near(y)}${`l${half.toFixed(2)} ${tip}l${half.toFixed(2)} ${-tip}`.repeat(teeth)}"/>`
        + text(frame.left + 6, upper ? frame.top + 14 : frame.bottom - 8, words, 'start', 'halo');
}

// Branches and marks stand in tenths, as whole numbers, which are written and read faster.
const tenths = value => Math.round(value * 10);

function square(x, y, side) {
    return `M${x - (side >> 1)} ${y - (side >> 1)}h${side}v${side}h${-side}z`;
}

function circle(x, y, r) {
    return `M${x - r} ${y}a${r} ${r} 0 1 0 ${2 * r} 0a${r} ${r} 0 1 0 ${-2 * r} 0`;
}

/** Marks as few paths: circles and squares, without an outline where they are small, and dots of one size. */
function marks(nodes, dot = 0) {
    const paths = { above: [], below: [], 'below small': [], 'dots above': [], 'dots below': [] };
    for (const { x, y, size, rate } of nodes) {
        const [left, top] = [tenths(x), tenths(y)];
        if (size <= dot) paths[rate < 0 ? 'dots below' : 'dots above'].push(`M${left} ${top}h0`);
        else if (rate >= 0) paths.above.push(circle(left, top, tenths(size)));
        else paths[size < OUTLINED ? 'below small' : 'below'].push(square(left, top, tenths(1.8 * size)));
    }
    const width = { 'dots above': tenths(2 * dot), 'dots below': tenths(1.8 * dot) };
    return `<g transform="scale(.1)">${Object.entries(paths).map(([kind, parts]) => `<path class="marks ${kind}" `
        + `data-count="${parts.length}" ${width[kind] ? `stroke-width="${width[kind]}" ` : ''}d="${parts.join('')}"/>`).join('')}</g>`;
}

/** Three lines from each node, but for those that stay beyond one end of the scale. */
function branches(frame, rows, heights, lowestOf) {
    const parts = [];
    const beyond = rate => Number(rate > frame.high) - Number(rate < frame.low);
    for (let row = 0; row + 1 < rows.length; row += 1) {
        const [from, to, start, end] = [rows[row].rates, rows[row + 1].rates, heights[row], heights[row + 1]];
        const [x1, x2] = [tenths(frame.x(row)), tenths(frame.x(row + 1))];
        const shift = (to.length - 1) / 2;
        const half = (from.length - 1) / 2;
        for (let k = 0; k < from.length; k += 1) {
            const [lowest, out] = [lowestOf(row, k - half) + shift, beyond(from[k])];
            if (out && [0, 1, 2].every(more => beyond(to[lowest + more]) === out)) continue;
            parts.push(`M${x2} ${end[lowest]}L${x1} ${start[k]}L${x2} ${end[lowest + 2]}M${x1} ${start[k]}L${x2} ${end[lowest + 1]}`);
        }
    }
    return `<path class="branches" transform="scale(.1)" d="${parts.join('')}"/>`;
}

/** Every node with its place and half the width of its mark. */
function placed(frame, rows, heights, base) {
    const nodes = [];
    rows.forEach(({ rates, prices }, row) => {
        const [x, half, ys] = [frame.x(row), (rates.length - 1) / 2, heights[row]];
        for (let k = 0; k < rates.length; k += 1) {
            const size = Math.max(SMALLEST, base * Math.max(SMALLEST_PART, Math.sqrt(prices[k])));
            nodes.push({ row, number: k - half, rate: rates[k], x, y: ys[k] / 10, size });
        }
    });
    return nodes;
}

/** Half the width of a mark whose state price is one: as large as the neighbours leave room for. */
function largest(frame, rows) {
    const last = rows[rows.length - 1].rates.filter(rate => rate >= frame.low && rate <= frame.high);
    const across = (frame.right - frame.left) / rows.length;
    const upwards = last.length > 1 ? (frame.y(last[0]) - frame.y(last[last.length - 1])) / (last.length - 1) : across;
    return Math.min(LARGEST, 0.5 * across, Math.max(2, 1.5 * upwards));
}

/** The picture of a tree and the places of its nodes. Rows have rates in percent a year and state prices. */
export function treePicture({ rows, frequency, lowestOf, exercised, side }, width, height) {
    const frame = new Frame(rows, frequency, width, height);
    const base = largest(frame, rows);
    const heights = rows.map(({ rates }) => rates.map(rate => tenths(frame.y(rate))));
    const nodes = placed(frame, rows, heights, base);
    const cut = [[true, nodes.filter(node => node.rate > frame.high).length],
        [false, nodes.filter(node => node.rate < frame.low).length]];
    const dates = exercised.filter(row => row < rows.length).map(row => line(frame.x(row), frame.top, frame.x(row),
        frame.bottom, 'date')
        + `<path class="flag" d="M${near(frame.x(row) - 4)} ${frame.top - 9}h8l-4 8z"/>`).join('');
    const svg = [ground(frame), dates, branches(frame, rows, heights, lowestOf),
        marks(nodes, Math.max(SMALLEST, base * SMALLEST_PART)),
        line(frame.left, frame.y(0), frame.right, frame.y(0), 'zero'),
        text(frame.right - 2, frame.y(0) - 4, '0 %', 'end', 'name halo'),
        ...cut.filter(([upper]) => upper ? frame.cutHigh : frame.cutLow).map(
            ([upper, count]) => torn(frame, upper ? frame.top + CUT : frame.bottom - CUT, count, upper)),
        '<circle id="ring" r="0" visibility="hidden"/>'];
    return { svg: svg.join(''), nodes, side };
}

/** Continuous zero rates in percent by years, with a mark at each point that was asked. */
export function curvePicture(along, points, width, height) {
    const rates = [...along, ...points].map(([, rate]) => rate);
    const span = [Math.min(0, ...rates), Math.max(0, ...rates)];
    const rows = [{ rates: span, prices: [1, 1] }];
    const frame = new Frame(rows, 1, width, height);
    const last = along[along.length - 1][0];
    const x = time => frame.left + 12 + time / last * (frame.right - frame.left - 24);
    frame.count = 1;
    const parts = ticks(frame.low, frame.high, 6).map(
        ([rate, words]) => line(frame.left, frame.y(rate), frame.right, frame.y(rate), 'grid')
        + text(frame.left - 6, frame.y(rate) + 4, words, 'end'));
    for (const [time, words] of ticks(0, last, width < 560 ? 5 : 10)) {
        parts.push(line(x(time), frame.bottom, x(time), frame.bottom + 5, 'axis'),
            text(x(time), frame.bottom + 18, words, 'middle'));
    }
    const zero = Math.min(Math.max(frame.y(0), frame.top), frame.bottom);
    const tint = `<rect class="tint" x="${frame.left}" y="${near(zero)}" width="${frame.right - frame.left}" height="${near(frame.bottom - zero)}"/>`;
    const path = along.map(([time, rate], k) => `${k ? 'L' : 'M'}${near(x(time))} ${near(frame.y(rate))}`).join('');
    const dots = marks(points.map(([time, rate]) => ({ x: x(time), y: frame.y(rate), size: 4, rate })));
    return [tint, ...parts, line(frame.left, frame.top, frame.left, frame.bottom, 'axis'),
        line(frame.left, frame.bottom, frame.right, frame.bottom, 'axis'),
        `<path class="curve" d="${path}"/>`, dots, line(frame.left, frame.y(0), frame.right, frame.y(0), 'zero'),
        text((frame.left + frame.right) / 2, frame.height - 4, 'years from today', 'middle', 'name')].join('');
}
