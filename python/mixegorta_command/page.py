"""A page of a sheet's tree: one HTML file that needs nothing else, from page.html and page.js beside this file."""
import html
import json
import pathlib
from decimal import Decimal

from . import pictures, sheets
from .about import source_of
from .pictures import signed

HERE = pathlib.Path(__file__).resolve().parent
ABOVE_TREE, BELOW_TREE = 46, 52
DIGITS_OF_100 = 2
BOUND = ('The last column says how far the exact price on this tree may be, per 100. It is no distance from the market: what the length of the steps costs '
         'shows in the same job with other steps.')
HINT = 'Point at a node, or tap it, for its numbers; a click keeps them, and the arrow keys go from node to node.'


def filled(title, body):
    template = (HERE / 'page.html').read_text()
    return template.replace('{{title}}', html.escape(title)).replace('{{body}}', body)


def paragraph(text, kind=''):
    return f'<p class="{kind}">{html.escape(text)}</p>' if kind else f'<p>{html.escape(text)}</p>'


# The tree and its numbers

def tree_svg(drawing):
    """The tree with its axes, without titles, since the page shows a node's numbers itself."""
    frame = drawing.frame
    top, height = frame.top - ABOVE_TREE, frame.bottom - frame.top + ABOVE_TREE + BELOW_TREE
    start = (f'<svg id="tree" xmlns="http://www.w3.org/2000/svg" viewBox="0 {top} {pictures.WIDTH} {height}" tabindex="0" role="img" '
             f'data-left="{frame.left:.1f}" data-right="{pictures.RIGHT}" aria-label="{pictures.title(drawing)}">')
    return '\n'.join([start, pictures.style(), *pictures.legend(drawing), *pictures.tree_parts(drawing, titled=False),
                      '<circle id="ring" visibility="hidden"/>', '</svg>'])


def node_data(drawing, node):
    x, y = drawing.place(node)
    data = {'row': node.row, 'number': node.number, 'x': round(x, 1), 'y': round(y, 1), 'size': round(drawing.mark_size(node), 1),
            'discount': node.discount, 'rate': node.rate}
    if drawing.job:
        data.update(years=drawing.years(node.row), yearly=drawing.rate_text(node), price=drawing.state_price(node))
    return data


def tree_data(drawing):
    """Every node with its place and numbers, as the page's script reads them."""
    data = {'nodes': [node_data(drawing, node) for node in drawing.nodes]}
    if drawing.job:
        data.update(frequency=drawing.job.frequency, branches=drawing.job.branches)
    return json.dumps(data, separators=(',', ':'))


# Prices and inputs

def per_100(amount):
    """An amount of the sheet, for a notional of one, for a hundred: the same digits."""
    return f'{Decimal(amount).scaleb(DIGITS_OF_100):f}'


def price_lines(drawing):
    """Bond and option per 100, and with a job what the bond with its option costs, with the sum of both bounds."""
    sheet = drawing.sheet
    found = [('bond', *sheet.bond)] + ([('option', *sheet.option)] if sheet.option else [])
    lines = [(name, per_100(price), per_100(Decimal(bound).scaleb(-9))) for name, price, bound in found]
    if sheet.option and drawing.job:
        name, sign = ('callable bond: bond less call', -1) if 'call' in drawing.job.option.split(' on ')[0].split(',')[0] else ('puttable bond: bond and put', 1)
        bound = per_100(Decimal(int(sheet.bond[1]) + int(sheet.option[1])).scaleb(-9))
        lines.append((name, per_100(Decimal(sheet.bond[0]) + sign * Decimal(sheet.option[0])), bound))
    return lines


def prices_table(drawing):
    heads = ''.join(f'<th scope="col">{name}</th>' for name in ('', 'per 100', 'exact on this tree to'))
    lines = ''.join(f'<tr><th scope="row">{name}</th><td>{price}</td><td>{bound}</td></tr>' for name, price, bound in price_lines(drawing))
    return f'<table id="prices"><thead><tr>{heads}</tr></thead><tbody>{lines}</tbody></table>'


def shown_days(drawing):
    rows = drawing.job.dates
    if len(rows) > 2 and rows == tuple(range(rows[0], rows[-1] + 1)):
        return f'every row from {rows[0]} to {rows[-1]}, {drawing.years(rows[0])} to {drawing.years(rows[-1])} years from today'
    return ', '.join(f'row {row} ({drawing.years(row)} years)' if row else 'row 0 (today)' for row in rows)


def inputs(drawing):
    """The job's own figures, with yearly ones beside those of a step."""
    job = drawing.job
    yearly = Decimal(job.reversion * job.frequency).scaleb(-4)
    pairs = [('steps', f'{len(drawing.sheet.rows)}, {job.frequency} a year'), ('reversion', f'{job.reversion / 10_000:g} a step, {yearly.normalize():f} a year'),
             ('volatility', f'{job.volatility / 10_000:g} % a year, {job.volatility / 100:g} basis points'),
             ('version', f'{job.version}' + (f', working as {job.working_reversion / 10_000:g} a step' if job.version != 1 else ''))]
    if job.option:
        pairs += [('option', job.option), ('exercise', shown_days(drawing))]
    return f'<dl id="inputs">{"".join(f"<dt>{name}</dt><dd>{html.escape(text)}</dd>" for name, text in pairs)}</dl>'


def legend(drawing):
    """What the marks mean, for a window that has no room for it in the picture."""
    below = sum(node.rate.startswith('-') for node in drawing.nodes)
    area = '; the area of a mark is the state price' if drawing.job else ''
    return (f'<p id="legend"><span class="above">\u25cf</span> rate zero or above ({len(drawing.nodes) - below:,}) <span class="below">\u25a0</span> '
            f'rate below zero ({below:,}), on tinted ground{area}</p>')


# The rows

def rate_cell(drawing, node):
    kind = 'below' if node.rate.startswith('-') else 'above'
    return f'<td class="{kind}">{signed(drawing.rate_text(node))}</td>'


def row_line(drawing, row):
    """A row's numbers: no quote belongs to row 0, and no rate to the last row."""
    nodes = drawing.sheet.rows[row] if row < len(drawing.sheet.rows) else None
    quote = drawing.sheet.quotes[row - 1][1:] if row else ('', '', '')
    cells = [f'<td>{row}</td>'] + ([f'<td>{drawing.years(row)}</td>'] if drawing.job else [])
    cells += [f'<td>{len(nodes)}</td>', rate_cell(drawing, nodes[0]), rate_cell(drawing, nodes[-1])] if nodes else ['<td></td>'] * 3
    cells += [f'<td>{text}</td>' for text in quote]
    if drawing.job:
        cells += [f'<td>{per_100(drawing.job.flows[row - 1]) if row else ""}</td>', f'<td>{"exercise" if drawing.exercised(row) else ""}</td>']
    return f'<tr>{"".join(cells)}</tr>'


def rows_table(drawing):
    rate = 'yearly rate, %' if drawing.job else 'step rate, %'
    names = ['row'] + (['years'] if drawing.job else []) + ['nodes', f'lowest {rate}', f'highest {rate}', 'quoted discount',
                                                              'sum of state prices', 'exact on this tree to, billionths'] + (
        ['flow, per 100', 'option'] if drawing.job else [])
    lines = [row_line(drawing, row) for row in range(len(drawing.sheet.rows) + 1)]
    heads = ''.join(f'<th scope="col">{name}</th>' for name in names)
    return f'<table><thead><tr>{heads}</tr></thead><tbody>\n' + '\n'.join(lines) + '\n</tbody></table>'


def sources(drawing):
    yield paragraph('From the sheet, as the sheet program printed it: discounts and step rates of the nodes, the quoted discount, the sum of state prices and the '
                    'bound of each row, and the prices with their bounds. Row 0 has no quote, and the last row no rates.')
    if not drawing.job:
        yield paragraph('A sheet does not say how long a step is, nor the state price of a node: mixegorta draw --job FILE works them out from its job.')
        return
    yield paragraph(f'Worked out from the job by reference/reference.py, which is written apart from the proved engine: years (row\u00a0/\u00a0{drawing.job.frequency}), yearly rates '
                    f'({drawing.job.frequency} \u00d7 step rate), the state price of each node, and where a node leads and how likely. The reference worked the whole sheet out '
                    'too, and every line of it was the same.')
    yield paragraph('The area of a mark is the state price of its node: what one paid at this node alone is worth today. The smallest are drawn as dots.')


def source(name):
    return f'<p id="source" class="soft">{html.escape(source_of(name))}</p>'


def tree_page(drawing, name):
    title = pictures.title(drawing)
    return filled(title, '\n'.join([
        f'<h1>{title}</h1>', source(name), f'<div id="head">{prices_table(drawing)}{inputs(drawing) if drawing.job else ""}</div>', paragraph(BOUND, 'soft'),
        paragraph(HINT, 'soft hint'), f'<div id="scroll">{tree_svg(drawing)}<div id="note" role="status" hidden></div></div>', legend(drawing),
        '<h2>Rows</h2>', f'<div id="rows">{rows_table(drawing)}</div>',
        '<h2>Where the numbers come from</h2>', *sources(drawing),
        f'<script type="application/json" id="data">{tree_data(drawing)}</script>',
        f'<script>\n{(HERE / "page.js").read_text()}</script>']))


def refusal_page(number, name):
    cause, advice = sheets.refusal_words(number)
    return filled(f'Refused {number}', f'<h1 class="below">Refused {number}</h1>\n{source(name)}\n' + paragraph(f'{cause[0].upper()}{cause[1:]}.') + '\n' + paragraph(f'What to do: {advice}.'))
