"""Pictures, pages and tables of a tree: of a sheet alone, or with what its job says."""
from collections import namedtuple

from . import answers, kinds, page, pictures, sheets, texts
from .job_tree import job_tree
from .streams import Stop, put

# A sheet or the number of a refusal, and the job's tree or None.
Drawn = namedtuple('Drawn', 'sheet tree')


def is_job_or_text(content):
    """Whether standard input is a job or a text rather than a sheet: a job begins with its first tag, a text tells a frequency."""
    return content[:1] == b'\x01' or b'frequency' in content.lower()


def drawn_answer(content, name, beside, beside_name):
    """What is to be drawn: of a job by the engine, or of a sheet, with a job beside it or alone."""
    if name != 'standard input' or beside is None and is_job_or_text(content):
        found = answers.answer(content, name)
        return Drawn(found.sheet, None if isinstance(found.sheet, int) else job_tree(found.job, found.printed))
    kinds.expected(content, name, 'sheet', kinds.SHEET, kinds.TEXT, kinds.PLAIN)
    job = None if beside is None else texts.job_of(beside, beside_name)
    try:
        sheet = sheets.read(content)
    except sheets.NoSheet as why:
        raise Stop(f'no sheet: {why}')
    return Drawn(sheet, job_tree(job, content) if job is not None and not isinstance(sheet, int) else None)


# As data

def prices_data(sheet):
    return {name: {'price': price, 'error_bound_in_billionths': int(bound)} for name, price, bound in answers.prices(sheet)}


def node_rows(sheet):
    return [(node.row, node.number, node.discount, node.rate) for row in sheet.rows for node in row]


def tree_data(sheet):
    """Nodes and rows of a sheet, amounts and percents as texts, which keep every digit."""
    nodes = [{'row': row, 'node': number, 'discount': discount, 'step_rate_in_percent': rate} for row, number, discount, rate in node_rows(sheet)]
    rows = [{'row': int(row), 'quote': quote, 'state_price_sum': total, 'error_bound_in_billionths': int(bound)} for row, quote, total, bound in sheet.quotes]
    return {'nodes': nodes, 'rows': rows}


def drawn_data(found):
    """The same with what the job adds to a node."""
    shown = {**prices_data(found.sheet), **tree_data(found.sheet)}
    if found.tree:
        drawing = pictures.Drawing(found.sheet, found.tree)
        for entry, node in zip(shown['nodes'], drawing.nodes):
            entry.update(years=drawing.years(node.row), yearly_rate_in_percent=drawing.rate_text(node), state_price=drawing.state_price(node))
    return shown


def put_drawing(found, form, as_page, name):
    """Draws, or shows the numbers of a drawing; a page names the file. The status."""
    if isinstance(found.sheet, int):
        if form:
            return answers.refused(found.sheet, form)
        put((page.refusal_page(found.sheet, name) if as_page else pictures.refusal_picture(found.sheet)).encode())
        return answers.REFUSED
    if form == 'json':
        answers.put_json(drawn_data(found))
    elif form == 'csv':
        nodes = drawn_data(found)['nodes']
        answers.put_csv(list(nodes[0]), [list(node.values()) for node in nodes])
    else:
        drawing = pictures.Drawing(found.sheet, found.tree)
        put((page.tree_page(drawing, name) if as_page else pictures.tree_picture(drawing)).encode())
    return answers.SHOWN
