#!/usr/bin/env python3
"""Runs the cells of a script and writes them with what they show, as a notebook and as a page.

    tools/notebook.py FILE.py                    # writes FILE.ipynb beside it
    tools/notebook.py FILE.py --page PAGE.html   # writes the same as a page, which needs nothing else
    tools/notebook.py FILE.py --check            # says whether FILE.ipynb is as it would be written

A cell begins with `# %%`; with `# %% [markdown]` it is text. A cell whose first line is `# needs PACKAGE` keeps what it showed before where that package
is not installed. Cells run in the folder of the script, with the package of this repository; plain rows are shown whether or not pandas is there.
"""
import ast
import contextlib
import html
import importlib.util
import io
import json
import os
import pathlib
import re
import sys

sys.dont_write_bytecode = True
ROOT = pathlib.Path(__file__).resolve().parent.parent
STYLE = '''body { margin: 0 auto; max-width: 1000px; padding: 16px; font: 15px/1.45 Helvetica, Arial, sans-serif; color: #1f2430; background: #fff; }
pre { overflow-x: auto; padding: 8px 10px; font-size: 12px; } pre.code { background: #f2f4f7; } pre.shown { border-left: 3px solid #9aa1ad; }
@media screen and (prefers-color-scheme: dark) { body { color: #e8eaee; background: #14171c; } pre.code { background: #1e232b; } a { color: #56b4e9; } }
@media print { pre { white-space: pre-wrap; overflow: visible; } }'''


def cells(text):
    """Pairs of whether a cell is text, and its lines."""
    found = []
    for part in re.split(r'^# %%', text, flags=re.M)[1:]:
        first, _, rest = part.partition('\n')
        words = first.strip() == '[markdown]'
        body = re.sub(r'^# ?', '', rest, flags=re.M) if words else rest
        found.append((words, body.strip('\n')))
    return found


def lacking(code):
    """The package that a cell needs and that is not installed."""
    found = re.match(r'# needs (\w+)', code)
    return found[1] if found and not importlib.util.find_spec(found[1]) else None


def ran(code, space):
    """What a cell prints, and what its last line shows."""
    tree, printed, value = ast.parse(code), io.StringIO(), None
    last = tree.body.pop() if tree.body and isinstance(tree.body[-1], ast.Expr) else None
    with contextlib.redirect_stdout(printed):
        exec(compile(tree, 'cell', 'exec'), space)
        if last is not None:
            value = eval(compile(ast.Expression(last.value), 'cell', 'eval'), space)
    outputs = [{'output_type': 'stream', 'name': 'stdout', 'text': printed.getvalue().splitlines(True)}] if printed.getvalue() else []
    return outputs + ([shown(value)] if value is not None else [])


def shown(value):
    data = {'text/plain': [repr(value)]}
    for kind, method in (('image/svg+xml', '_repr_svg_'), ('text/html', '_repr_html_')):
        if hasattr(value, method):
            data = {kind: getattr(value, method)().splitlines(True), **data}
            break
    return {'output_type': 'display_data', 'data': data, 'metadata': {}}


def notebook(path, before):
    """The notebook of a script; before holds what the cells showed when they were last run."""
    space, made = {'__name__': '__main__'}, []
    for place, (words, body) in enumerate(cells(path.read_text())):
        cell = {'cell_type': 'markdown' if words else 'code', 'id': f'cell-{place}', 'metadata': {}, 'source': body.splitlines(True)}
        if not words:
            kept = lacking(body) and before.get(body)
            cell.update(execution_count=None, outputs=kept if kept is not None else ran(body, space))
        made.append(cell)
    kernel = {'display_name': 'Python 3', 'language': 'python', 'name': 'python3'}
    return {'cells': made, 'metadata': {'kernelspec': kernel, 'language_info': {'name': 'python'}}, 'nbformat': 4, 'nbformat_minor': 5}


def paragraphs(text):
    """Headings, paragraphs, code words and links of a text, as HTML."""
    for part in re.split(r'\n\s*\n', text):
        line = html.escape(part.replace('\n', ' ').strip(), quote=False)
        line = re.sub(r'`([^`]+)`', r'<code>\1</code>', re.sub(r'\[([^]]+)\]\(([^)]+)\)', r'<a href="\2">\1</a>', line))
        head = re.match(r'(#+) (.*)', line)
        yield f'<h{len(head[1])}>{head[2]}</h{len(head[1])}>' if head else f'<p>{line}</p>'


def output_html(output):
    if output['output_type'] == 'stream':
        return f'<pre class="shown">{html.escape("".join(output["text"]))}</pre>'
    data = output['data']
    rich = data.get('image/svg+xml') or data.get('text/html')
    return ''.join(rich) if rich else f'<pre class="shown">{html.escape("".join(data["text/plain"]))}</pre>'


def page(made):
    parts = []
    for cell in made['cells']:
        if cell['cell_type'] == 'markdown':
            parts += paragraphs(''.join(cell['source']))
        else:
            parts += [f'<pre class="code">{html.escape("".join(cell["source"]))}</pre>', *map(output_html, cell['outputs'])]
    title = ''.join(made['cells'][0]['source']).splitlines()[0].lstrip('# ')
    head = f'<meta charset="utf-8"><meta name="viewport" content="width=device-width, initial-scale=1"><title>{html.escape(title)}</title>'
    return f'<!DOCTYPE html>\n<html lang="en"><head>{head}<style>{STYLE}</style></head><body>\n' + '\n'.join(parts) + '\n</body></html>\n'


def main(arguments):
    if '-h' in arguments or '--help' in arguments:
        print(__doc__.strip())
        return 0
    how = arguments[1:]
    if not arguments or how not in ([], ['--check']) and (len(how) != 2 or how[0] != '--page') or not pathlib.Path(arguments[0]).is_file():
        sys.exit('usage: tools/notebook.py FILE.py [--check | --page PAGE.html]')
    path, out = pathlib.Path(arguments[0]).resolve(), pathlib.Path(how[-1]).resolve() if how else None
    told = path.with_suffix('.ipynb')
    sys.path[:0] = [str(path.parent), str(ROOT / 'python')]
    os.chdir(path.parent)
    before = json.loads(told.read_text())['cells'] if told.exists() else []
    made = notebook(path, {''.join(cell['source']): cell['outputs'] for cell in before if cell['cell_type'] == 'code'})
    text = json.dumps(made, indent=1, ensure_ascii=False) + '\n'
    if how == ['--check']:
        same = told.exists() and told.read_text() == text
        print(f'{told.name} is {"as committed" if same else "not what its cells show now"}')
        return 0 if same else 1
    if out:
        out.write_text(page(made))
    else:
        told.write_text(text)
    return 0


if __name__ == '__main__':
    sys.exit(main(sys.argv[1:]))
