#!/usr/bin/env python3
"""Writes the page, one file that holds engine, style and script: tools/page [FILE], dist/mixegorta.html by itself.

The modules of page/ and javascript/ are put into one script in the order of their imports, each in a scope of its own. The
policy in the page names the sums of its script and its style, and allows nothing else: no request leaves it. Two runs give
the same bytes. Needs the Rattle kit for the engine, as tools/targets does.
"""
import base64
import hashlib
import pathlib
import re
import sys

sys.dont_write_bytecode = True
import compiling
import usage
import version

ROOT = compiling.ROOT
PAGE = ROOT / 'page'
IMPORT = re.compile(r"^import \{([^}]*)\} from '([^']+)';\n", re.M)
EXPORTED = re.compile(r'^export (?=(?:async )?(?:const|let|class|function\*?) (\w+))', re.M)
LISTED = re.compile(r'^export \{([^}]*)\};\n', re.M)
MOST_BYTES = 300_000


def imports(path):
    """The modules that a module imports, in their order."""
    return [(path.parent / name).resolve() for _, name in IMPORT.findall(path.read_text(encoding='utf-8'))]


def ordered(path, done=None):
    """A module and all that it imports, each after what it imports itself."""
    done = [] if done is None else done
    for each in imports(path):
        if each not in done:
            ordered(each, done)
    if path not in done:
        done.append(path)
    return done


def variable(path):
    return 'of_' + re.sub(r'\W', '_', str(path.relative_to(ROOT).with_suffix('')))


def scoped(path):
    """A module as a function that is called at once and gives what the module exports."""
    text = path.read_text(encoding='utf-8')
    given = EXPORTED.findall(text) + [name.strip() for listed in LISTED.findall(text) for name in listed.split(',')]
    text = EXPORTED.sub('', LISTED.sub('', text))
    text = IMPORT.sub(lambda found: f'const {{{found[1]}}} = {variable((path.parent / found[2]).resolve())};\n', text)
    if re.search(r'^(?:import|export)\b', text, re.M):
        raise compiling.Failed(f'{path.relative_to(ROOT)} imports or exports in a way that the page knows not')
    return f'const {variable(path)} = (() => {{\n{text}\nreturn {{ {", ".join(given)} }};\n}})();\n'


def script(wasm):
    parts = [scoped(path) for path in ordered((PAGE / 'main.js').resolve())]
    return "'use strict';\n" + ''.join(parts) + f"of_page_main.start('{base64.b64encode(wasm).decode()}');\n"


def sum_of(text):
    return 'sha256-' + base64.b64encode(hashlib.sha256(text.encode()).digest()).decode()


def page():
    """The whole page as a text."""
    wasm = compiling.targets(['wasm32'])['wasm32'][0].read_bytes()
    code, style = '\n' + script(wasm), '\n' + (PAGE / 'style.css').read_text(encoding='utf-8')
    if '</script' in code or '</style' in style:
        raise compiling.Failed('a script or a style ends itself')
    policy = (f"default-src 'none'; script-src '{sum_of(code)}' 'wasm-unsafe-eval'; style-src '{sum_of(style)}'; "
              "base-uri 'none'; form-action 'none'")
    filled = {'policy': policy, 'style': style, 'script': code, 'version': version.header_versions()[0][1]}
    text = (PAGE / 'page.html').read_text(encoding='utf-8')
    text = re.sub(r'\{\{(\w+)\}\}', lambda found: filled[found[1]], text)
    if len(text.encode()) >= MOST_BYTES:
        raise compiling.Failed(f'the page has {len(text.encode()):,} bytes, and must have below {MOST_BYTES:,}')
    return text


def main(arguments):
    usage.answer(__doc__, arguments, most=1)
    out = pathlib.Path(arguments[0]) if arguments else ROOT / 'dist/mixegorta.html'
    try:
        text = page()
        out.parent.mkdir(parents=True, exist_ok=True)
        out.write_text(text, encoding='utf-8')
    except (compiling.Failed, OSError) as why:
        print(why, file=sys.stderr)
        return 1
    print(f'{out} {len(text.encode())} bytes')
    return 0


if __name__ == '__main__':
    sys.exit(main(sys.argv[1:]))
