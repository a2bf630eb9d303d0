"""The completion of bash and the manual page of the command, from what its parts say of themselves.

    python3 -m mixegorta_command.pages FOLDER    writes both below a folder, in their places
"""
import pathlib
import re
import sys

from . import command

COMPLETION, PAGE = 'share/bash-completion/completions/mixegorta', 'share/man/man1/mixegorta.1'


def options(part):
    """Pairs of an option and its help, without --help."""
    actions = command.part_parser(part, 'mixegorta')._actions
    return [(action.option_strings[-1] + (f' {action.metavar}' if action.metavar else ''), action.help) for action in actions
            if action.option_strings and '--help' not in action.option_strings]


def completion():
    cases = ''.join(f'    {part}) words="{" ".join(word.split()[0] for word, _ in options(part))} --help" ;;\n' for part in command.PARTS)
    return f'''# The completion of bash for mixegorta.
_mixegorta() {{
    local words="" word=${{COMP_WORDS[COMP_CWORD]}}
    if [ "$COMP_CWORD" -eq 1 ]; then
        mapfile -t COMPREPLY < <(compgen -W "{' '.join(command.PARTS)} --help --version" -- "$word")
        return
    fi
    case ${{COMP_WORDS[1]}} in
{cases}    esac
    case $word in
    -*) mapfile -t COMPREPLY < <(compgen -W "$words" -- "$word") ;;
    *) compopt -o filenames && mapfile -t COMPREPLY < <(compgen -f -- "$word") ;;
    esac
}}
complete -F _mixegorta mixegorta
'''


def roff(text):
    """Plain text: no line of it is taken for a request."""
    text = text.replace('\\', '\\e').replace('-', '\\-')
    return re.sub(r"^(?=[.'])", r'\\&', text, flags=re.M)


def section(part):
    lines = [f'.SS {part}', '.nf', roff(command.ABOUT[part][1]), '.fi']
    for word, told in options(part):
        lines += ['.TP', f'\\fB{roff(word)}\\fR', roff(told)]
    return lines


def page():
    lines = [f'.TH MIXEGORTA 1 "" "mixegorta {command.version()}"', '.SH NAME', f'mixegorta \\- {roff(command.SUMMARY[0].lower() + command.SUMMARY[1:-1])}',
             '.SH SYNOPSIS', *(f'.B mixegorta {part}\n[\\fIOPTIONS\\fR] [\\fIFILE\\fR]\n.br' for part in command.PARTS),
             '.SH DESCRIPTION', roff(command.OUTSIDE), '.SH PARTS']
    for part in command.PARTS:
        lines += section(part)
    return '\n'.join(lines) + '\n'


def files():
    """The text of each by its place below a prefix."""
    return {COMPLETION: completion(), PAGE: page()}


def main(arguments):
    if len(arguments) != 1 or arguments[0].startswith('-'):
        print(__doc__.strip())
        return 0 if arguments in (['-h'], ['--help']) else 2
    for place, text in files().items():
        path = pathlib.Path(arguments[0]) / place
        path.parent.mkdir(parents=True, exist_ok=True)
        path.write_text(text, encoding='utf-8')
    return 0


if __name__ == '__main__':
    sys.exit(main(sys.argv[1:]))
