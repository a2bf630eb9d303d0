"""What was proved of each crate: the lines of its proof, kept in target/log/CRATE.say with a sum of what they are of.

The gate prints them of a crate that it proves, and of one that an earlier run on this machine passed only that it did. Of such a
crate whose lines are not kept here, the kit's check prints them again, over what it kept in the crate's folder; that the crate is
proved is what the gate says."""
import functools
import hashlib
import re
import subprocess
import sys

sys.dont_write_bytecode = True
import building

ROOT = building.ROOT
LOGS, GATE = ROOT / 'target/log', ROOT / 'target/gate.log'
# The lines of a crate in what the gate prints; those of its tests stand apart.
SECTION = re.compile(r'^== (\w+)\n((?:(?!== ).*\n)*?)rt: \1 proved$', re.M)
# Its last line: the functions, the axioms where there are any, and the sum of the logic.
LOGIC = re.compile(r'^logic=proved functions=(\d+)(?: axioms=(\d+))?.*? sum=(\w+)', re.M)


class Failed(Exception):
    """What is not proved, in a sentence."""


@functools.lru_cache(maxsize=None)
def kit():
    """The kit's one-line identity."""
    return subprocess.run(['rt', 'version'], stdout=subprocess.PIPE, text=True, check=True).stdout.strip()


@functools.lru_cache(maxsize=None)
def source_sum(crate):
    """The SHA-256 of a crate's sources: of each file's name, size and bytes, in the order of names."""
    folder, digest = ROOT / 'crates' / crate, hashlib.sha256()
    for path in sorted(path for part in ('src', 'specs', 'proofs') for path in (folder / part).rglob('*') if path.is_file()):
        content = path.read_bytes()
        digest.update(f'{path.relative_to(folder)} {len(content)}\n'.encode() + content)
    return digest.hexdigest()


def state(crate):
    """A sum of what a crate's proof rests on: the kit, its sources and those of the crates below."""
    named = building.listed()
    lines = [f'{each} {" ".join(named[each])} {source_sum(each)}\n' for each in building.order(crate)]
    return hashlib.sha256(''.join([kit(), *lines]).encode()).hexdigest()


def keep(crate, said):
    LOGS.mkdir(parents=True, exist_ok=True)
    (LOGS / f'{crate}.say').write_text(f'of {state(crate)}\n{said}', encoding='utf-8')


def gate():
    """Runs the gate, which proves what changed since it passed, and keeps the lines of what it proves; whether it passes."""
    GATE.parent.mkdir(exist_ok=True)
    passed = building.proved(['rt', 'ci'], list(building.listed()), GATE)
    for crate, said in SECTION.findall(GATE.read_text(encoding='utf-8', errors='replace')):
        keep(crate, said)
    return passed


def line(crate):
    """The functions of a proved crate, the axioms that its proof reached, and the sum of the logic."""
    log = LOGS / f'{crate}.say'
    lines = log.read_text(encoding='utf-8', errors='replace').splitlines() if log.is_file() else ['']
    if lines[0] != f'of {state(crate)}' or not LOGIC.search('\n'.join(lines)):
        made = subprocess.run(['rt', 'check'], cwd=ROOT / 'crates' / crate, stdin=subprocess.DEVNULL, stdout=subprocess.PIPE, stderr=subprocess.STDOUT,
                              text=True, errors='replace')
        keep(crate, made.stdout)
        lines = made.stdout.splitlines()
    found = LOGIC.findall('\n'.join(lines))
    if not found:
        raise Failed(f'target/log/{crate}.say does not say that {crate} is proved')
    functions, axioms, logic = found[-1]
    return int(functions), int(axioms or 0), logic
