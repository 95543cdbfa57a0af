"""Where the kit is, and the crates below one, lowest first, as crates.txt has them."""
import os, pathlib, re, shutil, subprocess, sys

ROOT = pathlib.Path(os.environ.get('ROOT') or subprocess.run(['git', 'rev-parse', '--show-toplevel'], capture_output=True, text=True).stdout.strip())


def kit():
    found = pathlib.Path(shutil.which('rt') or sys.exit('no rt in the path')).resolve()
    while found != found.parent and not (found / 'rlibs').is_dir():
        found = found.parent
    return found if (found / 'rlibs').is_dir() else sys.exit('no kit above rt')


KIT = kit()
USES = {}
for line in open(ROOT / 'crates.txt'):
    name, _, on = line.split('#')[0].strip().partition(':')
    if name:
        USES[name.split()[0]] = on.split()


def below(crate):
    order = []

    def visit(name):
        for used in USES[name]:
            if used in USES and used not in order:
                visit(used)
        order.append(name)

    visit(crate)
    return list(dict.fromkeys(order))[:-1]


def as_source(crate):
    """The words that hand a crate over as source."""
    uses = [it for it in USES[crate] if it not in USES] + [it for it in USES[crate] if it in USES]
    return ['--lib', f"{crate}:{','.join(dict.fromkeys(['core', 'std', *uses]))}={ROOT}/crates/{crate}/src/lib.rt"]


def of_kit(crates):
    return sorted({used for crate in crates for used in USES[crate] if used not in USES})


def kit_as_source(names):
    words, names = [], list(dict.fromkeys(['std', 'core', *names]))
    for name in names:
        uses = re.findall(r'^dep (\w+)$', (KIT / f'rlibs/{name}.rlib/format').read_text(), re.M)
        names += [it for it in uses if it not in names]
        words += ['--lib', f"{name}:{','.join(uses)}={KIT}/rattle/{name}/src/lib.rt"]
    return words
