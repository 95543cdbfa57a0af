#!/usr/bin/env python3
"""Which definitions of specs/ a statement rests on, and how many lines they are.

    python3 bench/believed.py [--world] [--missed] [NAME..]

At the top of the repository. It starts from `IsScript`, which says which bytes are a script, and `WritesLines`, which says what is written for it
(with --world from `WritesText` in its place, or from the definitions that are named), and follows every name that a definition uses to the
definition that the file itself or its `use` lines give it. It prints, for each file of specs/ that is reached, how many of its lines are reached and
how many aren't (comments, imports and empty lines not counted), with --missed also the names of those that aren't; and then the types that the
definitions import from the code, with the lines of their declarations."""
import pathlib, re, sys

ROOT = pathlib.Path('crates')
WORD = re.compile(r'[^\s(){};,.λ]+')
QUALIFIED = re.compile(r'([^\s(){};,.λ]+)\.([^\s(){};,.λ]+)')
BINDER = re.compile(r'\(([^():]+) :|λ ([^.]+)\.')
HEAD = re.compile(r'(?:abbrev pub|pub data|pub record|unfoldable pub|abbrev|data|record|unfoldable|pub) (\S+)')


def statements(text):
    """The statements of a file: lists of lines, each from a line that isn't indented to the next one."""
    found = []
    for line in text.splitlines():
        if not line.strip() or line.lstrip().startswith('--'):
            continue
        if line[0] in ' })' and found:
            found[-1].append(line)
        else:
            found.append([line])
    return found


def imports(statement):
    """What a `use` line brings into scope: pairs of a name and where it is from; a module's name ends in a dot."""
    body = re.sub(r'^(?:pub )?use Rattle\.', '', ' '.join(line.strip() for line in statement))
    if '.{' in body:
        module, names = body.rstrip('} ').split('.{', 1)
        for item in names.split(','):
            name, _, new = item.strip().partition(' as ')
            yield (new or name).strip(), (module, name.strip())
    else:
        module, _, new = body.partition(' as ')
        yield (new or module.split('.')[-1]).strip() + '.', (module.strip(), '')


class File:
    """One file of specs/: the statements of each definition, and what its names mean."""

    def __init__(self, path):
        self.defined, self.scope = {}, {}
        name = None
        for statement in statements(path.read_text()):
            words = statement[0].split()
            if re.match(r'(pub )?use ', statement[0]):
                self.scope.update(imports(statement))
            elif words[0] == 'module':
                continue  # none that is reached stands in such a block
            elif words[0] != 'mod' and words[:2] != ['pub', 'mod']:
                head = HEAD.match(statement[0])
                if head or words[0].startswith('infix'):
                    name = head.group(1) if head else words[2]
                elif words[0] in self.defined or words[1] == ':':
                    name = words[0]
                self.defined.setdefault(name, []).append(statement)
        # an operator is written without its places
        self.scope.update({word.strip('◌'): found for word, found in self.scope.items() if '◌' in word})
        self.scope.update({word.strip('◌'): (None, word) for word in self.defined if '◌' in word})

    def lines(self, name):
        return sum(len(statement) for statement in self.defined[name])

    def names_in(self, name):
        """What the definition's names mean, bound ones left out."""
        for statement in self.defined[name]:
            text = ' '.join(line.split(' -- ')[0] for line in statement)
            bound = {word for pair in BINDER.findall(text) for part in pair for word in part.split()}
            if ' = ' in text and not HEAD.match(text):
                bound |= set(WORD.findall(QUALIFIED.sub(' ', text.split(' = ')[0])))
            for module, word in QUALIFIED.findall(text):
                if module + '.' in self.scope:
                    yield self.scope[module + '.'][0], word
            for word in WORD.findall(text):
                if not (word in bound and word[0].islower()) and (word in self.scope or word in self.defined):
                    yield self.scope.get(word, (None, word))


def resolve(files, key, module, word):
    """Where a name is defined that a file, the one at the key, has from a module or defines itself; None where that isn't in specs/."""
    parts = module.split('.') if module else [key[0], 'specs', key[1]]
    key = (parts[0], parts[2]) if parts[1] == 'specs' else None
    if key not in files:
        return None
    if word in files[key].defined:
        return key, word
    if parts[3:] and parts[3] in files[key].defined:
        return key, parts[3]
    return resolve(files, key, *files[key].scope[word]) if word in files[key].scope else None


def follow(files, start):
    """The definitions that these rest on, with themselves; and the types of the code that they import, each with its crate and its module."""
    reached, types, todo = set(start), set(), list(start)
    while todo:
        key, name = todo.pop()
        for module, word in files[key].names_in(name):
            parts = module.split('.') if module else []
            if parts[1:3] == ['specs', 'declared'] and (ROOT / parts[0]).is_dir() and not parts[4].startswith('The'):
                types.add((parts[0], parts[4], parts[3]))
            found = resolve(files, key, module, word)
            if found and found not in reached:
                reached.add(found)
                todo.append(found)
    return reached, types


def declaration(crate, name, module):
    """How many lines the declaration of a type has in the code; 0 where it isn't found."""
    start = r'^(?:pub(?:\([^)]*\))? )?(?:struct|enum|trait|type) ' + name + r'\b.*?(?:^\}|;$)'
    texts = [path.read_text() for path in (ROOT / crate / 'src').rglob(f'{module}.rt')]
    lines = [line.strip() for text in texts for found in re.finditer(start, text, re.M | re.S) for line in found.group().splitlines()]
    return sum(1 for line in lines if line and not line.startswith('//'))


def main():
    flags = {word for word in sys.argv[1:] if word.startswith('--')}
    roots = [word for word in sys.argv[1:] if not word.startswith('--')]
    roots = roots or ['IsScript', 'WritesText' if '--world' in flags else 'WritesLines']
    files = {(path.parts[1], path.stem): File(path) for path in ROOT.glob('*/specs/*.antt')}
    start = [(key, root) for root in roots for key, file in files.items() if root in file.defined]
    if len(start) != len(roots):
        sys.exit(f'not one definition each in specs/: {roots}')
    reached, types = follow(files, start)
    total = rest = 0
    for key, file in sorted(files.items()):
        here = {name for name in file.defined if (key, name) in reached}
        if not here:
            continue
        yes, no = (sum(file.lines(name) for name in file.defined if (name in here) == wanted) for wanted in (True, False))
        total, rest = total + yes, rest + no
        print(f'{key[0]:22} {key[1]:16} {yes:5} reached {no:5} not')
        if no and '--missed' in flags:
            print('    not reached:', ', '.join(f'{name} {file.lines(name)}' for name in file.defined if name not in here))
    print(f'{"all":39} {total:5} reached {rest:5} not, in these files')
    sizes = {found: declaration(*found) for found in types}
    print(f'{len(types)} types of the code, with {sum(sizes.values())} lines of declarations:')
    for crate in sorted({found[0] for found in types}):
        print(f'  {crate}:', ', '.join(f'{found[1]} {size}' for found, size in sorted(sizes.items()) if found[0] == crate))


main()
