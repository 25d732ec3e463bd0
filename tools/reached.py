#!/usr/bin/env python3
"""Prints what the contract of the public call `nameless` reaches: the definitions that a reader must believe.

It begins with the contract of that function (crates/nl_top/src/top.rt). A name in it leads to its definition by the `ghost use` lines of its
file; each definition leads on by the names that stand in it, and by the `use` lines of the file where it stands, until nothing new
comes. A type or a trait of a source file leads to that file: of a trait its contract is followed, of a type its fields, and the model that
contracts see of it. What is std's, or of a crate of the kit, is not followed.

    tools/reached.py            each file, and how many of its definitions are reached of how many
    tools/reached.py --names    the reached definitions too
    tools/reached.py --others   the files of definitions that are not reached, each with the sentence with which it begins
    tools/reached.py --files    each file that the `use` lines lead to, whatever of it is used
    tools/reached.py --check    where docs/TRUSTED.md lists other files than these, and ends with 1 then

It reads names, not types: a variable that is called as an imported definition counts as a use of it, so the list may be too long by that.
"""
import os
import re
import sys

TOP = os.path.dirname(os.path.dirname(os.path.abspath(__file__)))
CRATES = os.path.join(TOP, 'crates')
OWN = set(os.listdir(CRATES))
WORD = re.compile(r"[^\s(){}\[\],;|.:&<>\\]+(?:\.[^\s(){}\[\],;|.:&<>\\]+)*")


def read(path):
    with open(path, encoding='utf-8') as file:
        return file.read()


CALL = 'pub fn nameless<'


def top_call():
    """The source file of the public call."""
    for crate in sorted(OWN):
        for folder, _, names in os.walk(os.path.join(CRATES, crate, 'src')):
            for name in names:
                path = os.path.join(folder, name)
                if name.endswith('.rt') and CALL in read(path):
                    return path
    sys.exit('no public call `nameless`')


def file_of(module):
    """The file of a module, and of a declared one the type besides."""
    parts = module.split('.')
    if len(parts) < 4 or parts[1] not in OWN or parts[2] != 'specs':
        return None, None
    crate, rest = parts[1], parts[3:]
    if rest[0] != 'declared':
        path = os.path.join(CRATES, crate, 'specs', *rest) + '.antt'
        return (path, None) if os.path.exists(path) else (None, None)
    rest = [part for part in rest[1:] if part not in ('TheVariants', 'TheConstants')]
    for count in range(len(rest) - 1, 0, -1):
        for end in ('.rt', '/mod.rt'):
            path = os.path.join(CRATES, crate, 'src', *rest[:count]) + end
            if os.path.exists(path):
                return path, rest[-1]
    return os.path.join(CRATES, crate, 'src', 'lib.rt'), rest[-1]


def imports(text, ghost):
    """What `use` lines bring: a name to its module and its name there; an alias to its module and None."""
    start = r'^\s*ghost use ' if ghost else r'^(?:pub )?use '
    found = {}
    for module, names, alias in re.findall(start + r'(Rattle\.[\w.]*\w)(?:\.\{([^}]*)\}| as (\w+))', text, re.M):
        if alias:
            found[alias] = (module, None)
        for name in names.split(','):
            own, _, other = name.strip().partition(' as ')
            if own:
                found[other or own] = (module, own)
    return {name: place for name, place in found.items() if place[0].split('.')[1] in OWN}


def definitions(text):
    """The top-level definitions of a file of specs: by name the text, and by the name of a constructor its type."""
    bodies, makers, current = {}, {}, None
    for line in text.split('\n'):
        if line.startswith('--') or line.startswith('use ') or line.startswith('infix'):
            continue
        line = line.split(' -- ')[0]
        if line.strip().startswith('--'):
            continue
        if line and not line[0].isspace():
            declared = re.match(r'(?:unfoldable |abbrev |opaque |pub )*(?:(?:record|data) )(\S+)', line)
            typed = re.match(r'(?:unfoldable |abbrev |opaque |pub )*(\S+) :', line)
            if declared or typed:
                current = (declared or typed).group(1)
                bodies.setdefault(current, '')
        if current is None:
            continue
        bodies[current] += line + '\n'
        made = re.match(r'  (\S+) :', line)
        if made and made.group(1) != 'pub':
            makers.setdefault(made.group(1), current)
    return bodies, makers


def block(text, start):
    """The text from a place on, to the end of its braces, or of its line where it has none."""
    depth = 0
    for at in range(start, len(text)):
        if text[at] == '{':
            depth += 1
        elif text[at] == '}':
            depth -= 1
            if depth == 0:
                return text[start:at + 1]
        elif text[at] == ';' and depth == 0:
            return text[start:at + 1]
    return text[start:]


def without_notes(text):
    return re.sub(r'//.*', '', text)


class Reached:
    def __init__(self):
        self.found = {}     # a file, and its definitions that are reached
        self.parsed = {}
        self.work = []
        self.types = {}     # a type's name, and the source files that declare it
        self.below = {name: low.split() for name, low in re.findall(r'^(\w+)[^:#\n]*:(.*)', read(os.path.join(TOP, 'crates.txt')), re.M)}
        for crate in sorted(os.listdir(CRATES)):
            for folder, _, names in os.walk(os.path.join(CRATES, crate, 'src')):
                for name in sorted(names):
                    path = os.path.join(folder, name)
                    for kind in re.findall(r'^pub (?:struct|enum|trait|type) (\w+)', read(path), re.M) if path.endswith('.rt') else []:
                        self.types.setdefault(kind, []).append(path)

    def add(self, path, name):
        if path and name not in self.found.setdefault(path, []):
            self.found[path].append(name)
            self.work.append((path, name))

    def spec(self, path):
        if path not in self.parsed:
            text = read(path)
            self.parsed[path] = definitions(text) + (imports(text, False),)
        return self.parsed[path]

    def follow(self, text, brought, path=None, own=({}, {})):
        """Adds what the words of a text stand for."""
        bodies, makers = own
        words = set()
        for word in WORD.findall(text):
            parts = word.split('.')
            words.update([(parts[0], parts[1] if len(parts) > 1 else None)])
        for name in list(brought) + list(bodies):
            inner = [part for part in name.split('◌') if part]
            if '◌' in name and all(part in text for part in inner):
                words.add((name, None))
        if re.search(r'\bdo\b', text):
            words.update((name, None) for name in list(brought) + list(bodies) if '>>=' in name)
        for word, field in words:
            if word in bodies:
                self.add(path, word)
            elif word in makers:
                self.add(path, makers[word])
            elif word in brought:
                module, name = brought[word]
                target, kind = file_of(module)
                if target and kind:
                    self.add(target, kind)
                elif target:
                    name = name or field
                    inside, made, _ = self.spec(target)
                    self.add(target, name if name in inside else made.get(name, name))

    def rust_types(self, text, path):
        """Adds the types of this repository that a piece of Rust names."""
        crate = os.path.relpath(path, CRATES).split('/')[0]
        used = self.below.get(crate, [])
        for kind in set(re.findall(r'\b[A-Z]\w+', text)):
            places = self.types.get(kind, [])
            near = [place for place in places if os.path.relpath(place, CRATES).split('/')[0] == crate]
            far = [place for place in places if os.path.relpath(place, CRATES).split('/')[0] in used]
            for place in near[:1] or far[:1]:
                self.add(place, kind)

    def source(self, path, kind):
        text = without_notes(read(path))
        for found in re.finditer(r'pub (struct|enum|trait|type) ' + kind + r'\b', text):
            body = block(text, found.start())
            if found.group(1) == 'trait':
                self.follow(body, imports(text, True))
                head = body.split('{')[0]
                self.rust_types(head + ' '.join(re.findall(r'fn [^{;]*?(?=\s*(?:requires|ensures|;|\{))', body)), path)
            elif not re.search(r'impl(?:<[^>]*>)? Model for ' + kind + r'\b', text):
                inside = body[len(found.group(0)):]
                self.rust_types(re.sub(r'(?m)^    \w+(?=[ ,({]|$)', '', inside) if found.group(1) == 'enum' else inside, path)
        for found in re.finditer(r'impl(?:<[^>]*>)? Model for ' + kind + r'\b', text):
            body = block(text, found.start())
            brought = dict(imports(text, True))
            brought.update(imports(body, True))
            kept = '\n'.join(line for line in body.split('\n') if 'use Rattle' not in line)
            self.follow(' '.join(re.findall(r'ghost (?:Value|view) =[^;]*;', kept)), brought)

    def run(self):
        root = top_call()
        text = without_notes(read(root))
        start = text.index(CALL)
        head = text[start:text.index('\n{', start)]
        self.follow(head, imports(text, True))
        self.rust_types(head.split('ensures')[0], root)
        while self.work:
            path, name = self.work.pop()
            if path.endswith('.rt'):
                self.source(path, name)
                continue
            bodies, makers, brought = self.spec(path)
            if name in bodies:
                self.follow(bodies[name], brought, path, (bodies, makers))
        return self.found


def sentence(path):
    """The sentence with which a file of definitions begins."""
    head = []
    for line in read(path).split('\n'):
        if not line.startswith('-- '):
            break
        head.append(line[3:])
    return re.split(r'(?<=\.) ', ' '.join(head))[0]


def by_use_lines():
    found, work = [], [top_call()]
    while work:
        path = work.pop()
        text = read(path)
        for module in re.findall(r'^\s*(?:ghost |pub )?use (Rattle\.[\w.]*\w)', text, re.M):
            target, kind = file_of(module)
            if target and target not in found:
                found.append(target)
                if not kind:
                    work.append(target)
    return found


def listed():
    """The files that the tables of docs/TRUSTED.md name, of which one may be told beside the file before it."""
    files = set()
    for row in re.findall(r'^\| (`.*?) \|', read(os.path.join(TOP, 'docs', 'TRUSTED.md')), re.M):
        crate = folder = ''
        for name in re.findall(r'`([^`]+)`', row):
            if name.startswith('nl_'):
                crate, path = name.split('/')[0], name
            elif name.startswith('src/'):
                path = crate + '/' + name
            else:
                path = folder + '/' + name
            folder = os.path.dirname(path)
            files.add(path)
    return files


def order():
    """The crates, the lowest first."""
    names = re.findall(r'^(\w+)[^:#\n]*:', read(os.path.join(TOP, 'crates.txt')), re.M)
    return {name: at for at, name in enumerate(names)}


def main():
    words = sys.argv[1:]
    rank = order()
    place = lambda path: (rank.get(os.path.relpath(path, CRATES).split('/')[0], 999), '/src/' in path, path)
    if '--files' in words:
        for path in sorted(by_use_lines(), key=place):
            print(os.path.relpath(path, CRATES))
        return
    reached = Reached()
    found = reached.run()
    if '--others' in words:
        for crate in sorted(rank, key=rank.get):
            folder = os.path.join(CRATES, crate, 'specs')
            for name in sorted(os.listdir(folder)) if os.path.isdir(folder) else []:
                path = os.path.join(folder, name)
                if name != 'Lib.antt' and path not in found:
                    print(f'{os.path.relpath(path, CRATES)}: {sentence(path)}')
        return
    if '--check' in words:
        files = {os.path.relpath(path, CRATES) for path in found}
        other = [f'reached, not listed: {path}' for path in sorted(files - listed())]
        other += [f'listed, not reached: {path}' for path in sorted(listed() - files)]
        print('\n'.join(other + [f'{len(files)} files, {len(other)} otherwise in docs/TRUSTED.md']))
        sys.exit(1 if other else 0)
    for path in sorted(found, key=place):
        names = found[path]
        total = len(reached.spec(path)[0]) if path.endswith('.antt') else None
        print(os.path.relpath(path, CRATES), f'{len(names)} of {total}' if total else ' '.join(sorted(names)))
        if '--names' in words and total:
            print('    ' + ' '.join(sorted(names)))


if __name__ == '__main__':
    main()
