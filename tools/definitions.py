"""The definitions of crates, each with what it cites: those of `specs/` and `proofs/`, and the types,
constants and traits that code declares. `tools/believed` follows names through them.
"""
import collections
import re

NAME = re.compile(r"[^\W\d][\w'-]*")
WHOLE = re.compile(r'^\s*(?:ghost\s+)?use\s+(Rattle\.[\w.]+)\s+as\s+(\w+)', re.M)
IMPORT = re.compile(r'^\s*(?:ghost\s+)?(?:pub\s+)?use\s+(Rattle\.[\w.]+?)\.\{([^}]*)\}', re.M)
HEADER = re.compile(r"^(?:(?:abbrev|unfoldable|pub)\s+)*(?:(record|data)\s+(?:pub\s+)?)?([^\W\d][\w'-]*)")
MUTUAL = re.compile(r'^(?:(?:abbrev|unfoldable|pub)\s+)*mutual\s*$')
ROW = re.compile(r"^[^\W\d][\w'-]*(?: [^=\n]*)? = record \{$")
COLUMN = re.compile(r"^  ([^\W\d][\w'-]*) = ")
USE = re.compile(r'^(?:pub(?:\([^)]*\))? )?use (\w+)([^;]*);', re.M)
ITEM = re.compile(r'^(?:pub(?:\([^)]*\))?\s+)?(struct|enum|trait|const|static|type)\s+(\w+)', re.M)
ENUM = re.compile(r'(?:pub(?:\([^)]*\))?\s+)?enum\s')
VARIANT = re.compile(r'^    \w+(?=[,( {])', re.M)
STRING_OR_COMMENT = re.compile(r'"[^"\n]*"|(?:--|//).*$', re.M)


class Definition:
    """Its lines are `text`, the comment over them is `head`; `module` is the header of the block
    `module _ .. where` in which it stands, a definition without a name, or none."""

    def __init__(self, path, name, text, head, module=None):
        self.path, self.name, self.text, self.head, self.module = path, name, text, head, module
        self.columns = {}

    def size(self):
        return sum(1 for line in self.text.splitlines() if is_counted(line))

    def citing(self):
        """The text in which names are citations: those of an enum's own variants are none."""
        text = STRING_OR_COMMENT.sub('', self.text)
        return VARIANT.sub('', text) if ENUM.match(text) else text

    def cut_columns(self):
        """Of a table, what its rows say in each column, and its type under no name."""
        rows = [line for line in self.text.splitlines() if ROW.match(line)]
        if len(rows) < 2:
            return
        column, texts, row = '', collections.defaultdict(list), ''
        for line in self.text.splitlines():
            match = COLUMN.match(line)
            if ROW.match(line):
                row = line[:-len(' = record {')]
                continue
            if line.startswith('}'):
                continue
            if match:
                column = match.group(1)
                line = f'({row}).{line.strip()}'
            elif not line.startswith('  '):
                column = ''
            texts[column].append(line)
        for column, lines in texts.items():
            head = '' if column else self.head
            self.columns[column] = Definition(self.path, self.name, '\n'.join(lines), head, self.module)


def is_counted(line):
    bare = line.strip()
    return bool(bare) and not bare.startswith(('--', '//', '#['))


def imports_of(text):
    """The names that imports bring, each with the module and the name that it stands for."""
    found = {}
    for module, listed in IMPORT.findall(text):
        for part in listed.split(','):
            words = part.split()
            if words:
                found[words[-1]] = (module, words[0])
    return found


def block_at(lines, place):
    """The header of a block, the lines under it without their indent, and the place behind them."""
    body = place + 1
    while lines[place].startswith('module ') and body < len(lines) and not lines[body - 1].endswith('where'):
        body += 1
    end = body
    while end < len(lines) and (not lines[end] or lines[end].startswith('  ')):
        end += 1
    return lines[place:body], [line[2:] for line in lines[body:end]], end


class SpecFile:
    """A file of definitions, cut at its lines without an indent, and so the blocks `mutual` and
    `module _ .. where` in it."""

    def __init__(self, path, text):
        self.path, self.text = path, text
        self.imports = imports_of(text)
        self.aliases = {alias: module for module, alias in WHOLE.findall(text)}
        self.definitions = {}
        self.cut([line.rstrip() for line in text.splitlines()])
        for definition in self.definitions.values():
            definition.cut_columns()
        self.items = self.with_cases()

    def cut(self, lines, over=(), module=None):
        """A definition without a comment of its own has the one over its `mutual`."""
        comment, current, place = [], None, 0
        while place < len(lines):
            line = lines[place]
            place += 1
            if line.startswith('--'):
                comment.append(line)
                current = None
            elif MUTUAL.match(line):
                _, inside, place = block_at(lines, place - 1)
                self.cut(inside, comment or over, module)
                comment, current = [], None
            elif line.startswith('module '):
                header, inside, place = block_at(lines, place - 1)
                self.cut(inside, (), Definition(self.path, '', '\n'.join(header), '\n'.join(comment), module))
                comment, current = [], None
            elif not line or line.startswith(('use ', 'pub use ', 'mod ', 'pub mod ')):
                comment, current = [], None
            elif line[0] in ' })':
                if current:
                    current.text += '\n' + line
            else:
                current = self.taken(line, comment or over, module)
                comment = []

    def taken(self, line, comment, module):
        match = HEADER.match(line)
        if not match:
            return None
        name = match.group(2)
        if name in self.definitions:
            self.definitions[name].text += '\n' + line
        else:
            self.definitions[name] = Definition(self.path, name, line, '\n'.join(comment), module)
        return self.definitions[name]

    def with_cases(self):
        """The definitions by their names, and each `data` by the names of its cases too."""
        found = dict(self.definitions)
        for definition in self.definitions.values():
            if re.match(r'(pub )?data ', definition.text):
                for case in re.findall(r"^  (?:pub )?([\w'-]+) :", definition.text, re.M):
                    found.setdefault(case, definition)
        return found


def balanced(text, start):
    """The text from `start` to the brace that closes the first one behind it."""
    depth = 0
    for place in range(text.index('{', start), len(text)):
        depth += {'{': 1, '}': -1}.get(text[place], 0)
        if depth == 0:
            return text[start:place + 1]
    return text[start:]


class SourceFile:
    """A file of code: its declared items. A type with an `impl Model` is what that says it is."""

    def __init__(self, path, text):
        self.path, self.text = path, text
        self.imports = imports_of(text)
        self.aliases = {}
        self.used = {name: root for root, rest in USE.findall(text) for name in NAME.findall(rest)}
        self.items = {match.group(2): self.taken(match) for match in ITEM.finditer(text)}

    def taken(self, match):
        kind, name = match.groups()
        start = match.start()
        end = self.text.find(';', start)
        brace = self.text.find('{', start)
        if kind in ('const', 'static', 'type') or brace < 0 or 0 <= end < brace:
            text = self.text[start:end + 1]
        else:
            text = balanced(self.text, start)
        if kind == 'trait':
            text = '\n'.join(ghosts_of(text))
        model = re.search(r'^impl(?:<[^{]*>)? Model for %s\b' % name, self.text, re.M)
        if model:
            value = balanced(self.text, self.text.index('ghost Value', model.start()))
            text = f'{kind} {name}\n    {value}'
        return Definition(self.path, name, text, '\n'.join(said_over(self.text[:start])))


def said_over(text):
    """The comment at the end of a text, without the attributes that stand in it."""
    found = []
    for line in reversed(text.splitlines()):
        if not line.startswith(('///', '#[')):
            break
        if line.startswith('///'):
            found.insert(0, line)
    return found


def ghosts_of(text):
    """The meanings that a trait asks for: its `ghost` members, with their comments."""
    found, keep = [text.splitlines()[0]], False
    for line in text.splitlines()[1:]:
        if re.match(r'    (//|ghost (?!use))', line):
            keep = True
        elif re.match(r'    \S', line) or not line.strip():
            keep = False
        if keep and not line.strip().startswith('///'):
            found.append(line)
    return found + ['}']


class Tree:
    """All crates. `lost` has the names that a file imports from one of them and that it does not
    define."""

    def __init__(self, root):
        self.root, self.specs, self.sources, self.lost = root, {}, {}, set()
        self.crates = {folder.name for folder in root.iterdir() if folder.is_dir()}
        for crate in sorted(self.crates):
            for kind in ('specs', 'proofs'):
                self.read(crate, kind, 'antt', SpecFile, self.specs)
            self.read(crate, 'src', 'rt', SourceFile, self.sources)
        self.of_path = {file.path: file for file in [*self.specs.values(), *self.sources.values()]}

    def read(self, crate, kind, suffix, file, files):
        folder = self.root / crate / kind
        for path in sorted(folder.rglob('*.' + suffix)):
            inside = path.relative_to(folder).with_suffix('').parts
            if len(inside) > 1 and inside[-1] == 'mod':
                inside = inside[:-1]
            files['.'.join(('Rattle', crate, kind) + inside)] = file(path, path.read_text())

    def crate_of(self, definition):
        return definition.path.relative_to(self.root).parts[0]

    def find(self, module, name):
        """The definition that `module` gives under this name, or none: it is the library's."""
        if module.split('.')[1] not in self.crates:
            return None
        if module in self.specs:
            found = self.specs[module].items.get(name)
        else:
            found = self.declared(module, name)
        if not found:
            self.lost.add(f'{module}.{name}')
        return found

    def declared(self, module, name):
        source, _, rest = module.partition('.declared.')
        parts = rest.split('.')
        for cut in range(len(parts), 0, -1):
            file = self.sources.get('.'.join([source[:-len('specs')] + 'src'] + parts[:cut]))
            if file:
                return file.items.get((parts[cut:] + [name])[0]) or file.items.get(name)
        return None

    def of_code(self, name, root):
        """The declared items of a name that code says without its module, those of the crate that it
        names if there are such. That a crate hands one on under the same name makes no second."""
        found = [file.items[name] for file in self.sources.values() if name in file.items]
        found = [one for one in found if not re.search(r'= \w+::%s\b' % re.escape(name), one.text)]
        return [one for one in found if self.crate_of(one) == root] or found

    def named(self, definition):
        """What the names in a definition stand for: each with the module that it comes from, if an
        import says one, the name that it has there, and the definition, or none."""
        file = self.of_path[definition.path]
        text = definition.citing()
        for name in dict.fromkeys(NAME.findall(text)):
            if name in file.items:
                yield name, None, name, file.items[name]
            elif name in file.imports:
                yield name, *file.imports[name], self.find(*file.imports[name])
            elif isinstance(file, SourceFile) and name in file.used:
                root = file.used[name] if file.used[name] in self.crates else self.crate_of(definition)
                for target in self.of_code(name, root):
                    yield name, None, name, target
        for alias, module in file.aliases.items():
            for name in dict.fromkeys(re.findall(r'\b%s\.([\w-]+)' % alias, text)):
                yield f'{alias}.{name}', module, name, self.find(module, name)

    def cited(self, definition):
        found = [definition.module] if definition.module else []
        for spoken, _, _, target in self.named(definition):
            if target and (target.path, target.name) != (definition.path, definition.name):
                found += [one for one in asked_of(target, spoken, definition.citing()) if one not in found]
        return found

    def reached(self, starts):
        """All that is reached, each behind what it cites."""
        seen, order = set(), []
        stack = [(start, None) for start in reversed(starts)]
        while stack:
            definition, later = stack.pop()
            if later is None:
                if id(definition) in seen:
                    continue
                seen.add(id(definition))
                later = iter(self.cited(definition))
            following = next((one for one in later if id(one) not in seen), None)
            if following is None:
                order.append(definition)
            else:
                stack += [(definition, later), (following, None)]
        return order


def asked_of(target, name, text):
    """The columns of a table that a text names, if it names the table for its columns alone."""
    if not target.columns:
        return [target]
    columns = re.findall(r"\(%s [^()]*\)\.([\w'-]+)" % re.escape(name), text)
    if len(columns) < len(re.findall(r"(?<![\w'-])%s(?![\w'-])" % re.escape(name), text)):
        return [target]
    return [target.columns[column] for column in ['', *dict.fromkeys(columns)]]
