"""What crates/ declares, for tools/trace, tools/promises, tools/unused and tools/believed: files, their declarations and imports, where
a path of src/ leads, and what a definition cites."""
import collections
import functools
import glob
import os
import re

os.chdir(os.path.join(os.path.dirname(os.path.abspath(__file__)), '..'))

# A folder is src, specs or proofs. The module of crates/fork/src/copy.rt is `copy`, of lib.rt and main.rt the empty text, of
# crates/fork/proofs/copy/copy_segment/Answers.antt `copy.copy_segment.Answers`.
File = collections.namedtuple('File', 'crate folder module path')
# `kind`: fn, const, struct, enum, trait, type, mod, variant; record, data, constructor, field, name, local. `owner`: the type of a method,
# a variant, a constructor or a field; of a trait's method `<TYPE as TRAIT>`. `public`: pub, C (exported) or empty. `says`: what follows the name on its line.
Item = collections.namedtuple('Item', 'file kind owner name public line says')


def read(path):
    with open(path, encoding='utf-8') as f:
        return f.read()


@functools.cache
def lines(path):
    """The lines of a file without comments."""
    return [re.sub(r'//.*' if path.endswith('.rt') else r'(^|\s)--.*', '', line).rstrip() for line in read(path).split('\n')]


@functools.cache
def files():
    found = []
    for path in sorted(glob.glob('crates/*/*/**/*', recursive=True)):
        m = re.fullmatch(r'crates/(\w+)/(src|specs|proofs)/(.+)\.(?:rt|antt)', path)
        if m:
            module = m.group(3).replace('/', '.')
            found.append(File(m.group(1), m.group(2), '' if module in ('lib', 'main') else module, path))
    return found


def crates():
    return {f.crate for f in files()}


def listed():
    """The crates of crates.txt, in its order, each with those that it uses: `NAME: DEP ..`, of a static library `NAME staticlib: DEP ..`."""
    return {m.group(1): m.group(2).split() for m in re.finditer(r'^(\w+)[^:#\n]*:(.*)$', read('crates.txt'), re.M)}


def answers(file):
    """Whether a file of proofs/ is of a function's own proof: the goals that the check leaves, answered by their names."""
    return file.folder == 'proofs' and file.module.split('.')[-1] in ('Answers', 'Invariants', 'Proof')


def goal(item):
    """Whether it answers a goal, which nothing has to cite: the check asks for it by its name."""
    return answers(item.file) and re.match(r': goal\.', item.says)


RUST = re.compile(r'^( *)(pub )?(?:pub\(crate\) )?(extern "C" )?(fn|const|struct|enum|trait|type|mod) (\w+)(.*)')


def outside(text, mark):
    """The parts of a text between the marks that stand in no angle brackets. The `>` of an arrow closes none."""
    parts, depth, n = [''], 0, 0
    while n < len(text):
        arrow = text[n] == '>' and text[n - 1:n] in ('-', '=')
        if not depth and not arrow and text.startswith(mark, n):
            parts.append('')
            n += len(mark)
            continue
        depth += (text[n] == '<') - (text[n] == '>' and not arrow)
        parts[-1] += text[n]
        n += 1
    return parts


def owner_of(head):
    """Whose are the methods of an `impl`: `Plan` of `impl<'a> Plan<'a>`, and of `impl From<ElfError> for u64`, as Rust writes it,
    `<u64 as From<ElfError>>`."""
    head = re.sub(r"(?:\w+::)+(?=\w)|<(?:'\w+(?:, )?)+>|&|'\w+ ", '', head.split(' where')[0].strip())
    if head.startswith('<'):
        first = outside(head[1:] + ' ', '>')[0]  # its parameters
        head = head[len(first) + 2:]
    *trait, of = [part.strip() for part in outside(head, ' for ')]
    bare = re.match(r'\w*', of).group()
    return '<%s as %s>' % (bare, trait[0]) if trait else bare


def type_of(owner):
    """The type of an owner."""
    m = re.match(r'<(\w*) as ', owner)
    return m.group(1) if m else owner


def rust(file):
    """The declarations of a file of src/: methods have their type for an owner, variants their enum. A method of an `impl` of a trait is
    public where its type is."""
    kind = owner = ''
    text = lines(file.path)
    for n, line in enumerate(text, 1):
        m = RUST.match(line)
        variant = re.match(r'    (?:pub )?(?:ghost )?(\w+)(?:\(|,|:| \{|$)', line)
        if m:
            of_trait = owner.startswith('<') or kind == 'trait'
            public = 'C' if m.group(3) else 'pub' if m.group(2) or (m.group(1) and of_trait) else ''
            yield Item(file, m.group(4), owner if m.group(1) else '', m.group(5), public, n, m.group(6))
        elif owner and variant and kind in ('enum', 'struct'):
            yield Item(file, 'variant' if kind == 'enum' else 'field', owner, variant.group(1), 'pub', n, line)
        opened = re.match(r'(?:pub )?(impl|enum|struct|trait)\b', line)
        if opened:
            head = ' '.join(text[n - 1:next(k for k in range(n, len(text) + 1) if re.search(r'[{;]', text[k - 1]))])
            if '{' in head and not line.endswith('}'):
                kind = opened.group(1)
                head = head[opened.end():head.index('{')]
                owner = owner_of(head) if kind == 'impl' else re.match(r'\w+', head.strip()).group()
        elif line == '}':
            kind = owner = ''


ANTT = re.compile(r'^( *)((?:pub |abbrev |unfoldable )*)(?:(record|data|module) ([^\s{]+)|((?:[^\s(){};:,.λ]+ )+)(?=: ))(.*)')


def antt(file):
    """The declarations of a file of specs/ or proofs/. Those of a `module _` are the file's own; those below a `where` are local."""
    inside = []  # what encloses a line: its indentation, what it is, its name
    waits = None  # a head whose `where` stands further down
    for n, line in enumerate(lines(file.path), 1):
        if not line.strip() or line.startswith(('use ', 'pub use ', 'pub mod ')):
            continue
        indent = len(line) - len(line.lstrip())
        if waits:
            if indent > waits[0]:
                if line.endswith('where'):
                    inside.append(waits)
                    waits = None
                continue
            waits = None
        while inside and inside[-1][0] >= indent:
            inside.pop()
        within = inside[-1][1] if inside else 'module'
        m = ANTT.match(line)
        if line.strip() == 'where' or (line.endswith(' where') and not (m and m.group(3))):
            inside.append((indent, 'local', ''))
            continue
        if not m or (indent and not inside):
            continue
        public = 'pub' if 'pub' in m.group(2) else ''
        if m.group(3):
            if m.group(3) != 'module':
                yield Item(file, m.group(3), '', m.group(4), public, n, m.group(6))
            head = (indent, m.group(3), m.group(4))
            if line.endswith('where'):
                inside.append(head)
            else:
                waits = head
        else:
            names = m.group(5).split()
            if within == 'data' or len(names) == 1:
                kind = {'record': 'field', 'data': 'constructor', 'module': 'name', 'local': 'local'}[within]
                owner = inside[-1][2] if within in ('record', 'data') else ''
                for name in names:
                    yield Item(file, kind, owner, name, public, n, m.group(6))


@functools.cache
def items():
    return [i for f in files() for i in (rust if f.folder == 'src' else antt)(f)]


@functools.cache
def edits():
    """Each must-fail edit as (crate, label)."""
    return {(p.split('/')[1], os.path.basename(p)[:-5]) for p in glob.glob('crates/*/must-fail*/**/*.edit', recursive=True)}


# ---- paths of src/

@functools.cache
def source(crate, module):
    return next((f for f in files() if (f.crate, f.folder, f.module) == (crate, 'src', module)), None)


def use_lines(text):
    """What the `use` lines of a text of src/ bring: (whether it is passed on, its path, its name here). `use a::{b, c};` is
    `use a::b;` and `use a::c;`."""
    for passed, path, group in re.findall(r'^(pub )?use ([\w:]+?)(?:::\{([^{}]*)\})?;', text, re.M):
        for part in group.split(',') if group else ['']:
            if part.strip() or not group:
                there, _, here = ('%s::%s' % (path, part.strip()) if group else path).removesuffix('::self').partition(' as ')
                yield bool(passed), there.split('::'), here or there.split('::')[-1]


@functools.cache
def uses(file):
    """The names that the `use` lines of a file of src/ bring, each with its path and whether it is passed on."""
    return {name: (path, passed) for passed, path, name in use_lines('\n'.join(lines(file.path)))}


@functools.cache
def declared(file):
    """The items of a file by (owner, name)."""
    return {(i.owner, i.name): i for i in items() if i.file == file}


def resolve(file, path, seen=()):
    """The item that a path leads to from a file of src/, or None. A method of a trait has the path `crate::<TYPE as TRAIT>::method`, and
    is found where the type is passed on, too."""
    if not file or (file, tuple(path)) in seen:
        return None
    seen += ((file, tuple(path)),)
    first, rest = path[0], path[1:]
    here = declared(file)
    if first == 'crate':
        return resolve(source(file.crate, ''), rest, seen)
    if not rest and ('', first) in here and here['', first].kind != 'mod':
        return here['', first]
    if len(rest) == 1 and (first, rest[0]) in here:
        return here[first, rest[0]]
    if len(rest) == 1 and ('', type_of(first)) in here and here['', type_of(first)].kind in ('struct', 'enum'):
        # its `impl` may stand in any file of its crate
        return next((declared(f)[first, rest[0]] for f in files() if (f.crate, f.folder) == (file.crate, 'src') and (first, rest[0]) in declared(f)), None)
    if rest and ('', first) in here and here['', first].kind == 'mod':
        return resolve(source(file.crate, '.'.join(filter(None, [file.module, first]))), rest, seen)
    if first in uses(file) and uses(file)[first][0][0] == 'crate':
        return resolve(file, uses(file)[first][0] + rest, seen)
    if rest and first in crates():
        exported = [i for i in items() if i.file.crate == first and i.public == 'C' and [i.name] == rest]
        return exported[0] if exported else resolve(source(first, ''), rest, seen)
    if first in uses(file):
        return resolve(file, uses(file)[first][0] + rest, seen)
    if rest and first.startswith('<') and type_of(first) in uses(file):
        return resolve(file, uses(file)[type_of(first)][0][:-1] + path, seen)
    return None


# ---- what definitions and lemmas cite

WORD = re.compile(r'[^\s(){};,."]+')
IMPORT = re.compile(r'^\s*(?:ghost )?(pub )?use Rattle\.(\w+)\.(specs|proofs)\.([^\s{};]+?)(?:\.\{(.*)\}| as ([^\s;]+))?;?$')


@functools.cache
def defined():
    """The items of each file of specs/ and proofs/ by name, without fields and what is local."""
    found = {f: {} for f in files()}
    for i in items():
        if i.file.folder != 'src' and i.kind not in ('field', 'local'):
            found[i.file][i.name] = i
    return found


@functools.cache
def types():
    """The files of the types that src/ declares."""
    return {(i.file.crate, i.name): i.file for i in items() if i.kind in ('struct', 'enum')}


@functools.cache
def module(crate, folder, name):
    return next((f for f in files() if (f.crate, f.folder, f.module) == (crate, folder, name)), None)


@functools.cache
def imports(file):
    """The names that a file imports, each with the file and the name that it has there, and those it passes on; and its aliases. A
    type that src/ declares stands for the file that declares it."""
    brought, passed, aliases = {}, {}, {}
    for line in lines(file.path):
        m = IMPORT.match(line)
        if not m:
            continue
        origin = module(*m.group(2, 3, 4))
        for part in (m.group(5) or '').split(','):
            there, _, here = part.strip().partition(' as ')
            where = origin or types().get((m.group(2), there))
            if where:
                brought[here or there] = (where, there)
                if m.group(1):
                    passed[here or there] = brought[here or there]
        if origin and m.group(6):
            aliases[m.group(6)] = origin
    return brought, passed, aliases


def follow(file, name):
    """The item of a name that a file declares or passes on."""
    if file.folder == 'src':
        return declared(file)['', name]
    if name in defined()[file]:
        return defined()[file][name]
    return follow(*imports(file)[1][name]) if name in imports(file)[1] else None


def parts(name):
    """The words of a name, of `◌is◌` and the like those between the places."""
    return [p for p in name.split('◌') if p] if '◌' in name else [name]


def blocks(file):
    """Each line of a file of specs/ or proofs/, but for imports, with the declaration that it stands in, or None."""
    inside, here = None, defined()[file]
    for line in lines(file.path):
        if re.match(r'\s*(ghost )?(pub )?(use|mod) ', line):
            continue
        m = re.match(r'( *)(?:(?:abbrev|unfoldable|pub|record|data) )*([^\s(){};:,.]+)', line)
        if m and m.group(2) in here and re.match(m.group(1) + r'\S', lines(file.path)[here[m.group(2)].line - 1]):
            inside = here[m.group(2)]
        yield None if line.lstrip().startswith('open ') else inside, line


@functools.cache
def cites():
    """The items that each declaration cites, and those that are cited outside of one (in contracts of src/ among others)."""
    found, loose = collections.defaultdict(set), set()
    for file in files():
        brought, _, aliases = imports(file)
        words = collections.defaultdict(set)
        for attribute in re.findall(r'^ *#\[(tactic\(.*)\]$', read(file.path), re.M) if file.folder == 'src' else []:
            # `using(crate::proofs::Found::frame_there)`
            for crate, folder, path in re.findall(r'(\w+)::(specs|proofs)::([^\s(),]+)', attribute):
                *there, name = path.split('::')
                origin = module(file.crate if crate == 'crate' else crate, folder, '.'.join(there))
                if origin:
                    words[None].add((origin, name))
        for inside, line in blocks(file):
            words[inside].update(WORD.findall(line))
            for alias, word in re.findall(r'(?<![^\s(){};,"])([^\s(){};,."]+)\.([^\s(){};,."]+)', line):
                if alias in aliases:
                    words[inside].add((aliases[alias], word))
        for inside, there in words.items():
            into = found[inside] if inside else loose
            into |= {follow(*w) for w in there if isinstance(w, tuple)}
            known = [n for n in list(defined()[file]) + list(brought) if all(p in there for p in parts(n))]
            into |= {defined()[file].get(n) or follow(*brought[n]) for n in known}
    return found, loose
