"""What .ci/promises reads from a tree: functions with their contracts, structs, and theorems with what they suppose."""
import re
from dataclasses import dataclass, field
from functools import cached_property

HEAD = re.compile(r'^( *)(?:(?:pub|unfoldable|abbrev) )*(?:(record|data) )?([^\s:(){}]+)(?=[ :({]|$)')
# Functions stand at the left edge, methods one step in, in a block of their type. A trait's method without a body ends at its first ';'.
FUNCTION = re.compile(r'^( {4})?(pub )?(extern "C" )?fn (\w+)((?:(?!^(?(1) {4})\}|\{$).)*?(?<!\{);$|.*?^(?(1) {4})\{?\})', re.S | re.M)
BLOCK = re.compile(r'^(?:pub )?(?:impl|trait)\b(?:<[^>\n]*>)? (?:[^{\n]* for )?\[?(\w+).*?^\}', re.S | re.M)
# What a block says of its methods, as a conversion's from_gives.
GHOST = re.compile(r'^ {4}ghost \w+ = \{ (.*) \};', re.M)
CLAUSE = re.compile(r'\s*(requires|ensures|ghost)(\*?)(?: (\w+))? (?=\{)')
# A line of crates.txt: a crate, words about it, and the libraries that it is made of.
LISTED = re.compile(r'\s*(\w+)(?:\s+staticlib)?\s*:(.*)')
# Two files of the kit that pass on names of its library and define none.
PASSED_ON = {'Rattle.std.specs.Prelude', 'Rattle.std.proofs.Common'}
# Values of these types suppose nothing, if the types are these: what else a theorem is given is a hypothesis.
DATA = {
    'ℕ': {'Prim.Native.Nat', *PASSED_ON},
    'Bool': {'mathlib.Core.Bool', *PASSED_ON},
    'List': {'mathlib.Core.List', *PASSED_ON},
    'Size': {'Rattle.requests.specs.declared.Size'},
    'Answer': {'Rattle.requests.specs.Answers'},
    'Result': set(PASSED_ON),
    'Reason': {'Rattle.requests.specs.declared.Reason'},
    'Turned': {'Rattle.matrix.specs.declared.turn.Turned'},
    'Job': {'Rattle.matrix.specs.declared.job.Job'},
    'Tallied': {'Rattle.matrix.specs.declared.tally.Tallied'},
    'Matrix': {'Rattle.cells.specs.Digit'},
    'State': {'Rattle.steps.specs.Step'},
    'Step': {'Rattle.steps.specs.Step'},
    # Of two types, in crates that do not meet: a place in the list of steps, and that of a cell.
    'Place': {'Rattle.steps.specs.Turn', 'Rattle.requests.specs.declared.Place'},
}
# What contracts and theorems are made of, beside their own definitions.
ANSWERS = {
    **dict.fromkeys(('word', 'held', 'told'), {'Rattle.requests.specs.Answers'}),
    'tally_told': {'Rattle.matrix.specs.Tally'},
    'header_told': {'Rattle.frames.specs.Header'},
}
HOMES = {**DATA, **ANSWERS, '◌≡◌': {'mathlib.Core.Path', *PASSED_ON}}


def split(text, mark):
    """The parts of a text between marks that stand in no parentheses."""
    parts, depth, start = [], 0, 0
    for i, c in enumerate(text):
        depth += (c in '([{') - (c in ')]}')
        if c == mark and depth == 0:
            parts.append(text[start:i])
            start = i + 1
    return [part.strip() for part in parts + [text[start:]] if part.strip()]


def unwrapped(text):
    """Without the parentheses about the whole of it, if there are any."""
    return text[1:-1].strip() if text.startswith('(') and text.endswith(')') and len(split(text, ' ')) == 1 else text


def closed(text, at):
    """Where the bracket that stands at a place is closed: the place behind that."""
    depth = 0
    for i in range(at, len(text)):
        depth += (text[i] in '([{') - (text[i] in ')]}')
        if depth == 0:
            return i + 1
    return len(text)


def generics(text):
    """The '<..>' with which a text begins, if it does; an arrow closes nothing."""
    depth = 0
    for i, c in enumerate(text):
        depth += (c == '<') - (c == '>' and text[i - 1] != '-')
        if depth == 0:
            return text[:i + 1] if i else ''
    return ''


def brought_in(text):
    """The paths that a source's use lines bring in by their own last names: of 'use a::{b, c::d};' a::b and a::c::d."""
    def paths(tree):
        before, brace, group = tree.partition('{')
        return [before + path for part in split(group[:-1], ',') for path in paths(part)] if brace else [tree]
    trees = [' '.join(tree.split()) for tree in re.findall(r'(?m)^(?:pub )?use ([^;]*);', text)]
    return {path for tree in trees for path in paths(tree) if ' ' not in path}


def leaves(text):
    """The parts of a pair, of its pairs, and so on."""
    parts = split(unwrapped(text), ',')
    return [text] if len(parts) < 2 else [leaf for part in parts for leaf in leaves(part)]


def cites(text, name):
    return re.search(r"(?<![\w'-])" + re.escape(name) + r"(?![\w'-])", text) is not None


def module(file):
    """What its own crate and others call a file of specs or proofs."""
    return 'Rattle.' + file.removesuffix('.antt').replace('/', '.')


def listed_crates(root):
    """The crates of crates.txt, each with the libraries that it is made of, and the lines that cannot be read."""
    found, unread = {}, []
    for line in (root / 'crates.txt').read_text(encoding='utf-8').split('\n'):
        line = line.partition('#')[0]
        m = LISTED.fullmatch(line)
        if m:
            found[m[1]] = m[2].split()
        elif line.strip():
            unread.append(line.strip())
    return found, unread


def indent(line):
    return len(line) - len(line.lstrip())


@dataclass
class Function:
    parameters: list = field(default_factory=list)
    returns: str = ''
    clauses: list = field(default_factory=list)
    body: str = ''

    @classmethod
    def read(cls, text):
        """From what follows the name: '(a: T, ..) -> R', its clauses, each 'KIND { .. }' or 'KIND NAME { .. }', and the body; before it may stand '<..>'."""
        start = text.index('(', len(generics(text)))
        at = closed(text, start)
        parameters, clauses = text[start + 1:at - 1], []
        m = re.compile(r'\s*(?:-> *([^{\n]*?))?(?=\s*(?:\{|\n|$))').match(text, at)
        result, at = (m[1] or '').strip(), m.end()
        while clause := CLAUSE.match(text, at):
            at = closed(text, clause.end())
            clauses.append((clause[1] + clause[2], ' '.join(text[clause.end() + 1:at - 1].split())))
        head, brace, body = text[at:].partition('{')
        if head.strip() or not brace:
            clauses.append(('what is not read', ' '.join(head.split())))
        pairs = [part.partition(': ')[::2] for part in split(' '.join(parameters.split()), ',')]
        return cls(pairs, result, clauses, body)

    @property
    def ensures(self):
        return ' '.join(text for kind, text in self.clauses if kind == 'ensures')

    @property
    def requires(self):
        """Whether it asks anything of its caller: a condition, or a ghost argument, which may be one."""
        return any(kind not in ('ensures', 'ensures*') for kind, _ in self.clauses)


@dataclass
class Theorem:
    """bound: the names it is about, its own and those of the sections it stands in; hypotheses: all else that it is given."""
    statement: str
    bound: list = field(default_factory=list)
    hypotheses: list = field(default_factory=list)
    conclusion: str = ''

    def __post_init__(self):
        *given, self.conclusion = split(self.statement, '→')
        for part in given:
            binders = [split(group[1:-1], ':') for group in split(part, ' ') if group[0] in '({']
            if [len(binder) for binder in binders] != [2] * len(split(part, ' ')):
                binders = [['', part]]
            for names, kind in binders:
                self.bound += names.split()
                if not set(DATA).issuperset(re.findall(r'[^\s()×→]+', kind)):
                    self.hypotheses.append(kind)


class Source:
    """One file, .rt or .antt."""

    def __init__(self, path):
        self.proof, self.module = path.suffix == '.antt', module('/'.join(path.parts[-3:]))
        text = path.read_text(encoding='utf-8') if path.is_file() else ''
        self.commented = ('{-' if self.proof else '/*') in text
        # A comment must not look like what it comments on.
        self.text = re.sub(r'(?m)(?:^|(?<= ))--(?: .*)?$' if self.proof else r'(?m) *//.*$', '', text)
        self.lines = self.text.split('\n')

    @cached_property
    def definitions(self):
        """The names that the file defines; a record's fields and a data type's constructors as NAME.FIELD."""
        if not self.proof:
            return set(re.findall(r'(?m)^(?:pub )?(?:extern "C" )?(?:fn|struct|enum|trait) (\w+)', self.text)) | set(self.functions)
        names, inside, depth = set(), None, 0
        for head in filter(None, map(HEAD.match, self.lines)):
            at, kind, name = len(head[1]), head[2], head[3]
            if inside and at <= depth:
                inside = None
            if kind:
                inside, depth = name, at
                names.add(name)
            elif re.match(r'^ *(?:(?:pub|unfoldable|abbrev) )*\S+ :', head.string):
                names.add(inside + '.' + name if inside else name)
        return names

    @cached_property
    def read(self):
        """Each function as (its name, a method's as TYPE.NAME, whether it is public, whether it is for C, itself). What a trait's block says of a method
        by a ghost member is a promise of the method, and makes it public: it is called by the trait."""
        found, blocks = [], list(BLOCK.finditer(self.text))
        for m in FUNCTION.finditer('' if self.proof else self.text):
            owner = [block for block in blocks if block.start() < m.start() < block.end()] if m[1] else []
            said = [('ensures', text) for block in owner for text in GHOST.findall(block[0])]
            function = Function.read(m[5])
            function.clauses += said
            found.append(('.'.join([block[1] for block in owner] + [m[4]]), bool(m[2] or said), bool(m[3]), function))
        return found

    @cached_property
    def functions(self):
        return {name: function for name, _, _, function in self.read}

    @cached_property
    def public(self):
        """The public functions, each with whether it is for C."""
        return {name: exported for name, public, exported, _ in self.read if public}

    @cached_property
    def structs(self):
        """The fields of each struct."""
        found = re.findall(r'(?m)^(?:pub )?struct (\w+) \{\n((?:(?: .*)?\n)*)\}', self.text)
        return {name: re.findall(r'(?m)^ +(?:pub )?(\w+):', fields) for name, fields in found}

    def equations(self, name):
        """What a definition is: its equations, each as one line."""
        return [' '.join(text.split()) for text in re.findall(rf'(?m)^{re.escape(name)} .*\n(?: .*\n)*', self.text)]

    @cached_property
    def unread(self):
        """Public functions of a form that is not in use here, and functions of one name, of which one only would be read."""
        found = [] if self.proof else re.findall(r'(?m)^.*\bpub\b.*\bfn (\w+)', self.text)
        names = [name for name, _, _, _ in self.read]
        return sorted(set(found) - {name.split('.')[-1] for name in self.public} | {name for name in names if names.count(name) > 1})

    def origins(self, name):
        """The modules that the file has a name from, itself among them; something else under that name is shown with both."""
        found = [self.module] * (self.proof and name in self.definitions)
        for place, names in self.uses:
            found += [place] * (name in names) + [f'{place} ({entry})' for entry in names if entry.endswith(f' as {name}')]
        return found

    @cached_property
    def uses(self):
        """The modules that it uses, each with the names that it has from there, in the order of the file."""
        lines = re.findall(r'(?m)^(?:pub |ghost )*use (\S+)\.\{([^}]*)\}', self.text)
        return [(place, ' '.join(names.split()).split(', ')) for place, names in lines]

    @cached_property
    def theorems(self):
        """Each statement that is no record, data type or abbreviation; 'module _ (..) where' gives its parameters to what stands in it."""
        found, sections, skip = {}, [], 0
        for n, line in enumerate(self.lines):
            if n < skip or not line.strip():
                continue
            sections = [section for section in sections if section[0] < indent(line)]
            if line.lstrip().startswith('module '):
                skip = n + 1
                while not self.lines[skip - 1].endswith('where'):
                    skip += 1
                header = ' '.join(' '.join(self.lines[n:skip]).split()[2:-1])
                sections.append((indent(line), [header] if header else []))
            elif m := re.match(r' *(?:(?:pub|unfoldable|abbrev) )*([^\s(){}]+) :(?: (.*))?$', line):
                more = n + 1
                while more < len(self.lines) and indent(self.lines[more]) > indent(line):
                    more += 1
                whole = ' '.join(' '.join([m[2] or ''] + self.lines[n + 1:more]).split())
                given = [text for _, texts in sections for text in texts]
                found.setdefault(m[1], []).append(Theorem(' → '.join(given + [whole])))
        return found

    @property
    def opaque(self):
        """Why the file cannot be read word for word, if it cannot."""
        if self.commented:
            return 'has a comment of more than a line, which looks like what it comments on'
        for name, homes in HOMES.items():
            if set(self.origins(name)) - homes:
                return f'has {name} from {" and ".join(self.origins(name))}, and not from {" or ".join(sorted(homes))}'
        if self.unread:
            return f'has public functions that are not read, as they begin otherwise than functions do here: {", ".join(self.unread)}'
        again = [name for name, theorems in self.theorems.items() if any(name in theorem.bound for theorem in theorems)]
        return f'defines {", ".join(again)} where a parameter has that name' if self.proof and again else ''


READ = {}


def source(path):
    """Each file is read once; who changes one takes it out of READ."""
    if path not in READ:
        READ[path] = Source(path)
    return READ[path]
