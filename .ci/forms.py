"""The form of a request's contract, and of what theorems suppose and say of its statement. Each check gives what is wrong, in words."""
import re

from source import leaves, split, unwrapped

# Results that are a word and nothing else, and how a contract names it.
WORDS = {'Result<(), Reason>': 'word result', 'u64': 'result', 'usize': 'result'}
# Results that hold a value where they are done: the definition that gives word and value for each case, and what it is handed before the result.
HELD = {
    'Result<u64, Reason>': ['told', '0'],
    'Result<Size, Reason>': ['header_told'],
    'Result<Tallied, Reason>': ['tally_told'],
    'Result<Job, Reason>': ['opened'],
    'Result<Turned, Reason>': ['turned'],
}
# What each is handed before the result: it stands for what a refusal does not hold.
BEFORE = {definition: given for definition, *given in HELD.values()}


def outcome(function):
    """All that a function leaves: its word, with the value that it holds, and what it was lent to be written."""
    result = [*HELD[function.returns], 'result'] if function.returns in HELD else [WORDS[function.returns]]
    return result + [f'{name}.new' for name, kind in function.parameters if kind.startswith('&mut ')]


def left_parts(left):
    """The parts of an equation's left side: of a pair, or what the definition of a held value is handed, that definition first."""
    head, *rest = split(left, ' ')
    return [head] + [unwrapped(part) for part in rest] if head in BEFORE else leaves(left)


def arguments(function):
    """All that a function is handed; rows and columns that follow one another are a size."""
    given, names = [], [name for name, _ in function.parameters]
    for i, (name, kind) in enumerate(function.parameters):
        if name.endswith('rows') and names[i + 1:i + 2] == [name[:-4] + 'columns']:
            given.append(f'record {{ rows = {name}; columns = {names[i + 1]} }}')
        elif not (name.endswith('columns') and names[i - 1:i] == [name[:-7] + 'rows']):
            given.append(name + ('.old' if kind.startswith('&mut ') else '.now' if kind.startswith('&') else ''))
    return given


def compared(side, found, wanted):
    lacking = [part for part in wanted if part not in found]
    foreign = [part for part in found if part not in wanted]
    if lacking:
        yield f'the {side} side of its equation lacks {", ".join(lacking)}'
    if foreign:
        yield f'the {side} side of its equation has {", ".join(foreign)}, which does not belong there'
    if found != wanted and not lacking and not foreign:
        yield f'the {side} side of its equation does not have once and in this order: {", ".join(wanted)}'


def contract_faults(function, definition):
    """The contract is one equation: all that the function leaves is the definition of all that it is handed. Nothing is required."""
    kinds = [kind for kind, _ in function.clauses]
    hidden = {definition, 'word', 'result', *BEFORE} & {name for name, _ in function.parameters}
    if hidden:
        yield f'its parameter {", ".join(sorted(hidden))} hides what its contract is made of'
    if function.requires:
        yield 'it has a requires, and a request has an answer to everything'
    if kinds.count('ensures') != 1 or set(kinds) - {'requires', 'ensures'}:
        yield f'a request has one ensures and nothing else, and this has: {", ".join(kinds) or "nothing"}'
        return
    sides = split(re.sub('[«»]', '', function.ensures), '≡')
    if len(sides) != 2:
        yield 'its ensures is not one equation, { .. ≡ .. }'
        return
    if function.returns not in {*WORDS, *HELD}:
        yield f'it gives a {function.returns}, which is no word and no result with a definition'
        return
    yield from compared('left', left_parts(sides[0]), outcome(function))
    head, *given = split(sides[1], ' ')
    if head != definition:
        yield f'the right side of its equation is not {definition} of what it is handed'
        return
    yield from compared('right', [unwrapped(part) for part in given], arguments(function))


def told_faults(function, structs, equations):
    """The definition in a request's contract that tells what it holds is one equation: the word, all that is held, as a whole or field by field, and then
    what else it is handed."""
    definition, *given = HELD[function.returns]
    head, body = (split(equations[0], '=') + ['', ''])[:2] if len(equations) == 1 else ('', '')
    answer, *rest = head.split(' ')[1 + len(given):] or ['']
    found = leaves(body)
    none = (re.findall(r'\bheld (\w+) ', body) or [''])[0]
    fields = structs.get(function.returns[len('Result<'):-len(', Reason>')], [])
    each = [f'(held {none} {answer}).{name}' for name in fields]
    for name, part in zip(fields, each):
        if f'held {none} {answer}' not in found and part not in found:
            yield f'{definition} says nothing of {name}'
    if found not in ([f'word {answer}', *each, *rest], [f'word {answer}', f'held {none} {answer}', *rest]) or not (fields or given):
        yield f'{definition} does not say in one equation the word, what is held and what else it is handed, each as it is'


def own_equation(hypothesis, definitions, bound):
    """The parts on the left, the definition and its arguments, if this is an equation with one of the definitions of variables that all differ."""
    words = split(hypothesis, ' ')
    left, right = (words[2], unwrapped(words[3])) if words[0] == '◌≡◌' and len(words) == 4 else (split(hypothesis, '≡') + ['', ''])[:2]
    head, *given = split(right, ' ') or ['']
    parts = left_parts(left)
    if parts[:1] and parts[0] in BEFORE:
        before = BEFORE[parts[0]]
        # Handed anything else, it says something that is false of every refusal.
        if parts[1:1 + len(before)] != before:
            return None
        parts = parts[1 + len(before):]
    variables = [re.fullmatch(r'(?:word )?([^\s().]+)(?:\.\w+)?', part) for part in parts]
    if head not in definitions or not all(variables) or len(split(hypothesis, '≡')) > 2:
        return None
    named = {match[1] for match in variables}
    free = named.isdisjoint(given) and len(set(parts)) == len(parts) and len(set(given)) == len(given)
    return (parts, head, given) if free and set(bound).issuperset(named | set(given)) else None


def conclusion_fault(column, theorem, definitions):
    """What a theorem in a column says at its end."""
    if column == 'exact':
        # A check answers a number alone.
        good = theorem.conclusion.split(' ')[0] in ('Exact', 'Numbered')
    elif column == 'shown out':
        good = theorem.conclusion.split(' ')[0] in ('ShownOut', 'AnswerShownOut')
    elif column == 'one':
        pairs = [split(unwrapped(part), '≡') for part in split(theorem.conclusion, '×')]
        equations = [own_equation(hypothesis, definitions, theorem.bound) for hypothesis in theorem.hypotheses]
        equations = [equation for equation in equations if equation]
        good = len(equations) == 2 and len(pairs) == len(equations[0][0])
        good = good and all(len(pair) == 2 and pair[0] != pair[1] and pair[0] == pair[1].replace("'", '') for pair in pairs)
    else:
        good = True
    return None if good else f'its conclusion is not what the column {column} promises'

