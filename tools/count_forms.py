#!/usr/bin/env python3
"""Counts older forms in the sources: tools/count_forms.py [-v] [COMMIT]. Without a commit the files as they stand; -v lists each place.

Points as in docs/DESIGN-PASS.md:
1  enums with a variant Refused, structs with an answer or a flag beside values, numbers that stand for 'none', and tests of a refusal's number;
2  functions of one shape: their bodies are the same but for names and numbers (of at least 30 signs), in groups;
3  loops that count by hand: each `while`;
4  equality, smaller and greater, and conversions by hand, a field set to a variable of its own name, and `if t { return true; }`;
5  facts that stand in three or more contracts' `requires`, and three or more parameters that stand side by side in three or more functions;
6  a buffer's length handed in beside it, and arrays that are lent in parts;
7  branches on which digit, size or step it is, by a number;
8  goals answered in proofs/*/Answers.antt and lemmas beside them.
"""
import re
import subprocess
import sys
from collections import defaultdict
from pathlib import Path

ROOT = Path(__file__).resolve().parent.parent
FUNCTION = re.compile(r'^( *)(?:pub(?:\(crate\))? )?(?:extern "C" )?fn (\w+)(.*?)^\1(?:\{(.*?)^\1\}|\{\})', re.S | re.M)


def files(commit, pattern):
    if not commit:
        for path in sorted(ROOT.glob('crates/**/*')):
            name = str(path.relative_to(ROOT))
            if path.is_file() and re.fullmatch(pattern, name):
                yield name, path.read_text(encoding='utf-8')
        return
    names = subprocess.run(['git', '-C', ROOT, 'ls-tree', '-r', '--name-only', commit, 'crates'], capture_output=True, text=True, check=True).stdout
    for name in names.split():
        if re.fullmatch(pattern, name):
            yield name, subprocess.run(['git', '-C', ROOT, 'show', f'{commit}:{name}'], capture_output=True, text=True, check=True).stdout


def lines(sources, pattern):
    return [f'{name}:{n}: {line.strip()}' for name, text in sources for n, line in enumerate(text.split('\n'), 1) if re.search(pattern, line)]


def shapes(sources):
    """Groups of functions whose bodies are one shape."""
    groups = defaultdict(list)
    for name, text in sources:
        for m in FUNCTION.finditer(text):
            tokens = re.findall(r'\w+|[^\w\s]', m[4] or '')
            if len(tokens) >= 30:
                keep = {'while', 'if', 'else', 'return', 'let', 'mut', 'for', 'in', 'match', 'as', 'loop'}
                groups[' '.join(t if t in keep or not re.match(r'\w', t) else 'n' for t in tokens)].append(f'{name}: {m[2]}')
    return [' ~ '.join(group) for group in groups.values() if len(group) > 1]


def repeated_facts(sources):
    found = defaultdict(list)
    for name, text in sources:
        for m in re.finditer(r'^ *requires(?: \w+)? \{ (.*) \}$', text, re.M):
            for fact in {part.strip(' ()') for part in m[1].split(' × ')}:
                found[fact].append(name)
    return [f'{len(names)} times: {fact}' for fact, names in sorted(found.items()) if len(names) > 2]


def travelling(sources):
    """Runs of three or more parameters, with their types, that stand in three or more functions; of runs within runs the longest."""
    found = defaultdict(set)
    for name, text in sources:
        for m in FUNCTION.finditer(text):
            inside = m[3].lstrip('<').split(')')[0].split('(')[-1]
            all_of = [' '.join(p.split()) for p in inside.split(',') if p.strip()]
            for i in range(len(all_of)):
                for j in range(i + 3, len(all_of) + 1):
                    found[', '.join(all_of[i:j])].add(f'{name}: {m[2]}')
    many = {run: names for run, names in found.items() if len(names) > 2}
    return [f'{len(names)} functions: {run}' for run, names in sorted(many.items()) if not any(run != r and run in r and names == many[r] for r in many)]


def count(commit):
    sources = list(files(commit, r'crates/\w+/src/.*\.rt'))
    answers = list(files(commit, r'crates/\w+/proofs/.*/Answers\.antt'))
    yield '1', 'enums with a variant Refused', lines(sources, r'^ +Refused(\(|,)')
    yield '1', 'an answer or a flag beside values', lines(sources, r'^ +(pub )?(answer: Answer|stops: bool),')
    yield '1', "numbers for 'none'", lines(sources, r'^// .*(\b16 where it is no digit|, and r where there is none|; r \+ 1 where nothing is|0 at the end of the input or where it failed|true where (it|one of them) is not the line)')
    yield '1', "tests of a refusal's number", lines(sources, r'if (word\(|number\()?\w+\)? != 0 \{')
    yield '2', 'groups of functions of one shape', shapes(sources)
    yield '3', 'while', lines(sources, r'^ +while ')
    yield '4', 'functions by hand', lines(sources, r'fn (unequal|buffer_number|reason_word|most|least|one|below|wide|four|put_two|put_four|put|real|equally_many)\(.*-> |fn (put_two|put_four)\(')
    yield '4', 'fields set to their own names', lines(sources, r'^ +([a-z_]+): \1,$')
    yield '4', 'return true, return false', lines(sources, r'return (true|false);')
    yield '5', 'facts in three or more requires', repeated_facts(sources)
    yield '5', 'parameters that stand side by side', travelling(sources)
    yield '6', 'a length beside its buffer', lines(sources, r'^ +requires .*\(?\b\w+ (≤|≡) (8 \* )?length \w+\.(now|old)')
    yield '6', 'arrays lent in parts', lines(sources, r'= \[0(u64|u8)?; \d+\]')
    yield '7', 'branches by a number', lines(sources, r'if (d|n|q) (==|>|<=) \d')
    yield '8', 'goals answered', lines(answers, r'^pub ')
    yield '8', 'lemmas beside answers', [x for x in lines(answers, r'^[a-z][\w-]* : ') if ': goal.' not in x]


def main(options):
    verbose = '-v' in options
    commit = ([o for o in options if o != '-v'] + [''])[0]
    for point, what, places in count(commit):
        print(f'{point}  {len(places):5}  {what}')
        for place in places if verbose else []:
            print(f'            {place}')


if __name__ == '__main__':
    sys.stdout.reconfigure(encoding='utf-8')
    main(sys.argv[1:])
