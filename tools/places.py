#!/usr/bin/env python3
"""Counts the places of docs/DESIGN-PASS.md in the sources of a checkout: tools/places.py [FOLDER] [-v].

The lines that a pattern finds are counted, and printed with -v. Which of them are places is told by the page, which names
every place that stays.
"""
import collections, pathlib, re, sys

args = [a for a in sys.argv[1:] if a != '-v']
top = pathlib.Path(args[0] if args else '.')
verbose = '-v' in sys.argv

POINTS = [
    ('1', 'own enums, flags in structs, numbers in place of nothing or of a bool',
     r'^\s*(pub(\(crate\))? )?enum |^\s*(pub )?\w+: bool,|_(laws|cards|turnrounds|differ)\(\) -> u8|one: u8|fn bit\(.*-> u8|match self\.number\(\)'),
    ('2', 'functions that differ in a type, a size or a constant, and types that do',
     r'fn (read_u\d+|read_field|read_head|read_fields|allows_\w+|ask_room|same_\w+|set|no_jobs)\(|^\s*(pub )?(enum|struct) (HeaderField|CardField|Head|Fields|Header)\b'),
    ('3', 'loops', r'^\s*(for|while|loop)\b'),
    ('4', 'impls of comparison, numbers put into text, conversions by `as`',
     r'^\s*impl (PartialEq|Eq|PartialOrd|Ord|Clone|Copy|Debug|Default)\b|fn (refusal_page|first_page|push_decimal|refusal_text|first_text)\(|\bas (u8|u16|u32|u64|usize)\b'),
    ('5', 'facts required, and positions with widths as parameters',
     r'^\s*requires|at: u32, width|^    at: u32,$'),
    ('6', 'arrays of a fixed size', r'\[[^\]]*; *\d+\]'),
    ('7', 'matches', r'\bmatch '),
]

for number, what, pattern in POINTS:
    found = []
    for path in sorted(top.glob('crates/*/src/**/*.rt')):
        for line, text in enumerate(path.read_text().splitlines(), 1):
            if not text.lstrip().startswith('//') and re.search(pattern, text):
                found.append(f'{path.relative_to(top)}:{line}: {text.strip()}')
    per = collections.Counter(f.split('/')[1] for f in found)
    print(f'point {number}, {what}: {len(found)} (' + ', '.join(f'{c} {n}' for c, n in sorted(per.items())) + ')')
    if verbose:
        print('\n'.join('    ' + f for f in found))

answers, lemmas, lines = collections.Counter(), collections.Counter(), collections.Counter()
for path in sorted(top.glob('crates/*/proofs/**/*.antt')):
    crate, text = path.relative_to(top).parts[1], path.read_text()
    lines[crate] += len(text.splitlines())
    if path.name == 'Answers.antt':
        answers[crate] += len(re.findall(r'^pub [\w-]+ : goal\.', text, re.M))
    elif path.parent.name == 'proofs':
        lemmas[crate] += len(re.findall(r'^\s*(?:abbrev )?(?:pub )?[\w-]+ : .*→|^\s*(?:abbrev )?(?:pub )?[\w-]+ : .*≡', text, re.M))
print('point 8, answers, lemmas and lines of proofs: ' + '; '.join(f'{c} {answers[c]}, {lemmas[c]}, {lines[c]}' for c in sorted(lines)))
print(f'    together {sum(answers.values())}, {sum(lemmas.values())}, {sum(lines.values())}')
