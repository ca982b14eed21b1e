#!/usr/bin/env python3
"""Lists the parameters, two by two, that three or more functions of src/ share by name and type."""
import collections
import glob
import itertools
import re

functions = re.compile(r'\bfn (\w+)(?:<[^>]*>)?\(([^)]*)\)')
shared = collections.defaultdict(list)
for path in sorted(glob.glob('crates/*/src/**/*.rt', recursive=True)):
    for name, parameters in functions.findall(open(path).read()):
        typed = {' '.join(p.split()) for p in parameters.split(',') if ':' in p}
        for pair in itertools.combinations(sorted(typed), 2):
            shared[pair].append(f'{path}: {name}')
for pair, where in sorted(shared.items()):
    if len(where) > 2:
        print(' and '.join(pair), '-', '; '.join(where))
