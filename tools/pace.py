#!/usr/bin/env python3
"""Measures crates/paces against the same code in plain Rust, built for release, in one run and on the same input.

The plain code is that of the crates without their contracts, put into one file for each crate; the program's own main is
written out below. Run it from the top of the repository, with rustc at hand.
"""
import pathlib
import re
import subprocess
import sys
import tempfile
import time

CRATES = {'masks': [], 'kinds': ['masks'], 'concepts': ['kinds'], 'rows': ['masks', 'kinds', 'concepts'],
          'subsumption': ['masks', 'kinds', 'concepts', 'rows']}
CONTRACT = re.compile(r'\s*(ghost |requires |requires\b.*\{|ensures |ensures\b.*\{|decreases |#!\[tactic|#\[derive\(Drop\)\])')
ROUNDS, TIMES = 300000, 5


def plain(text):
    """The text without contracts."""
    lines = []
    for line in text.splitlines():
        if not CONTRACT.match(line):
            lines.append(line)
        elif line.endswith(';') and 'ghost ' not in line:
            # The last clause of a method without a body ends it.
            lines[-1] += ';'
    return '\n'.join(lines).replace('final fn ', 'fn ') + '\n'


def plain_main(text):
    """The program's, where errors end it and output needs no handle."""
    text = plain(text)
    text = text.replace('use anyhow::bail;\n', '').replace('bail!(', 'panic!(').replace('println!(rt; ', 'println!(')
    text = text.replace('io::read_to_string(rt.alloc(), rt.stdin())?', 'io::read_to_string(io::stdin()).unwrap()')
    text = text.replace('.parse()?', '.parse().unwrap()').replace('written(n, &p, &q))?;', 'written(n, &p, &q));')
    text = text.replace('text.as_str()', 'text').replace('rt: &HostRuntime', '').replace('rt: HostRuntime', '')
    return text.replace(' -> anyhow::Result<()>', '').replace('    Ok(())\n', '').replace('run(&rt)', 'run()')


def build(folder):
    """The plain program."""
    for crate, uses in CRATES.items():
        for source in pathlib.Path('crates', crate, 'src').rglob('*.rt'):
            copy = folder / crate / source.relative_to(f'crates/{crate}/src').with_suffix('.rs')
            copy.parent.mkdir(parents=True, exist_ok=True)
            copy.write_text(plain(source.read_text()))
        compile_one(folder, crate, folder / crate / 'lib.rs', ['--crate-type=rlib'], uses)
    (folder / 'main.rs').write_text(plain_main(pathlib.Path('crates/paces/src/main.rt').read_text()))
    compile_one(folder, 'paces', folder / 'main.rs', ['--crate-type=bin', '-o', str(folder / 'paces')], CRATES)
    return folder / 'paces'


def compile_one(folder, crate, source, kind, uses):
    links = [word for use in uses for word in ('--extern', f'{use}={folder}/lib{use}.rlib')]
    out = [] if '-o' in kind else ['--out-dir', str(folder)]
    subprocess.run(['rustc', '--edition=2021', '-Copt-level=3', '-Ctarget-cpu=x86-64-v2', '-Awarnings', '--crate-name', crate,
                    '-L', str(folder), *kind, *out, *links, str(source)], check=True)


def seconds(program):
    start = time.perf_counter()
    answer = subprocess.run([program], input=f'{ROUNDS}\n', capture_output=True, text=True, check=True).stdout
    return time.perf_counter() - start, answer


def main():
    with open('crates/paces/stdin') as given, open('crates/paces/stdout') as expected:
        proved = subprocess.run(['rt', 'run'], cwd='crates/paces', stdin=given, capture_output=True, text=True, check=True)
        assert expected.read() in proved.stdout
    with tempfile.TemporaryDirectory() as name:
        programs = [pathlib.Path('crates/paces/out/paces').resolve(), build(pathlib.Path(name))]
        taken = [[], []]
        for _ in range(TIMES):
            for i, program in enumerate(programs):
                spent, answer = seconds(program)
                taken[i].append(spent)
                assert answer == f'0 {128 * ROUNDS}\n', answer
        ours, theirs = map(min, taken)
        print(f'proved {ours:.3f} s, plain {theirs:.3f} s, ratio {ours / theirs:.2f}')


if __name__ == '__main__':
    sys.exit(main())
