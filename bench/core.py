#!/usr/bin/env python3
"""Measures the C library beside plain Rust and writes the table of docs/BENCHMARKS.md.

  bench/core.py        in the repository's root, after `rt lib` in crates/harpdapple; needs gcc, rustc, valgrind and size

Instructions a call are counted by callgrind: those of 2,000 calls less those of 1,000. Times are those of bench/core.rs, the least over programs
that differ in the order alone in which the linker puts their functions: rustc's own linker, LLD, takes the order.
Stack is what bench/stack.c sees, linked so that no call looks memcpy up. Code is the text of an executable with every function of the header,
less that of one with none.
"""
import os
import re
import subprocess
import sys

ROWS = [
    ('read', 'read a plan record'),
    ('write', 'write a plan record'),
    ('pulses', 'pulse call, no record held'),
    ('pulses-62', 'pulse call, 62 day and 2 month records'),
    ('pulses-4000', 'pulse call, 62 and 120 records, no plan in force'),
    ('turns', 'day turn by a tick, mean of 26,000'),
    ('display-62', 'display query, 62 day and 2 month records'),
    ('display-4000', 'display query, 62 and 120 records'),
]
SCRATCH, PAGE = 'target/bench', 'docs/BENCHMARKS.md'
ORDERS = 8
RECORDS = os.path.join(SCRATCH, 'records-10000')


def run(*words):
    done = subprocess.run(words, capture_output=True, text=True)
    if done.returncode != 0:
        sys.exit('%s\n%s%s' % (' '.join(words), done.stdout[-2000:], done.stderr[-2000:]))
    return done.stdout + done.stderr


def instructions(name, calls):
    said = run('valgrind', '--tool=callgrind', '--callgrind-out-file=/dev/null', SCRATCH + '/core', RECORDS, name, str(calls))
    return int(re.search(r'Collected : (\d+)', said).group(1))


def text_size(path):
    return int(run('size', path).splitlines()[1].split()[0])


def code_size():
    header = open('include/harpdapple.h', encoding='utf-8').read()
    names = re.findall(r'^(?!static)\w[\w *]*\b(harpdapple_\w+)\(', header, re.M)
    sizes = []
    for name, used in (('all', names), ('none', [])):
        source = '%s/%s.c' % (SCRATCH, name)
        with open(source, 'w') as out:
            out.write(''.join('void %s(void);\n' % n for n in used))
            out.write('void (*const table[])(void) = {%s};\n' % ', '.join(used + ['0']))
            out.write('int main(int n, char **words) { (void)words; if (n > 100) table[n](); return 0; }\n')
        run('gcc', '-O2', '-Wl,--gc-sections', source, 'crates/harpdapple/out/libharpdapple.a', '-o', source[:-2])
        sizes.append(text_size(source[:-2]))
    return sizes[0] - sizes[1]


# Nanoseconds of each row, the library's and plain Rust's: of each side the least over the orders of functions.
def times():
    least = {}
    for order in range(ORDERS):
        run('rustc', '--edition', '2021', '-O', '-o', SCRATCH + '/core', 'bench/core.rs', '-L', 'crates/harpdapple/out', '-l', 'static=harpdapple',
            '-C', 'link-arg=-Wl,--shuffle-sections=.text*=%d' % (order + 1))
        for line in run(SCRATCH + '/core', RECORDS).splitlines():
            name, *seen = line.split()
            seen = [float(t) for t in seen]
            least[name] = [min(pair) for pair in zip(seen, least.get(name, seen))]
            print('order %d of %d: %s' % (order + 1, ORDERS, line), flush=True)
    return least


def main():
    os.makedirs(SCRATCH, exist_ok=True)
    run('sh', '-c', 'cd crates/harpdapple && rt lib')
    run('gcc', '-std=c11', '-O2', '-Wall', '-Wextra', '-Iinclude', 'bench/stack.c', 'crates/harpdapple/out/libharpdapple.a', '-pthread',
        '-Wl,-z,now', '-o', SCRATCH + '/stack')
    if not os.path.exists(RECORDS):
        made = subprocess.run(['python3', 'tests/records.py', 'many', '10000'], capture_output=True, check=True).stdout
        open(RECORDS, 'wb').write(made)
    taken = times()
    lines = ['| What | Library, ns | Plain Rust, ns | Ratio | Instructions, library | Plain Rust | Ratio |', '|---|---|---|---|---|---|---|']
    for name, what in ROWS:
        ours, plain = taken[name]
        a, b = ((instructions(side, 2000) - instructions(side, 1000)) / 1000 for side in (name, 'plain-' + name))
        lines.append('| %s | %.0f | %.0f | %.2f | %s | %s | %.2f |' % (what, ours, plain, ours / plain, f'{a:,.0f}', f'{b:,.0f}', a / b))
        print(lines[-1], flush=True)
    lines += ['', '| Call | Bytes of stack |', '|---|---|']
    *calls, (_, meter) = (line.rsplit(None, 1) for line in run(SCRATCH + '/stack').splitlines())
    for what, size in calls:
        lines.append('| %s | %s |' % (what, f'{int(size):,}'))
    lines += ['', 'Code of all functions of the header: %s bytes. A meter: %s bytes.' % (f'{code_size():,}', f'{int(meter):,}')]
    print('\n'.join(lines[2 + len(ROWS):]))
    page = open(PAGE, encoding='utf-8').read()
    first, last = '<!-- written by bench/core.py -->\n', '<!-- end -->\n'
    head, rest = page.split(first)
    open(PAGE, 'w', encoding='utf-8').write(head + first + '\n' + '\n'.join(lines) + '\n\n' + last + rest.split(last)[1])


if __name__ == '__main__':
    main()
