#!/usr/bin/env python3
"""What `rt ci` has just proved in this checkout, for the tests that follow it in .ci/run.

  tests/proved.py clear    before rt ci: removes the libraries that an earlier rt ci left, which this one would put back in their place
  tests/proved.py harpdapple     after it: builds the C library over the libraries that it has proved

`rt ci` leaves each library in crates/NAME/out/rlib, with its statements and its code. `rt lib` takes none of these and proves all of them
again; a command of rattle itself takes them. Where other commands have left libraries of their own, each with a stamp, rt ci puts those back,
and they are the business of `rt lib`.
"""
import os
import shutil
import subprocess
import sys

sys.dont_write_bytecode = True
from edits import LISTED, PROGRAM, ROOT, below


def kit():
    """The folder of the kit, where its first page lies."""
    page = subprocess.run(['rt', 'doc'], capture_output=True, text=True, check=True).stdout.split()[0]
    return os.path.dirname(page)


def words(name):
    """What rattle is told of a crate: its root, its libraries and its kind."""
    of_kit, folder = KIT + '/rlibs', os.path.join(ROOT, 'crates', name)
    is_program = os.path.exists(os.path.join(folder, PROGRAM))
    out = ['--crate-name', name, PROGRAM if is_program else 'src/lib.rt']
    for dep in ['std', *LISTED[name].of_kit]:
        out += ['--extern', f'{dep}={of_kit}/{dep}.rlib']
    out += ['-L', f'dependency={of_kit}']
    for dep in LISTED[name].uses:
        out += ['--extern', f'{dep}={rlib(dep)}']
    for dep in below(name):
        out += ['-L', 'dependency=' + os.path.dirname(rlib(dep))]
    out += ['--antt-project', f'{KIT}/rattle/logic/antt-project.json', '--logic-built', f'{KIT}/logic_built', '--links', f'{name}=']
    out += ['--crate-type', 'staticlib'] if LISTED[name].is_static else []
    if LISTED[name].is_static or is_program:
        out += [word for dep in below(name) for word in ('--links', f'{dep}=')]
    return out


def rlib(name):
    return os.path.join(ROOT, 'crates', name, 'out', 'rlib', name + '.rlib')


def from_ci(names):
    """Whether rt ci has left all that these crates stand on: it writes no stamp beside a library."""
    return all(os.path.isfile(rlib(name) + '/format') and not os.path.exists(os.path.dirname(rlib(name)) + '/stamp')
               for name in {dep for name in names for dep in below(name)})


def clear():
    for name in LISTED:
        for left in (os.path.join('crates', name, 'out'), os.path.join('.git', 'rt-aside', name)):  # the latter is of a run that was killed
            left = os.path.join(ROOT, left, 'rlib')
            if not os.path.exists(left + '/stamp'):
                shutil.rmtree(left, ignore_errors=True)
    return 0


def archive(name):
    """Builds a static library as `rt lib` does; the exit status."""
    if not from_ci([name]):
        return subprocess.run(['rt', 'lib'], cwd=os.path.join(ROOT, 'crates', name)).returncode
    jobs = str(min(4, len(os.sched_getaffinity(0))))
    how = ['--jobs', jobs, '--toolchain', f'{KIT}/toolchain', '--backend', 'llvm', '--incremental', 'out/incremental', '-o', f'out/lib{name}.a']
    os.makedirs(os.path.join(ROOT, 'crates', name, 'out'), exist_ok=True)
    return subprocess.run([f'{KIT}/bin/rattle', 'build', *words(name), *how], cwd=os.path.join(ROOT, 'crates', name)).returncode


KIT = kit()
if __name__ == '__main__':
    sys.exit(clear() if sys.argv[1] == 'clear' else archive(sys.argv[1]))
