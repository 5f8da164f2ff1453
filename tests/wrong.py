#!/usr/bin/env python3
"""Tries the wrong answers under crates/*/wrong: edits in the form of rt's must-fail ones, each of which the prover must refuse.

  tests/wrong.py [--list] [--proved[=LOG]] [CRATE..]    in the repository

`rt must-fail` checks the whole crate for each edit. Here edits share a check where it tells them apart. A function is proved by its own
contract and those of what it calls, whose bodies it does not see; so an edit of a body, or of the contract of a function that nothing else
in its crate names, can break the proof of its own function alone. An edit of a definition in specs/ can break what rests on that
definition (tests/rests.py). An edit counts if the check shows an error in a proof that it may break and no other edit of its run may. Where
a shared run shows none for it, an error where none of its edits reaches, or one that shows nothing, the edit is tried again by itself. So
is each other edit, as of a constant. A run checks the functions that its edits are for, with what those call, or the whole crate where an
edit is of what no function names. The runs of a crate follow one another, each over what the one before kept: the prover takes from there
what is as it was. The libraries below are built first, by `rt lib`, or with --proved are those that `rt ci` has just proved.

A refusal shows something only if it stops at a fact. An edit fails if its first error is in specs/ or in a contract, or is a name that
is out of scope. The edits under must-fail/ are held to the same. Where LOG has what `rt ci` printed, each of these counts by its line
there, if the line places the first error at a fact of what the edit may break. If not, or if it has a line `for:`, it is tried here too.

An edit stands for the function that it changes; a line `for: name name` names others whose contract it makes false, each of which the
prover must leave unproved. One of several exits has a line `goals: name name`, the prover's names of them, each of which it must leave too:
so what is wrong of each exit is seen in one run. Every public contract of a library has a wrong answer, those of the crates in TWICE have two; programs
without edits are named in PROGRAMS (tests/edits.py). --list counts them and the runs that they take, and tries nothing. A crate needs as
many runs as there are edits of one of its functions or definitions, beside those that are tried by themselves.

The runs of as many crates go on at a time as there are processors (or WRONG_JOBS). target/wrong/CRATE/ has the logs, target/wrong/counts how
many passed and failed. The last line counts them.
"""
import concurrent.futures
import os
import re
import shutil
import subprocess
import sys
import time

sys.dont_write_bytecode = True
from edits import Crate, Function, LISTED, ROOT, below, edited, lacking
from proved import KIT, from_ci, words
from rests import Rests

ALL = os.path.join(ROOT, 'target', 'wrong')
AGAIN = []  # the edits of shared runs that were tried again by themselves
NAMELESS = re.compile('is not in scope|that can be named from here|has no field|has no `|unknown-name|is no name|cannot continue|expected the end')
ADMITTED = re.compile('was not admitted|because it was not|was rejected, was not checked|exports no `')
LEFT = re.compile(r'^note: `([^`]+)` of (proofs/\S+?) must prove: (.*)', re.M)  # a goal that is left
# a place, and what stands there
SAID = re.compile(r'rt: must-fail (\w+)/(\S+)\.edit: refused, as it must be: (.*)')  # a line of `rt ci`
PLACED = re.compile(r'(note: )?(?:\./)?((?:src|specs|proofs)/[^\s:]+):(\d+):\d+:(.*)')


def checked(crate, scratch, kept, only):
    """Checks the crate as it stands in the folder `scratch`, or some functions of it, over the modules in `kept`; the status and what the
    prover said."""
    more = ['--incremental', kept, '--jobs', '1', *(word for name in only for word in ('--only', crate.name + '::' + name))]
    done = subprocess.run([f'{KIT}/bin/rattle', 'check', *words(crate.name), *more], cwd=scratch, capture_output=True, text=True, errors='replace')
    return done.returncode, done.stdout + done.stderr


def copied(crate, texts, scratch):
    for part in ('src', 'specs', 'proofs'):
        if os.path.isdir(os.path.join(ROOT, 'crates', crate.name, part)):
            shutil.copytree(os.path.join(ROOT, 'crates', crate.name, part), os.path.join(scratch, part))
    for place, text in texts.items():
        with open(os.path.join(scratch, place), 'w', encoding='utf-8') as out:
            out.write(text)


def kept_by_link(one, other):
    """Links what was proved, which the prover replaces and never writes to, and copies what it keeps beside it."""
    return os.link(one, other) if one.endswith('.oantt') else shutil.copy2(one, other)


def built(crates, is_proved):
    """Builds what the crates stand on, lowest first; the name of a library that is not proved, or None."""
    if is_proved and from_ci([crate.name for crate in crates]):
        return None
    for name in dict.fromkeys(name for crate in crates for name in below(crate.name)):
        done = subprocess.run(['rt', 'lib'], cwd=os.path.join(ROOT, 'crates', name), capture_output=True, text=True, errors='replace')
        if done.returncode:
            print(done.stdout[-2000:] + done.stderr[-2000:])
            return name
    return None


def left(crate):
    """The edits of a crate that are to be tried here."""
    return [edit for edit in crate.edits['must-fail'] + crate.edits['wrong'] if edit not in crate.settled]


def runs_of(crate):
    """These edits, gathered into runs."""
    alone, shared = [], []
    for edit in sorted(left(crate), key=lambda edit: (not edit.function, len(crate.rests.breaks(edit)))):
        if edit.whole or not (edit.function or edit.blocks) or edited([edit]) is None:
            alone.append([edit])
            continue
        for run in shared:
            if crate.rests.share(run + [edit]) and edited(run + [edit]):
                run.append(edit)
                break
        else:
            shared.append([edit])
    return shared + alone


def least(crate):
    """The fewest runs that could do: the most edits of one function or definition, and those that share no run."""
    counts = {}
    for edit in left(crate):
        for it in [edit.function] if edit.function else edit.blocks:
            counts[it] = counts.get(it, 0) + 1
    return max(counts.values(), default=0) + sum(not (edit.function or edit.blocks) for edit in left(crate))


def error_in(line):
    """The place and the text of the error that a line tells, or None."""
    found = PLACED.match(line)
    tells = found and (found[1] or found[4].startswith(' error')) and not ADMITTED.search(found[4])
    return (found[2], int(found[3]), found[4]) if tells else None


def errors_in(log):
    """The places and texts of the errors in a log, and behind them those of the goals that are left."""
    return [*filter(None, map(error_in, log.split('\n'))), *((file, 0, said) for _, file, said in LEFT.findall(log))]


def shows_nothing(place, said):
    """What is wrong with an error as a refusal, or None."""
    if place.startswith('specs/'):
        return 'its first error is in a definition'
    if NAMELESS.search(said):
        return 'its first error is a name out of scope, a missing goal or field'
    if place.startswith('src/') and ' error' in said[:7]:
        return 'its first error is in a contract'
    return None


def settled_by(edit, said):
    """Where `rt ci`, which printed this of an edit under must-fail/, found a fact of what the edit may break that does not hold, or None."""
    error, one = error_in(said), edit.function
    if edit.whole or edit.others or edit.goals or not error or shows_nothing(error[0], error[2]):
        return None
    if one and not error[0].startswith('proofs/') and any(place.startswith(one.folder + '/') for place in edit.crate.texts):
        return None  # rt passes over a name that is lost in a proof file, and tells that the proof is not there
    return '%s:%d' % error[:2] if edit.crate.rests.at(*error[:2]) in edit.crate.rests.breaks(edit) else None


def settled(crate, log):
    """The edits under must-fail/ of a crate that need no try here, each with the place of its first error."""
    said = {found[2]: found[3] for found in map(SAID.match, log) if found and found[1] == crate.name}
    places = {edit: settled_by(edit, said.get(edit.label, '')) for edit in crate.edits['must-fail']}
    return {edit: place for edit, place in places.items() if place}


def own_errors(edit, run, errors):
    """Of a shared run, the errors that no other edit can have made; none if one is where no edit of the run reaches, or shows nothing."""
    rests = edit.crate.rests
    mine = rests.breaks(edit)
    others = set().union(*(rests.breaks(other) for other in run if other is not edit))
    placed = [(rests.at(place, row), place, row, said) for place, row, said in errors]
    if any(key not in mine | others or key in mine and shows_nothing(place, said) for key, place, row, said in placed):
        return []
    return [(place, row, said) for key, place, row, said in placed if key in mine - others]


def fault_of(edit, log, run):
    """What is wrong with the refusal, or None, and the place of the first error."""
    errors = errors_in(log)
    if len(run) > 1:
        errors = own_errors(edit, run, errors)
    if not re.search(r'^(logic=not-proved|only=\d+ proved=\d+$)', log, re.M) or not errors:
        return 'NOT REFUSED by the prover', ''
    place, row, said = errors[0]
    if shows_nothing(place, said):
        return 'SHOWS NOTHING: ' + shows_nothing(place, said), '%s:%d' % (place, row)
    proved = set(re.findall(r'^fn %s::(\S+): proved' % edit.crate.name, log, re.M))
    stray = [function.name for function in edit.stands if function.name in proved]
    if edit.goals:  # of a function without a proof file, where the prover says which of them are left
        goals = {goal for goal, file, _ in LEFT.findall(log) if file.startswith(edit.function.folder + '/')}
        stray += [goal for goal in edit.goals if goal not in goals]
    return ('SHOWS NOTHING of %s, which is still proved' % ' '.join(stray) if stray else None), '%s:%d' % (place, row)


def asked(run):
    """The functions that a run checks: those that its edits are for, and those that name a definition that one changes. None of them is the
    whole crate."""
    found = []
    for edit in run:
        shows = [it for it in edit.crate.rests.shows(edit) if isinstance(it, Function)] if edit.blocks else []
        if not edit.function and not (edit.others or shows and len(run) > 1):
            return []
        found += [*edit.stands, *([] if edit.others else shows)]
    return sorted({function.name for function in found})


def tried(run, number):
    """Makes one run in a scratch folder of its own, and answers a line for each edit."""
    crate, began = run[0].crate, time.time()
    said = lambda edit, what: '%s %s/%s: %s' % (edit.kind, crate.name, edit.label, what)
    texts = edited(run)
    if texts is None or any(edit.whole for edit in run):
        return [said(edit, edit.whole or 'BAD EDIT: an old text is not in its file, or is in it more than once') for edit in run]
    base = os.path.join(ALL, crate.name)
    scratch = os.path.join(base, 'scratch%d' % number)
    copied(crate, texts, scratch)
    only = asked(run)
    status, log = checked(crate, scratch, os.path.join(base, 'kept'), only)
    shutil.rmtree(scratch)
    where = os.path.join(base, run[0].label + ('+%d.log' % (len(run) - 1) if len(run) > 1 else '.log'))
    with open(where, 'w', encoding='utf-8') as out:
        out.write(log)
    took, lines = time.time() - began, []
    for edit in run:
        bad, place = fault_of(edit, log, run)
        if len(run) > 1 and (bad or status != 1):
            AGAIN.append(edit)
            lines += tried([edit], number)
            continue
        if status != 1:
            bad = 'NOT REFUSED by the prover (exit %d)' % status
        good = 'refused, as it must be (first at %s; %d s for %d)' % (place, took, len(run))
        lines.append(said(edit, '%s (%s)' % (bad, os.path.relpath(where, ROOT)) if bad else good))
    return lines


def stands(crate, base):
    """Whether the crate is proved without an edit."""
    scratch = os.path.join(base, 'scratch')
    copied(crate, {}, scratch)
    status, said = checked(crate, scratch, os.path.join(base, 'kept'), [])
    shutil.rmtree(scratch)
    with open(os.path.join(base, 'unedited.log'), 'w', encoding='utf-8') as out:
        out.write(said)
    return status == 0


def all_of(crate, is_proved):
    """Makes a crate's runs one after the other; how many edits were refused, and how many runs there were."""
    base, earlier = os.path.join(ALL, crate.name), os.path.join(ROOT, 'crates', crate.name, 'out', 'incremental')
    os.makedirs(base)
    if os.path.isdir(earlier):  # what `rt` proved of it: the prover takes what is as it was, by its checksum
        shutil.copytree(earlier, os.path.join(base, 'kept'), copy_function=kept_by_link)
    refused, runs = len(crate.settled), runs_of(crate)
    if not is_proved and not stands(crate, base):
        print('wrong %s: NOT TRIED: the crate is not proved as it stands (%s)' % (crate.name, os.path.relpath(os.path.join(base, 'unedited.log'), ROOT)), flush=True)
        return 0, 0
    for number, run in enumerate(runs):
        for line in tried(run, number):
            refused += 'refused, as it must be' in line
            print(line, flush=True)
    shutil.rmtree(os.path.join(base, 'kept'), ignore_errors=True)
    return refused, len(runs)


def main(given):
    chosen = [word for word in given if not word.startswith('--')] or list(LISTED)
    proved = next((word for word in given if word.startswith('--proved')), '')
    log = open(proved.partition('=')[2], encoding='utf-8', errors='replace').read().split('\n') if '=' in proved else []
    crates = [Crate(name) for name in chosen]
    for crate in crates:
        crate.rests = Rests(crate)
        crate.settled = settled(crate, log)
    amiss = [line for crate in crates for line in lacking(crate)]
    print('\n'.join(amiss) + '\n' if amiss else '', end='', flush=True)
    if '--list' in given:
        for crate in crates:
            print('wrong %s: %d runs, at least %d' % (crate.name, len(runs_of(crate)), least(crate)))
        return 1 if amiss else 0
    shutil.rmtree(ALL, ignore_errors=True)
    crates = [crate for crate in crates if any(crate.edits.values())]
    unproved = built(crates, bool(proved))
    if unproved:
        print('wrong: NOT TRIED: the library %s is not proved as it stands' % unproved)
        return 1
    os.makedirs(ALL, exist_ok=True)
    for edit, place in (it for crate in crates for it in crate.settled.items()):
        print('must-fail %s/%s: refused, as it must be (first at %s; tried by rt ci)' % (edit.crate.name, edit.label, place), flush=True)
    wanted = sum(len(edits) for crate in crates for edits in crate.edits.values())
    with concurrent.futures.ThreadPoolExecutor(JOBS) as pool:
        first = sorted(crates, key=lambda crate: -sum(len(text) for text in crate.texts.values()) * len(runs_of(crate)))  # the longest first
        done = list(pool.map(lambda crate: all_of(crate, bool(proved)), first))
    refused, made = sum(one for one, _ in done), sum(runs for _, runs in done)
    failed = wanted - refused + len(amiss)
    with open(os.path.join(ALL, 'counts'), 'w', encoding='utf-8') as out:
        out.write('%d %d\n' % (refused, failed))
    spent = os.times()
    print('%d of %d wrong answers refused, %d of them as rt ci tried them, the others in %d runs (%d of them a second try) of %d processor '
          'seconds; %d contracts lack some' % (refused, wanted, sum(len(crate.settled) for crate in crates), made + len(AGAIN), len(AGAIN),
                                               spent.children_user + spent.children_system, len(amiss)))
    return 1 if failed or not wanted else 0


if __name__ == '__main__':
    JOBS = int(os.environ.get('WRONG_JOBS') or len(os.sched_getaffinity(0)))
    sys.exit(main(sys.argv[1:]))
