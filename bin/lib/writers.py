"""Runs a command of this project beside one of git, or of this project, at each pair of their calls on files; for `bin/try-writers`.

Each run has a repository of its own. What may come of it is what comes of the two commands one after the other, in either order; or one
of them is refused for a lock, and the other has done what it does alone. A command that reads has, for each name, what it has before or
after the other, and no name less than both.
"""
import os
import re
import shutil
import subprocess
import sys
import tempfile
from concurrent.futures import ThreadPoolExecutor

REFS, SESSION, WEAVE, ROOM = sys.argv[1:5]
ALL = '--all' in sys.argv[5:]
ONLY = [word for word in sys.argv[5:] if word != '--all']
ZERO = '0' * 40
WHO = 'C <c@e> 1234567890 +0000'
ENVIRONMENT = dict(
    os.environ, LC_ALL='C', HOME='/nonexistent', GIT_CONFIG_NOSYSTEM='1', GIT_AUTHOR_DATE='1234567890 +0000',
    GIT_COMMITTER_DATE='1234567890 +0000', **{f'GIT_{who}_{what}': text for who in ('AUTHOR', 'COMMITTER')
                                              for what, text in (('NAME', 'C'), ('EMAIL', 'c@e'))})


def call(words, folder):
    """What a command prints, which has to succeed."""
    return subprocess.run(words, cwd=folder, env=ENVIRONMENT, capture_output=True, check=True, text=True).stdout.strip()


# Commands: what they are called, their words, and their input. `OLD` is the id of `refs/heads/a`, `c3` and `c4` are new ones.

def refs(*words, text=None):
    return [REFS, '.git', '--as', WHO, '--message', 'ours', *words], text


def session(*lines):
    words = [SESSION, '.git', '--as', WHO, '-m', 'ours', '--lock-timeout', '0', '--packed-lock-timeout', '0']
    return words, ''.join(line + '\n' for line in lines)


def ask(*words):
    return [SESSION, '.git', '--lock-timeout', '0', '--packed-lock-timeout', '0', *words], None


def git(*words, text=None):
    return ['git', *words], text


def update(*words):
    return git('update-ref', '-m', 'git', *words)


def stdin(*lines):
    return git('update-ref', '-m', 'git', '--stdin', text=''.join(line + '\n' for line in lines))


WRITERS = {
    'update': refs('update', 'refs/heads/a', 'c3'),
    'update-old': refs('update', 'refs/heads/a', 'c3', 'OLD'),
    'create': refs('update', 'refs/heads/new', 'c3', ZERO),
    'create-beside': refs('update', 'refs/heads/d/y', 'c3', ZERO),
    'create-above': refs('update', 'refs/heads/q', 'c3', ZERO),
    'delete': refs('delete', 'refs/heads/a'),
    'delete-old': refs('delete', 'refs/heads/a', 'OLD'),
    'delete-in-folder': refs('delete', 'refs/heads/d/x'),
    'update-head': refs('update', '--deref', 'HEAD', 'c3'),
    'script': refs('script', '/dev/stdin', text='update refs/heads/a c3 ; update refs/heads/b c3 ; delete refs/heads/d/x\n'),
    'session-main': session('update refs/heads/main c3'),
    'session-verify': session('verify refs/heads/a OLD', 'update refs/heads/b c3'),
    'session-create-above': session('create refs/heads/q c3'),
    'session-delete': session('start', 'delete refs/heads/a', 'prepare', 'commit'),
    'pack': ask('pack-refs', '--all'),
}
READERS = {
    'list': refs('list'),
    'for-each-ref': ask('for-each-ref', '--format=%(objectname) %(refname)'),
    'show': refs('show', 'refs/heads/a'),
    'show-tag': refs('show', 'refs/tags/v1'),
    'log': refs('log', 'refs/heads/a'),
}
OTHERS = {
    'update': update('refs/heads/a', 'c4'),
    'update-old': update('refs/heads/a', 'c4', 'OLD'),
    'update-two': stdin('update refs/heads/a c4', 'update refs/heads/b c4'),
    'update-main': update('refs/heads/main', 'c4'),
    'update-head': update('HEAD', 'c4'),
    'create': update('refs/heads/new', 'c4', ZERO),
    'create-beside': update('refs/heads/d/z', 'c4', ZERO),
    'create-below': update('refs/heads/q/r', 'c4', ZERO),
    'delete': update('-d', 'refs/heads/a'),
    'delete-other': update('-d', 'refs/heads/b'),
    'delete-two': stdin('delete refs/heads/b', 'delete refs/tags/v0'),
    'delete-in-folder': update('-d', 'refs/heads/d/x'),
    'pack': git('pack-refs', '--all'),
    'pack-keep': git('pack-refs', '--all', '--no-prune'),
    'expire': git('reflog', 'expire', '--expire=all', 'refs/heads/a'),
    'switch': git('symbolic-ref', '-m', 'git', 'HEAD', 'refs/heads/b'),
    'our-update': refs('update', 'refs/heads/a', 'c4'),
    'our-delete': refs('delete', 'refs/heads/a'),
    'our-create-beside': refs('update', 'refs/heads/d/z', 'c4', ZERO),
    'our-pack': ask('pack-refs', '--all'),
}

# A scenario is a command of this project, the other command, and the repository: `loose` has no packed-refs, `packed` no loose
# references, `mixed` both, with a branch that is newer than its record. The first are those of the gate.
GATE = '''
update update packed, update update mixed, update update-old loose, update update-two packed, update delete mixed, update pack mixed,
update our-update loose, update-old update mixed, update-old delete packed, create create loose,
create pack packed, create delete mixed, create-beside delete-in-folder loose, create-beside create-beside packed,
create-beside our-create-beside loose, create-above pack packed, delete update mixed, delete update-old packed, delete delete loose,
delete delete-other packed, delete our-delete mixed, delete our-update packed, delete-old update mixed,
delete-in-folder create-beside packed, delete-in-folder delete-in-folder loose, update-head update-head packed,
update-head update-main mixed, script update-two packed, script delete-in-folder mixed, session-main update-main packed,
session-main switch mixed, session-verify update mixed, session-delete update mixed, session-delete delete packed, pack our-pack loose, list pack mixed,
list update loose, for-each-ref create-beside loose, show pack loose, show delete mixed, show-tag delete-two packed, log expire loose,
log update mixed
'''
MORE = '''
update update loose, update delete loose, update delete packed, update pack packed, update pack-keep mixed, update delete-other mixed,
update expire packed, update our-delete mixed, update-old update-old packed, update-old pack mixed, create create mixed,
create our-pack packed, create-beside delete-in-folder packed, create-beside create-beside loose, delete update loose,
delete delete mixed, delete delete-other mixed, delete expire packed, delete-old delete packed, delete-in-folder delete-in-folder mixed,
delete-in-folder our-create-beside mixed, update-head update-head loose, update-head pack packed, script update loose,
script pack packed, script create-beside mixed, session-main update-head mixed, session-main pack packed, session-verify delete packed,
session-create-above create-below packed, session-delete update packed, pack our-pack mixed, pack pack packed, list pack loose,
list pack-keep packed, list update mixed, list create loose, for-each-ref pack mixed, for-each-ref update loose, show pack mixed,
show update packed, show-tag pack loose, show-tag pack mixed, log update loose, log expire mixed
'''


def scenarios(table):
    return [tuple(entry.split()) for entry in table.replace('\n', ' ').split(',')]


def make_repositories():
    """Three repositories to copy, and the ids of their commits by name."""
    first = os.path.join(ROOM, 'loose')
    os.makedirs(first)
    call(['git', 'init', '-q', '--template=', '-b', 'main', '.'], first)
    for key, value in (('core.filesRefLockTimeout', '0'), ('core.packedRefsTimeout', '0'), ('gc.auto', '0')):
        call(['git', 'config', key, value], first)
    for number in range(4):
        call(['git', 'commit', '-q', '--allow-empty', '-m', str(number)], first)
    ids = dict(zip(('c1', 'c2', 'c3', 'c4'), call(['git', 'rev-list', '--reverse', 'HEAD'], first).split()))
    for name in ('refs/heads/a', 'refs/heads/b', 'refs/heads/d/x'):
        call(['git', 'update-ref', '-m', 'made', name, ids['c1']], first)
    call(['git', 'tag', 'v0', ids['c1']], first)
    call(['git', 'tag', '-m', 't', 'v1', ids['c1']], first)
    for name in ('packed', 'mixed'):
        shutil.copytree(first, os.path.join(ROOM, name))
        call(['git', 'pack-refs', '--all'], os.path.join(ROOM, name))
    for name in ('refs/heads/a', 'refs/heads/n'):
        call(['git', 'update-ref', '-m', 'made', name, ids['c2']], os.path.join(ROOM, 'mixed'))
    return ids


def read(path):
    with open(path) as file:
        return file.read()


def state_of(folder, other):
    """Each reference, each log, and the locks of a repository. Beside a switch of `HEAD` not its log: the line of an update of its branch
    may come there after that of the switch, as beside git alone."""
    refs, logs, locks = {'HEAD': read(os.path.join(folder, 'HEAD'))}, {}, []
    if os.path.exists(os.path.join(folder, 'packed-refs')):
        for line in read(os.path.join(folder, 'packed-refs')).splitlines():
            if line[0] not in '#^':
                refs[line[41:]] = line[:40] + '\n'
    for top, files in (('refs', refs), ('logs', logs)):
        for path, _, names in os.walk(os.path.join(folder, top)):
            for name in names:
                path_of_file = os.path.join(path, name)
                if name.endswith('.lock'):
                    locks.append(path_of_file)
                else:
                    files[os.path.relpath(path_of_file, folder)] = read(path_of_file)
    locks += [name for name in os.listdir(folder) if name.endswith('.lock')]
    if other == 'switch':
        del logs['logs/HEAD']
    return refs, logs, sorted(os.path.basename(lock) for lock in locks)


class Run:
    """One run of two commands by a schedule: how each ended, and what is there afterwards."""

    def __init__(self, ids, scenario, schedule):
        ours, other, base = scenario
        self.schedule = schedule
        with tempfile.TemporaryDirectory(dir=ROOM) as room:
            repository = os.path.join(room, 'r')
            shutil.copytree(os.path.join(ROOM, base), repository)
            ids = dict(ids, OLD=ids['c2' if base == 'mixed' else 'c1'])
            prefix = os.path.join(room, 'run')
            words = [WEAVE, schedule, prefix]
            for name, separator, (command, text) in (
                    ('A', '--', WRITERS.get(ours) or READERS[ours]), ('B', '---', OTHERS[other])):
                words += [separator] + [ids.get(word, word) for word in command]
                if text is not None:
                    with open(f'{prefix}.{name}.in', 'w') as file:
                        file.write(re.sub(r'\b(c\d|OLD)\b', lambda word: ids[word.group()], text))
            subprocess.run(words, cwd=repository, env=ENVIRONMENT, timeout=60, check=True)
            ends = dict(line.split() for line in read(prefix + '.ends').splitlines())
            self.status = {name: int(status) for name, status in ends.items()}
            self.said = {name: read(f'{prefix}.{name}.out') + read(f'{prefix}.{name}.err') for name in ends}
            self.printed = {name: read(f'{prefix}.{name}.out') for name in ends}
            self.calls = {name: read(f'{prefix}.{name}.calls').splitlines() for name in 'AB'}
            self.state = state_of(os.path.join(repository, '.git'), other)

    def is_refused_for_a_lock(self, name):
        return self.status[name] != 0 and re.search(
            r'\.lock|LockAcquire|PackedTransactionAcquire|is locked|lock of|cannot lock|but expected', self.said[name])


def fault_of_writers(run, one, two, alone):
    """What is wrong with a run of two commands that write; None if nothing is."""
    for serial in (one, two):
        if run.status == serial.status and run.state == serial.state:
            return None
    for name, other in ('AB', 'BA'):
        serial = one if name == 'B' else two
        refused_alike = run.status[name] == serial.status[name] and run.said[name] == serial.said[name]
        if (run.is_refused_for_a_lock(name) or refused_alike and run.status[name] != 0) and run.state == alone[other].state \
                and run.status[other] == alone[other].status[other]:
            return None
    if all(run.is_refused_for_a_lock(name) for name in 'AB') and run.state == alone['none']:
        return None
    return f'A ends with {run.status["A"]} and B with {run.status["B"]}: {run.said["A"]}{run.said["B"]}'


def name_in(line):
    found = re.search(r'refs/\S+|HEAD', line)
    return found.group() if found else line


def fault_of_reader(run, one, two, alone):
    """What is wrong with a run of a command that reads; None if nothing is."""
    if run.status['A'] not in (one.status['A'], two.status['A']):
        return f'status {run.status["A"]}: {run.said["A"]}'
    lines, before, after = (each.printed['A'].splitlines() for each in (run, two, one))
    if lines in (before, after):
        return None
    strange = [line for line in lines if line not in before and line not in after]
    if strange:
        return f'a line of neither: {strange[0]}'
    names = [name_in(line) for line in lines]
    missing = {name_in(line) for line in before} & {name_in(line) for line in after} - set(names)
    if missing:
        return f'without {sorted(missing)[0]}'
    return 'a name twice' if len(set(names)) < len(names) else None


def schedules(calls):
    """Each command as a whole before each call of the other; and, with `--all`, either one ended first from each pair of calls."""
    yield from (f'A{n},B*,A*' for n in range(1, calls['A'] + 1))
    yield from (f'B{n},A*,B*' for n in range(1, calls['B'] + 1))
    if ALL and calls['A'] * calls['B'] <= 600:
        for n in range(1, calls['A']):
            yield from (f'A{n},B{m},A*,B*' for m in range(1, calls['B']))


def try_scenario(ids, scenario):
    """How many runs there were, and the faults of those that are not explained."""
    one, two = Run(ids, scenario, 'A*,B*'), Run(ids, scenario, 'B*,A*')
    alone = {'A': Run(ids, scenario, 'A*'), 'B': Run(ids, scenario, 'B*'),
             'none': state_of(os.path.join(ROOM, scenario[2], '.git'), scenario[1])}
    fault_of = fault_of_reader if scenario[0] in READERS else fault_of_writers
    count, faults = 0, []
    for schedule in schedules({name: max(len(run.calls[name]) for run in (one, two)) for name in 'AB'}):
        run = Run(ids, scenario, schedule)
        count += 1
        fault = fault_of(run, one, two, alone)
        if fault:
            faults.append(f'{schedule}: {fault}')
    return count, faults


def main():
    ids = make_repositories()
    chosen = scenarios(GATE) + (scenarios(MORE) if ALL else [])
    if ONLY:
        chosen = [tuple(entry.split()) for entry in ONLY]
    runs = failed = 0
    with ThreadPoolExecutor(os.cpu_count() or 1) as pool:
        for scenario, (count, faults) in zip(chosen, pool.map(lambda each: try_scenario(ids, each), chosen)):
            runs += count
            failed += bool(faults)
            for fault in faults:
                print(f'{" ".join(scenario)}: {fault.strip()}')
    print(f'{len(chosen)} scenarios, {runs} runs: {len(chosen) - failed} passed, {failed} failed')
    sys.exit(1 if failed else 0)


main()
