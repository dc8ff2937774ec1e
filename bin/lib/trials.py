# The trials of try-sessions: `trials.py PROGRAM FOLDER KILLS SEED`.
import os
import random
import subprocess
import sys
import time

PROGRAM, FOLDER, KILLS, SEED = sys.argv[1:5]
NAMES = ['refs/heads/%s' % name for name in ('a', 'b', 'c', 'd/e', 'd/f', 'g')]
ABSENT = '0' * 40


def new_repository(name, packed):
    """A git folder with these packed references."""
    folder = os.path.join(FOLDER, name)
    os.makedirs(os.path.join(folder, 'refs', 'heads'))
    with open(os.path.join(folder, 'HEAD'), 'w') as head:
        head.write('ref: refs/heads/a\n')
    with open(os.path.join(folder, 'packed-refs'), 'w') as records:
        records.write('# pack-refs with: peeled fully-peeled sorted \n')
        for name in sorted(packed):
            records.write('%s %s\n' % (packed[name], name))
    return folder


def session(folder, *words):
    return subprocess.Popen([PROGRAM, folder, *words], stdin=subprocess.PIPE, stdout=subprocess.PIPE, stderr=subprocess.PIPE)


def run(folder, words, text=b''):
    """The status, the output and the error of a session with this input."""
    started = session(folder, *words)
    out, error = started.communicate(text)
    return started.returncode, out, error


def value_of(folder, name):
    status, out, _ = run(folder, ['show-ref', '--verify', name])
    return out.split()[0].decode() if status == 0 else ABSENT


def some_edits(rng, now):
    """Edits of up to three names: updates, and deletions of what is there."""
    edits = {}
    for name in rng.sample(NAMES, rng.randint(1, 3)):
        deletes = now[name] != ABSENT and rng.random() < 0.3
        edits[name] = ABSENT if deletes else '%040x' % rng.getrandbits(160)
    return edits


def text_of(edits, now):
    """A transaction of these edits, each with its old value."""
    lines = ['start']
    for name, new in edits.items():
        if new == ABSENT:
            lines.append('delete %s' % name + (' ' + now[name] if now[name] != ABSENT else ''))
        else:
            lines.append('update %s %s %s' % (name, new, now[name]))
    return ('\n'.join(lines + ['prepare', 'commit', ''])).encode()


LOGS = ['--as', 'C <c@example.com> 1234567890 +0130', '-m', 'made']


def kill_once(rng, folder, now, longest):
    """Kills a session in its transaction. The edits, what it answered, and what each reference reads after it."""
    edits = some_edits(rng, now)
    started = session(folder, *LOGS)
    started.stdin.write(text_of(edits, now))
    started.stdin.flush()
    time.sleep(rng.uniform(0, longest))
    started.kill()
    answers = started.stdout.read()
    for stream in (started.stdin, started.stdout, started.stderr):
        stream.close()
    started.wait()
    return edits, answers, {name: value_of(folder, name) for name in NAMES}


def faults_of(edits, answers, now, after):
    """What is wrong after a kill: a reference that is neither as before nor as edited, or not as edited after `commit: ok`."""
    for name in NAMES:
        if after[name] not in (now[name], edits.get(name, now[name])):
            yield '%s reads %s' % (name, after[name])
        if b'commit: ok' in answers and after[name] != edits.get(name, now[name]):
            yield '%s reads %s after `commit: ok`' % (name, after[name])


def make_again(folder, edits, after):
    """What is wrong where the locks are removed and the same edits made again, and how many locks there were."""
    wrong = []
    _, left, _ = run(folder, ['locks'])
    _, removed, _ = run(folder, ['locks', '--remove'])
    _, still, _ = run(folder, ['locks'])
    if removed != left or still:
        wrong.append('of the locks %r were removed %r' % (left, removed))
    status, out, error = run(folder, LOGS, text_of(edits, after))
    if status or not out.endswith(b'commit: ok\n'):
        wrong.append('made again: %r' % error)
    return wrong, len(left.splitlines())


def time_of_one(folder):
    """How many seconds a session with a transaction of one update takes."""
    begun, old = time.monotonic(), ABSENT
    for number in range(1, 11):
        new = '%040x' % number
        run(folder, LOGS, ('start\nupdate refs/heads/time %s %s\nprepare\ncommit\n' % (new, old)).encode())
        old = new
    return (time.monotonic() - begun) / 10


def kills():
    rng = random.Random(int(SEED))
    now = {name: ABSENT for name in NAMES}
    now.update({name: '%040x' % rng.getrandbits(160) for name in NAMES[:3]})
    folder = new_repository('kills', {name: now[name] for name in NAMES[:3]})
    longest = 1.5 * time_of_one(folder)
    wrong, unanswered, with_locks, partly = [], 0, 0, 0
    for number in range(int(KILLS)):
        edits, answers, after = kill_once(rng, folder, now, longest)
        wrong += ['kill %d: %s' % (number, fault) for fault in faults_of(edits, answers, now, after)]
        changed = [name for name in edits if after[name] != now[name]]
        more, locks = make_again(folder, edits, after)
        wrong += ['kill %d: %s' % (number, fault) for fault in more]
        unanswered += b'commit: ok' not in answers
        with_locks += locks > 0
        partly += 0 < len(changed) < len([name for name in edits if edits[name] != now[name]])
        now = dict(after, **edits)
        wrong += ['kill %d: %s is not as edited' % (number, name) for name in edits if value_of(folder, name) != edits[name]]
    print('try-sessions: %s kills: %d before `commit: ok`, %d left locks, %d made a part of the edits; %d faults'
          % (KILLS, unanswered, with_locks, partly, len(wrong)))
    return wrong


def side_by_side(count=4, updates=300):
    branches = {'refs/heads/b%d' % number: '%040x' % number for number in range(1, count + 1)}
    folder = new_repository('side', branches)
    # Without syncs, so that what is tried is the waiting for locks, and not the disk.
    started = {name: session(folder, '--without-syncs') for name in branches}
    last = {}
    for name, it in started.items():
        old, lines = branches[name], []
        for number in range(updates):
            new = '%040x' % (int(old, 16) + count)
            lines += ['start', 'update %s %s %s' % (name, new, old), 'commit']
            old = new
        last[name] = old
        it.text = ('\n'.join(lines) + '\n').encode()
    for it in started.values():
        it.stdin.write(it.text)
        it.stdin.close()
    wrong, made = [], 0
    for name, it in started.items():
        made += it.stdout.read().count(b'commit: ok')
        error = it.stderr.read()
        if it.wait():
            wrong.append('%s: %r' % (name, error))
        elif value_of(folder, name) != last[name]:
            wrong.append('%s reads %s' % (name, value_of(folder, name)))
    print('try-sessions: %d sessions side by side: %d of %d updates made' % (count, made, count * updates))
    return wrong


def race(folder, name, old, new):
    """Lets a session for each of these ids set the reference to it at once, if it is at its old value. The ids of those that did."""
    started = [session(folder, '--without-syncs', *LOGS) for _ in new]
    for it, id in zip(started, new):
        it.stdin.write(('start\nupdate %s %s %s\ncommit\n' % (name, id, old)).encode())
    for it in started:
        it.stdin.flush()
    answers = [it.communicate()[0] for it in started]
    return [id for id, answer in zip(new, answers) if answer.endswith(b'commit: ok\n')]


def on_one_branch(count=4, races=100):
    name, values, wrong = 'refs/heads/one', ['%040x' % 1], []
    folder = new_repository('one', {name: values[0]})
    for number in range(races):
        new = ['%040x' % (2 + number * count + place) for place in range(count)]
        won = race(folder, name, values[-1], new)
        now = value_of(folder, name)
        if won != [now]:
            wrong.append('race %d: %r won, and %s reads %s' % (number, won, name, now))
        values.append(now)
    with open(os.path.join(folder, 'logs', name)) as log:
        logged = [line.split()[:2] for line in log]
    if logged != [list(pair) for pair in zip(values, values[1:])]:
        wrong.append('the reflog of %s is not its values' % name)
    print('try-sessions: %d races of %d sessions for one branch: %d faults' % (races, count, len(wrong)))
    return wrong


failed = kills() + side_by_side() + on_one_branch()
for line in failed:
    print('try-sessions: ' + line)
sys.exit(1 if failed else 0)
