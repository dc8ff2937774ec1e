# The random sessions that compare-with-git compares: `sessions.py PROGRAM REPOSITORY FORMAT COUNT SEED`.
import collections
import os
import random
import shutil
import subprocess
import sys

PROGRAM, REPOSITORY, FORMAT, COUNT, SEED = sys.argv[1:6]
SIGNATURE = 'C <c@example.com> 1234567890 +0130'
NAMES = ['refs/heads/a', 'refs/heads/a/b', 'refs/heads/main', 'refs/heads/d/e', 'refs/heads/d', 'refs/heads/d/e/f',
         'refs/heads/new', 'refs/heads/x/y/z', 'refs/heads/x', 'refs/tags/t', 'refs/tags/u', 'refs/notes/n', 'HEAD',
         'refs/heads/s', 'refs/remotes/o/r']
BAD_NAMES = ['refs/heads/..', 'refs/heads/a..b', 'refs/heads/a.lock', 'refs/heads//a', '', 'refs/heads/a b']
NULL = '0' * (64 if FORMAT == 'sha256' else 40)


def git(folder, *words, text=None):
    return subprocess.run(['git', '-C', folder, *words], input=text, capture_output=True)


IDS = git(REPOSITORY, 'rev-list', 'main').stdout.decode().split()


def value(rng):
    """A new id, seldom the null id or a text that is no id."""
    roll = rng.random()
    if roll < 0.04:
        return NULL
    if roll < 0.06:
        return 'x' * 40
    return rng.choice(IDS)


def old(rng, now, name):
    """An OLD, mostly the right one."""
    roll = rng.random()
    if roll < 0.45:
        return None
    if roll < 0.85:
        return now.get(name, NULL)
    return rng.choice(IDS + [NULL])


def edit(rng, now):
    """A command for a name: its fields."""
    name = rng.choice(NAMES) if rng.random() < 0.97 else rng.choice(BAD_NAMES)
    verb = rng.choices(['update', 'create', 'delete', 'verify'], [6, 2, 2, 2])[0]
    fields = [verb, name]
    if verb in ('update', 'create'):
        fields.append(value(rng))
    if verb != 'create':
        fields.append(old(rng, now, name))
    return fields


def commands(rng, now):
    """The commands of a session."""
    heard = []
    for turn in range(rng.randint(1, 3)):
        if rng.random() < 0.85 or turn > 0 and rng.random() < 0.97:
            heard.append(['start'])
        for _ in range(rng.choices([0, 1, 2, 3, 4], [1, 6, 4, 2, 1])[0]):
            if rng.random() < 0.15:
                heard.append(['option', 'no-deref'])
            heard.append(edit(rng, now))
            if rng.random() < 0.01:
                heard.append(['start'])
        if rng.random() < 0.4:
            heard.append(['prepare'])
            if rng.random() < 0.05:
                heard.append(edit(rng, now))
        if rng.random() < 0.9:
            heard.append([rng.choices(['commit', 'abort'], [8, 2])[0]])
        if rng.random() < 0.02:
            heard.append([rng.choice(['', ' start', 'begin', 'commit now', 'option deref'])])
    return heard


def quoted(rng, field):
    """The field, now and then in quotes."""
    if rng.random() < 0.1:
        return '"' + ''.join('\\%03o' % ord(c) if rng.random() < 0.2 else c for c in field) + '"'
    return field


def text_of(rng, nul, heard):
    """The bytes of these commands."""
    text = ''
    for fields in heard:
        if nul:
            words = [word or '' for word in fields]
            text += ' '.join(words[:2]) + '\0' + ''.join(word + '\0' for word in words[2:])
        else:
            words = [word for word in fields if word is not None]
            text += ' '.join(words[:1] + [quoted(rng, word) if words[0] != 'option' else word for word in words[1:]]) + '\n'
    return text.encode()


def files(folder):
    """The bytes of each file of a git folder but objects."""
    found = {}
    top = os.path.join(folder, '.git')
    for path, folders, names in os.walk(top):
        if path == top:
            folders.remove('objects')
        for name in names:
            with open(os.path.join(path, name), 'rb') as file:
                found[os.path.relpath(os.path.join(path, name), top)] = file.read()
    return found


def references(folder):
    """The ids that names have before."""
    now = {}
    for line in git(folder, 'for-each-ref', '--format=%(refname) %(objectname)').stdout.decode().splitlines():
        name, id = line.split(' ')
        now[name] = id
    now['HEAD'] = git(folder, 'rev-parse', 'HEAD').stdout.decode().strip()
    return now


def bases():
    """The repository with loose references, with packed ones, and with both."""
    made = {}
    for kind in ('loose', 'packed', 'loose and packed'):
        folder = REPOSITORY + '-' + kind.replace(' ', '-')
        shutil.copytree(REPOSITORY, folder, symlinks=True)
        if kind != 'loose':
            git(folder, 'pack-refs', '--all')
        if kind == 'loose and packed':
            git(folder, 'update-ref', 'refs/heads/a', 'main')
            git(folder, 'update-ref', 'refs/heads/x/y/z', 'main')
        made[kind] = (folder, references(folder))
    return made


def differences(ours, theirs):
    """What differs between two results: names of answers and files."""
    found = [what for what in ('out', 'status') if ours[what] != theirs[what]]
    for path in sorted(set(ours['files']) | set(theirs['files'])):
        if ours['files'].get(path) != theirs['files'].get(path):
            found.append(path)
    return found


def lines_of_change(log):
    """The lines of a log whose two ids differ, except those to the null id, which git adds to the log of a symbolic reference by `verify`."""
    ids = [(line, *line.split(b' ')[:2]) for line in log.splitlines()]
    return [line for line, old_id, new_id in ids if old_id != new_id and new_id.strip(b'0')]


def is_known(found, heard, theirs, ours):
    """Whether a difference is one that docs/DIFFERENCES.md lists."""
    symbolic = ('logs/HEAD', 'logs/refs/heads/s')
    itself = [second for first, second in zip(heard, heard[1:])
              if first == ['option', 'no-deref'] and len(second) > 2 and second[1] in ('HEAD', 'refs/heads/s')]
    if all(path in symbolic for path in found):
        # git adds a line to the log of a symbolic reference whose target is deleted,
        if any(fields[0] == 'delete' or fields[0] == 'update' and fields[2] == NULL for fields in heard):
            return True
        # one with an id twice where nothing changes, and of a symbolic reference that becomes an id the one that it had before.
        logs = [[lines_of_change(one['files'].get(path, b'')) for path in symbolic] for one in (theirs, ours)]
        if itself or logs[0] == logs[1]:
            return True
    # An OLD of a symbolic reference that is not followed is compared with its name, and by git with the id at its end: so the session
    # may be refused here, and go on there.
    is_refused = ours['status'] == 128 and theirs['out'].startswith(ours['out'])
    return is_refused and bool(itself)


def run(words, folder, text):
    done = subprocess.run(words, input=text, capture_output=True)
    return {'out': done.stdout, 'status': done.returncode, 'files': files(folder), 'error': done.stderr}


def session(rng, base, now, copies):
    """One session by both."""
    for copy in copies:
        shutil.rmtree(copy, ignore_errors=True)
        shutil.copytree(base, copy, symlinks=True)
    nul = rng.random() < 0.5
    heard = commands(rng, now)
    text = text_of(rng, nul, heard)
    options = (['-z'] if nul else []) + (['--create-reflog'] if rng.random() < 0.1 else []) + ['-m', 'made']
    theirs = run(['git', '-C', copies[0], 'update-ref', '--stdin', *options], copies[0], text)
    more = ['--sha256'] if FORMAT == 'sha256' else []
    ours = run([PROGRAM, os.path.join(copies[1], '.git'), '--without-syncs', '--as', SIGNATURE, *more, *options], copies[1], text)
    return heard, text, theirs, ours


def main():
    rng = random.Random(int(SEED))
    made = bases()
    copies = [REPOSITORY + '-git', REPOSITORY + '-refs']
    counts = collections.Counter()
    failed = 0
    for number in range(int(COUNT)):
        kind = rng.choice(sorted(made))
        base, now = made[kind]
        heard, text, theirs, ours = session(rng, base, now, copies)
        found = differences(ours, theirs)
        counts['committed'] += ours['out'].count(b'commit: ok')
        if any(path.endswith('.lock') for path in ours['files']):
            found.append('a lock was left')
        sound = [git(copy, 'fsck', '--no-progress', '--no-dangling').returncode for copy in copies]
        if sound[0] != sound[1]:
            found.append('git fsck')
        if not found:
            counts['same'] += 1
        elif is_known(found, heard, theirs, ours):
            counts['known'] += 1
        else:
            failed += 1
            print(f'session {number} of {FORMAT}, {kind}: {found}')
            print('   ', text)
            print('    git: ', theirs['status'], theirs['out'], theirs['error'])
            print('    refs:', ours['status'], ours['out'], ours['error'])
    print(f'compare-with-git: {FORMAT}: {COUNT} sessions beside `git update-ref --stdin`: {counts["same"]} the same,'
          f' {counts["known"]} known differences, {failed} others; {counts["committed"]} commits')
    sys.exit(1 if failed else 0)


main()
