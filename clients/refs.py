"""References of a Git repository, changed by the proved program `refs-session` inside of this process.

    from refs import Session

    with Session(".git", committer="C <c@example.com> 1234 +0800") as session:
        with session.transaction() as edits:
            edits.update("refs/heads/a", new_id, old=old_id)
            edits.delete("refs/heads/b")
            edits.prepare()     # all locks are held from here on: look, vote, and raise to give it up
        # here all of them are made; else an exception says why: none is, or after a commit that failed some may be

Names are str or bytes, ids hex digits. `librefs.so`, which `clients/build FOLDER` makes, is looked for beside this file, or where the
environment's REFS_LIBRARY says.
"""
import ctypes
import os
import queue
import threading

_READ = ctypes.CFUNCTYPE(ctypes.c_ssize_t, ctypes.c_void_p, ctypes.c_void_p, ctypes.c_size_t)
_WRITE = ctypes.CFUNCTYPE(ctypes.c_ssize_t, ctypes.c_void_p, ctypes.c_int, ctypes.c_void_p, ctypes.c_size_t)


def _library():
    beside = os.path.join(os.path.dirname(os.path.abspath(__file__)), "librefs.so")
    library = ctypes.CDLL(os.environ.get("REFS_LIBRARY", beside))
    library.refs_main.argtypes = [ctypes.c_int, ctypes.POINTER(ctypes.c_char_p), _READ, _WRITE, ctypes.c_void_p]
    return library


def _bytes(text):
    text = text if isinstance(text, bytes) else os.fsencode(text)
    if b"\0" in text:
        raise ValueError("a NUL ends a field of a command, so none may be in a text")
    return text


def _some(new):
    # An empty new id would be that of a deletion.
    if not new:
        raise ValueError("no new id")
    return new


class Refused(Exception):
    """Why a transaction was not made, as `refs-session` says it. No reference has changed, except where the commit itself failed."""


class _Run:
    """One call of `refs_main`, in a thread of its own, which waits for commands and answers them."""

    def __init__(self, library, words):
        self._commands = queue.Queue()
        self._answers = queue.Queue()
        self._rest = b""
        self._is_at_end = False
        self._errors = []
        self._words = (ctypes.c_char_p * len(words))(*words)
        self._calls = (_READ(self._read), _WRITE(self._write))
        self._thread = threading.Thread(target=self._main, args=(library,), daemon=True)
        self._thread.start()

    def _main(self, library):
        self.status = library.refs_main(len(self._words), self._words, *self._calls, None)
        self._answers.put(None)

    def _read(self, _context, buf, room):
        if not self._rest and not self._is_at_end:
            self._rest = self._commands.get()
            self._is_at_end = not self._rest
        part, self._rest = self._rest[:room], self._rest[room:]
        ctypes.memmove(buf, part, len(part))
        return len(part)

    def _write(self, _context, fd, text, length):
        text = ctypes.string_at(text, length)
        if fd == 1:
            self._answers.put(text)
        else:
            self._errors.append(text)
        return length

    def say(self, text):
        self._commands.put(text)

    def hear(self):
        """The next answer, or `Refused` where the session has ended instead."""
        answer = self._answers.get()
        if answer is None:
            self._thread.join()
            raise Refused(b"".join(self._errors).decode(errors="replace").strip() or "the session has ended")
        return answer

    def end_input(self):
        self._commands.put(b"")

    def end(self):
        self.end_input()
        self._thread.join()


class Transaction:
    """The edits of one transaction. As a context: leaving it commits them, an exception inside of it gives them up. After a refusal it
    has ended: each further call raises `Refused`, and so does leaving it."""

    def __init__(self, session):
        self._session = session
        self._run = None

    def __enter__(self):
        self._run = self._session._begin()
        return self

    def __exit__(self, kind, error, trace):
        run, self._run = self._run, None
        if kind is None:
            self._session._ask(run, b"commit")
        elif self._session._is_on(run):
            try:
                self._session._ask(run, b"abort")
            except Refused:
                pass  # an edit was refused already: it is given up all the same
        return False

    def _say(self, verb, name, *fields):
        text = verb + b" " + _bytes(name) + b"\0" + b"".join(_bytes(field or "") + b"\0" for field in fields)
        self._session._say(self._run, text)

    def update(self, name, new, old=None):
        """The reference gets this id, where it is at `old` before, if that is given; 40 zeros say that it must not exist."""
        self._say(b"update", name, _some(new), old)

    def create(self, name, new):
        """The reference, which must not exist, gets this id."""
        self._say(b"create", name, _some(new))

    def delete(self, name, old=None):
        """The reference is deleted, where it is at `old` before, if that is given."""
        self._say(b"delete", name, old)

    def verify(self, name, old=None):
        """The reference must be at `old`, or not exist where none is given. Nothing is written."""
        self._say(b"verify", name, old)

    def no_deref(self):
        """The next edit is of a symbolic reference itself, and not of the one that it leads to."""
        self._session._say(self._run, b"option no-deref\0")

    def prepare(self):
        """Checks all edits and takes their locks, which are held until the transaction ends. `Refused` says why that cannot be."""
        self._session._ask(self._run, b"prepare")


class Session:
    """Transactions on one repository, one after the other. For one thread at a time; each thread may have one of its own.

    `committer`, `name <email> seconds +hhmm`, writes reflogs; `message` is that of their lines. After a loss of
    power without `syncs` a reference may be missing or damaged, as with git's default.
    """

    def __init__(self, git_dir, committer=None, message=None, sha256=False, namespace=None, syncs=True):
        words = [b"refs-session", _bytes(git_dir), b"-z"]
        for option, value in ((b"--as", committer), (b"--message", message), (b"--namespace", namespace)):
            if value is not None:
                words += [option, _bytes(value)]
        if sha256:
            words.append(b"--sha256")
        if not syncs:
            words.append(b"--without-syncs")
        self._words = words
        self._library = _library()
        self._run = None

    def __enter__(self):
        return self

    def __exit__(self, kind, error, trace):
        self.close()
        return False

    def close(self):
        """Ends the session. A transaction that is not committed is given up."""
        if self._run is not None:
            self._run.end()
            self._run = None

    def transaction(self):
        """A transaction, for a `with` statement."""
        return Transaction(self)

    def _begin(self):
        # A refusal ends a run: the next transaction begins another one.
        if self._run is None:
            self._run = _Run(self._library, self._words)
        run = self._run
        self._ask(run, b"start")
        return run

    def _is_on(self, run):
        return run is not None and run is self._run

    def _say(self, run, text):
        if not self._is_on(run):
            raise Refused("the transaction has ended")
        run.say(text)

    def _ask(self, run, verb):
        self._say(run, verb + b"\0")
        try:
            answer = run.hear()
            if answer != verb + b": ok\n":
                raise Refused("another answer came: " + answer.decode(errors="replace"))
        except BaseException:
            # Also where the wait is interrupted: what the run answers later is of no other transaction.
            self._run = None
            run.end_input()
            raise
