"""Transactions by `refs.py` on the new repository whose git folder is the first argument."""
import os
import sys

from refs import Refused, Session

GIT_DIR = sys.argv[1]
A, B = "a" * 40, "b" * 40
ZERO = "0" * 40


def read(name):
    try:
        with open(os.path.join(GIT_DIR, name)) as file:
            return file.read().strip()
    except FileNotFoundError:
        return None


def refused(make):
    try:
        make()
    except Refused as error:
        return str(error)
    raise AssertionError("it is refused")


with Session(GIT_DIR, committer="C <c@example.com> 1234 +0800", message="by a client", syncs=False) as session:
    # Both are made.
    with session.transaction() as edits:
        edits.update("refs/heads/a", A)
        edits.create("refs/heads/b", B)
        assert read("refs/heads/a") is None
    assert (read("refs/heads/a"), read("refs/heads/b")) == (A, B)
    assert read("logs/refs/heads/a").endswith("\tby a client")

    # A vote after `prepare`, with the locks held, gives them up.
    try:
        with session.transaction() as edits:
            edits.update("refs/heads/a", B, old=A)
            edits.prepare()
            assert os.path.exists(os.path.join(GIT_DIR, "refs/heads/a.lock"))
            raise KeyError("a replica voted against it")
    except KeyError:
        pass
    assert read("refs/heads/a") == A
    assert not os.path.exists(os.path.join(GIT_DIR, "refs/heads/a.lock"))

    # Another old value is refused, with the other edit, and the session goes on.
    def with_wrong_old():
        with session.transaction() as edits:
            edits.delete("refs/heads/b")
            edits.update("refs/heads/a", B, old=B)

    assert "refs/heads/a" in refused(with_wrong_old)
    assert (read("refs/heads/a"), read("refs/heads/b")) == (A, B)

    # What must not exist does.
    def again():
        with session.transaction() as edits:
            edits.create("refs/heads/a", A)

    refused(again)

    with session.transaction() as edits:
        edits.verify("refs/heads/a", A)
        edits.update("refs/heads/c", A, old=ZERO)
        edits.delete("refs/heads/b", old=B)
    assert (read("refs/heads/b"), read("refs/heads/c")) == (None, A)

    # A refusal that is caught inside ends the transaction: nothing of it is made afterwards.
    def caught():
        with session.transaction() as edits:
            edits.update("refs/heads/a", B, old=B)
            refused(edits.prepare)
            refused(lambda: edits.update("refs/heads/e", A))

    assert "ended" in refused(caught)
    assert read("refs/heads/e") is None

    # Another error after it is that which is raised, whether the refusal was seen or not.
    for prepares in (True, False):
        try:
            with session.transaction() as edits:
                edits.update("refs/heads/..", B)
                if prepares:
                    refused(edits.prepare)
                raise KeyError("after a refusal")
        except KeyError:
            pass

    # One that has ended adds nothing to the next.
    with session.transaction() as ended:
        ended.verify("refs/heads/a", A)
    with session.transaction():
        assert "ended" in refused(lambda: ended.update("refs/heads/e", A))
    assert read("refs/heads/e") is None

    # No text smuggles in a field, and no missing id deletes.
    for make in (
        lambda edits: edits.update("refs/heads/e\0" + A + "\0\0delete refs/heads/a", A),
        lambda edits: edits.update("refs/heads/a", None),
        lambda edits: edits.create("refs/heads/e", ""),
    ):
        try:
            with session.transaction() as edits:
                make(edits)
            raise AssertionError("it raises a ValueError")
        except ValueError:
            pass
    assert (read("refs/heads/a"), read("refs/heads/e")) == (A, None)

    # A bad name ends its transaction.
    def bad_name():
        with session.transaction() as edits:
            edits.update("refs/heads/..", A)

    refused(bad_name)

    # One that is left open is given up with the session.
    edits = session.transaction().__enter__()
    edits.update("refs/heads/d", A)
    edits.prepare()
assert read("refs/heads/d") is None
assert not any(name.endswith(".lock") for _, _, names in os.walk(GIT_DIR) for name in names)
