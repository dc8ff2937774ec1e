# What the comparisons with git share, read by bin/compare-with-git, which has set `top` and `script`. The programs that are compared are
# `refs` and `session`.
refs=${REFS-$top/crates/refs/out/refs}
session=${REFS_SESSION-$top/crates/refs_session/out/refs_session}
# Nothing of the caller's configuration counts.
export GIT_CONFIG_NOSYSTEM=1 GIT_CONFIG_GLOBAL=/dev/null
export GIT_AUTHOR_NAME=A GIT_AUTHOR_EMAIL=a@example.com GIT_COMMITTER_NAME=C GIT_COMMITTER_EMAIL=c@example.com
unset GIT_DIR GIT_WORK_TREE GIT_NAMESPACE GIT_COMMON_DIR
work=$(mktemp -d "${TMPDIR:-/tmp}/$script.XXXXXX")
trap 'rm -rf "$work"' EXIT
failed=0

# A line for each reference as `refs` prints it: a symbolic one by the name that it points to.
line='%(if)%(symref)%(then)ref: %(symref)%(else)%(objectname)%(end) %(refname)'

# same TITLE WANTED GIVEN COUNTED: prints whether the two files are the same, and how many of what is counted they have.
same() {
    if cmp -s "$2" "$3"; then
        echo "$script: $1: $(wc -l <"$2") $4, the same"
    else
        echo "$script: $1: they differ (< git, > refs)"
        diff "$2" "$3" | head -20
        failed=1
    fi
}

# compare TITLE REPOSITORY OPTION PREFIX: the listings of both. OPTION and PREFIX may be empty. git takes a prefix that ends
# with a slash.
compare() {
    git -C "$2" for-each-ref --format="$line" ${4:+"$4"} >"$work/wanted"
    "$refs" "$2/.git" ${3:+"$3"} list ${4:+"$4"} >"$work/listed"
    same "$1" "$work/wanted" "$work/listed" references
}

# option_of FORMAT: the option of `refs` for ids of this format.
option_of() {
    if [ "$1" = sha256 ]; then echo --sha256; fi
}

# make FORMAT REPOSITORY: an empty repository; fails where this git makes none of this format.
make() {
    if ! git init -q -b main --object-format="$1" "$2" 2>/dev/null; then
        echo "$script: this git makes no repository of $1"
        return 1
    fi
}

# commit REPOSITORY TEXT: makes a commit on the current branch.
commit() {
    git -C "$1" commit -q --allow-empty -m "$2"
}

# fill REPOSITORY: branches, tags, annotated tags, a remote with its head, and names whose order is not that of folders.
fill() {
    local name
    commit "$1" first
    for name in a-b a/b a.b a0 z/y/x/w/v "b$(printf '\303\244')"; do
        git -C "$1" branch "$name"
    done
    commit "$1" second
    git -C "$1" tag v1
    git -C "$1" tag -a -m one annotated
    git -C "$1" -c advice.nestedTag=false tag -a -m two of-a-tag annotated
    git -C "$1" update-ref refs/remotes/origin/main HEAD
    git -C "$1" symbolic-ref refs/remotes/origin/HEAD refs/remotes/origin/main
    git -C "$1" update-ref refs/notes/commits HEAD
}

# change REPOSITORY: some of the references anew, once they are packed.
change() {
    commit "$1" third
    git -C "$1" branch -f a0
    git -C "$1" tag -f v1 >/dev/null
    git -C "$1" branch -D a.b >/dev/null
    git -C "$1" tag -a -m three late
}

# link REPOSITORY: a linked worktree with a branch and private references.
link() {
    git -C "$1" worktree add -q -b linked "$1-linked" 2>/dev/null
    git -C "$1-linked" update-ref refs/bisect/bad HEAD
    git -C "$1-linked" update-ref refs/worktree/own HEAD
    git -C "$1" update-ref refs/bisect/good HEAD
}
