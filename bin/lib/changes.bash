# The changes that compare-with-git compares: it changes repositories that git made, each in two copies: one by `refs`, the other by git in
# the same way. After each change all files of both git folders but objects are compared, byte by byte, and whether both refused it. Then
# git reads what `refs` wrote, and `refs` what git wrote. Where the two are known to differ, they must differ in just the files that are named.
signature='C <c@example.com> 1234567890 +0130'
export GIT_COMMITTER_DATE='1234567890 +0130'
refused=0

# by_git COMMAND WORD..: the change in git's copy, for the command of `refs` with these words.
by_git() {
    local command=$1 deref=--no-deref
    shift
    if [ "$1" = --deref ]; then
        deref=
        shift
    fi
    case $command in
    update) git -C "$work/git" update-ref $deref -m "$message" "$@" ;;
    symbolic) git -C "$work/git" symbolic-ref -m "$message" "$@" ;;
    delete) git -C "$work/git" update-ref $deref -m "$message" -d "$@" ;;
    esac
}

# by_refs WORD..: the same in the other copy.
by_refs() {
    "$refs" "$work/refs/.git" $option --as "$signature" --message "$message" "$@"
}

# files COPY: a line for each file of its git folder but objects, with a hash of its bytes.
files() {
    (cd "$work/$1/.git" && find . -type f -not -path './objects/*' -exec sha256sum {} + | LC_ALL=C sort -k 2)
}

# differing: the paths of the files in which the two copies differ, in one line.
differing() {
    diff <(files git) <(files refs) | sed -n 's/^[<>] [0-9a-f]*  \.\///p' | LC_ALL=C sort -u | paste -s -d ' '
}

# fail TEXT: says what differs.
fail() {
    echo "$script: $title: $1"
    sed 's/^/    /' "$work/git.out" "$work/refs.out"
    failed=1
}

# both FILES WORD..: the change in both copies. Then just these files differ; where none is named, both made it, or both refused
# it, and where `-` is, one of them did.
both() {
    local wanted=$1 git_status refs_status found
    shift
    by_git "$@" >"$work/git.out" 2>&1
    git_status=$(($? == 0))
    by_refs "$@" >"$work/refs.out" 2>&1
    refs_status=$(($? == 0))
    found=$(differing)
    if [ -z "$found" ] && [ "$git_status" -ne "$refs_status" ]; then found=-; fi
    if [ "$found" != "$wanted" ]; then fail "$*: files that differ are '$found', and not '$wanted'"; fi
    refused=$((refused + 1 - refs_status))
}

# copies REPOSITORY: makes the two copies of it.
copies() {
    rm -rf "$work/git" "$work/refs"
    cp -a "$1" "$work/git"
    cp -a "$1" "$work/refs"
}

# make_changes: each line of the input is a change that both make, or both refuse.
make_changes() {
    local words count=0
    refused=0
    while read -r words; do
        message="change $count by $words"
        both "" $words
        count=$((count + 1))
    done
    echo "$script: $title: $count changes, $refused of them refused by both"
}

# asked_for: git shows the ids and the messages of three updates as they were asked for, the newest first.
asked_for() {
    local id count=0
    for id in "$one" "$two" "$one"; do
        count=$((count + 1))
        message="update number $count: made"
        both "" update refs/heads/asked "$id"
    done
    printf '%s update number %s: made\n' "$one" 3 "$two" 2 "$one" 1 >"$work/wanted"
    git -C "$work/refs" reflog show --format='%H %gs' refs/heads/asked >"$work/listed"
    same "$title, what was asked for" "$work/wanted" "$work/listed" lines
}

# logs COPY: all reflogs, newest line first, with new ids and messages, as git shows them and as `refs` does.
logs() {
    local log name
    : >"$work/wanted"
    : >"$work/listed"
    for log in $(cd "$work/$1/.git/logs" && find . -type f | LC_ALL=C sort); do
        name=${log#./}
        git -C "$work/$1" reflog show --format="$name %H %gs" "$name" -- >>"$work/wanted"
        "$refs" "$work/$1/.git" $option log "$name" | sed "s|^[0-9a-f]*|$name|" >>"$work/listed"
    done
    same "$title, reflogs of $1" "$work/wanted" "$work/listed" lines
}

# read_both: git finds the repository that `refs` changed in order, and each reads in either copy what the other does.
read_both() {
    local copy
    if ! git -C "$work/refs" fsck --no-progress --no-dangling >"$work/git.out" 2>&1; then fail "git fsck"; fi
    for copy in refs git; do
        compare "$title, references of $copy" "$work/$copy" "$option" ""
        logs "$copy"
    done
}

# scenario TITLE REPOSITORY: the changes, what was asked for and what is read; then once more over what git packs.
scenario() {
    title=$1
    copies "$2"
    make_changes < <(changes)
    asked_for
    read_both
    title="$1, then packed"
    git -C "$work/git" pack-refs --all
    git -C "$work/refs" pack-refs --all
    make_changes < <(after_packing)
    read_both
}

# known REPOSITORY: the known differences of the input, each in fresh copies, which are then read by both, but for those marked with `!`.
known() {
    local paths words count=0 all=$title
    while IFS='|' read -r paths message words; do
        case $paths in '#'*) continue ;; esac
        message=$(printf '%b' "$message")
        copies "$1"
        both "${paths#!}" $words
        title="$all, $words"
        if [ "${paths#!}" = "$paths" ]; then read_both; fi
        title=$all
        count=$((count + 1))
    done
    echo "$script: $title: $count known differences"
}

# changing REPOSITORY: all changes, where it is empty yet.
changing() {
    local repository=$1
    make "$format" "$repository" || return 0
    commit "$repository" first
    git -C "$repository" tag v1
    git -C "$repository" pack-refs
    title="$format, one record" known "$repository" < <(last_record)
    rm -rf "$repository"
    make "$format" "$repository"
    fill "$repository"
    one=$(git -C "$repository" rev-parse main~1)
    two=$(git -C "$repository" rev-parse main)
    tag=$(git -C "$repository" rev-parse annotated)
    null=${one//[0-9a-f]/0}
    scenario "$format, loose" "$repository"
    git -C "$repository" pack-refs --all
    scenario "$format, packed" "$repository"
    title="$format, packed" known "$repository" < <(differences)
    git -C "$repository" branch -f a0 main~1
    git -C "$repository" branch z/y/other
    scenario "$format, loose and packed" "$repository"
    title="$format, empty folders"
    copies "$repository"
    make_changes < <(folders)
    read_both
    link "$repository"
    scenario "$format, with a linked worktree" "$repository"
    title="$format, in a linked worktree"
    copies "$repository"
    make_changes < <(in_worktree "$format-linked")
    read_both
}

# over_formats COMMAND: does it for each format of ids, with the path of a repository to come.
over_formats() {
    for format in sha1 sha256; do
        option=$(option_of "$format")
        "$@" "$work/$format"
    done
}
