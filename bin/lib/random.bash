# The random steps that compare-with-git compares: over two copies of one repository, which are never made anew.

# random_name: a branch, a tag or another name that `random_line` may change too.
random_name() {
    local names=(heads/a-b heads/new heads/deep/er/name heads/z/y/x/w/v tags/light tags/v1 remotes/origin/topic notes/other)
    echo "refs/${names[RANDOM % 8]}"
}

# whole_line: a transaction of a random line, by both.
whole_line() {
    local words seed=$RANDOM
    words=$(RANDOM=$seed; random_line)
    echo "$words" >"$work/script"
    sed 's/ ; /\n/g' <<<"$words" | git -C "$work/git" update-ref --no-deref -m "$message" --stdin >"$work/git.out" 2>&1
    git_status=$?
    by_refs script "$work/script" >"$work/refs.out" 2>&1
    refs_status=$?
    step=$words
}

# change_both WORD..: a change of one reference, by both.
change_both() {
    by_git "$@" >"$work/git.out" 2>&1
    git_status=$?
    by_refs "$@" >"$work/refs.out" 2>&1
    refs_status=$?
    step=$*
}

# pack_both: git packs both copies.
pack_both() {
    git -C "$work/git" pack-refs "$@" >"$work/git.out" 2>&1
    git_status=$?
    git -C "$work/refs" pack-refs "$@" >"$work/refs.out" 2>&1
    refs_status=$?
    step="pack-refs $*"
}

# show_both NAME: what a name is short for in the copy of `refs`, by both.
show_both() {
    git -C "$work/refs" rev-parse -q --verify "$1" >"$work/git.out"
    git_status=$?
    by_refs show "$1" >"$work/refs.shown"
    refs_status=$?
    grep -v '^refused: ' "$work/refs.shown" | cut -d ' ' -f 1 >"$work/refs.out"
    step="show $1"
    if ! cmp -s "$work/git.out" "$work/refs.out"; then fail "$step"; fi
}

# random_step: one of these.
random_step() {
    local id seed=$RANDOM name symbolic=refs/tags/symbolic$((RANDOM % 3))
    id=$one
    if [ $((RANDOM % 2)) -eq 0 ]; then id=$two; fi
    name=$(RANDOM=$seed; random_name)
    case $((RANDOM % 20)) in
    0) pack_both --all ;;
    1) pack_both ;;
    2) change_both symbolic "$symbolic" "$name" ;;
    3) change_both update --deref "$symbolic" "$id" ;;
    4) change_both delete "$symbolic" ;;
    5) show_both "${name#refs/}" ;;
    6) show_both "${name##*/}" ;;
    *) whole_line ;;
    esac
}

# without_symbolic: deletes the symbolic references, which may lead to nothing; git lists no such one (docs/DIFFERENCES.md).
without_symbolic() {
    local number
    for number in 0 1 2; do change_both delete "refs/tags/symbolic$number"; done
}

# steps COUNT: so many random steps. After each all files are the same; and now and then each copy is read by both.
steps() {
    local count=0 title_of=$title step git_status refs_status found
    message=made
    while [ "$count" -lt "$1" ]; do
        count=$((count + 1))
        random_step
        found=$(differing)
        if [ -n "$found" ] || [ $((git_status == 0)) -ne $((refs_status == 0)) ]; then
            fail "step $count, $step: statuses $git_status and $refs_status, files that differ: '$found'"
            return
        fi
        if [ $((count % 100)) -eq 0 ]; then
            title="$title_of, after $count steps"
            without_symbolic
            read_both
            title=$title_of
        fi
    done
    echo "$script: $title: $1 random steps"
}

# stepping COUNT SEED REPOSITORY: so many random steps over the copies of a new repository.
stepping() {
    local repository=$3
    make "$format" "$repository" || return 0
    fill "$repository"
    one=$(git -C "$repository" rev-parse main~1)
    two=$(git -C "$repository" rev-parse main)
    null=${one//[0-9a-f]/0}
    copies "$repository"
    RANDOM=$2
    title="$format, seed $2"
    steps "$1"
}
