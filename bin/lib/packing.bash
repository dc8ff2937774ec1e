# The packing that compare-with-git compares.

# table COPY: a line for each object that a reference of it points to, with the object at the end of its tags if it is a tag, as
# docs/SESSION.md makes them.
table() {
    git -C "$work/$1" for-each-ref --format='%(objectname)^{} %(objectname)' 2>/dev/null |
        git -C "$work/$1" cat-file --batch-check='%(rest) %(objectname)' 2>/dev/null |
        awk '!/missing$/ { print $1, ($1 == $2 ? "" : $2) }'
}

# shown COPY: how git lists the references of a copy, with the objects at the end of tags, and what it finds out of order there.
shown() {
    git -C "$work/$1" for-each-ref --format="$line" 2>&1
    git -C "$work/$1" show-ref --dereference 2>&1
    git -C "$work/$1" fsck --no-progress --no-dangling 2>&1
}

# by_pack_refs [--all [--namespace NAME]]: packs the copy of `refs`.
by_pack_refs() {
    table refs >"$work/table"
    "$session" "$work/refs/.git" $option "${@:2}" pack-refs ${1:+"$1"} --peeled "$work/table" >"$work/refs.out" 2>&1
}

# compare_packed FILES: just these files differ in the copies, and git shows the same of both; with `!` in front it may show something else.
compare_packed() {
    local found
    found=$(differing)
    if [ "$found" != "${1#!}" ]; then fail "files that differ are '$found', and not '${1#!}'"; fi
    if [ "${1#!}" != "$1" ]; then return; fi
    shown git >"$work/wanted"
    shown refs >"$work/listed"
    same "$title" "$work/wanted" "$work/listed" "lines of git after packing"
}

# pack FILES REPOSITORY [--all]: packs a copy by git and another by `pack-refs`, and compares them.
pack() {
    local wanted=$1 repository=$2
    shift 2
    copies "$repository"
    git -C "$work/git" pack-refs "$@" >"$work/git.out" 2>&1 || fail "git pack-refs"
    by_pack_refs "$@" || fail "pack-refs"
    compare_packed "$wanted"
}

# pack_both TITLE REPOSITORY: all references, and then tags alone.
pack_both() {
    title="$1, pack-refs --all"
    pack "" "$2" --all
    title="$1, pack-refs"
    pack "" "$2"
}

# pack_namespace REPOSITORY: `pack-refs` packs a namespace alone, git then packs the rest of that copy, and at once all of the other.
pack_namespace() {
    copies "$1"
    by_pack_refs --all --namespace fork || fail "pack-refs"
    grep -v -e '^[#^]' -e ' refs/namespaces/fork/' "$work/refs/.git/packed-refs" >"$work/git.out" && fail "other names are packed"
    find "$work/refs/.git/refs/namespaces/fork/refs" -type f ! -path '*/bisect/*' | grep . >"$work/git.out" && fail "files are left"
    git -C "$work/git" pack-refs --all
    git -C "$work/refs" pack-refs --all
    compare_packed ""
}

# add_namespace REPOSITORY: references in a namespace, also such that are of one worktree alone outside of it.
add_namespace() {
    local name
    for name in refs/heads/main refs/heads/b/c refs/tags/light refs/bisect/bad; do
        git -C "$1" update-ref "refs/namespaces/fork/$name" main~1
    done
    git -C "$1" update-ref refs/namespaces/fork/refs/tags/of-a-tag of-a-tag
    git -C "$1" symbolic-ref refs/namespaces/fork/HEAD refs/namespaces/fork/refs/heads/main
}

# break_some REPOSITORY: a reference to no object, one to the null id, one whose file is no reference, and one that leads to nothing.
break_some() {
    local id
    id=$(git -C "$1" rev-parse main)
    echo "${id//[0-9a-f]/1}" >"$1/.git/refs/heads/missing"
    echo "${id//[0-9a-f]/0}" >"$1/.git/refs/tags/null"
    echo nothing >"$1/.git/refs/tags/broken"
    git -C "$1" symbolic-ref refs/tags/to-nothing refs/tags/nothing
}

# known_packing REPOSITORY: where the two are known to differ. The branches `main` and `a0` of the repository are loose, and have records.
known_packing() {
    local small=$work/$format-small
    # without --all, git packs tags alone, and `pack-refs` also branches that have a record
    title="$format, branches that have a record, pack-refs"
    pack "packed-refs refs/heads/a0 refs/heads/main" "$1"
    # where nothing is to be packed, git writes the header of packed-refs alone
    make "$format" "$small"
    commit "$small" first
    title="$format, no tag, pack-refs"
    pack packed-refs "$small"
    # git peels the tags of old records that were not peeled; here they keep no object, and git then shows none
    git -C "$small" tag -a -m one annotated
    git -C "$small" pack-refs
    sed -i '/^[#^]/d' "$small/.git/packed-refs"
    title="$format, records that were not peeled, pack-refs --all"
    pack !packed-refs "$small" --all
    # git packs a reference that is locked, and leaves its loose file; here all is refused
    git -C "$small" tag light
    copies "$small"
    touch "$work/git/.git/refs/heads/main.lock" "$work/refs/.git/refs/heads/main.lock"
    git -C "$work/git" pack-refs --all 2>"$work/git.out"
    title="$format, a reference that is locked, pack-refs --all"
    by_pack_refs --all && fail "pack-refs is not refused"
    compare_packed "!packed-refs refs/tags/light"
    echo "$script: $format, pack-refs: 4 known differences"
}

# packing REPOSITORY: all of it, where there is nothing yet.
packing() {
    local name repository=$1
    make "$format" "$repository" || return 0
    fill "$repository"
    pack_both "$format, loose" "$repository"
    link "$repository"
    add_namespace "$repository"
    git -C "$repository" symbolic-ref refs/heads/symbolic refs/heads/a0
    pack_both "$format, with a worktree and a namespace" "$repository"
    title="$format, pack-refs --namespace"
    pack_namespace "$repository"
    break_some "$repository"
    title="$format, with broken references, pack-refs"
    pack "" "$repository"
    # a branch counts as a commit, also where that object is missing
    title="$format, with broken references, pack-refs --all"
    pack "!packed-refs refs/heads/missing" "$repository" --all
    # without a table branches are packed, and annotated tags stay loose
    copies "$repository"
    "$session" "$work/refs/.git" $option pack-refs --all 2>"$work/refs.out"
    for name in $(git -C "$repository" for-each-ref --format='%(objecttype) %(refname)' 2>"$work/git.out" | sed -n 's/^tag //p'); do
        grep " $name\$" "$work/refs/.git/packed-refs" && fail "an annotated tag is packed without a table"
    done
    find "$work/refs/.git/refs/heads" -type f -exec grep -L '^ref:' {} + | grep . && fail "branches stay loose"
    # with --no-prune their files stay
    copies "$repository"
    "$session" "$work/refs/.git" $option pack-refs --all --no-prune 2>"$work/refs.out"
    grep -q ' refs/heads/main$' "$work/refs/.git/packed-refs" && [ -f "$work/refs/.git/refs/heads/main" ] || fail "files are pruned"
    rm "$repository/.git/refs/heads/missing" "$repository"/.git/refs/tags/{null,broken}
    git -C "$repository" pack-refs --all
    pack_both "$format, all packed" "$repository"
    git -C "$repository" tag -f light-moved main~1 >/dev/null
    change "$repository"
    title="$format, loose and packed, pack-refs --all"
    pack "" "$repository" --all
    known_packing "$repository"
}
