# The listings that compare-with-git compares: in repositories that git makes `refs DIR list` prints what `git for-each-ref` does. Then it
# lists one 2,000 times while git packs its references and makes them loose again: no listing may lack one.

# all TITLE REPOSITORY OPTION: the whole listing, and prefixes.
all() {
    compare "$1" "$2" "$3" ""
    compare "$1, refs/heads/" "$2" "$3" refs/heads/
    compare "$1, refs/heads/a/" "$2" "$3" refs/heads/a/
    compare "$1, refs/tags/" "$2" "$3" refs/tags/
    compare "$1, refs/nothing/" "$2" "$3" refs/nothing/
}

# pack_and_loosen REPOSITORY: packs all references and makes them loose again, at each of two commits in turn, until the file
# `enough` is there; a line of `packings` for each time.
pack_and_loosen() {
    while [ ! -e "$work/enough" ]; do
        for text in "$work/older" "$work/newer"; do
            git -C "$1" update-ref --stdin <"$text"
            git -C "$1" pack-refs --all
            echo >>"$work/packings"
        done
    done
}

# beside_a_packer REPOSITORY: 2,000 listings while references are packed and made loose again. Each has every reference once.
beside_a_packer() {
    local turn packer lacking=0
    commit "$1" first
    commit "$1" second
    for turn in {1..40}; do
        echo "update refs/heads/side$((turn % 4))/$turn HEAD~1" >>"$work/older"
        echo "update refs/heads/side$((turn % 4))/$turn HEAD" >>"$work/newer"
    done
    git -C "$1" update-ref --stdin <"$work/older"
    git -C "$1" pack-refs --all
    git -C "$1" for-each-ref --format='%(refname)' >"$work/wanted"
    : >"$work/packings"
    pack_and_loosen "$1" 2>/dev/null &
    packer=$!
    for turn in {1..2000}; do
        "$refs" "$1/.git" list | cut -d ' ' -f 2- >"$work/listed"
        if ! cmp -s "$work/wanted" "$work/listed"; then
            lacking=$((lacking + 1))
            diff "$work/wanted" "$work/listed" | head -5
        fi
    done
    : >"$work/enough"
    wait "$packer"
    echo "$script: 2000 listings beside $(wc -l <"$work/packings") times of packing and loosening: $lacking lack a reference"
    if [ "$lacking" -ne 0 ]; then failed=1; fi
}

# beside_other_bytes REPOSITORY: of a folder with a file whose name is not UTF-8 all others are listed, and one fault.
beside_other_bytes() {
    commit "$1" first
    git -C "$1" update-ref refs/heads/side/plain HEAD
    git -C "$1" update-ref $'refs/heads/side/x\xff' HEAD
    git -C "$1" for-each-ref --format="$line" | grep -av $'\xff' >"$work/wanted"
    echo "fault: ReadFileContents" >>"$work/wanted"
    "$refs" "$1/.git" list >"$work/listed"
    same "beside a name that is not UTF-8" "$work/wanted" "$work/listed" lines
}

# listings: all of it.
listings() {
    local repository
    for format in sha1 sha256; do
        option=$(option_of "$format")
        repository=$work/$format
        make "$format" "$repository" || continue
        compare "$format, empty" "$repository" "$option" ""
        fill "$repository"
        all "$format, loose" "$repository" "$option"
        git -C "$repository" pack-refs --all
        all "$format, packed" "$repository" "$option"
        change "$repository"
        all "$format, loose and packed" "$repository" "$option"
        link "$repository"
        all "$format, with a linked worktree" "$repository" "$option"
    done
    make sha1 "$work/bytes" && beside_other_bytes "$work/bytes"
    make sha1 "$work/beside" && beside_a_packer "$work/beside"
}
