# The scripts that compare-with-git compares: random lines of updates and deletions, each line one transaction.

# A command substitution would begin with numbers of its own, so each is given one, and the scripts are the same in each run.

# random_old NAME NEW: an old value, seldom a wrong one; none where it prints nothing. One of zeros only where NAME is not at NEW, since `refs`
# accepts that (docs/DIFFERENCES.md).
random_old() {
    local now
    now=$(git -C "$work/git" rev-parse -q --verify "$1")
    case $((RANDOM % 12)) in
    0 | 1 | 2 | 3 | 4) echo " ${now:-$null}" ;;
    5) echo " $one" ;;
    6) if [ "$now" != "$2" ]; then echo " $null"; fi ;;
    esac
}

# random_command NAME: a command for it, in the words of both, once with a semicolon behind it and once with a line end.
random_command() {
    local ids=("$one" "$two") new seed
    new=${ids[RANDOM % 2]}
    seed=$RANDOM
    if [ $((RANDOM % 4)) -eq 0 ]; then
        echo "delete $1$({ RANDOM=$seed; random_old "$1" "$null"; } | grep -v " $null")"
    else
        echo "update $1 $new$(RANDOM=$seed; random_old "$1" "$new")"
    fi
}

# random_line: up to four commands for different names, seldom for the same, joined by semicolons.
random_line() {
    local names=(heads/a-b heads/new heads/deep/er/name heads/z/y/x/w/v tags/light tags/v1 remotes/origin/topic notes/other)
    local at=$((RANDOM % 8)) step=$((1 + RANDOM % 3)) count=$((1 + RANDOM % 4)) words= seed
    if [ $((RANDOM % 20)) -eq 0 ]; then step=8; fi
    while [ "$count" -gt 0 ]; do
        seed=$RANDOM
        words+="${words:+ ; }$(RANDOM=$seed; random_command "refs/${names[at % 8]}")"
        at=$((at + step))
        count=$((count - 1))
    done
    echo "$words"
}

# random_script: makes a script of up to six lines; git makes the transaction of each as it comes, up to the first that it refuses.
random_script() {
    local count=$((1 + RANDOM % 6)) words seed
    git_status=0
    : >"$work/script"
    while [ "$count" -gt 0 ]; do
        seed=$RANDOM
        words=$(RANDOM=$seed; random_line)
        echo "$words" >>"$work/script"
        if [ "$git_status" -eq 0 ]; then
            sed 's/ ; /\n/g' <<<"$words" | git -C "$work/git" update-ref --no-deref -m "$message" --stdin >"$work/git.out" 2>&1
            git_status=$?
        fi
        count=$((count - 1))
    done
}

# compare_script REPOSITORY: a script over a copy of it, and the lines of it by git over another.
compare_script() {
    local refs_status found
    copies "$1"
    random_script
    by_refs script "$work/script" >"$work/refs.out" 2>&1
    refs_status=$?
    found=$(differing)
    if [ -n "$found" ] || [ $((git_status == 0)) -ne $((refs_status == 0)) ]; then
        fail "statuses $git_status and $refs_status, files that differ: '$found'"
        sed 's/^/    /' "$work/script"
    fi
    if [ "$refs_status" -eq 0 ]; then whole=$((whole + 1)); fi
}

# scripts COUNT REPOSITORY: so many random scripts.
scripts() {
    local count=$1 whole=0 git_status
    message=made
    while [ "$count" -gt 0 ]; do
        compare_script "$2"
        count=$((count - 1))
    done
    if git -C "$work/refs" fsck --no-progress --no-dangling >"$work/git.out" 2>&1; then :; else fail "git fsck"; fi
    echo "$script: $title: $1 scripts beside \`git update-ref --stdin\`, $whole of them to their end"
}

# scripting REPOSITORY: scripts over loose and over packed references, of which some are loose again.
scripting() {
    local repository=$1
    make "$format" "$repository" || return 0
    fill "$repository"
    one=$(git -C "$repository" rev-parse main~1)
    two=$(git -C "$repository" rev-parse main)
    null=${one//[0-9a-f]/0}
    RANDOM=1
    title="$format, loose"
    scripts 50 "$repository"
    git -C "$repository" pack-refs --all
    git -C "$repository" branch -f a-b main~1
    title="$format, packed and loose"
    scripts 50 "$repository"
}
