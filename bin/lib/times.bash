# The times that compare-with-git takes: nine tasks of git and of `refs` in turn, ten rounds each.
rounds=10

# now: microseconds.
now() {
    echo "${EPOCHREALTIME/[.,]/}"
}

# records COUNT REPOSITORY: a sorted packed-refs with so many branches at the only commit.
records() {
    local id
    id=$(git -C "$2" rev-parse HEAD)
    echo '# pack-refs with: peeled fully-peeled sorted ' >"$2/.git/packed-refs"
    seq -f "$id refs/heads/b%07.0f" 1 "$1" >>"$2/.git/packed-refs"
}

# shuffled COUNT REPOSITORY: the same branches in some order, without a header.
shuffled() {
    records "$1" "$2"
    tail -n +2 "$2/.git/packed-refs" | awk '{ print (NR * 7919) % 1000003, $0 }' | sort -n | cut -d ' ' -f 2- >"$work/shuffled"
    mv "$work/shuffled" "$2/.git/packed-refs"
}

# lines COUNT REPOSITORY: a branch at the only commit, with so many lines in its reflog.
lines() {
    local id
    id=$(git -C "$2" rev-parse HEAD)
    echo "$id" >"$2/.git/refs/heads/logged"
    seq -f "$id $id C <c@example.com> 1234567890 +0130	commit: %.0f" 1 "$1" >"$2/.git/logs/refs/heads/logged"
}

# loose COUNT REPOSITORY: so many loose branches at the only commit.
loose() {
    local id at
    id=$(git -C "$2" rev-parse HEAD)
    mkdir -p "$2/.git/refs/heads/many"
    for ((at = 1; at <= $1; at++)); do echo "$id" >"$2/.git/refs/heads/many/b$at"; done
}

# repository COUNT: one with a commit and so many records, made anew.
repository() {
    rm -rf "$work/timed"
    make sha1 "$work/timed"
    commit "$work/timed" first
    if [ "$1" -gt 0 ]; then records "$1" "$work/timed"; fi
}

# run_one COMMAND: its time in microseconds, in a copy of the git folder where `fresh` says so.
run_one() {
    local start
    if [ -n "$fresh" ]; then
        rm -rf "$work/timed/.git"
        cp -a "$work/timed/kept" "$work/timed/.git"
    fi
    start=$(now)
    "$1" >/dev/null 2>"$work/errors" || { cat "$work/errors" >&2; failed=1; }
    echo $(($(now) - start))
}

# least_and_median: of the numbers of the input, in milliseconds.
least_and_median() {
    sort -n | awk '{ t[NR] = $1 } END { printf "%.1f %.1f", t[1] / 1000, t[int((NR + 1) / 2)] / 1000 }'
}

# time_task TITLE: the functions `git_task` and `refs_task` in turn, and a line with the least and the median time of each.
time_task() {
    local round
    : >"$work/git.times"
    : >"$work/refs.times"
    if [ -n "$fresh" ]; then
        rm -rf "$work/timed/kept"
        cp -a "$work/timed/.git" "$work/timed/kept"
    fi
    for ((round = 0; round < rounds; round++)); do
        run_one git_task >>"$work/git.times"
        run_one refs_task >>"$work/refs.times"
    done
    printf '| %s | %s / %s | %s / %s |\n' "$1" $(least_and_median <"$work/refs.times") $(least_and_median <"$work/git.times")
}

# many_updates: ten thousand new branches, a line each.
many_updates() {
    local id
    id=$(git -C "$work/timed" rev-parse HEAD)
    seq -f "update refs/heads/new/b%05.0f $id" 1 10000
}

time_show() {
    fresh=
    git_task() { git -C "$work/timed" rev-parse -q --verify refs/heads/b0005000; }
    refs_task() { "$program" "$work/timed/.git" show refs/heads/b0005000; }
    repository 10000
    time_task "show one of 10,000 records"
    repository 1000000
    time_task "show one of a million records"
    git_task() { git -C "$work/timed" show-ref --verify refs/heads/b0005000; }
    repository 0
    shuffled 100000 "$work/timed"
    time_task "show one of 100,000 records that are not in order"
}

time_list() {
    fresh=
    git_task() { git -C "$work/timed" for-each-ref --format='%(objectname) %(refname)'; }
    refs_task() { "$program" "$work/timed/.git" list; }
    repository 100000
    time_task "list 100,000 records"
}

time_log() {
    fresh=
    git_task() { git -C "$work/timed" reflog show --format='%H %gs' refs/heads/logged; }
    refs_task() { "$program" "$work/timed/.git" log refs/heads/logged; }
    repository 0
    lines 100000 "$work/timed"
    time_task "show a reflog of 100,000 lines"
}

time_update() {
    fresh=1
    git_task() { git -C "$work/timed" update-ref -m made refs/heads/new HEAD; }
    refs_task() { "$program" "$work/timed/.git" --as 'C <c@example.com> 1234567890 +0130' --message made update refs/heads/new "$id"; }
    repository 0
    id=$(git -C "$work/timed" rev-parse HEAD)
    time_task "one update with its log line"
    repository 0
    many_updates >"$work/lines"
    paste -s -d ';' "$work/lines" | sed 's/;/ ; /g' >"$work/one-line"
    git_task() { git -C "$work/timed" update-ref --stdin <"$work/lines"; }
    refs_task() { "$program" "$work/timed/.git" script "$work/one-line"; }
    time_task "10,000 updates in one transaction"
}

time_deletion() {
    fresh=1
    git_task() { git -C "$work/timed" update-ref -d refs/heads/b0050000; }
    refs_task() { "$program" "$work/timed/.git" delete refs/heads/b0050000; }
    repository 100000
    time_task "delete one of 100,000 records"
}

time_packing() {
    fresh=1
    git_task() { git -C "$work/timed" pack-refs --all; }
    refs_task() { "$session" "$work/timed/.git" pack-refs --all; }
    repository 0
    loose 10000 "$work/timed"
    time_task "pack 10,000 loose references"
}

# times: a table of all, least and median in milliseconds.
times() {
    local fresh program=$refs
    echo "$script: $rounds rounds, least / median in milliseconds, on $(nproc) processors: $(sed -n 's/^model name.*: //p' /proc/cpuinfo | head -1)"
    echo "| task | refs | git $(git --version | sed 's/git version //') |"
    echo "|---|---|---|"
    time_show
    time_list
    time_log
    time_update
    time_deletion
    time_packing
}
