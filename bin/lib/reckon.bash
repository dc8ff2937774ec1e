# How long the proofs of bin/prove will take, and which of them were made before. The kit says only as it goes which crates are kept, so each
# crate that bin/prove saw proved is noted in a file of the user, by a sum of the kit and of all files that its proof reads; so does
# bin/test; a crate that was proved otherwise is taken for one that is to be proved until its turn comes. All times are of whole seconds.
proved_file=${XDG_CACHE_HOME:-${HOME:-/tmp}/.cache}/gix_ref/proved

# minutes SECONDS: how long that is, in words.
minutes() {
    if [ "$1" -lt 60 ]; then echo "$1 s"; else echo "$((($1 + 30) / 60)) min"; fi
}

# sum_all FROM: of each crate of the folder FROM that is in `crates`, lowest first, the crates that it needs, in `below`, and its sum, over those
# of these, in `sum`.
sum_all() {
    local crate dep part kit
    kit=$(rt version)
    for crate in $crates; do
        below[$crate]=$(needed "$crate")
        sum[$crate]=$({
            echo "$kit"
            cat "$1/HANDLES"
            sed -n "/^$crate:/p" "$1/crates.txt"
            for dep in ${below[$crate]}; do echo "${sum[$dep]}"; done
            cd "$1/crates/$crate" && for part in src specs proofs; do
                if [ -e "$part" ]; then find "$part" -type f -print0 | LC_ALL=C sort -z | xargs -0 sha256sum; fi
            done
        } | sha256sum | cut -c 1-64)
    done
}

# remember CRATE: notes that it is proved and kept.
remember() {
    if is_remembered "$1"; then return; fi
    mkdir -p "${proved_file%/*}" 2>/dev/null && echo "${sum[$1]} $1" 2>/dev/null >>"$proved_file"
    return 0
}

# remember_all: notes it of each crate of this repository, as it is now.
remember_all() {
    local crate crates
    local -A below sum
    seen=""
    for crate in $(sed -n 's/^\([a-z_0-9]*\):.*/\1/p' "$top/crates.txt"); do crates_below "$crate"; done
    crates=$seen
    sum_all "$top"
    for crate in $crates; do remember "$crate"; done
}

# is_remembered CRATE: whether an earlier call saw it proved.
is_remembered() {
    grep -qs "^${sum[$1]} " "$proved_file"
}

# speed: how many milliseconds a loop takes that takes 100 on the machine where the costs below were measured.
speed() {
    local at start=${EPOCHREALTIME/[.,]/}
    for ((at = 0; at < 60000; at++)); do :; done
    echo $(((${EPOCHREALTIME/[.,]/} - start) / 1000))
}

# reckon FROM: the cost of each crate in seconds of a processor, by its lines; its place in the chain, in `depth` and `by_depth`; which are
# remembered, in `kept`; and how many may be proved at once, in `most_at_once`.
reckon() {
    local crate dep lines most=0
    slow=$(speed)
    sum_all "$1"
    kept=""
    for crate in $crates; do
        lines=$(cat $(find "$1/crates/$crate/src" -name '*.rt') | wc -l)
        cost[$crate]=$(((25 + lines / 9) * slow / 100))
        depth[$crate]=0
        if is_remembered "$crate"; then kept+=" $crate"; fi
    done
    for crate in $(printf '%s\n' $crates | tac); do
        for dep in ${below[$crate]}; do
            if [ "${depth[$dep]}" -le "${depth[$crate]}" ]; then depth[$dep]=$((depth[$crate] + 1)); fi
        done
    done
    # The more crates are above one, the less it yields to others.
    for crate in $crates; do if [ "${depth[$crate]}" -gt "$most" ]; then most=${depth[$crate]}; fi; done
    for crate in $crates; do depth[$crate]=$((most - depth[$crate] > 19 ? 19 : most - depth[$crate])); done
    by_depth=$(for crate in $crates; do echo "${depth[$crate]} $crate"; done | sort -n -s | cut -d ' ' -f 2)
    # A check takes up to 4 GB.
    most_at_once=$(($(sed -n 's/^MemTotal: *\([0-9]*\) kB/\1/p' /proc/meminfo) / 4000000))
    if [ "$most_at_once" -gt "$(nproc)" ]; then most_at_once=$(nproc); fi
    if [ "$most_at_once" -lt 1 ]; then most_at_once=1; fi
}

# said_to_last: how long the rest will take: its longest chain, of which each crate has some processors, or all of it on all processors.
said_to_last() {
    local crate dep all=0 longest=0 processors
    local -A chain
    processors=$(nproc)
    for crate in $crates; do
        chain[$crate]=0
        for dep in ${below[$crate]}; do
            if [ "${chain[$dep]}" -gt "${chain[$crate]}" ]; then chain[$crate]=${chain[$dep]}; fi
        done
        if [ "${state[$crate]}" = proved ]; then continue; fi
        all=$((all + cost[$crate]))
        chain[$crate]=$((chain[$crate] + cost[$crate] * (40 + 60 / (processors > 3 ? 3 : processors)) / 100))
        if [ "${chain[$crate]}" -gt "$longest" ]; then longest=${chain[$crate]}; fi
    done
    all=$((all / processors))
    if [ "$all" -gt "$longest" ]; then longest=$all; fi
    echo "some $(minutes "$longest") to go on $processors processors"
}
