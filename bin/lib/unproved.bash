# Runs a program of this repository that is not proved yet, read by bin/refs and bin/refs-session.

# run_proved PROGRAM WORD..: proves the program first, and says so on standard error.
run_proved() {
    local program=$1
    shift
    echo "$program: not proved yet: this waits for \`bin/prove $program\`" >&2
    "$top/bin/prove" "$program" || exit 1
    exec "$top/crates/${program//-/_}/out/${program//-/_}" "$@"
}

# said_by_program FILE: what the program wrote to standard error, among the lines of `rt try`.
said_by_program() {
    grep -av -e '^interpreter: ' -e '^checked: ' -e '^races: ' -e '^run=' -e '^rt: ' "$1"
}

# from_here FRONT: the input, in whose lines a path after FRONT is named as from the caller's folder.
from_here() {
    awk -v front="$1" -v here="$PWD/" 'index($0, front here) == 1 { $0 = front substr($0, length(front here) + 1) } { print }'
}

# run_unproved PROGRAM FRONT DIR WORD..: builds it without proof, runs it once with checks, and ends with its status. Both outputs are the
# program's own. It runs in another folder, so DIR is named from the root; in lines that begin with FRONT, if that is not `-`, and then
# have its path, that is named as the caller did.
run_unproved() {
    local program=$1 front=$2 dir=$3 status reason
    shift 3
    if ! command -v rt >/dev/null; then
        echo "$program: not built yet, and the Rattle kit (the command \`rt\`) is not installed" >&2
        exit 127
    fi
    echo "$program: not proved yet: built without proof and checked as it runs, this once, in a minute; \`bin/prove $program\` proves it" >&2
    room=$(mktemp -d "${TMPDIR:-/tmp}/$program-unproved.XXXXXX")
    trap 'rm -rf "$room"' EXIT
    case $dir in /*) front=- ;; *) dir=$PWD/$dir ;; esac
    (cd "$top/crates/${program//-/_}" && exec rt try -- "$dir" "$@" </dev/null >"$room/out" 2>"$room/said") &
    trap "kill $! 2>/dev/null; exit 130" INT
    trap "kill $! 2>/dev/null; exit 143" TERM HUP
    wait $!
    if [ "$front" = - ]; then cat "$room/out"; else from_here "$front" <"$room/out"; fi
    status=$(sed -n '$s/^run=ended status=\([0-9]*\).*/\1/p' "$room/said")
    if [ -n "$status" ]; then
        said_by_program "$room/said" >&2
        exit "$status"
    fi
    reason=$(sed -n 's/^checked: \(no-answer: \)\{0,1\}//p' "$room/said")
    if [ -z "$reason" ]; then
        cat "$room/said" >&2
        reason="it was not built"
    fi
    echo "$program: the unproved run gave no answer: $reason. It may take 60 seconds and print 1 MiB: run \`bin/prove $program\`, and then this again" >&2
    exit 1
}
