# The crates of this repository and what is built of them, read by the scripts in bin/, which have set `top`.

# needed CRATE: the crates of this repository that its line names.
needed() {
    local dep
    for dep in $(sed -n "s/^$1: *//p" "$top/crates.txt"); do
        if [ -d "$top/crates/$dep" ]; then echo "$dep"; fi
    done
}

# crates_below CRATE: adds the crates that it needs to `seen`, each after those that it needs, and the crate itself.
crates_below() {
    local dep
    case " $seen " in *" $1 "*) return ;; esac
    for dep in $(needed "$1"); do crates_below "$dep"; done
    seen="$seen $1"
}

# lay FROM ROOM CRATE..: makes ROOM the top of a repository of just these crates of FROM, without wrong bodies.
lay() {
    local from=$1 room=$2 crate part
    shift 2
    mkdir -p "$room/crates" "$room/.git"
    cp "$from/HANDLES" "$room/"
    for crate in "$@"; do
        mkdir "$room/crates/$crate"
        for part in src specs proofs data stdin stdout args status; do
            if [ -e "$from/crates/$crate/$part" ]; then cp -r "$from/crates/$crate/$part" "$room/crates/$crate/"; fi
        done
        sed -n "/^$crate:/p" "$from/crates.txt" >>"$room/crates.txt"
    done
}

# is_fresh FILE: it was made, and no source is newer.
is_fresh() {
    [ -f "$1" ] && [ -z "$(find "$top/crates.txt" "$top"/crates/*/src "$top"/crates/*/specs "$top"/crates/*/proofs \
        -type f -newer "$1" -print -quit 2>/dev/null)" ]
}

# take ROOM PROGRAM ENDING: moves what was built in the room to the crate's own folder. A source that was changed since the room was laid is
# newer than it.
take() {
    local file=$top/crates/$2/out/$2$3
    mkdir -p "${file%/*}"
    cp "$1/crates/$2/out/$2$3" "$file.$$"
    touch -r "$1/HANDLES" "$file.$$"
    mv "$file.$$" "$file"
}

# build PROGRAM: proves and builds the program of this crate, where it is not fresh.
build() {
    if is_fresh "$top/crates/$1/out/$1"; then return; fi
    "$top/bin/prove" "${1//_/-}"
}

# build_object PROGRAM: the same for its object file. Of a program that is kept there is none, so this proves the crate of the program itself
# again, with a comment in it that no other call has, over the crates below it as they are kept.
build_object() {
    local room
    build "$1" || return
    if is_fresh "$top/crates/$1/out/$1.o"; then return; fi
    seen=""
    crates_below "$1"
    room=$(mktemp -d "${TMPDIR:-/tmp}/${1//_/-}-object.XXXXXX")
    lay "$top" "$room" $seen
    printf '\n// %s\n' "$room" >>"$room/crates/$1/src/main.rt"
    if (cd "$room" && exec rt ci </dev/null >"$room/log" 2>&1); then
        take "$room" "$1" .o
    else
        cat "$room/log" >&2
        rm -rf "$room"
        return 1
    fi
    rm -rf "$room"
}
