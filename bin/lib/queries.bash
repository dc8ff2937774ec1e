# The reading commands that compare-with-git compares.

# asked WORD..: one command of git and of `refs-session`, in `repository`: what each prints and its status.
asked() {
    { git -C "$repository" -c core.abbrev=no "$@" 2>/dev/null; echo "status $?"; } >>"$work/wanted"
    { "$session" "$repository/.git" $option "$@" 2>/dev/null; echo "status $?"; } >>"$work/listed"
}

# add_short_names: names that are short for several references.
add_short_names() {
    local name
    for name in refs/heads/x refs/tags/x refs/heads/y refs/remotes/y refs/tags/z refs/heads/tags/z refs/heads/heads/w refs/heads/w \
        refs/u refs/heads/u refs/remotes/v/HEAD refs/heads/v refs/remotes/origin/main refs/notes/n refs/heads/HEAD refs/tags/heads/x; do
        git -C "$repository" update-ref "$name" main~1
    done
    git -C "$repository" symbolic-ref refs/remotes/origin/HEAD refs/remotes/origin/main
    git -C "$repository" symbolic-ref refs/heads/to-x refs/heads/x
    git -C "$repository" symbolic-ref refs/heads/to-y refs/heads/y
    git -C "$repository" symbolic-ref refs/heads/to-nothing refs/heads/nothing
}

# reading: commands that read, over loose references and over packed ones.
reading() {
    local name pattern
    for name in HEAD refs/heads/s refs/heads/to-x refs/heads/to-y refs/heads/to-nothing refs/remotes/origin/HEAD refs/heads/main refs/none; do
        asked symbolic-ref "$name"
        asked symbolic-ref --short "$name"
        asked show-ref --verify "$name"
        asked reflog exists "$name"
    done
    for pattern in refs refs/heads refs/heads/ 'refs/heads/*' 'refs/*/x' 'refs/tags/?' refs/heads/main refs/none; do
        asked for-each-ref --format='%(objectname) %(refname) %(refname:short) %(symref)' "$pattern"
        asked for-each-ref --sort=-refname --count=3 --format='%(refname:short)%09%(refname)%%' "$pattern"
    done
    for name in HEAD refs/heads/main refs/heads/a; do
        asked reflog show "$name"
        asked reflog show -n 1 "$name"
    done
}

# query_both: what is asked of both, and compared.
query_both() {
    : >"$work/wanted"
    : >"$work/listed"
    add_short_names
    reading
    git -C "$repository" pack-refs --all
    reading
    same "$format, reading commands" "$work/wanted" "$work/listed" "lines of git"
}
