# The sessions that compare-with-git compares: it gives random sessions to `git update-ref --stdin` and to `refs-session`, each over a copy of
# one repository, and compares the answers, the status, all files of both git folders but objects, byte by byte, and whether a lock was
# left; then `git fsck` reads what `refs-session` wrote. After the sessions of a format it gives both the same reading commands, and
# compares what they print. A session that differs otherwise than docs/DIFFERENCES.md says is printed.

# sessions COUNT SEED: so many random sessions of each format.
sessions() {
    local repository
    if ! command -v python3 >/dev/null; then
        echo "$script: python3 is not installed, so no sessions are compared"
        return
    fi
    export GIT_COMMITTER_DATE='1234567890 +0130'
    for format in sha1 sha256; do
        repository=$work/$format
        make "$format" "$repository" || continue
        commit "$repository" first
        commit "$repository" second
        commit "$repository" third
        git -C "$repository" branch a main~1
        git -C "$repository" branch d/e main~2
        git -C "$repository" tag t main~1
        git -C "$repository" symbolic-ref refs/heads/s refs/heads/a
        python3 "$top/bin/lib/sessions.py" "$session" "$repository" "$format" "$1" "$2" || failed=1
        option=$(option_of "$format")
        query_both
    done
}
