# The changes that compare-with-git makes, one in a line. `one` and `two` are the ids of the first two commits, of which
# `main` is at the second, `tag` that of an annotated tag, and `null` has only zeros.

# changes: what both make in the same way, one after the other, and what both refuse.
changes() {
    cat <<ROWS
update refs/heads/new $one
update refs/heads/new $two $one
update refs/heads/new $one $one
update refs/heads/new $one $null
update refs/heads/fresh $one $null
update refs/heads/fresh $one
update refs/heads/deep/er/name $two
update refs/heads/a-b $two $one
update refs/heads/a $one
update refs/heads/bad..name $one
update refs/heads/bad.lock $one
update @ $one
update refs/tags/light $one
update refs/tags/annotated $one
update refs/tags/v1 $one
update refs/notes/other $one
update refs/stash $one
update refs/remotes/origin/topic $two
update refs/bisect/bad-$two $two
update ORIG_HEAD $two
update --deref refs/remotes/origin/HEAD $one $two
update --deref HEAD $one $two
update --deref HEAD $two $one
symbolic refs/tags/symbolic refs/tags/light
symbolic refs/heads/to-nothing refs/heads/nothing
update --deref refs/heads/to-nothing $one
symbolic HEAD refs/heads/unborn
update --deref HEAD $two $null
delete refs/heads/to-nothing
delete refs/heads/a0
delete refs/heads/a0
delete refs/heads/z/y/x/w/v $two
delete refs/heads/z/y/x/w/v $one
delete refs/tags/of-a-tag
delete refs/tags/v1 $two
delete refs/tags/v1 $one
delete refs/remotes/origin/HEAD
update refs/heads/a0 $two $null
ROWS
}

# after_packing: the same of references that git has packed meanwhile.
after_packing() {
    cat <<ROWS
update refs/heads/new $one $one
update refs/heads/new $one $two
update refs/heads/deep/er/name/below $one
update refs/tags/annotated $two $one
delete refs/heads/deep/er/name
delete refs/tags/symbolic
delete refs/tags/light $two
delete refs/tags/light $one
update --deref refs/remotes/origin/main $two
ROWS
}

# in_worktree ID: the same of the references of a linked worktree, by their names in the main one.
in_worktree() {
    cat <<ROWS
update worktrees/$1/refs/bisect/bad $one
update worktrees/$1/ORIG_HEAD $one
update --deref worktrees/$1/HEAD $one
update main-worktree/refs/bisect/good $one
update refs/heads/linked $two $one
symbolic worktrees/$1/HEAD refs/heads/unborn
ROWS
}

# folders: the same where only empty folders are left in the way.
folders() {
    cat <<ROWS
delete refs/heads/a/b
update refs/heads/a $one
update refs/heads/a0/below $one
delete refs/heads/a0
update refs/heads/a0 $two $null
update refs/tags/deep/er/name $one
delete refs/tags/deep/er/name
update refs/tags/deep $one
ROWS
}

# differences: FILES|MESSAGE|CHANGE, the changes that both make, but in another way, or of which one refuses: then just these
# files differ; `-` where none does. Each is below its reason. A `!` in front: git itself reads no reflogs then, since HEAD leads to
# nothing or a branch to no commit.
differences() {
    cat <<ROWS
# git adds a line to the log of HEAD also where its branch is changed by its own name
logs/HEAD|made|update refs/heads/main $one
!logs/HEAD|made|delete refs/heads/main
# git adds a line where a symbolic reference is made, if its target exists
logs/refs/heads/symbolic|made|symbolic refs/heads/symbolic refs/heads/main
logs/HEAD|made|symbolic HEAD refs/heads/a0
# git adds a line to the log of HEAD also where the branch is at the id already
logs/HEAD|made|update --deref HEAD $two
# git keeps the log of a symbolic reference whose branch is deleted, and adds a line to it
!logs/HEAD|made|delete --deref HEAD
# the old value of a symbolic reference is its target; git takes the object that it leads to
!logs/HEAD logs/refs/heads/main packed-refs|made|delete --deref HEAD $two
logs/refs/remotes/origin/HEAD refs/remotes/origin/HEAD|made|update refs/remotes/origin/HEAD $one $two
logs/refs/remotes/origin/HEAD refs/remotes/origin/HEAD|made|delete refs/remotes/origin/HEAD $two
logs/refs/remotes/origin/HEAD|made|update refs/remotes/origin/HEAD $one
# logs are made below refs/worktree too
logs/refs/worktree/own|made|update refs/worktree/own $one
# names in packed-refs are not in the way of others
refs/tags/v1/below|made|update refs/tags/v1/below $one
-|made|delete refs/heads/a0/below
# a deletion that expects that there is no reference is refused; git deletes whatever is there
logs/refs/heads/a0 packed-refs|made|delete refs/heads/a0 $null
# an update that expects that there is no reference also accepts one at the new id
-|made|update refs/heads/a0 $one $null
# the null id is written as any other; git deletes the reference
!logs/refs/heads/a0 packed-refs refs/heads/a0|made|update refs/heads/a0 $null
# a message is written as it is, also where it is empty, and refused with a line break; git joins blanks and refuses an empty one
logs/refs/heads/a0|two  blanks|update refs/heads/a0 $two
logs/refs/heads/a0 refs/heads/a0|two\nlines|update refs/heads/a0 $two
logs/refs/heads/a0 refs/heads/a0||update refs/heads/a0 $two
# objects are not looked at
!logs/refs/heads/missing refs/heads/missing|made|update refs/heads/missing ${one//[0-9a-f]/1}
!logs/refs/heads/tag refs/heads/tag|made|update refs/heads/tag $tag
# a name outside of refs/ has a category; others are refused
foo/bar|made|update foo/bar $one
main|made|update main $one
ROWS
}

# last_record: the same, where one record is in packed-refs.
last_record() {
    cat <<ROWS
# packed-refs is removed with its last record; git keeps its header
packed-refs|made|delete refs/tags/v1
ROWS
}
