#!/usr/bin/env bash
# Measures changes beside those of the `setquota` of the quota tools, where that is installed and a file system may be mounted.
# They are one of a known user, of a new one and of one whose record goes, in the tree file of the users 0 to 999,999 and in a
# full flat file; and `setquota -b` of 1,000 lines for known users, which are made in place one after another (edits.sh has
# more lines, which are made together). Both work on a file system of ext4 in a file, which is mounted for it with quotas off,
# in turn: the best of five times each, a batch once. The tool checks and syncs nothing.
large=tree
. "$(dirname "${BASH_SOURCE[0]}")/measure.sh"

mount_image
if [ -z "$mounted" ]; then exit; fi

# The user whom the next change of each kind meets, and how far it is from there to the one behind.
declare -A user=() step=([known]=7007 [new]=16777216 [leaving]=42000)

# next KIND: puts the user and the limits of the next change of a kind into `words`.
next() {
    local limits=(100 200 10 20)
    if [ "$1" = leaving ]; then limits=(0 0 0 0); fi
    words=("${user[$1]}" "${limits[@]}")
    user[$1]=$((user[$1] + step[$1]))
}

# changes FORMAT NAME KIND..: changes of these kinds, and a batch, in the file of this name.
changes() {
    local format=$1 name=$2 kind ours theirs
    user=([known]=7007 [new]=33554432 [leaving]=42000)
    mv q "$mounted/$name"
    for kind in "${@:3}"; do
        ours=999999 theirs=999999
        for _ in 1 2 3 4 5; do
            next "$kind"
            ours=$(least "$ours" "$(time_of "$program" setquota -F "$format" -u "${words[@]}" "$mounted/$name")")
            next "$kind"
            theirs=$(least "$theirs" "$(time_of setquota -F "$format" -u "${words[@]}" "$mounted")")
        done
        echo "a $kind user in a file of $format: $ours s, the tool: $theirs s"
    done
    seq 0 80 79920 | awk '{ print $1, 100, 200, 10, 20 }' >given
    ours=$(time_of "$program" setquota -F "$format" -u -b "$mounted/$name" <given)
    theirs=$(time_of setquota -F "$format" -u -b "$mounted" <given)
    echo "1,000 lines for known users in a file of $format: $ours s, the tool: $theirs s"
    rm "$mounted/$name"
}

changes vfsv1 aquota.user known new leaving
large=flat
make_file
changes vfsold quota.user known leaving
