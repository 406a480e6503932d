# Quota files of each kind that e2fsprogs makes in an image of ext4, and reads once they were changed here.
# A part of real_files.sh, which has what it calls, and runs it in a folder of its own.

# e2 WORD..: runs a program of e2fsprogs, which may stand where only root looks for programs.
e2() { PATH=$PATH:/usr/sbin:/sbin "$@" 2>/dev/null; }

# counted LETTER FILE: the lines of a report as words: the identifier, and of space in KiB and of inodes what is used,
# the soft limit and the hard one.
counted() {
    "$run" repquota "$1" -v -n "$2" | awk 'NR > 4 { print substr($1, 2), $3, $4, $5, $7, $8, $9 }'
}

# listed KIND: the same as debugfs reads it in the image, where it tells the space in bytes, and in the order of the tree's blocks.
listed() {
    e2 debugfs -R "list_quota $1" image |
        awk 'NR > 1 { print $1, int(($2 + 1023) / 1024), $3, $4, $5, $6, $7 }' | sort -n
}

# hidden KIND: the number of the inode of the image that has the quota file of a kind.
hidden() { e2 dumpe2fs -h image | sed -n "s/^${1^} quota inode: *//p"; }

# put_back FILE INODE: writes a file over the blocks of an inode in the image, which has as many.
put_back() {
    local at=0 block
    for block in $(e2 debugfs -R "blocks <$2>" image); do
        dd if="$1" of=image bs=1024 skip="$at" seek="$block" count=1 conv=notrunc status=none
        at=$((at + 1))
    done
    same "the length of what is put back of $1" "$(stat -c %s "$1")" "$((at * 1024))"
}

# checked OPTION: the status of e2fsck with this option.
checked() {
    local got=0
    e2 e2fsck "$1" image >checked.txt || got=$?
    echo "$got"
}

# found NAME WORD: the line of a listing for what has a name in the image. Its second word is what stands behind the
# word `Group` or `Project` in what debugfs says of it.
found() {
    e2 debugfs -R "stat $1" image | tr -s ' \n' ' ' | awk -v second="$2:" '
        { for (at = 1; at < NF; at++) if (!($at in word)) word[$at] = $(at + 1) }
        END { print word["User:"], word[second], 1, word["Inode:"], word["Blockcount:"] }'
}

quotas=usrquota:grpquota:prjquota
if e2 mke2fs -q -t ext4 -b 1024 -O quota,project -E quotatype=$quotas image 16M >made.txt &&
    [ -n "$(hidden project)" ]; then
    head -c 5000 /dev/zero | tr '\0' a >five
    head -c 20000 /dev/zero | tr '\0' b >twenty
    : >nothing
    cat >filling <<'END'
mkdir /below
write five /below/one
sif /below/one uid 1000
sif /below/one gid 100
sif /below/one projid 7
write twenty /below/two
sif /below/two uid 1001
sif /below/two gid 100
sif /below/two projid 7
write nothing /below/three
sif /below/three uid 1000
sif /below/three gid 200
sif /below/three projid 8
sif /below uid 1000
sif /below gid 100
sif /below projid 9
END
    e2 debugfs -w -f filling image >filled.txt
    same 'e2fsck sets the usage in the image' "$(checked -fy)" 1
    same 'and it finds nothing more' "$(checked -fn)" 0

    # What e2fsck counts is what a listing of the same files tells.
    names='/ /lost+found /below /below/one /below/two /below/three'
    for row in 'user -u Group' 'group -g Group' 'project -P Project'; do
        read -r kind letter second <<<"$row"
        e2 debugfs -R "dump <$(hidden "$kind")> $kind" image
        same "the usage by $kind in the image" "$(counted "$letter" "$kind")" "$(listed "$kind")"
        for name in $names; do found "$name" "$second"; done >listing
        expect "a listing of the image by $kind" 0 '' '' quotacheck "$letter" -c --input listing made
        same "its usage by $kind" "$(counted "$letter" made)" "$(counted "$letter" "$kind")"
    done
    same 'two files of project 7' "$(counted -P project | sed -n '/^7 /p')" '7 25 0 0 2 0 0'
    same 'an empty file of project 8, and the folder of project 9' "$(counted -P project | sed -n '/^[89] /p')" \
        '8 0 0 0 1 0 0
9 1 0 0 1 0 0'
    expect 'the projects of the image as groups' 3 '' 'quota: project: wrong kind' repquota -g project
    expect 'the groups of the image as projects' 3 '' 'quota: group: wrong kind' repquota -P group

    # Limits that are set here are those that debugfs reads in the image, and e2fsck leaves them.
    for row in 'user -u 1000 1002' 'group -g 100 101' 'project -P 7 10'; do
        read -r kind letter old new <<<"$row"
        expect "limits by $kind" 0 '' '' setquota "$letter" "$old" 20 400 10 20 "$kind"
        expect "limits of one more by $kind" 0 '' '' setquota "$letter" -b "$kind" <<<"$new 1 2 3 4"
        expect "periods by $kind" 0 '' '' setquota "$letter" -t 86400 3600 "$kind"
        put_back "$kind" "$(hidden "$kind")"
        same "the limits by $kind in the image" "$(listed "$kind")" "$(counted "$letter" "$kind")"
        same "those of $old by $kind" \
            "$(listed "$kind" | awk -v id="$old" '$1 == id { print $3, $4, $6, $7 }')" '20 400 10 20'
        same "those of $new by $kind" "$(listed "$kind" | sed -n "/^$new /p")" "$new 0 1 2 0 3 4"
        e2 debugfs -R "dump <$(hidden "$kind")> again" image
        same "the file by $kind is the one that was put back" "$(cmp "$kind" again && echo same)" same
    done
    same 'e2fsck leaves what was put back' "$(checked -fn)" 0

    # A usage that is not that of the image is found by e2fsck, which sets it anew, and keeps the limits.
    cp project want
    expect 'another usage of project 7' 0 '' '' quotacheck -P project <<<'0 7 1 1 2000'
    same 'its usage and limits' "$(counted -P project)" '7 1000 20 400 1 10 20
10 0 1 2 0 3 4'
    put_back project "$(hidden project)"
    same 'the usage of project 7 in the image' "$(listed project)" "$(counted -P project)"
    same 'e2fsck finds it' "$(checked -fn)" 4
    same 'e2fsck sets it anew' "$(checked -fy)" 1
    e2 debugfs -R "dump <$(hidden project)> again" image
    same 'the usage is that of before' "$(counted -P again)" "$(counted -P want)"

    # The files of the image are converted as any others.
    expect 'the projects of the image in vfsv0' 0 '' '' convertquota -P -f vfsv1,vfsv0 again older
    same 'their report' "$(counted -P older)" "$(counted -P again)"
else
    echo 'real_files: e2fsprogs is not there, or makes no project quotas: no file of another maker is read' >&2
fi
