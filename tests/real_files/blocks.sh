# Tree files that state as many blocks as there may be, and one more. (bench/full.sh fills one.)
# A part of real_files.sh, which has what it calls, and runs it in a folder of its own.

# stating NUMBER: q has a header of so many blocks and nothing else. The number is given as its four bytes for printf.
stating() {
    head -c 20 empty
    # shellcheck disable=SC2059
    printf "$1"
    tail -c +25 empty
} >q

# 4,194,304 blocks and 1,048,577 are looked at: the file ends before they do.
for number in '\0\0\100\0' '\1\0\20\0'; do
    stating "$number"
    same "the size of a header of the blocks $number" "$(stat -c %s q)" 32
    expect "a header of the blocks $number alone" 3 '' 'quota: q: damaged: Short at block 0' repquota -u q
    expect "an edit of a header of the blocks $number" 3 '' 'quota: q: damaged: Short at block 0' setquota -u 1 1 2 3 4 q
done

# Where it does not end before, 4,194,302 of them have no role; the last one is at 4,294,966,272.
stating '\0\0\100\0'
truncate -s 4294966272 q
expect 'a file that lacks its last block' 3 '' 'quota: q: damaged: Short at block 4194303' repquota -u q
truncate -s 4294967296 q
got=0
"$run" repquota -u q >out.txt 2>err.txt || got=$?
same 'a file of 4,194,304 blocks' "$got $(cat out.txt)$(sed 's/[0-9]*$/N/' err.txt)" '3 quota: q: damaged: NoRole at block N'
same 'the block that is named' "$(sed 's/.* //' err.txt | awk '{ print ($1 >= 2 && $1 < 4194304) }')" 1

# One block more is too large, whatever the length of the file.
for size in 32 4294967296 4294968320; do
    stating '\1\0\100\0'
    truncate -s "$size" q
    expect "a header of 4,194,305 blocks in $size bytes" 1 '' 'quota: q: too large' repquota -u q
done
rm -f q q.*
