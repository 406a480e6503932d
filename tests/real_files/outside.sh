# What the system denies, and in which order a change uses the disk.
# A part of real_files.sh, which has what it calls, and runs it in a folder of its own.

# Another user than root: a file that was left behind and may not be written is not in the way. A permission that is
# denied, to write in the folder where a file is replaced, or to write or to read the file, is a fault.
mkdir own
cp quota.user own/q
: >own/q.new
chmod 400 own/q.new
if [ "$(id -u)" = 0 ]; then chown -R 65534:65534 own; fi
runner=("${somebody[@]}")
expect 'a file left behind that may not be written' 0 '' '' quotacheck -F vfsold own/q <<<'1 0 1 1 8'
expect 'a first change in place' 0 '' '' setquota -F vfsold -u 2 1 1 0 0 own/q
cp own/q changed
chmod 555 own
expect 'a folder that may not be written' 4 '' 'quota: store fault' quotacheck -F vfsold own/q <<<'2 0 1 1 8'
same 'the file in that folder' "$(cmp own/q changed && echo same)" same
expect 'a change in place in that folder, with an undo file' 0 '' '' setquota -F vfsold -u 2 3 3 0 0 own/q
chmod 755 own
cp own/q changed
chmod 444 own/q
expect 'a file that may not be written' 4 '' 'quota: store fault' setquota -F vfsold -u 3 1 1 0 0 own/q
same 'that file' "$(cmp own/q changed && echo same)" same
chmod 0 own/q
expect 'a file that may not be read' 4 '' 'quota: store fault' repquota -F vfsold -u -v own/q

# order FILE: in which order the replacement of a file makes, writes, syncs and renames files, and with which mode it makes one.
# Several writes in a row of one file count as one.
order() {
    strace -y -o trace.txt "$folder/program" quotacheck -F vfsold "$1" <<<'50 0 1 1 8'
    sed -n -E \
        -e 's/^open[^"]*"([^"]*)".*O_CREAT.*, (0[0-7]*)\) += [0-9].*/make \1 with mode \2/p' \
        -e 's/^p?write[^<]*<([^>]*)>.*/write \1/p' \
        -e 's/^f(data)?sync\([0-9]+<([^>]*)>\) += 0$/sync \2/p' \
        -e 's/^rename[^"]*"([^"]*)"[^"]*"([^"]*)".* = 0$/rename \1 to \2/p' trace.txt |
        sed -e "s|$(pwd -P)/||" -e "s|$(pwd -P)|.|" | uniq
}

# The old file is waited for before it is read. The new file and its name are safe on the disk before it gets the name of the
# old one, and the folder is once more after that.
if strace -o trace.txt true 2>err.txt; then
    : >q
    rm -f q.undo
    mkdir below
    : >below/q
    same 'the order of a replacement' "$(order q)" 'sync q
make q.new with mode 0600
write q.new
sync q.new
sync .
rename q.new to q
sync .'
    same 'the order of a replacement in another folder' "$(order below/q)" 'sync below/q
make below/q.new with mode 0600
write below/q.new
sync below/q.new
sync below
rename below/q.new to below/q
sync below'
else
    echo 'real_files: strace is not there or may not trace: neither the order of syncs nor the mode of a new file is shown' >&2
fi
