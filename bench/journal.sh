#!/usr/bin/env bash
# Measures, in one run, what the journal of a change in place costs, in the tree file of the users 0 to 999,999: for one change
# of a known user, of a new one and of one whose record goes, the calls of the system, the syncs and the writes with their
# bytes. They stand beside those of SQLite's rollback journal (synchronous=FULL, pages of 1,024 bytes) for a change of as many
# pages, with journal_mode=DELETE and PERSIST. Then come the first change of a file ever, what a line of `setquota -b` of 1,000
# lines costs, and, beside one report of the user 7, the same with a recovery before it.
#
# At last comes the time of such changes of a file of 20,000 users, with the start of the program: the best and the middle one
# of `rounds`. It stands beside those of SQLite of 20,000 rows in turn (in a running Python, a connection for each change).
# Then comes what a line of `setquota -b` of 1,000 lines for them costs that are made in place, since a file has the name of a
# new one. It stands beside one of 1,000 changes of a row over one connection, in turn.
large=tree
. "$(dirname "${BASH_SOURCE[0]}")/measure.sh"
rounds=${rounds:-15}

# The file that is changed, the user whom the next change of each kind meets, and how far it is from there to the one behind.
file=q
declare -A user=([known]=7007 [new]=33554432 [leaving]=42000)
declare -A step=([known]=7007 [new]=16777216 [leaving]=42000)

# next KIND: puts the words of the next change of a kind into `change`.
next() {
    local limits=(100 200 10 20)
    if [ "$1" = leaving ]; then limits=(0 0 0 0); fi
    change=("$program" setquota -u "${user[$1]}" "${limits[@]}" "$file")
    user[$1]=$((user[$1] + step[$1]))
}

# blocks: in how many blocks of 1,024 bytes `q` is not what `was` was, with those that are new.
blocks() {
    { cmp -l was q || true; } 2>/dev/null | awk '{ print int(($1 - 1) / 1024) }' | uniq | wc -l | awk \
        -v new="$((($(stat -c %s q) - $(stat -c %s was)) / 1024))" '{ print $1 + new }'
}

# counts: what a trace has: all its calls, those that sync, those that write, and their bytes.
counts() {
    awk '/^[0-9 ]*[a-z_0-9]+\(/ { all++ } / = -1 / { next } /f(data)?sync\(/ { syncs++ }
        /write(v|64)?\(/ { writes++; bytes += $NF }
        END { printf "%d calls, %d syncs, %d writes, %d bytes\n", all, syncs, writes, bytes }' "$1"
}

# Changes of given numbers of pages, one in each of the modes that follow, each with its milliseconds on a line.
cat >sqlite.py <<'PY'
import os, sqlite3, sys, time

def connected(mode):
    base = sqlite3.connect(f"{mode}.db", isolation_level=None)
    base.execute(f"pragma journal_mode={mode}")
    base.execute("pragma synchronous=FULL")
    return base

def make(mode):
    base = sqlite3.connect(f"{mode}.db", isolation_level=None)
    base.execute("pragma page_size=1024")
    base.execute("create table record(id integer primary key, bytes blob)")
    base.execute("begin")
    for number in range(20000):
        base.execute("insert into record values(?, ?)", (number, bytes(900)))
    base.execute("commit")
    base.close()

def change(mode, pages):
    base = connected(mode)
    base.execute("begin")
    for page in range(pages):
        place = (os.getpid() * 31 + page * 977) % 20000
        base.execute("update record set bytes = ? where id = ?", (os.urandom(900), place))
    base.execute("commit")
    base.close()

pages, modes = int(sys.argv[1]), sys.argv[2:]
for mode in modes:
    if not os.path.exists(f"{mode}.db"):
        make(mode)
        change(mode, 1)
    begun = time.time()
    change(mode, pages)
    print(mode, (time.time() - begun) * 1000)
PY

# middle WHAT: of the milliseconds of lines of this first word, the least and the middle one.
middle() {
    grep "^$1 " times | sort -k 2 -n | awk '{ all[NR] = $2 } END { printf "at best %.3f ms, the middle one %.3f", all[1], all[int((NR + 1) / 2)] }'
}

# The pages that a change of each kind changed.
declare -A pages=()

# change_beside KIND: the calls of a change of a kind beside those of SQLite.
change_beside() {
    local mode
    cp q was
    next "$1"
    strace -f -o trace "${change[@]}" >/dev/null
    pages[$1]=$(blocks)
    rm was
    echo "setquota for a $1 user, ${pages[$1]} blocks: $(counts trace)"
    for mode in DELETE PERSIST; do
        strace -f -P "$folder/$mode.db" -P "$folder/$mode.db-journal" -P "$folder" -o trace \
            python3 sqlite.py "${pages[$1]}" "$mode" >/dev/null
        echo "SQLite, $mode: $(counts trace)"
    done
}

# times_beside KIND: the times of changes of a kind beside those of SQLite.
times_beside() {
    : >times
    for _ in $(seq "$rounds"); do
        next "$1"
        echo "ours $(time_of "${change[@]}" | awk '{ print $1 * 1000 }')" >>times
        python3 sqlite.py "${pages[$1]}" DELETE PERSIST >>times
    done
    echo "for a $1 user: $(middle ours); SQLite, DELETE: $(middle DELETE); PERSIST: $(middle PERSIST)"
}

python3 sqlite.py 1 DELETE PERSIST >/dev/null
"$program" setquota -u 7 100 200 10 20 q
for kind in known new leaving; do change_beside "$kind"; done

rm q.undo
next known
strace -f -o trace "${change[@]}" >/dev/null
echo "the first change of a file ever: $(counts trace)"

seq 0 80 79920 | awk '{ print $1, 100, 200, 10, 20 }' >given
strace -f -o trace "$program" setquota -u -b --input given q >/dev/null
echo "setquota -b of 1,000 lines for known users: $(counts trace)"

# A change that is killed where its new bytes are to be written, behind an open gate, leaves what the next command recovers.
recovered=999999
plain=999999
for _ in 1 2 3 4 5; do
    plain=$(least "$plain" "$(time_of "$program" edquota --print -u 7 q)")
    for at in $(seq 3 12); do
        next known
        strace -f -o trace -e trace=pwrite64,write -e "inject=pwrite64:signal=KILL:when=$at" "${change[@]}" >/dev/null 2>&1 || true
        if [ "$(head -c 1 q.undo | od -A n -t u1 | tr -d ' ')" = 1 ]; then break; fi
    done
    if [ "$(head -c 1 q.undo | od -A n -t u1 | tr -d ' ')" != 1 ]; then echo 'no gate is open' >&2; fi
    recovered=$(least "$recovered" "$(time_of "$program" edquota --print -u 7 q)")
done
echo "one look-up with a recovery before it: $recovered s, without: $plain s, ratio $(ratio "$recovered" "$plain")"

seq 0 19999 | awk '{ print $1, 100, 1, $1, 8 }' >owners
"$program" quotacheck -c -u --input owners s
seq 100000 100039 | awk '{ print $1, 100, 200, 10, 20 }' | "$program" setquota -u -b s
file=s
user=([known]=7 [new]=33554432 [leaving]=100000)
step=([known]=101 [new]=16777216 [leaving]=1)
echo "a file of 20,000 users beside 20,000 rows:"
for kind in known new leaving; do times_beside "$kind"; done

# Runs the words, a batch of 1,000 lines, and 1,000 changes of one row each in turn, and tells their milliseconds a line.
cat >lines.py <<'PY'
import os, sqlite3, subprocess, sys, time
base = sqlite3.connect("PERSIST.db", isolation_level=None)
base.execute("pragma journal_mode=PERSIST")
base.execute("pragma synchronous=FULL")
with open("given", "rb") as it:
    given = it.read()
ours, theirs = [], []
for turn in range(7):
    begun = time.time()
    subprocess.run(sys.argv[1:], input=given, check=True)
    ours.append(time.time() - begun)
    begun = time.time()
    for number in range(1000):
        base.execute("update record set bytes = ? where id = ?", (os.urandom(900), (number * 20 + turn) % 20000))
    theirs.append(time.time() - begun)
best, middle = min(ours) / min(theirs), sorted(ours)[3] / sorted(theirs)[3]
print(f"ours: {min(ours):.3f} to {max(ours):.3f} ms; PERSIST: {min(theirs):.3f} to {max(theirs):.3f}", end="; ")
print(f"ratio of the best {best:.2f}, of the middle ones {middle:.2f}")
PY
seq 0 20 19980 | awk '{ print $1, 100, 200 + $1, 10, 20 }' >given
: >s.new
echo "a line of 1,000 lines: $(python3 lines.py "$program" setquota -u -b s)"
