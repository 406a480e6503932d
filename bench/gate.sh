#!/usr/bin/env bash
# Runs the merge gate from nothing, and prints for each crate, for its tests and for its wrong bodies how many processor
# seconds the prover took, how many seconds it ran and the most memory that it held, most first, and behind them the wall
# time and the processor time of all. Then, for each crate, its lines and its functions and the memory that the gate plans
# before it starts it: where these plans do not fit beside each other, crates wait for each other. Provers that something
# else started are not counted, but they slow the gate down.
# usage: bench/gate.sh [LOG]           what the gate says goes to LOG (gate.log in the temporary folder)
#        bench/gate.sh --write [LOG]   besides, what it took and what it plans is written into docs/GATE.md
#        bench/gate.sh --plans         runs nothing, and writes what the gate plans into docs/GATE.md
set -u
top=$(cd "$(dirname "${BASH_SOURCE[0]}")/.." && pwd) || exit 1
cd "$top" || exit 1
mode=print
case "${1-}" in
--write | --plans)
    mode=${1#--}
    shift
    ;;
esac
exec python3 - "$mode" "${1:-${TMPDIR:-/tmp}/gate.log}" <<'PY'
import collections, datetime, glob, os, re, resource, subprocess, sys, time

TICK = os.sysconf("SC_CLK_TCK")
PAGE = os.sysconf("SC_PAGE_SIZE")


def text_of(path):
    try:
        with open(path, errors="replace") as it:
            return it.read()
    except OSError:
        return ""


def numbers_of(folder):
    """What the system tells of a process behind its name: its state, its parent, and then numbers."""
    return text_of(f"{folder}/stat").rpartition(")")[2].split()


def is_below(folder, gate):
    """Whether the gate started a process, or one that it started did."""
    while folder != f"/proc/{gate}":
        numbers = numbers_of(folder)
        if len(numbers) < 2 or int(numbers[1]) < 2:
            return False
        folder = f"/proc/{numbers[1]}"
    return True


def look(seen, gate):
    """Notes the processor time, the memory and the moments of each prover of the gate that runs."""
    for folder in glob.glob("/proc/[0-9]*"):
        words = text_of(f"{folder}/cmdline").split("\0")
        if not words[0].endswith("/rattle") or "--crate-name" not in words or not is_below(folder, gate):
            continue
        try:
            numbers = numbers_of(folder)
            held = int(text_of(f"{folder}/statm").split()[1]) * PAGE
            place = os.readlink(f"{folder}/cwd")
        except (OSError, IndexError, ValueError):
            continue
        crate = words[words.index("--crate-name") + 1]
        part = "wrong bodies" if "rt-edit" in place else "tests" if "--test" in words else "proof"
        spent = (int(numbers[11]) + int(numbers[12])) / TICK
        now = time.time()
        known = seen.get(folder, (0, 0, crate, part, now, now))
        # (a number of a process may be given again)
        if spent < known[0] or (crate, part) != known[2:4]:
            seen[f"{folder} {now}"] = known
            known = (0, 0, crate, part, now, now)
        seen[folder] = (spent, max(held, known[1]), crate, part, known[4], now)


def lines_of(crate, ending):
    found = [f"{at}/{name}" for part in ("src", "specs", "proofs") for at, _, names in os.walk(f"crates/{crate}/{part}") for name in names]
    return [text_of(it) for it in found if it.endswith(ending)]


def plans():
    """The memory that the gate plans for each crate: a part for the libraries, and by the lines of its sources, of its proofs and of the crates below it."""
    below = {}
    for line in text_of("crates.txt").splitlines():
        name, colon, rest = line.split("#")[0].partition(":")
        if colon:
            below[name.split()[0]] = rest.split()
    source = {it: sum(text.count("\n") for text in lines_of(it, ".rt")) for it in below}

    def under(crate):
        direct = [it for it in below[crate] if it in below]
        return set(direct).union(*[under(it) for it in direct])

    for crate in below:
        proofs = sum(text.count("\n") for text in lines_of(crate, ".antt"))
        functions = sum(len(re.findall(r"^\s*(?:pub(?:\([a-z]+\))? )?(?:const )?fn \w", text, re.M)) for text in lines_of(crate, ".rt"))
        bodies = [len(glob.glob(f"crates/{crate}/{folder}/*.edit")) for folder in ("must-fail", "wrong-bodies")]
        memory = 1e9 + 1e6 * source[crate] + 2e5 * proofs + 8e4 * sum(source[it] for it in under(crate))
        yield crate, source[crate], functions, proofs, bodies, memory


DOCUMENT = "docs/GATE.md"


def around(name):
    """The text of the document up to the lines between the two comments of this name, and from these lines on."""
    begin, end = f"<!-- {name}: written by bench/gate.sh -->\n", f"<!-- end of {name} -->\n"
    front, found, rest = text_of(DOCUMENT).partition(begin)
    _, closed, back = rest.partition(end)
    if not found or not closed:
        sys.exit(f"gate.sh: {DOCUMENT} has no place for {name}")
    return front + begin, end + back


def write_between(name, lines):
    """Writes lines into the document, in place of those between the two comments of this name."""
    front, back = around(name)
    with open(DOCUMENT, "w") as out:
        out.write(front + "".join(f"{line}\n" for line in lines) + back)


def write_plans():
    """Writes the table of what the gate plans, the crates with the greatest plans first."""
    rows = ["| Crate | lines of source | of specifications and proofs | functions | wrong bodies of each gate, and further ones | GB planned |", "|---|---|---|---|---|---|"]
    for crate, source, functions, proofs, (gated, further), memory in sorted(plans(), key=lambda row: (-round(row[5] / 1e9, 1), row[0])):
        rows.append(f"| `{crate}` | {source} | {proofs} | {functions} | {gated}, {further} | {memory / 1e9:.1f} |")
    write_between("plans", rows)


def sources():
    """The commit of the sources, where it is known."""
    return subprocess.run(["git", "rev-parse", "--short=12", "HEAD"], capture_output=True, text=True).stdout.strip() or "unknown"


mode, log = sys.argv[1:3]
if mode == "plans":
    write_plans()
    sys.exit(0)
# (before anything runs, since the gate takes long)
if mode == "write":
    around("measured")
    around("plans")
knows = subprocess.run(["rt", "help"], capture_output=True, text=True)
words = ["rt", "ci", "--anew"] if "--anew" in knows.stdout + knows.stderr else ["rt", "ci"]
seen, start = {}, time.time()
with open(log, "w") as out:
    gate = subprocess.Popen(words, stdout=out, stderr=subprocess.STDOUT)
    while gate.poll() is None:
        look(seen, gate.pid)
        time.sleep(0.5)
wall = time.time() - start
spent, ran, held = collections.Counter(), collections.Counter(), collections.Counter()
for seconds, most, crate, part, first, last in seen.values():
    spent[crate, part] += seconds
    ran[crate, part] += last - first
    held[crate, part] = max(held[crate, part], most)
print(f"{'crate':18} {'part':14} {'processor s':>11} {'wall s':>7} {'GB held':>8}")
for (crate, part), seconds in spent.most_common():
    print(f"{crate:18} {part:14} {seconds:11.0f} {ran[crate, part]:7.0f} {held[crate, part] / 1e9:8.1f}")
used = resource.getrusage(resource.RUSAGE_CHILDREN)
print(f"wall {wall / 60:.1f} min, processor {(used.ru_utime + used.ru_stime) / 60:.1f} min, of which proofs, tests and wrong bodies:", end="")
for part in ("proof", "tests", "wrong bodies"):
    print(f" {sum(s for (_, p), s in spent.items() if p == part) / 60:.1f}", end="")
print(f"\n{text_of(log).strip().splitlines()[-1] if text_of(log).strip() else 'the gate said nothing'} (the whole log: {log})")
print(f"\n{'crate':18} {'lines':>6} {'functions':>9} {'proofs':>7} {'bodies':>6} {'GB planned':>10}")
for crate, source, functions, proofs, (gated, further), memory in plans():
    print(f"{crate:18} {source:6} {functions:9} {proofs:7} {gated:6} {memory / 1e9:10.1f}")
if mode == "write":
    parts = {part: sum(s for (_, p), s in spent.items() if p == part) / 60 for part in ("proof", "tests", "wrong bodies")}
    names = {"proof": "proof of", "tests": "tests of", "wrong bodies": "wrong bodies of"}
    most = [f"{names[part]} `{crate}` {seconds:.0f}" for (crate, part), seconds in spent.most_common(8)]
    write_between("measured", [
        f"- Day: {datetime.date.today()}, sources {sources()}",
        f"- Wall time: {wall / 60:.0f} minutes, on {os.cpu_count()} processors",
        f"- Processor time: {(used.ru_utime + used.ru_stime) / 60:.0f} minutes, of which {parts['proof']:.0f} for proofs, "
        f"{parts['tests']:.0f} for tests and {parts['wrong bodies']:.0f} for wrong bodies",
        f"- Most of it, in processor seconds: {', '.join(most)}",
        f"- Most memory that a prover held: {max(held.values(), default=0) / 1e9:.1f} GB",
    ])
    write_plans()
sys.exit(gate.returncode)
PY
