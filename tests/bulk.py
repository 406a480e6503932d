"""Tries many cases in several processes, and prints what they came to. Each case is made by numbers that its own number
gives, so it can be made again by that alone (splitmix64)."""
import collections
import multiprocessing
import sys
import time

RECURRENCE = """x begins as (SEED + 15,111,065,706,836,454,741 CASE) mod 2^64; for each draw x becomes
(x + 11,400,714,819,323,198,485) mod 2^64, and the draw is z2 xor z2 / 2^31 of
z1 = (x xor x / 2^30) 13,787,848,793,156,543,929 mod 2^64, z2 = (z1 xor z1 / 2^27) 10,723,151,780,598,845,931 mod 2^64"""
ALL = 2**64


class Draws:
    """The numbers of a case, one after another."""

    def __init__(self, seed, case):
        self.x = (seed + case * 15_111_065_706_836_454_741) % ALL

    def number(self):
        """The next one, below 2^64."""
        self.x = (self.x + 11_400_714_819_323_198_485) % ALL
        z = (self.x ^ self.x >> 30) * 13_787_848_793_156_543_929 % ALL
        z = (z ^ z >> 27) * 10_723_151_780_598_845_931 % ALL
        return z ^ z >> 31

    def below(self, end):
        """A number below this one."""
        return self.number() * end >> 64

    def once_in(self, number):
        """Whether it is the one time out of so many."""
        return self.below(number) == 0

    def of(self, those):
        """One of a list."""
        return those[self.below(len(those))]

    def shuffle(self, those):
        for at in range(len(those) - 1, 0, -1):
            other = self.below(at + 1)
            those[at], those[other] = those[other], those[at]

    def bytes(self, count):
        """So many bytes."""
        return b"".join(self.number().to_bytes(8, "little") for _ in range(-(-count // 8)))[:count]


def try_all(words, parts_of, judged, what, worst_are):
    """Tries the cases that the words PROGRAM SEED FIRST COUNT JOBS WORK KEPT ask for, and ends this with status 1 where one failed.

    `parts_of` splits their numbers into parts, each with what else it is tried by. `judged` gets a part behind the program, the
    seed and both folders; it answers how many cases came to what, the numbers of what failed, and the worst of some
    measures. What can fail is a WHAT, and `worst_are` says the worst measures of all."""
    program, seed, first, count, jobs, work, kept = words
    seed, first, count = int(seed), int(first), int(count)
    print("seed %d, cases %d to %d, %s processes. The numbers of a case:\n%s" % (seed, first, first + count - 1, jobs, RECURRENCE))
    begun, counts, failed, worst = time.monotonic(), collections.Counter(), [], ()
    tasks = [(program, seed, work, kept, *part) for part in parts_of(range(first, first + count))]
    with multiprocessing.Pool(int(jobs)) as pool:
        for more, wrong, most in pool.imap_unordered(judged, tasks):
            counts += more
            failed += wrong
            worst = tuple(map(max, most, worst or most))
    for came_to, number in counts.most_common():
        print("%8d %s" % (number, came_to))
    print("%8d %s failed%s" % (len(failed), what, ": " + " ".join(map(str, sorted(failed)[:20])) if failed else ""))
    print(worst_are % worst)
    print("it took %.0f s" % (time.monotonic() - begun))
    sys.exit(bool(failed))
