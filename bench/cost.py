"""What a line costs: four tables.

    python3 bench/cost.py [usual] [growth] [time] [memory]

`usual`: the instructions and allocations of a usual line of `batch`, kind by kind, the edge's own cost included: a line that
is no command is read, refused and written, and nothing else. `growth`: the instructions for 1,000 parts of a long line, for
4,000, and their ratio. `time`: the nanoseconds of a usual line, and their ratio to a line that is no command; the
milliseconds of the longest line. `memory`: the most that `batch` holds over 1 MB and 1 GB of lines. With no word, all.
Instructions and allocations are counts of valgrind, which no load of the machine disturbs: of a usual line the difference
between 2,000 and 1,000 lines. Times do hang on the load. Ends with status 1 where a line gets no answer, or where a ratio
passes 4.6."""
import os
import sys

from lines import EDGE, long_kinds, longest, usual_kinds, usual_lines
from running import allocations, answers, build, greatest_memory, instructions, least_seconds

FEW, MANY = 1_000, 2_000
TIMED = 50_000
CALLS = 5
SHORT, LONG = 1_000, 4_000
MOST_BYTES = 65_536
MOST_RATIO = 4.6
NOTHING = ""


def by_difference(count, make):
    """What a line costs by this count: the difference between many lines and few."""
    few, many = (count(["batch"], usual_lines(make, lines)) for lines in (FEW, MANY))
    return (many - few) / (MANY - FEW)


def usual_table():
    print(f"{'kind of line':18} {'instructions':>13} {'allocations':>12} {'ok':>6}")
    good = True
    for name, make in usual_kinds().items():
        replies = answers(usual_lines(make, MANY))
        good = good and len(replies) == MANY
        ok = sum(reply.startswith("ok\t") for reply in replies) / MANY
        print(f"{name:18} {by_difference(instructions, make):13.0f} {by_difference(allocations, make):12.1f} {ok:6.0%}", flush=True)
    return good


def growth_table():
    print(f"{'long line':26} {'1,000 parts':>12} {'4,000 parts':>12} {'ratio':>6}")
    start = instructions(["batch"])
    good = True
    for name, make in long_kinds().items():
        short, long = (instructions(["batch"], make(parts) + "\n") - start for parts in (SHORT, LONG))
        replies = answers(make(LONG) + "\n")
        good = good and long / short <= MOST_RATIO and len(replies) == 1 and "LineTooLong" not in replies[0]
        print(f"{name:26} {short:12} {long:12} {long / short:6.2f}", flush=True)
    return good


def time_table():
    print(f"{'kind of line':18} {'ns':>6} {'ratio':>6}")
    kinds = usual_kinds()
    edge = usual_lines(kinds[EDGE], TIMED)
    for name, make in kinds.items():
        start, spent, plain = least_seconds(CALLS, NOTHING, usual_lines(make, TIMED), edge)
        spent, plain = (max(it - start, 1e-9) / TIMED * 1e9 for it in (spent, plain))
        print(f"{name:18} {spent:6.0f} {spent / plain:6.1f}", flush=True)
    print(f"{'line of 64 KiB':26} {'ms':>6}")
    for name, make in long_kinds().items():
        start, spent = least_seconds(2 * CALLS, NOTHING, longest(make, MOST_BYTES) + "\n")
        print(f"{name:26} {max(spent - start, 0) * 1e3:6.1f}", flush=True)
    print(f"load of the machine: {os.getloadavg()[0]:.1f} on {os.cpu_count()} processors")
    return True


def memory_table():
    block = "".join(usual_lines(make, 100) for make in usual_kinds().values()).encode()
    print(f"{'lines of batch':18} {'greatest memory, MB':>20}")
    for name, size in [("1 MB", 10**6), ("1 GB", 10**9)]:
        most = greatest_memory(lambda file, size=size: [file.write(block) for _ in range(size // len(block))])
        print(f"{name:18} {most:20.1f}", flush=True)
    return True


TABLES = {"usual": usual_table, "growth": growth_table, "time": time_table, "memory": memory_table}


def main():
    wanted = sys.argv[1:] or list(TABLES)
    if any(word not in TABLES for word in wanted):
        print(__doc__, file=sys.stderr)
        return 2
    build()
    good = [TABLES[word]() for word in wanted]
    return 0 if all(good) else 1


if __name__ == "__main__":
    sys.exit(main())
