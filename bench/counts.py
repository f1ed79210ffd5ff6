"""Counts the allocations and the instructions of one call of each main command, above those of a usage fault.

    python3 bench/counts.py

Both are counts (of valgrind), which no other load of the machine disturbs. Ends with status 1 where a line makes more
allocations than it may."""
import sys

from running import allocations, build, instructions

# The words of a call, and the most allocations that it may make above those of a usage fault.
LINES = [
    (["to-vers", "npm", "all", ">=1.2.3 <2.0.0"], 20),
    (["to-vers", "deb", "all", ">= 1:2.0~rc1, << 1:2.0"], 20),
    (["from-vers", "all", "vers:npm/>=1.2.3|<2.0.0"], 12),
    (["canon", "vers:npm/>=1.2.3|<2.0.0"], 10),
    (["has", "vers:npm/>=1.2.3|<2.0.0", "1.5.0"], 6),
    (["purl", "pkg:npm/%40angular/animation@12.3.1"], 8),
]
USAGE_FAULT = ["purl"]


def main():
    build()
    usual_allocations, usual_instructions = allocations(USAGE_FAULT), instructions(USAGE_FAULT)
    good = True
    for words, most in LINES:
        made = allocations(words) - usual_allocations
        spent = instructions(words) - usual_instructions
        good = good and made <= most
        print(f"{made:4} allocations (of {most:2}), {spent:9} instructions: {' '.join(words[:-1])} {words[-1]!r}")
    return 0 if good else 1


if __name__ == "__main__":
    sys.exit(main())
