"""Refuses each request for memory of one call of each main command, and of `batch` over a few lines, one at a time.

    python3 bench/growths.py

The built program runs with an allocator between (`refuse_malloc.c`, built by gcc) that refuses one request. Each run has to
end with the status 5 and a front of the answers, or as the whole run does where it can do without. Ends with status 1
where one does not."""
import os
import pathlib
import subprocess
import sys
import tempfile

from running import PROGRAM, ROOT, build

WORDS = [
    ["to-vers", "npm", "all", ">=1.2.3 <2.0.0"],
    ["to-vers", "deb", "all", ">= 1:2.0~rc1, << 1:2.0"],
    ["to-vers", "rpm", "releases", "<= 1.0-5"],
    ["to-vers", "gem", "releases", "~> 2.2.0"],
    ["to-vers", "cargo", "releases", "0.2.3, <0.2.9"],
    ["from-vers", "all", "vers:npm/>=1.2.3|<2.0.0"],
    ["canon", "vers:npm/>=1.2.3|<2.0.0"],
    ["has", "vers:npm/>=1.2.3|<2.0.0", "1.5.0"],
    ["purl", "pkg:npm/%40angular/animation@12.3.1"],
    ["same", "pkg:gem/x", "pkg:gem/y"],
    ["batch"],
]
# A run asks for no more memory behind the last refused request that it tells of; so many runs more show that. One that is
# refused less room for what has room already goes on.
BEHIND = 12
LINES = "purl\tpkg:gem/x\n" + "a" * 70_000 + "\ncanon\tvers:npm/>=2.0.0|1.0.0\nto-vers\tgem\tall\t!= 1.0\n"


def run(words, library, refused):
    """How one call ends whose request for memory of this number is refused (0 refuses none), and what it writes."""
    changed = dict(os.environ, LD_PRELOAD=str(library), REFUSED=str(refused))
    done = subprocess.run([PROGRAM, *words], input=LINES, env=changed, capture_output=True, text=True, check=False)
    return done.returncode, done.stdout


def main():
    build()
    good = True
    with tempfile.TemporaryDirectory() as folder:
        library = pathlib.Path(folder) / "refuse.so"
        source = ROOT / "bench" / "refuse_malloc.c"
        subprocess.run(["gcc", "-shared", "-fPIC", "-O1", "-o", library, source, "-ldl"], check=True)
        for words in WORDS:
            whole = run(words, library, 0)
            number = told = without = 0
            while without < BEHIND:
                number += 1
                ended = run(words, library, number)
                if ended == whole:
                    without += 1
                    continue
                told, without = told + 1, 0
                if ended[0] != 5 or not whole[1].startswith(ended[1]):
                    good = False
                    print(f"{words}: request {number}: {ended}")
            print(f"{told:3} of {number - BEHIND:3} refused requests end it with the status 5: {' '.join(words)}")
    return 0 if good else 1


if __name__ == "__main__":
    sys.exit(main())
