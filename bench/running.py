"""What the benchmarks share: the built program, its counts by valgrind, its time and its memory."""
import os
import pathlib
import re
import subprocess
import time

ROOT = pathlib.Path(__file__).resolve().parent.parent
PROGRAM = pathlib.Path(os.environ.get("VX_PROGRAM", ROOT / "crates" / "vx_cli" / "out" / "vx_cli"))


def build():
    """Builds the program, where it is not built."""
    if not PROGRAM.exists():
        subprocess.run([ROOT / "vx", "to-vers", "npm", "all", "1"], stdout=subprocess.DEVNULL, check=True)


def counted(tool, shown, words, given):
    """The number that a tool of valgrind shows behind such words, of one call that is given this input."""
    run = subprocess.run(["valgrind", *tool, PROGRAM, *words], input=given, stdout=subprocess.DEVNULL,
                         stderr=subprocess.PIPE, text=True, check=False)
    return int(re.search(shown + r"\s*([\d,]+)", run.stderr).group(1).replace(",", ""))


def allocations(words, given=""):
    return counted(["--tool=memcheck"], "total heap usage:", words, given)


def instructions(words, given=""):
    return counted(["--tool=callgrind", f"--callgrind-out-file={os.devnull}"], r"Collected\s*:", words, given)


def seconds(given):
    """The time of one run of `batch` over this input."""
    begin = time.perf_counter()
    subprocess.run([PROGRAM, "batch"], input=given, stdout=subprocess.DEVNULL, text=True, check=False)
    return time.perf_counter() - begin


def least_seconds(calls, *inputs):
    """The least time of a run of `batch` over each of these inputs, of so many runs, which are made in turn."""
    rounds = [[seconds(given) for given in inputs] for _ in range(calls)]
    return [min(times) for times in zip(*rounds)]


def answers(given):
    """The answer lines of `batch` to this input."""
    run = subprocess.run([PROGRAM, "batch"], input=given, stdout=subprocess.PIPE, text=True, check=False)
    return run.stdout.splitlines()


def greatest_memory(write_lines):
    """The most memory, in MB, that `batch` ever holds, over the lines that are written to its input."""
    process = subprocess.Popen([PROGRAM, "batch"], stdin=subprocess.PIPE, stdout=subprocess.DEVNULL)
    write_lines(process.stdin)
    process.stdin.flush()
    # The last lines lie in the pipe still. It answers them, and waits for more.
    time.sleep(1)
    status = pathlib.Path(f"/proc/{process.pid}/status").read_text()
    process.stdin.close()
    process.wait()
    return int(re.search(r"VmHWM:\s*(\d+) kB", status).group(1)) / 1024
