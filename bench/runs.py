"""Times `run_bench`, and the same data flow in plain Rust (bench/peers/greeter_run.rs). Called by bench/run.

Its words: the program `run_bench`, the number of runs of which the best counts, and the peer program, if there is one."""
import os
import subprocess
import sys
import tempfile

RECORDS, LETTERS = 200_000, (1, 1000)
MOST_TIME, MOST_MEMORY, MOST_RATIO = 1.3, 1.5, 11


def measured(program, words, path):
    """Processor seconds and the most memory in MiB of one run, whose output goes to a file."""
    with open(path, "wb") as out:
        process = subprocess.Popen([program, *words], stdout=out)
        _, status, usage = os.wait4(process.pid, 0)
    if status != 0:
        sys.exit(f"bench: {program} {' '.join(words)} ended with {status}")
    return usage.ru_utime + usage.ru_stime, usage.ru_maxrss / 1024


def best_of(programs, records, letters, runs, folder):
    """The least time and memory of each program."""
    best = [(1e9, 1e9)] * len(programs)
    for _ in range(runs):
        for place, program in enumerate(programs):
            path = os.path.join(folder, str(place))
            best[place] = tuple(map(min, best[place], measured(program, [str(records), str(letters)], path)))
    return best


def are_same(folder):
    with open(os.path.join(folder, "0"), "rb") as ours, open(os.path.join(folder, "1"), "rb") as theirs:
        return ours.read() == theirs.read()


def main():
    runs, programs = int(sys.argv[2]), [os.path.abspath(program) for program in [sys.argv[1], *sys.argv[3:]]]
    with tempfile.TemporaryDirectory(prefix="statefun-bench-") as folder:
        for letters in LETTERS:
            few = best_of(programs[:1], RECORDS // 10, letters, runs, folder)[0]
            best = best_of(programs, RECORDS, letters, runs, folder)
            text = (f"run of {RECORDS} records, {letters} letters a batch: {best[0][0]:.2f} s of processor time, {best[0][1]:.0f} MiB, "
                    f"{best[0][0] / few[0]:.1f} times as long as a tenth of them (at most {MOST_RATIO} is wanted)")
            if len(programs) > 1:
                if not are_same(folder):
                    sys.exit("bench: the two programs did not write the same egress")
                text += (f"; plain Rust {best[1][0]:.2f} s, {best[1][1]:.0f} MiB, our time / its {best[0][0] / best[1][0]:.2f} (at most {MOST_TIME} is wanted),"
                         f" our memory / its {best[0][1] / best[1][1]:.2f} (at most {MOST_MEMORY} is wanted)")
            print(text, flush=True)


main()
