"""Times folders of checkpoints in a real folder by `folder_bench`: they are opened, loaded and read, and a large checkpoint is
completed. Called by bench/run.

Its words: the program `folder_bench`, and the number of runs of which the best counts."""
import os
import shutil
import subprocess
import sys
import tempfile
import time

ENTRIES, CHECKPOINTS, MOST_RATIO = 1000, (10, 100, 1000), 11
# Letters of a checkpoint, and the bytes of each one's argument.
LARGE, MOST_MEMORY = ((100_000, 100), (1000, 10_000)), 1.5
WORKS = ("open", "load", "read")


def folder_of(program, words):
    """A folder that the program made by these words, and the line that it printed. It lies beside the program, since a temporary
    folder may be in memory alone."""
    folder = tempfile.mkdtemp(prefix="folder-", dir=os.path.dirname(program))
    line = subprocess.run([program, words[0], folder, *map(str, words[1:])], stdout=subprocess.PIPE, text=True, check=True).stdout
    return folder, line.split()


def peak_of(child):
    """The most memory in MiB that a process had so far, 0 where it has ended. What `wait4` says of it counts this program's own
    memory too, since that was the child's before it became another program."""
    with open(f"/proc/{child}/status", encoding="ascii") as lines:
        for line in lines:
            if line.startswith("VmHWM:"):
                return int(line.split()[1]) / 1024
    return 0


def run_of(program, words):
    """Processor seconds and peak memory in MiB of one run; the memory is asked for all the time."""
    child = subprocess.Popen([program, *words], stdout=subprocess.DEVNULL)
    peak = 0
    while os.waitid(os.P_PID, child.pid, os.WEXITED | os.WNOHANG | os.WNOWAIT) is None:
        peak = max(peak, peak_of(child.pid))
        time.sleep(0.0002)
    _, status, used = os.wait4(child.pid, 0)
    if status != 0:
        sys.exit(f"bench: {program} {' '.join(words)} ended with {status}")
    return used.ru_utime + used.ru_stime, peak


def best_of(program, work, folder, runs):
    """The least processor seconds of a work on a folder, and the most memory in MiB."""
    took = [run_of(program, [work, folder]) for _ in range(runs)]
    return min(one[0] for one in took), max(one[1] for one in took)


def bytes_in(folder):
    return sum(os.path.getsize(os.path.join(folder, name)) for name in os.listdir(folder))


def growing(program, runs):
    """Folders of ever more checkpoints."""
    before = None
    for checkpoints in CHECKPOINTS:
        folder, _ = folder_of(program, ("make", checkpoints, ENTRIES))
        size = bytes_in(folder) / (1 << 20)
        best = {work: best_of(program, work, folder, runs) for work in WORKS}
        shutil.rmtree(folder)
        text = []
        for work in WORKS:
            seconds, peak = best[work]
            ratio = f", {seconds / before[work][0]:.1f} times as long" if before else ""
            text.append(f" {work} {seconds:.3f} s, {peak:.0f} MiB{ratio}")
        print(f"{checkpoints} checkpoints of {ENTRIES} entries, {size:.1f} MiB:{';'.join(text)}"
              + (f" (at most {MOST_RATIO} is wanted)" if before else ""), flush=True)
        before = best


def large(program, runs, letters, size):
    """A checkpoint of many letters: completed, opened and loaded."""
    puts, completions, opened, loaded = [], [], [], []
    for _ in range(runs):
        folder, words = folder_of(program, ("large", letters, size))
        puts.append(int(words[6]) / 1e6)
        completions.append(int(words[8]) / 1e6)
        opened.append(best_of(program, "open", folder, 1))
        loaded.append(best_of(program, "load", folder, 1))
        shutil.rmtree(folder)
    piece, peak = int(words[4]) / (1 << 20), max(one[1] for one in loaded)
    print(f"a checkpoint of {letters} letters of {size} bytes, {piece:.1f} MiB: put in {min(puts):.1f} ms, completed in {min(completions):.1f} ms; "
          f"opened in {min(opened)[0]:.3f} s, opened and loaded in {min(loaded)[0]:.3f} s with {peak:.0f} MiB, "
          f"{peak / piece:.2f} times the piece (at most {MOST_MEMORY} is wanted)", flush=True)


def main():
    program, runs = os.path.abspath(sys.argv[1]), int(sys.argv[2])
    growing(program, runs)
    for letters, size in LARGE:
        large(program, runs, letters, size)


main()
