"""Times appends of blocks to a log in a real folder by `disk_bench`, and by a C program that makes the same calls of the
system where it was built. Called by bench/run.

Its words: the program `disk_bench`, the number of runs of which the best counts, and the C program, if it is there."""
import os
import shutil
import sys
import tempfile
import time
import subprocess

WORKS = [(1000, 100), (40, 1 << 20)]


def appended(program, count, size):
    """The seconds of one run in a fresh folder, its syncs, and the seconds that these took. The folder lies beside the
    program, since a temporary folder may be in memory alone."""
    folder = tempfile.mkdtemp(prefix="blocks-", dir=os.path.dirname(BESIDE))
    try:
        began = time.perf_counter()
        line = subprocess.run([program, "append", folder, str(count), str(size)], stdout=subprocess.PIPE, text=True, check=True).stdout
        took = time.perf_counter() - began
    finally:
        shutil.rmtree(folder)
    words = line.split()
    if words[:4] != ["append", str(count), str(size), "syncs"]:
        sys.exit(f"bench: the blocks were not appended: {line}")
    return took, int(words[4]), int(words[6]) / 1e9


def main():
    global BESIDE
    ours, runs, theirs = os.path.abspath(sys.argv[1]), int(sys.argv[2]), sys.argv[3:4]
    BESIDE = ours
    for count, size in WORKS:
        mine, peers = [], []
        # In turn, so that both meet the same disk.
        for _ in range(runs):
            mine.append(appended(ours, count, size))
            for peer in theirs:
                peers.append(appended(os.path.abspath(peer), count, size))
        took, syncs, synced = min(mine)
        text = f"blocks of {size} bytes: {count / took:.0f} a second, {syncs / count:.2f} syncs a block, {100 * synced / took:.1f}% of the time in fsync"
        if peers:
            other, _, other_synced = min(peers)
            text += f"; C with the same calls {count / other:.0f} a second, {100 * other_synced / other:.1f}% in fsync, our time / its time {took / other:.3f}"
        print(text, flush=True)


main()
