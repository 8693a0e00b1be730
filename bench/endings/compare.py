"""The two programs on the same endings, in turns: ratios of means, medians and 99th percentiles, and whether an answer
differs. Words: our program, the peer, rounds, endings a round."""
import subprocess
import sys


def lines(command):
    out = subprocess.run(command, check=True, capture_output=True, text=True).stdout
    return [tuple(int(word) for word in line.split()) for line in out.splitlines()]


def part(times, share):
    return sorted(times)[min(len(times) - 1, int(share * len(times)))]


ours, peer, rounds, count = sys.argv[1], sys.argv[2], int(sys.argv[3]), int(sys.argv[4])
for size in (6, 5, 4, 3):
    for capacity in (0, 4096):
        times, differ = ([], []), 0
        for seed in range(1, rounds + 1):
            words = [str(size), str(count), str(seed)]
            found = [None, None]
            # Every other round in the other order, so that what else the machine does falls on both.
            for which in (0, 1) if seed % 2 else (1, 0):
                command = [ours, *words, str(capacity)] if which == 0 else [peer, *words]
                found[which] = lines(command)
                times[which].extend(nanoseconds for _, nanoseconds in found[which])
            differ += sum(one[0] != other[0] for one, other in zip(*found, strict=True))
        mean = [sum(each) / len(each) for each in times]
        ratios = [mean[0] / mean[1]] + [part(times[0], share) / part(times[1], share) for share in (0.5, 0.99)]
        print(
            f"{size} cards, cache {capacity}: {len(times[0])} endings, {differ} differ; ours {mean[0] / 1000:.0f} us, "
            f"libdds {mean[1] / 1000:.0f} us; ratios of mean, median, 99th percentile: "
            + " ".join(f"{ratio:.3f}" for ratio in ratios),
            flush=True,
        )
