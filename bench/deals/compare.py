"""The two programs on the same deals, by turns, a process for each: ratios of the means and of the worst deals by processor
time, and how many numbers differ. Words: our program, the peer, how many deals, the seed of the first."""
import resource
import subprocess
import sys


def solved(program, seed):
    before = resource.getrusage(resource.RUSAGE_CHILDREN)
    out = subprocess.run([program, "1", str(seed)], check=True, capture_output=True, text=True).stdout
    after = resource.getrusage(resource.RUSAGE_CHILDREN)
    took = after.ru_utime + after.ru_stime - before.ru_utime - before.ru_stime
    return out.split()[:20], 1000 * took


ours, peer, count, seed = sys.argv[1], sys.argv[2], int(sys.argv[3]), int(sys.argv[4])
pairs = [(solved(ours, seed + deal), solved(peer, seed + deal)) for deal in range(count)]
differ = sum(a != b for one, other in pairs for a, b in zip(one[0], other[0], strict=True))
times = [[pair[side][1] for pair in pairs] for side in (0, 1)]
mean = [sum(each) / count for each in times]
middle = sorted(one / other for one, other in zip(*times, strict=True))[count // 2]
print(
    f"{count} deals, {20 * count} numbers, {differ} differ; ours {mean[0]:.0f} ms (worst {max(times[0]):.0f}), "
    f"libdds {mean[1]:.0f} ms (worst {max(times[1]):.0f}); ratios of the means, of the worst, and the middle one of the deals: "
    f"{mean[0] / mean[1]:.2f} {max(times[0]) / max(times[1]):.2f} {middle:.2f}"
)
