"""Times runs over a capture. See run.sh."""
import json
import os
import shutil
import sys

TOP = os.path.dirname(os.path.dirname(os.path.abspath(__file__)))
sys.path.insert(0, os.path.join(TOP, "tests"))

from program import timed
from sample_networks import TRAFFIC, network, write_capture


def least_space(words, folder):
    """The least address space in which the program runs, to a MiB."""
    low, high = 0, 4096
    while high - low > 1:
        middle = (low + high) // 2
        try:
            timed(words, folder, middle << 20)
            high = middle
        except SystemExit:
            low = middle
    return high


def write_inputs(folder, frames, flows, most=None, lines=()):
    """A capture, documents and a schedule in a folder; the words of a run over them."""
    os.makedirs(folder, exist_ok=True)
    write_capture(os.path.join(folder, "capture.pcap"), frames, flows)
    for name, value in [("network.json", network(most)), ("traffic.json", TRAFFIC)]:
        with open(os.path.join(folder, name), "w") as file:
            json.dump(value, file)
    with open(os.path.join(folder, "schedule"), "w") as file:
        file.writelines(lines)
    return ["run", "network.json", "traffic.json", "capture.pcap", "schedule"]


def by_flows(program, frames, folder):
    """What a packet costs that pushes another flow's record out, and a line that expires one, by the flows that are held:
    the least processor time of three runs."""
    for name in ["evictions", "expiries"]:
        for flows in [500, 5_000, 50_000]:
            here = os.path.join(folder, "%s-%d" % (name, flows))
            if name == "evictions":
                words = write_inputs(here, frames, 2 * flows, flows)
                units = frames
            else:
                units = (frames - flows) // 2
                lines = ["next\n"] * flows + ["expire 1 1\nnext\n"] * units
                words = write_inputs(here, flows + units, flows, lines=lines)
            took = min(timed([program, *words], here)[0] for _ in range(3))
            print("%-9s where %6d flows are held: %5.0f ns each" % (name, flows, took / units * 1e9))
            shutil.rmtree(here)


def main(program, frames, flows, folder):
    ours = [program, *write_inputs(folder, frames, flows)]
    write_capture(os.path.join(folder, "twice.pcap"), 2 * frames, flows)
    programs = {"once run": ours}
    if shutil.which("softflowd"):
        programs["softflowd"] = ["softflowd", "-m", str(2 * flows), "-r", "capture.pcap"]
    if shutil.which("nfpcapd"):
        os.mkdir(os.path.join(folder, "flows"))
        programs["nfpcapd"] = ["nfpcapd", "-r", "capture.pcap", "-w", "flows"]
    least = {}
    for _ in range(5):
        for name, words in programs.items():
            took, printed = timed(words, folder)
            least[name] = min(took, least.get(name, took))
            if name == "once run" and not ("keys %d\n" % flows in printed and "skipped other 0 malformed 0" in printed):
                raise SystemExit("once run: " + printed[:200])
    for name, took in least.items():
        print("%-12s %7.3f s of processor time, %5.0f ns a packet" % (name, took, took / frames * 1e9))
    spaces = [least_space(ours[:4] + [name] + ours[5:], folder) for name in ["capture.pcap", "twice.pcap"]]
    print("address space: %d MiB, and %d MiB for twice the frames" % tuple(spaces))
    by_flows(program, frames, folder)


if __name__ == "__main__":
    main(sys.argv[1], int(sys.argv[2]), int(sys.argv[3]), sys.argv[4])
