"""What bench/collect.sh runs: collect.py PROGRAM NETWORK FOLDER, the folder for streams and flows."""
import os
import resource
import shutil
import socket
import struct
import subprocess
import sys
import time

KEYS, ROOM = 10_000, 16 * 2**20
TEMPLATE = struct.pack(">10H", 2, 20, 256, 3, 8, 4, 1, 8, 2, 8)


def messages(records, each):
    """Records over the keys in turn, at most this many to a message; the first one has a template instead of one of them."""
    done = 0
    while done < records:
        head = b"" if done else TEMPLATE
        here = min(records - done, each if done else each - 1)
        data = b"".join(struct.pack(">IQQ", 0x0A000000 + key % KEYS, 100, 1) for key in range(done, done + here))
        sets = head + struct.pack(">HH", 256, 4 + len(data)) + data
        yield struct.pack(">HHIII", 10, 16 + len(sets), 0, done, 0) + sets
        done += here


def wanted(records):
    each = records // KEYS
    yield "keys %d\n" % KEYS
    for key in range(KEYS):
        yield "10.0.%d.%d packets %d octets %d\n" % (key // 256, key % 256, each, 100 * each)
    yield "unassigned 0\ngaps 0\nskipped 0\n"


def timed(words, **more):
    """The time of a process, its processor time, and what it prints."""
    before, start = resource.getrusage(resource.RUSAGE_CHILDREN), time.monotonic()
    run = subprocess.run(words, stdout=subprocess.PIPE, **more)
    taken, after = time.monotonic() - start, resource.getrusage(resource.RUSAGE_CHILDREN)
    if run.returncode != 0:
        sys.exit("%s: status %d, printed %r" % (words[0], run.returncode, run.stdout[:200]))
    return taken, after.ru_utime + after.ru_stime - before.ru_utime - before.ru_stime, run.stdout.decode()


def collected(program, network, path, text):
    bound = lambda: resource.setrlimit(resource.RLIMIT_AS, (ROOM, ROOM))
    taken, busy, said = timed([program, "collect", network, path], preexec_fn=bound)
    if said != text:
        sys.exit("other totals: %r" % said[:200])
    return taken, busy


def dumped(path, records):
    taken, busy, said = timed(["ipfixDump", "--stats", "-i", path])
    if "%d Data Records" % records not in said:
        sys.exit("ipfixDump: %r" % said[:200])
    return taken, busy


def queue(port):
    """The octets that wait at a port of the loopback, and how many datagrams were lost there; None where nobody listens."""
    with open("/proc/net/udp") as lines:
        for words in map(str.split, lines):
            if words[1].endswith(":%04X" % port):
                return int(words[4].split(":")[1], 16), int(words[-1])
    return None


def free_port():
    with socket.socket(socket.AF_INET, socket.SOCK_DGRAM) as probe:
        probe.bind(("127.0.0.1", 0))
        return probe.getsockname()[1]


def fed(port, stream):
    """The time until all messages are taken; None where one is lost."""
    limit = time.monotonic() + 60
    with socket.socket(socket.AF_INET, socket.SOCK_DGRAM) as sender:
        sender.connect(("127.0.0.1", port))
        start = time.monotonic()
        for number, message in enumerate(stream):
            while number % 16 == 0 and queue(port)[0] > 60_000 and time.monotonic() < limit:
                pass
            sender.send(message)
        while queue(port)[0] > 0 and time.monotonic() < limit:
            pass
        return None if queue(port)[1] > 0 else time.monotonic() - start


def stored(folder, stream, records):
    """nfcapd's time and processor time; None where not all flows are there in the end."""
    shutil.rmtree(folder, ignore_errors=True)
    os.makedirs(folder)
    port = free_port()
    words = ["nfcapd", "-w", folder, "-b", "127.0.0.1", "-p", str(port), "-B", "4000000", "-P", folder + ".pid"]
    run = subprocess.Popen(words, stdout=subprocess.DEVNULL, stderr=subprocess.DEVNULL)
    try:
        for _ in range(100):
            if queue(port) is not None:
                break
            time.sleep(0.02)
        taken = fed(port, stream)
    finally:
        run.terminate()
        used = os.wait4(run.pid, 0)[2]
    files = [os.path.join(folder, name) for name in os.listdir(folder)]
    lines = [line.split() for path in files for line in timed(["nfdump", "-I", "-r", path])[2].splitlines()]
    flows = sum(int(words[1]) for words in lines if words and words[0] == "Flows:")
    return None if taken is None or flows != records else (taken, used.ru_utime + used.ru_stime)


def beside_others(program, network, work):
    records, path, text = 300_000, os.path.join(work, "short.ipfix"), "".join(wanted(300_000))
    stream = list(messages(records, 69))
    with open(path, "wb") as file:
        file.writelines(stream)
    readers = {"once collect": lambda: collected(program, network, path, text)}
    for name, package, word, reader in (
        ("ipfixDump --stats", "libfixbuf-tools", "ipfixDump", lambda: dumped(path, records)),
        ("nfcapd, from the loopback", "nfdump", "nfcapd", lambda: stored(os.path.join(work, "flows"), stream, records)),
    ):
        if shutil.which(word):
            readers[name] = reader
        else:
            print("%s is missing: apt-get install %s" % (word, package))
    print("%d records in %d messages of %d octets" % (records, len(stream), len(stream[0])))
    found = {name: [] for name in readers}
    for _ in range(5):
        for name, reader in readers.items():
            found[name].append(reader())
    for name, runs in found.items():
        whole = [run for run in runs if run is not None]
        if whole:
            taken, busy = (min(times) * 1e9 / records for times in zip(*whole))
            print("%-26s %4.0f ns a record, %4.0f ns of processor time" % (name, taken, busy))
        if len(whole) < len(runs):
            print("%-26s %d runs of %d are left out: records were lost" % (name, len(runs) - len(whole), len(runs)))


def growth(program, network, work):
    path, best = os.path.join(work, "stream.ipfix"), []
    for records in (1_200_000, 2_400_000):
        with open(path, "wb") as file:
            file.writelines(messages(records, 60))
        text = "".join(wanted(records))
        best.append(min(collected(program, network, path, text)[0] for _ in range(5)))
    print("1,200,000 records %.3f s, 2,400,000 records %.3f s, %.2f times as long" % (*best, best[1] / best[0]))
    return best[1] <= 2.5 * best[0]


def main(program, network, work):
    linear = growth(program, network, work)
    beside_others(program, network, work)
    return 0 if linear else 1


if __name__ == "__main__":
    sys.exit(main(*sys.argv[1:]))
