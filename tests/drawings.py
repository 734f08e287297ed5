#!/usr/bin/env python3
"""drawings.py PROGRAM [GRAPHVIZ]: reads what `once draw` prints, and compares the graph with the documents.

For the networks of the rows and the examples that `once lint` accepts, alone and with their traffic, and for some with names that DOT
would take for its own signs: the boxes and their contents, and the edges, must be those of the JSON, which is read here independently;
with traffic, three or more alike devices must be one box. With certificates and refutations, the marked edges must be those that their
lines name, and the ways from counting caches to the report; with --class, the paths those of that class. If Graphviz's `dot` is installed (or
GRAPHVIZ), it must accept the drawings of the examples. Prints a line for each fault; the last line is `N passed, N failed`.
"""
import glob
import json
import os
import re
import shutil
import sys
import tempfile

sys.dont_write_bytecode = True
TOP = os.path.dirname(os.path.dirname(os.path.abspath(__file__)))
import program
from verdict import not_run, report_named

NODE = re.compile(r'^ *([a-z]+[0-9_]+) \[(.*)\];$')
EDGE = re.compile(r'^ *([a-z]+[0-9_]+) -> ([a-z]+[0-9_]+)(?: \[(.*)\])?;$')
BOX = re.compile(r'^ *subgraph cluster_(\d+) \{$')
NAME = re.compile(r'^ *label="((?:[^"\\]|\\.)*)"; style=rounded; color=gray40;$')
LABEL = re.compile(r'label="((?:[^"\\]|\\.)*)"')
COLOUR = re.compile(r'(?:^|, )color=(\w+)')


def plain(label):
    """What a quoted label says: its lines."""
    text = re.sub(r'\\(.)', lambda m: "\n" if m[1] == "n" else m[1], label)
    return text.split("\n")


def shown(name):
    """A name as it is drawn: control characters, octet by octet, as `?`."""
    return "".join("?" if ord(c) < 32 or ord(c) == 127 else c for c in name)


class Graph:
    """What a drawing says: boxes by number, nodes with their lines, plain edges, and marked ones by colour."""

    def __init__(self, text):
        lines = text.split("\n")
        assert lines[0] == "digraph network {" and lines[-2:] == ["}", ""], "it isn't one graph"
        self.boxes, self.nodes, self.edges, self.marked = {}, {}, [], []
        inside = None
        for line in lines[2:-2]:
            if box := BOX.match(line):
                inside = box[1]
            elif name := NAME.match(line):
                self.boxes[inside] = plain(name[1])[0]
            elif line == "  }":
                inside = None
            elif edge := EDGE.match(line):
                colour = COLOUR.search(edge[3] or "")
                label = LABEL.search(edge[3] or "")
                one = (edge[1], edge[2], plain(label[1])[0] if label else "")
                if colour:
                    self.marked.append((colour[1], *one))
                else:
                    self.edges.append(one)
            elif node := NODE.match(line):
                self.nodes[node[1]] = (inside, plain(LABEL.search(node[2])[1]))
            else:
                raise AssertionError(f"a line that is no statement: {line}")


def name_of(field):
    return field.get("ieName") or f"element {field.get('ieId')}"


def wanted(network):
    """The boxes, the nodes by their names, and the edges of a network's document."""
    boxes, names, edges = {}, {}, []
    ends = {(l["device"], l["exportingProcess"], l["destination"]): (l["toDevice"], l["toProcess"]) for l in network["links"]}
    devices = [d["name"] for d in network["devices"]]

    def numbers(kind, number, entries):
        found = {}
        for at, entry in enumerate(entries, 1):
            node = f"{kind}{number}_{at}_0"
            names[node] = (str(number), shown(entry["name"]))
            found[entry["name"]] = node
        return found

    made = {}
    for number, device in enumerate(network["devices"], 1):
        boxes[str(number)] = shown(device["name"])
        config = device["config"]["ietf-ipfix-psamp:ipfix"]
        made[device["name"]] = {
            kind: numbers(kind, number, config.get(member, []))
            for kind, member in (("point", "observationPoint"), ("selection", "selectionProcess"), ("cache", "cache"),
                                 ("exporter", "exportingProcess"), ("collector", "collectingProcess"))
        }
    for number, device in enumerate(network["devices"], 1):
        config, own = device["config"]["ietf-ipfix-psamp:ipfix"], made[device["name"]]
        for point in config.get("observationPoint", []):
            edges += [(own["point"][point["name"]], own["selection"][s], "") for s in point.get("selectionProcess", [])]
        for process in config.get("selectionProcess", []):
            if "cache" in process:
                edges.append((own["selection"][process["name"]], own["cache"][process["cache"]], ""))
        for cache in config.get("cache", []):
            edges += [(own["cache"][cache["name"]], own["exporter"][e], "") for e in cache.get("exportingProcess", [])]
        for at, process in enumerate(config.get("collectingProcess", []), 1):
            node = own["collector"][process["name"]]
            edges += [(node, own["exporter"][e], "") for e in process.get("exportingProcess", [])]
            for n, aggregation in enumerate(process.get("once-audit:aggregation", []), 1):
                holder = f"aggregation{number}_{at}_{n}"
                names[holder] = (str(number), shown(aggregation["name"]))
                edges.append((node, holder, ""))
                edges += [(holder, own["exporter"][e], "") for e in aggregation.get("exportingProcess", [])]
        for at, process in enumerate(config.get("exportingProcess", []), 1):
            for n, destination in enumerate(process["destination"], 1):
                end = ends.get((device["name"], process["name"], destination["name"]))
                if end:
                    edges.append((own["exporter"][process["name"]], made[end[0]]["collector"][end[1]], shown(destination["name"])))
    return boxes, names, sorted(edges), devices


def lost_of(network):
    """The destinations without a link, by their nodes' names."""
    ends = {(l["device"], l["exportingProcess"], l["destination"]) for l in network["links"]}
    return {f"lost{d}_{e}_{n}"
            for d, device in enumerate(network["devices"], 1)
            for e, process in enumerate(device["config"]["ietf-ipfix-psamp:ipfix"].get("exportingProcess", []), 1)
            for n, to in enumerate(process["destination"], 1)
            if (device["name"], process["name"], to["name"]) not in ends}


def unlike(graph, network):
    """Yields what of a drawing isn't what the network's document says."""
    boxes, names, edges, _ = wanted(network)
    if graph.boxes != boxes:
        yield f"boxes {graph.boxes}, not {boxes}"
    drawn = {n: (inside, lines[0]) for n, (inside, lines) in graph.nodes.items() if inside}
    if drawn != names:
        yield f"nodes {sorted(set(drawn.items()) ^ set(names.items()))[:4]}"
    if sorted(graph.edges) != edges:
        yield f"edges {sorted(set(graph.edges) ^ set(edges))[:4]}"
    if {n for n in graph.nodes if n.startswith("lost")} != lost_of(network):
        yield "other destinations are lost"
    report = network["report"]
    for node, (inside, lines) in graph.nodes.items():
        if node.startswith("collector"):
            is_report = (boxes[inside], lines[0]) == (shown(report["device"]), shown(report["collectingProcess"]))
            if ("report" in lines[1:]) != is_report:
                yield f"{node}: the report or not"


def ranges(numbers):
    """Numbers in ascending order as a drawing lists them: 1, 3 to 5."""
    found = []
    for number in numbers:
        if found and found[-1][1] == number - 1:
            found[-1][1] = number
        else:
            found.append([number, number])
    return ", ".join(str(low) if low == high else f"{low} to {high}" for low, high in found)


def unseen_of(network, traffic):
    """The line of each path with the crossings that no observation point sees, by the nodes' names of their paths."""
    points = {}
    for device in network["devices"]:
        points[device["name"]] = device["config"]["ietf-ipfix-psamp:ipfix"].get("observationPoint", [])
    found = {}
    for c, one in enumerate(traffic["classes"], 1):
        for p, path in enumerate(one["paths"], 1):
            numbers = []
            for x, crossing in enumerate(path, 1):
                interface, direction = crossing["interface"], crossing["direction"]
                sees = (it for it in points[crossing["device"]] if interface in it.get("ifName", []))
                if not any(it.get("direction", "both") in ("both", direction) for it in sees):
                    numbers.append(x)
            if numbers:
                found[f"packets{c}_{p}_0"] = f"unobserved crossings: {ranges(numbers)}"
    return found


def unseen_in(graph):
    """The same lines of a drawing."""
    lines = ((name, line) for name, (_, lines) in graph.nodes.items() if name.startswith("packets") for line in lines)
    return {name: line for name, line in lines if line.startswith("unobserved crossings")}


# ---- devices that are drawn as one

# How many devices must be alike, and the directions that the label of an observation point ends with.
LEAST_ALIKE = 3
DIRECTION = re.compile(r"(?:.* )?(ingress|egress|both directions)$")


def parts_of(node):
    """The kind and the numbers of a node's name."""
    kind, numbers = re.fullmatch(r"([a-z]+)([0-9_]+)", node).groups()
    return kind, [int(it) for it in numbers.split("_")]


def moved(node, firsts):
    """The name of the node as which a node is drawn."""
    kind, (device, *rest) = parts_of(node)
    if kind in ("packets", "outcome"):
        return node
    return f"{kind}{firsts.get(device, device)}_" + "_".join(map(str, rest))


def without_interfaces(node, lines):
    if node.startswith("point"):
        return [lines[0], DIRECTION.fullmatch(lines[1])[1]]
    return lines


def look(graph, device, firsts):
    """What is drawn of a device, with 0 for its number and without its interfaces."""
    own = {**firsts, device: 0}
    nodes = sorted((moved(n, own), without_interfaces(n, lines)) for n, (inside, lines) in graph.nodes.items() if inside == str(device))
    edges = [e for e in [*graph.edges, *(it[1:] for it in graph.marked)] if parts_of(e[0])[1][0] == device]
    return nodes, sorted((moved(f, own), moved(t, own), label) for f, t, label in edges)


def folding(graph, apart):
    """For each device of the drawing of a network alone, the device as which it is drawn with traffic."""
    devices = sorted(map(int, graph.boxes))
    firsts = {it: it for it in devices}
    while True:
        looks = {it: look(graph, it, firsts) for it in devices}
        groups = {it: [o for o in devices if looks[o] == looks[it] and o not in apart] for it in devices if it not in apart}
        after = {it: groups[it][0] if len(groups.get(it, [])) >= LEAST_ALIKE else it for it in devices}
        if after == firsts:
            return firsts
        firsts = after


# What devices that are drawn as one may differ in, besides their names.
OWN = ("ifName", "ifIndex", "observationDomainId")


def without_own(value):
    if isinstance(value, dict):
        return {name: without_own(it) for name, it in value.items() if name not in OWN}
    return [without_own(it) for it in value] if isinstance(value, list) else value


def alike_in(network, apart):
    """Yields the numbers of three or more devices whose documents differ in nothing else, and which have the same links."""
    groups = {}
    for number, device in enumerate(network["devices"], 1):
        links = sorted((l["exportingProcess"], l["destination"], l["toDevice"], l["toProcess"]) for l in network["links"] if l["device"] == device["name"])
        if number not in apart and device["name"] != network["report"]["device"]:
            groups.setdefault(json.dumps([without_own(device["config"]), links], sort_keys=True), []).append(number)
    yield from (it for it in groups.values() if len(it) >= LEAST_ALIKE)


def devices_of_run(network, traffic, text):
    """The numbers of the devices at which the steps of a refutation are made."""
    numbers = {device["name"]: at for at, device in enumerate(network["devices"], 1)}
    found, path = set(), None
    for line in text.splitlines():
        words = line.split()
        if words[0] == "packet":
            path = traffic["classes"][int(words[1]) - 1]["paths"][int(words[2]) - 1]
        elif words[0] == "cross":
            found.add(numbers[path[int(words[2]) - 1]["device"]])
        elif words[0] == "expire":
            found.add(int(words[2]))
        elif words[0] == "arrive":
            found.add(numbers[network["links"][int(words[1]) - 1]["toDevice"]])
    return found


def label_of(names):
    """The label of a box of several devices."""
    more = f" and {len(names) - 3} more" if len(names) > 3 else ""
    return ", ".join(names[:3]) + more


def folded(graph, firsts):
    """The boxes, nodes and edges of the drawing of a network alone if devices are drawn as one."""
    drawn = {it for it in firsts.values()}
    boxes = {str(d): label_of([graph.boxes[str(o)] for o in sorted(firsts) if firsts[o] == d]) for d in drawn}
    shared = {d for d in drawn if sum(first == d for first in firsts.values()) > 1}
    nodes = {}
    for node, (inside, lines) in graph.nodes.items():
        if parts_of(node)[1][0] in drawn:
            nodes[node] = (inside, without_interfaces(node, lines) if inside and int(inside) in shared else lines)
    edges = [(moved(f, firsts), moved(t, firsts), label) for f, t, label in graph.edges if parts_of(f)[1][0] in drawn]
    return boxes, nodes, sorted(edges)


def unfolded(graph, alone, firsts):
    """Yields what of a drawing isn't what that of the network alone says, with devices drawn as one."""
    boxes, nodes, edges = folded(alone, firsts)
    if graph.boxes != boxes:
        yield f"boxes {graph.boxes}, not {boxes}"
    drawn = {n: it for n, it in graph.nodes.items() if not n.startswith(("packets", "outcome"))}
    if drawn != nodes:
        yield f"nodes {sorted(set(map(str, drawn.items())) ^ set(map(str, nodes.items())))[:4]}"
    if sorted(graph.edges) != edges:
        yield f"edges {sorted(set(graph.edges) ^ set(edges))[:4]}"


# ---- what an answer marks

def ways_of(graph, report):
    """The edges on which records of the caches that count packets may reach the report."""
    after, before = {}, {}
    for start, end, _ in graph.edges:
        after.setdefault(start, set()).add(end)
        before.setdefault(end, set()).add(start)

    def reached(starts, edges):
        found, left = set(), list(starts)
        while left:
            node = left.pop()
            if node not in found:
                found.add(node)
                left += edges.get(node, ())
        return found

    counted = {b for colour, a, b, label in graph.marked if colour == "darkgreen" and label and b.startswith("cache")}
    from_caches, to_report = reached(counted, after), reached([report], before)
    return {(a, b) for a, ends in after.items() for b in ends if a in from_caches and b in to_report}


def report_in(network):
    """The node of the collecting process of the report."""
    report = network["report"]
    for number, device in enumerate(network["devices"], 1):
        for at, process in enumerate(device["config"]["ietf-ipfix-psamp:ipfix"].get("collectingProcess", []), 1):
            if (device["name"], process["name"]) == (report["device"], report["collectingProcess"]):
                return f"collector{number}_{at}_0"
    return None


def leaves(certificate):
    """The places that a certificate's leaves name, each once: class, path, crossing, point and process."""
    found, at = set(), None
    for line in certificate.splitlines():
        words = line.split()
        if words[:1] == ["class"]:
            at = (words[1], words[3])
        elif words[:1] == ["L"]:
            found.add((*at, words[1], words[2]))
    return found


def unmarked(graph, network, text, firsts, number):
    """Yields what of the marks isn't what a certificate or a refutation says; of one class alone if its number is given."""
    if text.startswith("once-certificate"):
        ways = {(a, b) for colour, a, b, label in graph.marked if colour == "darkgreen" and not label}
        due = ways_of(graph, moved(report_in(network), firsts))
        if ways != due:
            yield f"ways {sorted(ways ^ due)[:4]}"
        marks = {(a, b, label) for colour, a, b, label in graph.marked if colour == "darkgreen" and a.startswith("packets")}
        told = {(f"packets{c}_{p}_0", int(point), f"counted at crossing {x}") for c, p, x, point in leaves(text) if number in (None, int(c))}
        drawn = {(a, int(b.split("_")[1]), label) for a, b, label in marks}
        if drawn != told:
            yield f"counted {sorted(drawn ^ told)[:4]}"
    else:
        steps = {int(label.split()[1].rstrip(":")) for colour, a, b, label in graph.marked if colour == "darkorange"}
        lines = [l for l in text.splitlines() if l.split()[0] in ("cross", "expire", "arrive")]
        moving = {n for n, l in enumerate(lines, 1) if l.split()[0] != "cross"}
        if not moving <= steps or max(steps, default=0) > len(lines):
            yield f"steps {sorted(steps)} of {len(lines)}"
        if "outcome0_0_0" not in graph.nodes:
            yield "it doesn't say what the run comes to"


def hostile(network):
    """The same network with names that DOT would take for its own signs."""
    text = json.dumps(network)
    for at, device in enumerate(network["devices"]):
        name = device["name"]
        text = text.replace(json.dumps(name), json.dumps(f'{name}"];\\ }}{{<b> {at}'))
    return json.loads(text)


class Drawer:
    def __init__(self, program, dot):
        self.program, self.dot, self.folded = program, dot, 0

    def run(self, *words):
        return program.run([self.program, *words])

    def graph(self, *words):
        done = self.run("draw", *words)
        assert done.returncode == 0, f"status {done.returncode}: {done.stdout[:80]!r}"
        return done.stdout, Graph(done.stdout.decode())

    def faults(self, network, texts, number, words):
        """Yields the faults of a drawing, of the paths of one class alone if its number is given."""
        document = loaded(network)
        alone = self.graph(network)[1]
        if not texts:
            yield from unlike(alone, document)
            return
        traffic, text = loaded(texts[0]), read(texts[1]) if len(texts) == 2 else ""
        apart = set() if text.startswith("once-certificate") else devices_of_run(document, traffic, text)
        firsts = folding(alone, apart)
        graph = self.graph(network, *texts, *words)[1]
        yield from unfolded(graph, alone, firsts)
        for devices in alike_in(document, apart):
            self.folded += 1
            if len({firsts[it] for it in devices}) > 1:
                yield f"devices {devices} are alike, and not one box"
        due = unseen_of(document, traffic)
        classes = {number} if number else {at for at, _ in enumerate(traffic["classes"], 1)}
        run = re.search(r"(?m)^packet (\d+) ", text)
        classes |= {int(run[1])} if run else set()
        due = {name: line for name, line in due.items() if parts_of(name)[1][0] in classes}
        if unseen_in(graph) != due:
            yield f"unseen {unseen_in(graph)}, not {due}"
        paths = {f"packets{c}_{p}_0" for c in classes for p, _ in enumerate(traffic["classes"][c - 1]["paths"], 1)}
        if {n for n in graph.nodes if n.startswith("packets")} != paths:
            yield "other paths are drawn"
        if text:
            yield from unmarked(graph, document, text, firsts, number)

    def draw(self, what, network, *texts, number=None, words=()):
        """Draws, and compares with the network's document: gives what was drawn, and its faults."""
        try:
            faults = list(self.faults(network, texts, number, words))
            if self.dot and what.startswith("examples"):
                taken = program.run([self.dot, "-Tcanon"], given=self.graph(network, *texts)[0], stdout=program.NOWHERE)
                if taken.returncode or taken.stderr:
                    faults.append(f"dot: {taken.stderr.decode()[:100]}")
        except AssertionError as fault:
            faults = [str(fault)]
        return what, faults

    def draw_classes(self, what, network, traffic, answer):
        """Draws each class alone, and one that isn't there."""
        for number, one in enumerate(loaded(traffic)["classes"], 1):
            words = (f"--class={one['name']}",)
            yield self.draw(f"{what}, class {number}", network, traffic, answer, number=number, words=words)
        done = self.run("draw", network, traffic, answer, "--class=no such class")
        found = done.returncode, done.stdout
        yield f"{what}, no class", [] if found == (2, b"refused 107 /classes\n") else [f"no class has the name: {found}"]


def read(path):
    with open(path, encoding="utf-8") as file:
        return file.read()


def loaded(path):
    return json.loads(read(path))


def drawings(drawer):
    """Draws each network, alone, with its traffic, with the answer of its audit, and with strange names."""
    with tempfile.TemporaryDirectory() as at:
        for folder in sorted(glob.glob(f"{TOP}/examples/*/") + glob.glob(f"{TOP}/tests/rows/*/")):
            what = os.path.relpath(folder, TOP)
            network, traffic = f"{folder}network.json", f"{folder}traffic.json"
            if not os.path.exists(network) or drawer.run("lint", network).returncode:
                continue
            yield drawer.draw(what, network)
            strange = os.path.join(at, "network.json")
            with open(network, encoding="utf-8") as file, open(strange, "w", encoding="utf-8") as other:
                json.dump(hostile(json.load(file)), other)
            if not drawer.run("lint", strange).returncode:
                yield drawer.draw(f"{what} with strange names", strange)
            if not os.path.exists(traffic) or drawer.run("lint", network, traffic).returncode:
                continue
            yield drawer.draw(f"{what} with traffic", network, traffic)
            answer = os.path.join(at, "answer.txt")
            done = drawer.run("audit", network, traffic)
            if done.returncode in (0, 1) and len(done.stdout) < 1_000_000:
                with open(answer, "wb") as file:
                    file.write(done.stdout)
                yield drawer.draw(f"{what} with its answer", network, traffic, answer)
                yield from drawer.draw_classes(what, network, traffic, answer)
    yield "alike devices", [] if drawer.folded else ["no network has three of them, so nothing was drawn as one"]


def main(words):
    dot = words[1] if len(words) > 1 else shutil.which("dot")
    if not dot:
        not_run("drawings through dot", "there is no dot (Debian's package graphviz)")
    return report_named(drawings(Drawer(os.path.abspath(words[0]), dot)))


if __name__ == "__main__":
    sys.exit(main(sys.argv[1:]))
