"""once join says yes of what once-part cut and audit make, and no of damaged parts, by the number and place that the damage calls for."""
from __future__ import annotations

import io
import json
import shutil
from pathlib import Path

import pytest
from once_tools import part_main
from once_tools.once_program import Run, run_once
from once_tools.parts import packing
from once_tools.parts.bundling import write_bundles
from once_tools.parts.cutting import Sources, cut
from once_tools.parts.manifest import read_manifest
from part_networks import COUNTERS, Json, host, link, meter, network, provider, read, traffic_class, write
from test_parts_cut import AXES, cache_by
from test_parts_judged import DAMAGES, certified_provider, generated, verified

PARTS = 3
NETWORKS = 500


@pytest.fixture(scope="module")
def parts(once: str, tmp_path_factory: pytest.TempPathFactory) -> Path:
    return certified_provider(once, tmp_path_factory.mktemp("joined"))


def bundle(folder: Path) -> Path:
    """Writes the text of the parts in a folder; returns its path."""
    with open(folder / "parts.txt", "wb") as out:
        assert write_bundles(read_manifest(folder / "parts").parts, out) == PARTS
    return folder / "parts.txt"


def joined(once: str, folder: Path, *options: str) -> Run:
    return run_once(once, "join", str(folder / "network.json"), str(folder / "traffic.json"), str(folder / "parts.txt"), *options)


def test_certified_parts(parts: Path, once: str) -> None:
    bundle(parts)
    ran = joined(once, parts)
    assert (ran.status, ran.output) == (0, "yes\n")


def test_parts_are_printed(parts: Path, capfdbinary: pytest.CaptureFixture[bytes]) -> None:
    assert part_main.main(["bundle", str(parts / "parts")]) == 0
    assert capfdbinary.readouterr().out == bundle(parts).read_bytes()


def expected(once: str, folder: Path, number: str) -> str:
    """Returns what a join must answer of a folder in which this part is damaged: by `once check`, and by the faults that `verify` finds."""
    part = folder / "parts" / number
    words = [str(part / name) for name in ("network.json", "traffic.json", "certificate.txt")]
    if run_once(once, "check", *words).status != 0:
        return f"no 421 part {int(number)}\n"
    faults = verified(once, folder).faults
    if any(it.startswith(f"part {number}: ") and "the whole has no class" not in it for it in faults):
        return f"no 422 part {int(number)}\n"
    classes = [it["name"] for it in provider()[1]["classes"]]
    uncovered = [classes.index(it.split("'")[1]) for it in faults if it.startswith("class ")]
    return f"no 423 /classes/{min(uncovered)}\n"


@pytest.mark.parametrize("name", DAMAGES)
def test_damaged_parts(name: str, parts: Path, once: str, tmp_path: Path) -> None:
    number, damage, _ = DAMAGES[name]
    shutil.copytree(parts, tmp_path, dirs_exist_ok=True)
    folder = tmp_path / "parts" / number
    documents = read(folder / "network.json"), read(folder / "traffic.json")
    damage(*documents)
    files = write(folder, *documents)
    ran = run_once(once, "audit", *map(str, files))
    if ran.status == 0:
        (folder / "certificate.txt").write_text(ran.output, encoding="utf-8")
    bundle(tmp_path)
    answer = joined(once, tmp_path)
    assert (answer.status, answer.output) == (1, expected(once, tmp_path, number))


@pytest.mark.parametrize("options", [["--explain"], ["--format", "json"]])
def test_a_certificate_of_another_part(options: list[str], parts: Path, once: str, tmp_path: Path) -> None:
    shutil.copytree(parts, tmp_path, dirs_exist_ok=True)
    shutil.copy(parts / "parts" / "0001" / "certificate.txt", tmp_path / "parts" / "0002" / "certificate.txt")
    bundle(tmp_path)
    ran = joined(once, tmp_path, *options)
    assert ran.status == 1
    if options == ["--explain"]:
        assert ran.output.startswith("no 421 part 2\npart 2: a check refuses its certificate: 4")
    else:
        answer = json.loads(ran.output)
        assert (answer["answer"], answer["number"], answer["place"]) == ("no", 421, {"kind": "text", "text": "part 2"})


def test_exchanged_parts(parts: Path, once: str) -> None:
    out = io.BytesIO()
    write_bundles(reversed(read_manifest(parts / "parts").parts), out)
    (parts / "parts.txt").write_bytes(out.getvalue())
    assert joined(once, parts).output == "yes\n"


@pytest.mark.parametrize(("octets", "answer"), [
    (b"", "no 423 /classes/0\n"),
    (b"confirm\n{}\n%%\n{}\n%%\n\n%%\n", "refused 801 part 1\n"),
    (b"check\n{}\n%%\n{}\n%%\n", "refused 801 part 1\n"),
    (b"check\n{}\n%%\n{}\n%%\n\n%%\n", "no 421 part 1\n"),
])
def test_texts_of_parts(octets: bytes, answer: str, parts: Path, once: str, tmp_path: Path) -> None:
    shutil.copytree(parts, tmp_path, dirs_exist_ok=True)
    (tmp_path / "parts.txt").write_bytes(octets)
    assert joined(once, tmp_path).output == answer


def test_what_follows_the_last_part(parts: Path, once: str, tmp_path: Path) -> None:
    shutil.copytree(parts, tmp_path, dirs_exist_ok=True)
    path = bundle(tmp_path)
    path.write_bytes(path.read_bytes() + b"\n")
    assert joined(once, tmp_path).output == f"refused 801 part {PARTS + 1}\n"


def test_a_part_without_a_certificate(parts: Path, tmp_path: Path, capsys: pytest.CaptureFixture[str]) -> None:
    shutil.copytree(parts, tmp_path, dirs_exist_ok=True)
    (tmp_path / "parts" / "0002" / "certificate.txt").unlink()
    assert part_main.main(["bundle", str(tmp_path / "parts")]) == 5
    assert "part 0002" in capsys.readouterr().err


def test_a_whole_that_a_part_no_longer_fits(parts: Path, once: str, tmp_path: Path) -> None:
    shutil.copytree(parts, tmp_path, dirs_exist_ok=True)
    whole: Json = read(tmp_path / "network.json")
    whole["report"]["key"][0].update(prefixLength=9)
    write(tmp_path, whole, read(tmp_path / "traffic.json"))
    bundle(tmp_path)
    assert joined(once, tmp_path).output == "no 422 part 1\n"


def certified_parts(once: str, folder: Path) -> bool:
    """Has `once` audit the parts of a folder; returns whether all have a certificate."""
    for part in read_manifest(folder / "parts").parts:
        ran = run_once(once, "audit", part.network, part.traffic)
        if ran.status != 0:
            return False
        part.certificate.write_text(ran.output, encoding="utf-8")
    return True


def test_joins_of_random_networks(once: str, tmp_path: Path, monkeypatch: pytest.MonkeyPatch) -> None:
    """Parts of one class each: all have certificates where the whole has one, and then the join says yes."""
    monkeypatch.setitem(packing.LIMITS, "classes", 1)
    yes, several = 0, 0
    for seed in range(NETWORKS):
        folder = tmp_path / str(seed)
        files = write(folder, *generated(seed))
        several += len(cut(Sources(*files, folder / "parts", False))) > 1
        is_certified = run_once(once, "audit", *files).status == 0
        assert certified_parts(once, folder) == is_certified, seed
        if is_certified:
            with open(folder / "parts.txt", "wb") as out:
                write_bundles(read_manifest(folder / "parts").parts, out)
            assert joined(once, folder).output == "yes\n", seed
            yes += 1
        shutil.rmtree(folder)
    assert yes >= NETWORKS // 10 and several >= NETWORKS // 4


def test_more_layouts_than_one_audit_allows(once: str, tmp_path: Path) -> None:
    """The whole has 71 layouts and is refused by an audit; each of two parts has 36."""
    keys = [tuple(axis for bit, axis in enumerate(AXES) if number >> bit & 1) for number in range(1, 71)]
    routers = [meter("r0"), meter("r1")]
    for number, one in enumerate(keys):
        cache = {**cache_by(one), "name": f"{number}"}
        cache["timeoutCache"]["cacheLayout"]["cacheField"] += COUNTERS
        routers[number % 2]["config"]["ietf-ipfix-psamp:ipfix"]["cache"].append(cache)
    whole = network([*routers, host("billing")], [link("r0", "billing"), link("r1", "billing")])
    classes = [traffic_class(f"{number}", {}, [f"r{number} eth0 ingress"]) for number in range(2)]
    files = write(tmp_path, whole, {"classes": classes})
    assert run_once(once, "audit", *files).output == "refused 207\n"
    assert len(cut(Sources(*files, tmp_path / "parts", False))) == 2
    assert certified_parts(once, tmp_path)
    with open(tmp_path / "parts.txt", "wb") as out:
        write_bundles(read_manifest(tmp_path / "parts").parts, out)
    assert joined(once, tmp_path).output == "yes\n"
