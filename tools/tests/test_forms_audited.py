"""Other forms of a vendor's configuration, from text to the answer of `once`: what it answers was worked out by hand."""
from __future__ import annotations

from pathlib import Path

import pytest

from cases import audited
from expected import SAMPLES
from once_tools.importing import Imported
from projects import REPORT, made

PROJECT = REPORT + '[[devices]]\nname = "r"\nkind = "{kind}"\nconfig = "r.cfg"\n' \
    '[[collectors]]\nname = "billing"\nlisten = ["192.0.2.10:4739"]\n' \
    '[[traffic]]\nname = "up"\nsource = "{source}"\ndestination = "{destination}"\nfrom = ["r:{start}"]\nto = ["r:{end}"]\n'

# A form, traffic with its ways in and out, and the first line of the answer.
CASES = [
    # Each packet that comes in at the customer's interface is sampled there alone.
    ("nokia-sros", "nokia-sros/pe-1.curly", "10.8.0.0/16", "203.0.113.0/24", "customer-g", "to-core-1", "once-certificate 1"),
    ("nokia-sros", "nokia-sros/pe-1.flat", "10.8.0.0/16", "203.0.113.0/24", "customer-g", "to-core-1", "once-certificate 1"),
    ("vyos", "vyos/gw-1.boot", "10.9.0.0/16", "203.0.113.0/24", "eth0", "eth1", "once-certificate 1"),
    ("huawei", "huawei-vrp/ne-2.cfg", "10.7.0.0/16", "203.0.113.0/24", "GigabitEthernet0/1/0", "GigabitEthernet0/1/1",
     "once-certificate 1"),
    # The filter samples customers' packets, but those to 10.9.0.0/16.
    ("nokia-sros", "nokia-sros/pe-2.cfg", "10.0.0.0/8", "203.0.113.0/24", "a", "b", "once-certificate 1"),
    ("nokia-sros", "nokia-sros/pe-2.curly", "192.168.0.0/16", "203.0.113.0/24", "a", "b", "once-certificate 1"),
    ("nokia-sros", "nokia-sros/pe-2.cfg", "10.0.0.0/8", "10.0.0.0/8", "a", "b", "once-refutation 2"),
    ("nokia-sros", "nokia-sros/pe-2.cfg", "172.16.0.0/16", "203.0.113.0/24", "a", "b", "once-refutation 2")]


def imported(folder: Path, kind: str, file: str, source: str, destination: str, start: str, end: str) -> Imported:
    text = (SAMPLES / file).read_text()
    if end == "b":  # an interface without sampling to leave by
        text = text.replace('        interface "a"\n', '        interface "b"\n            port 1/1/2\n        exit\n        interface "a"\n')
        text = text.replace('        interface "a" {\n', '        interface "b" {\n            port 1/1/2\n        }\n        interface "a" {\n')
    project = PROJECT.format(kind=kind, source=source, destination=destination, start=start, end=end)
    return made(folder, project, r_cfg=text)


@pytest.mark.parametrize("kind, file, source, destination, start, end, answer", CASES)
def test_a_form_is_audited(once: str, tmp_path: Path, kind: str, file: str, source: str, destination: str, start: str, end: str,
                           answer: str) -> None:
    found = imported(tmp_path, kind, file, source, destination, start, end)
    (pair,) = found.pairs
    assert audited(once, pair, tmp_path / "made").startswith(answer)
