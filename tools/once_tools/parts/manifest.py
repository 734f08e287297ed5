"""The manifest of parts, as `once-part cut` writes it."""
from __future__ import annotations

from dataclasses import dataclass
from pathlib import Path

from once_tools.parts.loading import read_document

NAME = "manifest.json"


@dataclass(frozen=True)
class PartEntry:
    """What a manifest says of a part: its folder, and its classes by name in the part's order."""

    name: str
    folder: Path
    classes: tuple[str, ...]
    devices: tuple[str, ...]

    @property
    def network(self) -> Path:
        return self.folder / "network.json"

    @property
    def traffic(self) -> Path:
        return self.folder / "traffic.json"

    @property
    def certificate(self) -> Path:
        return self.folder / "certificate.txt"

    @property
    def refutation(self) -> Path:
        return self.folder / "refutation.txt"


@dataclass(frozen=True)
class Manifest:
    """The parts, and the SHA-256 digests of what was cut."""

    network: str
    traffic: str
    parts: tuple[PartEntry, ...]


def read_manifest(folder: Path) -> Manifest:
    """Returns the manifest of a folder; raises `Unusable`."""
    root = read_document(folder / NAME).root
    parts = []
    for one in root.member("parts").entries():
        name = one.text_at("folder")
        if not name.isalnum():
            raise one.member("folder").wrong(f"is no folder of a part: '{name}'", "cut the network again")
        classes = tuple(it.text_at("name") for it in one.member("classes").entries())
        parts.append(PartEntry(name, folder / name, classes, one.texts("devices")))
    digests = root.member("sha256")
    return Manifest(digests.text_at("network"), digests.text_at("traffic"), tuple(parts))
