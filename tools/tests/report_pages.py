"""Reports for tests: the pages of examples and of documents with faults and hostile names, parsed."""
from __future__ import annotations

import json
from html.parser import HTMLParser
from pathlib import Path
from typing import Any

from once_tools import report_main

TOP = Path(__file__).resolve().parents[2]
EXAMPLES = TOP / "examples"
SHARED, TWICE, EXEMPT = (EXAMPLES / name for name in ("two-meters-share-by-filters", "one-path-metered-twice", "management-that-nobody-bills"))
NAMES = sorted(it.parent.name for it in EXAMPLES.glob("*/network.json"))
VOID = ("meta", "input", "br", "link", "img")
HOSTILE = '<script>alert("1")</script>'
PAGES = [*NAMES, "index", "refused", "undecided", "hostile"]


class Html(HTMLParser):
    """A page: its elements with their attributes, the texts of each, and what is not balanced."""

    def __init__(self, text: str) -> None:
        super().__init__(convert_charrefs=True)
        self.elements: list[tuple[str, dict[str, str]]] = []
        self.faults: list[str] = []
        self.rows: list[list[str]] = []
        self.texts: list[tuple[str, str]] = []
        self.open: list[str] = []
        self.feed(text)
        self.close()
        self.faults += [f"<{one}> is not closed" for one in self.open]

    def handle_starttag(self, tag: str, attrs: list[tuple[str, str | None]]) -> None:
        self.elements.append((tag, {name: value or "" for name, value in attrs}))
        if tag == "tr":
            self.rows.append([])
        if tag in ("td", "th"):
            self.rows[-1].append("")
        if tag not in VOID:
            self.open.append(tag)

    def handle_startendtag(self, tag: str, attrs: list[tuple[str, str | None]]) -> None:
        self.handle_starttag(tag, attrs)
        if tag not in VOID:
            self.open.pop()

    def handle_endtag(self, tag: str) -> None:
        if not self.open or self.open.pop() != tag:
            self.faults.append(f"</{tag}> at {self.getpos()} closes nothing that is open")

    def handle_data(self, data: str) -> None:
        self.texts.append((self.open[-1] if self.open else "", data))
        if {"td", "th"} & set(self.open) and self.rows and self.rows[-1]:
            self.rows[-1][-1] += data

    def values(self, attribute: str) -> list[str]:
        return [attributes[attribute] for _, attributes in self.elements if attribute in attributes]

    def text(self) -> str:
        return " ".join(" ".join(data for tag, data in self.texts if tag != "style").split())


def report(once: str, *words: str | Path) -> int:
    return report_main.main([*map(str, words), "--once", once])


def made(once: str, folder: Path, *words: str | Path) -> tuple[int, Html]:
    """Returns the exit status and the page of a report."""
    status = report(once, *words, "--out", folder / "made.html")
    return status, Html((folder / "made.html").read_text(encoding="utf-8"))


def documents(example: Path) -> tuple[Path, Path]:
    return example / "network.json", example / "traffic.json"


def value_of(path: Path) -> dict[str, Any]:
    found: dict[str, Any] = json.loads(path.read_text(encoding="utf-8"))
    return found


def page(demo: Path, name: str) -> Html:
    return Html((demo / f"{name}.html").read_text(encoding="utf-8"))


def hostile_documents() -> tuple[dict[str, Any], dict[str, Any]]:
    """Returns the documents of a refuted example whose names would be markup."""
    network, traffic = value_of(TWICE / "network.json"), value_of(TWICE / "traffic.json")
    text = json.dumps([network, traffic]).replace('"edge-router"', json.dumps(HOSTILE)).replace('"customers"', json.dumps("</title><img src=x onerror=alert(2)>"))
    text = text.replace('"customer side"', json.dumps("</svg>&lt;]]><style>*{}</style>")).replace('"eth0"', json.dumps("e' onload='alert(3)"))
    text = text.replace('"all packets"', json.dumps("\u202eall packets"))
    network, traffic = json.loads(text)
    return network, traffic


def build(once: str, folder: Path) -> None:
    """Writes the reports of the examples into a folder, and three others: refused, undecided and hostile."""
    assert report_main.main(["--demo", str(folder), "--once", once]) == 0
    wrong = folder / "wrong.json"
    wrong.write_text(SHARED.joinpath("network.json").read_text(encoding="utf-8").replace('"cache": "by source"', '"cache": "by sauce"'), encoding="utf-8")
    assert report(once, wrong, SHARED / "traffic.json", "--out", folder / "refused.html") == 2
    assert report(once, *documents(SHARED), "--limit", "1", "--out", folder / "undecided.html") == 1
    network, traffic = hostile_documents()
    (folder / "n.json").write_text(json.dumps(network), encoding="utf-8")
    (folder / "t.json").write_text(json.dumps(traffic), encoding="utf-8")
    assert report(once, folder / "n.json", folder / "t.json", "--title", HOSTILE, "--out", folder / "hostile.html") == 1
