"""The pages of once-report are sound HTML, accessible, without parts from elsewhere, and names in documents are no markup."""
from __future__ import annotations

import re
from collections import Counter
from pathlib import Path

import pytest
from report_pages import HOSTILE, NAMES, PAGES, Html, page


def test_names_are_no_markup(demo: Path) -> None:
    html = page(demo, "hostile")
    tags = {tag for tag, _ in html.elements}
    assert not tags & {"script", "img", "iframe", "object", "embed", "foreignobject"}
    assert not [name for _, attributes in html.elements for name in attributes if name.startswith("on")]
    assert Counter(tag for tag, _ in html.elements)["style"] == 1
    said = html.text()
    assert HOSTILE in said and "</title><img src=x onerror=alert(2)>" in said and "</svg>&lt;]]><style>*{}</style>" in said
    assert [data for tag, data in html.texts if tag == "h1"] == [HOSTILE]
    assert HOSTILE in {data for tag, data in html.texts if tag == "text"}
    assert "\u202e" not in said and "\\u202eall packets" in said


@pytest.mark.parametrize("name", PAGES)
def test_pages_are_sound_html(name: str, demo: Path) -> None:
    text = (demo / f"{name}.html").read_text(encoding="utf-8")
    html = Html(text)
    assert text.startswith("<!DOCTYPE html>\n") and not html.faults
    identifiers = html.values("id")
    assert len(identifiers) == len(set(identifiers))
    references = {it for attribute in ("aria-labelledby", "for") for it in html.values(attribute)} | {it[1:] for it in html.values("href") if it.startswith("#")}
    assert references <= set(identifiers)
    levels = [int(tag[1]) for tag, _ in html.elements if re.fullmatch("h[1-6]", tag)]
    assert levels[0] == 1 and levels.count(1) == 1 and all(after <= before + 1 for before, after in zip(levels, levels[1:]))
    tags = Counter(tag for tag, _ in html.elements)
    titles = [attributes for tag, attributes in html.elements if tag == "title" and "id" not in attributes]
    assert tags["main"] == tags["header"] == len(titles) == 1 and dict(html.elements)["html"] == {"lang": "en"}


@pytest.mark.parametrize("name", PAGES)
def test_pages_are_accessible(name: str, demo: Path) -> None:
    html = page(demo, name)
    assert all(attributes.get("scope") in ("row", "col") for tag, attributes in html.elements if tag == "th")
    assert Counter(tag for tag, _ in html.elements)["caption"] == Counter(tag for tag, _ in html.elements)["table"]
    pictures = [attributes for tag, attributes in html.elements if tag == "svg"]
    titles = {attributes["id"] for tag, attributes in html.elements if tag == "title" and "id" in attributes}
    assert all(it["role"] == "img" and it["aria-labelledby"] in titles for it in pictures)
    assert name not in NAMES or pictures
    assert name == "index" or html.elements[[tag for tag, _ in html.elements].index("body") + 1] == ("a", {"class": "skip", "href": "#main"})


@pytest.mark.parametrize("name", PAGES)
def test_pages_need_nothing_from_elsewhere(name: str, demo: Path) -> None:
    html = page(demo, name)
    assert all(it.startswith("#") or name == "index" and (demo / it).exists() for it in html.values("href"))
    assert not html.values("src") and not html.values("xlink:href") and not html.values("action")
    assert not {"script", "link", "iframe", "img"} & {tag for tag, _ in html.elements}
    style = "".join(data for tag, data in html.texts if tag == "style")
    assert "url(" not in style and "@import" not in style and "http" not in style
    assert "default-src 'none'; style-src 'unsafe-inline'" in html.values("content")


def luminance(color: str) -> float:
    parts = [int(color[at:at + 2], 16) / 255 for at in (1, 3, 5)]
    linear = [it / 12.92 if it <= 0.04045 else ((it + 0.055) / 1.055) ** 2.4 for it in parts]
    return 0.2126 * linear[0] + 0.7152 * linear[1] + 0.0722 * linear[2]


def contrast(one: str, other: str) -> float:
    high, low = sorted((luminance(one), luminance(other)), reverse=True)
    return (high + 0.05) / (low + 0.05)


@pytest.mark.parametrize("scheme", [0, 1], ids=["light", "dark"])
def test_contrast(scheme: int, demo: Path) -> None:
    style = "".join(data for tag, data in page(demo, NAMES[0]).texts if tag == "style")
    colors = dict(re.findall(r"--([\w-]+): (#[0-9a-f]{6})", re.findall(r":root \{(.*?)\}", style, re.S)[scheme]))
    texts = [*((ink, ground) for ink in ("ink", "dim", "link") for ground in ("ground", "panel")),
             *((ink, f"{grade}-ground") for grade in ("good", "bad", "doubt") for ink in ("ink", grade)),
             *((ink, "panel") for ink in ("traffic", "counted", "step", "wrong"))]
    assert not [(ink, ground) for ink, ground in texts if contrast(colors[ink], colors[ground]) < 4.5]
    assert all(contrast(colors["line"], colors[ground]) >= 3 for ground in ("ground", "panel"))
    assert round(contrast("#000000", "#ffffff"), 3) == 21
