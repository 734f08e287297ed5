"""The reports of the examples, with a page that lists them."""
from __future__ import annotations

from pathlib import Path

from once_tools.model import Failed, Place
from once_tools.reporting.asking import Question
from once_tools.reporting.making import Wanted, make
from once_tools.reporting.page import Page, encoded, html_of, templates

HERE = Path(__file__).resolve()
# In the repository, and where `make install` puts them.
EXAMPLES = (HERE.parents[3] / "examples", HERE.parents[3] / "doc" / "once" / "examples")


def examples_in(folder: Path | None) -> list[Path]:
    """Returns the folders of a folder that have a network and a traffic document."""
    top = folder if folder else next((one for one in EXAMPLES if one.is_dir()), EXAMPLES[0])
    found = sorted(one.parent for one in top.glob("*/network.json") if (one.parent / "traffic.json").exists())
    if not found:
        raise Failed(Place(str(top)), "there are no examples", "name their folder by --examples FOLDER")
    return found


def index_of(pages: list[tuple[str, Page]]) -> str:
    """Returns the page that lists reports, by the names of their files without `.html`."""
    found: str = templates().get_template("index.html.j2").render(pages=pages)
    return found


def build_demo(program: str, folder: Path, examples: Path | None) -> list[str]:
    """Writes the report of each example and an index into a folder; returns remarks."""
    folder.mkdir(parents=True, exist_ok=True)
    pages: list[tuple[str, Page]] = []
    remarks: list[str] = []
    for example in examples_in(examples):
        title = example.name.replace("-", " ").capitalize()
        made = make(program, Wanted(Question(example / "network.json", example / "traffic.json"), title))
        (folder / f"{example.name}.html").write_bytes(encoded(html_of(made.page)))
        pages.append((example.name, made.page))
        remarks += [f"{example.name}: {one}" for one in made.remarks]
    (folder / "index.html").write_bytes(encoded(index_of(pages)))
    return remarks
