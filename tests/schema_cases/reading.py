"""The cases of cases.txt: a line is a document with one change, with what the program and the schema say of it."""
import copy
import json
import os
import re

HERE = os.path.dirname(os.path.abspath(__file__))


def document(kind):
    with open(os.path.join(HERE, kind + ".json"), encoding="utf-8") as file:
        return json.load(file)


def steps(place):
    """The members and numbers that a place goes through."""
    place = re.sub(r"^~(\d+)", r"/devices/\1/config/ietf-ipfix-psamp:ipfix", place)
    return [int(step) if step.isdigit() else step for step in place.split("/")[1:]]


def found(whole, place):
    for step in steps(place):
        whole = whole[step]
    return whole


def value_of(text, whole):
    """What the text of a change puts into the document."""
    if text.startswith("@"):
        return copy.deepcopy(found(whole, text[1:]))
    many = re.match(r"([*&])(\d+) ", text)
    if not many:
        return json.loads(text)
    rest, count = text[many.end():], int(many[2])
    if many[1] == "&":
        return json.loads(rest) * count
    return [json.loads(rest.replace("%", str(number))) for number in range(1, count + 1)]


def changed(kind, place, text):
    """The document of this kind with one change."""
    whole = document(kind)
    if place == ".":
        return value_of(text, whole)
    *way, last = steps(place)
    holder = whole
    for step in way:
        holder = holder[step]
    if not text:
        del holder[last]
    elif last == "-":
        holder.append(value_of(text, whole))
    else:
        holder[last] = value_of(text, whole)
    return whole


def cases():
    """Of each case its line, what the program says, whether the schema refuses it, the kind, and the document."""
    with open(os.path.join(HERE, "cases.txt"), encoding="utf-8") as file:
        text = file.read().replace("\n  ", " ")
    for line in text.splitlines():
        if line and not line.startswith("#"):
            said, seen, kind, place, value = (line.split(" ", 4) + [""])[:5]
            yield line[:100], said, seen == "yes", kind, changed(kind, place, value)
