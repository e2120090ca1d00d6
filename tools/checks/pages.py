"""Rules of single pages: no history, decisions numbered without a gap, differences with tags of their own."""
import os, re

from .allowed import PASSES
from .documents import documents
from .edits import read
from .names import tracked

# a text of the project says how things are, not when or on whose account they came
HISTORY = re.compile(r"\bissues? \d|\bissue'?s\b|\bparts? [1-9]\b|\bfor now\b|\bat the moment\b|\blater parts\b|\bthis session\b"
                     r"|\bDESIGN\b|\bORDERS\.md\b|\bshould come to it\b")
TEXTS = (".md", ".rt", ".antt", ".py", ".rs", ".c", ".h", ".edit", ".txt", ".toml")
THIS = "tools/checks/pages.py"


def is_text(path):
    return path.endswith(TEXTS) or (path.startswith(("tools/", "bench/", ".ci/")) and "." not in os.path.basename(path))


def history(top):
    errors = []
    for path in tracked(top):
        if not is_text(path) or path in (THIS, "tools/checks/allowed.py") or path in PASSES:
            continue
        for number, line in enumerate(read(os.path.join(top, path)).split("\n"), 1):
            hit = HISTORY.search(line)
            if hit:
                errors.append(f"{path}:{number}: history or another page: {hit[0]}")
    return errors


def decisions(top):
    """The decisions are 1, 2, 3, .. in order, and whoever cites one cites one that is there."""
    page, errors, last = "docs/DECISIONS.md", [], 0
    for number, line in enumerate(read(os.path.join(top, page)).split("\n"), 1):
        hit = re.match(r"(\d+)\. \*\*", line)
        if hit and int(hit[1]) != last + 1:
            errors.append(f"{page}:{number}: decision {hit[1]} comes after {last}")
        last = int(hit[1]) if hit else last
    for doc in documents(top):
        for number, line in enumerate(read(os.path.join(top, doc)).split("\n"), 1):
            cited = re.findall(r"DECISIONS (\d+)", line)
            errors += [f"{doc}:{number}: there is no decision {cite}" for cite in cited if not 0 < int(cite) <= last]
    return errors


def differences(top):
    """Each entry has a tag of its own; the tags of the comparison's table are those that the oracle counts."""
    page, errors = "docs/DIFFERENCES.md", []
    text, seen = read(os.path.join(top, page)), {}
    for number, line in enumerate(text.split("\n"), 1):
        hit = re.match(r"### ([A-Z]\d+)\b", line)
        if hit and hit[1] in seen:
            errors.append(f"{page}:{number}: {hit[1]} is also the entry of line {seen[hit[1]]}")
        if hit:
            seen[hit[1]] = number
    tags = "oracle/src/tags.rs"
    counted = re.findall(r'^    \("([^"]+)", (?:Departure|Outside|Rule)', read(os.path.join(top, tags)), re.M)
    for tag in counted:
        if not re.search(rf"(?<![\w-]){tag}(?![\w-])", text):
            errors.append(f"{tags}:1: {page} does not name the tag {tag}")
        if re.fullmatch(r"[A-Z]\d+", tag) and tag not in seen:
            errors.append(f"{tags}:1: {page} has no entry {tag}")
    said = re.findall(r"^- Counted: (?!not)([A-Z]\d*)", text, re.M)
    errors += [f"{page}:1: an entry is counted as {tag}, which the oracle does not count" for tag in said if tag not in counted]
    return errors


def quotes(top, document):
    """What a document has in quotation marks and the given document does not have, word for word."""
    plain = " ".join(read(document).split())
    errors = []
    for doc in documents(top):
        for number, line in enumerate(read(os.path.join(top, doc)).split("\n"), 1):
            for quote in re.findall(r'"([^"]+)"', re.sub(r"`[^`]*`", "", line)):
                pieces = [piece.strip(" .,;:") for piece in quote.split("..")]
                errors += [f"{doc}:{number}: no such words: {piece}" for piece in pieces if piece not in plain]
    return errors


def check(top):
    return history(top) + decisions(top) + differences(top)
