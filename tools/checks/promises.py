"""The rows of docs/PROMISES.md: what a row names is in the files that it cites, and its edits are those that name it.

A row belongs to a table whose first column is `id` and which has a column `edits`. An edit says by its line `row:` which
rows it shows; the column is written from these lines (`tools/check --write`), a crate at a time."""
import os

from . import documents
from .edits import every, read, rows_of

PAGE = "docs/PROMISES.md"


def cells(line):
    """The cells of a table's line, without its outer bars."""
    return [cell.strip() for cell in line.strip().strip("|").split("|")]


def is_table(line):
    return line.startswith("|")


def rows(top):
    """Each row with an id: (line number, the header's cells, the row's cells)."""
    header, found = None, []
    for number, line in enumerate(read(os.path.join(top, PAGE)).split("\n"), 1):
        if not is_table(line):
            header = None
        elif header is None:
            header = cells(line)
        elif header[0] == "id" and "edits" in header and not line.startswith("|---"):
            found.append((number, header, cells(line)))
    return found


def order(top):
    """The crates in the order of crates.txt."""
    with open(os.path.join(top, "crates.txt"), encoding="utf-8") as opened:
        return [line.split(":")[0].split()[0] for line in opened if ":" in line and not line.startswith("#")]


def columns(top):
    """What the column `edits` says for each row that some edit names."""
    by_row = {}
    for crate, name, path in every(top):
        for row in rows_of(path):
            by_row.setdefault(row, {}).setdefault(crate, []).append(name)
    rank = {crate: place for place, crate in enumerate(order(top))}
    return {row: "; ".join(f"{crate}: " + ", ".join(f"`{name}`" for name in by_row[row][crate])
                           for crate in sorted(by_row[row], key=lambda crate: rank.get(crate, 999)))
            for row in by_row}


def unplaced(top):
    """An edit that names no row, or one that is not there; an id that two rows have."""
    errors, known = [], {}
    for number, _, row in rows(top):
        if row[0] in known:
            errors.append(f"{PAGE}:{number}: the id {row[0]} is also in line {known[row[0]]}")
        known[row[0]] = number
    for _, _, path in every(top):
        shown = os.path.relpath(path, top)
        if not rows_of(path):
            errors.append(f"{shown}:1: no line `row:` says which row of {PAGE} it shows")
        errors += [f"{shown}:1: no row {row} in {PAGE}" for row in rows_of(path) if row not in known]
    return errors


def stale(top):
    """A column of edits that is not what the edits say."""
    errors, right = [], columns(top)
    for number, header, row in rows(top):
        if len(row) != len(header):
            errors.append(f"{PAGE}:{number}: {len(row)} cells, and its table has {len(header)}")
        elif row[header.index("edits")] != right.get(row[0], ""):
            errors.append(f"{PAGE}:{number}: the edits of {row[0]} are others: run tools/check --write")
    return errors


def write(top):
    """Writes the columns of edits anew; the ids of the rows that changed."""
    path, right = os.path.join(top, PAGE), columns(top)
    lines, changed = read(path).split("\n"), []
    for number, header, row in rows(top):
        if len(row) == len(header) and row[header.index("edits")] != right.get(row[0], ""):
            row[header.index("edits")] = right.get(row[0], "")
            lines[number - 1] = "| " + " | ".join(row) + " |"
            changed.append(row[0])
    with open(path, "w", encoding="utf-8") as opened:
        opened.write("\n".join(lines))
    return changed


def mended(index, header, row):
    """The row with each lost file of its column `file` replaced by the one of its crate that has what the row names."""
    place = header.index("file")
    spans = documents.SPAN.findall(row[header.index("theorem or contract")])
    names = {documents.parts_of(span)[-1] for span in spans if documents.parts_of(span)}
    tokens = documents.PATH.findall(row[place])
    there = [path for token in tokens for path in documents.resolve(index, PAGE, token)]
    left = {name for name in names if not any(name in index.of_file.get(path, ()) for path in there)}
    for token in tokens:
        crate = token.split("/")[0]
        files = index.under(f"crates/{crate}", "*" + os.path.splitext(token)[1])
        mine = [name for name in left if any(name in index.of_file[path] for path in files)]
        path = None if documents.resolve(index, PAGE, token) else documents.home(index, crate, mine, token)
        row[place] = row[place].replace(token, documents.shown(PAGE, path)) if path else row[place]
    return row


def mend(index):
    """Writes the column `file` anew where a file of it is lost and can be told from what the row names."""
    path = os.path.join(index.top, PAGE)
    lines = read(path).split("\n")
    for number, header, row in rows(index.top):
        if "file" in header and len(row) == len(header):
            lines[number - 1] = "| " + " | ".join(mended(index, header, row)) + " |"
    with open(path, "w", encoding="utf-8") as opened:
        opened.write("\n".join(lines))


def out_of_files(index):
    """A theorem or contract of a row that is in none of the files that the row cites."""
    errors = []
    for number, header, row in rows(index.top):
        if "file" not in header or len(row) != len(header):
            continue
        line = "| " + " | ".join(row) + " |"
        files = [path for hit in documents.PATH.finditer(line)
                 for path in documents.resolve(index, PAGE, hit[1], documents.crate_before(index, line, hit.start()))]
        for span in documents.SPAN.findall(row[header.index("theorem or contract")]):
            parts = documents.parts_of(span)
            name = parts[-1] if parts else None
            if files and name in index.of_name and name not in index.crates and not any(name in index.of_file.get(path, ()) for path in files):
                errors.append(f"{PAGE}:{number}: {name} is in no file that the row cites{documents.where(index, name)}")
    return errors


def check(index):
    return unplaced(index.top) + stale(index.top) + out_of_files(index)
