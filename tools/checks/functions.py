"""The public functions of the libraries: those that ask something of their caller, those not fixed by their contract.

docs/PROMISES.md has a table for each of the two, by crate; their second columns are written by `tools/check --write`."""
import glob, os, re

from .edits import read
from .promises import PAGE, cells, is_table, order

HEAD = re.compile(r"^( *)pub (?:extern \"C\" )?fn (\w+)", re.M)
CLAUSE = re.compile(r"\bensures(?: \w+)? \{")
# the whole result: the result itself, its one field, or a record of it with every lent row as the call leaves it
WHOLE = re.compile(r"^\(?result(?:\.0)? ≡|^\(?[a-z_]+ result \w+\.new\b")


def contract(text, start):
    """The lines of a function from its name to its body."""
    lines = []
    for line in text[start:].split("\n"):
        if line.strip() == "{" or (lines and line.startswith(("fn ", "pub ", "}"))):
            break
        lines.append(line)
        if line.rstrip().endswith("{") and not line.strip().startswith(("requires", "ensures")):
            break
    return "\n".join(lines)


def clauses(head):
    """What stands between the braces of each `ensures`, in one line."""
    for hit in CLAUSE.finditer(head):
        end, depth = hit.end(), 1
        while depth and end < len(head):
            depth += {"{": 1, "}": -1}.get(head[end], 0)
            end += 1
        yield " ".join(head[hit.end() : end - 1].split())


def fixes(head):
    """Whether some clause says what the whole result is; a function that gives nothing has its rows as it leaves them."""
    for clause in clauses(head):
        if WHOLE.search(clause) or ("->" not in head and re.search(r"\.new\b.* ≡", clause)):
            return True
    return False


def libraries(top):
    return [crate for crate in order(top) if not os.path.exists(os.path.join(top, "crates", crate, "src", "main.rt"))]


def found(top):
    """For each library the functions with a `requires`, and those whose contract does not fix the result, as module::name."""
    asking, loose = {}, {}
    for crate in libraries(top):
        for path in sorted(glob.glob(os.path.join(top, "crates", crate, "src", "**", "*.rt"), recursive=True)):
            text, module = read(path), os.path.basename(path)[:-3]
            for hit in HEAD.finditer(text):
                head, name = contract(text, hit.start()), f"{module}::{hit[2]}"
                if re.search(r"\brequires(?: \w+)? \{", head):
                    asking.setdefault(crate, []).append(name)
                if not fixes(head):
                    loose.setdefault(crate, []).append(name)
    return {"functions that ask": asking, "not fixed": loose}


def tables(top):
    """The rows of the two tables: (line number, the table's name, the row's cells)."""
    header, rows = None, []
    for number, line in enumerate(read(os.path.join(top, PAGE)).split("\n"), 1):
        if not is_table(line):
            header = None
        elif header is None:
            header = cells(line)
        elif header[0] == "crate" and header[1] in ("functions that ask", "not fixed") and not line.startswith("|---"):
            rows.append((number, header[1], cells(line)))
    return rows


def said(names):
    return ", ".join(f"`{name}`" for name in names)


def stale(top):
    errors, right = [], found(top)
    for name, of in right.items():
        rows = {row[0]: (number, row[1]) for number, table, row in tables(top) if table == name}
        errors += [f"{PAGE}:1: the table `{name}` has no row {crate}: {said(of[crate])}" for crate in of if crate not in rows]
        errors += [f"{PAGE}:{rows[crate][0]}: {crate} has no such function" for crate in rows if crate not in of]
        errors += [f"{PAGE}:{rows[crate][0]}: the functions of {crate} are others: run tools/check --write"
                   for crate in of if crate in rows and rows[crate][1] != said(of[crate])]
    return errors


def write(top):
    """Writes the second columns anew; the crates of the rows that changed."""
    path, right, changed = os.path.join(top, PAGE), found(top), []
    lines = read(path).split("\n")
    for number, name, row in tables(top):
        if row[0] in right[name] and row[1] != said(right[name][row[0]]):
            row[1] = said(right[name][row[0]])
            lines[number - 1] = "| " + " | ".join(row) + " |"
            changed.append(row[0])
    with open(path, "w", encoding="utf-8") as opened:
        opened.write("\n".join(lines))
    return changed
