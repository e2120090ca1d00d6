"""The must-fail edits: where they are, how one is read, whether it still applies, which rows of PROMISES it shows."""
import glob, os

TOP = os.path.dirname(os.path.dirname(os.path.dirname(os.path.abspath(__file__))))


def read(path):
    with open(path, encoding="utf-8") as opened:
        return opened.read()


def pairs(path):
    """The replacements of an edit: file, old text, new text."""
    file, old, found = None, None, []
    for line in read(path).split("\n"):
        if line.startswith("file: "):
            file = line[6:]
        elif line.startswith("old: "):
            old = line[5:]
        elif line.startswith("new:"):
            found.append((file, old, line[5:]))
    return found


def rows_of(path):
    """The rows of PROMISES that an edit shows, as its line `row:` names them: `row: token.1, token.3`."""
    for line in read(path).split("\n"):
        if line.startswith("row:"):
            return [row.strip() for row in line[4:].split(",") if row.strip()]
    return []


def home(top, crate, file):
    """Where a file of an edit lies: in its crate, or below the top for edits of definition and code together."""
    return os.path.join(top, file) if crate == "together" else os.path.join(top, "crates", crate, file)


def every(top=TOP):
    """Each edit as (crate, name, path), sorted: those that the gate tries and those of tools/edits."""
    gate = glob.glob(os.path.join(top, "crates", "*", "must-fail", "*.edit"))
    more = glob.glob(os.path.join(top, "tools", "edits", "*", "*.edit"))
    found = [(path.split(os.sep)[-3], path) for path in gate] + [(path.split(os.sep)[-2], path) for path in more]
    return sorted((crate, os.path.basename(path)[:-5], path) for crate, path in found)


def not_applying(top=TOP):
    """An edit whose old text does not stand exactly once in its file."""
    errors = []
    for crate, _, path in every(top):
        shown, texts = os.path.relpath(path, top), {}
        if not pairs(path):
            errors.append(f"{shown}:1: no `old:` and `new:`")
        for file, old, new in pairs(path):
            whole = home(top, crate, file or "")
            if not file or not os.path.isfile(whole):
                errors.append(f"{shown}:1: no such file in {crate}: {file}")
                continue
            text = texts.get(whole) or read(whole)
            places = text.count(old) if old else 0
            if places != 1:
                errors.append(f"{shown}:1: its old text stands {places} times in {crate}/{file}, not once")
            texts[whole] = text.replace(old, new, 1) if old else text
    return errors


def doubled(top=TOP):
    """A crate's edit has one name in the gate and in tools/edits together."""
    seen, errors = {}, []
    for crate, name, path in every(top):
        if (crate, name) in seen:
            errors.append(f"{os.path.relpath(path, top)}:1: {crate} has another edit `{name}`")
        seen[crate, name] = path
    return errors
