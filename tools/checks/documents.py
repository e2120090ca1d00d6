"""Every name and file that a document cites: does it exist, and is the name in the file it is cited with?"""
import fnmatch, glob, os, re

from .allowed import FILES, PASSES, WORDS
from .edits import read
from .names import OF_FUNCTION

KINDS = "antt|rt|py|md|txt|rs|log|sheet|listing|svg|toml"
PATH = re.compile(rf"(?<![\w./*+-])((?:[\w.+*-]+/)*[\w+*-][\w.+*-]*\.(?:{KINDS}))(?![\w/])")
SPAN = re.compile(r"`([^`]+)`")
NAME = re.compile(r"^[A-Za-z_][\w]*(?:-[\w]+)*$")
INNER = re.compile(r"\b[A-Za-z]+(?:_\w+|[a-z0-9]+[A-Z]\w*)\b")
# `a`, `b` and `c` (file ..), or: `a` in file
CITED = re.compile(rf"((?:`[^`]+`(?:, | and |, and ))*`[^`]+`) \(([^()`]*\.(?:{KINDS})[^()`]*)\)")
STANDS_IN = re.compile(rf"(`[^`]+`) in `?((?:[\w.+-]+/)+[\w.+-]+\.(?:{KINDS}))")
# documents that speak of this port alone; the others also name 000's functions
OF_THIS_PORT = ("docs/PROMISES.md", "docs/READING.md", "docs/INTEGRATION.md")
# where a path of a document may begin, beside the repository and crates/
BASES = {"docs/READING.md": "crates/promises", "oracle/README.md": "oracle"}


def documents(top):
    found = glob.glob(os.path.join(top, "docs", "*.md"))
    found += [os.path.join(top, name) for name in ("README.md", "oracle/README.md")]
    return sorted({os.path.relpath(path, top) for path in found if os.path.exists(path)} - PASSES)


def lines_of(top, doc):
    """The lines of a document with their numbers; blocks of code are left out."""
    inside = False
    for number, line in enumerate(read(os.path.join(top, doc)).split("\n"), 1):
        if line.startswith("```"):
            inside = not inside
        elif not inside and not line.startswith("    "):
            yield number, line


def crate_before(index, line, at):
    """The crate that was last cited in the line, before this place."""
    found = re.findall(r"\b([a-z_0-9]+)/(?:src|specs|proofs)\b", line[:at])
    found = [crate for crate in found if crate in index.crates]
    return found[-1] if found else None


def resolve(index, doc, token, crate=None):
    """The files that a cited path may mean, as paths of the repository."""
    starts = [BASES[doc]] if doc in BASES else []
    for start in starts + ["", "crates", "docs"] + ([f"crates/{crate}"] if crate else []):
        path = os.path.normpath(os.path.join(start, token.rstrip("/")))
        if "*" in path:
            found = fnmatch.filter(index.files, path)
            if found:
                return found
        elif path in index.present or path in index.folders:
            return [path]
    if "/" not in token and (crate or starts):
        return index.under(f"crates/{crate}" if crate else starts[0], token)
    return fnmatch.filter(index.files, f"crates/*/{token}") if "*" in token else []


def is_allowed_file(token):
    return token in FILES or token.startswith("target/") or "/out/" in token or any(part.isupper() for part in token.split("/"))


def missing_files(index, doc, number, line):
    errors = []
    for hit in PATH.finditer(line):
        if not is_allowed_file(hit[1]) and not resolve(index, doc, hit[1], crate_before(index, line, hit.start())):
            errors.append(f"{doc}:{number}: no such file: {hit[1]}")
    for span in SPAN.findall(line):
        first = span.split()[0] if span.split() else ""
        if re.match(r"^\.?[\w.-]+/[\w./-]*$", first) and not PATH.fullmatch(first) and not is_allowed_file(first):
            if not resolve(index, doc, first):
                errors.append(f"{doc}:{number}: no such file or folder: {first}")
    return errors


def parts_of(span):
    """The names in a span of code: all parts of a path of names, else the words that can only be names."""
    bare = re.sub(r"\(.*\)$", "", span)
    if re.match(r"^[A-Za-z_][\w-]*(::[A-Za-z_]\w*)*$", bare):
        return bare.split("::")
    if "/" in span or span.startswith("-") or span.startswith("rt "):
        return []
    return INNER.findall(span)


def missing_names(index, doc, number, line):
    errors = []
    for span in SPAN.findall(line):
        for name in parts_of(span):
            if not index.knows(name, doc in OF_THIS_PORT) and name not in WORDS:
                errors.append(f"{doc}:{number}: no such theorem, definition, function or edit: {name}")
    return errors


def groups(line):
    """Names that are cited with files: the names, and the text that has the paths, with its place."""
    for hit in list(CITED.finditer(line)) + list(STANDS_IN.finditer(line)):
        spans = [span for span in SPAN.findall(hit[1]) if NAME.match(re.split(r"[ (]", span)[0].split("::")[-1])]
        yield [parts_of(span)[-1] for span in spans if parts_of(span)], hit[2], hit.start(2)


def files_in(index, doc, line, text, at):
    """The files that a text cites, read with what stands before it in its line."""
    found = []
    for hit in PATH.finditer(text):
        found += resolve(index, doc, hit[1], crate_before(index, line, at + hit.start()))
    return found


def elsewhere(index, doc, number, line):
    """A name that is not in the file it is cited with."""
    errors = []
    for names, text, at in groups(line):
        files = files_in(index, doc, line, text, at)
        for name in names:
            code = [path for path in files if path in index.of_file]
            if code and not any(name in index.of_file[path] for path in code):
                errors.append(f"{doc}:{number}: {name} is not in {text.strip()}{where(index, name)}")
    return errors


def where(index, name):
    found = sorted(path for path in index.of_name.get(name, ()) if path.endswith((".antt", ".rt")))
    found = [path for path in found if not OF_FUNCTION.search(path)]
    return f" (it is in {', '.join(found[:3])})" if found else ""


def check(index):
    errors = []
    for doc in documents(index.top):
        for number, line in lines_of(index.top, doc):
            for one in (missing_files, missing_names, elsewhere):
                errors += one(index, doc, number, line)
    return errors


# ---- paths put right


def shown(doc, path):
    """A path as a document writes it: below its own base, or below crates/."""
    base = BASES.get(doc, "")
    if base and path.startswith(base + "/"):
        return path[len(base) + 1:]
    return path[len("crates/"):] if path.startswith("crates/") else path


def crate_of(index, doc, token, line, at):
    first = token.removeprefix("crates/").split("/")[0]
    base = BASES.get(doc, "").removeprefix("crates/")
    return first if first in index.crates else crate_before(index, line, at) or (base if base in index.crates else None)


def moved(index, crate, token):
    """The one path of a crate's file, or of a pattern's files, that has another folder than it is cited with."""
    last = os.path.basename(token)
    places = {os.path.join(os.path.dirname(path), last) for path in index.under(f"crates/{crate}", last)}
    return places.pop() if len(places) == 1 else None


def home(index, crate, names, like):
    """The one file of a crate, of the same kind, that declares all these names."""
    found = index.under(f"crates/{crate}", "*" + os.path.splitext(like)[1])
    found = [path for path in found if not OF_FUNCTION.search(path)]
    found = [path for path in found if all(name in index.of_file[path] for name in names)]
    return found[0] if names and len(found) == 1 else None


def mended(index, doc, line):
    """The line with each cited file in its place, where its crate has exactly one such file."""
    def put(hit):
        crate = crate_of(index, doc, hit[1], line, hit.start())
        if is_allowed_file(hit[1]) or not crate or resolve(index, doc, hit[1], crate):
            return hit[1]
        path = moved(index, crate, hit[1])
        return shown(doc, path) if path else hit[1]

    line = PATH.sub(put, line)
    for names, text, at in list(groups(line)):
        found = PATH.findall(text)
        crate = crate_of(index, doc, found[0], line, at) if len(found) == 1 else None
        here = resolve(index, doc, found[0], crate) if crate else []
        if not crate or (here and any(name in index.of_file.get(here[0], ()) for name in names)):
            continue
        path = home(index, crate, names, found[0])
        if path:
            line = line.replace(f"({text})", f"({text.replace(found[0], shown(doc, path))})")
    return line


def mend(index):
    """Writes the documents anew with the paths put right; the documents that changed."""
    changed = []
    for doc in documents(index.top):
        path = os.path.join(index.top, doc)
        text = read(path)
        new = "\n".join(mended(index, doc, line) for line in text.split("\n"))
        if new != text:
            with open(path, "w", encoding="utf-8") as opened:
                opened.write(new)
            changed.append(doc)
    return changed
