"""What the repository declares: each name with the files that declare it."""
import fnmatch, os, re

from .edits import TOP, every, read

ANTT = (
    re.compile(r"^\s*(?:abbrev\s+|unfoldable\s+|pub\s+)*(?:record|data|module)\s+([^\s:(){}]+)"),
    re.compile(r"^\s*(?:abbrev\s+|unfoldable\s+|pub\s+)*((?:[^\s:(){}⌜]+\s+)*?[^\s:(){}⌜]+)\s+:\s"),
)
CODE = (
    re.compile(r"\b(?:fn|struct|enum|union|const|static|type|mod|trait|def|class)\s+(\w+)"),
    re.compile(r"^([A-Z_][A-Z_0-9]*)\s*="),
)
# the fields and the cases of a type, from its first line to its closing brace
TYPE = re.compile(r"^(?:pub )?(?:struct|enum) \w+ \{\n(.*?)^\}", re.M | re.S)
MEMBER = re.compile(r"^\s+(?:pub\s+)?(\w+)\s*(?::|\(|\{|,)", re.M)
# C has no word before a function, and the oracle's Rust also speaks 000's names: there every word of the code counts.
EVERY_WORD = re.compile(r"[A-Za-z_]\w*")
OTHERS = (".rs", ".c", ".h")
# what is written of the proof of one function: its own folder has it
OF_FUNCTION = re.compile(r"/proofs/.+/(?:Invariants|Answers|Proof)\.antt$")


def tracked(top):
    """The files of the repository, without what is built."""
    for folder, folders, files in os.walk(top):
        folders[:] = sorted(f for f in folders if f not in (".git", "target", "out", "__pycache__"))
        for name in sorted(files):
            yield os.path.relpath(os.path.join(folder, name), top)


def declared(path, text):
    """The names that one file declares."""
    found = set()
    comment = "--" if path.endswith(".antt") else "#" if path.endswith(".py") else "//"
    lines = [line.split(comment)[0] for line in text.split("\n")]
    if path.endswith(OTHERS):
        return set(EVERY_WORD.findall("\n".join(lines)))
    patterns = ANTT if path.endswith(".antt") else CODE
    for line in lines:
        for pattern in patterns:
            for hit in pattern.findall(line):
                found.update(hit.split())
    for body in TYPE.findall("\n".join(lines)):
        found.update(MEMBER.findall(body))
    return found


def is_code(path):
    return path.endswith((".antt", ".rt", ".rs", ".c", ".h", ".py")) or (
        path.startswith(("tools/", "bench/")) and "." not in os.path.basename(path))


class Index:
    """Names by file and files by name, files by their last part, crates and edits."""

    def __init__(self, top=TOP):
        self.top = top
        self.files = list(tracked(top))
        self.present = set(self.files)
        self.folders = {os.path.dirname(path) for path in self.files}
        self.folders |= {parent for folder in list(self.folders) for parent in parents(folder)}
        self.of_file = {path: declared(path, read(os.path.join(top, path))) for path in self.files if is_code(path)}
        self.of_name = {}
        for path, names in self.of_file.items():
            for name in names:
                self.of_name.setdefault(name, set()).add(path)
        self.crates = {path.split("/")[1] for path in self.files if path.startswith("crates/")}
        self.modules = {os.path.basename(path).split(".")[0] for path in self.of_file if not OF_FUNCTION.search(path)}
        self.last = {os.path.basename(folder) for folder in self.folders if "/proofs" not in folder}
        self.edits = {name for _, name, _ in every(top)}

    def knows(self, name, here=False):
        """Whether there is such a name; `here`: in this port, and not only in the oracle or the C beside it."""
        if any(name in known for known in (self.crates, self.modules, self.edits, self.present, self.last)):
            return True
        return any(not here or not path.endswith(OTHERS) for path in self.of_name.get(name, ()))

    def under(self, folder, pattern):
        """The files below a folder whose last part is so."""
        found = [path for path in self.files if path.startswith(folder + "/")]
        return [path for path in found if fnmatch.fnmatchcase(os.path.basename(path), pattern)]


def parents(folder):
    while folder:
        yield folder
        folder = os.path.dirname(folder)
