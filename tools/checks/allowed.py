"""Words in code font that are no names of the repository, each with its reason."""

# the pages that lay older names and texts beside those of today: they are not held to the repository
PASSES = {"docs/PORT.md", "docs/DESIGN-PASS.md", "docs/LOOK-BACK.md"}

# paths that are not the repository's
FILES = {
    "src/backend/kmod/ehci/mod.rs": "the file of 000",
    "../shared/docs/src": "where the published Rust is looked for",
    "target/": "what bench/run makes",
    "specs/": "a folder of every crate",
    "proofs/": "a folder of every crate",
    "src/": "a folder of every crate",
    "must-fail/": "a folder of every crate",
    "Invariants.antt": "a file of a function's own proof",
    "Answers.antt": "a file of a function's own proof",
}

NAMES_OF_000 = """fetch_add LINE_STATUS_K_STATE LINE_STATUS_MASK interrupt_on_complete error_counter PID_MASK PID_IN
op_read32 op_write32 op_update32 port_read port_update endpoint_number EhciDevice"""

WORDS = {
    **{name: "a name of 000 that neither the port nor the oracle's code has" for name in NAMES_OF_000.split()},
    "requires": "a word of the language",
    "ensures": "a word of the language",
    "AtomicUsize": "a type of Rust's library",
    "try_update": "a function of Rust's library",
    "qemu-x86_64": "an emulator",
    "cc": "the system's C compiler",
}
