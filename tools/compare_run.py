"""What the tools that run the Rust original share: where things are, building the oracle, finding the port's programs."""
import os, shutil, subprocess

import programs
from programs import TOP, stop

ORACLE = os.path.join(TOP, "oracle", "target", "debug", "oracle")


def build():
    """The oracle, built over the published files."""
    published = os.path.abspath(os.environ.get("ORIGINAL", os.path.join(TOP, "..", "shared", "docs", "src")))
    if not os.path.isfile(os.path.join(published, "src", "backend", "kmod", "ehci", "mod.rs")):
        stop(f"The published Rust is not at hand: {published} has no src/backend/kmod/ehci/mod.rs. Set ORIGINAL to its folder.")
    if shutil.which("cargo") is None:
        stop("cargo is not there: the oracle is built by a rustc of 2026 (oracle/README.md)")
    done = subprocess.run(["cargo", "build", "--offline", "--quiet"], cwd=os.path.join(TOP, "oracle"))
    if done.returncode != 0:
        stop("the oracle was not built")


def program(name, variable):
    """The words that run a program of the port, or the one that the variable names."""
    return programs.words(os.environ.get(variable, name))


def written(words, data=b"", **environment):
    """What a program writes when it is given these bytes."""
    done = subprocess.run(words, input=data, capture_output=True, env=dict(os.environ, **environment))
    if done.returncode != 0:
        stop(f"{words[0]} ended with {done.returncode}: {done.stderr.decode(errors='replace')}")
    return done.stdout
