"""How a program of the port is run on this machine. The kit compiles for x86-64; on another processor a program runs by
`qemu-x86_64`, beside the kit's compiler or else on the path. EMULATE=1 takes that way on x86-64 too."""
import os, platform, shutil, sys

TOP = os.path.dirname(os.path.dirname(os.path.abspath(__file__)))
X86_64 = b"\x3e\x00"  # an ELF file's machine, at byte 18
LOADER = "ld-linux-x86-64.so.2"


def stop(message):
    print(message, file=sys.stderr)
    sys.exit(2)


def emulates():
    """Whether programs for x86-64 are emulated here."""
    return platform.machine() != "x86_64" or os.environ.get("EMULATE", "0") not in ("", "0")


def toolchain():
    """The kit's compiler, linker, loader and C library: a folder found from where `rt` lies, or None."""
    rt = shutil.which("rt")
    home = rt and os.path.dirname(os.path.dirname(os.path.realpath(rt)))
    folder = home and os.path.join(home, "toolchain")
    return folder if folder and os.path.isdir(folder) else None


def emulator():
    """The emulator of x86-64, or None."""
    kit = toolchain()
    own = kit and os.path.join(kit, "bin", "qemu-x86_64")
    return own if own and os.access(own, os.X_OK) else shutil.which("qemu-x86_64")


def emulated(path, options=()):
    """The words that run a program for x86-64 by the emulator, under the kit's loader and C library where there is a kit."""
    found = emulator()
    if found is None:
        stop(
            f"{path} is for x86-64 and {'EMULATE is set' if platform.machine() == 'x86_64' else 'this is ' + platform.machine()}: "
            "there is no emulator beside `rt` (bin/qemu-x86_64 of its toolchain) and no qemu-x86_64 on the path"
        )
    kit = toolchain()
    library = kit and os.path.join(kit, "lib")
    loader = [os.path.join(library, LOADER), "--library-path", library] if kit else []
    return [found, *options, *loader, path]


def programs():
    """The repository's programs."""
    crates = os.path.join(TOP, "crates")
    return sorted(name for name in os.listdir(crates) if os.path.isfile(os.path.join(crates, name, "src", "main.rt")))


def found(name):
    """Where crates/NAME/out/NAME is, or the program at a path."""
    path = name if os.sep in name else os.path.join(TOP, "crates", name, "out", name)
    if os.access(path, os.X_OK) and os.path.isfile(path):
        return path
    if os.sep in name:
        stop(f"{name} is not there, or cannot be run")
    if name not in programs():
        stop(f"there is no program {name}; there are: {', '.join(programs())}")
    stop(f"crates/{name}/out/{name} is not there: `rt run < /dev/null` in crates/{name} makes it")


def words(name):
    """The words that run a program, named as `found` has it."""
    path = found(name)
    with open(path, "rb") as file:
        head = file.read(20)
    is_x86_64 = head.startswith(b"\x7fELF") and head[18:20] == X86_64
    return emulated(path) if is_x86_64 and emulates() else [path]
