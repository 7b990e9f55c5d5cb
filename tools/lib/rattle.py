"""The kit's own commands, over libraries that are proved and built already: what `rt` doesn't do of a static library."""
import os
import shutil
import subprocess

CRATE = "sift_library"  # the static library
CPU = "x86-64"  # the baseline, so that nothing in the code is of a later processor
WASM = "wasm64-unknown-unknown"


class NotBuilt(Exception):
    """What couldn't be built, and what was said of it."""


def kit():
    """The folder of the kit that `rt` is of."""
    rt = shutil.which("rt")
    if not rt:
        raise NotBuilt("there is no command rt, which proves and builds")
    return os.path.dirname(os.path.dirname(os.path.realpath(rt)))


def said_by(words, **how):
    """Runs a command, and gives what it said."""
    ran = subprocess.run(words, stdout=subprocess.PIPE, stderr=subprocess.STDOUT, text=True, errors="replace", **how)
    if ran.returncode:
        raise NotBuilt(f"{os.path.basename(words[0])} ended with {ran.returncode}: {ran.stdout[-1500:]}")
    return ran.stdout


def libraries_of(top):
    """Of each crate of crates.txt the libraries that it names."""
    found = {}
    with open(f"{top}/crates.txt", encoding="utf-8") as lines:
        for line in lines:
            head, _, names = line.partition("#")[0].partition(":")
            if head.split():
                found[head.split()[0]] = names.split()
    return found


def below(libraries, crate):
    """The crates that a crate stands on, each behind those that it uses."""
    found = []
    for name in libraries[crate]:
        if name in libraries:
            found += [it for it in [*below(libraries, name), name] if it not in found]
    return found


def words_of(top):
    """Rattle's words for the static library, over the libraries as they were built in a copy of the repository."""
    libraries, rlibs = libraries_of(top), f"{kit()}/rlibs"
    rlib = {name: f"{top}/crates/{name}/out/rlib/{name}.rlib" for name in below(libraries, CRATE)}
    lacking = [name for name, at in rlib.items() if not os.path.isdir(at)]
    if lacking:
        raise NotBuilt(f"{', '.join(lacking)} and what stands on them: not proved and built here")
    words = ["--crate-name", CRATE, "src/lib.rt", "-L", f"dependency={rlibs}"]
    for name in ["std", *libraries[CRATE]]:
        words += ["--extern", f"{name}={rlib.get(name, f'{rlibs}/{name}.rlib')}"]
    for at in rlib.values():
        words += ["-L", f"dependency={os.path.dirname(at)}"]
    words += ["--antt-project", f"{kit()}/rattle/logic/antt-project.json", "--links", f"{CRATE}="]
    return [*words, "--crate-type", "staticlib", "--cpu", CPU]


def keeping_toolchain(folder, kept):
    """The kit's toolchain, whose clang also leaves the code that it is handed at `kept`."""
    theirs = f"{kit()}/toolchain"
    shutil.rmtree(folder, ignore_errors=True)
    os.makedirs(f"{folder}/bin")
    os.symlink(f"{theirs}/lib", f"{folder}/lib")
    for name in os.listdir(f"{theirs}/bin"):
        if name != "clang":
            os.symlink(f"{theirs}/bin/{name}", f"{folder}/bin/{name}")
    with open(f"{folder}/bin/clang", "w", encoding="utf-8") as script:
        script.write(f"""#!/bin/bash
for word in "$@"; do
  case $word in *.bc) cp "$word" "{kept}" || exit 1 ;; esac
done
exec -a clang "{theirs}/bin/clang" "$@"
""")
    os.chmod(f"{folder}/bin/clang", 0o755)
    return folder


def build_static(top, scratch, archive, kept):
    """Proves the static library over the libraries that stand at `top`, builds the archive of its code, and keeps the code as LLVM takes it."""
    words = [f"{kit()}/bin/rattle", "build", *words_of(top), "--logic-built", f"{kit()}/logic_built"]
    words += ["--toolchain", keeping_toolchain(f"{scratch}/toolchain", kept), "--backend", "llvm", "-o", archive]
    said = said_by(words, cwd=f"{top}/crates/{CRATE}")
    if "logic=proved " not in said:
        raise NotBuilt(f"{CRATE} isn't proved: {said[-1500:]}")


def clang(*words):
    """Calls the kit's clang."""
    return said_by([f"{kit()}/toolchain/bin/clang", *words])


def join_archives(to, *files):
    """Makes one archive of object files and of what is in archives."""
    if os.path.exists(to):
        os.remove(to)
    said_by(["llvm-ar", "qcLS", to, *files], executable=f"{kit()}/toolchain/bin/llvm-ar")
    said_by(["llvm-ar", "s", to], executable=f"{kit()}/toolchain/bin/llvm-ar")
