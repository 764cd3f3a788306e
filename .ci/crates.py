#!/usr/bin/env python3
"""The crates as the prover is told of them: what rt does not do, to compile a crate without proofs and to keep all that a check says.

crates.py NAME: compiles the crate NAME of the folder that this is run in, and those below it, from their sources and without proofs;
status 1 where one does not compile."""
import os
import re
import shutil
import subprocess
import sys


def kit():
    """The kit's folder: that of rt in the path."""
    rt = shutil.which("rt")
    if not rt:
        sys.exit("crates: no rt in PATH: install the Rattle kit")
    return os.path.dirname(os.path.dirname(os.path.realpath(rt)))


KIT = kit()
RATTLE = f"{KIT}/bin/rattle"


class Crates:
    """The crates of crates.txt below a folder."""

    def __init__(self, root):
        self.root, self.stands_on = os.path.abspath(root), {}
        for line in open(f"{root}/crates.txt", encoding="utf-8"):
            name, colon, deps = re.sub(r"#.*", "", line).partition(":")
            if colon:
                self.stands_on[name.strip()] = deps.split()

    def own(self, name):
        """The libraries of this repository that the crate names."""
        return [it for it in self.stands_on[name] if it in self.stands_on]

    def of_kit(self, name):
        return ["std", *[it for it in self.stands_on[name] if it not in self.stands_on]]

    def below(self, name):
        """Those that the crate stands on, lowest first."""
        found = {}

        def add(it):
            for dep in self.own(it):
                if dep not in found:
                    add(dep)
                    found[dep] = None

        add(name)
        return list(found)

    def folder(self, name):
        return f"{self.root}/crates/{name}"

    def rlib(self, name):
        return f"{self.folder(name)}/out/rlib/{name}.rlib"

    def words(self, name, from_sources=False):
        """What rattle check is given of a crate: it is run in the crate's folder, or in a copy of it."""
        top = "main" if os.path.exists(f"{self.folder(name)}/src/main.rt") else "lib"
        words = ["--crate-name", name, f"src/{top}.rt", "--jobs", "1", "--links", f"{name}="]
        kits = self.of_kit(name)
        if from_sources:
            kits = list(dict.fromkeys([*kits, "core", *[lib for it in self.below(name) for lib in self.of_kit(it)]]))
            for it in self.below(name):
                uses = ",".join(dict.fromkeys(["core", *self.of_kit(it), *self.own(it)]))
                words += ["--lib", f"{it}:{uses}={self.folder(it)}/src/lib.rt"]
        else:
            for it in self.own(name):
                words += ["--extern", f"{it}={self.rlib(it)}"]
            for it in self.below(name):
                words += ["-L", f"dependency={os.path.dirname(self.rlib(it))}"]
        for it in kits:
            words += ["--extern", f"{it}={KIT}/rlibs/{it}.rlib"]
        words += ["-L", f"dependency={KIT}/rlibs"]
        return [*words, "--antt-project", f"{KIT}/rattle/logic/antt-project.json", "--logic-built", f"{KIT}/logic_built"]

    def check(self, name, folder, *more, from_sources=False):
        """Checks the crate as it stands in that folder. Gives the status, and all that is said."""
        words = [RATTLE, "check", *self.words(name, from_sources), *more]
        how = {"stdin": subprocess.DEVNULL, "stdout": subprocess.PIPE, "stderr": subprocess.STDOUT, "errors": "replace"}
        ran = subprocess.run(words, cwd=folder, **how)
        return ran.returncode, ran.stdout

    def compiles(self, name):
        return self.check(name, self.folder(name), "--only", "", from_sources=True)


if __name__ == "__main__":
    crates = Crates(".")
    if len(sys.argv) != 2 or sys.argv[1] not in crates.stands_on:
        sys.exit(__doc__)
    status, said = crates.compiles(sys.argv[1])
    print(said, end="")
    sys.exit(status and 1)
