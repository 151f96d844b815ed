"""Runs Rattle programs over the crates of a tree, without proving anything: for tests/edits/try."""

import re
import shutil
import subprocess


class Failure(Exception):
    pass


def read_uses(path):
    """The crates that a file lists, each with those that it uses. A word after the name, as `staticlib`, is left out."""
    crates = {}
    for line in path.read_text().splitlines():
        names, colon, used = line.partition("#")[0].partition(":")
        if colon:
            crates[names.split()[0]] = used.split()
    return crates


class Toolchain:
    def __init__(self):
        self.rt = shutil.which("rt")
        if not self.rt:
            raise Failure("rt is not in the PATH")


class Program:
    """A program in a folder of its own, over the crates of a tree. `own` says where the code of some of them is found instead."""

    def __init__(self, toolchain, tree, folder, own=None):
        self.toolchain = toolchain
        self.tree = tree
        self.crates = read_uses(tree / "crates.txt")
        self.folder = folder / "run"
        self.own = own or {}

    def used(self, text):
        """The crates of the tree that a text names, and all that they use."""
        seen, todo = set(), [n for n in re.findall(r"\b(\w+)::", text) if n in self.crates]
        while todo:
            name = todo.pop()
            if name not in seen:
                seen.add(name)
                todo += [n for n in self.crates[name] if n in self.crates]
        return seen

    def build(self, text):
        """Lays out the program and what it uses, as `rt try` wants them."""
        used = self.used(text)
        lines = [f"{name}: {' '.join(self.crates[name])}" for name in sorted(used)]
        for name in used:
            to = self.folder / "crates" / name
            shutil.copytree(self.own[name].parent if name in self.own else self.tree / "crates" / name / "src", to / "src")
            specs = self.tree / "crates" / name / "specs"
            if specs.is_dir():
                shutil.copytree(specs, to / "specs")
        main = self.folder / "crates" / "probe" / "src" / "main.rt"
        main.parent.mkdir(parents=True)
        main.write_text(text)
        (self.folder / "crates.txt").write_text("\n".join([*lines, f"probe: {' '.join(sorted(used))} io"]) + "\n")

    def run(self, seconds):
        """Compiles the program and runs it, and answers what it printed, and how it ended where it was not by returning."""
        words = [self.toolchain.rt, "try", "--seconds", str(seconds), "--steps", "20000000"]
        ran = subprocess.run(words, cwd=self.folder / "crates" / "probe", capture_output=True, stdin=subprocess.DEVNULL)
        said = ran.stderr.decode(errors="replace")
        if ran.returncode in (1, 2, 3) and "run=ended" not in said:
            raise Failure("it does not compile:\n" + said.replace(f"{self.folder}/", "").strip())
        ended = {0: "", 4: "a fault", 5: "two runs differ", 6: f"no answer within {seconds} s"}.get(ran.returncode, f"exit status {ran.returncode}")
        return ran.stdout.decode(errors="replace"), ended
