"""Building a program with no proof, from the source of its crate and of all that it reaches: for wrong programs alone.

What is built so may read outside its buffers: only proved programs are used for anything else.
"""

import os
import re
import subprocess
import tempfile


def kit():
    """The folder of the toolchain, and the one for this kind of machine."""
    guide = subprocess.run(["rt", "doc"], stdout=subprocess.PIPE, text=True, check=True).stdout.strip()
    home = os.path.dirname(os.path.dirname(guide))
    return home, os.path.join(home, "on", os.uname().machine)


def lines_of(path):
    """Each crate and what it uses, as crates.txt or the toolchain's own list says."""
    with open(path, encoding="utf-8") as file:
        return {name: uses.split() for name, uses in re.findall(r"^(\w+):(.*)$", file.read(), re.M)}


def reached(name, uses):
    found, todo = [], list(uses[name])
    while todo:
        one = todo.pop()
        if one not in found:
            found.append(one)
            todo += uses.get(one, [])
    return found


def build(name, root, program):
    """Compiles the program of a repository into an executable file."""
    home, own = kit()
    crates, libraries = lines_of(os.path.join(root, "crates.txt")), lines_of(os.path.join(home, "libs", "libs.txt"))
    words = ["--lib", "std=%s/libs/std/src/lib.rt" % home]
    for one in reached(name, {**libraries, **crates}):
        folder = os.path.join(root, "crates") if one in crates else os.path.join(home, "libs")
        words += ["--lib", "%s=%s/%s/src/lib.rt" % (one, folder, one)]
    with tempfile.TemporaryDirectory() as room:
        source = os.path.join(room, "src")
        subprocess.run(["cp", "-R", os.path.join(root, "crates", name, "src"), source], check=True)
        with open(os.path.join(source, "main.rt"), encoding="utf-8") as file:
            text = file.read().replace("\nfn main() {", '\n#[no_mangle]\npub extern "C" fn entry() {')
        os.remove(os.path.join(source, "main.rt"))
        with open(os.path.join(source, "lib.rt"), "w", encoding="utf-8") as file:
            file.write(text)
        with open(os.path.join(room, "start.rs"), "w", encoding="utf-8") as file:
            file.write('extern "C" { fn entry(); }\nfn main() { unsafe { entry() } }\n')
        subprocess.run([os.path.join(own, "bin", "rattle-cases"), "--toolchain", os.path.join(own, "toolchain"),
                        "--staticlib", os.path.join(room, "libentry.a"), os.path.join(source, "lib.rt"),
                        "--crate-name", name, *words], check=True)
        subprocess.run(["rustc", "--edition", "2021", "-C", "opt-level=1", "-o", program, "-L", room, "-l", "static=entry",
                        os.path.join(room, "start.rs")], check=True)
