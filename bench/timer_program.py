"""A small program of this toolchain beside the crates of the repository, for the scripts that time single calls."""
import os
import shutil
import subprocess
import tempfile

TOP = os.path.join(os.path.dirname(os.path.abspath(__file__)), "..")


def run(name, libraries, program, models):
    """Copies the crates, with what is proved of them already, into a folder that is removed again, adds the program under this name over these
    libraries, proves and builds it there, and runs it on the models: pairs of a function that writes one to a path, and its size."""
    with tempfile.TemporaryDirectory() as folder:
        shutil.copytree(os.path.join(TOP, "crates"), os.path.join(folder, "crates"))
        shutil.copy(os.path.join(TOP, "HANDLES"), folder)
        with open(os.path.join(TOP, "crates.txt")) as file:
            lines = file.read()
        with open(os.path.join(folder, "crates.txt"), "w") as file:
            file.write("%s%s: %s\n" % (lines, name, libraries))
        source = os.path.join(folder, "crates", name, "src")
        os.makedirs(source)
        with open(os.path.join(source, "main.rt"), "w") as file:
            file.write(program)
        paths = []
        for number, (write, size) in enumerate(models):
            paths.append(os.path.join(folder, "model-%d.drn" % number))
            write(paths[-1], size)
        return subprocess.run(["rt", "run", "--", *paths], cwd=os.path.join(folder, "crates", name), check=False).returncode
