"""Shows that texts which must not compile are refused, and for what: those of crates/mdp_app/data/refused.

    tools/refused

Each text is the root file of a program. Its first line says `// refused: NAME`, the name of the compiler's error, or `// accepted` for a text that
differs from a refused one in the one point that is wrong there; its second line lists the crates that it uses. Each is tried by `rt try`, over a copy
of the sources, which proves nothing. Ends with 1 after a line for each text that isn't treated as it says.
"""

import pathlib
import re
import shutil
import subprocess
import sys
import tempfile

TOP = pathlib.Path(__file__).resolve().parent.parent.parent
TEXTS = TOP / "crates" / "mdp_app" / "data" / "refused"


def copied(top, crates):
    """Puts the sources of crates into a new repository."""
    lines = (TOP / "crates.txt").read_text().split("\n")
    kept = [line for line in lines if line.partition(":")[0] in crates]
    for name in crates:
        for part in ("src", "specs", "proofs"):
            if (TOP / "crates" / name / part).is_dir():
                shutil.copytree(TOP / "crates" / name / part, top / "crates" / name / part)
    shutil.copy(TOP / "HANDLES", top)
    return kept


def tried(path):
    """What is wrong with how a text is treated, or nothing."""
    text = path.read_text()
    first, second, *_ = text.split("\n")
    deps = second.removeprefix("// deps: ").split(" ")
    with tempfile.TemporaryDirectory() as folder:
        top = pathlib.Path(folder)
        kept = copied(top, [name for name in deps if (TOP / "crates" / name).is_dir()])
        own = top / "crates" / "refused_text"
        (own / "src").mkdir(parents=True)
        (own / "src" / "main.rt").write_text(text)
        (top / "crates.txt").write_text("\n".join([*kept, f"refused_text: {' '.join(deps)}", ""]))
        ended = subprocess.run(["rt", "try"], cwd=own, stdin=subprocess.DEVNULL, stdout=subprocess.PIPE, stderr=subprocess.STDOUT, check=False)
    said = ended.stdout.decode(errors="replace")
    found = sorted(set(re.findall(r"error\[([\w-]+)\]", said)))
    due = first.removeprefix("// refused: ").split(" ") if first != "// accepted" else []
    is_well = found == due and (ended.returncode == 0) == (not due)
    return "" if is_well else f"{path.name}: errors {found} and not {due}, status {ended.returncode}\n{said[-2000:]}"


def main(words):
    if words[:1] in (["--help"], ["-h"]):
        print(__doc__)
        return
    texts = sorted(TEXTS.glob("*.txt"))
    wrong = [line for line in map(tried, texts) if line]
    print(*wrong, f"{len(texts)} texts that are refused or accepted, {len(wrong)} wrong", sep="\n")
    sys.exit(1 if wrong or not texts else 0)
