"""Small repositories with copies of crates of this one."""

import shutil

import rattle
from build import prove_libraries
from repository import PARTS, ROOT, Sums, crates_below


def copy(place, crates):
    """Makes such a repository in this folder, with these crates of ours and all that they stand on."""
    below = crates_below(*crates)
    for crate in below:
        for part in PARTS:
            folder, other = ROOT / "crates" / crate / part, place / "crates" / crate / part
            shutil.rmtree(other, ignore_errors=True)
            if folder.is_dir():
                shutil.copytree(folder, other)
    shutil.copy(ROOT / "HANDLES", place)
    (place / "crates.txt").write_text("".join(f"{line}\n" for line in below.values()))


def make(place, name, source, crates):
    """Makes such a repository with the program `name`, whose src/main.rt is this file, over these crates of the kit and
    of ours. A source isn't kept as a .rt file, since the gate refuses one that no crate of crates.txt reads. Returns
    the program's folder."""
    copy(place, crates)
    crate = place / "crates" / name
    (crate / "src").mkdir(parents=True, exist_ok=True)
    for part in ("specs", "proofs"):
        (crate / part).mkdir(exist_ok=True)
        (crate / part / "Lib.antt").touch()
    shutil.copy(source, crate / "src" / "main.rt")
    with open(place / "crates.txt", "a") as crates_txt:
        crates_txt.write(f"{name}: {' '.join(crates)}\n")
    return crate


def build(name, crates, words):
    """The program of the benchmark bench/NAME, whose source is main.rt.in, over these crates. It is built where there
    is none or one of other files; the first build proves what isn't proved, which takes minutes. With a kit whose
    compiler is asked by rt alone, it is also run, with these words."""
    source, place, sums = ROOT / "bench" / name / "main.rt.in", ROOT / "bench" / "out" / name, Sums()
    folder = make(place, name, source, crates)
    program = folder / "out" / name
    made, made_of = program.with_suffix(".made"), " ".join([*map(sums.of, crates), source.read_text()])
    if not made.is_file() or made.read_text() != made_of:
        with rattle.Processes() as run:
            if rattle.is_known():
                prove_libraries(name, crates, run, sums)
                run.build_program(folder, f"{name}: {' '.join(crates)}", crates_below(*crates), program)
            else:
                run.must(folder, "rt", "run", "--", *words)
        made.write_text(made_of)
    return program
