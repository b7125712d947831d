"""What is used of the toolchain's own script, `rt`: which words a check of a crate is begun with.

All of it stands here. Where a newer toolchain changes one of these names, `rt check --help` and `rtlib.py` beside `rt` tell the
new one: the crate's words for `rattle check`, the folder `out/incremental` with what a check has kept, the copy of it, and the stamp
by which `rt` knows a library that is built.

    toolchain.py TOP    has `rt` take the libraries that its gate has left in the repository TOP
"""

import importlib.machinery
import importlib.util
import os
import shutil
import subprocess
import sys

RT = os.path.realpath(shutil.which("rt"))


def load():
    loader = importlib.machinery.SourceFileLoader("rt_script", RT)
    found = importlib.util.module_from_spec(importlib.util.spec_from_loader("rt_script", loader))
    sys.modules["rt_script"] = found
    loader.exec_module(found)
    return found


def stamp_once(stamp, made):
    """A stamp of a crate is made of those of all below it, so each is kept."""

    def kept(crate):
        if crate.folder not in made:
            made[crate.folder] = stamp(crate)
        return made[crate.folder]

    return kept


rt = load()
rtlib = rt.rtlib
rtlib.Crate.stamp = stamp_once(rtlib.Crate.stamp, {})


def check_crate(crate):
    """Proves the crate as it stands, over what an earlier check kept, with the libraries below it."""
    ran = subprocess.run(["rt", "check", "--jobs", "1"], cwd=crate, stdout=subprocess.DEVNULL)
    return not ran.returncode


def take_kept(crate, room):
    """Copies what a check of the crate has kept; where `rt` has a copy of its own, of links, by that."""
    kept = f"{crate}/out/incremental"
    copy = getattr(rt, "linked", shutil.copytree)
    if os.path.isdir(kept):
        copy(kept, f"{room}/over")


def copy_crate(crate, room):
    for part in rtlib.PARTS:
        shutil.rmtree(f"{room}/{part}", ignore_errors=True)
        if os.path.isdir(f"{crate}/{part}"):
            shutil.copytree(f"{crate}/{part}", f"{room}/{part}")


def check_copies(crate, names, room):
    """Checks these functions alone, over what was kept, and answers what the check prints."""
    return check_alone(crate, names, room, "--incremental", f"{room}/over")


def check_past_holes(crate, names, room, jobs=1):
    """Checks these functions alone, over nothing; a function whose proof is a hole is taken by its contract."""
    return check_alone(crate, names, room, "--allow-holes", jobs=jobs)


def check_alone(crate, names, room, *flags, jobs=1):
    of = rtlib.Crate(crate, rtlib.root_above(crate), {})
    words = [rtlib.RATTLE, "check", *of.words(["--jobs", str(jobs)], keeps=False), *flags]
    for name in names:
        words += ["--only", name]
    ran = subprocess.run(
        words,
        cwd=room,
        stdin=subprocess.DEVNULL,
        stdout=subprocess.PIPE,
        stderr=subprocess.STDOUT,
        encoding="utf-8",
        errors="replace",
    )
    return ran.stdout


def is_built(crate):
    """Whether the crate's library is there, and of what its sources are."""
    stamp = f"{crate.folder}/out/rlib/stamp"
    if not os.path.isfile(stamp):
        return False
    with open(stamp, encoding="utf-8") as file:
        return file.read() == crate.stamp()


def build_below(crate):
    """Builds the libraries below the crate that are not built."""
    for dep in rtlib.Crate(crate, rtlib.root_above(crate), {}).below():
        if not is_built(dep):
            subprocess.run(["rt", "lib", "--jobs", "1"], cwd=dep.folder, stdout=subprocess.DEVNULL)


def stamp_libraries(top):
    """Gives libraries that the gate has left the stamp that `rt lib` would have given them. Where there are some of an earlier run
    too, none gets it: a library of the gate fits only those over which it was built."""
    crates = rtlib.crates_below(top)
    if any(os.path.exists(f"{it.folder}/out/rlib/stamp") for it in crates):
        return
    for crate in crates:
        place = f"{crate.folder}/out/rlib"
        if os.path.isdir(f"{place}/{crate.name}.rlib"):
            with open(f"{place}/stamp", "w", encoding="utf-8") as to:
                to.write(crate.stamp())


if __name__ == "__main__":
    stamp_libraries(os.path.realpath(sys.argv[1]))
