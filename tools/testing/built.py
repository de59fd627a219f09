"""Finds the programs that a script runs."""

from shared.crates import TOP


def built(name, given=None):
    out = TOP / "crates" / name / "out"
    return [path for path in ([given] if given else [out / name, out / f"{name}.by-rattle"]) if path.exists()]


def missing(name, given=None):
    if given:
        return f"{name}: {given} is missing"
    place = f"crates/{name}/out/{name}"
    return f"{name}: {place} is missing: `rt run` in crates/{name} builds it (`tools/test {name}` needs no proof)"


def over_programs(tool, names, given, run):
    """Runs the programs of crates, or the one given. Prints what is wrong, and counts.

    `run` takes a program and the name of its crate, and returns the number of runs and the faults. Returns whether a program is
    missing, a fault was found, or nothing was run.
    """
    runs, faults = 0, []
    for name in names:
        programs = built(name, given)
        faults += [] if programs else [missing(name, given)]
        for program in programs:
            some, wrong = run(program, name)
            runs, faults = runs + some, faults + [f"{program.name}, {fault}" for fault in wrong]
    print("".join(f"{fault}\n" for fault in faults), end="")
    print(f"{tool}: {runs} run, {len(faults)} wrong")
    return bool(faults) or not runs
