"""A copy of the repository, outside of it. Programs and edits that the gate leaves out are tried there.

The copy has the sources as they are, including uncommitted ones. It keeps the libraries that were proved in it from one call to the next, and takes over those that are
finished in the repository (crates/*/out/rlib). So a call proves only what has changed since. It is in the folder that ROOM names, or else in one of its own in the
system's folder for temporary files.
"""
import fcntl
import functools
import glob
import hashlib
import os
import re
import shutil
import subprocess
import sys
import tempfile
from concurrent.futures import FIRST_COMPLETED, ThreadPoolExecutor, wait

TOP = os.path.dirname(os.path.dirname(os.path.abspath(__file__)))
# A check takes up to 5 GiB.
MEMORY = 5 << 30


def lines_of(command):
    """The output of a command that must not fail, in lines."""
    return subprocess.run(command, cwd=TOP, check=True, capture_output=True, text=True).stdout.splitlines()


def graph(root=TOP):
    """Each crate of crates.txt, lowest first, with the crates that it stands on."""
    uses = {}
    with open(f"{root}/crates.txt", encoding="utf-8") as file:
        for line in file:
            found = re.match(r"(\w+)[^:#]*:([^#]*)", line)
            if found:
                uses[found[1]] = found[2].split()
    uses = {name: [it for it in below if it in uses] for name, below in uses.items()}
    found = {}

    def visit(name):
        if name not in found:
            for it in uses[name]:
                visit(it)
            found[name] = uses[name]

    for name in uses:
        visit(name)
    return found


def crates_below(uses, names):
    """The crates that these stand on, lowest first."""
    wanted = set()
    for name in reversed(uses):
        if name in names or name in wanted:
            wanted.update(uses[name])
    return [it for it in uses if it in wanted]


def kit_of(root):
    """The libraries of the kit that each crate of crates.txt lists."""
    crates = graph(root)
    with open(f"{root}/crates.txt", encoding="utf-8") as file:
        found = re.findall(r"^(\w+)[^:#\n]*:([^#\n]*)", file.read(), re.M)
    return {name: [it for it in deps.split() if it not in crates] for name, deps in found}


def folder_of_kit():
    """The folder of the toolchain."""
    return os.path.dirname(os.path.dirname(os.path.realpath(shutil.which("rt"))))


def source_words(root, crate):
    """The words that give a compiler the sources of all that a crate stands on."""
    kit, uses, listed = folder_of_kit(), graph(root), kit_of(root)
    below, words = crates_below(uses, {crate}), []
    for name in below:
        words += ["--lib", f"{name}:{','.join(['core', 'std', *listed[name], *uses[name]])}={root}/crates/{name}/src/lib.rt"]
    names = list(dict.fromkeys(["std", *(it for name in [crate, *below] for it in listed[name])]))
    for name in names:
        with open(f"{kit}/rlibs/{name}.rlib/format", encoding="utf-8") as file:
            found = re.findall(r"^dep (\w+)$", file.read(), re.M)
        # the loop comes to these too
        names += [it for it in found if it not in names]
        words += ["--lib", f"{name}:{','.join(found)}={kit}/rattle/{name}/src/lib.rt"]
    return words


def check_words(root, crate):
    """The words of a check of a crate in a folder of its own, over the libraries that are finished there."""
    kit, uses = folder_of_kit(), graph(root)
    words = ["--crate-name", crate, "src/main.rt" if os.path.isfile(f"{root}/crates/{crate}/src/main.rt") else "src/lib.rt"]
    for name in dict.fromkeys(["core", "std", *kit_of(root)[crate]]):
        words += ["--extern", f"{name}={kit}/rlibs/{name}.rlib"]
    words += ["-L", f"dependency={kit}/rlibs"]
    for name in uses[crate]:
        words += ["--extern", f"{name}={root}/crates/{name}/out/rlib/{name}.rlib"]
    for name in crates_below(uses, {crate}):
        words += ["-L", f"dependency={root}/crates/{name}/out/rlib"]
    words += ["--antt-project", f"{kit}/rattle/logic/antt-project.json", "--logic-built", f"{kit}/logic_built", "--jobs", "1", "--links", f"{crate}="]
    with open(f"{root}/crates.txt", encoding="utf-8") as file:
        if re.search(rf"^{crate} staticlib\b", file.read(), re.M):
            words += ["--crate-type", "staticlib"]
    return [f"{kit}/bin/rattle", "check", *words]


def job_count():
    """The number of checks that run side by side: RT_JOBS where it is set, or else at most one for each processor, and one for each 5 GiB."""
    jobs = os.environ.get("RT_JOBS", "")
    if jobs.isdigit() and int(jobs) > 0:
        return int(jobs)
    memory = os.sysconf("SC_PAGE_SIZE") * os.sysconf("SC_PHYS_PAGES")
    return max(1, min(len(os.sched_getaffinity(0)), memory // MEMORY))


def stamp(folder):
    """The toolchain's stamp of the finished library there."""
    try:
        with open(f"{folder}/out/rlib/stamp", encoding="utf-8") as file:
            return file.read()
    except OSError:
        return None


def finished_at(folder):
    """When the library there was finished, or 0 where it is not."""
    try:
        return os.stat(f"{folder}/out/rlib/stamp").st_mtime_ns
    except OSError:
        return 0


def build(folder):
    """The toolchain's stamp of the finished library there, and what tells this build of it from another one: libraries stand together only where each was proved over the others' builds."""
    formats = sorted(glob.glob(f"{folder}/out/rlib/*.rlib/format"))
    sums = []
    for place in formats:
        with open(place, "rb") as file:
            sums.append(hashlib.sha256(file.read()).hexdigest())
    return stamp(folder), sums


def link_file(given, place):
    """Takes a file of a finished library over, which no one writes to: all libraries together are 5 GB. So it is a second name of the file, where both are in one file system."""
    try:
        os.link(given, place)
    except OSError:
        shutil.copy2(given, place)


def refresh_room(room):
    """Copies the sources of the repository into the room, in place of those of an earlier call, and its finished libraries."""
    for place in glob.glob(f"{room}/crates/*/*"):
        if not place.endswith("/out"):
            shutil.rmtree(place) if os.path.isdir(place) else os.remove(place)
    for file in lines_of(["git", "ls-files", "--cached", "--others", "--exclude-standard", "crates", "crates.txt", "HANDLES"]):
        if os.path.isfile(f"{TOP}/{file}"):
            os.makedirs(os.path.dirname(f"{room}/{file}"), exist_ok=True)
            shutil.copyfile(f"{TOP}/{file}", f"{room}/{file}")
    others = set()
    for name, uses in graph(room).items():
        given, place = f"{TOP}/crates/{name}", f"{room}/crates/{name}"
        is_given = stamp(given) is not None
        # a library goes where the repository has another build of it, or where it was proved over a build that is no longer here
        if build(given) == build(place) if is_given else others.isdisjoint(uses):
            continue
        others.add(name)
        shutil.rmtree(f"{place}/out/rlib", ignore_errors=True)
        if is_given:
            shutil.copytree(f"{given}/out/rlib", f"{place}/out/rlib", copy_function=link_file)


def enter_room():
    """The room, locked until this process ends."""
    own = hashlib.sha256(TOP.encode()).hexdigest()[:16]
    room = os.path.abspath(os.environ.get("ROOM") or f"{tempfile.gettempdir()}/enforce-{own}")
    if f"{room}/".startswith(f"{TOP}/"):
        raise SystemExit("the room must lie outside of the repository")
    os.makedirs(f"{room}/.git", exist_ok=True)
    lock = os.open(f"{room}/.git", os.O_RDONLY)
    fcntl.flock(lock, fcntl.LOCK_EX)
    refresh_room(room)
    return room


def take_libraries(room, names, rooms):
    """Has the room take over these libraries, lowest first, as they were finished last in one of these rooms."""
    for name in names:
        given = max(rooms, key=lambda it: finished_at(f"{it}/crates/{name}"))
        if finished_at(f"{given}/crates/{name}") and build(f"{given}/crates/{name}") != build(f"{room}/crates/{name}"):
            shutil.rmtree(f"{room}/crates/{name}/out/rlib", ignore_errors=True)
            shutil.copytree(f"{given}/crates/{name}/out/rlib", f"{room}/crates/{name}/out/rlib", copy_function=link_file)


def parallel_rooms(room):
    """The room and others like it, one for each check that runs at once: a check keeps others out of the crates that it stands on."""
    rooms = [room, *(f"{room}-{number}" for number in range(2, job_count() + 1))]
    for other in rooms[1:]:
        os.makedirs(f"{other}/.git", exist_ok=True)
        refresh_room(other)
    return rooms


def prove(name, room):
    """Proves a library, if it has changed. Those that it stands on are finished."""
    print(f"{name}: proving the library, where it has changed", file=sys.stderr, flush=True)
    done = subprocess.run(["rt", "lib"], cwd=f"{room}/crates/{name}", stdin=subprocess.DEVNULL, stdout=subprocess.PIPE, stderr=subprocess.STDOUT, text=True)
    if done.returncode != 0:
        raise SystemExit(f"{done.stdout[-4000:]}\n{name} is not proved")


def proofs(uses, names):
    """The tasks that prove these libraries, each after those of them that it stands on."""
    return {name: ([it for it in uses[name] if it in names], functools.partial(prove, name)) for name in names}


def in_order(tasks, rooms):
    """Runs tasks side by side, one in a room, each once those that it waits for have ended, and of those that are ready the first in the table. Returns what each gave.

    A task is what it waits for, and a call that gets the room. Where one fails, none is begun after it.
    """
    given, running, left, free = {}, {}, dict(tasks), list(rooms)
    with ThreadPoolExecutor(len(rooms)) as pool:
        while left or running:
            ready = [it for it, (waits, _) in left.items() if all(other in given for other in waits)]
            for it in ready[: len(free)]:
                room = free.pop()
                running[pool.submit(left.pop(it)[1], room)] = it, room
            for done in wait(running, return_when=FIRST_COMPLETED).done:
                it, room = running.pop(done)
                given[it] = done.result()
                free.append(room)
    return given


def finish(room, uses, names):
    """Proves these libraries if they have changed, lowest first. So a check above them finds them finished."""
    in_order(proofs(uses, names), [room])


def take_module(room, crate, module, name):
    """Copies a module of another crate into a program of the room, with the module's proofs, which are the program's there."""
    given, place = f"{room}/crates/{crate}", f"{room}/crates/{name}"
    shutil.copyfile(f"{given}/src/{module}.rt", f"{place}/src/{module}.rt")
    for path in glob.glob(f"{given}/proofs/{module}/**/*.antt", recursive=True):
        copy = f"{place}/{os.path.relpath(path, given)}"
        os.makedirs(os.path.dirname(copy), exist_ok=True)
        with open(path, encoding="utf-8") as file, open(copy, "w", encoding="utf-8") as proof:
            proof.write(file.read().replace(f"Rattle.{crate}.proofs.", f"Rattle.{name}.proofs."))


def add(room, name):
    """Copies a program of bench/programs into the room, as a crate. A line `CRATE MODULE` of its file `modules` has it take that module too."""
    given, place = f"{TOP}/bench/programs/{name}", f"{room}/crates/{name}"
    os.makedirs(f"{place}/src", exist_ok=True)
    for file in glob.glob(f"{given}/src/*.rt.txt"):
        shutil.copyfile(file, f"{place}/src/{os.path.basename(file).removesuffix('.txt')}")
    for file in ("stdin", "stdout", "args"):
        if os.path.isfile(f"{given}/{file}"):
            shutil.copyfile(f"{given}/{file}", f"{place}/{file}")
    if os.path.isfile(f"{given}/modules"):
        with open(f"{given}/modules", encoding="utf-8") as file:
            for line in file:
                take_module(room, *line.split(), name)
    with open(f"{given}/uses", encoding="utf-8") as file, open(f"{room}/crates.txt", "a", encoding="utf-8") as crates:
        crates.write(f"{name}: {file.read().strip()}\n")
