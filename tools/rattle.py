"""What tools/build and tools/times know of crates.txt, of what rt leaves in crates/NAME/out/, and of how rt calls the kit's rattle."""
import functools, pathlib, subprocess

ROOT = pathlib.Path(__file__).resolve().parents[1]


@functools.lru_cache(maxsize=None)
def kit():
    """The kit's folder."""
    return pathlib.Path(subprocess.run(["rt", "doc"], stdout=subprocess.PIPE, text=True, check=True).stdout.strip()).parent


@functools.lru_cache(maxsize=None)
def listed():
    """crates.txt: what each crate uses, by its name."""
    rows = [line.partition("#")[0].partition(":") for line in (ROOT / "crates.txt").read_text(encoding="utf-8").splitlines()]
    return {head.split()[0]: uses.split() for head, _, uses in rows if head.strip()}


@functools.lru_cache(maxsize=None)
def below(name):
    """The repository's libraries below a crate, each after those that it uses."""
    found = []
    for dep in [it for it in listed()[name] if it in listed()]:
        found += [it for it in [*below(dep), dep] if it not in found]
    return found


def folder(name):
    return ROOT / "crates" / name


def rlib(name):
    """Where rt builds a library for the crates above it."""
    return folder(name) / "out" / "rlib" / f"{name}.rlib"


def words(name):
    """The words by which rt has rattle check or build a crate over the libraries below it, as they are built."""
    own, places = kit(), [f"dependency={kit()}/rlibs"] + [f"dependency={rlib(it).parent}" for it in below(name)]
    root = "src/main.rt" if (folder(name) / "src/main.rt").is_file() else "src/lib.rt"
    uses = [f"{it}={rlib(it) if it in listed() else own / 'rlibs' / f'{it}.rlib'}" for it in ["std", *listed()[name]]]
    out = ["--crate-name", name, root, "--antt-project", f"{own}/rattle/logic/antt-project.json", "--logic-built", f"{own}/logic_built"]
    return out + [word for it in uses for word in ("--extern", it)] + [word for it in places for word in ("-L", it)]
