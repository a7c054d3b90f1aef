"""Builds what is measured: the two broker programs and the two plain Rust peers, each for release."""

import pathlib
import subprocess

HERE = pathlib.Path(__file__).resolve().parent
PEERS = ("ordered", "tuned")


def program(name):
    """A program of this repository, built as its users build it; it runs once, on an empty input."""
    crate = HERE.parent / "crates" / name
    done = subprocess.run(["rt", "run"], cwd=crate, stdin=subprocess.DEVNULL, capture_output=True, text=True)
    if done.returncode:
        raise SystemExit("bench: %s could not be built\n%s" % (name, done.stderr))
    return str(crate / "out" / name)


def programs():
    """The path of each program, by its price."""
    return {"share": program("share_broker"), "class": program("class_broker")}


def peers():
    """The path of each peer, by its name. A peer is run with the price as its argument."""
    for name in PEERS:
        subprocess.run(["cargo", "build", "--release", "--offline", "--quiet"], cwd=HERE / name, check=True)
    return {name: str(HERE / name / "target" / "release" / name) for name in PEERS}
