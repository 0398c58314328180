"""Writes a Cargo workspace out of the crates of the repository."""

import glob
import os
import shutil

from crates import law_names, reached, read_list
from tokens import Refused

HERE = os.path.dirname(os.path.dirname(os.path.abspath(__file__)))
# Where Debian puts the sources of Rust's crates.
REGISTRY = "/usr/share/cargo/registry"
# The crates of others that the sources name, and which of them Rust has alike.
OTHERS = {"arrayvec": "0.7", "memchr": "2", "circular_buffer": None, "hex": None}
OVER_RTSTD = {"circular_buffer", "hex"}
ROOT = "#![no_std]\n#![forbid(unsafe_code)]\n\nextern crate rtstd as std;\n\n"
CONFIG = f"""[source.crates-io]
replace-with = "machine"

[source.machine]
directory = "{REGISTRY}"
"""
STATIC = '[lib]\ncrate-type = ["staticlib"]\ntest = false\ndoctest = false\n'
SMALL = '[profile.release]\nopt-level = "s"\nlto = true\ncodegen-units = 1\npanic = "abort"\noverflow-checks = true\n'
LINTS = '[lints.rust]\nunsafe_code = "forbid"\n'
# `rtstd` has one function that says itself why it may.
SAID = '[lints.rust]\nunsafe_code = "deny"\n'
# A crate without tests of its own isn't built for them.
UNTESTED = "[lib]\ntest = false\ndoctest = false\n\n"
# Some arguments, fields, imports and labels are there for contracts alone.
UNUSED = LINTS + "".join(f'unused_{what} = "allow"\n' for what in ("variables", "imports", "labels")) + 'dead_code = "allow"\n'


def real_crate(name):
    """The folder of Rust's own crate of that name, where the machine has it in a version that serves."""
    version = OTHERS[name]
    found = sorted(glob.glob(f"{REGISTRY}/{name}-{version}.*")) if version else []
    return found[-1] if found else None


def write(path, text):
    os.makedirs(os.path.dirname(path), exist_ok=True)
    with open(path, "w", encoding="utf-8") as file:
        file.write(text)


def manifest(name, below, more=""):
    """The Cargo.toml of a package that stands on these: a folder each, or a version of one of Rust's own crates."""
    lines = "".join(f"{other} = {{ {where}{'' if where.startswith('path') else ', default-features = false'} }}\n" for other, where in below)
    return f'[package]\nname = "{name}"\nversion = "0.0.0"\nedition = "2021"\nrust-version = "1.82"\npublish = false\n\n[dependencies]\n{lines}\n{more}'


def at(path):
    return f'path = "{path}"'


def write_crates(out, crates, others):
    """Writes the exported crates; `others` says of each crate of others how it is depended on from two folders below."""
    names = {crate.name for crate in crates}
    for crate in crates:
        below = [("rtstd", at("../../rtstd"))]
        for other in sorted(crate.uses):
            if other not in names and other not in others:
                raise Refused(f"crates.txt: {crate.name} stands on {other}, for which Rust has nothing known here")
            below.append((other, at(f"../{other}") if other in names else others[other]))
        folder = f"{out}/crates/{crate.name}"
        write(f"{folder}/Cargo.toml", manifest(crate.name, below, UNTESTED + UNUSED))
        for path, text in crate.texts.items():
            write(f"{folder}/src/{path}", text)


def write_others(out, with_real):
    """Writes the shims of the crates of others where Rust's own ones aren't wanted or aren't there. It answers how each is depended on."""
    others = {}
    for name, version in OTHERS.items():
        if with_real and real_crate(name):
            others[name] = f'version = "{version}"'
            write(f"{out}/.cargo/config.toml", CONFIG)
            continue
        others[name] = at(f"../../others/{name}")
        below = [("rtstd", at("../../rtstd"))] if name in OVER_RTSTD else []
        write(f"{out}/others/{name}/Cargo.toml", manifest(name, below, UNTESTED + LINTS))
        copy(f"shims/{name}/lib.rs", f"{out}/others/{name}/src/lib.rs")
    return others


def shims_of(others):
    return [name for name, where in others.items() if where.startswith("path")]


def copy(path, to):
    os.makedirs(os.path.dirname(to), exist_ok=True)
    shutil.copyfile(os.path.join(HERE, path), to)


def copy_folder(path, to):
    for name in sorted(os.listdir(os.path.join(HERE, path))):
        copy(os.path.join(path, name), os.path.join(to, name))


def write_workspace(out, members, profile):
    listed = "".join(f'    "{member}",\n' for member in members)
    write(f"{out}/Cargo.toml", f'[workspace]\nresolver = "2"\nmembers = [\n{listed}]\n\n{profile}')


def read_repository(folder):
    """The crates of the repository, read, and the names of its laws."""
    crates = read_list(folder)
    for crate in crates.values():
        crate.read()
    return crates, law_names(crates)


def export_program(repository, out, with_real):
    """The workspace of all that the program `swp` runs, with that program and its tests."""
    crates, laws = read_repository(repository)
    made = reached(crates, ["router", "host_core", "swp_tool"], laws, ROOT)
    others = write_others(out, with_real)
    write_crates(out, made, others)
    copy_folder("rtstd/src", f"{out}/rtstd/src")
    copy_folder("rtstd/tests", f"{out}/rtstd/tests")
    write(f"{out}/rtstd/Cargo.toml", manifest("rtstd", [("arrayvec", others["arrayvec"].replace("../..", ".."))], UNTESTED + SAID))
    names = ["drawn_schedule", "host_core", "router", "swp_base", "swp_tool", "trace_model"]
    below = [(name, at(f"../crates/{name}")) for name in names] + [("rtstd", at("../rtstd"))]
    write(f"{out}/swp/Cargo.toml", manifest("swp", below, LINTS))
    copy("program/main.rs", f"{out}/swp/src/main.rs")
    copy_folder("program/tests", f"{out}/swp/tests")
    copy_folder("program/examples", f"{out}/swp/examples")
    write(f"{out}/swp/tests/repository", os.path.abspath(repository) + "\n")
    members = [f"crates/{crate.name}" for crate in made] + [f"others/{name}" for name in shims_of(others)] + ["rtstd", "swp"]
    write_workspace(out, members, "[profile.release]\noverflow-checks = true\ndebug-assertions = true\n")
    return [crate.name for crate in made], {name: "a shim" if name in shims_of(others) else real_crate(name) for name in others}


def export_library(repository, out):
    """The workspace of the C library: the crates up to nodes, links and the decoder, over a heap that its caller hands it."""
    crates, laws = read_repository(repository)
    made = reached(crates, ["router", "host_core", "swp_decode"], laws, ROOT)
    others = {name: at(f"../../others/{name}") for name in ("arrayvec", "circular_buffer")}
    write_crates(out, made, others)
    write(f"{out}/others/arrayvec/Cargo.toml", manifest("arrayvec", []))
    copy("c/arrayvec.rs", f"{out}/others/arrayvec/src/lib.rs")
    write(f"{out}/others/circular_buffer/Cargo.toml", manifest("circular_buffer", [("rtstd", at("../../rtstd"))], LINTS))
    copy("shims/circular_buffer/lib.rs", f"{out}/others/circular_buffer/src/lib.rs")
    for name in ("clone.rs", "simd.rs"):
        copy(f"rtstd/src/{name}", f"{out}/rtstd/src/{name}")
    copy_folder("c/rtstd", f"{out}/rtstd/src")
    write(f"{out}/rtstd/Cargo.toml", manifest("rtstd", [("arrayvec", at("../others/arrayvec"))]))
    names = sorted(c.name for c in made)
    below = [(name, at(f"../crates/{name}")) for name in names] + [("rtstd", at("../rtstd")), ("arrayvec", at("../others/arrayvec"))]
    write(f"{out}/swp_stack/Cargo.toml", manifest("swp_stack", below, STATIC))
    copy_folder("c/src", f"{out}/swp_stack/src")
    below = [("rtstd", at("../rtstd")), ("arrayvec", at("../others/arrayvec"))]
    write(f"{out}/heap_tests/Cargo.toml", manifest("heap_tests", below, '[lib]\npath = "empty.rs"\ntest = false\ndoctest = false\n'))
    write(f"{out}/heap_tests/empty.rs", "//! The tests of the heap stand in tests/.\n")
    copy("c/heap_tests/storage.rs", f"{out}/heap_tests/tests/storage.rs")
    members = [f"crates/{name}" for name in names] + ["others/arrayvec", "others/circular_buffer", "rtstd", "swp_stack", "heap_tests"]
    write_workspace(out, members, SMALL)
    return names
