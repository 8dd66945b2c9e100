"""Chains of descriptors are walked as by the crate virtio-queue, which is Debian's of the suite sid, built in out/chains."""
import os
import pathlib
import shutil
import subprocess
import sys

import pytest
from building import REPOSITORY, STRICT, find_library, need, run, shell

HERE = pathlib.Path(__file__).resolve().parent / "chains"
OUT = REPOSITORY / "out/chains"
sys.path.append(str(HERE))
import cases  # noqa: E402

# virtio-queue, and all that it needs.
CRATES = """virtio-queue vm-memory virtio-bindings vmm-sys-util log libc arc-swap bitflags bitflags-1 rangemap thiserror
    thiserror-impl syn quote proc-macro2 unicode-ident serde""".split()
UNPACK = """[ ! -d "$1/packages" ] || exit 0
    rm -rf "$1/half"; mkdir -p "$1"
    { use_suite sid "$1/apt" && unpack_packages "$1/half" "${@:2}"; } > "$1/said" 2>&1 ||
        { echo "requires packages of Debian's sid, which cannot be downloaded" >&2; exit 2; }
    mv "$1/half" "$1/packages" """


@pytest.mark.slow
def test_a_chain_has_the_pieces_that_virtio_queue_finds_and_ends_where_it_ends(requests, seed, tmp_path):
    need("cargo", "cargo")
    shell(UNPACK, OUT, *(f"librust-{it}-dev" for it in CRATES))
    # (cargo writes beside it)
    shutil.copytree(HERE / "upstream", OUT / "upstream", dirs_exist_ok=True)
    run("cargo", "--config", 'source.crates-io.replace-with = "debian"',
        "--config", f'source.debian.directory = "{OUT}/packages/usr/share/cargo/registry"',
        "build", "--offline", "--release", "--manifest-path", OUT / "upstream/Cargo.toml", seconds=600,
        env={**os.environ, "CARGO_TARGET_DIR": str(OUT / "target")})
    run("cc", *STRICT, "-O2", "-I", REPOSITORY / "programs/transport", HERE / "walk.c", *find_library("nizwarf_border"),
        "-o", tmp_path / "walk")
    made = list(cases.make(seed, requests(200000)))
    # (a line for each case)
    ours, theirs = (subprocess.check_output([program], input=b"".join(made), timeout=120).decode().splitlines()
                    for program in (tmp_path / "walk", OUT / "target/release/upstream"))
    assert cases.compare(made, ours, theirs) == 0
