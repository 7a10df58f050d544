"""Checks the Debian packages: what they have, what lintian finds, and that dpkg installs and removes them below a folder.

The packages with scripts of their maintainer are only installed by package_chroots.py.
"""
import os
import re
import subprocess
import sys

import install
import needs
from amount import IS_FULL
from harness import TOP, compare, run
from needs import missing

sys.path.insert(1, str(TOP / "packaging"))
import common  # (it is in the folder that the line above names)

VETTED = install.CONTACTS
LIBRARIES = "usr/lib/x86_64-linux-gnu"


def fields(package):
    """The fields of a package by their names."""
    return dict(re.findall(r"^([\w-]+): (.*)$", run(["dpkg-deb", "-f", package])[0], re.M))


def control(package, name):
    """A file of a package's control archive, or nothing."""
    return subprocess.run(["dpkg-deb", "-I", package, name], capture_output=True, text=True).stdout


def listed(dist):
    """The repository has each package, with its sums, and each package depends on what is there or in Debian."""
    described = (dist / "apt/Packages").read_text()
    for package in sorted((dist / "apt").glob("*.deb")):
        it = fields(package)
        entry = next(part for part in described.split("\n\n") if f"Filename: ./{package.name}\n" in part)
        compare(f"sum of {package.name} in Packages", True, common.digest(package) in entry)
        compare(f"version of {package.name}", common.debian_version(), it["Version"])
        compare(f"licences in {package.name}", True, f"./usr/share/doc/{it['Package']}/copyright" in run(["dpkg-deb", "-c", package])[0])
        needed = re.search(r"libc6 \(>= ([\d.]+)\)", it.get("Depends", ""))
        # (Debian 12 has 2.36, and Ubuntu 22.04 has 2.35)
        compare(f"the C library of {package.name}", True, needed is None or tuple(map(int, needed[1].split("."))) <= (2, 35))


def symbols(dist):
    """The list of symbols has each call of the header, and its version that of the header at most."""
    text = control(next(dist.glob("apt/libcapvet2_*_amd64.deb")), "symbols")
    calls = dict(re.findall(r"^ (capvet_\w+)@CAPVET_2 ([\d.]+)~?$", text, re.M))
    compare("calls of the list of symbols", sorted(common.calls()), sorted(calls))
    compare("versions of the list of symbols", True, all(it.split(".") <= common.version().split(".") for it in calls.values()))


def crate_over(root, folder):
    """A program over the packages' own crates for Rust is built, beside Debian's crates, and nothing is written there."""
    if missing("the crate of the Debian package", "cargo", "rustc", "crates"):
        return
    project, registry = folder / "over-deb", folder / "registry"
    registry.mkdir()
    for crate in (*needs.CRATES.iterdir(), *root.glob("usr/share/cargo/registry/*")):
        (registry / crate.name).symlink_to(crate)
    for name in ("src", ".cargo"):
        (project / name).mkdir(parents=True)
    (project / ".cargo/config.toml").write_text(f'[source.debian]\ndirectory = "{registry}"\n[source.crates-io]\nreplace-with = "debian"\n')
    (project / "Cargo.toml").write_text(f"""[package]
name = "over"
version = "0.0.0"
edition = "2021"
[dependencies]
capvet = "{common.version()}"
[workspace]
""")
    (project / "src/main.rs").write_text(f"""fn main() {{
    let bytes = include_bytes!("{TOP / 'examples/contacts.bin'}");
    println!("{{}}", capvet::vet(bytes, capvet::Limits::DEFAULT).expect("it is accepted").report().charge);
}}
""")
    environment = {**os.environ, "CARGO_TARGET_DIR": str(folder / "target-deb")}
    before = install.files_of(root)
    compare("cargo run over the Debian package", ("391\n", 0), run(["cargo", "run", "--offline", "--quiet"], cwd=project, env=environment))
    compare("files after cargo run", before, install.files_of(root))


def installed(dist, folder, built):
    """The packages without scripts are installed below a folder, and removed without a trace."""
    packages = [it for it in sorted(dist.glob("apt/*.deb")) if not it.name.endswith("_arm64.deb") and not control(it, "prerm")]
    root = folder / "root"
    for name in ("info", "updates", "triggers"):
        (root / "var/lib/dpkg" / name).mkdir(parents=True)
    (root / "var/lib/dpkg/status").touch()
    (root / "var/log").mkdir()
    before = {name for name in install.files_of(root) if not name.startswith("var/")}
    dpkg = ["dpkg", f"--root={root}", "--force-depends", "--force-not-root", "--force-script-chrootless"]
    text, status = run([*dpkg, "-i", *packages], env={**os.environ, "DEBIAN_FRONTEND": "noninteractive"})
    compare("dpkg -i", 0, status)
    if status:
        print(text)
        return
    compare("the package's program", built["x86_64/capvet"], common.digest(root / "usr/bin/capvet"))
    compare("the package's libraries", [built["x86_64/libcapvet.a"], built["x86_64/libcapvet.so.2"]],
            [common.digest(root / LIBRARIES / name) for name in ("libcapvet.a", "libcapvet.so")])
    compare("the package's program runs", (VETTED, 0), run([root / "usr/bin/capvet", "vet", TOP / "examples/contacts.bin"]))
    crate_over(root, folder)
    for page in (root / "usr/share/doc/capvet").rglob("*.md"):
        # (the page on installation is about the other packages too)
        if page.name != "install.md":
            compare(f"{page.name} names no file of a checkout", [], re.findall(r"(?:bindings|(?<!examples/)rust)/\w+|\$HOME/x", page.read_text()))
    compare("dpkg -P", 0, run([*dpkg, "-P", *(fields(it)["Package"] for it in packages)])[1])
    compare("files left", before, {name for name in install.files_of(root) if not name.startswith("var/")})


def made(dist, folder):
    """What gcc links for the packages is bound when it is loaded, and the package for Python needs no other one that pip knows of."""
    root = folder / "unpacked-debs"
    for package in dist.glob("apt/*_amd64.deb"):
        run(["dpkg-deb", "-x", package, root])
    if not missing("that what the packages have is bound when it is loaded", "readelf"):
        for file in (*root.glob("usr/bin/capvet-guard"), *root.glob("usr/lib/python3/dist-packages/**/*.so"), root / LIBRARIES / "libcapvet.so.2"):
            compare(f"{file.name} is bound when it is loaded", True, "BIND_NOW" in run(["readelf", "-dW", file])[0])
    needed = [line for file in root.glob("usr/lib/python3/dist-packages/*/METADATA") for line in file.read_text().splitlines()
              if line.startswith("Requires-Dist: ")]
    compare("what the package for Python needs by pip", [], needed)


def check(dist, folder, built):
    """All of it."""
    if missing("the Debian packages", "dpkg"):
        return
    listed(dist)
    symbols(dist)
    made(dist, folder)
    installed(dist, folder, built)
    if not missing("what lintian finds", "lintian"):
        packages = [it for it in sorted(dist.glob("apt/*.deb")) if IS_FULL or not it.name.endswith("_arm64.deb")]
        text, _ = run(["lintian", "--allow-root", "--tag-display-limit", "0", *packages])
        compare("errors and warnings of lintian", [], [line for line in text.splitlines() if line.startswith(("E:", "W:"))])
