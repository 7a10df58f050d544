"""Installs the packages in fresh roots of Debian 12 and 13, uses them as an ordinary user, and removes them.

mmdebstrap makes a small root, with nothing but what Debian itself needs. Each session is a layer over it, in which a script runs with
its own mounts. So nothing outside the folder of the test changes. In the first sessions apt installs each Debian package alone. It is
used, and purged: then no file has its name. In the others the tools of developers are there, and all packages are installed. The
commands of the installed README and pages are run word for word, the examples in Rust are built, and after the purge the root has the
files of before. One of these sessions leaves out /usr/share/doc. In the last one there are no Debian packages of capvet: the commands
of docs/install.md for dist/ are run, and those of the README and the pages of the archive for Linux.

A root for arm64 is run by qemu. So that the kernel starts qemu for its programs, and only there, the session has a user namespace
with a list of such formats of its own (Linux 6.7 or later).
"""
import functools
import os
import re
import shlex
import shutil
import subprocess
import sys
import time
from pathlib import Path

import chroots
import reading
from chroots import PLAIN, merge, session
from harness import TOP, compare
from install import CONTACTS
from needs import SOURCES, mirror, missing

sys.path.insert(1, str(TOP / "packaging"))
import common  # (it is in the folder that the line above names)

# What the commands of the pages need, beside the packages. (No package of these is needed by another reader)
TOOLS = ("g++ pkgconf cmake make cargo golang-go man-db jq parallel python3-venv python3-pip python3-cffi python3-distributed "
         f"libcapnp-dev bash-completion librust-capnp-dev nodejs npm {SOURCES['crates'][1]}")
PAGES = ("guide", "service", "output", "c", "go", "python", "scale")
PAGES_OF_ARCHIVE = (*PAGES, "js")
USED = "export HOME=/home/reader LC_ALL=C.UTF-8; cd; rm -rf work; mkdir work; cd work"
# The minor version of the crate `capnp` in each release.
MINORS = {"bookworm": "0.14", "trixie": "0.19"}
# A crate over both adapters, for the `capnp` of a release.
RUST = r"""mkdir -p src .cargo
printf '[package]\nname = "it"\nversion = "0.1.0"\nedition = "2021"\n[dependencies]\n' > Cargo.toml
printf 'capvet_capnp = "@minor@"\ncapvet_capnp_rpc = "@minor@"\n' >> Cargo.toml
printf '[source.crates-io]\nreplace-with = "debian"\n[source.debian]\ndirectory = "/usr/share/cargo/registry"\n' > .cargo/config.toml
printf 'pub use capvet_capnp::vetted;\npub use capvet_capnp_rpc::vetting;\n' > src/lib.rs
cargo build --quiet --offline && echo built"""
CHARGE = "import capvet; print(capvet.vet(open(\"/srv/examples/contacts.bin\", \"rb\").read()).report.charge)"
# What a user does with each package that is installed alone: the command, and what it prints.
ALONE = {
    "capvet": ("capvet vet /srv/examples/contacts.bin", CONTACTS),
    "libcapvet2": ("ls /usr/lib/*/libcapvet.so.2 | wc -l", "1\n"),
    "libcapvet-dev": ("ls /usr/include/capvet.h", "/usr/include/capvet.h\n"),
    "python3-capvet": (f"python3 -c '{CHARGE}'", "391\n"),
    "librust-capvet-core-dev": ("ls -d /usr/share/cargo/registry/capvet-core-*/src", None),
    "librust-capvet-dev": ("ls -d /usr/share/cargo/registry/capvet-[0-9]*/src", None),
    "golang-capvet-dev": ("ls /usr/share/gocode/src/capvet.invalid/capvet/go.mod", None),
    "capvet-guard": ("capvet-guard --version | cut -d' ' -f1", "capvet-guard\n"),
    "capvet-doc": ("ls /usr/share/doc/capvet/README.md", "/usr/share/doc/capvet/README.md\n"),
    "capvet-inspector": ("ls /usr/share/capvet/inspector.html", "/usr/share/capvet/inspector.html\n"),
    "librust-capvet-capnp-dev": ("ls -d /usr/share/cargo/registry/capvet_capnp-*/src", None),
    "librust-capvet-capnp-rpc-dev": ("ls -d /usr/share/cargo/registry/capvet_capnp_rpc-*/src", None),
}
# The examples in Rust, as docs/rust.md says, and what they print. (`rpc` needs a later `capnp` than both releases have)
EXAMPLES = ["cd examples/rust", "cargo run --offline --quiet --bin vet -- ../contacts.bin", "cd read",
            "sed -i 's/\"0.27\"/\"@minor@\"/' Cargo.toml", "cargo run --offline --quiet -- ../../contacts.bin"]
BUILT = f"{CONTACTS}accepted, 391 words in capnp\n"
# Files of apt, dpkg and the linker's cache, which each installation changes.
CHANGING = r"/(proc|sys|dev|tmp|run|var/lib/(apt|dpkg)|var/cache|var/log|srv|home)(/|$)|/etc/ld.so.cache$|/__pycache__(/|$)"
FILES = f"find / -xdev | grep -Ev '{CHANGING}' | sort"


# What docs/install.md says to purge.
PURGED = re.search(r"apt-get purge ('[^']*')", (TOP / "docs/install.md").read_text())[1]
EXCLUDED = r"path-exclude=/usr/share/doc/*\npath-include=/usr/share/doc/*/copyright\n"


def make_root(folder, dist, suite):
    """A root of a release of Debian with a user, the samples, and the repository, by the line of docs/install.md."""
    base = folder / suite
    error = chroots.make(base, suite)
    compare(f"a root of {suite}", "", error)
    if error:
        return None
    shutil.copytree(dist, base / "srv/dist")
    shutil.copytree(TOP / "examples", base / "srv/examples")
    page = (TOP / "docs/install.md").read_text()
    first, update, last = next(it for _, it in reading.BLOCK.findall(page) if "sources.list.d" in it).splitlines()
    compare("the last command for Debian", "sudo apt-get install capvet", last)
    # (the user of this session is root, and there is no `sudo`)
    text, status = session(base, folder / "first", f"set -e\ncd /srv/dist\nsudo() {{ \"$@\"; }}\n{first}\n{update}\n"
                           "useradd -m reader")
    compare(f"the commands of install.md on {suite}", 0, status if not status else text)
    merge(base, folder / "first/upper")
    return base


def as_user(script):
    """Commands that run a script as an ordinary user in a new folder."""
    return f"cat > /srv/user <<'END-OF-USER'\n{USED}\n{script}\nEND-OF-USER\nsetpriv --reuid=reader --regid=reader --clear-groups bash /srv/user"


def has_guard(dist):
    """Whether the guard is packed."""
    return any(dist.glob("apt/capvet-guard_*"))


def purged_later(base, folder):
    """What systemd enabled, and a package that was only removed, are gone after the purge of docs/install.md."""
    links = "/etc/systemd/system/sockets.target.wants"
    text, status = session(base, folder / "alone", f"""set -e
apt-get -qq install -y --no-install-recommends capvet-guard capvet > /srv/log 2>&1 || {{ cat /srv/log; exit 1; }}
mkdir -p {links}
ln -s /lib/systemd/system/capvet-guard.socket {links}
apt-get -qq remove -y capvet-guard > /srv/log 2>&1 || {{ cat /srv/log; exit 1; }}
apt-get -qq purge -y {PURGED} > /srv/log 2>&1 || {{ cat /srv/log; exit 1; }}
find / -xdev -iname '*capvet*' | grep -Ev '^/(proc|srv|var/lib/apt|etc/apt)' || true
dpkg -l '*capvet*' 2>/dev/null | grep '^[a-z]i\\|^rc' || true
""")
    compare(f"left of a package that was removed first, on {base.name}", ("", 0), (text, status))


def alone(base, folder, packages):
    """Each of these packages by itself: apt installs it with what it needs, it works, and nothing of it is left."""
    for package, (command, expected) in ALONE.items():
        if package not in packages:
            continue
        script = f"""set -e
apt-get -qq install -y --no-install-recommends {package} > /srv/log 2>&1 || {{ cat /srv/log; exit 1; }}
echo @@; {as_user(command)}; echo @@
apt-get -qq purge -y --autoremove {package} > /srv/log 2>&1 || {{ cat /srv/log; exit 1; }}
find / -xdev -iname '*capvet*' | grep -Ev '^/(proc|srv|var/lib/apt|etc/apt)' || true
dpkg -l '*capvet*' 2>/dev/null | grep '^[a-z]i\\|^rc' || true
"""
        text, status = session(base, folder / "alone", script)
        before, got, left = text.split("@@\n") if text.count("@@\n") == 2 else (text, None, None)
        compare(f"apt installs {package} on {base.name}, and it is used and purged", (0, ""), (status, before))
        if got is not None:
            compare(f"{package} works", expected, got if expected is not None else None)
            compare(f"left of {package}", "", left)


def together(base, folder, packages, excluded):
    """All packages on a machine with tools: the README and the pages word for word, and the files after the purge."""
    docs = Path("/usr/share/doc/capvet")
    texts = {name: next(folder.glob(f"pages/usr/share/doc/capvet/{place}")).read_text()
             for name, place in {"README": "README.md", **{name: f"docs/{name}.md" for name in PAGES}}.items()}
    exclude = f"printf '{EXCLUDED}' > /etc/dpkg/dpkg.cfg.d/docs\n" if excluded else ""
    copy = "cp -r /srv/examples .\n" if excluded else f"cp -r {docs}/examples .\n"
    scripts = {}
    for name, page in texts.items():
        page = page.replace(f"cp -r {docs}/examples .\n", "") if name == "README" else page
        scripts[name] = page, f"echo '@@@ {name}'\n{as_user(copy + reading.script(page))}\n"
    chosen = {"README": scripts["README"]} if excluded else scripts
    examples = as_user("\n".join(["set -e", copy, *EXAMPLES]))
    built = "" if excluded else f"echo '@@@ examples'\n{examples}\n"
    built = f"{built}echo '@@@ crates'\n{as_user(RUST)}\n".replace("@minor@", MINORS[base.name])
    script = f"""set -e
{exclude}{FILES} > /srv/before
apt-get -qq install -y --no-install-recommends {' '.join(packages)} > /srv/log 2>&1 || {{ cat /srv/log; exit 1; }}
{''.join(it for _, it in chosen.values())}{built}echo '@@@ documents'
test -e {docs}/docs/guide.md && echo there || echo excluded
ls /usr/share/doc/capvet/copyright
echo '@@@ left'
rm -rf /home/reader/work
apt-get -qq purge -y {PURGED} > /srv/log 2>&1 || {{ cat /srv/log; exit 1; }}
{FILES} > /srv/after
diff /srv/before /srv/after || true
"""
    text, status = session(base, folder / "all", script)
    compare(f"a session on {base.name} with all packages, documents {'excluded' if excluded else 'there'}", 0, status if not status else text[-3000:])
    parts = dict(part.split("\n", 1) for part in text.split("@@@ ")[1:])
    for name, (page, _) in chosen.items():
        reading.read(f"{name} on {base.name}", page, parts.get(name, ""), compare)
    if not excluded:
        compare(f"the examples in Rust on {base.name}", BUILT, parts.get("examples"))
    compare(f"the adapters to the crate capnp on {base.name}", "built\n", parts.get("crates"))
    compare("documents", f"{'excluded' if excluded else 'there'}\n/usr/share/doc/capvet/copyright\n", parts.get("documents"))
    compare("files left of all packages", "", parts.get("left"))


def from_archive(base, folder, dist):
    """The commands of docs/install.md for dist/, then those of the README and the pages of the archive for Linux, at its top."""
    archive = next(dist.glob("*-x86_64-linux.tar.gz"))
    subprocess.run(["tar", "xf", archive, "-C", folder], check=True)
    top = folder / archive.name.removesuffix(".tar.gz")
    pages = {name: (top / name).read_text() for name in ("README.md", *(f"docs/{it}.md" for it in PAGES_OF_ARCHIVE))}
    blocks = of_install((dist / "README.md").read_text())
    script = ["export npm_config_update_notifier=false",
              f"mkdir .cargo\ncat > .cargo/config.toml <<'END-OF-CRATES'\n{crates_of_debian((dist / 'README.md').read_text())}END-OF-CRATES"]
    for name, (_, before, block, _) in blocks.items():
        script.append(f"echo '@@@ {name}'\n(cp -r /srv/dist received; cd received\n{before}set -e\n{block})\necho $?\nrm -rf received")
    script.append(f"tar xf /srv/dist/{archive.name}; cd {top.name}\nexport PATH=$PWD/bin:$PATH PKG_CONFIG_PATH=$PWD/lib/pkgconfig")
    script += [f"echo '@@@ {name}'\n({reading.script(page, 'venv/bin/python')})" for name, page in pages.items()]
    text, status = session(base, folder / "archive", as_user("\n".join(script)))
    compare(f"a session on {base.name} with the archive", 0, status if not status else text[-3000:])
    parts = dict(part.split("\n", 1) for part in text.split("@@@ ")[1:])
    for name, (_, _, _, expected) in blocks.items():
        compare(f"install.md on {base.name}: {name}", f"{expected}0\n", parts.get(name))
    for name, page in pages.items():
        reading.read(f"{name} of the archive on {base.name}", page, parts.get(name, ""), compare, "venv/bin/python")
    shutil.rmtree(top)


def crates_of_debian(page):
    """What docs/install.md says to write for cargo, so that crates come from Debian's packages."""
    return next(text for language, text in reading.BLOCK.findall(page) if language == "toml")


def of_install(page):
    """The blocks of docs/install.md that need no rights, by their names: the tools that each needs, what comes before it, its commands
    and what it prints. They begin in a copy of dist/."""
    version = common.version()
    unpack = f"tar xf capvet-{version}-x86_64-linux.tar.gz\nexport CAPVET=$PWD/capvet-{version}-x86_64-linux\n"
    begun = {"sums": ((), "", ""), "any Linux": ((), "", f"capvet {common.version_text()}\n"), "Python": (("wheel",), "", f"{version}\n"),
             "Rust": (("cargo", "cc", "crates"), f"{unpack}cargo new --quiet --vcs none rust\ncd rust\n", ""),
             "Go": (("go", "cc", "pkg-config"), f"{unpack}mkdir go\ncd go\ngo mod init hello 2> /dev/null\n", ""),
             "JavaScript": (("wasm-opt", "node", "npm"), f"mkdir js\ncp capvet-{version}.tgz js\ncd js\n", "")}
    found = [text for language, text in reading.BLOCK.findall(page) if language == "sh" and not any(it in text for it in reading.UNTRIED)]
    compare("blocks of commands of docs/install.md", len(begun), len(found))
    # (without a network, an environment has Debian's `cffi`, as the page says)
    changes = (("-m venv venv", "-m venv --system-site-packages venv"), ("pip install", "pip install -q --no-index"))
    blocks = [functools.reduce(lambda text, change: text.replace(*change), changes, it) for it in found]
    return {name: (tools, before, block, printed) for (name, (tools, before, printed)), block in zip(begun.items(), blocks)}


ARM_FORMAT = (r":qemu-aarch64:M::\x7fELF\x02\x01\x01\x00\x00\x00\x00\x00\x00\x00\x00\x00\x02\x00\xb7\x00:"
              r"\xff\xff\xff\xff\xff\xff\xff\x00\xff\xff\xff\xff\xff\xff\xff\xff\xfe\xff\xff\xff:/usr/bin/qemu-aarch64-static:OCF")
ARM_PACKAGES = ("capvet", "libcapvet2", "libcapvet-dev", "python3-capvet")
# The kernel has to give a user namespace a list of formats of its own.
ARM_PREPARED = f"""mount -t proc proc /proc
mount -t binfmt_misc binfmt_misc /proc/sys/fs/binfmt_misc
test ! -e /proc/sys/fs/binfmt_misc/qemu-aarch64
printf '%s' '{ARM_FORMAT}' > /proc/sys/fs/binfmt_misc/register
"""


def emulated(script):
    """What a script of bash writes in a user namespace in which programs for arm64 are run by qemu, and its status."""
    words = ["unshare", "--user", "--mount", "--pid", "--fork", "--propagation", "private", "bash", "-c", "read -r go; exec bash -c \"$0\"",
             f"set -e\n{ARM_PREPARED}{script}"]
    ran = subprocess.Popen(words, stdin=subprocess.PIPE, stdout=subprocess.PIPE, stderr=subprocess.STDOUT, text=True, env=PLAIN)
    ours = os.readlink("/proc/self/ns/user")
    while ran.poll() is None and os.readlink(f"/proc/{ran.pid}/ns/user") == ours:
        time.sleep(0.01)
    for name in ("uid_map", "gid_map"):
        Path(f"/proc/{ran.pid}/{name}").write_text("0 0 65536")
    text, _ = ran.communicate("go\n", timeout=3600)
    return text, ran.returncode


def on_arm(dist, folder):
    """The packages for arm64 are installed by apt in a root for arm64, used, and purged."""
    if missing("the packages in a root for arm64", "qemu-aarch64-static", "arch-test"):
        return
    base = folder / "arm64"
    packages = [*ARM_PACKAGES, *["capvet-guard"] * has_guard(dist)]
    used = ["capvet vet /srv/examples/contacts.bin", ALONE["python3-capvet"][0], "python3 -m capvet vet /srv/examples/shared.bin | tail -n 1",
            *[ALONE["capvet-guard"][0]] * has_guard(dist), "ls /usr/include/capvet.h"]
    expected = CONTACTS + "391\nfiles 1 bytes 40 messages 1 accepted 1 refused 0\n" + "capvet-guard\n" * has_guard(dist) + "/usr/include/capvet.h\n"
    inside = f"""set -e
echo 'deb [trusted=yes] file:/srv/dist/apt ./' > /etc/apt/sources.list.d/capvet.list
apt-get -qq update; useradd -m reader
{FILES} > /srv/before
apt-get -qq install -y --no-install-recommends {' '.join(packages)} > /srv/log 2>&1 || {{ cat /srv/log; exit 1; }}
{as_user("; ".join(used))}
apt-get -qq purge -y {' '.join(packages)} > /srv/log 2>&1 || {{ cat /srv/log; exit 1; }}
{FILES} > /srv/after
diff /srv/before /srv/after || true
"""
    (folder / "inside").write_text(inside)
    text, status = emulated(f"""{shlex.join(chroots.MMDEBSTRAP)} --mode=root --arch=arm64 --include=usr-is-merged,python3,python3-cffi-backend bookworm '{base}' {mirror()} \\
  > '{folder}/log' 2>&1 || {{ cat '{folder}/log'; exit 1; }}
cp /etc/resolv.conf '{base}/etc'; cp -r '{dist}' '{base}/srv/dist'; cp -r '{TOP}/examples' '{base}/srv/examples'
mount -t proc proc '{base}/proc'
mount --rbind /dev '{base}/dev'
chroot '{base}' bash < '{folder}/inside'
""")
    compare("the packages in a root for arm64", (expected, 0), (text, status))


def check(dist, folder):
    """All of it."""
    if missing("the packages in fresh roots of Debian", "root", "mmdebstrap", "debian-mirror"):
        return
    place = folder / "roots"
    place.mkdir()
    packages = sorted({it.name.split("_")[0] for it in dist.glob("apt/*.deb") if not it.name.endswith("_arm64.deb")})
    subprocess.run(["dpkg-deb", "-x", next(dist.glob("apt/capvet-doc_*.deb")), place / "pages"], check=True)
    for suite in ("trixie", "bookworm"):
        if base := make_root(place, dist, suite):
            on(base, place, dist, packages)
            shutil.rmtree(base)
    on_arm(dist, place)
    shutil.rmtree(place)


def on(base, folder, dist, packages):
    """All of it in a root of a release."""
    alone(base, folder, packages)
    if has_guard(dist):
        purged_later(base, folder)
    text, status = session(base, folder / "tools", f"apt-get -qq install -y --no-install-recommends {TOOLS} > /srv/log 2>&1 || cat /srv/log")
    compare(f"tools of developers on {base.name}", ("", 0), (text, status))
    merge(base, folder / "tools/upper")
    for excluded in (False, True):
        together(base, folder, packages, excluded)
    from_archive(base, folder, dist)
