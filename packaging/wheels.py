"""Builds the wheels and the source distribution of the package for Python."""
import os
import re
import shutil
import subprocess
import sys
import tempfile
import zipfile
from pathlib import Path

from common import DIST, TOP, copy_tracked, run, tarball, version

# The oldest C library that a wheel works with, as its tag says.
LIBC = (2, 17)
MODULES = "cffi, setuptools, wheel"


def interpreter():
    """The first interpreter that can build a wheel, as `make wheel` takes it."""
    return next((it for it in ("/usr/bin/python3", "python3")
                 if subprocess.run([it, "-c", f"import {MODULES}"], capture_output=True).returncode == 0), None)


def headers(folder, python, machine):
    """A folder with Python's configuration for a machine, if Python looks for one of each. Those of Linux on x86-64 and arm64 agree
    in all that the stable ABI needs."""
    include, machine_here = run(python, "-c", "import sysconfig as it; print(it.get_paths()['include'], it.get_config_var('MULTIARCH'))").split()
    place = Path(include)
    here = place.parent / machine_here / place.name / "pyconfig.h"
    if here.is_file():
        (folder / f"{machine.name}-linux-gnu" / place.name).mkdir(parents=True)
        shutil.copy(here, folder / f"{machine.name}-linux-gnu" / place.name)
    return folder


def check(wheel):
    """Ends if the module needs a newer C library than the tag says, or another library."""
    with zipfile.ZipFile(wheel) as archive:
        module = archive.read(next(name for name in archive.namelist() if name.endswith(".so")))
    needed = {tuple(map(int, it.split(b"."))) for it in re.findall(rb"GLIBC_([\d.]+)\0", module)}
    if not needed or max(needed) > LIBC:
        sys.exit(f"dist: {wheel.name} needs glibc {max(needed, default='?')}, and its tag says {LIBC}")


def wheel(machine, python, epoch):
    """The wheel for a machine."""
    tag = f"manylinux_{LIBC[0]}_{LIBC[1]}_{machine.name}"
    with tempfile.TemporaryDirectory() as scratch:
        settings = Path(scratch) / "settings.cfg"
        settings.write_text(f"[bdist_wheel]\nplat_name = {tag}\n")
        # (debugging information would name the folder)
        environment = {**os.environ, "SOURCE_DATE_EPOCH": str(epoch), "DIST_EXTRA_CONFIG": str(settings), "CC": machine.compiler,
                       "LDSHARED": f"{machine.compiler} -shared -s -Wl,-z,relro,-z,now", "CFLAGS": f"-g0 -I{headers(Path(scratch), python, machine)}"}
        run("make", "-s", "wheel", f"wheeldir={DIST}", f"BUILT_ARCHIVE={(machine.folder / 'libcapvet.a').relative_to(TOP)}", env=environment)
    made = DIST / f"capvet-{version()}-cp39-abi3-{tag}.whl"
    check(made)
    return made


def source(python, epoch):
    """The source distribution, packed again without its times and its user."""
    with tempfile.TemporaryDirectory() as scratch:
        top = Path(scratch)
        copy_tracked(top, "bindings/python", "examples", "include", "tests")
        run(python, "setup.py", "-q", "sdist", "--dist-dir", str(top / "made"), cwd=top / "bindings/python", stderr=subprocess.STDOUT)
        run("tar", "xf", str(next((top / "made").iterdir())), "-C", scratch)
        tarball(top / f"capvet-{version()}", DIST / f"capvet-{version()}.tar.gz", epoch)


def build(machines, epoch):
    """The wheels by their machines. There is none without an interpreter that can build one."""
    python = interpreter()
    if python is None:
        print(f"dist: no wheel is packed without {MODULES}: install python3-cffi, python3-setuptools and python3-wheel")
        return {}
    source(python, epoch)
    return {machine: wheel(machine, python, epoch) for machine in machines}
