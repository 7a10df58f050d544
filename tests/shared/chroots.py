"""Fresh roots of releases of Debian, and sessions in them.

mmdebstrap makes a root, from the mirror that apt uses on this machine. A session is a layer over it, in which a script runs with its
own mounts. So nothing outside the folder of the test changes. package_chroots.py installs the packages of capvet in roots with nothing but what
Debian itself needs. releases.py runs scripts in roots with the tools of developers.
"""
import shutil
import subprocess

from needs import mirror

# (`usr-is-merged` and its hook save the packages that merge an old root. Unstable may have been signed longer ago than it is valid)
MMDEBSTRAP = ["mmdebstrap", "--quiet", "--variant=minbase", "--hook-dir=/usr/share/mmdebstrap/hooks/merged-usr", "--dpkgopt=force-unsafe-io",
              '--aptopt=Acquire::Check-Valid-Until "false"']
PLAIN = {"PATH": "/usr/sbin:/usr/bin:/sbin:/bin", "DEBIAN_FRONTEND": "noninteractive"}


def make(base, suite, packages=()):
    """Makes a root of a release with these packages: the text of an error, or nothing."""
    made = subprocess.run([*MMDEBSTRAP, f"--include={','.join(['usr-is-merged', *packages])}", suite, base, mirror()],
                          capture_output=True, text=True)
    if made.returncode:
        return made.stderr or f"mmdebstrap: status {made.returncode}"
    shutil.copy("/etc/resolv.conf", base / "etc/resolv.conf")
    return ""


def session(base, layer, script, mounts="", seconds=3600):
    """What a script of bash writes in a layer over a root, and its status. `mounts` are commands that mount more at $merged first."""
    shutil.rmtree(layer, ignore_errors=True)
    for name in ("upper", "work", "merged"):
        (layer / name).mkdir(parents=True)
    mounted = f"""set -e
merged='{layer}/merged'
mount -t overlay overlay -o lowerdir='{base}',upperdir='{layer}/upper',workdir='{layer}/work' "$merged"
mount -t proc proc "$merged/proc"
mount --bind /sys "$merged/sys"
mount --bind /dev "$merged/dev"
mount -t tmpfs tmpfs "$merged/dev/shm"
{mounts}
cat > "$merged/srv/script"
exec chroot "$merged" bash /srv/script"""
    ran = subprocess.run(["unshare", "--mount", "--propagation", "private", "bash", "-c", mounted], input=script, text=True, timeout=seconds,
                         stdout=subprocess.PIPE, stderr=subprocess.STDOUT, env=PLAIN)
    return ran.stdout, ran.returncode


def merge(base, upper):
    """Keeps what a session has written in its root. (nothing was removed)"""
    subprocess.run(["cp", "-a", f"{upper}/.", base], check=True)
    shutil.rmtree(upper.parent)
