"""Installs what the tests need of Debian."""
import os
import shutil
import subprocess

# The file by which a package is known to be there.
PACKAGES = {
    "unbound": "/usr/sbin/unbound",
    "dnsmasq-base": "/usr/sbin/dnsmasq",
    "python3-dnspython": "/usr/lib/python3/dist-packages/dns/message.py",
}
# The one that Debian's dnspython belongs to.
PYTHON = "/usr/bin/python3"
SECONDS = 600


class NotInstalled(Exception):
    """A package is not there, and could not be installed."""


def install(packages=PACKAGES):
    lacking = [name for name, path in packages.items() if not os.path.exists(path)]
    if lacking and not apt_get("install", "--no-install-recommends", *lacking):
        apt_get("update")
        apt_get("install", "--no-install-recommends", *lacking)
    for name in lacking:
        if not os.path.exists(packages[name]):
            raise NotInstalled(f"the package {name} could not be installed by apt-get")


def apt_get(verb, *words):
    """Runs it, and says whether it ended well. No service that comes with a package is started."""
    if not shutil.which("apt-get"):
        return False
    environment = {**os.environ, "DEBIAN_FRONTEND": "noninteractive", "RUNLEVEL": "1"}
    words = ["apt-get", "-qq", "-y", verb, *words]
    try:
        done = subprocess.run(words, env=environment, stdin=subprocess.DEVNULL, capture_output=True, timeout=SECONDS)
    except subprocess.TimeoutExpired:
        return False
    if done.returncode:
        print(done.stderr.decode(errors="replace").strip(), flush=True)
    return done.returncode == 0
