#!/usr/bin/env python3
"""Installs the package in a root of its own, uses it, upgrades, removes and purges it. tests/package.py starts it, in a
mount namespace and a process namespace of its own.

usage: package_root.py --able FOLDER               status 0 if a root over this system can be mounted at FOLDER
       package_root.py FOLDER PACKAGE PROGRAM

The root is this system with all changes in memory. What the manual shows for a site by the package is run in it. In the
place of systemctl is a script that writes down how it was called, and opens and closes one office as its unit says. """

from __future__ import annotations

import os
import re
import shutil
import stat
import subprocess
import sys

sys.path.insert(0, os.path.dirname(os.path.dirname(os.path.abspath(__file__))))

from lib import CHECKS, TOP, free_port, same  # noqa: E402

PORT = str(free_port())
FILE, HOME = "/var/lib/boxoffice/north.db", "/root"
SYSTEMCTL = """#!/bin/sh
# In the place of systemd: writes down each call, and opens or closes boxoffice@north by the words of its unit.
echo "$*" >> /systemctl.log
unit=/usr/lib/systemd/system/boxoffice@.service wants=/etc/systemd/system/multi-user.target.wants
[ -e /etc/boxoffice/north.conf ] && . /etc/boxoffice/north.conf
by_unit() { sed -n "s/^$1=-*//p" "$unit" | sed "s|[$]{PORT}|$PORT|; s|[$]{FILE}|$FILE|; s|[$]WORDS|$WORDS|"; }
case "$1" in enable) mkdir -p "$wants"; ln -sf "$unit" "$wants/boxoffice@north.service" ;; esac
case "$*" in
'enable --now boxoffice@north' | 'start boxoffice@north')
    setsid runuser -u boxoffice -- $(by_unit ExecStart) > /office.log 2>&1 < /dev/null &
    for _ in $(seq 600); do [ -S "$FILE-sock" ] && exit 0; sleep 0.1; done
    exit 1
    ;;
'stop boxoffice@north' | *'stop boxoffice@*.service')
    [ ! -S "$FILE-sock" ] || runuser -u boxoffice -- $(by_unit ExecStop)
    ;;
esac
"""
TILL = """
import boxoffice, sys
print(boxoffice.__file__)
with boxoffice.Till(int(sys.argv[1]), "till.journal", 1001, 2000) as till:
    print(till.sell("gala", 2))
"""
Found = tuple[int, str, str]


class Root:
    """This system, with all changes in memory."""

    def __init__(self, folder: str) -> None:
        self.path = os.path.join(folder, "all")
        subprocess.run(["mount", "-t", "tmpfs", "none", folder], check=True)
        upper, work = os.path.join(folder, "upper"), os.path.join(folder, "work")
        for path in (self.path, upper, work):
            os.mkdir(path)
        layers = f"lowerdir=/,upperdir={upper},workdir={work}"
        subprocess.run(["mount", "-t", "overlay", "overlay", "-o", layers, self.path], check=True)
        subprocess.run(["mount", "-t", "proc", "proc", self.at("/proc")], check=True)
        subprocess.run(["mount", "--rbind", "/dev", self.at("/dev")], check=True)
        for name, mode in (("/run", "755"), ("/tmp", "1777")):
            os.makedirs(self.at(name), exist_ok=True)
            subprocess.run(["mount", "-t", "tmpfs", "-o", f"mode={mode}", "none", self.at(name)], check=True)

    def at(self, path: str) -> str:
        return self.path + path

    def begin(self) -> None:
        """What keeps pages or services out of containers is gone here, and systemd seems to run. (An index of all man
        pages takes longer than all else.)"""
        shutil.rmtree(self.at("/etc/dpkg/dpkg.cfg.d"), ignore_errors=True)
        for name in ("/usr/sbin/policy-rc.d", "/usr/bin/systemctl", "/systemctl.log", "/var/lib/man-db/auto-update"):
            if os.path.lexists(self.at(name)):
                os.remove(self.at(name))
        self.write("/usr/bin/systemctl", SYSTEMCTL)
        os.chmod(self.at("/usr/bin/systemctl"), 0o755)
        os.makedirs(self.at("/run/systemd/system"))

    def write(self, path: str, text: str) -> None:
        with open(self.at(path), "w", encoding="utf-8") as file:
            file.write(text)

    def read(self, path: str) -> str:
        with open(self.at(path), encoding="utf-8") as file:
            return file.read()

    def run(self, *words: str, given: str = "", folder: str = HOME) -> Found:
        """What a command comes to in this root."""
        env = {"PATH": "/usr/sbin:/usr/bin:/sbin:/bin", "LC_ALL": "C.UTF-8"}
        env |= {"DEBIAN_FRONTEND": "noninteractive", "HOME": HOME, "MANPAGER": "cat", "MANWIDTH": "100"}
        within = ["chroot", self.path, "sh", "-c", 'cd "$0" && exec "$@"', folder, *words]
        done = subprocess.run(within, input=given, text=True, capture_output=True, env=env, check=False)
        return done.returncode, done.stdout, done.stderr

    def told(self, *words: str, given: str = "") -> str:
        """What a command prints; it has to end well."""
        status, told, error = self.run(*words, given=given)
        same(f"{' '.join(words)}: {error[-1000:]}", status, 0)
        return told

    def offices(self) -> list[str]:
        """The processes that run the program."""
        found = [name for name in os.listdir(self.at("/proc")) if name.isdigit()]
        return [name for name in found if self.read(f"/proc/{name}/comm") == "boxoffice\n"]

    def program_of(self, process: str) -> str:
        return os.path.basename(os.readlink(self.at(f"/proc/{process}/exe")))

    def left(self) -> list[str]:
        """What names the program in this root, and is no cache."""
        found = self.run("find", "/etc", "/usr", "/var", "-xdev", "-name", "*boxoffice*")[1].split()
        return [path for path in found if not path.startswith(("/var/cache", "/var/log", "/usr/local", "/usr/src"))]


def shown(heading: str) -> list[str]:
    """The commands of the first block of a section of the manual, without their comments, for a port that is free."""
    with open(os.path.join(TOP, "docs", "MANUAL.md"), encoding="utf-8") as manual:
        section = manual.read().partition(f"# {heading}\n")[2].partition("\n#")[0]
    block = re.search(r"(?m)(?:^    .*\n)+", section)
    lines = [re.sub(r" {2,}#.*", "", line).strip() for line in block[0].splitlines()] if block else []
    return [line.replace("7000", PORT) for line in lines]


def install(root: Root, package: str) -> None:
    """By the manual's command, of a package of that name."""
    commands = shown("Before the first night")
    same("the manual installs it", [line[:12] for line in commands], ["apt install "])
    shutil.copy(package, os.path.join(root.at(HOME), os.path.basename(commands[0])))
    status, told, error = root.run("sh", "-c", commands[0])
    same(f"{commands[0]}: {told[-500:]}{error[-500:]}", (status, "goes on with the old" in told), (0, False))
    user = root.told("getent", "passwd", "boxoffice").strip().split(":")
    same("the user", user[5:], ["/var/lib/boxoffice", "/usr/sbin/nologin"])
    about = os.stat(root.at("/var/lib/boxoffice"))
    same("its folder", (stat.S_IMODE(about.st_mode), about.st_uid), (0o700, int(user[2])))


def use(root: Root, program: str) -> None:
    version = subprocess.run([program, "version"], capture_output=True, text=True, check=True).stdout
    same("boxoffice version", root.told("boxoffice", "version"), version)
    commands = shown("By systemd")
    same("what the package does", [line.split()[0] for line in commands[:2]], ["useradd", "mkdir"])
    for command in commands[2:-1]:
        told = root.told("sh", "-c", command)
        if " status " in command:
            same(command, told, "site 0 sites 4 entries 0 limit 200000 callers 1 asking 0 waiting 0 reserve 50000\n")
    lines = "announce 1 gala\nrelease 2 gala 10\nleft gala\n"
    asked = root.told("runuser", "-u", "boxoffice", "--", "boxoffice", "ask", FILE, given=lines)
    same("boxoffice ask", asked, "done\ndone\nleft 10\n")
    till = root.told("/usr/bin/python3", "-c", TILL, PORT).split("\n")
    same("import boxoffice", till, ["/usr/lib/python3/dist-packages/boxoffice.py", "Done(number=1001)", ""])


def exchange(root: Root) -> None:
    """What a script of the package writes for another site, and what the gateway says to a new till."""
    folder = "/var/lib/boxoffice/shared"
    words = f"mkdir {folder} && boxoffice-exchange-folder 0 4 {FILE} {folder} --once"
    root.told("runuser", "-u", "boxoffice", "--", "sh", "-c", words)
    same("what is due", "0-1.delta" in os.listdir(root.at(folder)), True)
    if root.run("/usr/bin/python3", "-c", "import flask, waitress")[0]:
        print("skipped: boxoffice-web: not here: python3-flask python3-waitress")
        return
    root.write(f"{folder}/gateway.ini", f"[gateway]\noffice = {PORT}\nevents = gala\n")
    password = root.told("runuser", "-u", "boxoffice", "--", "boxoffice-web", "add", folder, "till-1", "clerk")
    same("a password", len(password.strip()) > 5, True)


def look(root: Root) -> None:
    """Man pages, completions, units, and each script by its name."""
    for name in sorted(os.listdir(root.at("/usr/bin"))):
        if name.startswith("boxoffice-"):
            status, told, error = root.run(name)
            says = bool(re.search(f"usage: {name} |install python3", told + error, re.IGNORECASE))
            same(f"{name}: {error[-300:]}", (status in (1, 2, 3), says), (True, True))
    if os.path.exists(root.at("/usr/bin/man")):
        same("man boxoffice", "init FILE ME SITES LIMIT" in root.told("man", "boxoffice"), True)
    else:
        print("skipped: man boxoffice: not here: man")
    completes = ". /usr/share/bash-completion/completions/boxoffice; COMP_WORDS=(boxoffice ex) COMP_CWORD=1; _boxoffice"
    same("completion", root.told("bash", "-c", completes + "; echo ${COMPREPLY[*]}"), "export\n")
    if os.path.exists(root.at("/usr/bin/systemd-analyze")):
        for unit in ("boxoffice@north", "boxoffice-exchange@north", "boxoffice-balance@north"):
            status, told, error = root.run("systemd-analyze", "verify", f"{unit}.service")
            same(f"{unit}: {told}{error}", [line for line in error.splitlines() if "oxoffice" in line], [])


def upgrade(root: Root, package: str) -> None:
    """An office that is open goes on with the old program; closed and opened, it has the new one."""
    newer = root.at("/tmp/newer")
    subprocess.run(["dpkg-deb", "--raw-extract", package, newer], check=True)
    control = os.path.join(newer, "DEBIAN", "control")
    with open(control, encoding="utf-8") as text:
        changed = re.sub("(?m)^Version: .*", "Version: 99", text.read())
    with open(control, "w", encoding="utf-8") as text:
        text.write(changed)
    made = ["dpkg-deb", "-Znone", "--build", newer, os.path.join(root.at(HOME), "newer.deb")]
    subprocess.run(made, check=True, capture_output=True)
    offices, before = root.offices(), root.read("/systemctl.log")
    same("an office is open", len(offices), 1)
    told = root.told("dpkg", "--install", "newer.deb")
    same("it says that the old program goes on", "goes on with the old program" in told, True)
    same("the version", root.told("dpkg-query", "--showformat=${Version}", "--show", "boxoffice"), "99")
    calls = root.read("/systemctl.log").removeprefix(before)
    same("an upgrade closes nothing", [call for call in calls.splitlines() if "reload" not in call], [])
    same("the office goes on", root.offices(), offices)
    same("with the old program", [root.program_of(office) for office in offices], ["boxoffice (deleted)"])
    status = root.told("runuser", "-u", "boxoffice", "--", "boxoffice", "status", FILE)
    same("and answers", status, "site 0 sites 4 entries 3 limit 200000 callers 1 asking 0 waiting 0 reserve 50000\n")
    root.told("sh", "-c", shown("By systemd")[-1])
    same("it is closed as the manual says", os.path.exists(root.at(FILE + "-sock")), False)
    root.told("systemctl", "start", "boxoffice@north")
    same("and opened with the new one", [root.program_of(office) for office in root.offices()], ["boxoffice"])


def remove(root: Root) -> None:
    """The office is closed, and its file stays, also when it is purged."""
    root.told("dpkg", "--remove", "boxoffice")
    same("the office is closed", (root.offices(), root.read("/office.log").count("\n")), ([], 1))
    stays, wants = ["/etc/boxoffice", "/var/lib/boxoffice"], "/etc/systemd/system/multi-user.target.wants"
    more = [f"{wants}/boxoffice@north.service", *(f"/var/lib/dpkg/info/boxoffice.{it}" for it in ("list", "postrm"))]
    same("what stays", sorted(root.left()), sorted([*stays, *more]))
    told = root.told("dpkg", "--purge", "boxoffice")
    same("it says what stays", "/var/lib/boxoffice is not empty, and stays" in told, True)
    same("what stays after a purge", sorted(root.left()), stays)
    same("the site's file", os.path.exists(root.at(FILE)), True)


def purge(root: Root) -> None:
    """Installed again over the file of the site; without one nothing is left but the user."""
    root.told("dpkg", "--install", "newer.deb")
    status = root.told("runuser", "-u", "boxoffice", "--", "boxoffice", "status", FILE)
    same("the site goes on", status, "site 0 sites 4 entries 3 limit 200000\n")
    for folder in ("/etc/boxoffice", "/var/lib/boxoffice"):
        root.told("find", folder, "-mindepth", "1", "-delete")
    root.told("dpkg", "--purge", "boxoffice")
    same("nothing is left", root.left(), [])


def main() -> int:
    if sys.argv[1] == "--able":
        root = Root(sys.argv[2])
        return root.run("true")[0]
    folder, package, program = sys.argv[1:]
    root = Root(folder)
    root.begin()
    install(root, package)
    use(root, program)
    exchange(root)
    look(root)
    upgrade(root, package)
    remove(root)
    purge(root)
    return CHECKS.end()


if __name__ == "__main__":
    sys.exit(main())
