#!/usr/bin/env python3
"""Makes the Debian package (scripts/package), looks into it, and installs, uses, upgrades, removes and purges it.

usage: package.py [PROGRAM] [TRIAL ..]

The package lives in a root of its own: in a folder, by `dpkg --root`; and in a mount namespace over this system, in
which each change is in memory and ends with the trial. There the commands are run that the manual shows for a site by
the package; a systemctl that writes down how it was called, and does for one office what its unit says, stands in the
place of systemd. It needs root, Debian's dpkg-dev and binutils, and the programs of systemd, which need not run. What
this machine lacks is skipped, and said. """

from __future__ import annotations

import atexit
import functools
import os
import re
import shutil
import stat
import subprocess
import sys
import tempfile
from collections.abc import Sequence

from lib import CHECKS, OPTIONS, PROGRAM, TOP, same, try_each

PYTHON = "/usr/bin/python3"  # Debian's.
MAKES, LIVES = ["dpkg-deb", "dpkg-shlibdeps", "strip"], ["dpkg", "apt", "unshare", "mount", "chroot", "runuser"]
LIVES += ["systemd-sysusers", "systemd-tmpfiles", "py3compile", "deb-systemd-invoke"]
INSIDE = os.path.join(TOP, "tests", "lib", "package_root.py")
ROOM = tempfile.mkdtemp()
atexit.register(shutil.rmtree, ROOM, ignore_errors=True)
# What stands in no package: what it is for is the repository.
ABSENT = {"CHANGELOG.md"}


def skip(what: str, why: str) -> None:
    print(f"skipped: {what}: {why}", flush=True)


def lacks(what: str, tools: Sequence[str]) -> bool:
    missing = [tool for tool in tools if not shutil.which(tool)]
    if missing:
        skip(what, "not here: " + " ".join(missing))
    return bool(missing)


def run(words: Sequence[str], folder: str = ROOM, **env: str) -> subprocess.CompletedProcess[str]:
    return subprocess.run(
        words,
        cwd=folder,
        env={**os.environ, "PYTHONDONTWRITEBYTECODE": "1", "LC_ALL": "C.UTF-8", **env},
        stdin=subprocess.DEVNULL,
        text=True,
        capture_output=True,
        check=False,
    )


def make(name: str, **env: str) -> str:
    """The path of a package that is made into the folder of this name."""
    if run(["git", "-C", TOP, "log", "-1"]).returncode:
        env = {"SOURCE_DATE_EPOCH": "1700000000", **env}
    words = [os.path.join(TOP, "scripts", "package"), "--program", PROGRAM, "--output", os.path.join(ROOM, name)]
    done = run(words, **env)
    same("scripts/package", (done.returncode, done.stderr), (0, ""))
    return done.stdout.strip()


@functools.cache
def package() -> str:
    return make("first")


@functools.cache
def content() -> str:
    """The folder with what the package has."""
    folder = os.path.join(ROOM, "content")
    same("unpacked", run(["dpkg-deb", "--raw-extract", package(), folder]).returncode, 0)
    return folder


def read(path: str) -> str:
    with open(path, encoding="utf-8") as text:
        return text.read()


def refused(folder: str) -> None:
    script = os.path.join(TOP, "scripts", "package")
    nowhere = run([script, "--program", os.path.join(folder, "nothing"), "--output", folder])
    same("without a program", (nowhere.returncode, "run scripts/build" in nowhere.stderr), (1, True))
    for words in (["--what"], ["--program"]):
        wrong = run([script, *words])
        same(f"{words}", (wrong.returncode, "usage: scripts/package" in wrong.stderr), (2, True))
    same("nothing is made", os.listdir(folder), [])


def bytes_are_the_same(_: str) -> None:
    """Whatever the folder, the zone, the language and the mask: the same bytes."""
    before = os.umask(0o077)
    try:
        again = make("second", TZ="Pacific/Apia", LANG="de_DE.UTF-8")
    finally:
        os.umask(before)
    same("the name", os.path.basename(again), os.path.basename(package()))
    with open(package(), "rb") as one, open(again, "rb") as other:
        same("the bytes", one.read() == other.read(), True)
    told = run(["dpkg-deb", "--contents", package()]).stdout.splitlines()
    log = ["git", "-C", TOP, "log", "-1", "--format=%cd", "--date=format-local:%F %H:%M"]
    time = run(log, TZ="UTC0").stdout.strip() or "2023-11-14 22:13"
    same("all times are that of the commit", {" ".join(line.split()[3:5]) for line in told}, {time})


def what_is_in_it(_: str) -> None:
    root, version = content(), run([PROGRAM, "version"]).stdout.split("\n")
    number = version[0].removeprefix("boxoffice ")
    wanted = number + ("~unproved" if "unproved" in version else "")
    field = run(["dpkg-deb", "--field", package(), "Version"]).stdout.strip()
    same("its version", (field, os.path.basename(package())), (wanted, f"boxoffice_{wanted}_amd64.deb"))
    manual = read(os.path.join(TOP, "docs", "MANUAL.md"))
    same("the manual's name for it", set(re.findall(r"\bboxoffice_(\S+)_amd64\.deb", manual)), {number})
    pyproject = read(os.path.join(TOP, "clients", "python", "pyproject.toml"))
    same("the client's version", re.findall(r'(?m)^version = "(.*)"$', pyproject), [number])
    same("its sums", run(["md5sum", "--check", "--quiet", "DEBIAN/md5sums"], root).stdout, "")
    summed = {line.split(maxsplit=1)[1].strip() for line in read(f"{root}/DEBIAN/md5sums").splitlines()}
    found = set()
    for at, _folders, names in os.walk(root):
        for name in names:
            path = os.path.join(at, name)
            is_run = os.path.relpath(at, root) in ("usr/bin", "DEBIAN") or read_start(path) == b"#!"
            kind = os.lstat(path).st_mode
            if stat.S_ISREG(kind) and not at.endswith(("DEBIAN", "examples")):
                found.add(os.path.relpath(path, root))
                same(f"the mode of {path}", stat.S_IMODE(kind), 0o755 if is_run else 0o644)
            same(f"{path} leads somewhere", os.path.exists(path), True)
    same("each file has a sum", found <= summed, True)
    lib = run(["grep", "-rl", "/usr/local/\\|env python3", f"{root}/usr/lib", f"{root}/usr/share/man"])
    same("nothing of it is in another place", lib.stdout, "")
    links(os.path.join(root, "usr/share/doc/boxoffice"))


def read_start(path: str) -> bytes:
    with open(path, "rb") as file:
        return file.read(2)


def links(folder: str) -> None:
    """The links of its documents lead to what it has."""
    for at, _, names in os.walk(folder):
        for name in filter(lambda name: name.endswith(".md"), names):
            for link in re.findall(r"\]\(([^)#]+)", read(os.path.join(at, name))):
                path = os.path.normpath(os.path.join(at, link))
                if "://" not in link and os.path.relpath(path, folder) not in ABSENT:
                    same(f"{name}: {link} is in the package", os.path.exists(path), True)


def man_pages(folder: str) -> None:
    """Each program has a page, that of the program each of its commands; and man has nothing to say against them."""
    root = content()
    for name in os.listdir(f"{root}/usr/bin"):
        done = run(["gzip", "-dc", f"{root}/usr/share/man/man1/{name}.1.gz"])
        same(f"{name} has a page", (done.returncode, f"{name} \\- " in done.stdout), (0, True))
        with open(os.path.join(folder, f"{name}.1"), "w", encoding="utf-8") as page:
            page.write(done.stdout)
    text = read(os.path.join(folder, "boxoffice.1"))
    for command in commands():
        same(f"boxoffice.1 has {command}", f"\\fB{command}" in text, command != "help")
    if lacks("man pages as they are shown", ["man", "groff"]):
        return
    for name in sorted(os.listdir(folder)):
        shown = run(["man", "--warnings=w", "-l", name], folder, MANPAGER="cat", MANWIDTH="100", MANROFFSEQ="")
        same(f"{name} shows", (shown.returncode, shown.stderr, len(shown.stdout) > 1000), (0, "", True))


def commands() -> list[str]:
    told = run([PROGRAM, "help"])
    listed = (told.stdout + told.stderr).partition("Commands:\n")[2].partition("\n\n")[0]
    return re.findall(r"(?m)^  (\S+)", listed)


# What is typed, and what it completes to beside a file north.db, a folder sub and a file other.
COMPLETED: dict[str, list[str]] = {
    "ex": ["export"],
    "help mi": ["migrate"],
    "status n": ["north.db"],
    "status ": ["north.db", "sub"],
    "open 7": [],
    "open 7000 n": ["north.db"],
    "audit north.db ": ["north.db", "sub"],
    "serve 7000 1 ": [],
    "serve 7000 1 1 a n": ["north.db"],
    "list north.db ": [],
}


def completions(folder: str) -> None:
    share, site = f"{content()}/usr/share", os.path.join(folder, "site")
    os.makedirs(os.path.join(site, "sub"))
    for name in ("north.db", "other"):
        with open(os.path.join(site, name), "w", encoding="ascii"):
            pass
    call = 'source "$0"; COMP_WORDS=(boxoffice "$@"); COMP_CWORD=$#; _boxoffice; printf "%s\\n" "${COMPREPLY[@]}"'
    for typed, wanted in {"": commands(), **COMPLETED}.items():
        words = re.split(" ", typed)
        done = run(["bash", "-c", call, f"{share}/bash-completion/completions/boxoffice", *words], site)
        same(f"bash: {typed!r}", (sorted(done.stdout.split()), done.stderr), (sorted(wanted), ""))
    if not lacks("zsh's completion", ["zsh"]):
        stubs = '_describe() { echo $commands; }; _files() { echo files "$@"; }; words=(boxoffice "${@:2}")'
        for typed, said in {"ex": "export:Prints", "status n": "files -g *.db", "open 7": ""}.items():
            call = f"{stubs}; CURRENT=$#words; f() {{ source $1; }}; f $1"
            file = f"{share}/zsh/vendor-completions/_boxoffice"
            done = run(["zsh", "-f", "-c", call, "zsh", file, *typed.split(" ")], site)
            same(f"zsh: {typed!r}", (said in done.stdout, bool(done.stdout), done.stderr), (True, bool(said), ""))
    if not lacks("fish's completion", ["fish"]):
        call = f'source {share}/fish/vendor_completions.d/boxoffice.fish; complete -C "boxoffice $argv"'
        for typed in ("ex", "help mi", "status n", "open 7", "open 7000 n"):
            done = run(["fish", "--no-config", "-c", call, typed], site, HOME=folder)
            found = [line.split("\t")[0] for line in done.stdout.splitlines()]
            same(f"fish: {typed!r}", (found, done.stderr), (COMPLETED[typed], ""))


def client(folder: str) -> None:
    """What `pip install clients/python` makes: the module, and nothing else."""
    able = [it for it in (PYTHON, sys.executable) if not run([it, "-c", "import setuptools, pip, wheel"]).returncode]
    if not able:
        skip("the client by pip", "not here: pip, setuptools and wheel")
        return
    source = shutil.copytree(os.path.join(TOP, "clients", "python"), os.path.join(folder, "source"))
    pip = [able[0], "-m", "pip", "wheel", "--quiet", "--no-deps", "--no-index", "--no-build-isolation"]
    done = run([*pip, "--wheel-dir", folder, source], HOME=folder)
    same("pip wheel", done.returncode, 0)
    wheels = [name for name in os.listdir(folder) if name.endswith(".whl")]
    listed = run([able[0], "-m", "zipfile", "--list", *wheels], folder).stdout
    modules = re.findall(r"(?m)^(\S+\.py) ", listed)
    same("the wheel", modules, ["boxoffice.py"])


def lintian(_: str) -> None:
    """No error and no warning but what packaging/lintian-overrides answers."""
    if not lacks("lintian", ["lintian"]):
        done = run(["lintian", "--allow-root", "--fail-on", "error,warning", package()])
        same("lintian", (done.returncode, done.stdout), (0, ""))
    answers = [line for line in read(os.path.join(TOP, "packaging", "lintian-overrides")).split("\n") if line]
    for before, line in zip(["", *answers], answers):
        same(f"a reason stands over {line!r}", line[0] == "#" or before[:1] == "#", True)


def in_a_folder(folder: str) -> None:
    """`dpkg --root`, which needs no mount: into an empty folder, again, removed, and purged with and without a file."""
    if lacks("dpkg --root", ["dpkg", "systemd-sysusers", "systemd-tmpfiles"]):
        return
    if os.geteuid():
        skip("dpkg --root", "only root may")
        return
    root, known = os.path.join(folder, "root"), os.path.join(folder, "root", "var", "lib", "dpkg")
    for name in ("info", "updates", "triggers", os.path.join(root, "etc")):
        os.makedirs(os.path.join(known, name))
    for name in ("status", "available"):
        with open(os.path.join(known, name), "w", encoding="ascii"):
            pass
    dpkg = ["dpkg", f"--root={root}", "--force-script-chrootless", "--force-depends"]
    for is_again in (False, True):
        done = run([*dpkg, "--install", package()])
        says = "goes on with the old program" in done.stdout
        same(f"dpkg --install: {done.stderr[-300:]}", (done.returncode, says), (0, is_again))
    user = read(os.path.join(root, "etc", "passwd")).split(":")
    about = os.stat(os.path.join(root, "var", "lib", "boxoffice"))
    same("the user", (user[0], user[5], int(user[2])), ("boxoffice", "/var/lib/boxoffice", about.st_uid))
    same("its folder", stat.S_IMODE(about.st_mode), 0o700)
    file = os.path.join(root, "var", "lib", "boxoffice", "north.db")
    program = os.path.join(root, "usr", "bin", "boxoffice")
    same("boxoffice init", run([program, "init", file, "0", "1", "100"]).stdout, "done\n")
    modules = os.path.join(root, "usr", "lib", "python3", "dist-packages")
    used = run([PYTHON, "-c", "import boxoffice; print(boxoffice.__file__)"], PYTHONPATH=modules)
    same("import boxoffice", used.stdout, os.path.join(modules, "boxoffice.py\n"))
    told = run([*dpkg, "--purge", "boxoffice"]).stdout
    same("it says what stays", "/var/lib/boxoffice is not empty, and stays" in told, True)
    same("the site's file stays", (os.path.exists(file), os.path.exists(program)), (True, False))
    run([*dpkg, "--install", package()])
    for name in os.listdir(os.path.dirname(file)):
        os.remove(os.path.join(os.path.dirname(file), name))
    run([*dpkg, "--purge", "boxoffice"])
    same("nothing else is left", run(["find", root, "-name", "*boxoffice*"]).stdout, "")


def life(folder: str) -> None:
    """Installed, used, upgraded, removed and purged."""
    if lacks("installing it", LIVES):
        return
    if os.geteuid() or os.path.exists("/var/lib/boxoffice"):
        skip("installing it", "it is installed here" if not os.geteuid() else "only root may")
        return
    words = ["unshare", "--mount", "--pid", "--fork", "--kill-child", sys.executable, "-B", INSIDE]
    is_able = run([*words, "--able", folder])
    if is_able.returncode:
        skip("installing it", "no root over this system can be mounted: " + is_able.stderr.strip()[-200:])
        return
    done = run([*words, folder, package(), PROGRAM])
    print(done.stdout, end="")
    passed = re.findall(r"(?m)^(\d+) passed, (\d+) failed$", done.stdout)
    CHECKS.passed += int(passed[-1][0]) if passed else 0
    same(f"what was tried in a root of its own: {done.stderr[-1500:]}", (done.returncode, len(passed)), (0, 1))


TRIALS = [refused, bytes_are_the_same, what_is_in_it, man_pages, completions, client, lintian, in_a_folder, life]

if __name__ == "__main__":
    if lacks("the package", MAKES):
        OPTIONS.check()
        sys.exit(CHECKS.end())
    sys.exit(try_each(TRIALS, "the package is what it should be"))
