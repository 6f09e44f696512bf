"""make install-library, the Debian packages of libkrl, and its manual page."""

import hashlib
import os
import re
import shutil
from pathlib import Path

from building import CALLS, HEADER, SHARED, VERSION, WARNINGS, run, same, told
from trial import TOP

PAGE = os.path.join(TOP, "docs", "krl.3")
PACKAGING = os.path.join(TOP, "packaging")
MULTIARCH = "lib/x86_64-linux-gnu"
# Messages of mandoc about other pages, which are not faults of this one.
OF_OTHERS = "referenced manual not found", "outdated mandoc.db"


def made(tests, name, status, target, *words):
    ran = run("make", "-s", "-C", TOP, "-o", "library", target, *words)
    tests.judge(name, told(ran, status))
    return ran


def files_below(folder):
    """The files and the links of a folder, and where the links lead."""
    found = {}
    for it in Path(folder).rglob("*"):
        if it.is_symlink() or not it.is_dir():
            found[str(it.relative_to(folder))] = os.readlink(it) if it.is_symlink() else ""
    return found


def linked(libraries):
    """The links of the library for the linker and for the loader."""
    major = "libkrl.so." + VERSION.split(".", maxsplit=1)[0]
    return {libraries + "/libkrl.so": major}, {libraries + "/" + major: "libkrl.so." + VERSION}


def of_programs(libraries, ending=""):
    """The files that programs are built with."""
    pages = {"share/man/man3/%s.3%s" % (it, ending): "krl.3" + ending for it in CALLS}
    names = ("include/krl.h", libraries + "/libkrl.a", libraries + "/pkgconfig/krl.pc")
    pages["share/man/man3/krl.3" + ending] = ""
    return {**dict.fromkeys(names, ""), **linked(libraries)[0], **pages}


def of_loader(libraries):
    return {libraries + "/libkrl.so." + VERSION: "", **linked(libraries)[1]}


def caller(tests, name, folder, libraries, words):
    """A caller that is compiled with these words asks the library of a folder."""
    source = os.path.join(TOP, "examples", "revoked.c")
    ran = run("cc", "-std=c11", *WARNINGS, "-o", "installed", source, *words)
    environment = {**os.environ, "LD_LIBRARY_PATH": os.path.join(folder, libraries)}
    ran = ran if ran.returncode else run("./installed", "revoked.krl", "keys", env=environment)
    tests.judge(name, told(ran, 1))
    needed = run("ldd", "./installed", env=environment).stdout
    tests.judge("%s: the library is that one" % name, [] if folder in needed else [needed])


def asks_pkg_config(folder, *words):
    environment = {**os.environ, "PKG_CONFIG_PATH": folder + "/lib/pkgconfig"}
    return run("pkg-config", *words, "krl", env=environment).stdout.split()


def installed(tests):
    root = os.path.abspath("root")
    local = root + "/usr/local"
    noted = {"share/libkrl/installed.sha256": ""}
    everything = {**of_programs("lib"), **of_loader("lib"), **noted}
    made(tests, "make install-library", 0, "install-library", "DESTDIR=" + root)
    same(tests, "what is installed", files_below(local), everything)
    found = asks_pkg_config(local, "--cflags", "--libs")
    flags = ["-I/usr/local/include", "-L/usr/local/lib", "-lkrl"]
    same(tests, "what pkg-config says", found, flags)
    same(tests, "the version", asks_pkg_config(local, "--modversion"), [VERSION])
    note = Path(local, "share/libkrl/installed.sha256")
    older = Path(local, "lib/libkrl.so.0.9.0")
    older.write_bytes(b"an older version")
    line = "%s  ./lib/libkrl.so.0.9.0\n" % hashlib.sha256(older.read_bytes()).hexdigest()
    note.write_text(note.read_text() + line)
    made(tests, "make install-library over an older one", 0, "install-library", "DESTDIR=" + root)
    same(tests, "what is installed then", files_below(local), everything)
    made(tests, "make uninstall-library", 0, "uninstall-library", "DESTDIR=" + root)
    same(tests, "what is left", files_below(root), {})
    made(tests, "make uninstall-library of nothing", 2, "uninstall-library", "DESTDIR=" + root)

    here = os.path.abspath("opt")
    made(tests, "make install-library elsewhere", 0, "install-library", "PREFIX=" + here)
    words = asks_pkg_config(here, "--cflags", "--libs")
    caller(tests, "a caller by pkg-config", here, "lib", words)
    Path(here, "include/krl.h").write_text("changed")
    made(tests, "make install-library over a change", 2, "install-library", "PREFIX=" + here)
    made(tests, "make uninstall-library of the rest", 0, "uninstall-library", "PREFIX=" + here)
    same(tests, "the changed file is left", files_below(here), {"include/krl.h": ""})

    os.makedirs(here + "/lib", exist_ok=True)
    os.symlink("another", here + "/lib/libkrl.so")
    ran = made(tests, "make install-library over another", 2, "install-library", "PREFIX=" + here)
    is_named = here + "/lib/libkrl.so\n" in ran.stderr
    tests.judge("the other file is named", [] if is_named else [ran.stderr])
    others = {"include/krl.h": "", "lib/libkrl.so": "another"}
    same(tests, "it is left, and nothing is beside it", files_below(here), others)
    made(tests, "FORCE replaces it", 0, "install-library", "PREFIX=" + here, "FORCE=1")
    same(tests, "what is there then", files_below(here), everything)
    shutil.rmtree(here)


def documents(name):
    return {"share/doc/%s/%s" % (name, it): "" for it in ("changelog.gz", "copyright")}


def packages(tests):
    """libkrl1 and libkrl-dev have what policy asks for, and a caller is built with both."""
    ran = run(os.path.join(PACKAGING, "library_debs"), ".")
    tests.judge("Debian packages are made", told(ran))
    packages = ran.stdout.split()
    others = "ansible/", "systemd/"
    callers = [it for it in files_below(TOP + "/examples") if not it.startswith(others)]
    examples = {"share/doc/libkrl-dev/examples/" + it: "" for it in callers}
    contents = {
        "libkrl1": {**of_loader(MULTIARCH), **documents("libkrl1")},
        "libkrl-dev": {**of_programs(MULTIARCH, ".gz"), **documents("libkrl-dev"), **examples},
    }
    for name, package in zip(contents, packages):
        fields = "Package", "Version", "Architecture", "Multi-Arch", "Depends"
        said = [run("dpkg-deb", "--field", package, it).stdout.strip() for it in fields]
        version = said[1] if said[1].startswith(VERSION + "+") else VERSION + "+"
        depends = "libkrl1 (= %s)" % version if name == "libkrl-dev" else "libc6 (>= 2.14)"
        wanted = [name, version, "amd64", "same", depends]
        same(tests, "the fields of %s" % name, said, wanted)
        run("dpkg-deb", "--extract", package, name)
        same(tests, "what %s has" % name, files_below(name + "/usr"), contents[name])
        run("dpkg-deb", "--extract", package, "both")
    ran = run("lintian", "--allow-root", "--fail-on", "error,warning,info", *packages)
    tests.judge("lintian finds nothing in the packages", told(ran))
    symbols = run("dpkg-deb", "--info", packages[0], "symbols").stdout
    found = sorted(re.findall(r"^ (krl_\w+)@KRL_1 1\.0$", symbols, re.M))
    same(tests, "the symbols of libkrl1", found, CALLS)
    usr = os.path.abspath("both/usr")
    words = ["-I", usr + "/include", "-L", os.path.join(usr, MULTIARCH), "-lkrl"]
    caller(tests, "a caller with the packages", usr, MULTIARCH, words)


def page(tests):
    """The manual page is well formed, and has the calls and the numbers of the header."""
    said = run("mandoc", "-T", "lint", PAGE)
    lines = (said.stdout + said.stderr).splitlines()
    wrong = [it for it in lines if not any(other in it for other in OF_OTHERS)]
    tests.judge("mandoc finds nothing in the manual page", wrong)
    text = Path(PAGE).read_text(encoding="utf-8").replace("\\-", "-")
    declared = re.findall(r"^(\w+) (krl_\w+)\(([^)]*)\);", HEADER, re.M)
    wanted = sorted((kind, name, " ".join(of.split())) for kind, name, of in declared)
    shown = []
    for kind, name, one, several in re.findall(
        r"^\.Ft (.*)\n(?:\.F[no] (\w+) ?(.*)\n)((?:\.Fa .*\n)*)", text, re.M
    ):
        words = [one] if one else re.findall(r"\.Fa (.*)", several)
        shown.append((kind, name, ", ".join(it.strip('"') for it in words)))
    same(tests, "the calls of the manual page", sorted(shown), wanted)
    numbers = dict(re.findall(r"^\.It Dv (KRL_\w+) Pq (-?\d+)$", text, re.M))
    values = dict(re.findall(r"^#define (KRL_(?!VERSION)\w+) \(?(-?\d+)", HEADER, re.M))
    same(tests, "the answers of the manual page", numbers, values)


def shared_version(tests):
    ran = run("sh", "-c", 'ls "$(dirname "$1")"/libkrl.so.*.*', "", SHARED)
    same(tests, "the version of the shared library", ran.stdout.split(), [SHARED])
