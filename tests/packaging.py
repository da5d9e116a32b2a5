"""Makes the package of relayd twice, and tries what is in it, its scripts, the manual pages and the completion.

    tests/packaging.py [PROGRAM]

The program is the one that is built here, or the one that is named. `./package` makes the package, whose bytes are the same
from another folder, in another time zone and with other rights of new files. Its files are those that it should have, with
their modes and their bytes; its scripts call what they should, which programs in place of these note; and `lintian` finds no
error, where it is installed. The manual pages and the completion are what packaging/manual.py makes of the help texts.
Nothing is installed.
"""

import functools
import os
import pathlib
import re
import shutil
import subprocess
import sys
import tempfile

from lib.program import PASSED_OVER, PROGRAM, TOP, run, run_parts

PACKAGING = TOP / "packaging"
PAGES = sorted((PACKAGING / "man").iterdir())
DOCUMENTS = "usr/share/doc/relayd"
UNITS = "usr/lib/systemd/system"
FILE, EXECUTABLE = "-rw-r--r--", "-rwxr-xr-x"
# what the package has beside the pages and the documents, each with its mode, and with the file of the repository that it is
INSTALLED = {
    "etc/relayd/users": ("-rw-r-----", "packaging/debian/users"),
    f"{UNITS}/relayd.target": (FILE, "examples/systemd/relayd.target"),
    f"{UNITS}/relayd@.service": (FILE, "examples/systemd/relayd@.service"),
    "usr/lib/sysusers.d/relayd.conf": (FILE, "examples/systemd/relayd.sysusers"),
    "usr/share/bash-completion/completions/relayd": (FILE, "packaging/relayd.bash"),
    "usr/share/lintian/overrides/relayd": (FILE, "packaging/debian/lintian-overrides"),
    f"{DOCUMENTS}/copyright": (FILE, "packaging/debian/copyright"),
}
CONTENT = re.compile(r"(\S+) root/root +\d+ \S+ \S+ \./(\S*)")
# the programs that the scripts of the package call
CALLED = ("adduser", "chmod", "chown", "rm", "rmdir", "systemctl", "systemd-sysusers")
ADDUSER = "adduser --system --group --home /nonexistent --no-create-home --quiet relayd"
RIGHTS = ["chown root:relayd /etc/relayd /etc/relayd/users", "chmod 750 /etc/relayd", "chmod 640 /etc/relayd/users"]
UNLINKED = "rm -f /etc/systemd/system/multi-user.target.wants/relayd.target"
EMPTIED = "rmdir --ignore-fail-on-non-empty /etc/relayd"
RELOADED, STOPPED = "systemctl daemon-reload", "systemctl stop relayd.target relayd@*.service"
# the folders that the scripts look for, and what they call where one is there
FOLDERS = {"/run/systemd/system": (RELOADED, STOPPED), "/etc/relayd": (EMPTIED,)}
# each call of a script, the programs that aren't there, and what it calls where these folders are there
CALLS = [
    ("postinst configure", (), ["systemd-sysusers relayd.conf", *RIGHTS, RELOADED]),
    ("postinst configure 0.1.0", (), ["systemd-sysusers relayd.conf", RELOADED]),
    ("postinst configure", ("systemd-sysusers",), [ADDUSER, *RIGHTS, RELOADED]),
    ("postinst abort-upgrade 0.1.0", (), []),
    ("prerm remove", (), [STOPPED]),
    ("prerm upgrade 0.1.0", (), []),
    ("postrm remove", (), [RELOADED]),
    ("postrm upgrade 0.1.0", (), [RELOADED]),
    ("postrm purge", (), [UNLINKED, EMPTIED, RELOADED]),
]
# notes how it is called; systemctl fails besides, which fails no script
NOTE = '#!/bin/sh\necho "${0##*/} $*" >>"$CALLS"\n[ "${0##*/}" != systemctl ]\n'
# the tools that warn of what is wrong in a manual page
READERS = ["mandoc -T lint -W warning", "man --warnings --encoding=UTF-8 --local-file -Tutf8 -Z"]
# words of a command line, the last of which is completed, and what it is completed to
COMPLETED = [
    ("relayd ver", ["verify"]),
    ("relayd --v", ["--version"]),
    ("relayd help as", ["assemble"]),
    ("relayd serve --li", ["--listen", "--listen6"]),
    ("relayd serve --users here.u", ["here.users"]),
    ("relayd serve --users = here.u", ["here.users"]),
    ("relayd serve --users =", ["here.users", "kept", "program.bpf"]),
    ("relayd serve --record ke", ["kept"]),
    ("relayd serve --client kept/", ["kept/old.bpf"]),
    ("relayd serve --port ", []),
    ("relayd serve here", []),
    ("relayd replay --confine prog", ["program.bpf"]),
    ("relayd replay --client-lines prog", ["program.bpf"]),
    ("relayd order --from = kept/", ["kept/old.bpf"]),
    ("relayd explain --slot ", []),
    ("relayd explain --s", ["--slot"]),
    ("relayd verify ", ["here.users", "kept", "program.bpf"]),
    ("relayd check here", []),
]
COMPLETE = 'source "$1"; COMP_WORDS=("${@:2}"); COMP_CWORD=$(($# - 2)); _relayd; printf "%s\\n" "${COMPREPLY[@]}"'


def output(*words, **options):
    """Runs a command, and returns what it prints. One that fails ends the part."""
    ran = subprocess.run(words, capture_output=True, text=True, check=False, **options)
    if ran.returncode:
        raise RuntimeError(f"{words[0]}: status {ran.returncode}\n{ran.stdout}{ran.stderr}")
    return ran.stdout


@functools.cache
def package(program, folder):
    """Makes the package in a folder, and returns its path."""
    return pathlib.Path(output(TOP / "package", folder, "--program", program).strip())


@functools.cache
def unpacked(program, folder):
    """Unpacks the package in a folder, with what dpkg reads itself in `DEBIAN`, and returns the folder."""
    output("dpkg-deb", "--raw-extract", package(program, folder), folder / "unpacked")
    return folder / "unpacked"


def manual(program, _):
    """The manual pages and the completion are what the generator makes of the help texts."""
    words = [sys.executable, PACKAGING / "manual.py", "--program", program]
    ran = subprocess.run(words, capture_output=True, text=True, check=False)
    if ran.returncode:
        yield ran.stdout + ran.stderr


def warnings(*_):
    """The manual pages have nothing that a tool that reads them warns of."""
    tools = [words.split() for words in READERS if shutil.which(words.split()[0])]
    if not tools:
        PASSED_OVER.append("warnings of manual pages (no mandoc, no man)")
    for words in tools:
        for page in PAGES:
            ran = subprocess.run([*words, page], capture_output=True, text=True, check=False)
            said = ran.stderr + (ran.stdout if words[0] == "mandoc" else "")
            if ran.returncode or said:
                yield f"{words[0]}: {page.name}: {said}"


def completion(_, folder):
    """The completion of bash has the commands, their options, and paths where the help has a file."""
    place = folder / "completion"
    (place / "kept").mkdir(parents=True)
    for name in ("here.users", "program.bpf", "kept/old.bpf"):
        (place / name).touch()
    for line, wanted in COMPLETED:
        words = ["bash", "-c", COMPLETE, "bash", PACKAGING / "relayd.bash", *line.split(" ")]
        found = sorted(output(*words, cwd=place).split())
        if found != wanted:
            yield f"{line!r}: {found}, and {wanted} is wanted"


def bytes_of_packages(program, folder):
    """Two packages of the same program are the same."""
    words = [TOP / "package", "again", "--program", os.path.relpath(program, folder)]
    again = folder / output(*words, cwd=folder, umask=0o077, env={**os.environ, "TZ": "Asia/Tokyo"}).strip()
    if again.read_bytes() != package(program, folder).read_bytes():
        yield "two packages of the same program have other bytes"


def has_git():
    """Returns whether git knows the files of this repository."""
    return shutil.which("git") and not subprocess.run(["git", "-C", TOP, "rev-parse"], capture_output=True, check=False).returncode


def documents():
    """Returns the pages and examples that the package should have, as paths in the repository: those that git has."""
    return output("git", "-C", TOP, "ls-files", "README.md", "docs", "examples").split()


def contents(program, folder):
    """The package has the files that it should have, of root, with their modes."""
    wanted = {path: mode for path, (mode, _) in INSTALLED.items()}
    wanted |= {"usr/bin/relayd": EXECUTABLE, f"{DOCUMENTS}/changelog.gz": FILE}
    wanted |= {f"usr/share/man/man1/{page.name}.gz": FILE for page in PAGES}
    wanted |= {f"{DOCUMENTS}/{path}": EXECUTABLE if path.endswith(".sh") else FILE for path in documents()}
    lines = output("dpkg-deb", "--contents", package(program, folder)).splitlines()
    found = dict(CONTENT.fullmatch(line).groups()[::-1] for line in lines)
    for path, mode in found.items():
        expected = "drwxr-xr-x" if path.endswith("/") or not path else wanted.pop(path, "nothing")
        if mode != expected:
            yield f"/{path}: {mode}, and {expected} is wanted"
    for path in wanted:
        yield f"/{path} isn't there"


def files(program, folder):
    """The files of the package are those of the repository, units aside, which name the program where the package has it."""
    root = unpacked(program, folder)
    pairs = [("usr/bin/relayd", program), *((path, TOP / source) for path, (_, source) in INSTALLED.items())]
    for path, source in [*pairs, *((f"{DOCUMENTS}/{path}", TOP / path) for path in documents())]:
        wanted = source.read_bytes()
        if path.startswith(UNITS):
            wanted = wanted.replace(b"/usr/local/bin/relayd", b"/usr/bin/relayd")
        if (root / path).read_bytes() != wanted:
            yield f"/{path} isn't {source}"
    for page in PAGES:
        if output("gzip", "-dc", root / "usr/share/man/man1" / f"{page.name}.gz") != page.read_text(encoding="utf-8"):
            yield f"{page.name}.gz isn't the page"
    output("md5sum", "--check", "--quiet", "DEBIAN/md5sums", cwd=root)


def information(program, folder):
    """The package says what it is, and the program in it is of its version, and names the kit that README does."""
    root = unpacked(program, folder)
    fields = output("dpkg-deb", "--field", package(program, folder), "Package", "Version", "Architecture", "Depends")
    printed = run(["--version"], root / "usr/bin/relayd")[1]
    version = printed.removeprefix("relayd ").partition(",")[0]
    kit = re.search(r"^The kit `([^`]+)`:", (TOP / "README.md").read_text(encoding="utf-8"), re.MULTILINE)[1]
    if printed != f"relayd {version}, proved by {kit}\n":
        yield f"--version: {printed}"
    wanted = f"Package: relayd\nVersion: {version}\nArchitecture: amd64\nDepends: libc6 (>= 2.N), adduser | systemd\n"
    if re.sub(r"(?<=>= 2\.)\d+", "N", fields) != wanted:
        yield f"fields: {fields}"
    if package(program, folder).name != f"relayd_{version}_amd64.deb":
        yield f"name: {package(program, folder).name}"
    if (root / "DEBIAN/conffiles").read_text(encoding="utf-8") != "/etc/relayd/users\n":
        yield "the users' file isn't one that an upgrade keeps"


def calls_of(control, words, lacking, absent, place):
    """Returns what a script of the package calls: programs that note it, without those that are lacking, are all that is in its PATH.
    Of the folders that it looks for each is there but one, whatever this machine has."""
    (place / "bin").mkdir()
    (place / "calls").touch()
    for name in set(CALLED) - set(lacking):
        (place / "bin" / name).write_text(NOTE, encoding="utf-8")
        (place / "bin" / name).chmod(0o755)
    text = (control / words[0]).read_text(encoding="utf-8")
    for path in FOLDERS:
        text = text.replace(f"[ -d {path} ]", f"[ -d {place / 'absent' if path == absent else place} ]")
    (place / "script").write_text(text, encoding="utf-8")
    (place / "script").chmod((control / words[0]).stat().st_mode)
    output(place / "script", *words[1:], env={"PATH": str(place / "bin"), "CALLS": str(place / "calls")})
    return (place / "calls").read_text(encoding="utf-8").splitlines()


def scripts(program, folder):
    """The scripts of the package call what they should, with each folder that they look for and without it."""
    for call, lacking, wanted in CALLS:
        for absent in (None, *FOLDERS):
            left_out = FOLDERS.get(absent, ())
            expected = [line for line in wanted if line not in left_out]
            with tempfile.TemporaryDirectory(dir=folder) as name:
                found = calls_of(unpacked(program, folder) / "DEBIAN", call.split(), lacking, absent, pathlib.Path(name))
            if found != expected:
                yield f"{call} without {[*lacking, absent]}: {found}, and {expected} is wanted"


def lint(program, folder):
    """Lintian finds no error. Without git the files are of 1970, which is one that isn't meant."""
    if not shutil.which("lintian"):
        PASSED_OVER.append("errors of packages (no lintian)")
        return
    words = ["lintian", "--allow-root", "--fail-on", "error", "--suppress-tags", "package-contains-ancient-file"]
    ran = subprocess.run([*words, package(program, folder)], capture_output=True, text=True, check=False)
    if ran.returncode:
        yield ran.stdout + ran.stderr


def main():
    """Runs the parts over the program, and returns the exit status."""
    given = pathlib.Path(sys.argv[1]).resolve() if sys.argv[1:] else None
    parts = [manual, warnings, completion]
    if shutil.which("dpkg-deb"):
        parts += [bytes_of_packages, information, scripts, lint]
    else:
        PASSED_OVER.append("the package (no dpkg-deb)")
    if shutil.which("dpkg-deb") and has_git():
        parts += [contents, files]
    else:
        PASSED_OVER.append("the files of the package (no dpkg-deb or no git)")
    with tempfile.TemporaryDirectory() as name:
        return run_parts("packaging", parts, given or PROGRAM, pathlib.Path(name).resolve(), program=given)


if __name__ == "__main__":
    sys.exit(main())
