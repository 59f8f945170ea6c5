#!/usr/bin/env python3
"""Makes a package by tools/package and tries it in a Debian without a toolchain, which debootstrap makes for that.

There the package is installed by dpkg alone. The program is held to the table of protocols/README.md and to the first
lines of examples/reasons, the package to its own list of files, and build.txt to the program. `--root FOLDER` takes a
Debian that is there already, of which a copy is made. What can't be tried, since debootstrap, root or a network isn't
there, is left out, and a line says so. The last line is 'N passed, M failed'."""

import argparse
import glob
import hashlib
import os
import re
import shutil
import subprocess
import sys
import tempfile

ROOT = os.path.dirname(os.path.dirname(os.path.abspath(__file__)))
MINUTES = 20
results = []


def expect(shows, holds, why=""):
    results.append(bool(holds))
    if not holds:
        print(f"package: {shows}{': ' if why else ''}{why}")


def run(words, **how):
    return subprocess.run(words, capture_output=True, text=True, timeout=MINUTES * 60, stdin=subprocess.DEVNULL, **how)


def debian(room, given):
    """A folder with a Debian of its smallest form, or why there is none."""
    folder = f"{room}/debian"
    if os.geteuid() != 0:
        return None, "not root"
    if given:
        made = run(["cp", "-a", given, folder])
    elif not shutil.which("debootstrap"):
        return None, "no debootstrap"
    else:
        made = run(["debootstrap", "--variant=minbase", "stable", folder])
    return (folder, "") if made.returncode == 0 else (None, f"no Debian: {(made.stdout + made.stderr).strip()[-300:]}")


def inside(folder, command):
    return run(["chroot", folder, "/bin/bash", "-c", command], env={"PATH": "/usr/sbin:/usr/bin:/sbin:/bin", "HOME": "/"})


def protocols_of_the_table():
    """Of each protocol the name and the answers to its three files."""
    with open(f"{ROOT}/protocols/README.md", encoding="utf-8") as table:
        rows = re.findall(r"^\| \[[^]]+\]\((\w+)/\) \|.*\| `([^`]*)` \| `([^`]*)` \| `?([^`|]*)`? \|$", table.read(), re.M)
    return rows


def answers_wanted():
    """Of each file of the package that is asked about its path, the command, and the last line that is wanted."""
    wanted = []
    for name, mended, flawed, attack in protocols_of_the_table():
        wanted += [(f"protocols/{name}/protocol.spi", "check", mended), (f"protocols/{name}/flawed.spi", "check", flawed)]
        if attack.strip() != "-":
            wanted.append((f"protocols/{name}/attack.spi", "replay", attack.strip()))
    for path in sorted(glob.glob(f"{ROOT}/examples/reasons/*.spi")):
        with open(path, encoding="utf-8") as file:
            wanted.append((os.path.relpath(path, ROOT), "check", file.readline().removeprefix("// ").rstrip("\n")))
    return wanted


def test_answers(folder, given):
    wanted = answers_wanted()
    expect("the table has rows", len(wanted) > 30)
    asks = "".join(f"cryptyc {command} < /usr/share/cryptyc/{path} | tail -n 1\n" for path, command, _ in wanted)
    told = inside(folder, asks).stdout.splitlines()
    expect("as many answers as files", len(told) == len(wanted))
    for (path, command, line), answer in zip(wanted, told):
        expect(f"{command} of {path}", answer == line, f"'{answer}', wanted '{line}'")
    ran = inside(folder, "cryptyc explain /usr/share/cryptyc/examples/unchecked_nonce.spi")
    wanted = (72, False) if given else (1, True)  # where one program is given, it is packed alone
    expect("explain", (ran.returncode, "\nwrong: " in ran.stdout) == wanted, ran.stdout + ran.stderr)
    deep = "; ".join(["begin a"] * 499)
    ran = inside(folder, f"echo 'free a; process {deep}; stop' | cryptyc check")
    expect("the deepest process", ran.stdout == "yes\n", ran.stdout)


def test_installed(folder):
    for name in ["man/man1/cryptyc.1.gz", "man/man5/cryptyc.5.gz", "bash-completion/completions/cryptyc",
                 "zsh/vendor-completions/_cryptyc", "fish/vendor_completions.d/cryptyc.fish", "doc/cryptyc/README.md",
                 "doc/cryptyc/docs/reasons.md", "doc/cryptyc/docs/web_1200.png", "doc/cryptyc/examples/nonce_handshake.spi"]:
        expect(name, os.path.exists(f"{folder}/usr/share/{name}"))
    expect("dpkg finds all files as packed", inside(folder, "dpkg -V cryptyc").stdout == "")
    with open(f"{folder}/usr/lib/cryptyc/cryptyc", "rb") as file:
        total = hashlib.sha256(file.read()).hexdigest()
    with open(f"{folder}/usr/share/doc/cryptyc/build.txt", encoding="utf-8") as file:
        told = file.read()
    expect("build.txt has the program's checksum", total in told, told)
    expect("build.txt says whether it's proved", re.search("not a proved one|made from proved sources|isn't known", told), told)
    first = told.splitlines()[0].split(".")[0].split(":")[0]
    said = " ".join(inside(folder, "dpkg -s cryptyc").stdout.split())
    expect("the description says the same", first in said, said)
    shows = "source /usr/share/bash-completion/completions/cryptyc; complete -p cryptyc"
    expect("bash's completion", "_cryptyc" in inside(folder, shows).stdout)


def test_package(room, folder, words):
    made = run([f"{ROOT}/tools/package", "--to", f"{room}/package", *words])
    expect("tools/package", made.returncode == 0, made.stdout + made.stderr)
    for deb in glob.glob(f"{room}/package/*.deb"):
        shutil.copy(deb, f"{folder}/tmp/cryptyc.deb")
    expect("there is no toolchain", inside(folder, "! command -v rt && ! command -v gcc").returncode == 0)
    ran = inside(folder, "dpkg -i /tmp/cryptyc.deb")
    expect("dpkg -i", ran.returncode == 0, ran.stdout + ran.stderr)
    if ran.returncode == 0:
        test_installed(folder)
        test_answers(folder, words)
        ran = inside(folder, "dpkg -r cryptyc && ! command -v cryptyc && ls -d /usr/share/*/cryptyc* /usr/share/cryptyc*")
        expect("dpkg -r leaves nothing", ran.stdout.count("/usr/share") == 0, ran.stdout)


def main():
    words = argparse.ArgumentParser()
    words.add_argument("--root")
    words.add_argument("--program", help="packs this program, and not the one that tools/package takes")
    asked = words.parse_args()
    with tempfile.TemporaryDirectory(prefix="cryptyc-package-") as room:
        folder, why = debian(room, asked.root)
        if folder is None:
            print(f"left out: the package in a Debian without a toolchain ({why})")
        else:
            test_package(room, folder, ["--program", asked.program] if asked.program else [])
    failed = results.count(False)
    print(f"{len(results) - failed} passed, {failed} failed")
    return 1 if failed else 0


sys.exit(main())
