#!/usr/bin/env python3
"""Makes the Debian package of a built program and looks at it: checks/package.py PROGRAM.

The package is unpacked and never installed. What wants a command that isn't there (dpkg-deb, systemd-analyze, man, mandoc) is skipped
and says so. Of the program that `./build --try` makes the package is made as an unproved one. Each check prints its name; the first that
fails ends it.
"""
import gzip
import hashlib
import os
import re
import shutil
import signal
import socket
import subprocess
import sys

from wire import PROGRAM, check

TOP = os.path.dirname(os.path.dirname(os.path.abspath(__file__)))
PACKAGING = f"{TOP}/packaging"
WAIT = 20  # seconds until what has to come is missed
FIXED = {"usr/bin/mq_broker": 0o755, "usr/lib/systemd/system/mq_broker.service": 0o644, "etc/default/mq_broker": 0o644,
         "usr/share/bash-completion/completions/mq_broker": 0o644, "usr/share/man/man1/mq_broker.1.gz": 0o644,
         "usr/share/doc/mq-broker/copyright": 0o644, "usr/share/doc/mq-broker/changelog.gz": 0o644}
CONTROL = {"DEBIAN/control": 0o644, "DEBIAN/conffiles": 0o644, "DEBIAN/md5sums": 0o644, "DEBIAN/postinst": 0o755, "DEBIAN/prerm": 0o755,
           "DEBIAN/postrm": 0o755}
CLIENT = "usr/lib/python3/dist-packages/mq_client"
with open(PROGRAM, "rb") as program:
    UNPROVED = ["--unproved"] if b"__asan_" in program.read() else []


def output_of(*words, **more):
    done = subprocess.run(words, stdout=subprocess.PIPE, stderr=subprocess.PIPE, text=True, timeout=120, check=False, **more)
    assert done.returncode == 0, (words, done.returncode, done.stdout, done.stderr)
    return done.stdout


def is_missing(command):
    if shutil.which(command):
        return False
    print(f"skipped: there is no {command}")
    return True


def read(path):
    with open(path, "rb") as it:
        return it.read()


def make(folder, *words):
    """The package that is made of the program in this new folder."""
    os.makedirs(folder)
    program = shutil.copy2(PROGRAM, f"{folder}/mq_broker")
    output_of(f"{PACKAGING}/deb", *UNPROVED, program, *words)
    made = [name for name in os.listdir(folder) if name.endswith(".deb")]
    assert len(made) == 1, made
    return f"{folder}/{made[0]}"


def unpack(made, root):
    """Unpacks what a package installs into one folder, and what dpkg reads of it into DEBIAN there."""
    output_of("dpkg-deb", "-R", made, root)
    return root


def files_below(root):
    """Each file below a folder, with its mode."""
    found = [f"{at}/{name}" for at, _, names in os.walk(root) for name in names]
    return {os.path.relpath(it, root): os.stat(it).st_mode & 0o7777 for it in found}


def help_of(*words):
    return output_of(PROGRAM, *words, "--help")


def commands():
    return re.findall(r"^  ([a-z]\S*) ", help_of().partition("commands:\n")[2].partition("\n\n")[0], re.M)


def options(text):
    return re.findall(r"^  (--\S+) ", text, re.M)


def check_files(made, root):
    """Each file with its mode, owner and sum."""
    client = {f"{CLIENT}/{name}": 0o644 for name in os.listdir(f"{TOP}/clients/python/mq_client") if name.endswith((".py", ".typed"))}
    found, wanted = files_below(root), {**FIXED, **client, **CONTROL}
    assert found == wanted, set(found.items()) ^ set(wanted.items())
    assert all(os.stat(at).st_mode & 0o7777 == 0o755 for at, _, _ in os.walk(root)), "a folder has another mode"
    rows = output_of("dpkg-deb", "--contents", made).splitlines()
    assert all(row.split()[1] == "root/root" for row in rows), rows
    assert read(f"{root}/usr/bin/mq_broker") == read(PROGRAM)
    sums = dict(reversed(line.split("  ")) for line in read(f"{root}/DEBIAN/md5sums").decode().splitlines())
    assert sums == {path: hashlib.md5(read(f"{root}/{path}")).hexdigest() for path in {**FIXED, **client} if not path.startswith("etc/")}
    for name in ("postinst", "prerm", "postrm"):
        output_of("sh", "-n", f"{root}/DEBIAN/{name}")


def check_control(made, root, version):
    """What dpkg and a reader of the changelog are told."""
    of = dict(re.findall(r"^([A-Z][\w-]*): (.*)$", read(f"{root}/DEBIAN/control").decode(), re.M))
    assert (of["Package"], of["Version"]) == ("mq-broker", version), of
    assert of["Architecture"] == output_of("dpkg", "--print-architecture").strip(), of
    assert os.path.basename(made) == f"mq-broker_{version}_{of['Architecture']}.deb", made
    assert re.search(r"\blibc6 \(>= 2\.\d+\)", of["Depends"]), of
    assert read(f"{root}/DEBIAN/conffiles") == b"/etc/default/mq_broker\n"
    log = gzip.decompress(read(f"{root}/usr/share/doc/mq-broker/changelog.gz")).decode()
    assert log.startswith(f"mq-broker ({version}) ") and "\n -- " in log, log


def check_client(root):
    """The client is found by python3 in the folder in which it is installed."""
    said = output_of(sys.executable, "-B", "-m", "mq_client", "--version", cwd=root,
                     env={**os.environ, "PYTHONPATH": f"{root}/{os.path.dirname(CLIENT)}"})
    assert said.startswith("mq_client "), said


@check("the package has the files, modes, fields and sums that it is to have, its client is found, and it is the same each time")
def _(folder):
    if is_missing("dpkg-deb"):
        return
    made = make(f"{folder}/first")
    version = output_of(PROGRAM, "--version").split()[1] + ("~unproved" if UNPROVED else "")
    root = unpack(made, f"{folder}/root")
    check_files(made, root)
    check_control(made, root, version)
    check_client(root)
    assert read(made) == read(make(f"{folder}/second"))


@check("what is no program, or no version, makes no package, and an unproved program only one that says so")
def _(folder):
    with open(f"{folder}/text", "w", encoding="utf-8") as it:
        it.write("#!/bin/sh\n")
    shutil.copy2(PROGRAM, f"{folder}/mq_broker")
    rows = [((f"{folder}/text",), "is no program"), ((f"{folder}/none",), "No such file"),
            ((*UNPROVED, f"{folder}/mq_broker", "new"), "is no version")]
    if UNPROVED:
        rows.append(((f"{folder}/mq_broker",), "unproved"))
    for words, wanted in rows:
        done = subprocess.run([f"{PACKAGING}/deb", *words], stderr=subprocess.PIPE, text=True, timeout=60, check=False)
        assert done.returncode == 1 and wanted in done.stderr and done.stderr.count("\n") == 1, (words, done.returncode, done.stderr)
    assert sorted(os.listdir(folder)) == ["mq_broker", "text"]


@check("systemd finds no fault in the unit, and the options that it starts with are options of serve")
def _(folder):
    with open(f"{PACKAGING}/debian/mq_broker.service", encoding="utf-8") as it:
        unit = it.read()
    with open(f"{PACKAGING}/debian/mq_broker.default", encoding="utf-8") as it:
        given = re.search(r'^MQ_BROKER_OPTIONS="(.*)"$', it.read(), re.M)[1].split()
    line = re.search(r"^ExecStart=/usr/bin/mq_broker (serve) \$MQ_BROKER_OPTIONS$", unit, re.M)
    # An option behind them that is none is the first that doesn't fit, so these fit.
    done = subprocess.run([PROGRAM, line[1], *given, "--none"], cwd=folder, stderr=subprocess.PIPE, text=True, timeout=60, check=False)
    assert done.returncode == 1 and '"--none" is no option' in done.stderr, done
    assert os.listdir(folder) == []
    if is_missing("systemd-analyze"):
        return
    # The program isn't installed here, so the unit names the built one.
    with open(f"{folder}/mq_broker.service", "w", encoding="utf-8") as it:
        it.write(unit.replace("/usr/bin/mq_broker", PROGRAM).replace("Documentation=man:mq_broker(1)\n", ""))
    said = subprocess.run(["systemd-analyze", "verify", f"{folder}/mq_broker.service"], stdout=subprocess.PIPE, stderr=subprocess.STDOUT,
                          text=True, timeout=60, check=False)
    faults = [row for row in said.stdout.splitlines() if "mq_broker.service" in row]
    assert said.returncode == 0 and not faults, said.stdout


@check("the man page has each command, option and exit status, and man and mandoc find no fault in it")
def _(folder):
    page = output_of(f"{PACKAGING}/man_page", PROGRAM, "1.2.3")
    bold = {it.replace("\\-", "-") for it in re.findall(r"\\fB(.*?)\\fR", page)}
    wanted = {*commands(), *options(help_of())}
    with open(f"{TOP}/README.md", encoding="utf-8") as it:
        statuses = re.findall(r"^\| ([0-9, ]+) \|", it.read().partition("## Exit statuses")[2].partition("\n## ")[0], re.M)
    assert len(statuses) > 5 and not {*wanted, *statuses} - bold, {*wanted, *statuses} - bold
    assert not re.search(r"\|---|\]\(|\*\*", page), "a mark of the README is left"
    with open(f"{folder}/mq_broker.1", "w", encoding="utf-8") as it:
        it.write(page)
    if not is_missing("man"):
        done = subprocess.run(["man", "--warnings", "-E", "UTF-8", "-l", f"{folder}/mq_broker.1"], stdout=subprocess.PIPE,
                              stderr=subprocess.PIPE, env={**os.environ, "MANWIDTH": "80", "LC_ALL": "C.UTF-8"}, text=True, timeout=60,
                              check=False)
        assert done.returncode == 0 and done.stderr == "" and "EXIT STATUS" in done.stdout, (done.returncode, done.stderr)
    if not is_missing("mandoc"):
        output_of("mandoc", "-T", "lint", "-W", "warning", f"{folder}/mq_broker.1")


def completed(folder, *words):
    """What bash offers for the last of these words."""
    script = ('source "$1"; shift; COMP_WORDS=("$@"); COMP_CWORD=$(($# - 1)); _mq_broker "$1" "${!#}" "${COMP_WORDS[COMP_CWORD - 1]}"; '
              'printf "%s\\n" "${COMPREPLY[@]}"')
    found = output_of("bash", "-c", script, "bash", f"{PACKAGING}/mq_broker.bash", *words, cwd=folder,
                      env={**os.environ, "PATH": f"{folder}/bin:{os.environ['PATH']}"})
    return sorted(found.split())


def free_port():
    with socket.socket() as it:
        it.bind(("127.0.0.1", 0))
        return it.getsockname()[1]


def put_in_path(folder):
    os.makedirs(f"{folder}/bin")
    os.symlink(PROGRAM, f"{folder}/bin/mq_broker")


@check("bash completes commands, options that aren't there yet, and values")
def _(folder):
    put_in_path(folder)
    assert completed(folder, "mq_broker", "ser") == ["serve"]
    assert completed(folder, "mq_broker", "") == sorted([*commands(), "--help", "--version"])
    for command in commands():
        assert completed(folder, "mq_broker", command, "") == sorted({*options(help_of(command)), "--help"}), command
    assert completed(folder, "mq_broker", "serve", "--flush", "a") == ["async"]
    assert completed(folder, "mq_broker", "serve", "--links", "") == []
    left = completed(folder, "mq_broker", "serve", "--flush", "sync", "--")
    assert left == sorted({*options(help_of("serve"))} - {"--flush"}), left
    assert completed(folder, "mq_broker", "serve", "--store", "b") == ["bin"]
    assert os.listdir(folder) == ["bin"]


@check("packaging/run serves until SIGTERM or SIGINT, and ends with the status of the program")
def _(folder):
    put_in_path(folder)
    env = {**os.environ, "PATH": f"{folder}/bin:{os.environ['PATH']}"}
    for number in (signal.SIGTERM, signal.SIGINT):
        child = subprocess.Popen([f"{PACKAGING}/run", "--store", "data", "--host", f"127.0.0.1:{free_port()}"], cwd=folder, env=env,
                                 stdin=subprocess.DEVNULL, stderr=subprocess.PIPE, start_new_session=True)
        assert b"opening store data" in child.stderr.readline()
        child.send_signal(number)
        assert child.wait(WAIT) == 128 + signal.SIGTERM, child.returncode
        # Nothing holds the pipe any more, so the program has ended too.
        child.stderr.read()
    done = subprocess.run([f"{PACKAGING}/run", "--none"], cwd=folder, env=env, stderr=subprocess.PIPE, text=True, timeout=WAIT, check=False)
    assert done.returncode == 1 and '"--none" is no option' in done.stderr, done
