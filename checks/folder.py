#!/usr/bin/env python3
"""Gives the real program store folders of every shape: checks/folder.py PROGRAM.

Links are followed, what the program can't handle is refused with nothing changed, another program's folder gets no lock, and what
was acknowledged outlives a disk that forgets what it failed to write. A store that has to stay as it is is compared before and
after, with its times. Each check prints its name; the first that fails ends it.
"""
import hashlib
import os
import shutil
import socket
import stat
import subprocess

from wire import PROGRAM, all_replies, check, pull, pulled, replies, run, send

HERE = os.path.dirname(os.path.abspath(__file__))
SMALL = ("pipe", "--segment", "4096")
FIRST = "store/commitlog/" + "0" * 20
NOT_TEXT = b"\xff\xfe"
NOBODY = 65534


def tree(folder):
    """What is in a folder, links not followed: of each path its kind, rights, time of change, and its bytes or target."""
    found = {}
    for place, folders, names in os.walk(os.fsencode(folder)):
        for path in [place] + [os.path.join(place, name) for name in folders + names]:
            seen = os.lstat(path)
            said = b""
            if stat.S_ISLNK(seen.st_mode):
                said = os.readlink(path)
            elif stat.S_ISREG(seen.st_mode):
                said = hashlib.sha256(open(path, "rb").read()).digest()
            found[path] = seen.st_mode, seen.st_mtime_ns, said
    return found


def bodies(folder, words=("pipe",), at=0):
    """The bodies that the next run lets a consumer pull from queue 0 of topic T."""
    status, out = run(pull(0, "T", at), folder, words)
    assert status == 0, status
    return [r["body"] for r in pulled(all_replies(out)[0]["body"])]


def send_all(folder, texts, words=("pipe",)):
    status, out = run(b"".join(send(k, text) for k, text in enumerate(texts)), folder, words)
    assert status == 0 and [r["code"] for r in replies(out)] == [0] * len(texts), (status, out)


def make_pipe(path):
    os.mkfifo(path)


def make_socket(path):
    here = os.getcwd()
    os.chdir(os.path.dirname(path))  # a socket's path has at most 107 bytes
    with socket.socket(socket.AF_UNIX) as made:
        made.bind(os.path.basename(path))
    os.chdir(here)


def make_file(path):
    with open(path, "wb") as file:
        file.write(b"other")


def link_nowhere(path):
    os.symlink("nowhere", path)


def link_to_itself(path):
    os.symlink(os.path.basename(path), path)


def replace(path, make):
    """Puts something else in place of what is there."""
    if os.path.isdir(path):
        shutil.rmtree(path)
    elif os.path.lexists(path):
        os.remove(path)
    make(path)


def want_refused(folder, status, why):
    before = tree(folder)
    found, out = run(send(9, b"new"), folder)
    assert (found, out) == (status, b""), (why, found)
    assert tree(folder) == before, (why, [path for path in tree(folder) if tree(folder).get(path) != before.get(path)])


@check("a log on another disk is the same log: the folder of the log is a link, from the start")
def _(folder):
    os.makedirs(folder + "/other/log")
    os.mkdir(folder + "/store")
    os.symlink("../other/log", folder + "/store/commitlog")
    texts = [b"%d" % k + b"x" * 2500 for k in range(6)]
    for k in range(0, 6, 2):
        send_all(folder, texts[k:k + 2], SMALL)
    assert bodies(folder) == texts and os.path.islink(folder + "/store/commitlog")
    assert len(os.listdir(folder + "/other/log")) == 6 and sorted(os.listdir(folder + "/store")) == ["commitlog", "config", "lock"]


@check("a log that is moved to another disk, or one file of it, or the whole store, goes on")
def _(folder):
    texts = [b"%d" % k + b"x" * 2500 for k in range(8)]
    send_all(folder, texts[:2], SMALL)
    os.mkdir(folder + "/other")
    moves = ("store/commitlog", "store/commitlog/%020d" % 4096, "store")
    for k, path in enumerate(moves):
        shutil.move(os.path.realpath(os.path.join(folder, path)), os.path.join(folder, "other", str(k)))
        if os.path.lexists(os.path.join(folder, path)):
            os.remove(os.path.join(folder, path))
        os.symlink(os.path.join(folder, "other", str(k)), os.path.join(folder, path))
        assert bodies(folder) == texts[:2 + 2 * k], path
        send_all(folder, texts[2 + 2 * k:4 + 2 * k], SMALL)
        assert bodies(folder) == texts[:4 + 2 * k] and os.path.islink(os.path.join(folder, path)), path


@check("a log that has begun and whose disk is away is status 8, and nothing is changed")
def _(folder):
    send_all(folder, [b"first"])
    shutil.move(folder + "/store/commitlog", folder + "/away")
    want_refused(folder, 8, "the folder of the log is gone")
    os.mkdir(folder + "/store/commitlog")
    want_refused(folder, 8, "the folder of the log is empty")
    os.mkdir(folder + "/store/commitlog/lost+found")
    want_refused(folder, 8, "another disk is in its place")
    ended = subprocess.run([PROGRAM, "pipe"], cwd=folder, input=b"", capture_output=True, timeout=60)
    assert b"store/commitlog has no file, though the log has begun (status 8)" in ended.stderr, ended.stderr
    shutil.rmtree(folder + "/store/commitlog")
    shutil.move(folder + "/away", folder + "/store/commitlog")
    assert bodies(folder) == [b"first"]


@check("what the file system or an operator puts beside the log is ignored, and stays")
def _(folder):
    os.makedirs(folder + "/store/lost+found/x")
    make_file(folder + "/store/lost+found/x/y")
    send_all(folder, [b"first"])
    store = os.fsencode(folder) + b"/store/"
    os.makedirs(store + b"backup/" + NOT_TEXT)
    make_file(store + NOT_TEXT)
    make_file(store + b"note")
    os.makedirs(store + b"commitlog/lost+found")
    make_pipe(store + b"pipe")
    make_socket(folder + "/store/socket")
    link_nowhere(store + b"link")
    link_to_itself(store + b"circle")
    others = {path: said for path, said in tree(folder + "/store").items() if b"/store/co" not in path and b"/lock" not in path}
    send_all(folder, [b"second"])
    assert bodies(folder) == [b"first", b"second"]
    after = tree(folder + "/store")
    assert all(after[path] == said for path, said in others.items() if path != store[:-1])


@check("what isn't a file or a folder where one is needed is refused before anything is changed, and never waited for")
def _(folder):
    send_all(folder, [b"first", b"second"])
    shutil.move(folder + "/store", folder + "/kept")
    rows = [(name, make) for name in ("commitlog", "config")
            for make in (make_file, make_pipe, make_socket, link_nowhere, link_to_itself)]
    rows += [(name, make) for name in ("lock", "config/format", FIRST[6:])
             for make in (os.mkdir, make_pipe, make_socket, link_nowhere, link_to_itself)]
    rows += [("commitlog/" + name, make) for name in ("pipe", "link") for make in (make_pipe, link_nowhere)]
    for name, make in rows:
        shutil.copytree(folder + "/kept", folder + "/store")
        replace(folder + "/store/" + name, make)
        want_refused(folder, 5, (name, make.__name__))
        shutil.rmtree(folder + "/store")
    shutil.copytree(folder + "/kept", folder + "/store")
    make_file(os.fsencode(folder) + b"/store/commitlog/" + NOT_TEXT)
    want_refused(folder, 5, "a name that isn't UTF-8")


@check("a kept file that is a pipe or a folder is status 10, and never waited for")
def _(folder):
    send_all(folder, [b"first"])
    for name in ("consumerOffset.json", "topics.json", "format.new"):
        for make in (make_pipe, os.mkdir, link_nowhere):
            path = folder + "/store/config/" + name
            replace(path, make)
            assert run(b"", folder)[0] == 10, (name, make.__name__)
            (os.rmdir if make is os.mkdir else os.remove)(path)
    assert bodies(folder) == [b"first"]


@check("the store folder itself is refused where it is a file, a pipe or a link that leads nowhere")
def _(folder):
    for make in (make_file, make_pipe, link_nowhere, link_to_itself):
        make(folder + "/store")
        want_refused(folder, 5, make.__name__)
        os.remove(folder + "/store")


@check("another program's folder gets no lock and no change, whatever file it has")
def _(folder):
    rows = [("abort",), ("x/y/z",), ("commitlog/" + "0" * 20,), ("config/topics.json", "checkpoint", "lock"), ("commitlog",), ("lost+found",)]
    for names in rows:
        for name in names:
            os.makedirs(os.path.dirname(folder + "/store/" + name), exist_ok=True)
            make_file(folder + "/store/" + name)
        want_refused(folder, 6, names)
        shutil.rmtree(folder + "/store")
    for make in (make_pipe, make_socket, link_nowhere):
        os.mkdir(folder + "/store")
        make(folder + "/store/x")
        want_refused(folder, 5, make.__name__)
        shutil.rmtree(folder + "/store")
    os.mkdir(folder + "/store")
    make_file(os.fsencode(folder) + b"/store/" + NOT_TEXT)
    want_refused(folder, 5, "a name that isn't UTF-8")


@check("an empty folder, and one that a run left which was cut off before its format, become stores")
def _(folder):
    for names in ((), ("lock",), ("lock", "config/format.new"), ("lost+found/",), ("commitlog/", "config/")):
        os.mkdir(folder + "/store")
        for name in names:
            os.makedirs(os.path.dirname(folder + "/store/" + name), exist_ok=True)
            if not name.endswith("/"):
                make_file(folder + "/store/" + name)
        send_all(folder, [b"first"])
        assert bodies(folder) == [b"first"], names
        shutil.rmtree(folder + "/store")


@check("arguments that don't fit make nothing")
def _(folder):
    for words in ((), ("pipe", "x"), ("serve", "x"), ("pipe", "--segment", "4095")):
        assert run(b"", folder, words) == (1, b"") and os.listdir(folder) == [], words


@check("a second process on the store is status 5, and changes nothing")
def _(folder):
    first = subprocess.Popen([PROGRAM, "pipe"], stdin=subprocess.PIPE, stdout=subprocess.PIPE, cwd=folder)
    first.stdin.write(send(0, b"first"))
    first.stdin.flush()
    first.stdout.read(4)
    want_refused(folder, 5, "a second process")
    first.communicate(timeout=60)
    assert first.returncode == 0 and bodies(folder) == [b"first"]


def as_nobody(data, folder):
    """A run of a user without rights, or None where the program can't be run so."""
    who = {} if os.getuid() != 0 else {"user": NOBODY, "group": NOBODY, "extra_groups": []}
    try:
        done = subprocess.run([PROGRAM, "pipe"], input=data, cwd=folder, stdout=subprocess.PIPE, timeout=60, **who)
    except PermissionError:
        return None
    return done.returncode, done.stdout


@check("without rights to the store, or to make it, the status is 5 and nothing is changed; a closed folder beside the log is ignored")
def _(folder):
    os.chmod(folder, 0o755)
    if as_nobody(b"", folder) is None:
        print("skipped, the program can't be run without rights:", end=" ")
        return
    if os.getuid() != 0:
        shutil.rmtree(folder + "/store")
        os.chmod(folder, 0o555)
    before = tree(folder)
    assert as_nobody(send(0, b"hi"), folder) == (5, b"") and tree(folder) == before
    os.chmod(folder, 0o755)
    send_all(folder, [b"first"])
    for path in ("store/commitlog", "store/config", "store"):
        os.chmod(os.path.join(folder, path), 0o555)
    for path in (FIRST, "store/config/format", "store/lock"):
        os.chmod(os.path.join(folder, path), 0o444)
    before = tree(folder)
    assert as_nobody(send(1, b"hi"), folder) == (5, b"") and tree(folder) == before
    os.chmod(folder + "/store", 0o777)
    for at, folders, files in os.walk(folder + "/store"):
        for name in folders + files:
            os.chmod(os.path.join(at, name), 0o777)
    os.makedirs(folder + "/store/closed/x")
    os.chmod(folder + "/store/closed", 0o000)
    status, out = as_nobody(pull(2, "T", 0), folder)
    os.chmod(folder + "/store/closed", 0o755)
    assert status == 0 and [r["body"] for r in pulled(all_replies(out)[0]["body"])] == [b"first"], status


def forgetful(folder, data, text=None):
    """A run on a disk that forgets: from the write that has this text on each sync fails. Answers status and replies."""
    names = {**os.environ, "LD_PRELOAD": folder + "/lose.so", "LOSE_DIR": folder + "/side"}
    if text is not None:
        names["LOSE_TEXT"] = text.decode()
    done = subprocess.run([PROGRAM, "pipe"], input=data, cwd=folder, stdout=subprocess.PIPE, env=names, timeout=60)
    return done.returncode, all_replies(done.stdout)


def cut_power(folder):
    """Leaves of each log file what is on the disk."""
    for name in os.listdir(folder + "/store/commitlog"):
        path, durable = folder + "/store/commitlog/" + name, folder + "/side/" + name + ".durable"
        os.remove(path)
        if os.path.exists(durable):
            shutil.copy(durable, path)


@check("what is acknowledged after a run whose syncs failed outlives a power cut, though the system forgot what it could not write")
def _(folder):
    if shutil.which("cc") is None:
        print("skipped, no cc:", end=" ")
        return
    subprocess.run(["cc", "-shared", "-fPIC", "-O1", "-o", folder + "/lose.so", HERE + "/lose_pages.c", "-ldl", "-pthread"], check=True)
    os.mkdir(folder + "/side")
    status, told = forgetful(folder, send(0, b"before"))
    assert status == 0 and [r["code"] for r in told] == [0]
    durable = folder + "/side/" + "0" * 20 + ".durable"
    if not os.path.exists(durable):
        print("skipped, the program takes no library:", end=" ")
        return
    status, told = forgetful(folder, send(1, b"forgotten"), b"forgotten")
    assert status == 5 and [r["code"] for r in told] == [10], (status, told)
    assert b"forgotten" in open(os.path.join(folder, FIRST), "rb").read() and b"forgotten" not in open(durable, "rb").read()
    status, told = forgetful(folder, send(2, b"after") + pull(3, "T", 0))
    assert status == 0 and [r["code"] for r in told] == [0, 0], (status, told)
    seen = [r["body"] for r in pulled(told[1]["body"])]
    assert seen[0] == b"before" and seen[-1] == b"after", seen
    cut_power(folder)
    assert bodies(folder) == seen, (seen, bodies(folder))
