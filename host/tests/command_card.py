"""Editing on a card: a file system without owners and permissions of its own, mounted by root, used by an ordinary user."""
import os
import shutil
import subprocess

from command_crash import ADD, FILE, REPLACE, START, UNDO
from command_kit import PROGRAM, contents, done, editing_reference, expect, failed, jpeg, same

NOBODY = 65534


def used(folder, **more):
    """new, add, replace, remove, undo, get -o and get --all, as authors do; every file as it should be."""
    file = folder / FILE
    done("new", file, **more)
    same(contents(folder), {FILE: editing_reference.BLANK}, "new on a card")
    file.write_bytes(START)
    files = [START]
    for words, data in (ADD, REPLACE, (("remove", "Data", "9"), b""), (("replace", "Data", "3", "TEXT", "-"), b"again")):
        done(words[0], file, *words[1:], stdin=data, **more)
        files.append(file.read_bytes())
        same(sorted(contents(folder)), [FILE, UNDO], f"{words} on a card leaves the pair and nothing else")
    same(len(done("history", file, **more).splitlines()), 4, "history on a card")
    for _ in range(2):
        done("get", file, "Pict", "1", "-o", folder / "out", **more)
        same((folder / "out").read_bytes(), jpeg(), "get -o on a card, also over a file")
        done("get", file, "--all", folder / "all", "--force", **more)
        same(sorted(contents(folder / "all")), ["Data-3.txt", "Pict-1.jpg", "Pict-2.jpg"], "get --all on a card")
    # There GAME.BLB is game.blb, though it may have another inode number.
    failed("get", file, "Pict", "1", "-o", folder / FILE.upper(), saying="but for the case of letters", **more)
    failed("new", folder / UNDO.upper(), saying="this program's own", **more)
    same(file.read_bytes(), files[-1], "the game is not overwritten by its other spelling")
    for before in files[-2::-1]:
        done("undo", file, **more)
        same(file.read_bytes(), before, "undo on a card")
    expect(not (folder / UNDO).exists(), "the journal goes with the last undo")
    done("add", file, "Data", "9", "BINA", "-", "--no-undo", stdin=b"nine", **more)
    same(done("get", file, "Data", "9", **more), b"nine", "an edit with --no-undo on a card")


def as_on_a_card(work):
    """The shim gives files a card's owner and permissions, and takes no others."""
    used(work, shim={"CRASH_CARD": "1"})


def mounted(image, folder, options):
    """Mounts an exFAT image through a loop device; gives the device, or None and why not."""
    tools = ["mkfs.exfat", "mount.exfat-fuse", "losetup", "umount"]
    path = os.environ["PATH"] + ":/usr/sbin:/sbin"
    missing = [tool for tool in tools if shutil.which(tool, path=path) is None]
    if missing:
        return None, f"no {', '.join(missing)}"
    env = dict(os.environ, PATH=path)
    with open(image, "wb") as f:
        f.truncate(16 << 20)
    if subprocess.run(["mkfs.exfat", image], capture_output=True, env=env).returncode != 0:
        return None, "mkfs.exfat fails"
    device = subprocess.run(["losetup", "-f", "--show", image], capture_output=True, env=env, text=True)
    if device.returncode != 0:
        return None, "no loop device"
    name = device.stdout.strip()
    subprocess.run(["mount.exfat-fuse", "-o", options, name, folder], capture_output=True, env=env)
    if os.path.ismount(folder):
        return name, ""
    subprocess.run(["losetup", "-d", name], env=env)
    return None, "it cannot be mounted here"


def on_a_card(work):
    """A real exFAT image with masks as card readers use them, root's or the user's own."""
    if os.getuid() != 0:
        print("  not run: an exFAT image (only root can mount one); the shim stands for it")
        return
    user = {"program": shutil.copy(PROGRAM, work / "blorb"), "user": NOBODY, "group": NOBODY, "extra_groups": []}
    for options in ("umask=0000,uid=0,gid=0", f"umask=0007,uid=0,gid={NOBODY}", f"umask=0077,uid={NOBODY},gid={NOBODY}",
                    f"fmask=0177,dmask=0077,uid={NOBODY},gid={NOBODY}"):
        folder = work / "card"
        folder.mkdir(exist_ok=True)
        device, why = mounted(work / "image", folder, f"allow_other,{options}")
        if device is None:
            print(f"  not run: an exFAT image ({why}); the shim stands for it")
            return
        try:
            used(folder, **user)
        finally:
            subprocess.run(["umount", folder], check=True)
            subprocess.run(["losetup", "-d", device], check=True)


PARTS = (as_on_a_card, on_a_card)
