"""Tests of the command line program: command.py PROGRAM SHIM SOUND_LENGTH BATCH. Started by host/tests/command, which builds them."""
import os
import shutil
import tempfile
import time
from pathlib import Path

import command_kit    # first: it says where the reference is
import command_advice
import command_card
import command_crash
import command_data
import command_describe
import command_diff
import command_explain
import command_forms
import command_help
import command_info
import command_journal
import command_mend
import command_names
import command_pack
import command_profile
import command_scale
import command_scripts
import command_sheet
import command_sounds
import command_store
import command_table
import command_terminal
import command_use


# A file system in memory: what the crash tests try does not depend on the disk, and waiting for one would take minutes.
MEMORY = "/dev/shm" if os.access("/dev/shm", os.W_OK) else None


def run_parts(parts, where):
    work = Path(tempfile.mkdtemp(prefix="blorb-command-", dir=where))
    work.chmod(0o755)
    try:
        for part in parts:
            before, started = command_kit.checks, time.time()
            name = f"{part.__module__.removeprefix('command_')}, {part.__name__}"
            folder = work / name.replace(", ", "-")
            folder.mkdir()
            part(folder)
            print(f"  {name}: {command_kit.checks - before} checks, {time.time() - started:.1f} s", flush=True)
    finally:
        shutil.rmtree(work)


def main():
    begun = time.time()
    print(f"command: {command_kit.PROGRAM}; seeds are fixed (7, 2004, 15, 2611, 23, 39, 300, 1985, 2026)")
    run_parts(command_use.PARTS + command_data.PARTS + command_scripts.PARTS + command_sounds.PARTS + command_forms.PARTS + command_scale.PARTS +
              command_describe.PARTS + command_card.PARTS, None)
    run_parts(command_names.PARTS + command_terminal.PARTS + command_help.PARTS + command_advice.PARTS + command_diff.PARTS + command_explain.PARTS, MEMORY)
    run_parts(command_journal.PARTS + command_crash.PARTS + command_table.PARTS + command_profile.PARTS + command_pack.PARTS +
              command_info.PARTS + command_mend.PARTS + command_sheet.PARTS + command_store.PARTS, MEMORY)
    print(f"{command_kit.checks} checks in {time.time() - begun:.0f} s")
    print("command: ok")


if __name__ == "__main__":
    main()
