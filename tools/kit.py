"""A kit of links, in which programs are others: how a build is looked at, or changed, on its way."""
import shutil
import subprocess
import sys


def run(*words, **how):
    """Runs a command, and gives what it tells; ends this program where it fails."""
    ran = subprocess.run([str(it) for it in words], check=False, stdout=subprocess.PIPE, stderr=subprocess.STDOUT, text=True, **how)
    if ran.returncode:
        sys.exit(f"{words[0]} fails\n{ran.stdout}")
    return ran.stdout


def link_all(source, place, *but):
    """Makes a folder of links to what another one has, but for these names."""
    place.mkdir(parents=True)
    for it in source.iterdir():
        if it.name not in but:
            (place / it.name).symlink_to(it)


def kit_of_links(kit, place, programs):
    """Makes a kit of links, where these programs, named by their place in it, are shell scripts of these texts."""
    own = {"bin": ["rt", "rtlib.py"], "toolchain/bin": []}
    for name in programs:
        folder, _, program = name.rpartition("/")
        own[folder].append(program)
    link_all(kit, place, "bin", "toolchain")
    link_all(kit / "toolchain", place / "toolchain", "bin")
    for folder, names in own.items():
        link_all(kit / folder, place / folder, *names)
    for name in ("rt", "rtlib.py"):
        shutil.copy(kit / "bin" / name, place / "bin")
    for name, text in programs.items():
        (place / name).write_text(f"#!/bin/sh\n{text}\n", encoding="utf-8")
        (place / name).chmod(0o755)
