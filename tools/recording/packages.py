"""Debian's packages that the recorders need. Where a command is missing, root installs its package; anybody else is told how."""
import os
import shutil
import subprocess

PACKAGES = {"qemu-loongarch64": "qemu-user", "clang-19": "clang-19", "ld.lld-19": "lld-19", "llvm-mc-19": "llvm-19",
            "llvm-objcopy-19": "llvm-19", "llvm-objdump-19": "llvm-19", "gcc": "gcc libc6-dev"}


def need(*commands):
    missing = sorted({PACKAGES[command] for command in commands if shutil.which(command) is None})
    if not missing:
        return
    install = "apt-get install -y --no-install-recommends " + " ".join(missing)
    if os.geteuid() != 0:
        raise SystemExit("missing, and only root can install it:\n    apt-get update; " + install)
    subprocess.run(["apt-get", "update"], check=True, stdout=subprocess.DEVNULL)
    subprocess.run(install.split(), check=True, stdout=subprocess.DEVNULL)
