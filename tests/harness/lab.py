"""Hosts of a test: network namespaces with links that can be cut, and disks that can lose their power."""

import os
import subprocess
from pathlib import Path

from parts.site import ALONE

from tests.lab.machine import PACKAGES, Machine, site_here


def lacks() -> str:
    """Why this machine can't have hosts; nothing where it can."""
    if os.geteuid() != 0:
        return "namespaces and file systems are made by root alone"
    words = ["unshare", "--net", "--mount-proc", "--pid", "--fork", "true"]
    if subprocess.run(words, capture_output=True, check=False).returncode != 0:
        return "this container makes no namespaces"
    if subprocess.run(["losetup", "-f"], capture_output=True, check=False).returncode != 0:
        return "this container has no loop devices"
    missing = [package for package in PACKAGES if not is_installed(package)]
    return "not installed: %s" % " ".join(missing) if missing else ""


def is_installed(package: str) -> bool:
    words = ["dpkg-query", "-W", "-f=${Status}", package]
    return (
        subprocess.run(words, capture_output=True, text=True, check=False).stdout
        == "install ok installed"
    )


def machine(
    folder: Path, images: Path, gateway: Path, venue: tuple[str, ...], prefix: str
) -> Machine:
    """Three database hosts, two gateway hosts and one for firms, none of which is up yet."""
    return Machine(folder, images, gateway, site_here(venue, (ALONE,)), prefix)
