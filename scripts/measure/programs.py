"""The programs that are measured, and what makes their inputs."""

import os
import subprocess

TOP = os.path.dirname(os.path.dirname(os.path.dirname(os.path.abspath(__file__))))
SCIMEM, SCIVIEW, CIRCLE = (f"{TOP}/crates/{it}/out/{it}" for it in ("scimem", "sciview", "sci_station_timer"))
PLAIN = f"{TOP}/bench/target/release/plain"
INPUTS = f"{TOP}/scripts/make/inputs.py"
WORKLOADS = ("private", "spread", "mixed", "reads", "migratory", "hammer")


def output(words, given=None):
    """What a command writes to its standard output."""
    return subprocess.run(words, input=given, stdout=subprocess.PIPE, check=True).stdout
