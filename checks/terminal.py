"""Runs a program whose standard error is a terminal, as a person has it."""
from __future__ import annotations

import os
import pty
import subprocess
import time


def on_a_terminal(command: list[str]) -> tuple[str, str, float]:
    """What the program prints, what it says on the terminal without carriage returns, and the seconds that it takes."""
    terminal, other = pty.openpty()
    begun = time.monotonic()
    with subprocess.Popen(command, stdin=subprocess.DEVNULL, stdout=subprocess.PIPE, stderr=other) as started:
        os.close(other)
        assert started.stdout is not None
        printed = started.stdout.read().decode()
        seconds = time.monotonic() - begun
        heard = b""
        while True:
            try:
                piece = os.read(terminal, 4096)
            except OSError:
                break
            if not piece:
                break
            heard += piece
    os.close(terminal)
    return printed, heard.decode().replace("\r\n", "\n"), seconds
