#!/usr/bin/env python3
"""memory.py PROGRAM [WORD..]: runs a program that says `done` and then waits for the end of its input, and prints how many
kilobytes it has in memory then, how many it had at most, and how many pages it was handed (its minor faults)."""
import subprocess
import sys

it = subprocess.Popen(sys.argv[1:], stdin=subprocess.PIPE, stdout=subprocess.PIPE, text=True)
said = it.stdout.readline().strip()
status = dict(line.split(":", 1) for line in open(f"/proc/{it.pid}/status"))
faults = open(f"/proc/{it.pid}/stat").read().rpartition(")")[2].split()[7]
it.communicate("")
if said != "done":
    sys.exit(f"{sys.argv[1]}: {said}")
print(status["VmRSS"].split()[0], status["VmHWM"].split()[0], faults)
