"""What one run of a program prints and costs."""

import os
import subprocess


def printed(command, path):
    with open(path, "rb") as events:
        return subprocess.run(command, stdin=events, stdout=subprocess.PIPE, check=True).stdout


def seconds(command, path):
    """Processor time, of the program and of the system for it: other work on the machine disturbs it less than a clock's."""
    with open(path, "rb") as events:
        run = subprocess.Popen(command, stdin=events, stdout=subprocess.DEVNULL)
        _, status, used = os.wait4(run.pid, 0)
        run.returncode = os.waitstatus_to_exitcode(status)
    if run.returncode:
        raise SystemExit("bench: %s ended with status %d" % (command[0], run.returncode))
    return used.ru_utime + used.ru_stime


def instructions(command, path):
    """As callgrind counts them, those of the program's start too."""
    counting = ["valgrind", "--tool=callgrind", "--callgrind-out-file=/dev/null"]
    with open(path, "rb") as events:
        done = subprocess.run(counting + command, stdin=events, stdout=subprocess.DEVNULL, stderr=subprocess.PIPE, check=True,
                              text=True)
    (counted,) = [line for line in done.stderr.splitlines() if "Collected" in line]
    return int(counted.split(":")[1])
