"""What the benchmarks share: frames, and runs of commands over inputs, turn by turn."""
import os
import shutil
import statistics
import subprocess
import sys
import tempfile
import time

TOP = os.path.dirname(os.path.dirname(os.path.abspath(__file__)))
PROGRAM = f"{TOP}/crates/iot_program/out/iot_program"
MOST_FRAMES = 100_000
# Stands in a command for a file that isn't there yet.
NEW_CHIP = "a new chip"


def frames(stream):
    while stream:
        length = 4 + int.from_bytes(stream[:4], "big")
        yield stream[:length]
        stream = stream[length:]


def stored(given):
    """A file with these octets, to be read again and again."""
    source = tempfile.TemporaryFile()
    source.write(given)
    source.flush()
    return source


def on_new_chip(command, folder):
    """The command over a file of its own."""
    return [f"{folder}/chip" if word == NEW_CHIP else word for word in command]


def ran(command, source):
    """The seconds that a command takes over the input."""
    source.seek(0)
    with tempfile.TemporaryDirectory() as folder:
        words = on_new_chip(command, folder)
        begun = time.perf_counter()
        status = subprocess.run(words, stdin=source, stdout=subprocess.DEVNULL).returncode
        spent = time.perf_counter() - begun
    if status:
        sys.exit(f"{command} ended with {status}")
    return spent


def turns(jobs, runs):
    """The seconds of each job, a command and its input, in each of so many turns of all of them."""
    jobs = [(command, stored(given)) for command, given in jobs]
    return [[ran(command, source) for command, source in jobs] for _ in range(runs)]


def peak(command, given):
    """The peak memory of a command in KiB, or none without GNU time.

    A child that Python starts begins with Python's own memory, so a small program starts it."""
    timer = shutil.which("time")
    if timer is None:
        return None
    with tempfile.TemporaryDirectory() as folder, stored(given) as source:
        source.seek(0)
        told = f"{folder}/told"
        measured = [timer, "-f", "%M", "-o", told, *on_new_chip(command, folder)]
        subprocess.run(measured, stdin=source, stdout=subprocess.DEVNULL, check=True)
        return int(open(told).read())


def spread(values, digits=0):
    """The median of values and their range; a value that isn't above zero says nothing."""
    good = sorted(value for value in values if value > 0)
    if not good:
        return "too small to measure"
    low, middle, high = good[0], statistics.median(good), good[-1]
    lost = len(values) - len(good)
    note = f", {lost} of {len(values)} turns too small to measure" if lost else ""
    return f"{middle:,.{digits}f} ({low:,.{digits}f} to {high:,.{digits}f}{note})"


def rate(amount, longer, shorter):
    """An amount per second of what the longer time has more; 0 where it hasn't."""
    return amount / (longer - shorter) if longer > shorter else 0
