"""What bench/copy, bench/engine and bench/handover share: captures, and the time and memory of a program."""

import multiprocessing
import os
import struct
import sys
import time

TOP = os.path.dirname(os.path.dirname(os.path.abspath(__file__)))
PROGRAM = os.path.join(TOP, "crates/snabbrt/out/snabbrt")
# What ./snabbrt asks glibc for.
LARGE_PAGES = "glibc.malloc.hugetlb=1"
SIZE = 16 * 1024 * 1024


def build():
    """Without words the program is built where it isn't, and prints its usage line."""
    if os.waitstatus_to_exitcode(os.system(f"'{TOP}/snabbrt' >/dev/null")) != 1:
        sys.exit("there is no program to time")


def make_capture(path, lengths):
    """Whole records of these lengths by turns, as many as 16 MiB have room for."""
    body = bytes(range(256)) * 6
    with open(path, "wb") as out:
        out.write(struct.pack("<IHHIIII", 0xA1B2C3D4, 2, 4, 0, 0, 65535, 1))
        at, number = 24, 0
        while True:
            length = lengths[number % len(lengths)]
            if at + 16 + length > SIZE:
                return
            out.write(struct.pack("<IIII", number // 1000, number % 1000, length, length))
            out.write(struct.pack("<I", number) + body[:length - 4])
            at += 16 + length
            number += 1


def payloads(path):
    """The payloads of a capture, in order."""
    with open(path, "rb") as file:
        data = file.read()
    at, found = 24, []
    while at < len(data):
        length = struct.unpack_from("<I", data, at + 8)[0]
        found.append(data[at + 16:at + 16 + length])
        at += 16 + length
    return found


def apart(work, *words):
    """Does the work in a process of its own: a program's peak memory counts from that of the process which starts it."""
    child = multiprocessing.Process(target=work, args=words)
    child.start()
    child.join()
    if child.exitcode != 0:
        sys.exit(child.exitcode)


def timed(commands, folder, written, tunables):
    """Seconds, processor seconds and peak memory in KiB of these commands, one behind the other, with these
    GLIBC_TUNABLES. Each must end with status 0. They write new files: replacing a file whose last bytes are still on
    their way to the disk waits for the disk."""
    quiet = [(os.POSIX_SPAWN_OPEN, 1, os.devnull, os.O_WRONLY, 0), (os.POSIX_SPAWN_OPEN, 2, os.devnull, os.O_WRONLY, 0)]
    os.chdir(folder)
    for name in written:
        if os.path.exists(name):
            os.remove(name)
    busy, peak, start = 0, 0, time.perf_counter()
    for words in commands:
        child = os.posix_spawn(words[0], words, os.environ | {"GLIBC_TUNABLES": tunables}, file_actions=quiet)
        _, status, usage = os.wait4(child, 0)
        if status != 0:
            sys.exit(f"{' '.join(words)} ended with status {os.waitstatus_to_exitcode(status)}")
        busy += usage.ru_utime + usage.ru_stime
        peak = max(peak, usage.ru_maxrss)
    return time.perf_counter() - start, busy, peak
