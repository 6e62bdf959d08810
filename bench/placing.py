# What placing costs an instruction, and what a place and a start cost beside, by one archive of the library and by others: placing.py ARCHIVE..
# All archives have their turns one after the other, in 12 starts with 40 turns each, of which the least is kept; instructions by
# callgrind, the difference of 20 calls and 10. What an instruction of a body takes is the difference of that body and an empty one.
# The ratios are to the first archive. Of one in which a single call places a body and starts it, an empty body counts as both
# together. Needs gcc, nm and valgrind.
import os
import subprocess
import sys
import tempfile

STARTS, TURNS, CALLS, SIZE = 12, 40, 10, 8000
here = os.path.dirname(os.path.abspath(__file__))


def in_one_call(archive):
    """Whether the archive still has the single call."""
    symbols = subprocess.run(["nm", "--defined-only", archive], check=True, capture_output=True, text=True).stdout
    return any(line.endswith(" T sumacadze_load") for line in symbols.splitlines())


def built(archive, folder, number):
    program = f"{folder}/placing-{number}"
    former = ["-DONE_CALL"] if in_one_call(archive) else []
    subprocess.run(["gcc", "-O2", "-Wall", *former, f"-I{here}/../include", "-o", program, f"{here}/placing.c", archive], check=True)
    return program


def least(programs):
    """The least time of each kind of body, by program."""
    found = [{} for _ in programs]
    for _ in range(STARTS):
        for times, program in zip(found, programs):
            for line in subprocess.run([program, str(TURNS)], check=True, capture_output=True, text=True).stdout.splitlines():
                kind, time = line.split()
                times[kind] = min(float(time), times.get(kind, 1e9))
    return found


def instructions(program, folder, call, kind=0):
    """Instructions that one call takes, with the loop that makes it."""
    total = []
    for n in [CALLS, 2 * CALLS]:
        command = ["valgrind", "--tool=callgrind", f"--callgrind-out-file={folder}/callgrind.out", program, "count", call, str(kind), str(n)]
        total.append(int(subprocess.run(command, check=True, capture_output=True, text=True).stderr.split("Collected :")[1].split()[0]))
    return (total[1] - total[0]) / CALLS


def bodies(archives, programs, folder, times):
    """The table of an instruction of each kind of body."""
    print("| body | archive | ns | instructions | ns, to the first | instructions, to the first |\n|---|---|---|---|---|---|")
    empty = [instructions(program, folder, "empty") for program in programs]
    for number, kind in enumerate(times[0]):
        counts = [(instructions(program, folder, "body", number) - less) / SIZE for program, less in zip(programs, empty)]
        for archive, time, count in zip(archives, times, counts):
            print(f"| {kind} | {archive} | {time[kind]:.2f} | {count:.2f} | {time[kind] / times[0][kind]:.3f} | {count / counts[0]:.3f} |")


def calls(archives, programs, folder):
    """The table of a call by itself, in instructions: the loop that makes it is taken off."""
    print("\n| archive | place of an empty body | start | both |\n|---|---|---|---|")
    for archive, program in zip(archives, programs):
        loop = instructions(program, folder, "nothing")
        empty = instructions(program, folder, "empty") - loop
        if in_one_call(archive):
            print(f"| {archive} | | | {empty:.1f} |")
            continue
        start = instructions(program, folder, "start") - loop
        print(f"| {archive} | {empty:.1f} | {start:.1f} | {empty + start:.1f} |")


with tempfile.TemporaryDirectory() as folder:
    programs = [built(archive, folder, number) for number, archive in enumerate(sys.argv[1:])]
    bodies(sys.argv[1:], programs, folder, least(programs))
    calls(sys.argv[1:], programs, folder)
