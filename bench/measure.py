# Measures what run.sh built: measure.py WORK
# The driver is started several times, since pMARS' time depends on the addresses that a process gets; the least of each
# figure is kept. Then instructions a step, without limits and with them, and for a match loaded by callgrind, the difference of
# two lengths; and the Rust, if it was built, as a program: CPU time, the difference of two lengths, the least of five turns.
import os
import resource
import subprocess
import sys

BATTLES = ["imp", "dwarf", "splitter", "mixed", "imps of 2 names", "imps of 16 names"]
# the ways of loading a match, by their names in the driver; the second is what the others are compared with
WAYS = {"one-call": "one call", "known-lines": "sixteen places and starts", "read-lines": "sixteen places and starts, the file read"}
WARRIORS = 16
# read and write limits, by their names in the driver; the first are those of a machine without limits
LEAGUES = ["8000/8000", "2000/2000", "4000/2000"]
STARTS, TURNS = 12, 40
work = sys.argv[1]


def text(*words):
    return subprocess.run([f"{work}/driver", *map(str, words)], check=True, capture_output=True, text=True).stdout


def least():
    """The least of each figure, by kind, battle and number."""
    found = {}
    for _ in range(STARTS):
        for line in text(TURNS).splitlines():
            kind, name, number, *figures = line.split()
            figures = [float(x) for x in figures]
            number = number if "/" in number else int(number)
            before = found.get((kind, name, number), figures)
            found[kind, name, number] = [min(x, y) for x, y in zip(before, figures)]
    return found


def instructions(who, i, steps, league=LEAGUES[0]):
    """Instructions that one step takes, or one match."""
    total = []
    for n in [steps, 2 * steps]:
        command = ["valgrind", "--tool=callgrind", f"--callgrind-out-file={work}/callgrind.out", f"{work}/driver", "count", who, str(i), str(n), *league.split("/")]
        said = subprocess.run(command, check=True, capture_output=True, text=True).stderr
        total.append(int(said.split("Collected :")[1].split()[0]))
    return (total[1] - total[0]) / steps


def spent():
    used = resource.getrusage(resource.RUSAGE_CHILDREN)
    return used.ru_utime + used.ru_stime


def seconds(program, given):
    begun = spent()
    subprocess.run([program], input=given, text=True, stdout=subprocess.DEVNULL, stderr=subprocess.DEVNULL, check=False)
    return spent() - begun


def rust(program, i, steps):
    """Nanoseconds that one step of the Rust takes."""
    best = [1e9, 1e9]
    for _ in range(5):
        for k, n in enumerate([steps // 10, steps]):
            best[k] = min(best[k], seconds(program, text("oracle", i, n)))
    return (best[1] - best[0]) / (steps - steps // 10) * 1e9


def row(name, numbers, digits):
    print(f"| {name} |", " | ".join(f"{x:.{digits}f}" for x in numbers), "|", flush=True)


def times(found):
    """The tables of times, with their ratios."""
    print("| battle | steps | run | plain C | pMARS | to plain C | to pMARS |\n|---|---|---|---|---|---|---|")
    for (kind, name, number), figures in found.items():
        if kind == "run":
            run, c, full, setting_up = figures
            pmars = full - setting_up
            print(f"| {name} | {number:,} | {run:.1f} | {c:.1f} | {pmars:.1f} | {run / c:.2f} | {run / pmars:.2f} |")
    print("\n| battle | names | outer step | plain C | to plain C |\n|---|---|---|---|---|")
    for (kind, name, number), figures in found.items():
        if kind == "step":
            step, c = figures
            print(f"| {name} | {number} | {step:.1f} | {c:.1f} | {step / c:.2f} |")
    print(f"\nplacing an instruction: {found['place', 'instruction', 8000][0]:.1f} ns\n", flush=True)


def ratios(figures):
    """The rows of a table of limits: of each battle and league a run's figure and the plain C's, and the run's ratios to limits M and to the plain C."""
    print("| battle | read limit | write limit | run | plain C | to limits M | to plain C |\n|---|---|---|---|---|---|---|")
    for i, name in enumerate(BATTLES[:4]):
        found = {league: figures(i, name, league) for league in LEAGUES}
        for league, (run, c) in found.items():
            both = " | ".join(f"{int(x):,}" for x in league.split("/"))
            print(f"| {name} | {both} | {run:.1f} | {c:.1f} | {run / found[LEAGUES[0]][0]:.2f} | {run / c:.2f} |", flush=True)


def limits(found):
    """The tables of runs with limits: ns, and instructions a step."""
    print("\nWith limits:\n")
    ratios(lambda i, name, league: found["limits", name, league])
    print("\nInstructions a step:\n")
    ratios(lambda i, name, league: [instructions(who, i, 60_000, league) for who in ["run", "plain"]])


def matches(found):
    """The table of the ways of loading a match; the fresh machine, without which none is loaded, is taken off."""
    time = {way: found["match", way, WARRIORS][0] - found["match", "fresh", WARRIORS][0] for way in WAYS}
    before = instructions("fresh", 0, 100)
    count = {way: instructions(way, 0, 100) - before for way in WAYS}
    print("\n| loaded by | ns | instructions | ns, to places and starts | instructions, to places and starts |\n|---|---|---|---|---|")
    for way, name in WAYS.items():
        ratios = f"{time[way] / time['known-lines']:.3f} | {count[way] / count['known-lines']:.3f}"
        print(f"| {name} | {time[way]:,.0f} | {count[way]:,.0f} | {ratios} |", flush=True)


print(text("agree", 1, 1_000_000))
found = least()
times(found)
print("Instructions a step:\n\n| battle | run | in runs of 100 | plain C | pMARS |\n|---|---|---|---|---|")
for i, name in enumerate(BATTLES[:4]):
    row(name, [instructions(who, i, 60_000) for who in ["run", "short", "plain", "pmars"]], 1)
print("\n| battle | outer step | plain C | a call that plays nothing |\n|---|---|---|---|")
for i, name in enumerate(BATTLES):
    row(name, [instructions(who, i, 6_000) for who in ["step", "plain-step", "idle"]], 1)
limits(found)
matches(found)
if os.path.exists(f"{work}/rust-quiet/oracle"):
    print("\n| battle | the Rust | without its trace |\n|---|---|---|")
    for i, name in enumerate(BATTLES[:4]):
        row(name, [rust(f"{work}/rust/oracle", i, 200_000), rust(f"{work}/rust-quiet/oracle", i, 2_000_000)], 0)
