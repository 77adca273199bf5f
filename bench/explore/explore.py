#!/usr/bin/env python3
"""explore.py FOLDER [--seconds N] [--bound N] [--gate] [WORD]: runs the crews of crews.txt by FOLDER/explore, which build.py makes.
explore.py --wrong FOLDER REAL [WORD]: looks whether the wrong bodies are found, by what build.py made with --wrong in
FOLDER and with --wrong --real in REAL.

Each crew gets so many seconds of a processor (10), or those whose name has the word. A crew is explored depth first with at
most so many preemptions (2), or, where it says `--pct`, by drawn priorities, with 3, 4 and 5 of them in turn. A line is
printed for each, and the schedule of what was found. With `--gate` it is the crews that say so. The status is 0 where nothing
was found.
"""
import os
import re
import subprocess
import sys

HERE = os.path.dirname(os.path.realpath(__file__))


def crews():
    for line in open(f"{HERE}/crews.txt"):
        if line.strip() and not line.startswith("#"):
            name, _, rest = line.strip().partition(" ")
            flags, _, words = rest.partition("-- ")
            yield name, flags.split(), words.split()


def ways(flags, bound):
    """The flags of each exploration of a crew: of each allocation that fails, and of each number of priorities."""
    if "--pct" in flags:
        rest = [it for it in flags if it != "--pct"]
        return [[*rest, f"--pct={d}"] for d in (3, 4, 5)]
    return [[*flags, f"--bound={bound}"]]


def explore(program, flags, words, seconds):
    """What one crew comes to: its verdicts, and how many schedules and steps."""
    total = {"runs": 0, "steps": 0, "gave up": 0}
    found, said, whole = {}, "", True
    if any("*" in it for it in flags):
        seconds = seconds / 8
    for n in range(400):
        now = [it.replace("*", str(n)) for it in flags]
        ran = subprocess.run([program, *now, f"--seconds={seconds}", "--", *words], capture_output=True, text=True)
        one = re.search(r"^(\d+) runs, (\d+) steps, ([\d.]+) s, ([\w ]+):(.*), longest", ran.stdout, re.M)
        if not one:
            return total, {"fault": 1}, ran.stdout + ran.stderr, False
        for key, it in zip(total, (*one.group(1, 2), re.search(r"gave up (\d+)", ran.stdout).group(1))):
            total[key] += int(it)
        whole = whole and one.group(4) == "whole"
        for count, verdict in re.findall(r"(\d+) (\w+)", one.group(5)):
            found[verdict] = found.get(verdict, 0) + int(count)
        said += ran.stderr
        asked = re.search(r"asked (\d+)", ran.stdout)
        if now == flags or not asked or n >= int(asked.group(1)):
            break
    return total, found, said, whole


def wrong_bodies(folder, real, only, seconds):
    """Looks whether each wrong body is found by what wrong.txt says. The number of those that aren't."""
    names = sorted(it.removesuffix(".edit") for it in os.listdir(f"{HERE}/wrong"))
    known, faults = {name: (flags, words) for name, flags, words in crews()}, 0
    for line in open(f"{HERE}/wrong.txt"):
        if not line.strip() or line.startswith("#"):
            continue
        name, verdict, *rest = line.split()
        number = names.index(name) + 1
        names[number - 1] = ""
        if only not in name:
            continue
        if verdict == "nothing:":
            print(f"-: {name}: not to be seen")
            continue
        crew, bound = rest
        flags, words = known[crew]
        program = f"{real if crew == 'turns' else folder}/explore"
        way = [it for it in flags if it not in ("--pct", "--gate")] + [f"--wrong={number}"]
        way += ["--pct=3" if bound == "pct" else f"--bound={bound}"]
        total, found, said, _ = explore(program, way, words, seconds)
        right = found.get(verdict)
        faults += not right
        others = ", ".join(f"{count} {it}" for it, count in found.items())
        print(f"{'ok' if right else 'WRONG'}: {name}: {verdict} in {crew} after {total['runs']} schedules ({others})", flush=True)
    for name in names:
        if name:
            print(f"WRONG: {name}: not in wrong.txt")
            faults += 1
    return faults


def main():
    given = sys.argv[1:]
    seconds, gate, bound, wrong, left = 10, False, 2, False, []
    while given:
        word = given.pop(0)
        if word == "--seconds":
            seconds = float(given.pop(0))
        elif word == "--gate":
            gate = True
        elif word == "--bound":
            bound = int(given.pop(0))
        elif word == "--wrong":
            wrong = True
        else:
            left.append(word)
    if not left:
        sys.exit(__doc__)
    if wrong:
        sys.exit(wrong_bodies(left[0], left[1], left[2] if len(left) > 2 else "", seconds) > 0)
    program, only = f"{left[0]}/explore", left[1] if len(left) > 1 else ""
    faults, all_runs = 0, 0
    for name, flags, words in crews():
        if only not in name or name == "turns" or gate and "--gate" not in flags:
            continue
        flags = [it for it in flags if it != "--gate"]
        for way in ways(flags, bound):
            total, found, said, whole = explore(program, way, words, seconds / 3 if "--pct" in flags else seconds)
            wrong = {it: count for it, count in found.items() if it not in ("fine", "late", "cut")}
            faults += bool(wrong)
            all_runs += total["runs"]
            how = next(it for it in way if it.startswith(("--pct", "--bound")))[2:]
            text = ", ".join(f"{count} {it}" for it, count in found.items())
            if total["gave up"]:
                text += f"; {total['gave up']} gave up with a reason"
            end = "all" if whole and "bound" in how else "cut off" if "bound" in how else "drawn"
            print(f"{'WRONG' if wrong else 'ok'}: {name} ({how}, {end}): {total['runs']} schedules, {total['steps']} steps: {text}", flush=True)
            if wrong:
                print(said, end="")
    print(f"{all_runs} schedules, {faults} with a fault")
    sys.exit(faults > 0)


if __name__ == "__main__":
    main()
