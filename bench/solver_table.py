"""Runs the solvers over the problems of a folder, and prints for each family what they took."""
import os
import re
import subprocess
import sys

PROGRAM, FOLDER = sys.argv[1:3]
SAT4J = "/usr/share/java/org.sat4j.pb.jar"
LIMIT = 120


def is_there(word):
    return any(os.access(os.path.join(path, word), os.X_OK) for path in os.environ["PATH"].split(":"))


def solvers():
    """Names, words, and endings of the problem's file, which ours takes as its standard input."""
    yield "ours", [PROGRAM], ".p2"
    if is_there("clasp"):
        yield "clasp", ["clasp", "--stats"], ".opb"
    if is_there("java") and os.path.exists(SAT4J):
        yield "sat4j", ["java", "-jar", SAT4J], ".opb"


def run(words, path):
    """CPU seconds, peak memory in MB, the answer's first letters, and the conflicts, from one run."""
    ours = path.endswith(".p2")
    words = ["timeout", str(LIMIT)] + words + ([] if ours else [path])
    with open(path) as text:
        process = subprocess.Popen(words, stdin=text, stdout=subprocess.PIPE, stderr=subprocess.DEVNULL, text=True)
        out = process.stdout.read()
        _, _, usage = os.wait4(process.pid, 0)
    answer = re.search(r"^(?:s )?(sat|unsat|spent)", out, re.M | re.I)
    conflicts = re.search(r"^(?:c )?conflicts\s*:\s*(\d+)", out, re.M | re.I)
    return {
        "seconds": usage.ru_utime + usage.ru_stime,
        "memory": usage.ru_maxrss / 1024,
        "answer": answer.group(1).lower() if answer else "none",
        "conflicts": int(conflicts.group(1)) if conflicts else None,
    }


def best(words, path):
    """Of three runs the one with the fewest CPU seconds, and of a long one the first."""
    runs = [run(words, path)]
    while len(runs) < 3 and runs[0]["seconds"] < 2:
        runs.append(run(words, path))
    return min(runs, key=lambda one: one["seconds"])


def middle(numbers):
    return sorted(numbers)[len(numbers) // 2]


def middle_and_most(numbers, form):
    """Of those that are known: our model comes without the number of its conflicts."""
    known = [number for number in numbers if number is not None]
    return f"{middle(known):{form}}, {max(known):{form}}" if known else "not told"


def main():
    names = sorted(name[:-3] for name in os.listdir(FOLDER) if name.endswith(".p2"))
    chosen = [name for name in names if len(sys.argv) < 4 or re.match(sys.argv[3], name)]
    families = {}
    for name in chosen:
        row = {solver: best(words, os.path.join(FOLDER, name + ending)) for solver, words, ending in solvers()}
        families.setdefault(re.sub(r"_\d\d$", "", name), []).append(row)
        parts = [f"{solver} {it['seconds']:.3f} s, conflicts {it['conflicts']}, {it['memory']:.0f} MB, {it['answer']}" for solver, it in row.items()]
        print(f"{name}: " + "; ".join(parts), flush=True)
    print()
    print("| family | solver | answers | CPU seconds, middle and most | to clasp's, middle and most | conflicts, middle and most | peak memory |")
    print("|---|---|---|---|---|---|---|")
    for family, rows in families.items():
        for solver in rows[0]:
            its = [row[solver] for row in rows]
            seconds = [it["seconds"] for it in its]
            ratios = [row[solver]["seconds"] / row["clasp"]["seconds"] for row in rows] if "clasp" in rows[0] else []
            conflicts = [it["conflicts"] for it in its]
            answers = ", ".join(f"{sum(it['answer'] == word for it in its)} {word}" for word in sorted({it["answer"] for it in its}))
            print(f"| {family} | {solver} | {answers} | {middle_and_most(seconds, '.3f')} | {middle_and_most(ratios, '.1f')} | {middle_and_most(conflicts, 'd')} | {max(it['memory'] for it in its):.0f} MB |")


main()
