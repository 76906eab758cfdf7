"""Writes the problems of the solver's measurements into a folder, each as NAME.p2 and NAME.opb."""
import os
import sys


class Dice:
    """The minimal standard generator of Park and Miller."""

    def __init__(self, seed):
        self.state = seed * 1000003 % 2147483646 + 1

    def below(self, bound):
        self.state = self.state * 48271 % 2147483647
        return self.state % bound


def version(unit, number):
    """The variable of one of a unit's five versions."""
    return 5 * unit + number + 1


def universe(ids, layers, roots, tenths, seed, only_later=True):
    """Constraints over ids of five versions. Some ids are wanted, of each at most one version can be, and each version
    has so many tenths of a requirement, one of three versions of other ids. With `only_later` these are of the next
    layer, and the last layer requires nothing; else they are any."""
    dice = Dice(seed)
    width = ids // layers
    constraints = []
    for _ in range(roots):
        wanted = dice.below(width)
        constraints.append(([version(wanted, number) for number in range(5)], 1))
    for unit in range(ids):
        constraints.append(([-version(unit, number) for number in range(5)], 4))
    for unit in range(ids):
        first, count = ((unit // width + 1) * width, width) if only_later else (0, ids)
        if first >= ids:
            continue
        for number in range(5):
            for _ in range(tenths // 10 + (dice.below(10) < tenths % 10)):
                providers = []
                while len(providers) < 3:
                    other = first + dice.below(count)
                    provider = version(other, dice.below(5))
                    if other != unit and provider not in providers:
                        providers.append(provider)
                constraints.append((sorted([-version(unit, number)] + providers, key=abs), 1))
    return 5 * ids, constraints


def few(variables):
    """Many variables in few constraints."""
    return variables, [([first, first + 1, first + 2], 2) for first in range(1, variables, variables // 10)]


def problems():
    """Names and problems."""
    for tenths in (10, 16, 18):
        for seed in range(1, 13):
            yield f"layers_{tenths}_{seed:02}", universe(510 + 90 * seed, 10, 10, tenths, seed)
    for seed in range(1, 13):
        yield f"tight_{seed:02}", universe(22 + 2 * seed, 1, 5, 50, seed, only_later=False)
    yield "terms", universe(27000, 5, 10, 20, 1)
    yield "few", few(60000)


def as_evidence(variables, constraints):
    lines = [f"problem {variables} {len(constraints)}"]
    lines += [f"v x/{variable}" for variable in range(1, variables + 1)]
    for literals, degree in constraints:
        lines.append(f"c need:1:1 {degree} " + " ".join(f"1:{literal}" for literal in literals))
    return lines + ["derivation 0"]


def as_opb(variables, constraints):
    lines = [f"* #variable= {variables} #constraint= {len(constraints)}"]
    for literals, degree in constraints:
        terms = " ".join(f"{'+1' if literal > 0 else '-1'} x{abs(literal)}" for literal in literals)
        lines.append(f"{terms} >= {degree - sum(literal < 0 for literal in literals)} ;")
    return lines


def main():
    folder = sys.argv[1]
    for name, problem in problems():
        for ending, form in ((".p2", as_evidence), (".opb", as_opb)):
            with open(os.path.join(folder, name + ending), "w") as file:
                file.write("\n".join(form(*problem)) + "\n")


main()
