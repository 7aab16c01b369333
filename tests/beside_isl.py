"""Compares what the client makes of sets in isl's notation, and of problems, with what isl finds. Needs Debian's libisl-dev and a C
compiler."""
import itertools
import pathlib
import random
import subprocess
import tempfile

from lexmin import Refused, Solver, TimedOut, notation
from lexmin.texts import native

TOP = pathlib.Path(__file__).resolve().parent.parent


def random_set(draw):
    """A set of one to three bounded unknowns over up to two parameters, in isl's notation."""
    parameters = ["N", "M"][:draw.randrange(3)]
    unknowns = ["i", "j", "k"][:draw.choice([1, 2, 2, 3])]

    def form(names):
        terms = [f"{draw.choice([1, 1, 2, 3, -1, -2])}*{name}" for name in names if draw.random() < 0.6]
        return " + ".join([*terms, str(draw.randrange(-4, 9))])

    def part():
        said = []
        for place, name in enumerate(unknowns):
            before = [*parameters, *unknowns[:place]]
            said.append(f"{name} >= {draw.choice(['0', '0', '1', str(draw.randrange(-6, 4)), form(before)])}")
            said.append(f"{name} <= {draw.choice([form(before), form(parameters), str(draw.randrange(3, 20))])}")
        names = [*parameters, *unknowns]
        for _ in range(draw.randrange(3)):
            said.append(draw.choice([
                lambda: f"{form(names)} >= 0", lambda: f"{form(names)} = {form(names)}",
                lambda: f"exists (e : {draw.choice(unknowns)} = {draw.randrange(2, 5)}e + {draw.randrange(3)})",
                lambda: f"({form(names)}) mod {draw.randrange(2, 5)} = {draw.randrange(2)}",
                lambda: f"{draw.choice(unknowns)} >= floor(({form(parameters)})/{draw.randrange(2, 5)})",
                lambda: f"{draw.choice(unknowns)} <= max({form(parameters)}, {form(names)})",
                lambda: f"{draw.choice(unknowns)} <= min({form(parameters)}, {form(parameters)})",
                lambda: f"not ({form(names)} {draw.choice(['=', '>=', '<'])} {form(names)})",
                lambda: f"not exists (e : {draw.choice(unknowns)} = {draw.randrange(2, 4)}e + {draw.randrange(3)})",
                lambda: f"({form(names)} >= 0 implies {form(names)} >= 0)",
                lambda: f"{form(names)}, {form(names)} {draw.choice(['<<', '<<=', '>>', '>>='])} {form(names)}, {form(names)}"])())
        return " and ".join(said)

    parts = [part() for _ in range(draw.choice([1, 1, 1, 2]))]
    head = f"[{', '.join(parameters)}] -> " if parameters else ""
    return f"{head}{{ [{', '.join(unknowns)}] : {' or '.join(f'({it})' for it in parts)} }}"


def random_sets(program, count):
    """Random sets with their answers, as lines for isl, and how many were refused how."""
    draw = random.Random(7)
    lines, refused = [], {}
    with Solver(program, pivots=20000, cuts=300) as solver:
        for _ in range(count):
            text, greatest = random_set(draw), draw.random() < 0.4
            try:
                answer = notation.solved(solver, text, greatest=greatest)
            except Refused as error:
                refused[error.line] = refused.get(error.line, 0) + 1
                continue
            names = list(answer.posed.parameters)
            held = f"[{', '.join(names)}] -> {{ : {' and '.join(f'{name} >= 0' for name in names) or 'true'} }}" if names else "{ : }"
            lines.append("\t".join(["greatest" if greatest else "least", text, held, notation.written(answer)]))
    return lines, refused


def as_set(problem):
    """A native problem as a set in isl's notation, its context, and what isl is to know of the parameters."""
    unknowns = [f"x{place}" for place in range(problem.unknowns)]
    parameters = [f"p{place}" for place in range(problem.parameters)]

    def rows(found, names):
        return [" + ".join([*(f"{number}*{name}" for number, name in zip(row, names) if number), str(row[-1])]) + " >= 0" for row in found]

    held = [f"{name} >= 0" for name in parameters]
    context = rows(problem.context, parameters)
    head = f"[{', '.join(parameters)}] -> " if parameters else ""
    own = [*(f"{name} >= 0" for name in unknowns), *rows(problem.rows, [*unknowns, *parameters])]
    return (f"{head}{{ [{', '.join(unknowns)}] : {' and '.join(own)} }}", " and ".join(context),
            f"{head}{{ : {' and '.join([*held, *context]) or 'true'} }}")


def native_problems(program, step):
    """Whether isl finds the answers to native problems, put in its notation and read from it, as they are: those of
    bench/problems, and each step-th real one."""
    total = dict.fromkeys(("same", "late", "other", "fault"), 0)
    paths = [(path, 1) for path in sorted((TOP / "bench/problems").glob("*.pip"))]
    paths += [(path, step) for path in sorted((TOP / "bench/problems/real").rglob("*.pip"))] if step else []
    for path, own in paths:
        problems = [problem for problem in native(path.read_bytes()) if problem.integer][::own]
        lines, refused = [], 0
        with Solver(program, pivots=20000, cuts=300, timeout=20) as solver:
            for problem in problems:
                text, context, held = as_set(problem)
                try:
                    lines.append("\t".join(["least", text, held, notation.written(notation.solved(solver, text, context=context))]))
                except (Refused, TimedOut):
                    refused += 1
        verdicts = says(lines) if lines else []
        for line, verdict in zip(lines, verdicts):
            total[verdict] += 1
            if verdict in ("other", "fault"):
                print(f"isl says {verdict}: {line[:400]}")
        print(f"{path.name}: of {len(problems)} {len(lines)} were answered, {verdicts.count('same')} as by isl, of {verdicts.count('late')} it does not say", flush=True)
    print(f"native problems in isl's notation: {total}", flush=True)
    return total["other"] + total["fault"] == 0


def says(lines):
    with tempfile.TemporaryDirectory() as folder:
        tool = pathlib.Path(folder) / "isl_same"
        subprocess.run(["cc", "-O1", "-o", tool, TOP / "tests/isl_same.c", "-lisl"], check=True)
        return subprocess.run([tool], input="\n".join(lines) + "\n", capture_output=True, text=True, check=True).stdout.split()


def pieces(texts):
    """How many pieces isl finds of each problem, none where it is rational or takes isl too many operations; none at all
    without isl and a C compiler."""
    problems = [next(native(text.encode())) for text in texts]
    lines = []
    for problem in problems:
        own = [problem.unknowns, problem.parameters, len(problem.rows), len(problem.context)]
        for row in problem.rows:  # the constant stands behind the unknowns there
            own += [*row[:problem.unknowns], row[-1], *row[problem.unknowns:-1]]
        lines.append(" ".join(map(str, [*own, *itertools.chain(*problem.context)])))
    with tempfile.TemporaryDirectory() as folder:
        tool = pathlib.Path(folder) / "isl_pieces"
        if subprocess.run(["cc", "-O1", "-o", tool, TOP / "tests/isl_pieces.c", "-lisl"], capture_output=True).returncode != 0:
            return None
        found = subprocess.run([tool], input="\n".join(lines) + "\n0\n", capture_output=True, text=True, check=True).stdout.split()
    return [int(count) if problem.integer and int(count) >= 0 else None for problem, count in zip(problems, found)]
