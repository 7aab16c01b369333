"""The reads of a kernel and what an analyser says of them as maps for isl, which finds their dataflow by itself, for all sizes. Needs
Debian's libisl-dev and a C compiler."""
import pathlib
import subprocess
import tempfile

from lexmin import Floor, Form

TOOL = pathlib.Path(__file__).resolve().parent / "isl_flow.c"


def said(form):
    """A form of whole numbers in isl's notation."""
    terms = [f"{number}*{f'floor(({said(atom.form())})/{atom.divisor})' if isinstance(atom, Floor) else atom}" for atom, number in form.terms.items()]
    return " + ".join([*terms, str(form.constant)])


def relation(own):
    form = own.form.whole()[0]
    return f"{said(form)} {'=' if own.kind == '==' else own.kind} 0"


def head(kernel):
    return f"[{', '.join(kernel.sizes)}] -> " if kernel.sizes else ""


def union(kernel, parts):
    return f"{head(kernel)}{{ {'; '.join(parts)} }}"


def instance(statement):
    return f"S{statement.number}[{', '.join(statement.variables)}]"


def strides(statement):
    """That the variables of loops that step by more than 1 are among their numbers."""
    for place, loop in enumerate(statement.loops):
        if abs(loop.step) > 1:
            yield f"exists (t{place} : t{place} >= 0 and {loop.variable} = {said(loop.first() + Form({f't{place}': 1}) * loop.step)})"


def domain(kernel, statement, case):
    """The turns of a statement in a case, as constraints."""
    held = [relation(it) for loop in statement.loops for it in loop.domain()]
    held += [relation(it) for it in (*kernel.known, *case.relations)]
    return " and ".join([*held, *strides(statement), *(f"{size} >= 0" for size in kernel.sizes)]) or "true"


def element(access):
    return f"{access.array}[{', '.join(map(said, access.subscripts))}]"


def written(kernel, array):
    """Which instances write which elements of an array."""
    return union(kernel, [f"{instance(it)} -> {element(it.writes)} : {domain(kernel, it, case)}"
                          for it in kernel.writers(array) for case in it.cases])


def schedule(kernel):
    """The time of each instance."""
    made = []
    for it in kernel.statements:
        turns = [said(Form({loop.variable: 1 if loop.step > 0 else -1})) for loop in it.loops]
        time = [own for pair in zip(map(str, it.places), [*turns, "0"]) for own in pair]
        time += ["0"] * (2 * kernel.depth + 2 - len(time))
        made.append(f"{instance(it)} -> [{', '.join(time)}]")
    return union(kernel, made)


def answered(source):
    """What is said of a read, in its case: from each reading instance to the one that wrote last what it reads."""
    kernel, made = source.kernel, []
    for piece in source.answer.pieces() if source.answer else []:
        if piece.point is None:
            continue
        point = {name: form.substitute(source.counters) for name, form in piece.point}
        writer = kernel.statements[int(point["statement.number"].constant)]
        own = [f"o{place}" for place in range(len(writer.loops))]
        held = [relation(it) for it in source.case.relations]
        for condition in piece.conditions:
            held.append(f"{said(condition.substitute(source.counters).whole()[0])} >= 0")
        for place, name in enumerate(own):
            whole, common = point[f"value.{place}"].whole()
            held.append(f"{common}*{name} = {said(whole)}")
        text = " and ".join(held) or "true"
        for name, form, divisor in reversed(piece.quotients):
            whole, common = form.substitute(source.counters).whole()
            text = f"exists ({name} = floor(({said(whole)})/{divisor * common}) : {text})"
        made.append(f"{instance(source.statement)} -> S{writer.number}[{', '.join(own)}] : {text}")
    return made


def is_certain(writer):
    return writer.writes.is_affine and not any(case.doubts for case in writer.cases)


def lines(kernel, sources):
    """A line for isl_flow.c of each read of an array that the kernel writes, with affine subscripts and conditions."""
    found = {}
    for source in sources:
        found.setdefault((source.statement.number, source.read), []).append(source)
    for own in found.values():
        statement, access = own[0].statement, own[0].statement.reads[own[0].read]
        writers = kernel.writers(access.array)
        if writers and access.is_affine and all(map(is_certain, writers)):
            reads = union(kernel, [f"{instance(statement)} -> {element(access)} : {domain(kernel, statement, case)}" for case in statement.cases])
            maps = union(kernel, [it for source in own for it in answered(source)])
            yield "\t".join([reads, written(kernel, access.array), schedule(kernel), maps])


def verdicts(found):
    """What isl says of each line."""
    with tempfile.TemporaryDirectory() as folder:
        tool = pathlib.Path(folder) / "isl_flow"
        subprocess.run(["cc", "-O1", "-o", tool, TOOL, "-lisl"], check=True)
        return subprocess.run([tool], input="\n".join(found) + "\n", capture_output=True, text=True, check=True).stdout.split()
