"""The program, asked from Python."""
from __future__ import annotations

import functools
import itertools
import os
import signal
from collections import deque
from typing import Any, Deque, Dict, Iterable, Iterator, List, Optional, Sequence, Tuple, TypeVar, Union

from .answers import Answer, AnswerBySigns, checked_answer
from .forms import each, of_kind, whole_number
from .problems import Posed, Problem, checked_problem, numbers_over
from .processes import Pool, Refused, Runs, TimedOut, checked_seconds
from .prepare import prepared
from .refutations import NotCertified, Obligations, steps_of
from .shorten import QUESTIONS, SECONDS, Shortener
from .texts import MOST_BYTES, Fault, native
from .trees import Bottom, Point, Void, answer_text, as_bytes, as_text, is_one_group, parse_answer


MOST_BATCH_BYTES = 4_000_000  # of the texts that one `same` reads
MOST_BUDGETS = {"pivots": 1_000_000_000, "cuts": 1_000_000, "splits": 1_000_000, "nesting": 200}  # what the program takes


class Solver:
    """The program, kept open: a process answers one problem after the other until one is refused, and the next problem gets
    another. Each call under way has a process of its own, so a call may begin while the answers of `solve_all` are still
    being taken, and threads may share a Solver.

    `program` is a file, as `./pip`, that of the folder in which the Solver is made; a text without a folder, as `pip-solve`, is
    looked for on the path.

    `simplify` asks for simplified answers. `pivots`, `cuts`, `splits`, `nesting` are the budgets of a problem, the
    program's own where none is given; a stranger's problems should have some. `timeout` is the seconds that a problem
    may take, above 0, or None; of each other command too. A Solver ends its processes by `close`, at the end of a `with`, or where
    neither it nor an answer of it is left; a call that is under way then fails, in another thread too. What comes of a pickled
    Solver, or of that of a pickled answer, has processes of its own, and so has a fork; a call that was begun before it is read on
    by the other process alone.

    `prepare=True` takes equalities out of each problem before it is solved, `prepare="when refused"` out of those that were
    refused or late. The answer is put back here, in Python, and then `check` is asked whether it is right: its `checked` says
    what came of that. `check` knows whole problems alone: a rational one is prepared only where it is refused or late, and
    `checked` is then False."""

    def __init__(self, program: Union[str, os.PathLike[str]], *, simplify: bool = False, pivots: Optional[int] = None,
                 cuts: Optional[int] = None, splits: Optional[int] = None, nesting: Optional[int] = None,
                 timeout: Optional[float] = None, prepare: Union[bool, str] = False) -> None:
        if prepare is not False and prepare is not True and prepare != "when refused":
            raise ValueError(f"prepare is True, False or 'when refused', not {prepare!r}")
        self.program, self.prepare, self.simplify = standing(program), prepare, of_kind(simplify, bool, "simplify is True or False")
        self.timeout = checked_seconds(timeout)
        given = {"pivots": pivots, "cuts": cuts, "splits": splits, "nesting": nesting}
        self.budgets = {name: checked_budget(name, most) for name, most in given.items()}
        words = self.budget_words(list(self.budgets))
        plain = [self.program, "solve", *words, *(["--simplify"] if simplify else [])]
        self._plain = Pool(plain, 1, self.timeout)
        self._certified = Pool([self.program, "solve", "--certificate", *words], 2, self.timeout)
        self._questions = Pool([self.program, "solve", "--pivots", "1000", "--cuts", "60"], 1, self.timeout)
        self._runs = Runs()

    def __enter__(self) -> Solver:
        return self

    def __exit__(self, *_: object) -> None:
        self.close()

    def __repr__(self) -> str:
        return f"Solver({self.program!r})"

    def __reduce__(self) -> Tuple[object, ...]:
        words: Dict[str, Any] = {"simplify": self.simplify, "timeout": self.timeout, "prepare": self.prepare, **self.budgets}
        return functools.partial(Solver, self.program, **words), ()

    def close(self) -> None:
        """Ends the processes. A later call begins others."""
        self._plain.stop()
        self._certified.stop()
        self._questions.stop()
        self._runs.stop()

    def budget_words(self, names: Sequence[str]) -> List[str]:
        """The words of the budgets of these names, as far as they were given."""
        what = f"names of budgets are wanted, of {', '.join(MOST_BUDGETS)}"
        words: List[str] = []
        for name in each(names, what):
            if of_kind(name, str, what) not in self.budgets:
                raise ValueError(f"{what}, not {name!r}")
            if self.budgets[name] is not None:
                words += [f"--{name}", str(self.budgets[name])]
        return words

    def solve(self, problem: Problem) -> Answer:
        """The answer to a problem; Refused where the program refuses it."""
        return _only(self.solve_all([problem]))

    def solve_all(self, problems: Iterable[Problem]) -> Iterator[Union[Answer, Refused]]:
        """What comes of each problem, in order: its answer, or its refusal (not raised, so that the others go on).
        Several problems are under way at a time: up to 64 are read before the first answer is given out. What reading them
        raises is raised behind the answers to those that were read."""
        if self.prepare is True:
            yield from map(self._solve_prepared, _taken(problems))
            return
        source = _Source(problems)
        for found in self._plain.answers(source.texts()):
            posed = source.taken.popleft()
            if not isinstance(found, Refused):
                yield Answer(posed, found[0] + "\n", solver=self)
            else:
                made = self._prepared(posed) if self.prepare else None
                yield found if made is None else made
        source.end()

    def _solve_prepared(self, posed: Posed) -> Union[Answer, Refused]:
        made = self._prepared(posed) if posed.integer else None
        if made is not None:
            return made
        found, = self._plain.answers([posed.text])
        if not isinstance(found, Refused):
            return Answer(posed, found[0] + "\n", solver=self)
        made = None if posed.integer else self._prepared(posed)
        return found if made is None else made

    def _prepared(self, posed: Posed) -> Optional[Answer]:
        """The answer by the problem made smaller; none where nothing can be taken out, or that is refused too."""
        text = self.ask_prepared(posed.text)
        return None if text is None else Answer(posed, text, solver=self, checked=self.proves(posed.text, text))

    def ask_prepared(self, text: str) -> Optional[str]:
        """The answer to a native text of one problem, by the problem made smaller: put back, and not checked. None where nothing
        can be taken out, or the program does not read the text or refuses the smaller one."""
        of_kind(text, str, "a text is wanted")
        try:
            found = list(native(as_bytes(text)))
        except Fault:
            return None
        if len(found) != 1:
            raise ValueError("a text of one problem is wanted")
        problem = found[0]
        made = prepared(problem)
        if made is None or made.text is None:
            return None
        answer, = self._plain.answers([made.text])
        if isinstance(answer, Refused):
            return None
        return answer_text(problem.comment, made.put_back(parse_answer(answer[0])[1]))

    def proves(self, text: str, answer: str) -> bool:
        """Whether `check` accepts an answer to a problem, given as texts, with a certificate that is made for it."""
        try:
            return self.check([(text, answer, self.certificate(text, answer))]) == [None]
        except NotCertified:
            return False

    def certificate(self, text: str, answer: str) -> str:
        """A certificate of an answer to a problem, given as texts, whoever made the answer; NotCertified where none is found.
        What it is worth `check` says."""
        joined([text, answer, "()"], "a problem and an answer")
        problem, = native(as_bytes(text))
        tree = parse_answer(answer)[1]
        needed = Obligations(problem, tree)
        steps = []
        for found in self._certified.answers(needed.questions()):
            if isinstance(found, Refused):
                raise NotCertified(f"a refutation was refused: {found}")
            if not isinstance(parse_answer(found[0])[1], Bottom):
                raise NotCertified("the answer is not right: there is a point that a refutation leaves")
            steps.append(steps_of(found[1]))
        vector: Optional[Sequence[int]] = [] if problem.parameters == 0 else None
        if problem.parameters and not isinstance(tree, Void):
            point = self._point(needed.context_question(), None)
            if not isinstance(point, tuple):
                raise NotCertified("no parameters of the context were found")
            vector = point
        return needed.certificate(None if isinstance(tree, Void) else vector, steps)

    def solve_by_signs(self, problem: Problem) -> AnswerBySigns:
        """The answer to a problem with parameters of either sign: a part for each choice of signs, 2^k for k of them."""
        return AnswerBySigns([_raised(found) for found in self.solve_all(checked_problem(problem).by_signs())])

    def ask(self, text: str) -> str:
        """The text of the answer to a native text of one problem."""
        return _only(self._plain.answers([text]))[0]

    def first_of(self, *answers: Answer) -> Answer:
        """The answer that has at all parameters of all contexts the lexicographically first of the answers' points, each
        unknown by its value: the least of a union, simplified. No point counts behind all others."""
        return self._together(answers, greatest=False)

    def last_of(self, *answers: Answer) -> Answer:
        """The same of the last point: the greatest of a union, as the last write of several writers."""
        return self._together(answers, greatest=True)

    def _together(self, answers: Sequence[Answer], greatest: bool) -> Answer:
        if not answers:
            raise ValueError("no answers")
        made = list(map(checked_answer, answers))
        while len(made) > 1:  # by pairs, each simplified: what chooses nothing would be asked for again and again
            pairs = zip(made[::2], made[1::2])
            made = [*(one.least(other, greatest=greatest).simplify() for one, other in pairs), *made[len(made) // 2 * 2:]]
        return made[0]

    # Shorter answers.

    def shorten(self, answer: Answer, *, questions: Optional[int] = QUESTIONS, seconds: Optional[float] = SECONDS) -> Answer:
        """An answer of the same values with fewer leaves: without each choice of which one side is right on both. `questions`
        and `seconds` are its limits, with None for none; when one is reached, what was found so far counts. The shorter answer
        is the result only where the program's `same` has said that it has the given one's values, which it is then known to
        have under the answer's context; else the given answer is."""
        made, = self.shorten_all([answer], questions=questions, seconds=seconds)
        return made

    def shorten_all(self, answers: Iterable[Answer], *, questions: Optional[int] = QUESTIONS,
                    seconds: Optional[float] = SECONDS) -> List[Answer]:
        """The same of each answer, in order, by one process that is asked about all of them, and by one `same` for all. The
        limits are those of each answer."""
        given = [checked_answer(answer) for answer in each(answers, "answers are wanted")]
        made = [self._shorter(answer, questions, seconds) for answer in given]
        changed = [place for place, (answer, own) in enumerate(zip(given, made)) if own.tree != answer.tree]
        trios = [(len(given[place].posed.parameters), given[place].posed.context_text(), given[place].text, made[place].text)
                 for place in changed]
        found = dict(zip(changed, self.same_all(trios)))
        return [own if found.get(place) else answer for place, (answer, own) in enumerate(zip(given, made))]

    def _shorter(self, answer: Answer, questions: Optional[int], seconds: Optional[float]) -> Answer:
        count = len(answer.posed.parameters)
        context = [(int(row[-1]), *map(int, row[:-1])) for row in (numbers_over(form, count) for form in answer.posed.context_rows())]
        tree = Shortener(self._point, questions, seconds).tree(context, count, answer.tree)
        return Answer(answer.posed, answer_text(parse_answer(answer.text)[0], tree), tree, self, answer.checked)

    def _point(self, text: str, seconds: Optional[float]) -> Union[Tuple[int, ...], None, bool]:
        found, = self._questions.answers([text], seconds)
        if isinstance(found, Refused):
            return False
        tree = parse_answer(found[0])[1]
        return tuple(int(row[-1]) for row in tree.components) if isinstance(tree, Point) else None

    def same_all(self, trios: Sequence[Tuple[int, str, str, str]]) -> List[bool]:
        """Whether `same` says `same` of each number of parameters, context and two answers, given as texts; a refusal is none.
        Those that follow each other and are over as many parameters are read by one process, as many as it takes."""
        given = [_counted(trio) for trio in each(trios, "a list is wanted")]
        verdicts: List[bool] = []
        for count, group in itertools.groupby(given, lambda it: it[0]):
            words = ["same", str(count), *self.budget_words(["pivots", "cuts", "splits"])]
            for batch in batches([text for _, text in group], MOST_BATCH_BYTES):
                verdicts += [found == "same" for found in self._lines(words, batch)]
        return verdicts

    def _lines(self, words: Sequence[str], texts: Sequence[str]) -> List[Union[str, Refused]]:
        """The line that a command writes of each text, or its refusal. One process reads them all. Where it refuses one another reads
        the rest; where it is late with all, others read the halves."""
        found: List[Union[str, Refused]] = []
        while len(found) < len(texts):
            rest = texts[len(found):]
            try:
                status, output, line = self._runs.run([self.program, *words], "".join(rest), self.timeout)
            except TimedOut as late:
                if len(rest) == 1:
                    return [*found, late]
                half = len(rest) // 2
                return [*found, *self._lines(words, rest[:half]), *self._lines(words, rest[half:])]
            said = as_text(output).split("\n")[:-1]  # (of a process that was ended the last line may be a part of one)
            if len(said) > len(rest):
                raise RuntimeError(f"{words[0]} wrote {len(said)} lines for {len(rest)} texts")
            found += said
            if len(said) < len(rest):
                found.append(Refused(status, line, rest[len(said)], sum(len(as_bytes(text)) for text in rest[:len(said)])))
        return found

    # Certificates.

    def certify(self, problem: Problem) -> Answer:
        """The answer to a whole problem, accepted by `check`. The answer is not simplified."""
        return _only(self.certify_all([problem]))

    def certify_all(self, problems: Iterable[Problem]) -> Iterator[Union[Answer, Refused]]:
        """What comes of each problem, in order: its answer, which `check` has accepted with its certificate, or the
        refusal of either command. `check` reads its whole input before it writes, so the answers come at the end."""
        source = _Source(problems)
        made: List[Union[Answer, Refused]] = []
        triples: List[Tuple[str, str, str]] = []
        for found in self._certified.answers(source.texts()):
            posed = source.taken.popleft()
            if isinstance(found, Refused):
                made.append(found)
            else:
                made.append(Answer(posed, found[0] + "\n", solver=self))
                triples.append((posed.text, found[0], found[1]))
        verdicts = iter(self.check(triples))
        for item in made:
            verdict = next(verdicts) if isinstance(item, Answer) else None
            if verdict is None and isinstance(item, Answer):
                item.checked = True
            yield item if verdict is None else verdict
        source.end()

    def check(self, triples: Iterable[Tuple[str, str, str]]) -> List[Optional[Refused]]:
        """What `check` says of each problem, answer and certificate: none where it accepts them, else its refusal, or that it was
        late with it. One process reads as many triples as it can."""
        texts = [joined(triple, "a problem, an answer and a certificate") for triple in each(triples, "a list of triples is wanted")]
        verdicts: List[Optional[Refused]] = []
        for batch in batches(texts, MOST_BYTES):
            for found in self._lines(["check"], batch):
                if isinstance(found, str) and found != "accepted":
                    raise RuntimeError(f"check wrote {found}")
                verdicts.append(found if isinstance(found, Refused) else None)
        return verdicts

    def run(self, words: Sequence[str], text: str) -> str:
        """What another command writes over a text, by a process of its own: `run(["pieces", "2"], answer.text)`. Refused where the
        program refuses it, or writes nothing of a text that has a bracket."""
        what = "the words of a command are wanted, as ['pieces', '2']"
        given = [of_kind(word, str, "a word of a command is a text") for word in each(words, what)]
        if isinstance(words, str):
            raise TypeError(f"{what}, not {words!r}")
        status, output, line = self._runs.run([self.program, *given], of_kind(text, str, "a text is wanted"), self.timeout)
        is_kept = signal.getsignal(signal.SIGCHLD) != signal.SIG_IGN  # (else the system keeps no status)
        if status != 0 or (line and not is_kept) or ("(" in text and not output):
            raise Refused(status, line, text)
        return as_text(output)


def standing(program: Union[str, os.PathLike[str]]) -> str:
    """The program by a path that stays its own where the process goes to another folder. A text without a folder is looked for on
    the path; a Path has none where it was made of `./pip`."""
    name = os.fspath(of_kind(program, (str, bytes, os.PathLike), "the program is a path"))
    folder, file = os.path.split(name)
    if os.path.isabs(name) or (isinstance(program, str) and not folder):
        return name
    return os.path.join(os.path.realpath(folder), file)


def checked_budget(name: str, most: Optional[int]) -> Optional[int]:
    if most is None:
        return None
    number = whole_number(most, f"{name} is a whole number, or None")
    if not 0 <= number <= MOST_BUDGETS[name]:
        raise ValueError(f"{name} is from 0 to {MOST_BUDGETS[name]}, not {number}")
    return number


class _Source:
    """The problems of a call. What is posed is in `taken` until its answer is there; what reading the problems raises is kept until
    the answers to those before it are given out."""

    def __init__(self, problems: Iterable[Problem]) -> None:
        self.taken: Deque[Posed] = deque()
        self._problems = problems
        self._error: Optional[Exception] = None

    def texts(self) -> Iterator[str]:
        try:
            for posed in _taken(self._problems):
                self.taken.append(posed)
                yield posed.text
        except Exception as error:
            self._error = error

    def end(self) -> None:
        if self._error is not None:
            raise self._error


def _taken(problems: Iterable[Problem]) -> Iterator[Posed]:
    for problem in each(problems, "problems are wanted, one after the other"):
        yield checked_problem(problem).posed()


_Found = TypeVar("_Found")


def _only(found: Iterator[Union[_Found, Refused]]) -> _Found:
    """What comes of the only text. The call is then at its end, and has given its process back."""
    first, = found
    return _raised(first)


def _raised(found: Union[_Found, Refused]) -> _Found:
    if isinstance(found, Refused):
        raise found
    return found


def _counted(trio: Iterable[Any]) -> Tuple[int, str]:
    """A number of parameters, and the texts of which `same` is asked."""
    what = "a number of parameters, a context and two answers are wanted"
    own = list(each(trio, what))
    return whole_number(own[0] if own else None, f"{what}, the number a whole one"), joined(own[1:], "a context and two answers")


def joined(given: Iterable[str], what: str) -> str:
    """Three texts that a command reads one after the other, each one group: else its verdict would be taken for that of the next."""
    texts = list(each(given, f"{what} are wanted"))
    if len(texts) != 3 or not all(map(is_one_group, texts)):
        raise ValueError(f"{what} are wanted, each one group of balanced brackets")
    return "\n".join(texts) + "\n"


def batches(texts: Iterable[str], most: int) -> Iterator[List[str]]:
    """The texts in lists, in order, each of so many bytes at most, or of one text."""
    batch: List[str] = []
    size = 0
    for text in texts:
        own = len(as_bytes(text))
        if batch and size + own > most:
            yield batch
            batch, size = [], 0
        batch.append(text)
        size += own
    if batch:
        yield batch
