"""Workers on one tuple space, whose calls come in every order and who stop at every place.

A worker is a generator that yields calls, as ("inp", template), and is sent their answers, or what it looks at of them. It
may also yield notes, which say what it does from then on. A worker that stops for good, or for long, is one whose next call
doesn't come.
"""

from typing import NamedTuple

# Fields of templates: any value, any number, any text.
ANY, INT, TEXT = object(), int, str
# So many tuples are read at once at most.
MOST = 64


class Broken(Exception):
    """A promise that doesn't hold."""


def hold(promise, *facts):
    if not promise:
        raise Broken(*facts)


def matches(template, values):
    return len(template) == len(values) and all(
        field is ANY or (type(value) is field if field in (INT, TEXT) else value == field)
        for field, value in zip(template, values)
    )


def answered(space, call):
    """The space after a call, its tuples in order of age, and the answer: None for absent, True for swapped true."""
    if isinstance(call, Viewed):
        space, answer = answered(space, call.call)
        return space, call.view(answer)
    word, template, *put = call
    if word == "out":
        return (*space, template), None
    found = [it for it in space if matches(template, it)]
    if word == "rdAll":
        return space, tuple(found[:MOST])
    if word == "cas":
        return (space, False) if found else ((*space, *put), True)
    if word == "inp" and found:
        at = space.index(found[0])
        space = space[:at] + space[at + 1 :]
    return space, found[0] if found else None


class Viewed(NamedTuple):
    """A call of whose answer a worker looks at this much. The less it is, the fewer states there are."""

    call: tuple
    view: callable


def viewed(view, *call):
    return Viewed(call, view)


def unseen(*call):
    """A call whose answer doesn't matter."""
    return Viewed(call, lambda _answer: None)


class Note(NamedTuple):
    what: str
    about: tuple


def note(what, *about):
    return Note(what, about)


def noted(notes, what):
    return [it.about for it in notes if it.what == what]


def resume(worker, answers):
    """A worker's next call after these answers, or None at its end, and its notes until then."""
    run, notes, left = worker(), [], list(answers)
    try:
        step = next(run)
        while isinstance(step, Note) or left:
            if isinstance(step, Note):
                notes.append(step)
                step = next(run)
            else:
                step = run.send(left.pop(0))
        return step, tuple(notes)
    except StopIteration:
        return None, tuple(notes)


def run_alone(space, worker):
    """Runs a worker to its end, and returns its notes."""
    answers = []
    while True:
        call, notes = resume(worker, answers)
        if call is None:
            return notes
        space, answer = answered(space, call)
        answers.append(answer)


class Trial(NamedTuple):
    """Workers by their names on a space of these tuples, and what has to hold in each state that they come to.

    `promise` is given the space, the notes of each worker by its name, and what was put until then, in its order if that is
    asked for. From each state the heir goes on alone, as if all others had died there: `promise_of_heir` is
    given its notes, and those of the others.
    """

    start: tuple
    workers: dict
    promise: callable
    heir: callable
    promise_of_heir: callable
    is_in_order: bool = False


def try_all(trial):
    """Goes through all states, and returns how many there are."""
    names, known = [*trial.workers], {}

    def at(name, answers):
        if (name, answers) not in known:
            known[name, answers] = resume(trial.workers[name], answers)
        return known[name, answers]

    first = trial.start, ((),) * len(names), ()
    seen, left = {first}, [first]
    while left:
        space, answers, puts = left.pop()
        states = [at(*it) for it in zip(names, answers)]
        notes = {name: it for name, (_, it) in zip(names, states)}
        trial.promise(space, notes, puts)
        trial.promise_of_heir(run_alone(space, trial.heir), notes)
        for place, (call, _) in enumerate(states):
            if call is None:
                continue
            after, answer = answered(space, call)
            told = (*answers[:place], (*answers[place], answer), *answers[place + 1 :])
            now = (*puts, *(it for it in after if it not in space))
            state = after, told, now if trial.is_in_order else tuple(sorted({*now}))
            if state not in seen:
                seen.add(state)
                left.append(state)
    return len(seen)
