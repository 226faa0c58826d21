"""Every order of the steps that a few threads take: workers put and one thread, the caller, gets, through a queue of a place or two.

Each atomic step is one step here. Those of the threads that wait are read from the code; those of the queue below are written here. So a
try fails where the queue is full or empty, and also where another thread is in the way: where it has claimed a place and not yet stamped
it, or claims the place first. No order may end with a thread that waits, as each outcome that is put is got.
"""

import operator
from collections import namedtuple

COMPARISONS = {"==": operator.eq, "!=": operator.ne, "<=": operator.le, ">=": operator.ge, "<": operator.lt, ">": operator.gt}
# The lists of waiters: that of the one that gets, and that of those who put.
LISTS = ["getters", "putters"]
# A try below the code, in its steps.
TRY = ["read_end", "read_stamp", "claim", "stamp"]
LOST = "a thread sleeps beside what it waits for"
# How many outcomes each worker puts, how many the caller gets, how many places there are, whether a try is made in its steps or at
# once, and how many sleeps end for no reason. Where a try is made in steps, all are got, as a worker to which another was in the way may
# wait for the next get.
Few = namedtuple("Few", "puts gets places in_steps for_no_reason", defaults=[0])
# The ends of the queue; the stamps of its places, even where an outcome is due to be put and odd where one is due to be got; the word of
# the one that gets and that of those who put; how many sleeps may still end for no reason; and the threads, the one that gets first.
State = namedtuple("State", "tail head stamps words for_no_reason threads")
# The steps that come next; the end that was read; whether it was announced in this wait, and sleeps; and how many outcomes are left.
Thread = namedtuple("Thread", "steps end announced sleeps left")


def with_owed(functions):
    """Returns the steps of each function. A wake-up goes to those to whom the try before it owes it."""
    found = {name: steps for name, (_, _, steps) in functions.items()}
    owed = {"put": found["try_put"], "put_later": found["try_put"], "get": found["try_get"], "get_soon": found["try_get"]}
    for name, [owe] in owed.items():
        found[name] = [owe._replace(name="send", under=step.under) if step.name == "send" else step for step in found[name]]
    found["drop"] = [step._replace(name="send") for step in found["drop"]]
    return found


def taken(steps, condition):
    """The steps under a condition."""
    return [step for step in steps if step.under == condition]


def expanded(steps, code, own):
    """The atomic steps that some steps are, by the functions of the code: of each its name, its list of waiters, and its operands. Where
    the code names none, the list is the thread's own."""
    for name, operands, _ in steps:
        if name == "send":
            yield from expanded(code[name], code, LISTS.index(operands[0]) if operands[0] in LISTS else own)
        else:
            yield from ((below, own, *map(value, operands)) for below in (TRY if name == "try" else [name]))


def value(operand):
    return int(operand) if operand.isdigit() else operand


class Side:
    """The steps of those who put, or of the one that gets, with a mistake or without."""

    def __init__(self, own, code, in_steps, mistake=None):
        code = {**code, "own": code[own]}
        if mistake:
            function, change = mistake
            code[function] = change(code[function])
        steps = code["own"]
        names = [step.name for step in steps]
        self.waits_in = LISTS.index(steps[names.index("start")].operands[0])

        def atomic(steps):
            return tuple(expanded(steps, code, self.waits_in))

        self.tries = atomic(step if in_steps else step._replace(name="try_at_once") for step in steps if step.name == "try")
        # A pause first spins, which is no step, then announces the thread, and then sleeps.
        self.enters, self.sleeps = (atomic(taken(code["pause"], condition)) for condition in ("spun", "announced"))
        self.drops = atomic(code["drop"])
        # The end of a wait drops it first, and then wakes the other side.
        self.has = atomic(step for step in steps[names.index("try") + 1:names.index("pause")] if step.name in ("drop", "send"))


def failed(thread, side):
    """A try has failed: the thread pauses and then tries again."""
    return thread._replace(steps=(side.sleeps if thread.announced else side.enters) + side.tries)


def went_on(thread, side):
    """The thread has done its last step: it tries for the next outcome, if any is left."""
    left = thread.left - 1
    return Thread(side.tries if left else (), 0, False, False, left)


def compared(thread, word, comparison, number):
    """The thread after a comparison with a word: if it fails, it goes on behind the wake-up, which is not needed."""
    steps = thread.steps
    while not COMPARISONS[comparison](word, number) and steps and steps[0][0] in ("swap", "wake"):
        steps = steps[1:]
    return thread._replace(steps=steps)


class Orders:
    """The orders of the steps of a few threads, with those of the code or with a mistake in those of the caller or of the workers."""

    def __init__(self, few, code, of_caller=None, of_workers=None):
        self.few, self.places = few, few.places
        self.sides = Side("get", code, few.in_steps, of_caller), Side("put_later", code, few.in_steps, of_workers)
        self.word = value(code["Waiters::new"][0].operands[0])

    def start(self):
        gets, puts = self.sides
        caller = self.alone(Thread(gets.tries, 0, False, False, self.few.gets), gets, 0)
        workers = (Thread(puts.tries, 0, False, False, left) for left in sorted(self.few.puts))
        return State(0, 0, tuple(2 * at for at in range(self.places)), (self.word, self.word), self.few.for_no_reason,
                     (caller, *workers))

    def alone(self, thread, side, head):
        """The thread after all next steps that no other can see: the caller reads its end of the queue, a wait is dropped."""
        while thread.steps:
            name, _, *operands = thread.steps[0]
            rest = thread.steps[1:]
            if name == "read_end" and side is self.sides[0]:
                thread = thread._replace(steps=rest, end=head)
            elif name == "drop":
                thread = thread._replace(steps=(side.drops if thread.announced else ()) + rest, announced=False)
            else:
                break
        return thread

    def after(self, state, i):
        """Yields the states to which the next step of thread i leads."""
        thread = state.threads[i]
        if thread.sleeps:
            if state.for_no_reason:
                yield self.reached(state, i, thread._replace(sleeps=False), for_no_reason=state.for_no_reason - 1)
        elif thread.steps:
            step, *about = thread.steps[0]
            take = self.in_queue if step in (*TRY, "try_at_once") else self.in_wait
            for new, changes in take(state, int(i > 0), thread._replace(steps=thread.steps[1:]), step, *about):
                yield self.reached(state, i, new, **changes)

    def reached(self, state, i, new, threads=None, **changes):
        """Returns the state in which thread i is a new one, and other things have changed."""
        side, threads = self.sides[i > 0], threads or state.threads
        if not new.steps and new.left:
            new = went_on(new, side)
        new = self.alone(new, side, changes.get("head", state.head))
        caller, *workers = *threads[:i], new, *threads[i + 1:]
        return state._replace(threads=(caller, *sorted(workers)), **changes)

    def in_queue(self, state, who, thread, step, *_):
        """Yields the thread after a step of a try, with what that changes. The one that gets is 0, those who put are 1."""
        side = self.sides[who]
        end = thread.end if step != "try_at_once" else state.tail if who else state.head
        is_due = state.stamps[end % self.places] == 2 * end + 1 - who
        stamps = list(state.stamps)
        stamps[end % self.places] = 2 * end + 1 if who else 2 * (end + self.places)
        match step:
            case "read_end":
                yield thread._replace(end=state.tail), {}
            case "read_stamp" | "try_at_once" if not is_due:
                yield failed(thread, side), {}
            case "read_stamp" if who:
                yield thread, {}
            case "read_stamp":
                # Nobody else claims at the caller's end.
                yield thread._replace(steps=thread.steps[1:]), {"head": end + 1}
            case "try_at_once":
                yield thread._replace(steps=side.has), {"stamps": tuple(stamps), "tail" if who else "head": end + 1}
            case "claim":
                yield (thread, {"tail": end + 1}) if state.tail == end else (failed(thread, side), {})
            case "stamp":
                yield thread._replace(steps=side.has), {"stamps": tuple(stamps)}

    def in_wait(self, state, _, thread, step, about, *operands):
        """Yields the thread after a step of a wait or a wake-up in this list of waiters, with what that changes."""
        word = state.words[about]
        stored = {"words": tuple(operands[0] if of == about else old for of, old in enumerate(state.words))} if operands else {}
        match step:
            case "announce":
                yield thread._replace(announced=True), stored
            case "park":
                yield thread._replace(sleeps=word == operands[0]), {}
            case "load":
                yield compared(thread, word, *operands), {}
            case "swap":
                yield compared(thread, word, *operands[1:]), stored
            case "wake":
                asleep = [j for j, other in enumerate(state.threads) if other.sleeps and self.sides[j > 0].waits_in == about]
                for j in asleep:
                    threads = list(state.threads)
                    threads[j] = threads[j]._replace(sleeps=False)
                    yield thread, {"threads": threads}
                if not asleep:
                    yield thread, {}
            case _:
                raise ValueError(step)

    def ends(self):
        """Returns what is wrong in some order of all steps, or else how many states there are."""
        seen, waiting = {self.start()}, [self.start()]
        while waiting:
            state = waiting.pop()
            following = {new for i in range(len(state.threads)) for new in self.after(state, i)}
            # A sleep need not end for no reason.
            if not any(thread.steps and not thread.sleeps for thread in state.threads) and any(thread.left for thread in state.threads):
                return LOST
            fresh = following - seen
            seen |= fresh
            waiting += fresh
        return len(seen)
