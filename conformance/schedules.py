"""All schedules of a script, found by a plain search over the machine's tables.

Written from docs/MACHINE.md (sections 2 and 3) and docs/EXPLORING.md; every.py compares it with the program. Frames have
no numbers here, and pages no words, since no condition names one: an entry is a virtual page, and the phase has the hand.
"""
from collections import Counter, namedtuple
from itertools import product

LIMIT, SPACE = 4096, 16384
ALIVE, KILLED, DEAD = range(3)
TOUCHES, ALLOCS = ("load", "store"), ("alloc", "allock")
CHANGES, PAGES = ("missing", "changed", "abort", "taken", "accounted", "settle"), ("locked", "committed", "restore")
# where a call on a file goes once it has the file's lock
FIRST = {"map": "room", "mapn": "room", "alloc": "head", "allock": "head", "punch": "want", "trunc": "size"}
SCALARS = ("resv", "used", "free", "denials", "kills")
# of each slot and of each lock: the task that holds it, or None; of each file; of each task
LISTS = ("slots", "locks", "size", "reserved", "pages", "pending", "spare", "life", "call", "maps", "entries", "made", "begun")

Script = namedtuple("Script", "frames files slots tasks quota queues needs")
# a call in flight: its words, its phase, and what it carries there
Call = namedtuple("Call", "words phase file index missing base answer gone next", defaults=(None, 0, 0, 0, None, 0, 0))
Mapping = namedtuple("Mapping", "base file first length")


def read_script(text):
    """A script of either form: for each task its calls, and for each call how many calls of which tasks it waits for."""
    header, *lines = text.splitlines()
    frames, files, slots, tasks, *quota = map(int, header.split()[1:])
    queues, needs, waits = [[] for _ in range(tasks)], [[] for _ in range(tasks)], []
    for line in lines:
        kind, task, *words = line.split()
        at = int(task) - 1
        if kind == "after":
            waits.append((at, len(queues[at])))
        else:
            queues[at].append((words[0], *map(int, words[1:])))
            needs[at].append(waits)
            waits = []
    return Script(frames, files, slots, tasks, quota[0] if quota else None, queues, needs)


class Place:
    """A pool and its tasks between two turns, how many calls each made and began, and what may still be denied or killed."""

    def __init__(self, frozen):
        scalars, lists = frozen
        self.resv, self.used, self.free, self.denials, self.kills = scalars
        for name, values in zip(LISTS, lists):
            setattr(self, name, list(values))

    def frozen(self):
        return (tuple([getattr(self, name) for name in SCALARS]), tuple([tuple(getattr(self, name)) for name in LISTS]))


def opening(script, denials, kills):
    files, tasks = script.files, script.tasks
    of_files = [(0,) * files] * 5
    of_tasks = [(ALIVE,) * tasks, (None,) * tasks, ((),) * tasks, (frozenset(),) * tasks, (0,) * tasks, (0,) * tasks]
    return ((0, 0, script.frames, denials, kills), ((None,) * script.slots, (None,) * files, *of_files, *of_tasks))


def slot_of(script, call):
    return (call.index + 31 * call.file) % script.slots


def span(first, end):  # the indices from first up to end, as bits
    return (1 << end) - (1 << first)


def find(maps, page):
    """File and index of a virtual page."""
    return next(((it.file, it.first + page - it.base) for it in maps if it.base <= page < it.base + it.length), None)


def room(maps, length):
    """The least base at which so many pages are clear."""
    base = 0
    for it in maps:
        if base + length <= it.base:
            break
        base = it.base + it.length
    return base if base + length <= SPACE else None


def start_answer(script, words, killed):
    """What ends a call on a file where it starts, before it asks for the lock."""
    kind, file, *rest = words
    if file >= script.files:
        return "badfile"
    if rest[0] > LIMIT if kind == "trunc" else rest[1] == 0 or rest[0] + rest[1] > LIMIT:
        return "badrange"
    return ("interrupted" if kind in ALLOCS else "killed") if killed else None


def holder(script, place, task):
    """The task for which the next step of this task's call waits."""
    call, killed = place.call[task], place.life[task] != ALIVE
    if call.phase == "start" and call.words[0] in FIRST:
        return None if start_answer(script, call.words, killed) else place.locks[call.file]
    if call.phase == "want" and not (killed and call.words[0] in (*TOUCHES, *ALLOCS)):
        return place.slots[slot_of(script, call)]


def account(script, place, missing, maps):
    """Counts what a change found missing; for a page it takes a frame, too. What is answered where it may not."""
    if script.quota is not None and place.used + missing > script.quota:
        return "noquota"
    if place.free - place.resv < missing:
        return "noframe"
    place.used += missing
    place.resv += missing if maps else missing - 1
    place.free -= not maps


def change(script, place, call, killed, grant):
    """The phases of a change, of a map's range or of one index."""
    kind, file = call.words[0], call.file
    maps = kind in ("map", "mapn")
    first, end = (call.words[2], sum(call.words[2:4])) if maps else (call.index, call.index + 1)
    back = call._replace(phase="unslot" if kind in ALLOCS else "leave", missing=0)
    on = call._replace(phase="enter" if maps else "committed", missing=0)
    lacking = (span(first, end) & ~place.reserved[file]).bit_count()
    match call.phase:
        case "missing":
            if place.spare[file] == place.pending[file] and not grant:
                return back._replace(answer="nomemory")
            place.pending[file] += 1
            place.spare[file] = max(place.spare[file], place.pending[file])
            return call._replace(phase="changed", missing=lacking)
        case "changed":
            at_kill = "interrupted" if kind in ALLOCS else "killed"
            answer = at_kill if killed else account(script, place, call.missing, maps)
            granted = call._replace(phase="accounted" if maps else "taken")
            return call._replace(phase="abort", missing=0, answer=answer) if answer else granted
        case "abort":
            place.pending[file] -= 1
            return back
        case "taken" | "accounted":
            place.pending[file] -= 1
            place.spare[file] -= not place.reserved[file] & span(max(first - 1, 0), end + 1)
            place.reserved[file] |= span(first, end)
            return call._replace(phase="settle", missing=call.missing - lacking) if lacking < call.missing else on
        case "settle":
            place.resv -= call.missing
            place.used -= call.missing
            return on


def one_page(place, call, grant):
    """Where a touch or an alloc looks for the page, makes it, or puts the frame back. A touch minds the size."""
    kind, file, index = call.words[0], call.file, call.index
    beyond = kind in TOUCHES and index >= place.size[file]
    back, there = ("unslot", "unslot") if kind in ALLOCS else ("leave", "found")
    match call.phase:
        case "locked" if beyond:
            return call._replace(phase=back, answer="beyond")
        case "locked":
            return call._replace(phase=there if place.pages[file] >> index & 1 else "missing")
        case "committed" if beyond or not grant:
            return call._replace(phase="restore", answer="beyond" if beyond else "nomemory")
        case "committed":
            place.pages[file] |= 1 << index
            return call._replace(phase=there)
        case "restore":
            place.free += 1
            place.resv += 1
            return call._replace(phase=back)


def touch(script, place, task, call, killed, grant):
    page, done = call.words[1], "word" if call.words[0] == "load" else "done"
    match call.phase:
        case "look":
            target = find(place.maps[task], page)
            if target is None:
                return "segv"
            return done if page in place.entries[task] else Call(call.words, "want", *target)
        case "found":
            refusal = "beyond" if call.index >= place.size[call.file] else None if grant else "nomemory"
            place.entries[task] |= frozenset() if refusal else {page}
            return call._replace(phase="leave", answer=refusal or done)


def map_pages(script, place, task, call, killed, grant):
    kind, file, first, length = call.words
    if call.phase == "room":
        base = room(place.maps[task], length)
        if base is None or not grant:
            return call._replace(phase="leave", answer="noaddress" if base is None else "nomemory")
        return call._replace(phase="missing" if kind == "map" else "enter", base=base)
    place.maps[task] = tuple(sorted((*place.maps[task], Mapping(call.base, file, first, length))))
    place.size[file] = max(place.size[file], first + length)
    return call._replace(phase="leave", answer="mapped")


def alloc(script, place, task, call, killed, grant):
    kind, file, first, length = call.words
    match call.phase:
        case "head":
            return call._replace(phase="leave", answer="interrupted") if killed else call._replace(phase="want")
        case "unslot":
            if call.answer:
                return call._replace(phase="leave")
            if call.index + 1 < first + length:
                return call._replace(phase="head", index=call.index + 1)
            return call._replace(phase="leave", answer="done") if kind == "allock" else call._replace(phase="extend")
        case "extend":
            place.size[file] = max(place.size[file], first + length)
            return call._replace(phase="leave", answer="done")


def punch(script, place, call, grant):
    _, file, first, length = call.words
    match call.phase:
        case "delete":
            splits = call.index > 0 and (place.reserved[file] >> (call.index - 1)) & 7 == 7
            if splits and place.spare[file] <= place.pending[file] and not grant:
                return call._replace(phase="free", answer="denied")
            place.spare[file] -= splits and place.pending[file] < place.spare[file]
            place.reserved[file] &= ~(1 << call.index)
            return call._replace(phase="free")
        case "free":
            place.free += 1
            place.resv += call.answer == "denied"
            place.used -= call.answer != "denied"
            return Call(call.words, "unslot", file, call.index)
        case "unslot":
            if call.index + 1 < first + length:
                return call._replace(phase="want", index=call.index + 1)
            return Call(call.words, "leave", file, answer="done")


def truncate(script, place, call):
    _, file, new = call.words
    match call.phase:
        case "size":
            top = max(place.size[file], place.pages[file].bit_length())
            place.size[file] = new
            return call._replace(phase="want", index=top - 1) if top > new else call._replace(phase="tail")
        case "free":
            place.free += 1
            return call._replace(phase="unslot")
        case "unslot":
            more = call.index > new
            return call._replace(phase="want", index=call.index - 1) if more else call._replace(phase="tail", index=0)
        case "tail":
            went = (place.reserved[file] >> new).bit_count()
            place.reserved[file] &= span(0, new)
            return call._replace(phase="settle", missing=went)
        case "settle":
            place.resv -= call.missing - call.gone
            place.used -= call.missing
            return Call(call.words, "leave", file, answer="done")


def remove(script, place, task, call, killed, grant):
    """A punch or a truncation."""
    file, punches = call.file, call.words[0] == "punch"
    match call.phase:
        case "locked":
            return call._replace(phase="unmap" if place.pages[file] >> call.index & 1 else "unslot")
        case "unmap":
            maps, entries = place.maps[call.next], place.entries[call.next]
            place.entries[call.next] = frozenset(it for it in entries if find(maps, it) != (file, call.index))
            last = call.next + 1 == script.tasks
            return call._replace(phase="evict", next=0) if last else call._replace(next=call.next + 1)
        case "evict":
            place.pages[file] &= ~(1 << call.index)
            return call._replace(phase="delete" if punches else "free", gone=call.gone + 1)
    return punch(script, place, call, grant) if punches else truncate(script, place, call)


def unmap_or_exit(script, place, task, call, killed, grant):
    exits, maps = call.words[0] == "exit", place.maps[task]
    match call.phase:
        case "start":
            base = (maps[0].base if maps else None) if exits else call.words[1]
            if any(it.base == base for it in maps):
                return call._replace(phase="clear", base=base)
            return call._replace(phase="leave") if exits else "notmapped"
        case "clear":
            (gone,) = [it for it in maps if it.base == call.base]
            place.entries[task] -= frozenset(range(gone.base, gone.base + gone.length))
            return call._replace(phase="drop")
        case "drop":
            rest = place.maps[task] = tuple(it for it in maps if it.base != call.base)
            if not exits:
                return "done"
            return call._replace(phase="clear", base=rest[0].base) if rest else Call(call.words, "leave")
        case "leave":
            place.life[task] = DEAD
            return "done"


ROWS = {"map": map_pages, "mapn": map_pages, "punch": remove, "trunc": remove, "unmap": unmap_or_exit, "exit": unmap_or_exit}
ROWS |= dict.fromkeys(TOUCHES, touch) | dict.fromkeys(ALLOCS, alloc)


def row(script, place, task, grant):
    """Where the next step of the call leads, which isn't blocked: a call, or its answer."""
    call, killed = place.call[task], place.life[task] != ALIVE
    kind = call.words[0]
    if call.phase in CHANGES and kind != "trunc":
        return change(script, place, call, killed, grant)
    if call.phase in PAGES and kind in (*TOUCHES, *ALLOCS):
        return one_page(place, call, grant)
    if call.phase == "want":
        if killed and kind in (*TOUCHES, *ALLOCS):
            return "killed" if kind in TOUCHES else call._replace(phase="leave", answer="interrupted")
        place.slots[slot_of(script, call)] = task
        return call._replace(phase="locked")
    if call.phase == "unslot" or call.phase == "leave" and kind in TOUCHES:
        place.slots[slot_of(script, call)] = None
    if call.phase == "leave" and kind in FIRST:
        place.locks[call.file] = None
    if call.phase == "leave" and kind != "exit":
        return call.answer
    if call.phase == "start" and kind in FIRST:
        answer = start_answer(script, call.words, killed)
        if answer is None:
            place.locks[call.file] = task
        return answer or call._replace(phase=FIRST[kind], index=call.words[2] if kind in (*ALLOCS, "punch") else 0)
    return ROWS[kind](script, place, task, call, killed, grant)


def may_begin(script, place, task):
    """The task has a call left, and all that it waits for have ended."""
    left = script.needs[task][place.made[task]:]
    return bool(left) and all(place.made[it] - (place.call[it] is not None) >= calls for it, calls in left[0])


def turns(script, frozen):
    """Each turn that may be made there: its line, where it leads, and the answer (task, call, its name, word) that it gives."""
    here = Place(frozen)
    for task in range(script.tasks):
        busy = here.call[task] is not None
        if not busy and may_begin(script, here, task):
            words = script.queues[task][here.made[task]]
            place = Place(frozen)
            place.made[task] += 1
            if here.life[task] == ALIVE or here.life[task] == KILLED and words[0] == "exit":
                place.begun[task] += 1
                first = "look" if words[0] in TOUCHES else "start"
                place.call[task] = Call(words, first, words[1] if words[0] in FIRST else 0)
            yield " ".join(map(str, ("begin", task + 1, *words))), place.frozen(), None
        elif busy and holder(script, here, task) is None:
            yield from steps(script, frozen, task)
        if here.kills and here.life[task] == ALIVE and (busy or here.made[task] < len(script.queues[task])):
            place = Place(frozen)
            place.life[task] = KILLED
            place.kills -= 1
            yield f"kill {task + 1}", place.frozen(), None


def steps(script, frozen, task):
    """The granted step of a call, and the denied one where that does something else."""
    granted = None
    for grant in (True, False) if frozen[0][3] else (True,):
        place = Place(frozen)
        after = row(script, place, task, grant)
        answer = None if isinstance(after, Call) else (task + 1, place.begun[task], place.call[task].words[0], after)
        place.call[task] = None if answer else after
        if place.frozen() != granted:
            granted = granted or place.frozen()
            place.denials -= not grant
            yield f"{'step' if grant else 'deny'} {task + 1}", place.frozen(), answer


def linux_of(name, word):
    """What Linux tells a program in place of the answer, where it has a name here."""
    short, faults = word in ("noframe", "noquota"), name in TOUCHES
    if word == "noaddress" or word == "nomemory" and not faults or short and name in ("map", "mapn"):
        return "ENOMEM"
    if short and name in ALLOCS:
        return "ENOSPC"
    if faults and (short or word == "beyond"):
        return "SIGBUS"
    return {"segv": "SIGSEGV", "interrupted": "EINTR"}.get(word)


def counts_of(script, place):
    """Each count by its name."""
    yield from ((name, getattr(place, name)) for name in ("resv", "free", "used"))
    for file in range(script.files):
        yield f"reserved:{file}", place.reserved[file].bit_count()
        yield f"pages:{file}", place.pages[file].bit_count()


def comparisons(script, place):
    """What is so of the counts."""
    for name, count in counts_of(script, place):
        for n in range(script.frames + 2):
            signs = (("=", count == n), ("<", count < n), ("<=", count <= n), (">", count > n), (">=", count >= n))
            yield from (f"{name}{sign}{n}" for sign, holds in signs if holds)


def answers_of(task, number, name, word):
    """The ways to ask for an answer."""
    words = [it for it in (word, linux_of(name, word)) if it]
    return {("answer", *it) for it in product((task, "*"), (number, name, "*"), words)}


def facts_of(script, frozen, answer=None, ends=False):
    """What holds: the answer that came, tasks that wait, phases that meet, and counts where no turn may be made."""
    place = Place(frozen)
    phases = [(task + 1, call.phase) for task, call in enumerate(place.call) if call]
    facts = answers_of(*answer) if answer else set()
    facts |= {("blocked", it) for task, _ in phases if holder(script, place, task - 1) is not None for it in (task, "*")}
    facts |= {("meet", one, other) for one in phases for other in phases if one[0] < other[0]}
    return facts | {("final", it) for it in comparisons(script, place) if ends}


def counted_of(script, frozen, answer, asked):
    """Of the answers that are asked for with a count, those that hold."""
    those = [it for it in asked if it[0] == "at" and answer and it[1] in answers_of(*answer)]
    there = set(comparisons(script, Place(frozen))) if those else ()
    return {it for it in those if it[2] in there}


def is_whole(fact):
    """It is asked of whole schedules."""
    return fact[0] in ("not", "final")


def holds(question, met):
    """Of each of the alternatives one holds."""
    return all(any((it[1] not in met) if it[0] == "not" else it in met for it in alternatives) for alternatives in question)


def asked_of(question):
    """What has to be watched for."""
    return frozenset(it[1] if it[0] == "not" else it for alternatives in question for it in alternatives)


def search(script, budget, most, question=(), known=None):
    """The fewest events to each fact by itself, and to all that is asked; None beyond so many states (place, those met).

    What comes after a place is kept in `known`, for more searches of the same script.
    """
    known = {} if known is None else known
    asked = asked_of(question)
    whole = any(is_whole(it) for alternatives in question for it in alternatives)
    first = (opening(script, *budget), frozenset())
    seen, layer, depth, least = {first}, [first], 0, {}
    while layer and len(seen) <= most:
        after = []
        for place, met in layer:
            if place not in known:
                known[place] = [(there, answer, facts_of(script, there, answer)) for _, there, answer in turns(script, place)]
            following = known[place]
            ends = set() if following else facts_of(script, place, ends=True)
            for fact in ends:
                least.setdefault(fact, depth)
            if question and not (whole and following) and holds(question, met | ends):
                return {None: depth}, len(seen)
            for there, answer, facts in following:
                if not question:
                    for fact in facts:
                        least.setdefault(fact, depth + 1)
                state = (there, met | asked & facts | counted_of(script, there, answer, asked))
                if state not in seen:
                    seen.add(state)
                    after.append(state)
        layer, depth = after, depth + 1
    return None if layer else least, len(seen)


def with_answer(ended, answer):
    """The calls that ended, task by task, with this one."""
    if answer is None:
        return ended
    task, _, name, word = answer
    return tuple(sorted((*ended, (task, name, word)), key=lambda it: it[0]))


def ending_at(script, frozen, ended):
    """How a schedule ends that stands there with these answers: they and the counts; None where a turn may be made."""
    if any(turns(script, frozen)):
        return None
    place = Place(frozen)
    return ended, place.free, place.resv, place.used


def endings(script, budget, most):
    """Of each way to end (answers and counts) how many schedules end so, and in how many events; None beyond so many states."""
    layer, depth, states, found = Counter({(opening(script, *budget), ()): 1}), 0, 0, {}
    while layer and states <= most:
        states += len(layer)
        after = Counter()
        for (frozen, ended), ways in layer.items():
            following = list(turns(script, frozen))
            if not following:
                ending = ending_at(script, frozen, ended)
                schedules, least = found.get(ending, (0, depth))
                found[ending] = (schedules + ways, least)
            for _, there, answer in following:
                after[there, with_answer(ended, answer)] += ways
        layer, depth = after, depth + 1
    return None if layer else found
