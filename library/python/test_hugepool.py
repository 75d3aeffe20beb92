"""Tries the module on the traces of examples/: run it with pytest, and HUGEPOOL_LIBRARY where the library isn't installed."""
from __future__ import annotations

import copy
import ctypes
import gc
import json
import pickle
import re
import signal
import subprocess
import sys
import textwrap
import time
from pathlib import Path
from threading import Thread

import pytest

import hugepool
from hugepool import Answer, Event, Life, Op, OutcomeKind, Phase, Pool, Refusal, begin, deny, events, kill, parse, resize, step

sys.path.insert(0, str(Path(__file__).resolve().parents[1]))
import searched  # noqa: E402

EXAMPLES = Path(__file__).resolve().parents[2] / "examples"
TRACES = sorted(it for it in EXAMPLES.glob("*.trace") if it.with_suffix(".out").exists() and not it.with_suffix(".status").exists())
# no event has kind 9
BAD = Event(kind=9)


def opened(trace: Path) -> tuple[Pool, list[Event]]:
    header, *lines = trace.read_text().splitlines()
    return Pool(*map(int, header.split()[1:])), [parse(it) for it in lines]


def state(pool: Pool) -> list[str]:
    """What a replay writes of a pool at its end."""
    held = pool.numbers()
    files = (pool.file(it) for it in range(held.files))
    tasks = (pool.task(1 + it) for it in range(held.tasks))
    used = "" if held.quota is None else f" used {held.used}"
    return [
        f"free {held.free} resv {held.resv} calls {held.calls}{used}",
        *(
            f"file {number} size {it.size} reserved {it.reserved} regions {it.regions} pages {it.pages} changes {it.changes} spare {it.spare}"
            for number, it in enumerate(files)
        ),
        *(f"task {1 + number} {it.life.name.lower()} mappings {it.mappings} entries {it.entries}" for number, it in enumerate(tasks)),
    ]


@pytest.mark.parametrize("trace", TRACES, ids=lambda it: it.stem)
def test_outcomes_are_those_of_a_replay(trace):
    pool, items = opened(trace)
    wanted = trace.with_suffix(".out").read_text()
    one_by_one = [str(pool.event(it)) for it in items]
    assert wanted.splitlines() == one_by_one + state(pool)
    assert len(items) == trace.read_text().count("\n") - 1
    again, _ = opened(trace)
    assert [str(it) for it in again.run(items)] == one_by_one
    assert again.numbers() == pool.numbers()
    assert hugepool.replay(trace.read_bytes()) == wanted
    assert hugepool.check(trace.read_bytes()) == len(items)
    assert [str(it) for it in items] == trace.read_text().splitlines()[1:]


def written(name: str, words: ctypes.Structure) -> str | None:
    """The line that the library itself writes of an event or an outcome, if it is one."""
    room, needed = ctypes.create_string_buffer(56), ctypes.c_size_t()
    write = ctypes.CDLL(hugepool._library._path())[f"hugepool_write_{name}"]
    code = write(ctypes.byref(words), room, ctypes.c_size_t(56), ctypes.byref(needed))
    return room.raw[: needed.value].decode() if code == 0 else None


def test_lines_are_those_that_the_library_writes():
    """Of each outcome and each event, also of those that no trace has."""
    counts = {}
    for kind, field in enumerate([None, "phase", "task", "answer", None, "frames", "refusal"]):
        for number in range(40):
            outcome = hugepool.Outcome.from_buffer_copy(bytes(40))
            outcome._kind, outcome._page, outcome._word = kind, 7 * (kind == 3), 1 << 63 if kind == 3 else 0
            if field:
                setattr(outcome, f"_{field}", number)
            if line := written("outcome", outcome):
                assert str(outcome) == line
                counts[kind] = counts.get(kind, 0) + 1
    assert counts == {0: 40, 1: 27, 2: 40, 3: 14, 4: 40, 5: 40, 6: 4}
    for kind in hugepool.EventKind:
        for op in Op:
            event = Event(kind, 4294967295, op, 1, 2, 3, 4, (1 << 64) - 1)
            assert str(event) == written("event", event) and str(parse(str(event))) == str(event)
    assert written("event", BAD) is None


def test_a_bad_line_is_told():
    trace, complaint = EXAMPLES / "a-bad-line.trace", (EXAMPLES / "a-bad-line.err").read_text()
    with pytest.raises(hugepool.BadTrace) as raised:
        hugepool.explain(trace.read_text())
    assert f"line {raised.value.line} is not allowed here" in complaint and raised.value.reason in complaint
    assert str(pickle.loads(pickle.dumps(raised.value))) == str(raised.value)


def test_lines_are_explained_alone():
    trace = (EXAMPLES / "two-maps-one-lock.trace").read_text()
    objects = [json.loads(it) for it in hugepool.explain_json(trace, 5, 6).splitlines()]
    assert [it.get("line") for it in objects] == [None, 5, 6, None] and "pool" in objects[0] and "end" in objects[-1]
    assert len(hugepool.explain_json(trace).splitlines()) == len(trace.splitlines()) + 1
    assert hugepool.explain_rows(trace, 5, 6).splitlines()[1].split()[0] == "5"
    for explain in hugepool.explain_rows, hugepool.explain_json:
        for number in -1, 1 << 32, (1 << 32) + 5:
            for lines in (number, 6), (5, number):
                with pytest.raises(hugepool.NoSuch):
                    explain(trace, *lines)
        with pytest.raises(TypeError):
            explain(trace, 5.0, 6)


def test_a_loose_text_is_a_trace():
    assert hugepool.format("# a map\npool 4 1 4 2\n\nbegin 1 map 0 0 1\nstep 1 *2") == "pool 4 1 4 2\nbegin 1 map 0 0 1\nstep 1\nstep 1\n"
    with pytest.raises(hugepool.BadTrace) as raised:
        hugepool.format("pool 4 1 4 2\n# no call\nstep 1 until ended\n")
    assert (raised.value.line, raised.value.reason) == (3, "names a step that is refused with idle")


def test_a_page_is_mapped_stored_and_loaded():
    with Pool(frames=4, files=1, slots=2, tasks=2, quota=3) as pool:
        assert str(pool.event(begin(1, "map", 0, 0, 2))) == "begun"
        assert pool.task(1).phase is Phase.START and pool.task(2).phase is None
        while not (outcome := pool.event(step(1))).is_ended:
            assert pool.audit() is hugepool.Finding.NOTHING
        assert (outcome.kind, outcome.answer, outcome.page) == (OutcomeKind.ENDED, Answer.MAPPED, 0)
        assert outcome.answer is Answer.MAPPED and outcome.phase is None and outcome.refusal is None
        assert (pool.numbers().resv, pool.numbers().quota, pool.file(0).reserved) == (2, 3, 2)
        other = pool.copy()
        assert pool.translate(1, 0) is None
        assert any(it.is_ended for it in pool.run(events([begin(1, "store", 0, 7)] + 10 * [step(1)])))
        assert pool.translate(1, 0) is not None and other.translate(1, 0) is None
        assert (pool.numbers().resv, other.numbers().resv) == (1, 2)


def test_what_is_held_back_changes_nothing():
    pool = Pool(2, 1, 1, 2)
    assert pool.held_back(step(1)).refusal is Refusal.IDLE
    assert pool.held_back(kill(1)) is None
    assert str(pool.event(kill(1))) == "marked" and pool.task(1).life is Life.KILLED
    assert str(pool.event(resize(3))) == "resized 3"
    assert str(pool.event(deny(9))) == "refused notalive"


def test_who_waits_for_whom_is_told():
    """Two tasks map the same file: the one takes the file's lock, and the other waits for it."""
    pool = Pool(4, 2, 1, 2)
    pool.run([begin(1, "map", 1, 0, 1), begin(2, "map", 1, 0, 1)])
    acquired = pool.acquires(1)
    assert (acquired.kind, acquired.file) == (hugepool.AcquiredKind.LOCK, 1)
    pool.event(step(1))
    assert pool.acquires(1) is None
    assert (pool.task(2).is_blocked, pool.task(2).holder, pool.task(1).holder) == (True, 1, None)


@pytest.mark.parametrize(
    "given", [(ctypes.c_uint8 * 3)(), (ctypes.c_uint64 * 1)(), (Event * 0)(), ctypes.c_uint64(1), None, "step 1", (1, 2)], ids=lambda it: type(it).__name__
)
def test_what_is_no_event_is_not_read(given):
    pool = Pool(2, 1, 1, 1)
    for call in pool.event, pool.held_back:
        with pytest.raises(TypeError):
            call(given)
    if given is not None and not isinstance(given, ctypes.c_uint64) and len(given):
        with pytest.raises(TypeError):
            pool.run(given)
        with pytest.raises(TypeError):
            pool.run([given])


def test_an_array_is_as_long_as_its_memory():
    class Long(Event * 1):  # type: ignore[misc]
        def __len__(self) -> int:
            return 1_000_000

    with Pool(2, 1, 1, 1) as pool:
        assert [str(it) for it in pool.run(Long(step(1)))] == ["refused idle"]


@pytest.mark.parametrize("line", [b"step 1", 5, None])
def test_a_line_is_str(line):
    with pytest.raises(TypeError):
        parse(line)


def test_a_condition_is_one_line():
    for asked, number in (["rest\n"], 1), (["rest", "rest\nblocked 1"], 2):
        with pytest.raises(hugepool.BadCondition) as raised:
            hugepool.minimize("pool 4 1 4 1\n", asked)
        assert raised.value.line == number


def test_an_index_is_asked_once():
    class Index:
        asked = 0

        def __index__(self) -> int:
            self.asked += 1
            return 4 if self.asked == 1 else 1 << 40

    with Pool(Index(), 1, 1, 1) as pool:  # type: ignore[arg-type]
        assert pool.numbers().frames == 4


@pytest.mark.parametrize("number", [-1, 1 << 32, (1 << 32) + 4, 1 << 64])
def test_a_number_that_does_not_fit_is_refused(number):
    pool = Pool(8, 4, 4, 4)
    refused = [
        lambda: Pool(number, 1, 1, 1), lambda: Pool(4, number, 1, 1), lambda: Pool(4, 1, number, 1), lambda: Pool(4, 1, 1, number),
        lambda: Pool(4, 1, 1, 1, number), lambda: step(number), lambda: deny(number), lambda: kill(number), lambda: resize(number),
        lambda: begin(number, "exit"), lambda: begin(1, "map", number, 0, 1), lambda: begin(1, "map", 0, number, 1),
        lambda: begin(1, "map", 0, 0, number), lambda: begin(1, "load", number), lambda: begin(1, "trunc", 0, number),
        lambda: begin(1, "store", number, 0), lambda: Event(kind=number), lambda: parse(f"step {number}"), lambda: pool.file(number),
        lambda: pool.task(number), lambda: pool.acquires(number), lambda: pool.translate(number, 0), lambda: pool.translate(1, number),
    ]
    for call in refused:
        with pytest.raises(ValueError):
            call()


def test_a_word_has_64_bits():
    word = (1 << 64) - 1
    assert begin(1, "store", 0, word).word == word == parse(f"begin 1 store 0 {word}").word
    for other in -1, word + 1:
        with pytest.raises(ValueError):
            begin(1, "store", 0, other)


@pytest.mark.parametrize("number", [1.0, "1", None, b"1"], ids=repr)
def test_what_is_no_number_is_refused(number):
    pool = Pool(8, 4, 4, 4)
    for call in (lambda: Pool(number, 1, 1, 1), lambda: step(number), lambda: begin(1, "load", number), lambda: pool.task(number)):
        with pytest.raises(TypeError):
            call()


@pytest.mark.parametrize(
    "line",
    [
        "step 1_0", "step +1", "step -1", "step 01", " step 1", "step 1 ", "step  1", "step\t1", "step 1\n", "step \u0661", "Step 1", "step", "",
        "step 1 2", "begin 1 map 0 0", "begin 1 MAP 0 0 1", "begin 1 exit ", "step 1\0", "stop 1", "step 4294967296",
    ],
)
def test_a_line_has_one_spelling(line):
    with pytest.raises(hugepool.NoSuch):
        parse(line)


def test_threads_wait_for_one_another():
    """Each event happens once, whichever thread makes it, and none finds the pool closed because another is at it."""
    pool, rounds, raised = Pool(64, 1, 8, 8), 300, []
    many = events(100 * [kill(9)])

    def work(task: int) -> None:
        try:
            for at in range(rounds):
                assert str(pool.event(resize(1 + at % 64))) == f"resized {1 + at % 64}"
                assert all(it.refusal is Refusal.NOTALIVE for it in pool.run(many)[:3])
                assert pool.task(task).life is Life.ALIVE and pool.audit() == 0
        except Exception as error:
            raised.append(error)

    threads = [Thread(target=work, args=(1 + at,)) for at in range(4)]
    switch = sys.getswitchinterval()
    sys.setswitchinterval(1e-5)
    for it in threads:
        it.start()
    for it in threads:
        it.join()
    sys.setswitchinterval(switch)
    assert raised == []


def test_an_error_carries_what_happened():
    pool = Pool(2, 1, 1, 1)
    for bad in [resize(1), step(1), BAD, kill(1)], events([resize(1), step(1), BAD]):
        with pytest.raises(hugepool.NoSuch) as raised:
            pool.run(bad)
        assert raised.value.done == 2
        assert [str(it) for it in raised.value.outcomes] == ["resized 1", "refused idle"]
    with pytest.raises(hugepool.NoSuch) as raised:
        Pool(0, 1, 1, 1)
    assert (raised.value.done, list(raised.value.outcomes)) == (0, [])


def test_events_are_values():
    assert {step(1): "one", kill(1): "two"}[parse("step 1")] == "one"
    assert step(1) != step(2) and step(1) != "step 1" and len({step(1), deny(1), Event(1, 1), events([step(1)])[0]}) == 2
    assert step(1).kind is hugepool.EventKind.STEP and parse("begin 1 trunc 0 3").op is Op.TRUNC
    assert eval(repr(begin(1, "map", 0, 1, 4)), {"Event": Event}) == begin(1, Op.MAP, 0, 1, 4)
    with pytest.raises(AttributeError):
        step(1).task = 2


def test_outcomes_and_numbers_are_values():
    one, other = Pool(4, 1, 1, 2), Pool(4, 1, 1, 2)
    assert one.event(kill(1)) == other.run([kill(1)])[0] and hash(one.event(step(2))) == hash(other.run([step(2)])[0])
    assert len({one.numbers(), other.numbers()}) == 1 and one.task(1) != one.task(2) and one.file(0) == other.file(0)


def test_a_pool_that_was_not_opened_goes_quietly(monkeypatch):
    said = []
    monkeypatch.setattr(sys, "unraisablehook", said.append)
    for words in (), (4,), ("4", 1, 1, 1), (0, 1, 1, 1):
        with pytest.raises((TypeError, ValueError)):
            Pool(*words)
    with pytest.raises(hugepool.Closed):
        Pool.__new__(Pool).numbers()
    gc.collect()
    assert said == []


def test_numbers_have_all_that_a_pool_holds():
    """(What a replay writes at its end is compared for each trace; this is what it doesn't write.)"""
    without, pool = Pool(4, 1, 1, 1), Pool(5, 2, 3, 4, 0)
    assert (without.numbers().quota, without.numbers().has_quota) == (None, False)
    held = pool.numbers()
    assert (held.frames, held.free, held.files, held.tasks, held.quota, held.has_quota) == (5, 5, 2, 4, 0, True)
    assert (held.owed, held.used_owed, held.used, held.calls) == (0, 0, 0, 0)


def test_a_text_of_any_length_is_whole(monkeypatch):
    """Also one that is longer than the room that is tried first."""
    trace = (EXAMPLES / "truncate-overtakes-a-store.trace").read_text()
    wanted = (EXAMPLES.parent / "docs" / "pictures" / "truncate-overtakes-a-store.svg").read_text()
    for given in trace, trace.encode(), bytearray(trace.encode()):
        assert hugepool.draw(given) == wanted
    monkeypatch.setattr("hugepool._traces._MOST", len(wanted) - 1)
    assert hugepool.draw(trace) == wanted


def test_copies():
    pool = Pool(2, 1, 1, 1)
    for made in copy.copy(pool), copy.deepcopy(pool):
        made.event(kill(1))
        assert pool.task(1).life is Life.ALIVE
    with pytest.raises(TypeError):
        pickle.dumps(pool)
    pool.event(begin(1, "load", 0))
    with pytest.raises(hugepool.InFlight):
        pool.copy()


def test_errors():
    pool = Pool(2, 1, 1, 1)
    calls = [lambda: Pool(0, 1, 1, 1), lambda: pool.file(1), lambda: begin(1, "grow", 0), lambda: begin(1, "map", 0), lambda: pool.event(BAD)]
    for call in calls:
        with pytest.raises(hugepool.NoSuch):
            call()
    for trace in 5, None, ["pool 1 1 1 1\n"]:
        with pytest.raises(TypeError):
            hugepool.replay(trace)
    pool.close()
    pool.close()
    with pytest.raises(hugepool.Closed):
        pool.event(step(1))


def found_by(search: list[str], text: str) -> str | None:
    """What a search of examples/commands finds: the text, or None; `Found` has the run beside it."""
    call, *given = search
    if call == "minimize":
        return hugepool.minimize(hugepool.format(re.sub(r" x(\d+)$", r" *\1", text, flags=re.MULTILINE)), given[0])
    if call == "find":
        found = hugepool.find(text, given[0], **dict(zip(("seed", "limit", "deny", "kill"), map(int, given[1:]))))
        return found and found.trace
    return hugepool.find_every(text, given[0], **dict(zip(("denials", "kills", "states"), map(int, given[1:]))))


@pytest.mark.parametrize("row", searched.searches(EXAMPLES / "commands"), ids=lambda it: it.name)
def test_searches_find_what_is_written_by_hand(row):
    if row.status in (0, 1):
        assert found_by(row.words, row.text) == (row.wanted if row.status == 0 else None)
        return
    with pytest.raises(hugepool.LimitReached if row.status == 3 else hugepool.BadCondition):
        found_by(row.words, row.text)


def test_a_run_is_found_by_slices(monkeypatch):
    """(The run and its length are those of docs/EXPLORING.md.)"""
    script, asked = (EXAMPLES / "truncate-against-fault.script").read_bytes(), ["blocked 2", "answer 1:2=beyond"]
    for size in 1, 2, 3, 4, 5, 1 << 12:
        monkeypatch.setattr("hugepool._searches._SLICE", size)
        found = hugepool.find(script, asked)
        assert (found.run, found.seed, hugepool.check(found.trace)) == (4, 5, 30)
        assert hugepool.find(script, asked, seed=5, limit=1) == hugepool.Found(found.trace, 0, 5)
        wrapped = hugepool.find("pool 1 1 1 2\nbegin 1 trunc 0 0\nbegin 2 trunc 0 0\n", "blocked 1", seed=(1 << 64) - 1)
        assert (wrapped.run, wrapped.seed) == (1, 0)
        assert hugepool.find(script, asked, limit=4) is hugepool.find(script, asked, limit=0) is None


def test_a_bad_search_is_told():
    trace = "pool 1 1 1 1\nbegin 1 load 0\nstep 1\n"
    for asked, line, said in (["rest", "blocked 0"], 2, "blocked 0"), ("rest\n\n", 2, ""), ("", 0, ""), (["anywhere"], 0, ""):
        with pytest.raises(hugepool.BadCondition) as raised:
            hugepool.minimize(trace, asked)
        assert (raised.value.line, raised.value.text) == (line, said)
        assert str(pickle.loads(pickle.dumps(raised.value))) == str(raised.value)
    with pytest.raises(hugepool.BadCondition) as raised:
        hugepool.minimize(trace, 65_537 * ["rest"])
    assert raised.value.line == 65_537 and str(raised.value) == "there are more than 65,536 lines of conditions"
    with pytest.raises(hugepool.BadTrace) as raised:
        hugepool.minimize(trace + "stop 1\n", ["rest"])
    assert raised.value.line == 4
    with pytest.raises(hugepool.BadTrace) as raised:
        hugepool.find(trace, ["rest"])
    assert raised.value.line == 3
    with pytest.raises(hugepool.LimitReached) as raised:
        hugepool.find_every("pool 4 1 4 2\nbegin 1 map 0 0 4\nbegin 2 map 0 0 4\n", "answer 1:1=segv", states=1)
    assert raised.value.turns == 1 and str(pickle.loads(pickle.dumps(raised.value))) == str(raised.value)
    for numbers in {"seed": -1}, {"seed": 1 << 64}, {"limit": 1 << 32}, {"deny": -1}, {"kill": 1 << 32}:
        with pytest.raises(hugepool.NoSuch):
            hugepool.find("pool 1 1 1 1\n", "rest", **numbers)
    for numbers in {"states": -1}, {"denials": 1 << 32}, {"kills": -1}:
        with pytest.raises(hugepool.NoSuch):
            hugepool.find_every("pool 1 1 1 1\n", "rest", **numbers)
    with pytest.raises(TypeError):
        hugepool.find("pool 1 1 1 1\n", "rest", limit=1.5)
    with pytest.raises(TypeError):
        hugepool.find(5, "rest")
    for asked in b"rest", [b"rest"], [1], ["rest", None]:
        with pytest.raises(TypeError):
            hugepool.find("pool 1 1 1 1\n", asked)


class Whole:
    """A whole number that is no int, as those of other modules are."""

    def __init__(self, number: int) -> None:
        self.number = number

    def __index__(self) -> int:
        return self.number


def test_a_number_of_a_search_may_be_of_another_kind():
    script, asked = (EXAMPLES / "truncate-against-fault.script").read_bytes(), ["blocked 2", "answer 1:2=beyond"]
    found = hugepool.find(script, asked, seed=Whole(5), limit=Whole(1), deny=Whole(0), kill=Whole(0))
    assert found == hugepool.find(script, asked, seed=5, limit=1)
    with pytest.raises(hugepool.LimitReached):
        hugepool.find_every(script, asked, denials=Whole(0), kills=Whole(0), states=Whole(1))


# each takes more than a minute: no call of this script ends so, and of this trace no event can go
ENDLESS = {
    "find": "hugepool.find(script, 'answer 1:9=segv', limit=(1 << 32) - 1)",
    "find_every": "hugepool.find_every(script, 'answer 1:9=segv', states=90_000_000)",
    "minimize": "hugepool.minimize(trace, 'final free=0')",
}


@pytest.mark.parametrize("search", ENDLESS)
def test_an_interrupt_ends_a_search(search):
    script = f"script = open({str(EXAMPLES / '64-backends-one-segment.script')!r}).read()"
    trace = "trace = hugepool.format('pool 2000 1 16 1\\nbegin 1 alloc 0 0 2000\\nstep 1 until ended\\n')"
    # (a shell has what it begins in the background ignore interrupts)
    heeds = "import signal; signal.signal(signal.SIGINT, signal.default_int_handler)"
    code = f"{heeds}; import hugepool; {script}; {trace}; print('begun', flush=True); {ENDLESS[search]}"
    how = {"cwd": Path(__file__).parent, "stdout": subprocess.PIPE, "stderr": subprocess.PIPE}
    with subprocess.Popen([sys.executable, "-c", code], **how) as ran:
        try:
            assert ran.stdout.readline() == b"begun\n"
            time.sleep(0.5)
            ran.send_signal(signal.SIGINT)
            said = ran.communicate(timeout=20)[1]
        finally:
            ran.kill()
    assert b"KeyboardInterrupt" in said


def test_a_search_in_another_thread_goes_on_beside():
    script, told = (EXAMPLES / "truncate-against-fault.script").read_bytes(), []
    asked = "blocked 2\nanswer 1:2=beyond"

    def search() -> None:
        told.append((hugepool.find(script, asked), hugepool.find_every(script, asked, states=100_000)))

    threads = [Thread(target=search) for _ in range(4)]
    for it in threads:
        it.start()
    search()
    for it in threads:
        it.join()
    assert told == 5 * [told[0]] and told[0][0].run == 4 and told[0][1] is not None


def test_a_room_that_there_is_no_memory_for():
    code = """if True:
        import hugepool, resource
        used = int(open("/proc/self/statm").read().split()[0]) * resource.getpagesize()
        resource.setrlimit(resource.RLIMIT_AS, (used + (40 << 20), -1))
        for call in (lambda: hugepool.find("pool 1 1 1 1\\n", "rest")), (lambda: hugepool.draw("pool 1 1 1 1\\n" + 900_000 * "step 1\\n")):
            try:
                call()
            except hugepool.OutOfMemory as why:
                print(f"{type(why).__name__}: {why}")
    """
    ran = subprocess.run([sys.executable, "-c", code], cwd=Path(__file__).parent, capture_output=True, text=True)
    assert ran.stdout == 2 * "OutOfMemory: There was no memory\n", ran.stderr


def test_the_programs_of_the_module_s_page_run(capsys):
    """The first maps four pages, so it prints "begun", and that four are reserved."""
    first, second = re.findall(r"(?:^    .*\n|^\n(?=    ))+", hugepool.__doc__, re.MULTILINE)
    exec(textwrap.dedent(first))
    assert capsys.readouterr().out == "begun\n4\n"
    exec(textwrap.dedent(second), {"hugepool": hugepool})
    run, trace = capsys.readouterr().out.split(" ", 1)
    assert hugepool.minimize(trace.removesuffix("\n"), ["blocked 2", "final resv>0"]) is not None and int(run) >= 0


def test_the_version_is_that_of_the_library():
    first, second, third = map(int, hugepool.__version__.split("."))
    assert hugepool.library_version() == (first, second, third)
