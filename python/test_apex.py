"""Tests of the module `apex` over the program. Each expectation is written from docs/FORMATS.md."""

import pytest

import apex

TABLE = """
cores = 2

[[process]]
name = "A"
priority = 20
start = true
script = ["WAIT_SEMAPHORE S infinite", "SEND_BUFFER B 0aff 0", "ACQUIRE_MUTEX M 0"]

[[process]]
name = 'B"\\'
priority = 10
core = 1
start = true
script = ["SIGNAL_SEMAPHORE S", "TIMED_WAIT 5", "DISPLAY_BLACKBOARD D 01", "SET_EVENT E"]

[[semaphore]]
name = "S"
maximum = 1
initial = 0
discipline = "FIFO"

[[buffer]]
name = "B"
length = 4
capacity = 2
discipline = "FIFO"

[[blackboard]]
name = "D"
length = 4

[[event]]
name = "E"

[[mutex]]
name = "M"
ceiling = 30
discipline = "FIFO"
"""

A = apex.Named(1, "A")
B = apex.Named(2, 'B"\\')

# Five objects, then a CREATE_PROCESS and an INITIALIZE_PROCESS_CORE_AFFINITY for each process, a START
# for each, and SET_PARTITION_MODE NORMAL.
INIT_TURNS = 12


@pytest.fixture
def session():
    with apex.Session(TABLE) as session:
        yield session


@pytest.fixture
def begun(session):
    """A session that has left COLD_START."""
    session.turns(0, INIT_TURNS)
    return session


def test_a_turn_is_an_entry(session):
    assert session.turn(0) == apex.Entry(
        number=1, now=0, core=0, caller=None, is_init=True, call="CREATE_SEMAPHORE S",
        reply="NO_ERROR", notices=())


def test_the_entry_into_normal_releases_the_started_processes(session):
    last = session.turns(0, INIT_TURNS)[-1]
    assert last.call == "SET_PARTITION_MODE NORMAL"
    assert last.notices == (apex.Notice("released", A), apex.Notice("released", B))


def test_a_signal_wakes_the_waiter(begun):
    waits = begun.turn(0)
    assert (waits.caller, waits.service, waits.code) == (A, "WAIT_SEMAPHORE", "BLOCKED")
    signals = begun.turn(1)
    assert (signals.caller, signals.reply) == (B, "NO_ERROR")
    assert signals.notices == (apex.Notice("woken", A, code="NO_ERROR"),)


def test_an_idle_turn_has_no_caller(begun):
    begun.turn(0)
    entry = begun.turn(0)
    assert (entry.core, entry.caller, entry.is_init, entry.call) == (0, None, False, "idle")
    assert entry.reply == "IDLE"


def test_a_tick_goes_to_the_next_instant_at_most(begun):
    begun.turn(1)
    begun.turn(1)
    assert begun.next() == apex.Next(5, (0,))
    tick = begun.tick(9)
    assert (tick.core, tick.now, tick.call, tick.reply) == (None, 5, "tick 9", "ADVANCED 5")
    assert tick.notices == (apex.Notice("woken", B, code="NO_ERROR"),)


def test_the_front_names_the_running_processes(begun):
    assert begun.front() == apex.Front(INIT_TURNS, 0, (A, B))
    begun.turn(0)
    assert begun.front() == apex.Front(INIT_TURNS + 1, 0, (None, B))


def test_the_state_has_each_kind(begun):
    begun.run("0 1 0 0 1 t5 1 1")
    state = begun.state()
    assert (state.now, state.mode, state.entries) == (5, "NORMAL", INIT_TURNS + 8)
    assert state.running == (A, B)
    assert state.process("A") == apex.Process(
        id=1, name="A", state="RUNNING", base=20, current=30, core=0, wait=None, waits_for=None,
        due=None, deadline=None, suspended=None, owns=(apex.Named(1, "M"),), inbox=None)
    assert state.semaphore("S") == apex.Semaphore(1, "S", 0, ())
    assert state.buffer("B") == apex.Buffer(1, "B", (b"\x0a\xff",), ())
    assert state.blackboard("D") == apex.Blackboard(1, "D", b"\x01", ())
    assert state.event("E") == apex.EventFlag(1, "E", True, ())
    assert state.mutex("M") == apex.Mutex(1, "M", A, 1, ())


def test_a_waiter_stands_in_its_queue(begun):
    begun.turn(0)
    state = begun.state()
    waiter = state.process("A")
    assert (waiter.state, waiter.wait, waiter.waits_for) == (
        "WAITING", "semaphore", apex.Named(1, "S"))
    assert state.semaphore("S").waiting == (A,)
    with pytest.raises(KeyError):
        state.semaphore("T")


def test_back_forgets_the_events_since_the_mark(begun):
    begun.mark("here")
    first = begun.run("0 1")
    begun.back("here")
    assert begun.front().entries == INIT_TURNS
    assert begun.run("0 1") == first


def test_a_refused_command_changes_nothing(begun):
    for command, reason in [("7", "no such core"), ("0 x", "no command")]:
        with pytest.raises(apex.CommandRefused, match=reason):
            begun.run(command)
    with pytest.raises(apex.CommandRefused, match="no such mark"):
        begun.back("there")
    assert begun.front().entries == INIT_TURNS


def test_a_full_history_gives_the_entries_that_fit():
    with apex.Session("history = 3\n" + TABLE) as session:
        with pytest.raises(apex.HistoryFull) as full:
            session.turns(0, 5)
        assert (len(full.value.entries), full.value.count) == (3, 3)


def test_a_table_that_is_refused_ends_the_program():
    with pytest.raises(apex.ProgramEnded, match="MissingKey in top 0") as ended:
        apex.Session("history = 3\n")
    assert ended.value.status == 3


def test_a_table_may_be_a_file(tmp_path):
    path = tmp_path / "table.toml"
    path.write_text(TABLE)
    with apex.Session(path) as session:
        assert session.front().entries == 0


def test_a_file_that_cannot_be_read_starts_no_program(tmp_path, monkeypatch):
    monkeypatch.setenv(apex.PROGRAM_VARIABLE, "/nonexistent")
    with pytest.raises(FileNotFoundError, match="missing.toml"):
        apex.Session(tmp_path / "missing.toml")


def test_a_reason_names_the_step_and_what_the_caller_waits_for():
    schedule = f"0*{INIT_TURNS + 1}"
    assert apex.why(TABLE, schedule, INIT_TURNS + 1) == (
        "A step 0: BLOCKED: the value of the semaphore is 0")
    with pytest.raises(apex.ProgramEnded, match="no entry 99") as ended:
        apex.why(TABLE, schedule, 99)
    assert ended.value.status == 2


def test_a_long_schedule_needs_no_argument():
    assert apex.why(TABLE, "0*1 " * 40_000 + "0", 1) == "init step 0: no guard of the service holds"


def test_a_run_takes_schedules_alone(session):
    for command in ("state", "mark here", "quit", ""):
        with pytest.raises(apex.CommandRefused, match="no command"):
            session.run(command)


def test_a_table_has_no_separator():
    with pytest.raises(apex.ApexError, match="%%"):
        apex.Session(TABLE + "%%\n")


def test_a_closed_session_answers_nothing():
    session = apex.Session(TABLE)
    session.close()
    with pytest.raises(apex.ApexError):
        session.turn(0)


def test_a_program_that_is_not_there_is_an_error(monkeypatch):
    monkeypatch.delenv(apex.PROGRAM_VARIABLE, raising=False)
    monkeypatch.setenv("PATH", "/nonexistent")
    with pytest.raises(apex.ApexError, match="APEX_LAB"):
        apex.Session(TABLE)
