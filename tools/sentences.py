"""Calls and answers in words, for the tools: 'worker 1, vCAS of item 0 from 1 to 2, step 4, line 45: running'."""
from catalogue import ACCEPTED, FINISHED, MAKE, OPERATIONS, PHASE, PHASES, READ_SNAPSHOT, REFUSALS, REGISTER, RUNNING, STEP, TAKE_SNAPSHOT
from catalogue import TOTAL, VCAS, VREAD, WORKER, WORKERS, parse_frame

NUMBER_OF = {operation.name: number for number, operation in OPERATIONS.items()}
CALLS = {
    MAKE: "make for {} workers, {} items, {} nodes, {} projects, counter up to {}",
    REGISTER: "register an item of project {}, {} MiB",
    VREAD: "worker {}, vRead of item {}",
    VCAS: "worker {}, vCAS of item {} from {} to {}",
    TAKE_SNAPSHOT: "worker {}, takeSnapshot",
    READ_SNAPSHOT: "worker {}, readSnapshot of item {} at handle {}",
    TOTAL: "worker {}, total of project {} at handle {}",
    STEP: "worker {}, step",
}


def running_operation(catalogue, worker):
    """The operation that a worker's record holds, as (operation, arguments); None where it is idle or cannot be read."""
    words = catalogue.words
    if catalogue.header_damage() is not None or worker >= words[WORKERS]:
        return None
    at = catalogue.worker_at(worker)
    if not 0 < words[at + PHASE] < len(PHASES):
        return None
    operation = NUMBER_OF[PHASES[words[at + PHASE]].operation]
    return operation, (worker,) + tuple(words[at + WORKER[name]] for name in OPERATIONS[operation].arguments[1:])


def call_in_words(frame, running, answer):
    """What was called. `running` is the worker's operation before the call, `answer` what came: a step that ran has its number and its line."""
    if frame is None:
        return "a line that is no frame"
    operation, arguments = frame
    if operation != STEP or running is None or answer.line is None:
        return CALLS[operation].format(*arguments)
    line = f"line {answer.line}" if answer.line else "closing step"
    return f"{CALLS[running[0]].format(*running[1])}, step {answer.steps}, {line}"


def answer_in_words(frame, answer):
    if answer.refusal is not None:
        return f"refused {answer.refusal} ({REFUSALS[answer.refusal]})"
    if answer.code == FINISHED:
        return f"answers {answer.value}"
    if answer.code == RUNNING:
        return "running"
    assert answer.code == ACCEPTED
    return {MAKE: "made", REGISTER: f"item {answer.value}"}.get(frame[0], "started")


def tell(catalogue, line):
    """Makes the call of a line of schedule's input: its frame (None: bad), the running operation before a step, its answer, and all in words."""
    frame = parse_frame(line)
    running = running_operation(catalogue, frame[1][0]) if frame is not None and frame[0] == STEP else None
    answer = catalogue.call_line(line)
    return frame, running, answer, f"{call_in_words(frame, running, answer)}: {answer_in_words(frame, answer)}"
