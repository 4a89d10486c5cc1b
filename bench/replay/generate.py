"""Models with traces that are runs of them, for the benchmark of `replay`."""

from typing import NamedTuple

# Each kind with what is said of it.
KINDS = {
    "written": "as traces are written",
    "mixed": "wants in another order, two blanks",
    "wide": "256 transitions of each component, of which the last four are used",
    "data": "variables, guards, updates and transfers",
    "priorities": "priorities, so grants see components",
    "fewer": "priorities, grants see what reasons name",
}
WITH_PRIORITIES = ("priorities", "fewer")
MEBIBYTE = 1024 * 1024
# of so many interactions, the first are granted by chance, and the others stand above them
PLAIN, ABOVE = 96, 32


class Shape(NamedTuple):
    """What is made: the kind, how many components, transitions of each and participants at most,
    and the bytes of the trace, which is so long but for its last line."""

    kind: str
    components: int = 64
    transitions: int = 4
    participants: int = 8
    size: int = 16 * MEBIBYTE - 4096


def shape_of(kind):
    return Shape(kind, transitions=256 if kind == "wide" else 4)


def participants(shape):
    """The participants of each interaction, each a component with one port of all."""
    count, most = shape.components, shape.participants
    for first in range(count):
        size = first % most + 1
        yield sorted((first + 5 * k) % count for k in range(size)), "tick"
        yield sorted((first + 11 * k) % count for k in range(most + 1 - size)), "tock"


def with_priorities(shape):
    """The first interactions, and those of two components that stand above them."""
    plain = list(participants(shape))[:PLAIN]
    return plain + [([first, first + 32], "pull") for first in range(ABOVE)]


def above(number):
    """What stands above an interaction, lowest first: for a plain one the next two of those above
    it, of which the second stands above the first."""
    first = number % ABOVE
    if number >= PLAIN:
        return [number + 1] if first % 2 == 0 else []
    first -= first % 2
    return [PLAIN + first, PLAIN + first + 1]


def rest_of(shape):
    """The locations in which nobody ever is."""
    return [f"rest{number}" for number in range((shape.transitions - 8) // 4)]


def transitions(shape):
    """The lines of a component's transitions: those that are never taken, then the others."""
    rest = rest_of(shape)
    if shape.transitions > 4:
        for place in rest:
            yield from (f"trans {port} {place} low" for port in ("tick", "tock"))
        for port in ("other", "last"):
            yield from (f"trans {port} {place} low" for place in ("low", "high", *rest))
    if shape.kind == "data":
        yield "trans tick low high when phase = 0 do phase := phase + 1 ; total := total + 1"
        yield "trans tick high low when phase >= 1 do phase := phase - 1 ; total := total + seen"
        yield "trans tock low low when phase < 1 and total >= 0 do total := total + 2"
        yield "trans tock high high when phase + 1 = 2 do total := total - seen + 3"
        return
    yield from ("trans tick low high", "trans tick high low")
    yield from ("trans tock low low", "trans tock high high")
    if shape.kind in WITH_PRIORITIES:
        yield "trans pull high low"


def component(name, shape):
    """A component with two locations and the ports that are used."""
    yield f"component {name}"
    if shape.kind == "data":
        yield from ("var phase 0", "var total 0", "var seen 7")
    yield from ("loc low", "loc high", "port tick", "port tock")
    if shape.kind in WITH_PRIORITIES:
        yield "port pull"
    if shape.transitions > 4:
        yield from (f"loc {place}" for place in rest_of(shape))
        yield from ("port other", "port last")
    yield from transitions(shape)
    yield "end"


def interaction(number, comps, port, shape):
    """The line of an interaction; with data the first and the last participant exchange values."""
    parts = " ".join(f"node{comp}.{port}" for comp in comps)
    line = f"interaction step{number} {parts}"
    if shape.kind != "data":
        return line
    one, two = f"node{comps[0]}", f"node{comps[-1]}"
    line += f" when {one}.phase < 2 and {two}.phase <= {one}.phase + 1"
    if one == two:
        return f"{line} do {one}.seen := {one}.total + 1"
    return f"{line} do {one}.seen := {two}.total ; {two}.seen := {one}.total - {two}.seen"


def model(interactions, shape):
    """The lines of the model."""
    yield "bip 1"
    for comp in range(shape.components):
        yield from component(f"node{comp}", shape)
    for number, (comps, port) in enumerate(interactions):
        yield interaction(number, comps, port, shape)
    if shape.kind in WITH_PRIORITIES:
        for number in range(len(interactions)):
            yield from (f"priority step{number} < step{high}" for high in above(number)[:1])
    for number in range(0, len(interactions), 4):
        members = " ".join(f"step{number + k}" for k in range(4))
        yield f"class part{number // 4} {members}"


def draw(count):
    """Numbers below a count that a generator with a fixed seed gives."""
    state = 1
    while True:
        state = (state * 6364136223846793005 + 1442695040888963407) % 2**64
        yield (state >> 33) % count


def granted(interactions, shape):
    """The interactions of a run, in turn, each with the components that it sees. With priorities,
    one that stands above the drawn one and is enabled comes before it."""
    if shape.kind not in WITH_PRIORITIES:
        yield from ((number, []) for number in draw(len(interactions)))
    seen_by = named_by if shape.kind == "fewer" else looked_at
    is_high = [False] * shape.components
    for number in draw(PLAIN):
        for high in reversed(above(number)):
            comps = interactions[high][0]
            if all(is_high[comp] for comp in comps):
                yield high, seen_by(high, interactions, is_high)
                for comp in comps:
                    is_high[comp] = False
        yield number, seen_by(number, interactions, is_high)
        comps, port = interactions[number]
        for comp in comps:
            is_high[comp] ^= port == "tick"


def looked_at(number, interactions, _):
    """The components that an interaction looks at."""
    moved = {comp for high in above(number) for comp in interactions[high][0]}
    return sorted(moved - {*interactions[number][0]})


def named_by(number, interactions, is_high):
    """The components that the reasons for an interaction name: of each one above it the lowest that
    isn't high of those that it moves, else the lowest. Those that it moves aren't seen."""
    own = interactions[number][0]
    off = [[c for c in interactions[high][0] if not is_high[c]] for high in above(number)]
    named = {next((c for c in comps if c in own), comps[0]) for comps in off}
    return sorted(named - {*own})


def trace(interactions, shape):
    """The lines of a run."""
    used = [0] * shape.components
    left = shape.size
    for number, comps_seen in granted(interactions, shape):
        comps = interactions[number][0]
        seen = [f"node{comp}:{used[comp] + 1}" for comp in comps_seen]
        for comp in comps:
            used[comp] += 1
        wants = [f"node{comp}:{used[comp]}" for comp in comps]
        if shape.kind == "mixed":
            wants.reverse()
        words = ["grant", f"step{number}", *wants, *(["see", *seen] if seen else [])]
        line = ("  " if shape.kind == "mixed" else " ").join(words)
        left -= len(line) + 1
        if left < 0:
            return
        yield line


def write(shape, to_model, to_trace):
    """Writes the model and the trace of a shape, and returns how many bytes both have."""
    has_priorities = shape.kind in WITH_PRIORITIES
    interactions = with_priorities(shape) if has_priorities else list(participants(shape))
    size = 0
    for path, lines in ((to_model, model), (to_trace, trace)):
        with open(path, "w", encoding="ascii") as file:
            file.writelines(f"{line}\n" for line in lines(interactions, shape))
            size += file.tell()
    return size
