"""The models and worked schedules of the benchmark."""

COMPETE = """bip 1
component A
loc a0
loc a1
port s
trans s a0 a1
end
component B
loc b0
loc b1
port s
trans s b0 b1
end
component R
var n 0
loc r0
port g
trans g r0 r0 when n < 1 do n := n + 1
end
interaction x A.s R.g
interaction y B.s R.g
class P x
class Q y
"""

TWICE = COMPETE.replace("n < 1", "n < 2").replace("class P", "priority x < y\nclass P")


def mail(place):
    return f"m0{place}0"


def attempt(class_, inter):
    return f"t{class_}{inter}0"


def serve(station):
    return f"s0{station}0"


def deliver(place):
    return f"d0{place}0"


def hand(station, other):
    return f"p{station}{other}0"


def ask(station, other):
    return f"a{station}{other}0"


# both ask, the first is granted, and the second refused
ASKED = "".join([mail(0)] * 4 + [attempt(0, 0), attempt(1, 1)] + [mail(0)] * 2)
COMPETED = ASKED + serve(0) + serve(1)

# the same the other way round, with stations that share a token, or a fork
COMPETED_RING = ASKED + "".join(
    [serve(1), hand(0, 1), serve(0), deliver(0), serve(1), hand(1, 0), deliver(0), serve(0)]
)
COMPETED_FORKS = ASKED + "".join(
    [serve(1), ask(1, 0), deliver(0), hand(0, 1), deliver(0), serve(1)]
    + [ask(0, 1), deliver(0), hand(1, 0), deliver(0), serve(0)]
)

# the higher one runs, and then the lower one, which looks at what the higher one moves
RAN_TWICE = "".join(
    [mail(0)] * 5
    + [attempt(0, 0), attempt(1, 1), mail(0), serve(1), attempt(0, 0)]
    + [mail(0), mail(1), mail(1), attempt(0, 0)]
    + [mail(0), mail(1), attempt(0, 0), mail(2), serve(0)]
)


def component(name, there, back):
    """A component that goes to and fro between two locations, by these ports."""
    lines = [f"component {name}", "loc low", "loc high", f"port {there}"]
    lines += [f"port {back}"] if back != there else []
    return lines + [f"trans {there} low high", f"trans {back} high low", "end"]


def philosophers(count):
    """Each takes both forks beside it at once, and gives them back; each has a class."""
    lines = ["bip 1"]
    for number in range(count):
        lines += component(f"fork{number}", "take", "give")
    for number in range(count):
        lines += component(f"phil{number}", "eat", "think")
    for number in range(count):
        forks = f"fork{number}", f"fork{(number + 1) % count}"
        for name, own, port in (("take", "eat", "take"), ("give", "think", "give")):
            parts = f"phil{number}.{own} {forks[0]}.{port} {forks[1]}.{port}"
            lines.append(f"interaction {name}{number} {parts}")
    for number in range(count):
        lines.append(f"class seat{number} take{number} give{number}")
    return "\n".join(lines) + "\n"


def polite(count):
    """The same, but each gives back only while the one two seats on can't take. Of the three
    components that this needs, one shows that it can't."""
    pairs = [f"priority give{number} < take{(number + 2) % count}" for number in range(count)]
    return philosophers(count) + "\n".join(pairs) + "\n"


def ring(count):
    """Each component steps with the next one; at most 32 classes."""
    lines = ["bip 1"]
    for number in range(count):
        lines += component(f"node{number}", "tick", "tick")
    for number in range(count):
        parts = f"node{number}.tick node{(number + 1) % count}.tick"
        lines.append(f"interaction step{number} {parts}")
    each = 1 if count <= 32 else 2
    for number in range(0, count, each):
        lines.append(f"class part{number} " + " ".join(f"step{number + k}" for k in range(each)))
    return "\n".join(lines) + "\n"


def wide():
    """64 components, and 128 interactions of 1 to 8 of them, in 32 classes."""
    lines = ["bip 1"]
    for number in range(64):
        lines += component(f"node{number}", "tick", "tick")
    for first in range(64):
        size = first % 8 + 1
        for step, parts in ((5, size), (11, 9 - size)):
            comps = sorted((first + step * k) % 64 for k in range(parts))
            words = " ".join(f"node{comp}.tick" for comp in comps)
            lines.append(f"interaction step{first}by{step} {words}")
    for first in range(0, 64, 2):
        members = " ".join(f"step{first + k}by{step}" for k in (0, 1) for step in (5, 11))
        lines.append(f"class part{first} {members}")
    return "\n".join(lines) + "\n"
