#!/usr/bin/env python3
"""Writes the model texts (*.hex), NAMES.md, EXPECTED.tsv and vectors.tsv from readable definitions. The texts of laws/ are only
read: `seipolku build` makes them.

Run `python3 make.py` after building the oracle; it takes a minute or two. The verdicts below were settled
by argument (README.md); the script stops if the oracle gives another one.
"""

import os
import subprocess
import sys

HERE = os.path.dirname(os.path.abspath(__file__))
ORACLE = os.path.join(HERE, "..", "oracle", "target", "release", "oracle")
TAU = "tau"
EXIT = "exit"    # the termination event of LOTOS: no channel, and without a direction
WITHOUT_CHANNEL = {TAU: 0, EXIT: 62}
LAST_CHANNEL = 30
LIMIT = 1_000_000
PROGRAM_TABLE = 4096
LARGEST_TABLE = 1 << 20
SMALL_TABLE = 1 << 16    # a pair whose list fits it gets further lines in vectors.tsv
NODES = 1 << 24    # the oracle's room for a list that fits no table
FULL = "refused 8 2 0"
MAX_BITS = 24
# pairs, by operators, with a line for each table about one of the three numbers of nodes: one entry too short, just long enough, one longer
STAGED = {
    ("buffer_chain2", "buffer_places2"),             # 02, 03, 04
    ("shuttle_one", "shuttle_one_service"),          # 02, 03
    ("lotos_two_terms_hidden", "lotos_exit"),        # 04, 05, 06
    ("lotos_exit_joined", "lotos_exit"),             # 06
    ("enabled3", "enabled3_service"),                # 07
    ("shuttle_start", "shuttle_start_service"),      # 05, 06, 07
    ("disabled3", "disabled3_service"),              # 08
    ("shuttle_stop_parks", "shuttle_stop_parks_service"),    # 08
}

names = []       # lines of NAMES.md
pairs = []       # (left, right, strong verdict, weak verdict, whether the oracle can enumerate the pairs of states)
refusals = []    # (name, text, right, line): in this line the text gets more than MAX_BITS bits


class Family:
    """A group of models with one numbering of channels."""

    def __init__(self, title, gates=False, channels=""):
        """`channels` get the first numbers, in this order; the others follow as they are met."""
        self.title = title
        self.gates = gates    # all actions are outputs, written without a direction
        self.numbers = {name: number for number, name in enumerate(channels.split(), 1)}
        names.append(f"\n## {title}\n")

    def channel(self, name):
        number = self.numbers.setdefault(name, len(self.numbers) + 1)
        assert number <= LAST_CHANNEL and name not in WITHOUT_CHANNEL, name
        return number

    def action(self, word):
        """`a!` is output and `a?` input on channel a."""
        if word in WITHOUT_CHANNEL:
            return WITHOUT_CHANNEL[word]
        return 2 * self.channel(word[:-1]) + {"!": 0, "?": 1}[word[-1]]

    def finish(self):
        listed = ", ".join(f"{n} {name}" for name, n in self.numbers.items())
        names.append(f"Channels: {listed}.")


class Model:
    """Frames in line order; every method returns the number of the line it adds."""

    def __init__(self, family):
        self.family = family
        self.frames = []
        self.comments = []
        self.named = []    # processes and states, as a .names file has them

    def add(self, body, comment):
        self.frames.append([len(self.frames)] + body)
        self.comments.append(comment)
        return len(self.frames) - 1

    def leaf(self, name, steps, states=None):
        """Steps are (from, action, to) with state names; the first state named is the start."""
        states = list(states or [])
        for source, _, target in steps:
            for state in (source, target):
                if state not in states:
                    states.append(state)
        body = [1, len(states)]
        for source, word, target in steps:
            body += [states.index(source), self.family.action(word), states.index(target)]
        self.named.append(f"process {len(self.frames)} {spelled(name)}")
        self.named += [f"state {len(self.frames)} {i} {spelled(s)}" for i, s in enumerate(states)]
        return self.add(body, f"leaf {name}: " + ", ".join(f"{i} {spelled(s)}" for i, s in enumerate(states)))

    def compose(self, *lines):
        total = lines[0]
        for line in lines[1:]:
            total = self.add([2, total, line], f"compose {total}, {line}")
        return total

    def restrict(self, line, channels):
        return self.listed(3, "restrict", [line], channels)

    def hide(self, line, channels):
        return self.listed(5, "hide", [line], channels)

    def joint(self, one, other, channels):
        return self.listed(6, "joint", [one, other], channels)

    def enable(self, first, second):
        """>> of LOTOS."""
        return self.add([7, first, second], f"enable {first}, {second}")

    def disable(self, first, second):
        """[> of LOTOS."""
        return self.add([8, first, second], f"disable {first}, {second}")

    def listed(self, kind, word, lines, channels):
        numbers = [self.family.channel(c) for c in channels]
        text = f"{word} {', '.join(map(str, lines))} on {' '.join(channels) or 'no channel'}"
        return self.add([kind] + lines + numbers, text)

    def relabel(self, line, **new):
        """Old name = new name, one line each, in the order given."""
        for old, to in new.items():
            body = [4, line, self.family.channel(old), self.family.channel(to)]
            line = self.add(body, f"relabel {line}, {old} becomes {to}")
        return line

    def text(self):
        assert len(self.frames) <= 64 and all(2 <= len(f) <= 255 for f in self.frames)
        return "".join("".join(f"{byte:02X}" for byte in frame) + "\n" for frame in self.frames)

    def save(self, name):
        with open(path(name), "w", newline="") as file:
            file.write(self.text())
        write(name + ".names", [f"# The names of the numbers in {name}.hex."] + self.channels() + self.named)
        names.append(f"`{name}.hex`")
        names.extend(f"- {i}: {comment}" for i, comment in enumerate(self.comments))
        names.append("")
        return name

    def channels(self):
        """The channels that the frames name, as a .names file has them; exit needs no name."""
        used = set()
        for _, kind, *operands in self.frames:
            if kind == 1:
                used.update(action // 2 for action in operands[2::3])
            else:
                used.update(operands[2 if kind in (2, 6, 7, 8) else 1:])
        head = "gate" if self.family.gates else "channel"
        return [f"{head} {n} {spelled(c)}" for c, n in self.family.numbers.items() if n in used]


def path(name):
    return os.path.join(HERE, name + ".hex")


def spelled(name):
    """In quotes where the readable form of the command `seipolku` wants them."""
    return name if all(c.isalnum() or c in "_.'" for c in name) else f'"{name}"'


def pair(left, right, strong, weak, explicit=True):
    """Explicit if the pairs of states are few enough for the oracle to enumerate them."""
    pairs.append((left, right, strong, weak, explicit))


def refused(name, model, right, line):
    """A text that gets too many bits in this line: a vectors line, but no file, since all files are accepted."""
    refusals.append((name, model.text(), right, line))


def single_leaf(family, name, steps):
    model = Model(family)
    model.leaf(name, steps)
    return model.save(name)


def built(family, name, make):
    """`make` adds the lines to a new model."""
    model = Model(family)
    make(model)
    return model.save(name)


def row(model, join, leaves, right=False):
    """The leaves, each with its name, steps and (where it has none) states, put together by `join` from the left or
    from the right. Leaves of one name have one line."""
    lines = {}
    for name, *rest in leaves:
        if name not in lines:
            lines[name] = model.leaf(name, *rest)
    total, *others = [lines[leaf[0]] for leaf in (reversed(leaves) if right else leaves)]
    for other in others:
        total = join(model, *((other, total) if right else (total, other)))
    return total


def of_leaves(family, name, join, *leaves):
    return built(family, name, lambda model: row(model, join, leaves))


def from_the_right(family, name, join, *leaves):
    return built(family, name, lambda model: row(model, join, leaves, right=True))


def counter(places, up, down):
    """Steps of a counter 0 to `places`."""
    steps = []
    for n in range(places):
        steps += [(f"n{n}", up, f"n{n + 1}"), (f"n{n + 1}", down, f"n{n}")]
    return steps


def beside(model, one, other):
    """||| of LOTOS: only exit is taken together."""
    return model.joint(one, other, [])


def side_by_side(one, other):
    """Steps of two leaves, each taken alone; the states are pairs."""
    def states(steps):
        return list(dict.fromkeys(state for source, _, target in steps for state in (source, target)))

    steps = [(f"{s}, {o}", word, f"{t}, {o}") for o in states(other) for s, word, t in one]
    return steps + [(f"{o}, {s}", word, f"{o}, {t}") for o in states(one) for s, word, t in other]


# Buffers.

def buffers():
    family = Family("Buffers")

    def chain(count):
        model = Model(family)
        cell = model.leaf("cell", [("empty", "in?", "full"), ("full", "out!", "empty")])
        cells = []
        for i in range(count):
            line = cell
            if i > 0:
                line = model.relabel(line, **{"in": f"link{i}"})
            if i < count - 1:
                line = model.relabel(line, **{"out": f"link{i + 1}"})
            cells.append(line)
        model.restrict(model.compose(*cells), [f"link{i}" for i in range(1, count)])
        return model.save(f"buffer_chain{count}")

    def service(places):
        return single_leaf(family, f"buffer_places{places}", counter(places, "in?", "out!"))

    chains = {n: chain(n) for n in (2, 3, 4)}
    places = {n: service(n) for n in (1, 2, 3, 4)}
    for n in chains:
        pair(chains[n], places[n], "different", "equal")
    pair(chains[2], places[3], "different", "different")

    model = Model(family)
    cell = model.leaf("cell", [("empty", "in?", "full"), ("full", "out!", "empty")])
    model.compose(cell, cell)
    pair(model.save("buffer_bag2"), places[2], "equal", "equal")

    lossy = [("empty", "in?", "full"), ("full", "out!", "empty"), ("full", TAU, "empty")]
    pair(single_leaf(family, "buffer_lossy", lossy), places[1], "different", "different")
    family.finish()


# Milner's scheduler, source document 001, figure 2 and table 2.

def scheduler_cell():
    return [("waits", "get?", "chosen"), ("chosen", "start!", "started"), ("started", TAU, "ended"),
            ("ended", "put!", "waits"), ("started", "put!", "passed"), ("passed", TAU, "waits")]


def placed(model, cell, i, count):
    return model.relabel(cell, get=f"token{i}", start=f"task{i}", put=f"token{(i + 1) % count}")


def ring(family, count, tokens):
    model = Model(family)
    cell = model.leaf("cell", scheduler_cell())
    first = [(f"t{t}", "token0!", f"t{t + 1}") for t in range(tokens)]
    total = model.leaf("initialization", first)
    for i in range(count):
        total = model.compose(total, placed(model, cell, i, count))
    model.restrict(total, [f"token{i}" for i in range(count)])
    return model


def ring_first_chosen(family, count):
    """No initialization: the first cell has the token at the start."""
    model = Model(family)
    cell = model.leaf("cell", scheduler_cell())
    first = model.leaf("first cell", scheduler_cell(), states=["chosen"])
    cells = [placed(model, cell if i else first, i, count) for i in range(count)]
    model.restrict(model.compose(*cells), [f"token{i}" for i in range(count)])
    return model


def scheduler():
    family = Family("Milner's scheduler")

    def order(sequence, name):
        count = len(sequence)
        steps = [(f"s{i}", f"task{task}!", f"s{(i + 1) % count}") for i, task in enumerate(sequence)]
        return single_leaf(family, name, steps)

    for count in (2, 3, 4, 5, 6, 7):
        system = ring(family, count, 1).save(f"scheduler{count}")
        service = order(range(count), f"scheduler{count}_order")
        pair(system, service, "different", "equal", explicit=count < 7)
    pair("scheduler3", order([0, 2, 1], "scheduler3_wrong_order"), "different", "different")
    pair(ring(family, 3, 2).save("scheduler3_two_tokens"), "scheduler3_order", "different", "different")

    service = order(range(8), "scheduler8_order")
    for count in (4, 8):
        system = ring_first_chosen(family, count).save(f"scheduler{count}_first_chosen")
        pair(system, f"scheduler{count}_order", "different", "equal", explicit=count < 8)
    refused("scheduler8", ring(family, 8, 1), service, 33)
    family.finish()


# Alternating bit protocol with channels that may lose a message.

def alternating_bit():
    family = Family("Alternating bit protocol")

    def sender():
        steps = []
        for b in (0, 1):
            steps += [(f"accept{b}", "accept?", f"send{b}"), (f"send{b}", f"send{b}!", f"wait{b}"),
                      (f"wait{b}", f"ack{b}?", f"accept{1 - b}"), (f"wait{b}", f"ack{1 - b}?", f"wait{b}"),
                      (f"wait{b}", TAU, f"send{b}")]
        return steps

    def medium(taken, given):
        steps = []
        for b in (0, 1):
            steps += [("idle", f"{taken}{b}?", f"holds{b}"), (f"holds{b}", f"{given}{b}!", "idle"),
                      (f"holds{b}", TAU, "idle")]
        return steps

    def receiver(tests_bit):
        steps = []
        for b in (0, 1):
            repeated = f"reply{1 - b}" if tests_bit else f"deliver{1 - b}"
            steps += [(f"expect{b}", f"trans{b}?", f"deliver{b}"), (f"expect{b}", f"trans{1 - b}?", repeated),
                      (f"deliver{b}", "deliver!", f"reply{b}"), (f"reply{b}", f"reply{b}!", f"expect{1 - b}")]
        return steps

    def protocol(tests_bit, name):
        model = Model(family)
        parts = [model.leaf("sender", sender()), model.leaf("medium", medium("send", "trans")),
                 model.leaf("receiver", receiver(tests_bit)), model.leaf("returns", medium("reply", "ack"))]
        inner = [f"{word}{b}" for word in ("send", "trans", "reply", "ack") for b in (0, 1)]
        model.restrict(model.compose(*parts), inner)
        return model.save(name)

    service = single_leaf(family, "abp_service", [("empty", "accept?", "full"), ("full", "deliver!", "empty")])
    pair(protocol(True, "abp"), service, "different", "equal")
    pair(protocol(False, "abp_bit_ignored"), service, "different", "different")
    pair("abp", "abp_bit_ignored", "different", "different")
    family.finish()


# Dining philosophers, source document 004.

def philosophers():
    family = Family("Dining philosophers")

    def table(count, ordered, name):
        """In the ordered table the last philosopher takes the right fork first."""
        model = Model(family)

        def philosopher(one, two):
            return [("start", "think!", "hungry"), ("hungry", f"take{one}!", "first"),
                    ("first", f"take{two}!", "both"), ("both", "eat!", "done"),
                    ("done", "dropleft!", "half"), ("half", "dropright!", "start")]

        plain = model.leaf("philosopher", philosopher("left", "right"))
        turned = model.leaf("turned philosopher", philosopher("right", "left")) if ordered else plain
        fork = model.leaf("fork", [("free", "take?", "taken"), ("taken", "drop?", "free")])
        parts = []
        for i in range(1, count + 1):
            left, right = i % count + 1, i
            line = model.relabel(turned if i == count else plain, think=f"think{i}", takeleft=f"take{left}",
                                 takeright=f"take{right}", eat=f"eat{i}", dropleft=f"drop{left}",
                                 dropright=f"drop{right}")
            parts += [line, model.relabel(fork, take=f"take{i}", drop=f"drop{i}")]
        inner = [f"{word}{i}" for i in range(1, count + 1) for word in ("take", "drop")]
        model.restrict(model.compose(*parts), inner)
        return model.save(name)

    def service():
        """Two philosophers who share one permit."""
        model = Model(family)
        permit = model.leaf("permit", [("free", "take?", "taken"), ("taken", "drop?", "free")])
        guest = model.leaf("guest", [("start", "think!", "hungry"), ("hungry", "take!", "served"),
                                     ("served", "eat!", "done"), ("done", "drop!", "start")])
        guests = [model.relabel(guest, think=f"think{i}", eat=f"eat{i}") for i in (1, 2)]
        model.restrict(model.compose(*guests, permit), ["take", "drop"])
        return model.save("philosophers2_permit")

    plain, ordered = table(2, False, "philosophers2"), table(2, True, "philosophers2_ordered")
    pair(plain, ordered, "different", "different")
    permit = service()
    pair(ordered, permit, "different", "equal")
    pair(plain, permit, "different", "different")
    pair(table(3, False, "philosophers3"), table(3, True, "philosophers3_ordered"), "different", "different")
    family.finish()


# Gas station, source document 004.

def gas_station():
    family = Family("Gas station")
    both = (1, 2)

    def operator(right):
        steps = [("ready", f"prepay{i}?", "prepaid") for i in both]
        steps += [("prepaid", "avlbl?", "starts"), ("starts", "act!", "ready"), ("prepaid", "occupied!", "ready")]
        for i in both:
            charged = f"charged{i}" if right else "charged"
            steps += [("ready", f"charge{i}?", charged), (charged, f"change{i}!", "paid back")]
        return steps + [("paid back", "wait?", "starts"), ("paid back", "none!", "ready")]

    def queue():
        return [("free", "avlbl!", "active"), ("active", "none?", "free"), ("active", "occupied?", "waiting"),
                ("waiting", "wait!", "active")]

    def pump(right):
        steps = [("idle", "act?", "ready")]
        for i in both:
            running, done = (f"running{i}", f"done{i}") if right else ("running", "done")
            steps += [("ready", f"start{i}?", running), (running, f"finish{i}?", done),
                      (done, f"charge{i}!", "idle")]
        return steps

    def station(model, right):
        parts = [model.leaf("operator", operator(right)), model.leaf("queue", queue()),
                 model.leaf("pump", pump(right))]
        inner = ["avlbl", "occupied", "none", "wait", "act", "charge1", "charge2"]
        return model.restrict(model.compose(*parts), inner)

    def open_station(right, name):
        model = Model(family)
        station(model, right)
        return model.save(name)

    def closed_station(right, name):
        """With two customers, each of whom shows that he drives away with his change."""
        model = Model(family)
        system = station(model, right)
        customer = model.leaf("customer", [
            ("arrives", "prepay!", "paid"), ("paid", "start!", "fuelling"), ("fuelling", "finish!", "waits"),
            ("waits", "change?", "leaves"), ("leaves", "away!", "arrives")])
        customers = [model.relabel(customer, prepay=f"prepay{i}", start=f"start{i}", finish=f"finish{i}",
                                   change=f"change{i}", away=f"away{i}") for i in both]
        shared = [f"{word}{i}" for word in ("prepay", "start", "finish", "change") for i in both]
        model.restrict(model.compose(system, *customers), shared)
        return model.save(name)

    pair(open_station(False, "gas_station"), open_station(True, "gas_station_right"), "different", "different")
    service = single_leaf(family, "gas_service", [("any", "away1!", "any"), ("any", "away2!", "any")])
    pair(closed_station(False, "gas_closed"), service, "different", "equal")
    pair(closed_station(True, "gas_closed_right"), service, "different", "equal")
    family.finish()


# Parts of the LOTOS transport handler, source document 000, figure 2. All actions but exit are outputs.

EXITS = ("exits", EXIT, "stop")
DATA = [("data", TAU, "sends"), ("sends", "DatReq!", "data"), ("data", "DatInd!", "data")]
TERM = [("term", TAU, "ends"), ("term", "DisInd!", "exits"), ("ends", "DisReq!", "exits")]


def transport_handler():
    # DatReq and DatInd keep the numbers that they had when exit was gate 7.
    family = Family("LOTOS transport handler", gates=True,
                    channels="CInd CReq CCnf DisInd CRes DisReq halt DatReq DatInd")
    for make in (connection_phase, data_and_term, whole_handler, connection_observed, exit_alone, term_phase,
                 two_term_phases, disabled_data, unfolded_handler, one_connection, printed_rules, hidden_phases,
                 two_enabled_terms):
        make(family)
    family.finish()


def connect(end, inner=True):
    """Conn_Phase, which goes on in `end`; without `inner` its i steps are left out."""
    steps = [("conn", "CInd!", "called"), ("calling", "CReq!", "requested"),
             ("requested", "CCnf!", end), ("requested", "DisInd!", "conn"),
             ("accepts", "CRes!", end), ("rejects", "DisReq!", "conn")]
    if inner:
        return [("conn", TAU, "calling"), ("called", TAU, "accepts"), ("called", TAU, "rejects")] + steps
    short = [("conn", "CInd!", "called"), ("conn", "CReq!", "requested"), ("called", "CRes!", end),
             ("called", "DisReq!", "conn")]
    return short + steps[2:4]


def data_until_end(end):
    """Data_Phase disabled by Term_Phase."""
    ends = [step for alive in ("data", "sends") for step in ((alive, TAU, "ends"), (alive, "DisInd!", end))]
    return DATA + ends + [("ends", "DisReq!", end)]


def connection_phase(family):
    connection = single_leaf(family, "lotos_connect", connect("exits") + [EXITS])
    without = single_leaf(family, "lotos_connect_without_i", connect("exits", inner=False) + [EXITS])
    pair(connection, without, "different", "different")

    model = Model(family)
    model.restrict(model.leaf("connect", connect("exits") + [EXITS]), ["CInd"])
    calling = [("conn", TAU, "calling"), ("calling", "CReq!", "requested"), ("requested", "CCnf!", "exits"),
               ("requested", "DisInd!", "conn"), EXITS]
    pair(model.save("lotos_connect_no_calls"), single_leaf(family, "lotos_calling", calling), "equal", "equal")


def data_and_term(family):
    flat = single_leaf(family, "lotos_data_term", data_until_end("exits") + [EXITS])
    gate = [("open", "DatReq!", "open"), ("open", "DatInd!", "open"), ("open", "halt!", "shut"),
            ("open", "DisInd!", "shut")]

    model = Model(family)
    gated = model.joint(model.leaf("data", DATA), model.leaf("gate", gate), ["DatReq", "DatInd"])
    # Data and gate have no exit, so a leaf composed with them exits in their place.
    ending = model.compose(gated, model.leaf("ending", [EXITS]))
    term = model.leaf("term", [("term", "halt!", "ends")] + TERM[1:] + [EXITS])
    model.hide(model.joint(ending, term, ["halt", "DisInd"]), ["halt"])
    pair(model.save("lotos_data_term_gate"), flat, "different", "equal")

    def both(join, name):
        model = Model(family)
        join(model, model.leaf("data", DATA), model.leaf("term", TERM + [EXITS]))
        return model.save(name)

    apart = both(beside, "lotos_data_beside_term")
    pair(apart, flat, "different", "different")
    stops = single_leaf(family, "lotos_data_beside_stop", side_by_side(DATA, TERM))
    pair(apart, stops, "equal", "equal")
    pair(both(Model.compose, "lotos_data_term_composed"), apart, "different", "different")


AGAIN = data_until_end("over") + [("over", TAU, "conn")]
HANDLER = connect("connected") + [("connected", TAU, "data")] + AGAIN


def whole_handler(family):
    """With a tau step for each enabling."""
    handler = single_leaf(family, "lotos_handler", HANDLER)
    short = single_leaf(family, "lotos_handler_short", connect("data") + data_until_end("conn"))
    pair(handler, short, "different", "equal")

    model = Model(family)
    model.restrict(model.leaf("handler", HANDLER), ["CInd"])
    caller = [("conn", TAU, "calling"), ("calling", "CReq!", "requested"), ("requested", "CCnf!", "connected"),
              ("requested", "DisInd!", "conn"), ("connected", TAU, "data")]
    pair(model.save("lotos_handler_no_calls"), single_leaf(family, "lotos_caller", caller + AGAIN), "equal", "equal")


def connection_observed(family):
    """Conn_Phase with an observer, who notes the connection and then ends too."""
    def observed(ending):
        model = Model(family)
        noting = [("waits", "CCnf!", "connected"), ("waits", "CRes!", "connected"), ("connected", "note!", "exits")]
        phase = model.leaf("connect", connect("exits") + [EXITS])
        return model, model.joint(phase, model.leaf("observer", noting + ending), ["CCnf", "CRes"])

    noted = connect("connected") + [("connected", "note!", "exits"), EXITS]
    service = single_leaf(family, "lotos_connect_noted", noted)
    pair(observed([EXITS])[0].save("lotos_connect_observed"), service, "equal", "equal")

    def hidden(ending, name):
        model, whole = observed(ending)
        model.hide(whole, ["note"])
        return model.save(name)

    pair(hidden([EXITS], "lotos_connect_note_hidden"), "lotos_connect", "different", "equal")
    pair(hidden([], "lotos_connect_observer_stops"), "lotos_connect", "different", "different")


def exit_alone(family):
    one = single_leaf(family, "lotos_exit", [EXITS])
    two = single_leaf(family, "lotos_exit_twice", [("exits", EXIT, "exits again"), ("exits again", EXIT, "stop")])

    def both(join, name):
        model = Model(family)
        phase = model.leaf("phase", [EXITS])
        join(model, phase, phase)
        return model.save(name)

    pair(both(beside, "lotos_exit_joined"), one, "equal", "equal")
    pair(both(Model.compose, "lotos_exit_composed"), two, "equal", "equal")
    pair("lotos_exit_composed", one, "different", "different")


def term_phase(family):
    """Its gates hidden; `expanded` is what table 2 makes of that."""
    expanded = [(source, TAU, target) for source, _, target in TERM]
    model = Model(family)
    model.hide(model.leaf("term", TERM + [EXITS]), ["DisReq", "DisInd"])
    hidden = model.save("lotos_term_hidden")
    pair(hidden, single_leaf(family, "lotos_term_expanded", expanded + [EXITS]), "equal", "equal")
    pair(hidden, "lotos_exit", "different", "equal")


def two_term_phases(family):
    """Term_Phase of two connections, each with gates of its own."""
    def both(join):
        model = Model(family)
        term = model.leaf("term", TERM + [EXITS])
        return model, join(model, term, model.relabel(term, DisReq="DisReq2", DisInd="DisInd2"))

    def hidden(join, name):
        model, whole = both(join)
        model.hide(whole, ["DisReq", "DisInd", "DisReq2", "DisInd2"])
        return model.save(name)

    second = [(source, word.replace("!", "2!"), target) for source, word, target in TERM]
    steps = side_by_side(TERM, second) + [("exits, exits", EXIT, "stop")]
    service = single_leaf(family, "lotos_two_terms_service", steps)
    pair(both(beside)[0].save("lotos_two_terms"), service, "equal", "equal")
    pair(both(Model.compose)[0].save("lotos_two_terms_composed"), service, "different", "different")
    pair(hidden(beside, "lotos_two_terms_hidden"), "lotos_exit", "different", "equal")
    pair(hidden(Model.compose, "lotos_two_terms_composed_hidden"), "lotos_exit_twice", "different", "equal")


# Enabling and disabling as document 000 has them.

GATES = ["CReq", "CInd", "CRes", "CCnf", "DatReq", "DatInd", "DisReq", "DisInd"]
CONN_PHASE = ("connect", connect("exits") + [EXITS])
DATA_PHASE = ("data", DATA)
TERM_PHASE = ("term", TERM + [EXITS])
EXIT_PHASE = ("phase", [EXITS])
NEVER_EXITS = data_until_end("stop")    # Data_Term_Phase, if it were noexit as printed


def data_term_phase(model):
    return model.disable(model.leaf(*DATA_PHASE), model.leaf(*TERM_PHASE))


def disabled_data(family):
    """Data_Term_Phase: Data_Phase [> Term_Phase."""
    disabled = built(family, "lotos_data_disabled", data_term_phase)
    pair(disabled, "lotos_data_term", "equal", "equal")
    pair(disabled, "lotos_data_term_gate", "different", "equal")
    pair(disabled, single_leaf(family, "lotos_data_noexit", NEVER_EXITS), "different", "different")

    enabled = of_leaves(family, "lotos_data_enabled", Model.enable, DATA_PHASE, TERM_PHASE)
    pair(enabled, single_leaf(family, "lotos_data", DATA), "equal", "equal")
    pair(enabled, "lotos_data_term", "different", "different")


def unfolded_handler(family):
    """Handler is Conn_Phase >> Connected, and Connected is Data_Term_Phase >> Handler; the last Handler is a leaf."""
    def connected(model):
        return model.enable(data_term_phase(model), model.leaf("handler", HANDLER))

    def regrouped(model):
        once = model.enable(model.leaf(*CONN_PHASE), data_term_phase(model))
        return model.enable(once, model.leaf("handler", HANDLER))

    model = Model(family)
    model.leaf("connected", HANDLER, states=["data"])
    flat = model.save("lotos_connected")
    pair(built(family, "lotos_connected_unfolded", connected), flat, "equal", "equal")
    unfolded = built(family, "lotos_handler_unfolded", lambda m: m.enable(m.leaf(*CONN_PHASE), connected(m)))
    pair(unfolded, "lotos_handler", "equal", "equal")
    pair(unfolded, "lotos_handler_short", "different", "equal")
    pair(built(family, "lotos_handler_regrouped", regrouped), unfolded, "equal", "equal")

    exits = HANDLER + [(state, EXIT, "stop") for state in ("connected", "over")]
    pair(unfolded, single_leaf(family, "lotos_handler_printed", exits), "different", "different")
    stuck = of_leaves(family, "lotos_connected_noexit", Model.enable, ("data until the end", NEVER_EXITS),
                      ("handler", HANDLER))
    pair(stuck, "lotos_data_noexit", "equal", "equal")
    pair(stuck, flat, "different", "different")


def one_connection(family):
    """Conn_Phase >> Data_Term_Phase, which ends by exit."""
    flat = connect("connected") + [("connected", TAU, "data")] + data_until_end("exits") + [EXITS]
    service = single_leaf(family, "lotos_once_service", flat)
    once = built(family, "lotos_once", lambda m: m.enable(m.leaf(*CONN_PHASE), data_term_phase(m)))
    pair(once, service, "equal", "equal")

    def regrouped(model):
        phases = model.enable(model.leaf(*CONN_PHASE), model.leaf(*DATA_PHASE))
        return model.disable(phases, model.leaf(*TERM_PHASE))

    pair(built(family, "lotos_once_regrouped", regrouped), service, "different", "different")


def printed_rules(family):
    """exit >> Term_Phase and exit [> Term_Phase: by ISO 8807, expanded, and by the formulas of section 4.1."""
    enabled = of_leaves(family, "lotos_exit_enables", Model.enable, EXIT_PHASE, TERM_PHASE)
    pair(enabled, single_leaf(family, "lotos_i_term", [("phase", TAU, "term")] + TERM + [EXITS]), "equal", "equal")
    pair(enabled, single_leaf(family, "lotos_term", TERM + [EXITS]), "different", "equal")
    any_event = [("phase", word, "term") for word in [TAU, EXIT] + [gate + "!" for gate in GATES]]
    printed = single_leaf(family, "lotos_exit_enables_printed", any_event + TERM + [EXITS])
    pair(enabled, printed, "different", "different")

    disabled = of_leaves(family, "lotos_exit_disabled", Model.disable, EXIT_PHASE, TERM_PHASE)
    choice = [("term", EXIT, "stop")] + TERM + [EXITS]
    pair(disabled, single_leaf(family, "lotos_exit_or_term", choice), "equal", "equal")
    ends = [("ends", "DisReq!", "exits"), EXITS]
    alive = [step for s in ("phase", "over") for step in ((s, TAU, "ends"), (s, "DisInd!", "exits"))]
    printed = single_leaf(family, "lotos_exit_disabled_printed", [("phase", EXIT, "over")] + alive + ends)
    pair(disabled, printed, "different", "different")


def hidden_phases(family):
    """hide H in a disabling and in an enabling, and in their operands."""
    gates = ["DisReq", "DisInd"]
    whole = built(family, "lotos_data_disabled_hidden", lambda m: m.hide(data_term_phase(m), gates))

    def by_hidden(model):
        return model.disable(model.leaf(*DATA_PHASE), model.hide(model.leaf(*TERM_PHASE), gates))

    parts = built(family, "lotos_data_disabled_by_hidden", by_hidden)
    pair(whole, parts, "equal", "equal")
    by_exit = of_leaves(family, "lotos_data_disabled_by_exit", Model.disable, DATA_PHASE, EXIT_PHASE)
    pair(parts, by_exit, "different", "different")

    def once(model):
        return model.hide(model.enable(model.leaf(*CONN_PHASE), data_term_phase(model)), gates)

    def once_of_hidden(model):
        return model.enable(model.hide(model.leaf(*CONN_PHASE), gates), model.hide(data_term_phase(model), gates))

    pair(built(family, "lotos_once_hidden", once), built(family, "lotos_once_of_hidden", once_of_hidden),
         "equal", "equal")


def two_enabled_terms(family):
    """exit >> Term_Phase of two connections, each enabled alone or both together."""
    def each(model):
        one = model.enable(model.leaf(*EXIT_PHASE), model.leaf(*TERM_PHASE))
        return beside(model, one, model.relabel(one, DisReq="DisReq2", DisInd="DisInd2"))

    def together(model):
        phase, term = model.leaf(*EXIT_PHASE), model.leaf(*TERM_PHASE)
        terms = beside(model, term, model.relabel(term, DisReq="DisReq2", DisInd="DisInd2"))
        return model.enable(beside(model, phase, phase), terms)

    pair(built(family, "lotos_two_enabled", each), "lotos_two_terms", "different", "equal")
    pair(built(family, "lotos_two_enabled_together", together), "lotos_two_terms", "different", "equal")
    pair("lotos_two_enabled", "lotos_two_enabled_together", "different", "equal")


# Two handlers of document 000, one of which calls the other through a provider; each of the three ends by exit.

CALLING = [("idle", "CReq!", "requested"), ("requested", "CCnf!", "exits"), ("requested", "DisInd!", "idle"), EXITS]
TO_CALLING = ["CReq", "CCnf", "DisInd"]
TO_CALLED = ["CInd", "CRes", "DisReq"]


def called(direction):
    return [("idle", "CInd" + direction, "called"), ("called", TAU, "accepts"), ("called", TAU, "rejects"),
            ("accepts", "CRes" + direction, "exits"), ("rejects", "DisReq" + direction, "idle"), EXITS]


def provider(confirms):
    """Carries the request to the called side, and its answer back, or ends without the answer that confirms."""
    accepted = [("offered", "CRes!", "accepted"), ("accepted", "CCnf!", "exits")]
    return [("idle", "CReq!", "asked"), ("asked", "CInd!", "offered"), ("offered", "DisReq!", "refused"),
            ("refused", "DisInd!", "idle")] + (accepted if confirms else [("offered", "CRes!", "exits")]) + [EXITS]


def connection_of_two():
    family = Family("LOTOS connection of two handlers")

    def joined(confirms=True):
        model = Model(family)
        caller = model.joint(model.leaf("calling", CALLING), model.leaf("provider", provider(confirms)), TO_CALLING)
        return model, model.joint(caller, model.leaf("called", called("!")), TO_CALLED)

    accepts = [("idle", "CReq!", "asked"), ("asked", "CInd!", "called"), ("called", TAU, "accepts"),
               ("accepts", "CRes!", "accepted"), ("accepted", "CCnf!", "exits"), EXITS]
    rejects = [("called", TAU, "rejects"), ("rejects", "DisReq!", "refused"), ("refused", "DisInd!", "idle")]
    service = single_leaf(family, "lotos_connection_service", accepts + rejects)
    pair(joined()[0].save("lotos_connection"), service, "equal", "equal")
    pair(joined(confirms=False)[0].save("lotos_connection_unconfirmed"), service, "different", "different")
    connection_regrouped(family, service)

    model, whole = joined()
    model.hide(whole, TO_CALLED)
    decides = [("idle", "CReq!", "decides"), ("decides", TAU, "accepted"), ("decides", TAU, "refused"),
               ("accepted", "CCnf!", "exits"), ("refused", "DisInd!", "idle"), EXITS]
    seen = single_leaf(family, "lotos_connection_seen", decides)
    pair(model.save("lotos_connection_hidden"), seen, "different", "equal")
    connection_composed(family, seen)
    family.finish()


def connection_regrouped(family, service):
    """The called side is joined with the provider first."""
    model = Model(family)
    caller, between = model.leaf("calling", CALLING), model.leaf("provider", provider(True))
    answering = model.joint(between, model.leaf("called", called("!")), TO_CALLED)
    model.joint(caller, answering, TO_CALLING)
    pair(model.save("lotos_connection_regrouped"), service, "equal", "equal")
    pair("lotos_connection_regrouped", "lotos_connection", "equal", "equal")


def connection_composed(family, seen):
    """The called side, with inputs, is composed and not joined."""
    model = Model(family)
    caller = model.joint(model.leaf("calling", CALLING), model.leaf("provider", provider(True)), TO_CALLING)
    model.restrict(model.compose(caller, model.leaf("called", called("?"))), TO_CALLED)
    pair(model.save("lotos_connection_composed"), seen, "different", "different")


# Shuttle: host link, journal, drive and a supply that may drop.

def shuttle():
    family = Family("Shuttle")

    def one_move(right, name):
        """A one-move journal that is told of the drop, and the supply."""
        model = Model(family)
        lost = "pending, off" if right else "empty, off"
        journal = model.leaf("journal", [
            ("empty", "move?", "pending"), ("pending", "done!", "empty"),
            ("empty", "drop?", "empty, off"), ("pending", "drop?", lost),
            ("empty, off", "up?", "empty"), ("pending, off", "up?", "pending")],
            states=["empty", "pending", "empty, off", "pending, off"])
        supply = model.leaf("supply", [("on", "drop!", "off"), ("off", "up!", "on")])
        model.restrict(model.compose(journal, supply), ["drop", "up"])
        return model.save(name)

    small = single_leaf(family, "shuttle_one_service", counter(1, "move?", "done!"))
    pair(one_move(True, "shuttle_one"), small, "different", "equal")
    pair(one_move(False, "shuttle_one_faulty"), small, "different", "different")

    def station(k, drop, name):
        return built(family, name, lambda model: station_of_leaves(model, k, drop))

    for k in (1, 2, 3, 5, 7):
        service = shuttle_service(family, k)
        pair(station(k, "survives", f"shuttle{k}"), service, "different", "equal")
        pair(station(k, "waits", f"shuttle{k}_flushed_first"), service, "different", "equal")
        pair(station(k, "loses", f"shuttle{k}_faulty"), service, "different", "different")
    pair("shuttle1", "shuttle1_flushed_first", "different", "equal")
    pair("shuttle1", "shuttle1_faulty", "different", "different")
    pair("shuttle2", "shuttle1_service", "different", "different")
    for make in (shuttle_of_cells, parked_drive, last_move, shuttle_that_ends, start_then_run, powered_start,
                 stopped_drive, stopped_station, started_and_stopped):
        make(family)
    family.finish()


def counting_journal(k, drop):
    """n moves pending; in the states `new` the last of them is not flushed yet."""
    flushed = [f"{n} pending" for n in range(k + 1)]
    new = [None] + [f"{n} pending, last new" for n in range(1, k + 1)]
    steps = []
    for n in range(k):
        steps += [(flushed[n], "log?", new[n + 1]), (new[n + 1], "flush!", flushed[n + 1]),
                  (flushed[n + 1], "go!", flushed[n])]
    steps += [(new[n], "go!", new[n - 1]) for n in range(2, k + 1)]
    steps += [(state, "drop!", state) for state in flushed]
    if drop == "survives":
        steps += [(state, "drop!", state) for state in new[1:]]
    if drop == "loses":
        steps += [(new[n], "drop!", flushed[n - 1]) for n in range(1, k + 1)]
    return steps


DRIVE = [("idle", "go!", "busy"), ("busy", "done!", "idle")]
SUPPLY = [("on", "drop!", "off"), ("off", "up!", "on"), ("on", "flush!", "on"), ("on", "go!", "on"),
          ("on", "done!", "on")]


def powered_parts(model, book, drive):
    """Journal, drive and supply. While the supply is off, nothing is flushed, handed to the drive or done."""
    supply = model.leaf("supply", SUPPLY)
    driven = model.joint(book, drive, ["go"])
    powered = model.joint(driven, supply, ["drop", "flush", "go", "done"])
    return model.hide(powered, ["drop", "up", "flush", "go"])


def station_of_leaves(model, k, drop):
    cell = model.leaf("one-place cell", [("empty", "in?", "full"), ("full", "out!", "empty")])
    link = model.relabel(cell, **{"in": "move", "out": "log"})
    book = model.leaf("journal", counting_journal(k, drop))
    inner = powered_parts(model, book, model.leaf("drive", DRIVE))
    return model.restrict(model.compose(link, inner), ["log"])


def shuttle_service(family, k):
    """Takes up to k + 2 moves: those of the journal, one in the host link and one in the drive."""
    return single_leaf(family, f"shuttle{k}_service", counter(k + 2, "move?", "done!"))


# The same with a journal made of cells: a write cell for the last move, then one-place cells.

def write_cell(drop, hand):
    """A move is handed on when it is flushed."""
    kept = {"survives": "new", "loses": "empty"}[drop]
    return [("empty", "log?", "new"), ("new", "flush!", "flushed"), ("flushed", hand, "empty"),
            ("empty", "drop!", "empty"), ("new", "drop!", kept), ("flushed", "drop!", "flushed")]


def chain(model, lines, count):
    """The line of `count` cells in a row, made of two shorter rows; `lines` keeps the line of each length."""
    if count not in lines:
        front, back = chain(model, lines, count // 2), chain(model, lines, count - count // 2)
        both = model.compose(model.relabel(front, out="hand"), model.relabel(back, **{"in": "hand"}))
        lines[count] = model.restrict(both, ["hand"])
    return lines[count]


def row_of_cells(model, cell, count):
    return chain(model, {1: cell}, count)


def counting_leaf(model, cell, count):
    """One leaf in the place of the row: moves are alike, so that their number tells all."""
    return model.leaf("flushed moves", counter(count, "in?", "out!"))


def journal_of_cells(model, cell, k, drop, row):
    """The write cell and a row of k - 1 further cells, the last of which hands over to the drive."""
    if k == 1:
        return model.leaf("write cell", write_cell(drop, "go!"))
    write = model.leaf("write cell", write_cell(drop, "hand!"))
    cells = model.relabel(row(model, cell, k - 1), **{"in": "hand", "out": "go"})
    return model.restrict(model.compose(write, cells), ["hand"])


def station_of_cells(family, k, drop, row=row_of_cells):
    """While the supply is not on, nothing is flushed, handed to the drive, carried out or done."""
    model = Model(family)
    cell = model.leaf("one-place cell", [("empty", "in?", "full"), ("full", "out!", "empty")])
    link = model.relabel(cell, **{"in": "move", "out": "log"})
    journal = journal_of_cells(model, cell, k, drop, row)
    drive = model.leaf("drive", [("idle", "go!", "moving"), ("moving", "arrive!", "arrived"),
                                 ("arrived", "done!", "idle")])
    powered = ["flush", "go", "arrive", "done"]
    turns = [("on", "drop!", "off"), ("off", "up!", "starting"), ("starting", "ready!", "on")]
    supply = model.leaf("supply", turns + [("on", word + "!", "on") for word in powered])
    driven = model.joint(journal, drive, ["go"])
    whole = model.joint(driven, supply, ["drop"] + powered)
    inner = model.hide(whole, ["drop", "up", "ready", "flush", "go", "arrive"])
    model.restrict(model.compose(link, inner), ["log"])
    return model


def shuttle_of_cells(family):
    def both(k):
        """The names of the right station and of the faulty one."""
        return [station_of_cells(family, k, drop).save(f"shuttle{k}_cells{ending}")
                for drop, ending in (("survives", ""), ("loses", "_faulty"))]

    largest = MAX_BITS - 6    # k cells with link, drive and supply have k + 6 bits
    stations = {k: both(k) for k in (1, 2, 3, 4, 5, 6, 8, 9, 16, largest)}
    for k in (8, 9, 16, largest):
        shuttle_service(family, k)
    for k in (1, 2, 3, 8, 9, 16, largest):
        right, faulty = stations[k]
        pair(right, f"shuttle{k}_service", "different", "equal", explicit=k <= 9)
        pair(faulty, f"shuttle{k}_service", "different", "different", explicit=k <= 9)
    for k in (3, 4, 5, 6):
        pair(*stations[k], "different", "different")
    above = station_of_cells(family, largest + 1, "survives")
    refused(f"shuttle{largest + 1}_cells", above, f"shuttle{largest}_service", 37)

    def counted(k, drop, ending):
        return station_of_cells(family, k, drop, counting_leaf).save(f"shuttle{k}_counted{ending}")

    pair(counted(3, "survives", ""), "shuttle3_cells", "different", "equal")
    pair(counted(16, "survives", ""), "shuttle16_service", "different", "equal")
    pair(counted(16, "loses", "_faulty"), "shuttle16_service", "different", "different")


# Phases of the shuttle that end by exit.

def parked_drive(family):
    """The drive can only exit, and the journal has a move to flush before it exits."""
    flushes = [("new", "flush!", "flushed"), ("flushed", EXIT, "over")]
    service = single_leaf(family, "shuttle_parked_service", flushes)

    def both(join, name):
        model = Model(family)
        join(model, model.leaf("journal", flushes), model.leaf("drive", [("parked", EXIT, "over")]))
        return model.save(name)

    pair(both(beside, "shuttle_parked"), service, "equal", "equal")
    pair(both(Model.compose, "shuttle_parked_composed"), service, "different", "different")


def last_move(family):
    """The drive carries the last move out while the journal writes it down: each ends by exit."""
    arrives = [("moving", "arrive!", "arrived"), ("arrived", EXIT, "over")]
    flushes = [("new", "flush!", "flushed"), ("flushed", EXIT, "over")]
    book = [("ready", "move?", "given"), ("given", "go!", "new")] + flushes

    model = Model(family)
    drive = model.leaf("drive", [("idle", "go!", "moving")] + arrives)
    model.hide(model.joint(model.leaf("journal", book), drive, ["go"]), ["go"])
    ends = side_by_side(flushes[:1], arrives[:1]) + [("flushed, arrived", EXIT, "over")]
    service = single_leaf(family, "shuttle_last_service", [("ready", "move?", "new, moving")] + ends)
    pair(model.save("shuttle_last"), service, "different", "equal")

    model = Model(family)
    drive = model.leaf("drive", [("idle", "go?", "moving")] + arrives)
    model.restrict(model.compose(model.leaf("journal", book), drive), ["go"])
    composed = model.save("shuttle_last_composed")
    pair(composed, service, "different", "different")
    start = [("ready", "move?", "given"), ("given", TAU, "new, moving")]
    alone = single_leaf(family, "shuttle_last_alone", start + side_by_side(flushes, arrives))
    pair(composed, alone, "equal", "equal")


def ending_parts(model, journal_ends, supply_ends):
    """Journal for one move, drive and supply, joined. Journal and supply can exit in the states given."""
    book = model.leaf("journal", write_cell("survives", "go!") + [(state, EXIT, "over") for state in journal_ends])
    drive = model.leaf("drive", [("idle", "go!", "busy"), ("busy", "done!", "idle"), ("idle", EXIT, "over")])
    turns = [("on", "drop!", "off"), ("off", "up!", "on")]
    powered = ["flush", "go", "done"]
    supply = model.leaf("supply", turns + [("on", word + "!", "on") for word in powered]
                        + [(state, EXIT, "over") for state in supply_ends])
    whole = model.joint(model.joint(book, drive, ["go"]), supply, ["drop"] + powered)
    return model.hide(whole, ["drop", "up", "flush", "go"])


def ending_link(model, log):
    """Takes moves until the host lets the shuttle park."""
    return model.leaf("host link", [("empty", "move?", "full"), ("full", log, "empty"), ("empty", "park?", "parked"),
                                    ("parked", EXIT, "over")])


def shuttle_that_ends(family):
    def station(name, journal_ends=("empty",), supply_ends=("on",)):
        model = Model(family)
        link = ending_link(model, "log?")
        model.hide(model.joint(link, ending_parts(model, journal_ends, supply_ends), ["log"]), ["log"])
        return model.save(name)

    parks = [(f"n{n}", "park?", f"n{n}, parked") for n in range(3)]
    last = [(f"n{n}, parked", "done!", f"n{n - 1}, parked") for n in (1, 2)]
    never_ends = counter(3, "move?", "done!") + parks + last
    never = single_leaf(family, "shuttle_end_never", never_ends)
    service = single_leaf(family, "shuttle_end_service", never_ends + [("n0, parked", EXIT, "over")])
    pair(station("shuttle_end"), service, "different", "equal")
    pair(station("shuttle_end_unflushed", journal_ends=("empty", "new")), service, "different", "different")
    pair(station("shuttle_end_old_supply", supply_ends=()), service, "different", "different")
    pair("shuttle_end_old_supply", never, "different", "equal")

    model = Model(family)
    link = ending_link(model, "log!")
    model.restrict(model.compose(link, ending_parts(model, ("empty",), ("on",))), ["log"])
    pair(model.save("shuttle_end_composed"), service, "different", "different")


# Start-up then run: the journal tests itself, the drive goes home, and both end by exit.

TEST = [("untested", "test!", "tested"), ("tested", EXIT, "over")]
HOME = [("away", "home!", "homed"), ("homed", EXIT, "over")]
BOOK = [("empty", "move?", "full"), ("full", "go!", "empty")]
STARTS = [("untested, away", "test!", "tested"), ("untested, away", "home!", "homed"), ("tested", "home!", "n0"),
          ("homed", "test!", "n0")]


def start_up(model, join=beside, homing=HOME):
    return join(model, model.leaf("self test", TEST), model.leaf("homing", homing))


def running(model):
    """A journal for one move, and the drive."""
    return model.hide(model.joint(model.leaf("journal", BOOK), model.leaf("drive", DRIVE), ["go"]), ["go"])


def start_then_run(family):
    def started(name, **how):
        return built(family, name, lambda m: m.enable(start_up(m, **how), running(m)))

    service = single_leaf(family, "shuttle_start_service", STARTS + counter(2, "move?", "done!"))
    pair(started("shuttle_start"), service, "different", "equal")
    pair(started("shuttle_start_composed", join=Model.compose), service, "different", "different")
    early = started("shuttle_start_early", homing=HOME + [("away", EXIT, "over")])
    pair(early, service, "different", "different")

    def seen(model):
        """Journal and drive wait for the exit of the start-up, joined with it."""
        book = model.leaf("journal", [("waits", EXIT, "empty")] + BOOK)
        drive = model.leaf("drive", [("waits", EXIT, "idle")] + DRIVE)
        return model.hide(beside(model, start_up(model), model.joint(book, drive, ["go"])), ["go"])

    exits = [(source, word, "started" if target == "n0" else target) for source, word, target in STARTS]
    exits = exits + [("started", EXIT, "n0")] + counter(2, "move?", "done!")
    pair(built(family, "shuttle_start_seen", seen), service, "different", "different")
    pair("shuttle_start_seen", single_leaf(family, "shuttle_start_seen_service", exits), "different", "equal")

    def each(model):
        book = model.enable(model.leaf("self test", TEST), model.leaf("journal", BOOK))
        drive = model.enable(model.leaf("homing", HOME), model.leaf("drive", DRIVE))
        return model.hide(model.joint(book, drive, ["go"]), ["go"])

    sooner = [("tested", "move?", "full, away"), ("full, away", "home!", "n1")]
    pair(built(family, "shuttle_start_each", each), service, "different", "different")
    pair("shuttle_start_each", single_leaf(family, "shuttle_start_each_service",
                                           STARTS + sooner + counter(2, "move?", "done!")), "different", "equal")


def powered_start(family):
    """The start-up enables the stations with a supply."""
    for k in (1, 3):
        service = single_leaf(family, f"shuttle{k}_start_service", STARTS + counter(k + 2, "move?", "done!"))
        for drop, ending, weak in (("survives", "", "equal"), ("loses", "_faulty", "different")):
            name = f"shuttle{k}_start{ending}"
            built(family, name, lambda m: m.enable(start_up(m), station_of_leaves(m, k, drop)))
            pair(name, service, "different", weak)


# Emergency stop.

STOP = ("emergency stop", [("armed", "stop?", "stopped")])
MOVES = counter(1, "move?", "done!")


def stopped_from(steps):
    """The steps, and a stop from each of their states but the last one of a phase that has ended."""
    states = list(dict.fromkeys(state for source, _, target in steps for state in (source, target)))
    return steps + [(state, "stop?", "stopped") for state in states if state != "over"]


def stopped_drive(family):
    drive = ("drive", MOVES)
    service = single_leaf(family, "shuttle_stop_service", stopped_from(MOVES))
    pair(of_leaves(family, "shuttle_stop", Model.disable, drive, STOP), service, "equal", "equal")
    pair(of_leaves(family, "shuttle_stop_composed", Model.compose, drive, STOP), service, "different", "different")

    lock = ("lock", [("open", "move?", "open"), ("open", "stop?", "shut")])
    locked = of_leaves(family, "shuttle_stop_lock", lambda m, one, two: m.joint(one, two, ["move"]), drive, lock)
    pair(locked, service, "different", "different")
    late = MOVES + [("n0", "stop?", "stopped"), ("n1", "stop?", "stopping"), ("stopping", "done!", "stopped")]
    pair(locked, single_leaf(family, "shuttle_stop_one_more", late), "equal", "equal")

    button = single_leaf(family, "shuttle_stop_button", STOP[1])
    decides = [("deciding", TAU, "armed")] + STOP[1]
    pair(single_leaf(family, "shuttle_stop_button_decides", decides), button, "different", "equal")
    decided = of_leaves(family, "shuttle_stop_decides", Model.disable, drive, ("emergency stop", decides))
    pair(decided, service, "different", "different")

    parks = MOVES + [("n0", "park?", "parked"), ("parked", EXIT, "over")]
    service = single_leaf(family, "shuttle_stop_parks_service", stopped_from(parks))
    drive = ("drive", parks)
    pair(of_leaves(family, "shuttle_stop_parks", Model.disable, drive, STOP), service, "equal", "equal")
    after = of_leaves(family, "shuttle_stop_parks_composed", Model.compose, drive, STOP)
    pair(after, service, "different", "different")


def stopped_parts(model, k, drop, stopped):
    """Host link, and journal, drive and supply; those named in `stopped` are disabled by a stop of their own."""
    parts = {"link": model.leaf("host link", [("empty", "move?", "full"), ("full", "log?", "empty")]),
             "journal": model.leaf("journal", counting_journal(k, drop)), "drive": model.leaf("drive", DRIVE)}
    stop = model.leaf(*STOP)
    for name in stopped:
        parts[name] = model.disable(parts[name], stop)
    return parts["link"], powered_parts(model, parts["journal"], parts["drive"])


def stopped_station(family):
    def station(k, ending, *stopped, drop="survives", together=("log", "stop")):
        def make(model):
            link, inner = stopped_parts(model, k, drop, stopped)
            return model.hide(model.joint(link, inner, together), ["log"])

        return built(family, f"shuttle{k}_stop{ending}", make)

    for k in (1, 3):
        service = single_leaf(family, f"shuttle{k}_stop_service", stopped_from(counter(k + 2, "move?", "done!")))
        pair(station(k, "", "link", "drive"), service, "different", "equal")
        pair(station(k, "_journal", "link", "journal"), service, "different", "different")
        pair(station(k, "_faulty", "link", "drive", drop="loses"), service, "different", "different")
    pair(station(1, "_twice", "link", "drive", together=["log"]), "shuttle1_stop_service", "different", "different")
    pair(station(1, "_link", "link", together=["log"]), "shuttle1_stop_service", "different", "different")
    whole = built(family, "shuttle1_stop_whole",
                  lambda m: m.disable(station_of_leaves(m, 1, "survives"), m.leaf(*STOP)))
    pair(whole, "shuttle1_stop_service", "different", "equal")
    pair(whole, "shuttle1_stop", "different", "equal")

    above = station_of_cells(family, 16, "survives")
    above.disable(len(above.frames) - 1, above.leaf(*STOP))
    refused("shuttle16_cells_stop", above, "shuttle1_stop_service", len(above.frames) - 1)


def started_and_stopped(family):
    """Start-up, run and stop: which of the two phases the stop disables."""
    def run(name, make):
        return built(family, name, lambda m: make(m, m.leaf(*STOP)))

    moves = counter(2, "move?", "done!")
    late = single_leaf(family, "shuttle_run_stop_late_service", STARTS + stopped_from(moves))
    service = single_leaf(family, "shuttle_run_stop_service", stopped_from(STARTS + moves))
    always = run("shuttle_run_stop", lambda m, stop: m.disable(m.enable(start_up(m), running(m)), stop))
    pair(always, service, "different", "equal")
    when_run = run("shuttle_run_stop_late", lambda m, stop: m.enable(start_up(m), m.disable(running(m), stop)))
    pair(when_run, late, "different", "equal")
    pair(when_run, service, "different", "different")

    each = run("shuttle_run_stop_each",
               lambda m, stop: m.enable(m.disable(start_up(m), stop), m.disable(running(m), stop)))
    pair(each, always, "equal", "equal")

    def ending(model, stop):
        ends = model.leaf("stop that ends", [("armed", "stop?", "stopped"), ("stopped", EXIT, "over")])
        return model.enable(model.disable(start_up(model), ends), model.disable(running(model), stop))

    pair(run("shuttle_run_stop_ends", ending), service, "different", "different")

    restarted(family, moves)


def restarted(family, moves):
    """After the stop and a reset it runs again."""
    resets = [("armed", "stop?", "stopped"), ("stopped", "reset?", "reset"), ("reset", EXIT, "over")]

    def make(model):
        run = running(model)
        return model.enable(model.disable(run, model.leaf("stop and reset", resets)), run)

    again = [(f"{source} again", word, f"{target} again") for source, word, target in moves]
    service = stopped_from(moves) + [("stopped", "reset?", "n0 again")] + again
    pair(built(family, "shuttle_restart", make), single_leaf(family, "shuttle_restart_service", service),
         "different", "equal")


# Laws of enabling and disabling.

def laws_of_phases():
    family = Family("Laws of enabling and disabling", gates=True)

    def phase(gates, inner=False):
        """The gates in their order, then exit; with `inner` an i step comes first."""
        words = [TAU] * inner + [gate + "!" for gate in gates] + [EXIT]
        name = "i" * inner + gates
        return name, [(f"{name}{n}", word, f"{name}{n + 1}") for n, word in enumerate(words)]

    a, b, c, d = map(phase, "abcd")
    stop = ("stopped", [], ["stop"])

    def leaf(phase):
        return single_leaf(family, f"phase_{phase[0]}", phase[1])

    stops = of_leaves(family, "phase_stop", Model.enable, stop)
    pair(of_leaves(family, "enable_stop_a", Model.enable, stop, a), stops, "equal", "equal")
    left = of_leaves(family, "enable_abc", Model.enable, a, b, c)
    pair(left, from_the_right(family, "enable_abc_right", Model.enable, a, b, c), "equal", "equal")
    pair(left, leaf(phase("abc")), "different", "equal")

    alone = leaf(a)
    pair(of_leaves(family, "disable_a_stop", Model.disable, a, stop), alone, "equal", "equal")
    pair(of_leaves(family, "disable_stop_a", Model.disable, stop, a), alone, "equal", "equal")
    left = of_leaves(family, "disable_abc", Model.disable, a, b, c)
    pair(left, from_the_right(family, "disable_abc_right", Model.disable, a, b, c), "equal", "equal")
    weak_operands(family, phase, leaf)
    joined_phases(family, a, b, c, d)
    family.finish()


def weak_operands(family, phase, leaf):
    """b and ib are weakly equal: which places of which operator keep that."""
    a, b, ia, ib = phase("a"), phase("b"), phase("a", inner=True), phase("b", inner=True)
    pair(leaf(ib), leaf(b), "different", "equal")
    enabled = of_leaves(family, "enable_ab", Model.enable, a, b)
    pair(of_leaves(family, "enable_ia_b", Model.enable, ia, b), enabled, "different", "equal")
    pair(of_leaves(family, "enable_a_ib", Model.enable, a, ib), enabled, "different", "equal")
    disabled = of_leaves(family, "disable_ab", Model.disable, a, b)
    pair(of_leaves(family, "disable_ia_b", Model.disable, ia, b), disabled, "different", "equal")
    pair(of_leaves(family, "disable_a_ib", Model.disable, a, ib), disabled, "different", "different")


def joined_phases(family, a, b, c, d):
    """Two enablings joined, and two joints one of which enables the other."""
    def rows(model):
        one = model.enable(model.leaf(*a), model.leaf(*b))
        return beside(model, one, model.enable(model.leaf(*c), model.leaf(*d)))

    def columns(model):
        one = beside(model, model.leaf(*a), model.leaf(*c))
        return model.enable(one, beside(model, model.leaf(*b), model.leaf(*d)))

    def both(model):
        one = model.enable(model.leaf(*a), model.leaf(*b))
        return model.joint(one, one, ["a", "b"])

    pair(built(family, "enable_rows", rows), built(family, "enable_columns", columns), "different", "different")
    pair(built(family, "enable_both", both), "enable_ab", "different", "equal")


# Phases of one state, which have no bits of their own: only the added bits count.

def chains_of_phases():
    family = Family("Chains of enablings and of disablings", gates=True)
    chained_enablings(family)
    chained_disablings(family)
    family.finish()


def both_groupings(family, name, join, leaves, steps):
    """The chain from the left and from the right, and a single leaf with the steps."""
    left = of_leaves(family, name, join, *leaves)
    right = from_the_right(family, f"{name}_right", join, *leaves)
    service = single_leaf(family, f"{name}_service", steps)
    for pair_of_two in ((left, service), (right, service), (left, right)):
        pair(*pair_of_two, "equal", "equal")


def chained_enablings(family):
    phase = ("phase", [("exits", EXIT, "exits")])
    last = single_leaf(family, "enabled0", phase[1])
    for count in (3, MAX_BITS):
        steps = [(f"s{n}", TAU, f"s{n + 1}") for n in range(count)] + [(f"s{count}", EXIT, f"s{count}")]
        both_groupings(family, f"enabled{count}", Model.enable, [phase] * (count + 1), steps)
        pair(f"enabled{count}", last, "different", "equal")
    above = Model(family)
    row(above, Model.enable, [phase] * (MAX_BITS + 2))
    refused(f"enabled{MAX_BITS + 1}", above, last, MAX_BITS + 1)


def chained_disablings(family):
    def phases(count):
        """Each has a gate of its own, but the last one stops."""
        return [(f"phase {n}", [("on", f"g{n}!", "on")]) for n in range(count)] + [("stopped", [], ["stop"])]

    most = MAX_BITS // 2
    for count in (3, most):
        steps = [(f"s{m}", f"g{n}!", f"s{n}") for m in range(count) for n in range(m, count)]
        both_groupings(family, f"disabled{count}", Model.disable, phases(count), steps)
    above = Model(family)
    above.enable(row(above, Model.disable, phases(most)), most)
    refused(f"disabled{most}_enables", above, f"disabled{most}_service", 2 * most + 1)


# Copies of one leaf that step together: one bit each.

def joined_leaves():
    family = Family("Joined leaves")

    def joined(count):
        model = Model(family)
        leaf = model.leaf("two-state leaf", [("down", "turn!", "up"), ("up", "turn?", "down")])
        total = leaf
        for _ in range(count - 1):
            total = model.joint(total, leaf, ["turn"])
        return model

    one = joined(1).save("joined1")
    pair(joined(3).save("joined3"), one, "equal", "equal")
    pair(joined(MAX_BITS).save(f"joined{MAX_BITS}"), one, "equal", "equal", explicit=False)
    refused(f"joined{MAX_BITS + 1}", joined(MAX_BITS + 1), one, MAX_BITS)
    family.finish()


# The pairs of docs/LAWS.md. They are written in the readable form; `seipolku build` has made their texts and names.

LAWS = ("compose_commutes", "compose_regroups", "restrict_commutes", "joint_commutes", "joint_regroups", "restrict_splits",
        "same_channels", "restrict_moves_out", "inside")
NO_LAWS = ("joint_two_lists", "compose_distributes", "restrict_out_of_compose")


def laws_of_order():
    for laws, verdict in ((LAWS, "equal"), (NO_LAWS, "different")):
        for law in laws:
            pair(f"laws/{law}_left", f"laws/{law}_right", verdict, verdict)
    # strongly equal to shuttle8_cells, so as that one with the service
    pair("laws/link_last", "shuttle8_service", "different", "equal")


def oracle(*words, text=""):
    done = subprocess.run(["nice", ORACLE, *map(str, words)], capture_output=True, text=True, input=text)
    return done.stdout.strip() or done.stderr.strip()


def parts(given):
    """Strong verdict and rounds, weak verdict and rounds, three numbers of nodes: of an answer `strong .. | weak .. | ..`."""
    strong, weak, nodes = given.split(" | ")
    return [*strong.split()[1:], *weak.split()[1:], *nodes.split()]


def answer(left, right, explicit):
    """Verdicts and rounds by explicit pairs, or, where these are too many, by the list with room for NODES; and nodes up
    to the relations, up to the weak answers, and of the whole list, `-` where they fit no table."""
    files = path(left), path(right)
    by_pairs = [oracle("verdict", *files, mode, LIMIT) for mode in (0, 1)]
    assert [explicit] * 2 == [found != "too large to enumerate" for found in by_pairs], (left, right, by_pairs)
    found = " ".join(by_pairs).split() if explicit else parts(oracle("list", *files, LIMIT, NODES))[:4]
    listed = oracle("compare", *files, LIMIT, LARGEST_TABLE)
    if listed.startswith(FULL):
        return found + ["-" if int(number) == LARGEST_TABLE - 2 else number for number in listed.split(" | ")[1].split()]
    assert parts(listed)[:4] == found, (left, right, found, listed)
    return parts(listed)


def full(nodes, length):
    """Refusal 8 on a table of this length: a number above its room is given as the room."""
    room = length - 2
    return f"{FULL} | " + " ".join(str(room if number == "-" else min(int(number), room)) for number in nodes)


def vector(left, text, right, length, result, limit=LIMIT):
    with open(path(right)) as file:
        texts = [t.replace("\n", "/") for t in (text, file.read())]
    name = f"{left} {right} {length}" + (f" limit {limit}" if limit != LIMIT else "")
    return "\t".join([name, *texts, str(limit), str(length), result])


def lengths_about(number):
    """Tables with room for so many nodes, for one less and for one more."""
    return [int(number) + more for more in (1, 2, 3)]


def lengths(left, right, nodes):
    """The program's table and the largest one. If the list is small, also the table that it just fits and one entry less; of
    some pairs all tables about each number of nodes."""
    found = [PROGRAM_TABLE, LARGEST_TABLE]
    if small(nodes):
        found += lengths_about(nodes[2])[:2]
    if (left, right) in STAGED:
        found += [length for number in nodes for length in lengths_about(number)]
    return dict.fromkeys(found)


def small(nodes):
    return nodes[2] != "-" and int(nodes[2]) + 2 <= SMALL_TABLE


def vectors(left, right, found):
    """The pair as vectors lines: with these tables; if its list is small, also by the limits one below each verdict's rounds,
    and of some pairs with tables about the whole list by the limits 0 and 1."""
    with open(path(left)) as file:
        text = file.read()
    strong, rounds, weak, weak_rounds, *nodes = found
    given = f"strong {strong} {rounds} | weak {weak} {weak_rounds} | {' '.join(nodes)}"
    for length in lengths(left, right, nodes):
        fits = nodes[2] != "-" and int(nodes[2]) + 2 <= length
        yield vector(left, text, right, length, given if fits else full(nodes, length))

    def by_limit(limit, length):
        return oracle("compare", path(left), path(right), limit, length)

    first, last = sorted((int(rounds), int(weak_rounds)))
    for limit in sorted({first - 1, last - 1}) if small(nodes) else ():
        yield vector(left, text, right, LARGEST_TABLE, by_limit(limit, LARGEST_TABLE), limit)
    for limit in (0, 1) if (left, right) in STAGED else ():
        for length in lengths_about(by_limit(limit, LARGEST_TABLE).split()[-1]):
            yield vector(left, text, right, length, by_limit(limit, length), limit)


def expected():
    rows = ["# left\tright\tstrong\trounds\tweak\trounds\trelations\tanswers\tnodes"]
    lines = ["# name\tleft\tright\tlimit\tL\tanswer"]
    for left, right, strong, weak, explicit in pairs:
        found = answer(left, right, explicit)
        print(left, right, *found, flush=True)
        if found[0:3:2] != [strong, weak]:
            sys.exit(f"expected {strong}, {weak}")
        rows.append("\t".join([left + ".hex", right + ".hex", *found]))
        lines.extend(vectors(left, right, found))
    write("EXPECTED.tsv", rows)
    write("vectors.tsv", lines + [refusal(*r) for r in refusals])


def refusal(left, text, right, line):
    """A refused text as a vectors line."""
    result = f"refused 6 0 {line}"
    found = oracle("compare", "/dev/stdin", path(right), LIMIT, LARGEST_TABLE, text=text)
    print(left, found)
    if found != result:
        sys.exit(f"expected {result}")
    return vector(left, text, right, LARGEST_TABLE, result)


def write(name, lines):
    with open(os.path.join(HERE, name), "w") as file:
        file.write("\n".join(lines) + "\n")


def main():
    families = (buffers, scheduler, alternating_bit, philosophers, gas_station, transport_handler, connection_of_two,
                shuttle, joined_leaves, laws_of_phases, chains_of_phases, laws_of_order)
    for make in families:
        make()
    title = ["# Channels, lines and states of the models", "",
             f"Written by make.py. States are numbered from 0. `{EXIT}` is no channel: its action is "
             f"{WITHOUT_CHANNEL[EXIT]}."]
    write("NAMES.md", title + names)
    if "--no-answers" not in sys.argv:
        expected()


if __name__ == "__main__":
    main()
