"""drawing: sessions as they are shown, and how they are drawn: by examples/picture one, and by examples/story one after each
line of a script.
"""
import collections
import json
import re
import textwrap
from html import escape

from chains import links

MOST, WIDE, PACE = 200, 1200, 72  # steps, the width of a band, the least from step to step
ROW, NARROW = 100, 30  # the heights of the row of a role, and of one that does nothing in the band
DOT, LINE, LETTER = 11, 14, 8  # half a dot, from line to line of a text, from letter to letter
INK, ARROW, SHADE, PAPER = "#222222", "#1f5fa8", "#f6d9a8", "#ffffff"
HEAD = f"""<svg xmlns="http://www.w3.org/2000/svg" viewBox="0 0 {{0}} {{1}}" width="{{0}}" height="{{1}}" fill="{INK}"
  role="img" aria-labelledby="title desc" font-family="monospace" font-size="12" xml:space="preserve">
<title id="title">{{2}}</title><desc id="desc">{{3}}</desc>
<marker id="full" overflow="visible" orient="auto" fill="{ARROW}"><path d="M-6 -2.6 L0 0 L-6 2.6 Z"/></marker>
<marker id="open" overflow="visible" orient="auto" fill="{PAPER}" stroke="{ARROW}" stroke-width="0.6">
<path d="M-6 -2.6 L0 0 L-6 2.6 Z"/></marker>
<rect width="{{0}}" height="{{1}}" fill="{PAPER}"/>
<g font-family="sans-serif" font-size="13">{{4}}</g><g transform="translate(0 {{5}})">"""
Step = collections.namedtuple("Step", "number role act peer name what")
Band = collections.namedtuple("Band", "ys bottom places")
Session = collections.namedtuple("Session", "steps takes waiting roles")
Place = collections.namedtuple("Place", "step x y down dot half lines source")


class Unshown(Exception):
    """What was given shows no session that can be drawn, or asks for what isn't there."""


def needs(good, reason):
    """Says what is wrong with what was given."""
    if not good:
        raise Unshown(reason)


def shown_form():
    """The form of a shown session, as docs/FORMATS.md has it."""
    def some(form):
        return rf"\[({form}(,{form})*)?\]"

    name, number = '"[a-z][a-z0-9_]{0,31}"', "[1-9][0-9]{0,19}"
    value, word = r'(0|-?[1-9][0-9]{0,18}|true|false|"[ !#-\[\]-~]{0,256}")', name[1:-1]
    acts = rf'"send",{name},{value}|"recv",{name},{name},{value}|"(choose|pick)",{name},{name}|"mark",{name}|"commit"'
    queue = rf"\[{name},{name}," + some(rf'({value}|{{"label":{name}}})') + r"\]"
    expects = f'"(end|(send|recv) {word} (int|bool|text)|(choose|pick) {word}( {word})+)"'
    role = rf'{{"expects":{expects},"past":{some(number)},"role":{name},"store":' + some(rf"\[{name},{value}\]") + "}"
    return '{"history":' + some(rf"\[{number},{name},({acts})\]") + f',"queues":{some(queue)},"roles":{some(role)}}}'


def read_step(number, role, act, *rest):
    """A row of the history as a step, with what it gives or takes as a queue shows that."""
    peer = None if act in ("mark", "commit") else rest[0]
    name = rest[1] if act == "recv" else rest[0] if act == "mark" else None
    what = {"label": rest[1]} if act in ("choose", "pick") else rest[-1] if peer else None
    return Step(number, role, act, peer, name, what)


def is_same(one, other):
    """Whether two messages are the same: for python 1 is True."""
    return type(one) is type(other) and one == other


def replay(names, steps):
    """What each receipt and pick takes, by their numbers, and the queues that the steps lead to."""
    queues, takes = {(p, q): [] for p in names for q in names if p != q}, {}
    for step in steps:
        gives = step.act in ("send", "choose")
        pair = (step.role, step.peer) if gives else (step.peer, step.role)
        needs(step.role in names and (not step.peer or pair in queues), f"step {step.number} has a wrong role or peer")
        if gives:
            queues[pair].append(step)
        elif step.peer:
            waits = queues[pair] and is_same(queues[pair][0].what, step.what)
            needs(waits, f"step {step.number} takes what doesn't wait from {step.peer}")
            takes[step.number] = queues[pair].pop(0).number
    return takes, {pair: queue for pair, queue in queues.items() if queue}


def read_session(data):
    """The session of the last shown line."""
    line = next((line for line in reversed(data.split(b"\n")) if line.startswith(b"{")), None)
    needs(line, "no line of the input begins with {, as a shown session does: end the script with a line like `a show`")
    needs(re.fullmatch(shown_form().encode(), line), "the last line that begins with { is no shown session")
    state = json.loads(line)
    steps = [read_step(*row) for row in state["history"]]
    roles = {it["role"]: (it["expects"], ", ".join(f"{slot} = {said(value)}" for slot, value in it["store"]))
             for it in state["roles"]}
    needs(2 <= len(roles) == len(state["roles"]) <= 8, "a session has 2 to 8 roles of different names")
    needs(all(s.number < t.number for s, t in zip(steps, steps[1:])), "the numbers of the steps don't rise")
    takes, queues = replay(roles, steps)
    shown = [[*pair, [step.what for step in queue]] for pair, queue in queues.items()]
    needs(json.dumps(shown) == json.dumps(state["queues"]), "the history doesn't lead to the queues beside it")
    return Session(steps, takes, {step.number for queue in queues.values() for step in queue}, roles)


def consequences(session, number):
    """The numbers of the step and of all that depend on it; none where no step is asked for."""
    last, later = {}, []
    for step in session.steps:
        if number and step.number > number:
            later.append((step.number, session.takes.get(step.number), last.get(step.role)))
        last[step.role] = step.number
    return {number, *links(number, later)} if number else set()


def said(what, most=999):
    """A value or a label as a script spells it, cut short where it is longer; nothing where there is none."""
    text = "" if what is None else what["label"] if isinstance(what, dict) else json.dumps(what)
    return text if len(text) <= most else text[:most - 2] + ".."


def texts(x, y, lines, more=""):
    """Lines of text, the first at that height."""
    return "".join(f'<text x="{x}" y="{y + LINE * i}"{more}>{escape(it)}</text>' for i, it in enumerate(lines) if it)


def crossed(x, y, source, band):
    """How much an arrow from a place of the band to there crosses dots and labels on its way; a dot counts for more."""
    way = [(source.x + (x - source.x) * part / 40, source.y + (y - source.y) * part / 40) for part in range(40)]
    spots = [(9, it.x, it.y, it.dot + 4) for it in band if it is not source]
    spots += [(1, it.x, it.y - 28 * it.down, LETTER // 2 * max(map(len, it.lines))) for it in band]
    spots = [spot for spot in spots if source.x - spot[3] < spot[1] < x + spot[3]]
    return sum(weight for weight, left, top, half in spots
               if any(((at - left) / half)**2 + ((height - top) / 15)**2 < 1 for at, height in way))


def clearest(begin, y, source, band):
    """Where, from there on to the right, the arrow from a place of the band crosses least."""
    found = []
    for x in range(begin, begin + 320, 16):
        found.append((crossed(x, y, source, band), x))
        if not found[-1][0]:
            break
    return min(found)[1]


class Layout:
    """Steps in bands of that width, each at its place in the row of its role. `takes` has what each receipt and pick takes,
    and `panels` the lines of text for which each role has room at the right of the last band."""

    def __init__(self, roles, steps, takes, width, panels):
        self.roles, self.steps, self.takes, self.width, self.panels = list(roles), steps, takes, width, panels
        self.left = 28 + LETTER * max(map(len, self.roles))
        self.bands, left = [], self.steps
        while left or not self.bands:
            self.bands.append(self.next_band(left))
            left = left[len(self.bands[-1].places):]

    def label(self, step, is_far):
        """The lines of text beside a step; what it took is named where that isn't in the band."""
        act = filter(None, [step.act, step.peer, f"of {self.takes[step.number]}" if is_far else ""])
        return [" ".join(act), " = ".join(filter(None, [step.name, said(step.what, 34)]))]

    def ends(self):
        """Where the lines of the roles end in each band."""
        return [max([self.left + PACE] + [it.x + it.half for it in band.places]) + 10 for band in self.bands]

    def ways(self, band):
        """Of each arrow of a band its step and its way: from what the step takes, or a short one where the other end isn't
        there."""
        here = [it.source.step.number for it in band if it.source]
        for it in (it for it in band if it.step.peer and it.step.number not in here):
            yield self.way(it)

    def way(self, it):
        """The arrow of a step, whose other end isn't there unless the step takes what is in the band."""
        x, y, x2, y2, leads_there = it.x, it.y, it.x + 34, it.y + it.down * 40, it.step.number in self.takes
        if leads_there:
            x, y = (it.source.x, it.source.y) if it.source else (it.x - 34, y2)
            part = 1 - min(it.dot / (it.x - x), DOT / abs(it.y - y))
            x2, y2 = x + part * (it.x - x), y + part * (it.y - y)
        return it.step, f"M{x} {y} L{x2:.1f} {y2:.1f}"

    def next_band(self, steps):
        """The next band, with as many of these steps as there is room for. First all rows are high, and then those of the
        roles that do something in the band."""
        names = self.roles
        while True:
            band = self.band(steps, names, steps[-1:] == self.steps[-1:])
            steps = steps[:len(band.places)]
            acting = [name for name in self.roles if any(step.role == name for step in steps)]
            if acting == names:
                return band
            names = acting

    def band(self, steps, names, is_last):
        """The next band, with these steps up to the first for which there is no room. The rows of these roles are high, and
        if it is the last band each has room for what stands at the right."""
        y = self.bands[-1].bottom if self.bands else 0
        ys = []
        for name, panel in zip(self.roles, self.panels):
            half = (ROW if name in names else NARROW) // 2
            ys.append(y + half)
            y += half + max(half, is_last * LINE * len(panel) - NARROW // 2)
        places = []
        for step in steps:
            place = self.fit(step, places, ys)
            if places and place.x + place.half > self.width:
                break
            places.append(place)
        return Band(ys, y + 30, places)

    def fit(self, step, band, ys):
        """The place of a step: to the right of all that stands in the band."""
        taken = self.takes.get(step.number)
        source = next((it for it in band if it.step.number == taken), None)
        row, peer = (self.roles.index(name) for name in (step.role, step.peer or step.role))
        lines = self.label(step, taken and not source)
        dot = max(DOT, 6 + LETTER // 2 * len(str(step.number)))
        half = max(PACE // 2, dot + 4, *(LETTER // 2 * len(line) + 6 for line in lines))
        x, y = half + max([self.left] + [it.x + it.half for it in band]), ys[row]
        if source:
            x = max(x, source.x + PACE + (abs(y - source.y) - ROW) // 10)
            x = clearest(x, y, source, band)
        return Place(step, x, y, 1 if peer > row else -1, dot, half, lines, source)


class Picture(Layout):
    """A session as it is drawn in bands of that width, with step `number` and its consequences shaded where one is named."""

    def __init__(self, session, number, width):
        self.session, self.number, self.found = session, number, consequences(session, number)
        begin = max(0, min(len(session.steps) - MOST, sum(it.number < (number or 1 << 64) for it in session.steps)))
        self.told = [(f"expects {expects}", it and f"keeps {it}") for expects, it in session.roles.values()]
        super().__init__(session.roles, session.steps[begin:begin + MOST], session.takes, width,
                         [[row for it in pair for row in textwrap.wrap(it, 40, max_lines=3, placeholder="..")]
                          for pair in self.told])

    def in_words(self, step):
        """A step, and what it took or that it waits."""
        words = " ".join(filter(None, [step.role, step.act, step.peer, step.name, said(step.what)]))
        taken, waits = self.session.takes.get(step.number), step.number in self.session.waiting
        return f"{step.number}: {words}" + f", of step {taken}" * bool(taken) + ", waits" * waits

    def grounds(self, band):
        """What stands behind shaded steps: a ground for each, and ways from what it follows and from what it takes."""
        last = {}
        for it in (it for it in band if it.step.number in self.found):
            top, wide = it.y - (18 if it.down < 0 else 46), 2 * it.half - 4
            yield f'<rect x="{it.x - wide // 2}" y="{top}" width="{wide}" height="64" rx="8" stroke="none"/>'
            ways = [way for way in (last.get(it.y), it.source) if way and way.step.number in self.found]
            yield from (f'<path d="M{way.x} {way.y} L{it.x} {it.y}"/>' for way in ways)
            last[it.y] = it

    def arrows(self, band):
        """The arrows of a band, dashed where the message waits."""
        for step, way in self.ways(band):
            head = 'open)" stroke-dasharray="5 3"' if step.number in self.session.waiting else 'full)"'
            yield f'<path d="{way}" marker-end="url(#{head}/>'

    def dot(self, it):
        """A step's dot and label, and its words for who points at it."""
        ink, paper, ground = (PAPER, INK, SHADE) if it.step.number in self.found else (INK, PAPER, PAPER)
        rim = {"mark": f'rx="{DOT}" stroke-dasharray="3 2"', "commit": ""}.get(it.step.act, f'rx="{DOT}"')
        return (f'<g><title>{escape(self.in_words(it.step))}</title><rect x="{it.x - it.dot}" y="{it.y - DOT}" '
                f'width="{2 * it.dot}" height="{2 * DOT}" fill="{paper}" stroke="{ink}" stroke-width="1.5" {rim}/>'
                + texts(it.x, it.y + 4, [str(it.step.number)], f' fill="{ink}"')
                + texts(it.x, it.y + (25 if it.down < 0 else -31), it.lines, f' stroke="{ground}"') + "</g>")

    def notes(self):
        """What there is to say: what is shaded, what the arrows mean, what is left out."""
        number, found, steps = self.number, self.found, self.session.steps
        if number:
            commits = [f"step {it.number} of {it.role}" for it in steps if it.number in found and it.act == "commit"]
            yield f"Shaded: step {number} and the {len(found) - 1} steps that depend on it."
            yield f"A rollback of step {number} " + (
                f"is refused for the commits among them: {', '.join(commits)}." if commits else "takes them back.")
        if self.session.waiting:
            yield "Dashed arrow: a message that waits."
        if self.bands[1:]:
            yield "Short arrow: its other end isn't in the band."
        if len(self.steps) < len(steps):
            ends, hidden = [self.steps[at].number for at in (0, -1)], found.difference(it.number for it in self.steps)
            which = f", of which {len(hidden)} depend on step {number}" if number else ""
            yield f"Left out: {len(steps) - MOST} of {len(steps)} steps{which}; drawn are {ends[0]} to {ends[1]}."

    def svg(self):
        """The picture's text."""
        notes, roles, steps = list(self.notes()), self.session.roles, len(self.session.steps)
        ends, lines = self.ends(), [line for note in notes for line in textwrap.wrap(note, 76)]
        top, letters = 20 + LINE * len(lines), max(len(line) for panel in self.panels for line in panel)
        width = 32 + max(ends + [ends[-1] + LETTER * letters] + [LETTER * len(line) for line in lines])
        title = f"A session of {len(roles)} roles with {steps} steps" + (
            f", step {self.number} and its consequences shaded" if self.number else "")
        words = [f"{name} {', '.join(filter(None, pair))}" for name, pair in zip(roles, self.told)]
        words = escape("\n".join([*notes, *map(self.in_words, self.steps), *words]))
        out = [HEAD.format(width, top + self.bands[-1].bottom, title, words, texts(16, 22, lines), top)]
        for end, (ys, _, band) in zip(ends, self.bands):
            out += [f'<g fill="{SHADE}" stroke="{SHADE}" stroke-width="30">', *self.grounds(band), "</g>"]
            out += ['<g stroke="#777777">', *(f'<path d="M{self.left} {y} H{end}"/>' for y in ys), "</g>"]
            out += ['<g font-weight="bold">', *(texts(16, y + 4, [name]) for name, y in zip(roles, ys)), "</g>"]
            out += [f'<g stroke="{ARROW}" stroke-width="2">', *self.arrows(band), "</g>"]
            out += ['<g text-anchor="middle" paint-order="stroke" stroke-width="4">', *map(self.dot, band), "</g>"]
        out += ["<g>", *(texts(end + 12, y + 4, it) for it, y in zip(self.panels, ys)), "</g>", "</g>", "</svg>", ""]
        return "\n".join(out)
