"""story_page: the page of a story. It holds what there is to show of each line, and a script that only shows it."""
import base64
import hashlib
import json
import os
import string
from html import escape

from chains import links, runs
from drawing import ARROW, DOT, INK, LETTER, PAPER, SHADE, Layout, said, texts

PARTS = os.path.join(os.path.dirname(os.path.realpath(__file__)), "story")
WIDE, MARGIN = 880, 16  # the width of a band, and what is left free at its right
LETTERS = 560  # of a line and of an answer that are shown at most
SLOTS = 500  # of the newest slots of a role at most the page tells


class Scene(Layout):
    """All steps of a story, each at a place that it keeps."""

    def __init__(self, story):
        self.made = {it.step.number: it for it in story.steps}
        takes = {it.step.number: it.takes for it in story.steps if it.takes}
        super().__init__(story.types, [it.step for it in story.steps], takes, WIDE, [()] * len(story.types))

    def label(self, step, is_far):
        """The lines of text beside a step, and at last the one that stands there when it was taken back."""
        by = self.made[step.number].by
        return super().label(step, is_far) + [f"undone by {by}"] * bool(by)

    def bands_drawn(self):
        """The picture of each band."""
        wide, top = max(self.ends()) + MARGIN, 0
        for end, (ys, bottom, places) in zip(self.ends(), self.bands):
            numbers = [it.step.number for it in places]
            name = f"Steps {numbers[0]} to {numbers[-1]}" if numbers else "No steps"
            yield "\n".join([
                f'<svg class="band" viewBox="0 {top} {wide} {bottom - top}" width="{wide}" height="{bottom - top}" '
                f'role="group" aria-label="{name}">',
                '<g class="ways">', *self.shades(places), '</g><g class="rows">',
                *(f'<path d="M{self.left} {y} H{end}"/>' for y in ys), '</g><g class="names">',
                *(texts(MARGIN, y + 4, [name]) for name, y in zip(self.roles, ys)), '</g><g class="arrows">',
                *self.arrows(places), '</g><g class="dots">', *map(self.dot, places), "</g></svg>"])
            top = bottom

    def shades(self, places):
        """The ground of each step, which is seen where it is shaded, and the ways between grounds."""
        there = {it.step.number: it for it in places}
        for it in places:
            made = self.made[it.step.number]
            for way in (there[number] for number in (made.follows, made.takes) if number in there):
                yield (f'<path class="way" data-from="{way.step.number}" data-to="{it.step.number}" '
                       f'd="M{way.x} {way.y} L{it.x} {it.y}"/>')
        for it in places:
            top, wide = it.y - (18 if it.down < 0 else 46), 2 * it.half - 4
            yield (f'<rect class="ground" data-step="{it.step.number}" x="{it.x - wide // 2}" y="{top}" width="{wide}" '
                   f'height="64" rx="8"/>')

    def arrows(self, places):
        """The arrow to each step from what it takes; and of each that sends, a short one while its message waits, and one
        while what took it is in another band."""
        for it in (it for it in places if it.step.peer):
            step, way = self.way(it)
            if step.number in self.takes:
                yield f'<path class="arrow" data-step="{step.number}" d="{way}"/>'
            else:
                yield from (f'<path class="{kind}" data-step="{step.number}" d="{way}"/>' for kind in ("waits", "sent"))

    def dot(self, it):
        """A step's dot and label. A ring stands around a new one, a cross is on one that has just been taken back."""
        made, step, y = self.made[it.step.number], it.step, it.y + (25 if it.down < 0 else -31)
        left, top, wide, high = it.x - it.dot, it.y - DOT, 2 * it.dot, 2 * DOT + 8
        round_ = "" if step.act == "commit" else f' rx="{DOT}"'
        ring = f' rx="{DOT + 4}"' if round_ else ""
        return (
            f'<g class="step {step.act}{" gone" if made.gone else ""}" data-step="{step.number}" role="button" tabindex="-1" '
            f'aria-pressed="false"><title>{step.number}</title>'
            f'<rect class="ring" x="{left - 4}" y="{top - 4}" width="{wide + 8}" height="{high}"{ring}/>'
            f'<rect class="dot" x="{left}" y="{top}" width="{wide}" height="{2 * DOT}"{round_}/>'
            f'<path class="cross" d="M{left - 4} {top - 4} l{wide + 8} {high} m0 -{high} l-{wide + 8} {high}"/>'
            + texts(it.x, it.y + 4, [str(step.number)], ' class="number"') + texts(it.x, y, it.lines[:1], ' class="act"')
            + texts(it.x, y + 14, it.lines[1:2], ' class="what"') + texts(it.x, y + 14, it.lines[2:], ' class="by"') + "</g>")


class Data:
    """What the page's script shows, as lists that it reads. Texts that come more than once stand there once."""

    def __init__(self, story):
        self.story, self.roles, self.found = story, list(story.types), {}
        self.kept = {it.step.number: it for it in story.steps}
        self.after = [(number, it.takes, it.follows) for number, it in self.kept.items()]

    def text(self, text):
        """The place of a text among all texts."""
        return self.found.setdefault(text, len(self.found))

    def role(self, name):
        """The place of a role among the roles, or -1 where there is none."""
        return self.roles.index(name) if name else -1

    def step(self, made):
        """A step: what it is, when and by whom it was made and taken back, and what depends on it, with the links."""
        step, number = made.step, made.step.number
        before = links(number, self.after[self.after.index((number, made.takes, made.follows)) + 1:])
        what = [-1 if it is None else self.text(it) for it in (step.name, None if step.what is None else said(step.what))]
        depend = " ".join(str(first) if first == last else f"{first}-{last}" for first, last in runs(before))
        return [number, self.role(step.role), step.act, self.role(step.peer), *what, made.takes or 0, made.born,
                made.gone or 0, self.role(made.by), depend, " ".join(map(str, before.values()))]

    def queue(self, pair, numbers):
        """A queue: how many messages of steps that are left out wait first, and the steps whose messages wait."""
        kept = [number for number in numbers if number in self.kept]
        return [*map(self.role, pair), len(numbers) - len(kept), " ".join(map(str, kept))]

    def standing(self, role, it):
        """How a role stands: what it expects, where in its type it is, and what it keeps."""
        slots = [str(self.text(word)) for slot, value in it.store[-SLOTS:] for word in (slot, said(value))]
        return [self.role(role), self.text(it.expects), it.place.begin, it.place.end, max(0, len(it.store) - SLOTS),
                " ".join(slots)]

    def changes(self):
        """Of each line what differs from the line before: queues, and how roles stand."""
        queues, roles = {}, {}
        for state in self.story.states:
            pairs = [pair for pair in {**queues, **state.queues} if queues.get(pair) != state.queues.get(pair)]
            names = [role for role, it in state.roles.items() if roles.get(role) != it]
            yield [[self.queue(pair, state.queues.get(pair, ())) for pair in pairs],
                   [self.standing(role, state.roles[role]) for role in names]]
            queues, roles = state.queues, state.roles

    def json(self):
        """All of it, so that it may stand in a page."""
        story = self.story
        data = {"begin": story.begin, "roles": self.roles, "types": [text for text, _ in story.types.values()],
                "told": [before(story), *(line.told for line in story.lines)],
                "refused": [line.number for line in story.lines if line.answer.startswith("refused")],
                "steps": [self.step(it) for it in story.steps], "states": list(self.changes())}
        data["texts"] = list(self.found)
        return json.dumps(data, separators=(",", ":")).replace("<", "\\u003c")


def before(story):
    """What is said of the session before the first line that is told."""
    return f"The session after line {story.begin}, with which the story begins." if story.begin else (
        "Before the first line nothing has been done.")


def lines(story):
    """The lines of the script with their answers, each as a button."""
    rows = [(story.begin, f"before line {story.begin + 1}", "", "")]
    rows += [(line.number, cut(line.text), cut(line.answer), line.answer.split(" ")[0]) for line in story.lines]
    for number, text, answer, kind in rows:
        kind = kind if kind in ("refused", "undone") else ""
        yield (f'<li><button type="button" class="line {kind}" data-line="{number}" tabindex="-1">'
               f'<span class="at">{number}</span> <code>{escape(text)}</code> <code class="answer">{escape(answer)}</code>'
               f'</button></li>')


def cut(text):
    """A line or an answer, cut short where it is longer than lines may be."""
    return text if len(text) <= LETTERS else f"{text[:LETTERS]} .. ({len(text):,} letters)"


def roles(story):
    """The place for what there is to say of each role."""
    for number, (role, (text, _)) in enumerate(story.types.items()):
        yield (f'<section class="role" data-role="{number}" aria-labelledby="role{number}"><h3 id="role{number}">{role}</h3>'
               f'<dl><dt>expects</dt><dd class="expects"></dd><dt>keeps</dt><dd class="keeps"></dd></dl>'
               f'<details{" open" if len(text) < 400 else ""}><summary>local type of {role}</summary>'
               f'<p class="type"><code>{escape(text)}</code></p></details></section>')


def left_out(story):
    """What the page leaves out, in sentences."""
    last = story.begin + len(story.lines)
    hidden = [number for number in ((1, story.begin), (last + 1, story.whole)) if number[0] <= number[1]]
    if hidden:
        spans = " and ".join(f"{first:,} to {last:,}" for first, last in hidden)
        yield f"Left out: lines {spans} of {story.whole:,}. The option --from N tells the lines from line N on."
    if story.left_out:
        yield f"Left out: the {len(story.left_out):,} oldest steps, up to step {story.left_out[-1].step.number:,}."


def part(name):
    """The text of a part of the page."""
    with open(os.path.join(PARTS, name), encoding="utf-8") as file:
        return file.read()


def digest(text):
    """The sum of an inline text, by which the page's policy lets it in."""
    return "'sha256-" + base64.b64encode(hashlib.sha256(text.encode()).digest()).decode() + "'"


def styled(digits):
    """The style of a page whose numbers have so many digits."""
    values = (f":root {{ --ink: {INK}; --arrow: {ARROW}; --shade: {SHADE}; --paper: {PAPER}; --letter: {LETTER}px; "
              f"--digits: {digits}; }}\n")
    return values + part("page.css")


def page(story, protocol, script):
    """The page of the story of a script under a protocol, by their names."""
    code, end = part("page.js"), story.begin + len(story.lines)
    style = styled(len(str(end)))
    allowed = f"style-src {digest(style)}; script-src {digest(code)}"
    return string.Template(part("page.html")).substitute(
        policy=f"default-src 'none'; {allowed}; base-uri 'none'; form-action 'none'", title=f"{escape(script)}, line by line", protocol=escape(protocol), roles_count=len(story.types), count=story.whole,
        left_out="".join(f"<p>{escape(it)}</p>\n" for it in left_out(story)), begin=story.begin, end=end,
        lines="\n".join(lines(story)), bands="\n".join(Scene(story).bands_drawn()), roles="\n".join(roles(story)),
        style=style, code=code, data=Data(story).json())
