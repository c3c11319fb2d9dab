"use strict";
// The page's script: it shows what the data say, and finds out nothing of the session itself.

// --- What the data say -------------------------------------------------------------------------------------------------

const Story = {
  // Numbers that rise: "3-5 8" is 3, 4, 5 and 8.
  numbers(text) {
    return text.split(" ").filter(Boolean).flatMap((run) => {
      const [first, last = first] = run.split("-").map(Number);
      return Array.from({ length: last - first + 1 }, (_, place) => first + place);
    });
  },

  // A step of the data.
  step(row, story) {
    const [number, role, act, peer, name, what, takes, born, gone, by, later, before] = row;
    const named = (place) => (place < 0 ? "" : story.roles[place]);
    const text = (place) => (place < 0 ? "" : story.texts[place]);
    const it = { number, role: named(role), act, takes, born, gone, by: named(by), later, before, what: text(what) };
    it.words = [it.role, act, named(peer), text(name), it.what].filter(Boolean).join(" ");
    return it;
  },

  // The state after a line, from the one before and what differs.
  state([queues, roles], last, story) {
    const state = { queues: new Map(last.queues), roles: [...last.roles] };
    for (const [sender, receiver, earlier, numbers] of queues) {
      const waiting = Story.numbers(numbers);
      const pair = `${sender} ${receiver}`;
      state.queues.delete(pair);
      if (earlier || waiting.length) state.queues.set(pair, { sender, receiver, earlier, waiting });
    }
    for (const [role, expects, begin, end, earlier, store] of roles) {
      const words = store.split(" ").filter(Boolean).map((place) => story.texts[place]);
      const slots = words.filter((_, place) => place % 2 === 0).map((slot, place) => [slot, words[2 * place + 1]]);
      state.roles[role] = { expects: story.texts[expects], begin, end, earlier, slots };
    }
    return state;
  },

  // The story of the data: its steps by their numbers, and the state after each line.
  read(data) {
    const story = { ...data, end: data.begin + data.states.length - 1, steps: new Map(), refused: new Set(data.refused) };
    for (const row of data.steps) story.steps.set(row[0], Story.step(row, story));
    let last = { queues: new Map(), roles: [] };
    story.states = data.states.map((changes) => (last = Story.state(changes, last, story)));
    for (const state of story.states) state.queues = Story.inOrder(state.queues);
    return story;
  },

  // Queues by their senders, and then their receivers.
  inOrder(queues) {
    return [...queues.values()].sort((one, other) => one.sender - other.sender || one.receiver - other.receiver);
  },

  // The state after that line.
  at(story, line) {
    return story.states[line - story.begin];
  },

  // Whether a step survives after that line: it was made, and isn't taken back yet.
  survives(step, line) {
    return step.born <= line && (!step.gone || step.gone > line);
  },

  // The steps that survive after that line.
  surviving(story, line) {
    return [...story.steps.values()].filter((step) => Story.survives(step, line));
  },

  // What a rollback of a step would take back after that line, the commit that forbids it, and the chain of steps that leads
  // to that commit, or to the last step.
  rollback(story, line, number) {
    const step = story.steps.get(number);
    const later = Story.numbers(step.later);
    const before = new Map(step.before.split(" ").filter(Boolean).map((it, place) => [later[place], Number(it)]));
    const taken = [number, ...later.filter((it) => Story.survives(story.steps.get(it), line))];
    const commit = taken.find((it) => story.steps.get(it).act === "commit");
    const chain = [commit || taken[taken.length - 1]];
    while (chain[0] !== number) chain.unshift(before.get(chain[0]));
    return { taken, commit, chain };
  },

  // Why a step depends directly on the one before it in a chain.
  link(story, number, before) {
    const [it, other] = [story.steps.get(number), story.steps.get(before)];
    if (it.takes !== before) return `${it.role}'s step ${number} came after its step ${before}`;
    const [took, gave] = it.act === "pick" ? ["picked", "chose"] : ["received", "sent"];
    return `${it.role}'s step ${number} ${took} what ${other.role}'s step ${before} ${gave}`;
  },

  // A step in words, as it stands after that line.
  inWords(story, line, step) {
    const waits = Story.at(story, line).queues.some((queue) => queue.waiting.includes(step.number));
    const isNew = step.born === line && line > story.begin;
    const isGone = step.gone && step.gone <= line;
    const more = [step.takes && `of step ${step.takes}`, waits && "waits", isNew && "new",
      isGone && `taken back by ${step.by} in line ${step.gone}`];
    return [`${step.number}: ${step.words}`, ...more.filter(Boolean)].join(", ");
  },
};

// --- The page ----------------------------------------------------------------------------------------------------------

// An element with what is in it; a text is a text, whatever it has.
function made(tag, classes, ...inside) {
  const element = document.createElement(tag);
  if (classes) element.className = classes;
  element.append(...inside);
  return element;
}

// Gives an element another attribute, where it has a different one.
function set(element, name, value) {
  if (element.getAttribute(name) !== value) element.setAttribute(name, value);
}

// Says something in a place, which is read aloud where it changes.
function tell(place, parts) {
  if (place.textContent !== parts.map((it) => it.textContent ?? it).join("")) place.replaceChildren(...parts);
}

const MANY = 40; // of more steps their numbers aren't listed

class Page {
  constructor(story) {
    this.story = story;
    this.line = story.end;
    this.chosen = null;
    this.find = (id) => document.getElementById(id);
    this.lines = new Map([...document.querySelectorAll(".line")].map((it) => [Number(it.dataset.line), it]));
    this.dots = this.byStep(".step");
    this.arrows = this.byStep(".arrow");
    this.grounds = this.byStep(".ground");
    this.waits = this.byStep(".waits");
    this.sent = this.byStep(".sent");
    this.ways = [...document.querySelectorAll(".way")];
    this.bands = [...document.querySelectorAll(".band")];
    this.taker = new Map();
    for (const step of story.steps.values()) {
      if (step.takes) this.taker.set(step.takes, [...(this.taker.get(step.takes) || []), step]);
    }
  }

  byStep(selector) {
    return new Map([...document.querySelectorAll(selector)].map((it) => [Number(it.dataset.step), it]));
  }

  // Goes to a line, as far as there are lines.
  go(line) {
    this.line = Math.min(this.story.end, Math.max(this.story.begin, line));
    this.show();
    this.follow();
  }

  // Chooses a step, or none.
  choose(number) {
    this.chosen = number;
    this.show();
  }

  show() {
    this.showLine();
    this.showPicture();
    this.showChosen();
    this.showQueues();
    this.story.roles.forEach((_, role) => this.showRole(role));
  }

  showLine() {
    const { story, line } = this;
    const slider = this.find("position");
    slider.value = line;
    slider.setAttribute("aria-valuetext", this.lines.get(line).textContent);
    this.find("where").textContent = `${line} of ${story.end}`;
    const told = made("p", "", story.told[line - story.begin]);
    if (story.refused.has(line)) told.prepend(made("strong", "", "Refused. "));
    told.prepend(made("span", "unseen", `Line ${line}: `));
    tell(this.find("told"), [told]);
    this.find("told").className = story.refused.has(line) ? "refused" : "";
    for (const [number, button] of this.lines) {
      button.tabIndex = number === line ? 0 : -1;
      if (number === line) button.setAttribute("aria-current", "true");
      else button.removeAttribute("aria-current");
    }
    for (const id of ["first", "back"]) this.find(id).disabled = line === story.begin;
    for (const id of ["on", "last"]) this.find(id).disabled = line === story.end;
  }

  // The classes of a step after this line.
  classes(step) {
    const { line } = this;
    if (step.born > line) return ["later"];
    if (step.gone && step.gone <= line) return step.gone === line ? ["gone", "lost"] : ["gone"];
    return step.born === line && line > this.story.begin ? ["new"] : [];
  }

  showPicture() {
    const { story, line } = this;
    const rollback = this.rollback();
    const shaded = new Set(rollback ? rollback.taken : []);
    const waiting = new Set(Story.at(story, line).queues.flatMap((queue) => queue.waiting));
    for (const [number, step] of story.steps) {
      const classes = this.classes(step);
      const dot = this.dots.get(number);
      set(dot, "class", ["step", step.act, ...classes, shaded.has(number) ? "shaded" : "",
        number === this.chosen ? "chosen" : ""].filter(Boolean).join(" "));
      set(dot, "aria-pressed", String(number === this.chosen));
      tell(dot.firstChild, [Story.inWords(story, line, step)]);
      if (this.arrows.has(number)) set(this.arrows.get(number), "class", ["arrow", ...classes].join(" "));
      this.grounds.get(number).classList.toggle("shaded", shaded.has(number));
      if (this.waits.has(number)) this.showMessage(step, waiting.has(number));
    }
    for (const way of this.ways) {
      way.classList.toggle("shaded", shaded.has(Number(way.dataset.from)) && shaded.has(Number(way.dataset.to)));
    }
    this.showBands();
  }

  // The short arrows of a step that sends: its message waits, or was taken in another band.
  showMessage(step, waits) {
    const survives = Story.survives(step, this.line);
    const taker = (this.taker.get(step.number) || []).find((it) => Story.survives(it, this.line));
    const band = (number) => this.dots.get(number).closest(".band");
    this.waits.get(step.number).classList.toggle("on", survives && waits);
    this.sent.get(step.number).classList.toggle("on",
      Boolean(survives && taker && band(taker.number) !== band(step.number)));
  }

  // Of bands in which there is nothing yet, except the first, only the room is there; and nothing of those whose steps are all
  // hidden. Of the steps that are seen one is in the order of keys.
  showBands() {
    this.find("picture").classList.toggle("no_outlines", !this.find("outlines").checked);
    const seen = this.seen();
    const bands = new Set(seen.map((number) => this.dots.get(number).closest(".band")));
    const last = Math.max(0, ...[...bands].map((band) => this.bands.indexOf(band)));
    this.bands.forEach((band, place) => {
      band.classList.toggle("later", place > last);
      band.toggleAttribute("hidden", place < last && !bands.has(band));
    });
    const stop = seen.includes(this.chosen) ? this.chosen : seen[seen.length - 1];
    const there = new Set(seen);
    for (const [number, dot] of this.dots) {
      set(dot, "tabindex", number === stop ? "0" : "-1");
      set(dot, "aria-hidden", String(!there.has(number)));
    }
  }

  // The numbers of the steps that are seen.
  seen() {
    const outlines = this.find("outlines").checked;
    return [...this.story.steps.values()].filter((step) => step.born <= this.line && (
      outlines || !step.gone || step.gone >= this.line)).map((step) => step.number);
  }

  // What a rollback of the chosen step would do, where there is one that survives.
  rollback() {
    const step = this.story.steps.get(this.chosen);
    return step && Story.survives(step, this.line) ? Story.rollback(this.story, this.line, step.number) : null;
  }

  showChosen() {
    const step = this.story.steps.get(this.chosen);
    const help = "Click on a step, or go to it with Up and Down and press Enter, to see what a rollback of it would take back.";
    this.find("step_title").textContent = step ? `Step ${step.number}` : "Step";
    tell(this.find("chosen"), step ? this.toldOf(step) : [made("p", "", help)]);
  }

  // What there is to say of a step.
  toldOf(step) {
    const { story, line } = this;
    if (step.born > line) return [made("p", "", `There is no step ${step.number} yet: line ${step.born} makes it.`)];
    const words = made("p", "", made("code", "", Story.inWords(story, line, step)));
    if (step.gone && step.gone <= line) return [words];
    const { taken, commit, chain } = this.rollback();
    const last = chain[chain.length - 1];
    const told = made("p", "", this.toldOfRollback(step, taken, commit));
    if (last === step.number) return [words, told];
    const links = chain.slice(1).map((number, place) => made("li", "", Story.link(story, number, chain[place])));
    const title = `Why ${commit ? "the commit" : "the last of these"}, step ${last}, depends on step ${step.number}:`;
    return [words, told, made("p", "", title), made("ol", "chain", ...links)];
  }

  // What a rollback of a step would take back, or which commit forbids it.
  toldOfRollback(step, taken, commit) {
    const list = `${taken.length} steps: ${this.byRole(taken)}.`;
    const shaded = taken.length > 1 ? ` Shaded are it and all that depends on it, ${list}` : "";
    if (commit === step.number) return `A rollback of it is refused as final ${commit}, since it is a commit itself.${shaded}`;
    if (commit) {
      const { role } = this.story.steps.get(commit);
      return `A rollback of it is refused as final ${commit}: ${role}'s step ${commit} is a commit, and depends on it.${shaded}`;
    }
    const what = taken.length > 1 ? list : "this step alone.";
    return `A rollback of it, for which only ${step.role} can ask, would take back ${what}`;
  }

  // Steps of each role, by their numbers, or where they are many how many they are.
  byRole(numbers) {
    return this.story.roles.map((role) => [role, numbers.filter((it) => this.story.steps.get(it).role === role)])
      .filter(([, own]) => own.length)
      .map(([role, own]) => `${numbers.length > MANY ? own.length : own.join(", ")} of ${role}`).join("; ");
  }

  // What has just come is marked, and what is gone stays struck out for this line, with the reason.
  compared(now, before, spell, why) {
    const [keys, old] = [now.map(spell), before.map(spell)];
    const shown = keys.map((key) => (old.includes(key) ? made("span", "", key) :
      made("span", "", made("ins", "", key), made("span", "flag", "new"))));
    const gone = before.filter((_, place) => !keys.includes(old[place]));
    return [...shown, ...gone.map((it) => made("span", "", made("del", "", spell(it)), made("span", "flag", why(it))))];
  }

  // The line before this one, or this one where the story begins with it.
  before() {
    return Story.at(this.story, Math.max(this.story.begin, this.line - 1));
  }

  showQueues() {
    const { story } = this;
    const [now, last] = [Story.at(story, this.line).queues, this.before().queues];
    const key = (queue) => `${queue.sender} ${queue.receiver}`;
    const all = [...now, ...last.filter((queue) => !now.some((it) => key(it) === key(queue)))];
    const rows = Story.inOrder(new Map(all.map((queue) => [key(queue), queue]))).map((queue) => {
      const none = { earlier: 0, waiting: [] };
      const [here, there] = [now, last].map((queues) => queues.find((it) => key(it) === key(queue)) || none);
      const title = `${story.roles[queue.sender]} to ${story.roles[queue.receiver]}: `;
      const row = made("li", "queue", made("strong", "", title));
      if (here.earlier) row.append(`${here.earlier} of steps that are left out; `);
      const spell = (number) => `${story.steps.get(number).what} (step ${number})`;
      const why = (number) => (Story.survives(story.steps.get(number), this.line) ? "received" : "taken back");
      this.compared(here.waiting, there.waiting, spell, why).forEach((it, place) => row.append(place ? ", " : "", it));
      return row;
    });
    this.find("queues").replaceChildren(...(rows.length ? rows : [made("li", "", "None.")]));
  }

  showRole(role) {
    const [now, last] = [Story.at(this.story, this.line).roles[role], this.before().roles[role]];
    const section = document.querySelector(`.role[data-role="${role}"]`);
    const expects = now.expects === last.expects ? [now.expects] :
      [made("ins", "", now.expects), made("span", "flag", "new"), ` before: ${last.expects}`];
    section.querySelector(".expects").replaceChildren(...expects);
    const slots = this.compared(now.slots, last.slots, ([slot, value]) => `${slot} = ${value}`, () => "gone");
    const keeps = slots.flatMap((it, place) => (place ? [", ", it] : [it]));
    if (now.earlier) keeps.unshift(`${now.earlier} slots that are left out; `);
    section.querySelector(".keeps").replaceChildren(...(keeps.length ? keeps : ["nothing"]));
    const words = this.story.types[role].split(" ");
    const [begin, here, end] = [[0, now.begin], [now.begin, now.end], [now.end]].map((it) => words.slice(...it).join(" "));
    section.querySelector(".type code").replaceChildren(begin, begin && " ",
      made("mark", "", made("span", "unseen", "here: "), here), end && " ", end);
  }

  // Scrolls a pane so far that an element is in view, with so much around it.
  bring(pane, element, around) {
    if (!element) return;
    const [outer, inner] = [pane.getBoundingClientRect(), element.getBoundingClientRect()];
    pane.scrollTop -= Math.max(0, outer.top + around - inner.top);
    pane.scrollTop += Math.max(0, inner.bottom + around - outer.bottom);
    pane.scrollLeft -= Math.max(0, outer.left + around - inner.left);
    pane.scrollLeft += Math.max(0, inner.right + around - outer.right);
  }

  // Brings the line and what is new into view, each in its pane.
  follow() {
    this.bring(this.find("lines"), this.lines.get(this.line), 8);
    const changed = [...this.story.steps.values()].filter((step) => step.born === this.line || step.gone === this.line);
    const last = changed.length ? changed[changed.length - 1].number : this.seen().pop();
    this.bring(this.find("picture"), this.dots.get(last), 48);
    if (changed.length > 1) this.bring(this.find("picture"), this.dots.get(changed[0].number), 48);
  }

  // Goes from the step that has the focus to the one so many places further.
  move(places) {
    const seen = this.seen();
    const focus = document.activeElement.closest(".step");
    const place = seen.indexOf(Number(focus.dataset.step)) + places;
    const dot = this.dots.get(seen[Math.min(seen.length - 1, Math.max(0, place))]);
    for (const it of this.dots.values()) it.setAttribute("tabindex", it === dot ? "0" : "-1");
    dot.focus();
  }

  // What a key does; whether it does something.
  press(key, target) {
    const step = target.closest(".step");
    const up = { ArrowUp: -1, ArrowDown: 1 }[key];
    const to = { ArrowLeft: this.line - 1, ArrowRight: this.line + 1, Home: this.story.begin, End: this.story.end };
    if (key in to && target.id !== "position") this.go(to[key]);
    else if (key === "Escape" && this.chosen) this.choose(null);
    else if (step && up) this.move(up);
    else if (step && (key === "Enter" || key === " ")) this.choose(Number(step.dataset.step));
    else if (target.closest(".line") && up) this.go(this.line + up);
    else return false;
    this.keepFocus(target);
    return true;
  }

  // The focus goes on with the line, and never stays on a step that is no longer seen.
  keepFocus(target) {
    if (target.closest(".line")) this.lines.get(this.line).focus({ preventScroll: true });
    const step = target.closest(".step");
    if (step && !this.seen().includes(Number(step.dataset.step))) {
      const stop = [...this.dots.values()].find((dot) => dot.getAttribute("tabindex") === "0");
      (stop || this.find("position")).focus();
    }
  }

  listen() {
    this.find("position").addEventListener("input", (event) => this.go(Number(event.target.value)));
    this.find("outlines").addEventListener("change", () => this.show());
    const { begin, end } = this.story;
    const to = { first: () => begin, back: () => this.line - 1, on: () => this.line + 1, last: () => end };
    for (const id of Object.keys(to)) this.find(id).addEventListener("click", () => this.go(to[id]()));
    this.find("lines").addEventListener("click", (event) => {
      const button = event.target.closest(".line");
      if (button) this.go(Number(button.dataset.line));
    });
    this.find("picture").addEventListener("click", (event) => {
      const step = event.target.closest(".step");
      this.choose(step ? Number(step.dataset.step) : null);
    });
    document.addEventListener("keydown", (event) => {
      const plain = !(event.ctrlKey || event.altKey || event.metaKey || event.shiftKey);
      if (plain && this.press(event.key, event.target)) event.preventDefault();
    });
    window.addEventListener("hashchange", () => this.open());
  }

  // Goes to the line that the address names, as in story.html#6, or to the last one.
  open() {
    const line = Number(window.location.hash.slice(1) || "x");
    this.go(Number.isInteger(line) ? line : this.story.end);
  }
}

if (typeof document !== "undefined") {
  const page = new Page(Story.read(JSON.parse(document.getElementById("data").textContent)));
  page.listen();
  page.open();
}
if (typeof module !== "undefined") module.exports = Story;
