"use strict";
// Steps through the trace in a section, which is all that is known here. What it says becomes text, never markup.
const EVENT = new RegExp("^(?:"
  + "write (?<arrives>\\d+) (?<place>r\\d+|word \\d+) = (?<value>-?\\d+) was (?<was>-?\\d+) from (?<from>\\d+)|"
  + "(?<kind>issue|fault) (?<issued>\\d+) unit (?<unit>[01]) (?<operation>.+?)(?: (?:reads|emits) (?<reads>.+))?)$");
const READ = /(?<place>r\d+|word \d+) = (?<value>-?\d+)(?: until (?<until>\d+))?/g;

function element(name, kind, ...parts) {
  const made = document.createElement(name);
  if (kind) made.className = kind;
  made.append(...parts);
  return made;
}

// Whether this operation sends its result to this place.
function sends(operation, place) {
  return operation.startsWith("store") ? place.startsWith("word") : operation.endsWith(`=> ${place}`);
}

// The events of a trace, each with its cycle and what it reads, and an issue with the write that brings its result.
function eventsOf(trace) {
  const events = trace.trim().split("\n").map(line => ({ line, ...EVENT.exec(line).groups }));
  const issues = new Map();
  for (const event of events) {
    event.cycle = +(event.arrives ?? event.issued);
    event.reads = [...(event.reads || "").matchAll(READ)].map(read => read.groups);
    if (event.operation) issues.set(event.issued, [...issues.get(event.issued) || [], event]);
  }
  for (const write of events.filter(event => event.place)) {
    issues.get(write.from).find(issue => !issue.write && sends(issue.operation, write.place)).write = write;
  }
  return events;
}

// By place the first value that the trace has of it.
function firstValues(events) {
  const first = new Map();
  for (const event of events) {
    for (const { place, value } of event.place ? [{ place: event.place, value: event.was }] : event.reads) {
      if (!first.has(place)) first.set(place, value);
    }
  }
  return first;
}

// A line of the trace, with what is read too early marked.
function told(event) {
  const made = element("li", event.place ? "write" : event.kind === "fault" ? "early" : "");
  let end = 0;
  for (const read of event.operation ? event.line.matchAll(READ) : []) {
    if (!read.groups.until) continue;
    made.append(event.line.slice(end, read.index), element("span", "early", read[0]));
    end = read.index + read[0].length;
  }
  made.append(event.line.slice(end));
  return made;
}

class Stepper {
  constructor(section) {
    this.section = section;
    this.last = +section.dataset.last;
    this.events = eventsOf(this.find("pre").textContent);
    this.writes = this.events.filter(event => event.place);
    this.issues = this.events.filter(event => event.operation);
    this.first = firstValues(this.events);
    this.places = [...this.first.keys()].sort((a, b) => a.match(/\d+/) - b.match(/\d+/));
    this.marked = new Map(this.issues.map(issue => [`${issue.cycle}.${issue.unit}`, []]));
    section.querySelectorAll("[data-op]").forEach(part => this.marked.get(part.dataset.op)?.push(part));
    this.band = document.createElementNS("http://www.w3.org/2000/svg", "rect");
    const given = { class: "band", width: "100%", height: section.dataset.height };
    for (const [name, value] of Object.entries(given)) this.band.setAttribute(name, value);
    this.find(".timeline title").after(this.band);
    this.listen();
    this.go(0);
  }

  find(what) {
    return this.section.querySelector(what);
  }

  listen() {
    this.find("input").addEventListener("input", () => this.step(0));
    this.find(".back").addEventListener("click", () => this.step(-1));
    this.find(".on").addEventListener("click", () => this.step(1));
    this.find(".panels").addEventListener("click", event => {
      const place = event.target.closest("[data-op]")?.dataset.op;
      if (place) this.go(parseInt(place));
    });
  }

  step(by) {
    this.go(+this.find("input").value + by);
  }

  go(cycle) {
    this.show(Math.max(0, Math.min(this.last, cycle)));
  }

  list(what, items, none) {
    this.find(what).replaceChildren(...items.length ? items : [element("li", "", none)]);
  }

  // The machine after what happens in this cycle.
  show(cycle) {
    const now = this.events.filter(event => event.cycle === cycle);
    const begun = this.issues.filter(issue => issue.cycle <= cycle);
    const flights = begun.map(issue => issue.write).filter(write => write?.cycle > cycle);
    const reads = new Map(now.flatMap(event => event.reads.map(read => [read.place, read.until])));
    this.showCells(cycle, now, flights, reads);
    this.list(".flights", flights.sort((a, b) => a.cycle - b.cycle)
      .map(write => element("li", "", `${write.place} = ${write.value} at ${write.arrives}`)), "nothing");
    this.list(".emitted", begun.filter(issue => issue.operation.startsWith("output"))
      .flatMap(issue => issue.reads).map(read => element("li", "", read.value)), "nothing");
    this.list(".events", now.map(told), "nothing arrives, and nothing is issued");
    this.mark(cycle, reads);
    this.place(cycle);
  }

  showCells(cycle, now, flights, reads) {
    const values = new Map(this.writes.filter(write => write.cycle <= cycle).map(write => [write.place, write.value]));
    const cells = this.places.map(place => {
      const state = [now.some(write => write.place === place) && "new", reads.has(place) && "read",
        reads.get(place) && "early", flights.some(write => write.place === place) && "due",
        !values.has(place) && "idle"];
      const kind = state.filter(Boolean).join(" ");
      return { place, kind, text: `${place.replace("word ", "")} = ${values.get(place) ?? this.first.get(place)}` };
    });
    const isRegister = cell => cell.place.startsWith("r");
    const made = cells => cells.map(cell => element("li", cell.kind, cell.text));
    this.list(".registers", made(cells.filter(cell => isRegister(cell) && cell.kind !== "idle")), "all are 0");
    this.list(".words", made(cells.filter(cell => !isRegister(cell))), "no word is used");
  }

  // Marks each operation by what becomes of it, in block, schedule and graph.
  mark(cycle, reads) {
    for (const issue of this.issues) {
      const state = [issue.cycle === cycle && "issued", issue.cycle > cycle && "later",
        issue.cycle < cycle && issue.write?.cycle > cycle && "flying",
        issue.cycle === cycle && issue.reads.some(read => read.until) && "early",
        issue.write && reads.get(issue.write.place) === issue.write.arrives && "awaited"].filter(Boolean).join(" ");
      if (issue.state === state) continue;
      issue.state = state;
      this.marked.get(`${issue.cycle}.${issue.unit}`).forEach(part => part.setAttribute("class", state));
    }
  }

  // Moves slider, band and what scrolls to the cycle.
  place(cycle) {
    const said = `cycle ${cycle} of ${this.last}`;
    const top = +this.section.dataset.top + this.section.dataset.height * cycle;
    this.find("input").value = cycle;
    this.find("input").setAttribute("aria-valuetext", said);
    this.find("output").textContent = said;
    this.band.setAttribute("y", top);
    for (const turn of this.section.querySelectorAll("[data-first]")) {
      turn.hidden = cycle < +turn.dataset.first || cycle > +turn.dataset.last;
    }
    const issued = this.find(".source .issued");
    reveal(this.find(".timeline"), top);
    if (issued) reveal(this.find(".block"), issued.offsetTop - this.find(".block").offsetTop);
  }
}

function reveal(box, top) {
  if (top < box.scrollTop + 40 || top > box.scrollTop + box.clientHeight - 40) {
    box.scrollTop = top - box.clientHeight / 2;
  }
}

const steppers = [...document.querySelectorAll("section")].map(section => new Stepper(section));
let shown = steppers[0];
const KEYS = {
  ArrowLeft: () => shown.step(-1), ArrowRight: () => shown.step(1),
  Home: () => shown.go(0), End: () => shown.go(shown.last),
};

// `#K.C` is block K at cycle C.
function followHash() {
  const [, number, cycle] = /^#(\d+)\.(\d+)$/.exec(location.hash) || [];
  shown = steppers.find(stepper => stepper.section.id === `block-${number}`) || shown;
  steppers.forEach(stepper => { stepper.section.hidden = stepper !== shown; });
  if (cycle) shown.go(+cycle);
}

followHash();
addEventListener("hashchange", followHash);
addEventListener("beforeprint", () => document.querySelectorAll("details").forEach(each => { each.open = true; }));
addEventListener("keydown", event => {
  const isTaken = event.altKey || event.ctrlKey || event.metaKey || event.target.closest?.("input, .scroll");
  if (isTaken || !Object.hasOwn(KEYS, event.key)) return;
  KEYS[event.key]();
  event.preventDefault();
});
