// A run: the state in which it begins, its events, and the selected place. A new event cuts off what came
// after that place; what was cut off last can be brought back.

const BETWEEN = 40;         // events from one kept state to the next
const MOST_REFUSED = 200;   // refused events that are kept

class Play {
  constructor(plant, first, events) {
    this.plant = plant;
    this.first = first;     // null for the initial state
    this.events = [];
    this.kept = [first ? first.copy() : new State(plant)];
    this.cut = null;
    this.refused = [];      // events that were not enabled, each with the place at which it was asked for
    this.place = 0;
    this.state = this.kept[0].copy();
    for (const event of events) this.add(event);
  }

  // does an event that is enabled
  add(event) {
    if (this.place < this.events.length) this.cutOff();
    apply(this.plant, this.state, event);
    this.events.push(event);
    this.place += 1;
    if (this.place % BETWEEN === 0) this.kept.push(this.state.copy());
  }

  cutOff() {
    this.cut = { first: this.first, events: this.events };
    this.refused = this.refused.filter(({ place }) => place <= this.place);
    this.events = this.events.slice(0, this.place);
    this.kept.length = Math.floor(this.place / BETWEEN) + 1;
  }

  // goes back or forward, to the state after so many events
  go(place) {
    this.place = Math.min(Math.max(place, 0), this.events.length);
    this.state = this.stateAt(this.place);
  }

  stateAt(place) {
    const from = Math.floor(place / BETWEEN);
    const state = this.kept[from].copy();
    for (const event of this.events.slice(from * BETWEEN, place)) apply(this.plant, state, event);
    return state;
  }

  // the events up to the place
  get done() { return this.events.slice(0, this.place); }

  runText() { return runText(this.plant, this.first, this.done); }

  // notes that an event was not enabled
  refuse(event) {
    const isKept = this.refused.some((one) => one.place === this.place && one.event.word === event.word
      && one.event.number === event.number);
    if (!isKept && this.refused.length < MOST_REFUSED) this.refused.push({ place: this.place, event });
  }

  // the run with what the simulator says of it, for --compare
  playedText({ sum, columns }) {
    const refused = this.refused.filter(({ place }) => place <= this.place)
      .map(({ place, event }) => `refused ${place} ${eventLine(this.plant, event)}`);
    return ["played 1", `configuration ${sum}`, `columns ${columns}`,
      `says ${hazardLine(this.plant, hazard(this.plant, this.state))}`, ...refused, ""].join("\n") + this.runText();
  }

  // the number of the first event that isn't enabled, from 1, with why; null if all are
  static firstRefused(plant, first, events) {
    const state = first ? first.copy() : new State(plant);
    for (const [place, event] of events.entries()) {
      const why = refusal(plant, state, event);
      if (why) return { number: place + 1, why };
      apply(plant, state, event);
    }
    return null;
  }
}

// the line by which `irv replay` answers a run text
function answerToRun(plant, text) {
  return answerTo(() => {
    const { first, events } = readRun(plant, text);
    const refused = Play.firstRefused(plant, first, events);
    if (refused) return `not a run at ${refused.number}`;
    return hazardLine(plant, hazard(plant, new Play(plant, first, events).state));
  });
}

// what `irv drive` prints of a scenario
function answerToScene(plant, text) {
  return answerTo(() => {
    const { events, rest } = drive(plant, readScene(plant, text));
    return `${rest} steps=${events.length}\n${runText(plant, null, events)}`;
  });
}

function answerTo(ask) {
  try {
    return ask();
  } catch (fault) {
    if (!(fault instanceof BadLine)) throw fault;
    return `rejected line ${fault.number}`;
  }
}
