// Run texts and scenarios, as docs/reference/formats.md defines them, and links that contain one.

const MOST_RUN_BYTES = 1048576;
const MOST_SCENE_BYTES = 8192;
const MODES = ["free", "marked", "allocating", "locked", "occupied"];
const LIES = ["plus", "minus", "moving"];

// why something isn't done, in a sentence
class Refusal extends Error {}

// the first bad line of a text, by its number from 1, and why it is bad
class BadLine extends Refusal {
  constructor(number, why) {
    super(`Line ${number} is bad: ${why}.`);
    this.number = number;
  }
}

function stateLines(plant, state) {
  return [
    ...plant.routes.map(({ name }, r) => `route ${name} ${state.mode[r]} ${state.seen[r]} ${state.rel[r]}`),
    ...plant.points.map((x) => `point ${plant.name(x)} ${state.at[x]} ${state.to[x]}`),
    ...plant.boards.map(({ name }, b) => `board ${name} ${state.aspect[b]}`),
    ...plant.sections.map(({ name }, x) => `section ${name} ${state.lock[x]}`),
    ...state.trains.map(({ direction, body }) => `train ${direction} ${body.map((x) => plant.name(x)).join(" ")}`),
  ];
}

// the text of a run, from a state or, if that is null, from the initial state
function runText(plant, first, events) {
  const begin = first ? ["state", ...stateLines(plant, first), "events"] : ["start"];
  return ["run 1", ...begin, ...events.map((event) => eventLine(plant, event)), "end", ""].join("\n");
}

function commandsOf(events) { return events.filter(({ word }) => COMMANDS.includes(word)); }

function sceneText(plant, commands) {
  return ["drive 1", ...commands.map((event) => eventLine(plant, event)), "end", ""].join("\n");
}

// The lines of a text, taken one by one. A line without a line feed is bad at its number, and so is one that
// is missing.
class Lines {
  constructor(text) {
    this.lines = text.split("\n");
    this.rest = this.lines.pop();
    this.at = 0;
  }

  get number() { return this.at + 1; }

  // the next line, or undefined if no more line feed follows
  get next() { return this.lines[this.at]; }

  bad(why) {
    const isEnded = this.next !== undefined;
    throw new BadLine(this.number, isEnded ? why : this.rest ? "it has no line feed" : "it is missing");
  }

  take(line) {
    if (this.next !== line) this.bad(`it must be “${line}”`);
    this.at += 1;
  }

  end() {
    this.take("end");
    if (this.next !== undefined || this.rest) throw new BadLine(this.number, "nothing may follow the end");
  }
}

function readEvent(plant, lines, words) {
  const line = lines.next ?? "";
  const [word, name, ...more] = line.split(" ");
  if (!words.includes(word)) lines.bad(`“${word}” is not one of ${words.join(", ")}`);
  const kind = isOfRoute(word) ? "route" : "section";
  const number = plant.named[kind].get(name);
  if (more.length || number === undefined) lines.bad(`“${line}” does not name a ${kind}`);
  if (word in POINT_RULES && !plant.sections[number].point) lines.bad(`${name} has no points`);
  lines.at += 1;
  return { word, number };
}

function readEvents(plant, lines, words) {
  const events = [];
  while (lines.next !== "end") events.push(readEvent(plant, lines, words));
  lines.end();
  return events;
}

// takes a line of `kind name word word ..`, each word one of its choices
function readPart(lines, kind, name, choices) {
  const words = (lines.next ?? "").split(" ");
  const isRight = words.length === choices.length + 2 && words[0] === kind && words[1] === name
    && choices.every((choice, place) => choice.includes(words[place + 2]));
  if (!isRight) lines.bad(`it must be “${kind} ${name}” with its words`);
  lines.at += 1;
  return words.slice(2);
}

function upTo(most) { return Array.from({ length: most + 1 }, (_, number) => String(number)); }

function readTrain(plant, lines, state) {
  const [, direction, ...names] = lines.next.split(" ");
  const body = names.map((name) => plant.named.section.get(name));
  const leadsOn = body.every((x, place) => x !== undefined
    && (place === 0 || plant.next(body[place - 1], direction).includes(x)));
  if (!(direction in OPPOSITE) || !body.length || !leadsOn) {
    lines.bad("a train needs a direction and sections, each next to the one before");
  }
  state.addTrain(direction, body);
  lines.at += 1;
}

function readState(plant, lines) {
  const state = new State(plant);
  plant.routes.forEach(({ name, path }, r) => {
    const counts = upTo(path.length);
    const [mode, seen, rel] = readPart(lines, "route", name, [MODES, counts, counts]);
    [state.mode[r], state.seen[r], state.rel[r]] = [mode, Number(seen), Number(rel)];
  });
  for (const x of plant.points) {
    [state.at[x], state.to[x]] = readPart(lines, "point", plant.name(x), [LIES, LIES.slice(0, 2)]);
  }
  plant.boards.forEach(({ name }, b) => {
    [state.aspect[b]] = readPart(lines, "board", name, [["open", "closed"]]);
  });
  plant.sections.forEach(({ name }, x) => {
    [state.lock[x]] = readPart(lines, "section", name, [["free", "locked", "used"]]);
  });
  while ((lines.next ?? "").startsWith("train ")) readTrain(plant, lines, state);
  lines.take("events");
  return state;
}

function tooLong(length, most) { return `The text has ${length} bytes, but irv reads at most ${most}.`; }

// a run text: the state in which it begins, null for the initial state, and its events
function readRun(plant, text) {
  if (text.length > MOST_RUN_BYTES) throw new Refusal(tooLong(text.length, MOST_RUN_BYTES));
  const lines = new Lines(text);
  lines.take("run 1");
  let first = null;
  if (lines.next === "state") {
    lines.at += 1;
    first = readState(plant, lines);
  } else {
    lines.take("start");
  }
  return { first, events: readEvents(plant, lines, Object.keys(RULES)) };
}

// the commands of a scenario
function readScene(plant, text) {
  if (text.length > MOST_SCENE_BYTES) throw new Refusal(tooLong(text.length, MOST_SCENE_BYTES));
  const lines = new Lines(text);
  lines.take("drive 1");
  return readEvents(plant, lines, COMMANDS);
}

// what verify, drive and the simulator write before a run
function withoutVerdict(text) {
  const begin = text.indexOf("\nrun 1\n");
  return begin >= 0 && !/^(run|drive) /.test(text) ? text.slice(begin + 1) : text;
}

// A text in a link: names have none of the characters that replace a space and a line feed.
function asFragment(text) { return text.replaceAll(" ", ".").replaceAll("\n", "~"); }

function fromFragment(fragment) { return fragment.replaceAll(".", " ").replaceAll("~", "\n"); }
