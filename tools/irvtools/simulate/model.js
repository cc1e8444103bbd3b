// The simulator's own model: the thirteen events, hazards, and the automatic events. No answer of `irv`
// depends on it; tests/simulate compares it with `irv replay` and `irv drive`.
//
// An event is { word, number }: of a route, or of a section.

const RULES = { ...ROUTE_RULES, ...POINT_RULES, ...TRAIN_RULES };

// the automatic events of `irv drive`, in this order, each by ascending number
const AUTOMATIC = ["allocate", "lock", "sense", "release", "finish", "throw", "settle", "head", "tail", "leave"];
const COMMANDS = ["mark", "enter", "cancel"];

const CANNOT = {
  mark: (name) => `${name} cannot be requested`, allocate: (name) => `${name} cannot be allocated`,
  lock: (name) => `${name} cannot be locked`, sense: (name) => `${name} cannot detect a train`,
  release: (name) => `${name} cannot release a section`, finish: (name) => `${name} cannot be finished`,
  cancel: (name) => `${name} cannot be cancelled`, throw: (name) => `Points ${name} cannot be thrown`,
  settle: (name) => `Points ${name} cannot settle`, enter: (name) => `No train can enter at ${name}`,
  head: (name) => `No train can move on from ${name}`, tail: (name) => `No rear of a train can leave ${name}`,
  leave: (name) => `No train can leave the area at ${name}`,
};

function isOfRoute(word) { return ROUTE_EVENTS.includes(word); }

function thingsOf(plant, word) { return isOfRoute(word) ? plant.routes : plant.sections; }

function eventLine(plant, { word, number }) { return `${word} ${thingsOf(plant, word)[number].name}`; }

// the unmet demands of an event, in a state without a hazard
function obstacles(plant, state, { word, number }) { return [...RULES[word].asks(plant, state, number)]; }

// whether an event is enabled in a state without a hazard
function isEnabled(plant, state, word, number) { return RULES[word].asks(plant, state, number).next().done; }

// why an event isn't enabled, as a sentence; null if it is
function refusal(plant, state, event) {
  const cannot = CANNOT[event.word](thingsOf(plant, event.word)[event.number].name);
  const stands = hazard(plant, state);
  if (stands) return `${cannot}: the run has ended in a hazard (${hazardLine(plant, stands)}).`;
  const asked = obstacles(plant, state, event);
  return asked.length ? `${cannot}: ${asked.join("; ")}.` : null;
}

// does an enabled event in place
function apply(plant, state, { word, number }) { RULES[word].does(plant, state, number); }

// whether a train is, next to points under it, on the leg that isn't set
function strays(plant, state, x, body) {
  const wrong = plant.sections[x].ends[OTHER_LEG[state.at[x]]];
  const place = body.indexOf(x);
  return body[place - 1] === wrong || body[place + 1] === wrong;
}

function isWrong(plant, state, x) {
  return plant.sections[x].point && (state.at[x] === "moving"
    || state.in(x).some((train) => strays(plant, state, x, train.body)));
}

// the hazard of the least section, Two before Wrong: { kind, section }; null if there is none
function hazard(plant, state) {
  for (let x = 0; x < state.on.length; x += 1) {
    if (state.on[x] > 1) return { kind: "two", section: x };
    if (state.on[x] && isWrong(plant, state, x)) return { kind: "wrong", section: x };
  }
  return null;
}

function hazardLine(plant, found) {
  return found ? `hazard ${found.kind} ${plant.name(found.section)}` : "no hazard";
}

// the first of these automatic kinds of events that is enabled, in a state without a hazard; or null
function firstAutomatic(plant, state, kinds) {
  for (const word of AUTOMATIC) {
    if (!kinds.includes(word)) continue;
    const count = thingsOf(plant, word).length;
    for (let number = 0; number < count; number += 1) {
      if (isEnabled(plant, state, word, number)) return { word, number };
    }
  }
  return null;
}

// The simulation run of a scenario: its events, and the line by which `irv drive` says how it ends.
function drive(plant, commands) {
  const [state, events] = [new State(plant), []];
  let given = 0;
  for (;;) {
    const found = hazard(plant, state);
    if (found) return { events, rest: hazardLine(plant, found) };
    let event = firstAutomatic(plant, state, AUTOMATIC);
    const command = commands[given];
    if (!event && command && isEnabled(plant, state, command.word, command.number)) {
      event = command;
      given += 1;
    }
    if (!event) {
      const isDone = given === commands.length && !state.trains.length
        && state.mode.every((mode) => mode === "free");
      return { events, rest: isDone ? "driven" : `stuck at ${given + 1}` };
    }
    apply(plant, state, event);
    events.push(event);
  }
}
