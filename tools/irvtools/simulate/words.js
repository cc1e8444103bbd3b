// Events, states and hazards in words.

const STAYS = "It stays requested until it locks. ";

const HAZARD_WORDS = {
  two: (name) => `Two trains are in section ${name}: a collision.`,
  wrong: (name) => `A train is on points ${name}, which are moving or not set for it: a derailment risk.`,
};

function hazardWords(plant, found) { return HAZARD_WORDS[found.kind](plant.name(found.section)); }

function listed(words) {
  return words.length < 2 ? words.join("") : `${words.slice(0, -1).join(", ")} and ${words.at(-1)}`;
}

const EVENT_WORDS = {
  mark: (plant, _, { name }) => `Route ${name} is requested.`,
  allocate: (plant, _, { name, locked, wanted }) => {
    const commands = wanted.map(([x, position]) => `${plant.name(x)} to ${position}`);
    return `Route ${name} locks ${listed(locked.map((x) => plant.name(x)))}`
      + `${commands.length ? ` and commands points ${listed(commands)}` : ""}.`;
  },
  lock: (plant, _, { name, source }) => `Route ${name} is locked: board ${plant.boards[source].name} opens.`,
  sense: (plant, before, { name, path }, r) =>
    `A train is detected in ${plant.name(path[before.seen[r]])}, on the path of route ${name}.`,
  release: (plant, before, { name, path }, r) =>
    `Route ${name} releases ${plant.name(path[before.rel[r]])}, which the train has left.`,
  finish: (plant, _, { name, path, beside }) =>
    `Route ${name} is finished and releases ${listed([path.at(-1), ...beside].map((x) => plant.name(x)))}.`,
  cancel: (plant, before, { name }, r) =>
    `Route ${name} is cancelled${before.mode[r] === "allocating" ? " and releases its sections" : ""}.`,
  throw: (plant, before, { name }, x) => `Points ${name} start to move to ${before.to[x]}.`,
  settle: (plant, before, { name }, x) => `Points ${name} are detected in position ${before.to[x]}.`,
  enter: (plant, before, { name }, x) =>
    `Train ${before.came + 1} enters at ${name} and runs ${plant.inward[x]}.`,
  head: (plant, before, { name }, x) => {
    const train = before.withHead(x);
    const board = plant.board(x, train.direction);
    const past = board === undefined ? "" : ` past board ${plant.boards[board].name}, which closes`;
    return `The front of train ${train.number} moves from ${name} on to `
      + `${plant.name(ahead(plant, before, x, train.direction))}${past}.`;
  },
  tail: (plant, before, { name }, x) => `The rear of train ${before.withTail(x).number} leaves ${name}.`,
  leave: (plant, before, { name }, x) => `Train ${before.standingOn(x).number} leaves the area at ${name}.`,
};

// what an event does in a state in which it is enabled
function eventWords(plant, before, { word, number }) {
  return EVENT_WORDS[word](plant, before, thingsOf(plant, word)[number], number);
}

function routeWords(plant, r) {
  const { name, source, destination, path } = plant.routes[r];
  const to = destination === null ? `out of the area over ${plant.name(path.at(-1))}` : `to ${plant.boards[destination].name}`;
  return `${name}: from ${plant.boards[source].name} ${to}`;
}

function modeWords(plant, state, r) {
  if (!state.seen[r]) return state.mode[r];
  return `${state.mode[r]} (${state.seen[r]} of ${plant.routes[r].path.length} detected, ${state.rel[r]} released)`;
}

function trainWords(plant, state, train) {
  const board = heldAt(plant, state, train);
  return `Train ${train.number}, ${train.direction}, in ${listed(train.body.map((x) => plant.name(x)))}`
    + `${board === undefined ? "" : `, waiting at board ${plant.boards[board].name}`}`;
}

function sectionWords(plant, state, x) {
  const { name, point } = plant.sections[x];
  const by = state.lock[x] === "free" ? [] : holders(plant, state, x).map((r) => plant.routes[r].name);
  const lies = !point ? "" : state.at[x] === "moving" ? `, moving to ${state.to[x]}`
    : `, in position ${state.at[x]}${state.at[x] === state.to[x] ? "" : `, commanded to ${state.to[x]}`}`;
  const lock = state.lock[x] === "free" ? "free" : `${state.lock[x]}${by.length ? ` by ${by.join(" and ")}` : ""}`;
  const has = state.on[x] ? `occupied by ${trainsIn(state, x)}` : "vacant";
  return `${point ? "Points" : "Section"} ${name}${lies}, ${lock}, ${has}`;
}

function boardWords(plant, state, b) {
  const { name, section, direction } = plant.boards[b];
  return `Board ${name} on ${plant.name(section)} for trains that run ${direction}, ${state.aspect[b]}`;
}

// whether a route is requested and not locked yet
function stays(state, r) { return ["marked", "allocating"].includes(state.mode[r]); }

// what is said of routes whose request stays, and of those that were locked later, after some events
function queueWords(plant, state, events, before) {
  const later = events.filter(({ word, number }) => word === "lock" && before.includes(number))
    .map(({ number }) => `Route ${plant.routes[number].name}, requested before, is locked now.`);
  const staying = events.filter(({ word, number }) => word === "mark" && stays(state, number))
    .map(({ number }) => [plant.routes[number].name, waitsFor(plant, state, number)])
    .filter(([, waits]) => waits.length)
    .map(([name, waits]) => `Route ${name} stays requested until it locks: ${waits.join("; ")}.`);
  return [...staying, ...later];
}
