// Random runs of the page's own model, for `irv replay` and `irv drive` to answer, and for the other model
// of events to compare. It runs where the page's script does: in a browser, or in a script engine.

// numbers from 0 to below 1 that come again with the same seed
function chance(seed) {
  let at = seed >>> 0;
  return () => {
    at = (at + 0x6d2b79f5) >>> 0;
    let mixed = Math.imul(at ^ (at >>> 15), at | 1);
    mixed ^= mixed + Math.imul(mixed ^ (mixed >>> 7), mixed | 61);
    return ((mixed ^ (mixed >>> 14)) >>> 0) / 4294967296;
  };
}

function oneOf(next, things) { return things[Math.floor(next() * things.length)]; }

function allEvents(plant) {
  return Object.keys(RULES).flatMap((word) => thingsOf(plant, word)
    .map((_, number) => ({ word, number }))
    .filter(({ number }) => !(word in POINT_RULES) || plant.sections[number].point));
}

function enabledEvents(plant, state) {
  if (hazard(plant, state)) return [];
  return allEvents(plant).filter(({ word, number }) => isEnabled(plant, state, word, number));
}

// a state with shape that need not be reached
function muddle(plant, next) {
  const state = new State(plant);
  plant.routes.forEach(({ path }, r) => {
    if (next() < 0.4) {
      state.mode[r] = oneOf(next, MODES);
      state.seen[r] = Math.floor(next() * (path.length + 1));
      state.rel[r] = Math.floor(next() * (path.length + 1));
    }
  });
  plant.sections.forEach(({ point }, x) => {
    if (next() < 0.2) state.lock[x] = oneOf(next, ["free", "locked", "used"]);
    if (point && next() < 0.4) [state.at[x], state.to[x]] = [oneOf(next, LIES), oneOf(next, LIES.slice(0, 2))];
  });
  plant.boards.forEach((_, b) => { if (next() < 0.3) state.aspect[b] = "open"; });
  for (let left = Math.floor(next() * 3); left > 0; left -= 1) {
    const direction = oneOf(next, ["down", "up"]);
    const body = [Math.floor(next() * plant.sections.length)];
    while (next() < 0.6 && plant.next(body.at(-1), direction).length) {
      body.push(oneOf(next, plant.next(body.at(-1), direction)));
    }
    state.addTrain(direction, body);
  }
  return state;
}

// One run, as a play has it: its text, what replay has to say, a refused event at its end, the rest of it
// from the state that it had on the way, and what the state at its end is. Each kind of event is as likely
// as another, but for those after which less can be done.
function randomRun(plant, next, most) {
  const first = next() < 0.3 ? muddle(plant, next) : null;
  const play = new Play(plant, first, []);
  while (play.place < most) {
    const enabled = enabledEvents(plant, play.state);
    const kinds = [...new Set(enabled.map(({ word }) => word))];
    if (!kinds.length) break;
    const likely = kinds.filter((word) => next() < (LIKELY[word] ?? 1));
    const word = oneOf(next, likely.length ? likely : kinds);
    play.add(oneOf(next, enabled.filter((event) => event.word === word)));
  }
  const cut = Math.floor(next() * (play.place + 1));
  const impossible = allEvents(plant).filter((event) => refusal(plant, play.state, event));
  const refused = oneOf(next, impossible);
  return {
    first: first ? stateLines(plant, first) : null,
    events: play.events.map((event) => eventLine(plant, event)),
    text: play.runText(),
    says: hazardLine(plant, hazard(plant, play.state)),
    rest: runText(plant, play.stateAt(cut), play.events.slice(cut)),
    refused: refused ? [eventLine(plant, refused), runText(plant, first, [...play.events, refused])] : null,
    state: stateLines(plant, play.state),
    enabled: enabledEvents(plant, play.state).map((event) => eventLine(plant, event)),
  };
}

const LIKELY = { cancel: 0.15, enter: 0.2, mark: 0.5, head: 0.7 };

function randomRuns(plant, seed, events, most) {
  const [next, runs] = [chance(seed), []];
  for (let done = 0; done < events;) {
    runs.push(randomRun(plant, next, 1 + Math.floor(next() * most)));
    done += Math.max(1, runs.at(-1).events.length);
  }
  return runs;
}

// scenarios, each with what the page's model says that `irv drive` prints
function randomDrives(plant, seed, count) {
  const next = chance(seed);
  return Array.from({ length: count }, () => {
    const commands = Array.from({ length: Math.floor(next() * 16) }, () => {
      const word = oneOf(next, ["enter", "enter", "mark", "mark", "mark", "cancel"]);
      const numbers = word === "enter" && plant.borders.length && next() < 0.9 ? plant.borders
        : thingsOf(plant, word).map((_, number) => number);
      return numbers.length ? { word, number: oneOf(next, numbers) } : null;
    }).filter((command) => command);
    const { events, rest } = drive(plant, commands);
    const says = `${rest} steps=${events.length}\n${runText(plant, null, events)}`;
    return { scene: sceneText(plant, commands), says };
  });
}

// what the reader of texts says: the number of the first bad line, or null
function badLineOf(plant, text) {
  try {
    (text.startsWith("drive") ? readScene : readRun)(plant, text);
    return null;
  } catch (fault) {
    if (!(fault instanceof BadLine)) throw fault;
    return fault.number;
  }
}

// the play of events by hand: `drive` before them has the plant do all else by itself
function playOf(plant, words) {
  const play = new Play(plant, null, []);
  const kinds = words.startsWith("drive ") ? AUTOMATIC : [];
  for (const line of words.replace(/^drive /, "").split(",").map((one) => one.trim()).filter((one) => one)) {
    play.add(possible(plant, play.state, line));
    for (;;) {
      const event = hazard(plant, play.state) ? null : firstAutomatic(plant, play.state, kinds);
      if (!event) break;
      play.add(event);
    }
  }
  return play;
}

function possible(plant, state, line) {
  const event = eventOf(plant, line);
  const why = refusal(plant, state, event);
  if (why) throw new Error(why);
  return event;
}

function eventOf(plant, line) { return readEvent(plant, new Lines(`${line}\n`), Object.keys(RULES)); }

function refusalOf(plant, words, line) { return refusal(plant, playOf(plant, words).state, eventOf(plant, line)); }

function waitingOf(plant, words) {
  const { state } = playOf(plant, words);
  return Object.fromEntries(plant.routes.map(({ name }, r) => [name, waitsFor(plant, state, r)])
    .filter(([, what]) => what.length));
}

function blockedOf(plant, words) { return blockadeWords(plant, playOf(plant, words).state); }

// Random runs on: of trains that are said to block each other none may ever go on. How often that was said,
// and the runs in which one did.
function brokenBlockades(plant, seed, runs, most) {
  const [next, broken] = [chance(seed), []];
  let said = 0;
  for (let number = 0; number < runs; number += 1) {
    const play = new Play(plant, null, []);
    let heads = new Map();
    for (let done = 0; done < most; done += 1) {
      const enabled = enabledEvents(plant, play.state);
      if (!enabled.length) break;
      const word = oneOf(next, [...new Set(enabled.map((event) => event.word))]);
      play.add(oneOf(next, enabled.filter((event) => event.word === word)));
      const found = blockades(plant, play.state).map(({ train }) => train);
      said += found.length > 0;
      for (const [number, x] of heads) {
        if (play.state.trains.find((train) => train.number === number)?.body.at(-1) !== x) broken.push(play.runText());
      }
      heads = new Map([...heads, ...found.map((train) => [train.number, train.body.at(-1)])]);
    }
  }
  return { said, broken: broken.slice(0, 2) };
}

// what blocks what in the state in which a run text ends
function blockedAfter(plant, text) {
  const { first, events } = readRun(plant, text);
  return blockadeWords(plant, new Play(plant, first, events).state);
}

// A play that goes back and forth and on from there: whether its state is always that of its events alone,
// and how many events it had at most.
function isTrueToEvents(plant, seed, steps) {
  const next = chance(seed);
  const play = new Play(plant, null, []);
  let [isTrue, most] = [true, 0];
  for (let step = 0; step < steps; step += 1) {
    if (next() < 0.1) play.go(play.events.length - Math.floor(next() * next() * 40));
    const enabled = enabledEvents(plant, play.state);
    const likely = enabled.filter(({ word }) => next() < (LIKELY[word] ?? 1));
    if (enabled.length) play.add(oneOf(next, likely.length ? likely : enabled));
    else play.go(Math.floor(play.place / 2));
    const fresh = new Play(plant, null, play.done).state;
    isTrue = isTrue && stateLines(plant, fresh).join() === stateLines(plant, play.state).join();
    most = Math.max(most, play.events.length);
  }
  return [isTrue, most];
}
