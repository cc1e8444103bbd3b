// What is selected on the plan: what is marked for it, and which events it can be asked for.

const EVENT_BUTTONS = { mark: "Request (mark)", allocate: "Allocate", lock: "Lock", sense: "Sense", release: "Release",
  finish: "Finish", cancel: "Cancel", throw: "Throw", settle: "Settle", enter: "Train enters" };

function noMarks() {
  return { path: [], overlap: [], protecting: [], sections: [], goals: [], boards: new Set(), targets: new Set(), hazard: null };
}

// the sections of a route, each with the leg by which it leads there
function legsOf(plant, r) {
  const legs = new Map(plant.routes[r].wanted);
  const withLeg = (x) => [x, plant.sections[x].point ? legs.get(x) ?? "plus" : null];
  const { path, overlap, protecting_points: protecting } = plant.routes[r];
  return { path: path.map(withLeg), overlap: overlap.map(withLeg), protecting: protecting.map(([x]) => withLeg(x)) };
}

// the routes from the selected board that end at a board, or lead out over a section
function routesTo(plant, chosen, kind, number) {
  if (chosen?.kind !== "board") return [];
  return plant.routesFrom[chosen.number].filter((r) => (kind === "board" ? plant.routes[r].destination === number
    : plant.routes[r].path.at(-1) === number));
}

// what is marked: what is selected, otherwise what the last event was about
function marksOf(game) {
  const { plant, state, chosen } = game;
  const marks = noMarks();
  marks.hazard = hazard(plant, state)?.section ?? null;
  const [kind, number] = chosen ? [chosen.kind, chosen.number] : subjectOf(game);
  const routes = kind === "route" ? [number] : kind === "board" && chosen ? plant.routesFrom[number] : [];
  for (const r of routes) {
    const { path, overlap, protecting } = legsOf(plant, r);
    marks.path.push(...path);
    if (kind === "route") {
      marks.overlap.push(...overlap);
      marks.protecting.push(...protecting);
    }
    const { destination } = plant.routes[r];
    if (kind === "board" && destination !== null) marks.targets.add(destination);
    if (kind === "board" && destination === null) marks.goals.push(path.at(-1));
  }
  if (kind === "board") marks.boards.add(number);
  if (kind === "route") marks.boards.add(plant.routes[number].source);
  if (kind === "section") marks.sections.push([number, null]);
  if (kind === "train") {
    const train = state.trains.find((one) => one.number === number);
    marks.sections.push(...(train ? train.body : []).map((x) => [x, null]));
  }
  return marks;
}

function subjectOf({ play }) {
  const event = play.events[play.place - 1];
  return !event ? [null, 0] : [isOfRoute(event.word) ? "route" : "section", event.number];
}

// what is said about the selected thing, and its buttons
function chosenParts(game) {
  const { plant, state, chosen } = game;
  if (!chosen) return [element("p", { class: "small" }, "Nothing is selected.")];
  const { kind, number } = chosen;
  if (kind === "board") return boardParts(game, number, plant.routesFrom[number]);
  if (kind === "pair") return boardParts(game, number, chosen.routes);
  if (kind === "route") return routeParts(game, number);
  if (kind === "section") return sectionParts(game, number);
  const train = state.trains.find((one) => one.number === number);
  return train ? trainParts(game, train) : [element("p", {}, `Train ${number} has left.`)];
}

function eventButton(game, word, number) {
  const one = button(EVENT_BUTTONS[word], () => game.ask({ word, number }),
    `${EVENT_BUTTONS[word]}: ${thingsOf(game.plant, word)[number].name}`);
  if (refusal(game.plant, game.state, { word, number })) one.classList.add("refused");
  return one;
}

function boardParts(game, b, routes) {
  const { plant, state } = game;
  const rows = routes.map((r) => {
    const way = listed(plant.routes[r].path.map((x) => plant.name(x)));
    return element("li", { class: "row" }, eventButton(game, "mark", r),
      ` ${routeWords(plant, r)}, over ${way}; ${modeWords(plant, state, r)}`);
  });
  return [element("h3", {}, boardWords(plant, state, b)),
    rows.length ? element("p", {}, "Its routes. A click on the exit board or on the last section of a route requests it:")
      : element("p", {}, "No route begins at this board."), element("ul", {}, ...rows)];
}

function routeParts(game, r) {
  const { plant, state } = game;
  const { path, overlap, points, conflicts, protecting_points: protecting, protecting_boards: kept } = plant.routes[r];
  const facts = [["Path", path.map((x) => plant.name(x))], ["Overlap", overlap.map((x) => plant.name(x))],
    ["Points", points.map(([x, position]) => `${plant.name(x)} ${position}`)],
    ["Protecting points", protecting.map(([x, position]) => `${plant.name(x)} ${position}`)],
    ["Protecting boards", kept.map((b) => plant.boards[b].name)],
    ["Conflicts", conflicts.map((c) => plant.routes[c].name)]];
  const waits = waitsFor(plant, state, r);
  return [element("h3", {}, `Route ${routeWords(plant, r)}, ${modeWords(plant, state, r)}`),
    element("p", { class: "waits" }, waits.length ? `${stays(state, r) ? STAYS : ""}It waits: ${waits.join("; ")}.` : ""),
    element("div", { class: "bar" }, ...ROUTE_EVENTS.map((word) => eventButton(game, word, r))),
    element("p", { class: "small" }, facts.filter(([, words]) => words.length)
      .map(([head, words]) => `${head}: ${words.join(", ")}.`).join(" "))];
}

function sectionParts(game, x) {
  const { plant, state } = game;
  const words = plant.sections[x].point ? ["throw", "settle"] : plant.inward[x] !== null ? ["enter"] : [];
  const routes = numbersWhere(plant.routes, ({ locked }) => locked.includes(x)).map((r) => plant.routes[r].name);
  return [element("h3", {}, sectionWords(plant, state, x)),
    element("div", { class: "bar" }, ...words.map((word) => eventButton(game, word, x))),
    element("p", { class: "small" },
      routes.length ? `Routes that lock it: ${routes.join(", ")}.` : "No route locks it.")];
}

function trainParts({ plant, state }, train) {
  const why = refusal(plant, state, { word: "head", number: train.body.at(-1) });
  return [element("h3", {}, trainWords(plant, state, train)),
    element("p", {}, why ?? "Its front can move on.")];
}
