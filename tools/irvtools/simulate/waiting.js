// What waits for what: routes that aren't locked yet, trains at closed boards, and trains that block each
// other, so that none of them can ever move on.

// what a route waits for; nothing if it is free or continues by itself
function waitsFor(plant, state, r) {
  const route = plant.routes[r];
  const train = state.withHead(plant.boards[route.source].section);
  switch (state.mode[r]) {
    case "marked": return obstacles(plant, state, { word: "allocate", number: r });
    case "allocating": return obstacles(plant, state, { word: "lock", number: r });
    case "locked": return state.on[route.path[0]] ? []
      : [train ? `train ${train.number} has not passed board ${plant.boards[route.source].name} yet`
        : `no train is at board ${plant.boards[route.source].name} yet`];
    case "occupied": return waitsForTrain(plant, state, r);
    default: return [];
  }
}

function waitsForTrain(plant, state, r) {
  const { path } = plant.routes[r];
  const [seen, rel] = [state.seen[r], state.rel[r]];
  if (seen < path.length) return state.on[path[seen]] ? [] : [`no train is in ${plant.name(path[seen])} yet`];
  const x = path[rel];
  return rel + 1 < path.length && state.on[x] ? [`${trainsIn(state, x)} has not left ${plant.name(x)} yet`] : [];
}

// the closed board at which a train waits, or undefined
function heldAt(plant, state, train) {
  const board = plant.board(train.body.at(-1), train.direction);
  const goesOn = plant.next(train.body.at(-1), train.direction).length > 0;
  return board !== undefined && goesOn && state.aspect[board] === "closed" ? board : undefined;
}

// Why a route can't be allocated while a train stays where its front is: the section that both need. Its rear
// may still follow, so its other sections block nothing for ever.
function blockedBy(plant, r, train) {
  const x = train.body.at(-1);
  return plant.routes[r].locked.includes(x) ? { route: r, section: x, train } : null;
}

// How a train is blocked by others: for each route from its board what blocks it. Null if some route may yet
// be locked for it, or if its board has no route at all.
function blockage(plant, state, train, others) {
  const board = heldAt(plant, state, train);
  const routes = board === undefined ? [] : plant.routesFrom[board];
  const found = [];
  for (const r of routes) {
    const isBegun = ["allocating", "locked"].includes(state.mode[r]);
    const by = isBegun ? null : others.map((other) => blockedBy(plant, r, other)).find((one) => one);
    if (!by) return null;
    found.push(by);
  }
  return found.length ? { train, board, found } : null;
}

// The trains that block each other: the greatest set of which each is blocked by others of the set. While
// none of them moves on none can, whatever else happens.
function blockades(plant, state) {
  let standing = state.trains.filter((train) => heldAt(plant, state, train) !== undefined);
  for (;;) {
    const blocked = standing.map((train) => blockage(plant, state, train,
      standing.filter((other) => other !== train))).filter((one) => one !== null);
    if (blocked.length === standing.length) return blocked;
    standing = blocked.map(({ train }) => train);
  }
}

function blockedWords(plant, { route, section, train }) {
  return `${plant.routes[route].name} needs ${plant.name(section)}, which train ${train.number} occupies`;
}

// the trains that block each other, as sentences
function blockadeWords(plant, state) {
  const blocked = blockades(plant, state);
  if (!blocked.length) return [];
  const names = blocked.map(({ train }) => `Train ${train.number}`).join(", ");
  return [`${names} block each other: none of them can ever move on.`, ...blocked.map(({ train, board, found }) =>
    `Train ${train.number} waits at board ${plant.boards[board].name}: `
    + `${found.map((one) => blockedWords(plant, one)).join("; ")}.`)];
}

// trains at boards where no route begins, as sentences
function lostWords(plant, state) {
  return state.trains.flatMap((train) => {
    const board = heldAt(plant, state, train);
    return board === undefined || plant.routesFrom[board].length ? []
      : [`Train ${train.number} waits at board ${plant.boards[board].name}, where no route begins.`];
  });
}
