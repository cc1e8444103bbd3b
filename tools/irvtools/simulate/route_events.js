// The events of routes and of points. For each: its unmet demands in words, one after the other (`asks`; the
// event is enabled exactly if there is none), and what it changes (`does`).

const HOLDING = ["allocating", "locked", "occupied"];

// whether a route has a section locked
function holds(plant, state, r, x) {
  const route = plant.routes[r];
  return HOLDING.includes(state.mode[r])
    && (route.beside.includes(x) || route.path.indexOf(x) >= 0 && route.path.indexOf(x) >= state.rel[r]);
}

function holders(plant, state, x) {
  return numbersWhere(plant.routes.map((_, r) => holds(plant, state, r, x)), (isHeld) => isHeld);
}

// which of these sections are not free and vacant
function* unclear(plant, state, sections) {
  for (const x of sections) {
    if (state.lock[x] !== "free") {
      const by = holders(plant, state, x).map((r) => plant.routes[r].name);
      yield by.length ? `${plant.name(x)} is ${state.lock[x]} by ${by.join(" and ")}`
        : `the lock of ${plant.name(x)} is ${state.lock[x]}`;
    }
    if (state.on[x]) yield `${plant.name(x)} is occupied by ${trainsIn(state, x)}`;
  }
}

function trainsIn(state, x) {
  return state.in(x).map((train) => `train ${train.number}`).join(" and ");
}

function* unless(state, r, name, ...modes) {
  if (!modes.includes(state.mode[r])) yield `${name} is ${state.mode[r]}, not ${modes.join(" or ")}`;
}

function pointFault(plant, state, x, position, name) {
  if (state.to[x] !== position) {
    return `points ${plant.name(x)} are commanded to ${state.to[x]}, but ${name} needs ${position}`;
  }
  return state.at[x] === "moving" ? `points ${plant.name(x)} are still moving to ${position}`
    : `points ${plant.name(x)} are in position ${state.at[x]} and do not move to ${position} yet`;
}

const ROUTE_RULES = {
  mark: {
    * asks(plant, state, r) {
      yield* unless(state, r, plant.routes[r].name, "free");
    },
    does(plant, state, r) { state.mode[r] = "marked"; },
  },

  allocate: {
    * asks(plant, state, r) {
      const route = plant.routes[r];
      yield* unless(state, r, route.name, "marked");
      for (const c of route.conflicts) {
        if (["allocating", "locked"].includes(state.mode[c])) {
          yield `its conflict ${plant.routes[c].name} is ${state.mode[c]}`;
        }
      }
      yield* unclear(plant, state, route.locked);
    },
    does(plant, state, r) {
      state.mode[r] = "allocating";
      for (const x of plant.routes[r].locked) state.lock[x] = "locked";
      for (const [x, position] of plant.routes[r].wanted) state.to[x] = position;
    },
  },

  lock: {
    * asks(plant, state, r) {
      const route = plant.routes[r];
      yield* unless(state, r, route.name, "allocating");
      for (const [x, position] of route.wanted) {
        if (state.at[x] !== position) yield pointFault(plant, state, x, position, route.name);
      }
      for (const b of route.protecting_boards) {
        if (state.aspect[b] !== "closed") yield `its protecting board ${plant.boards[b].name} is open`;
      }
      for (const [other, { name, protecting_boards: kept }] of plant.routes.entries()) {
        if (state.mode[other] === "locked" && kept.includes(route.source)) {
          yield `${name} is locked and keeps board ${plant.boards[route.source].name} closed`;
        }
      }
    },
    does(plant, state, r) {
      state.mode[r] = "locked";
      state.aspect[plant.routes[r].source] = "open";
    },
  },

  sense: {
    * asks(plant, state, r) {
      const { name, path } = plant.routes[r];
      yield* unless(state, r, name, "locked", "occupied");
      const x = path[state.seen[r]];
      if (x === undefined) {
        yield "its whole path is detected already";
        return;
      }
      if (!state.on[x]) yield `${plant.name(x)}, the next section of its path, is vacant`;
      if (state.lock[x] !== "locked") yield `the lock of ${plant.name(x)} is ${state.lock[x]}, not locked`;
    },
    does(plant, state, r) {
      const { path, source } = plant.routes[r];
      state.lock[path[state.seen[r]]] = "used";
      if (state.seen[r] === 0) state.aspect[source] = "closed";
      state.seen[r] += 1;
      state.mode[r] = "occupied";
    },
  },

  release: {
    * asks(plant, state, r) {
      const { name, path } = plant.routes[r];
      const [seen, rel] = [state.seen[r], state.rel[r]];
      yield* unless(state, r, name, "occupied");
      if (rel + 2 > seen) {
        yield rel + 1 < path.length ? `${plant.name(path[rel + 1])}, the section after it, is not detected yet`
          : "finish releases the last section of its path";
      }
      const x = path[rel];
      if (x === undefined) return;
      if (state.on[x]) yield `${plant.name(x)} is occupied by ${trainsIn(state, x)}`;
      if (state.lock[x] !== "used") yield `the lock of ${plant.name(x)} is ${state.lock[x]}, not used`;
    },
    does(plant, state, r) {
      state.lock[plant.routes[r].path[state.rel[r]]] = "free";
      state.rel[r] += 1;
    },
  },

  finish: {
    * asks(plant, state, r) {
      const { name, path } = plant.routes[r];
      yield* unless(state, r, name, "occupied");
      if (state.seen[r] !== path.length) yield `${plant.name(path[state.seen[r]])} of its path is not detected yet`;
      if (state.rel[r] + 1 !== path.length) {
        yield state.rel[r] < path.length ? `${plant.name(path[state.rel[r]])} of its path is not released yet`
          : "its whole path is released already";
      }
    },
    does(plant, state, r) {
      const { path, beside } = plant.routes[r];
      for (const x of [path.at(-1), ...beside]) state.lock[x] = "free";
      state.mode[r] = "free";
      state.seen[r] = state.rel[r] = 0;
    },
  },

  cancel: {
    * asks(plant, state, r) {
      yield* unless(state, r, plant.routes[r].name, "marked", "allocating");
    },
    does(plant, state, r) {
      if (state.mode[r] === "allocating") {
        for (const x of plant.routes[r].locked) state.lock[x] = "free";
      }
      state.mode[r] = "free";
    },
  },
};

const POINT_RULES = {
  throw: {
    * asks(plant, state, x) {
      const name = plant.name(x);
      if (!plant.sections[x].point) yield `${name} has no points`;
      else if (state.at[x] === "moving") yield `points ${name} are moving already`;
      else if (state.at[x] === state.to[x]) yield `points ${name} are in position ${state.at[x]}, as commanded`;
    },
    does(plant, state, x) { state.at[x] = "moving"; },
  },

  settle: {
    * asks(plant, state, x) {
      const name = plant.name(x);
      if (!plant.sections[x].point) yield `${name} has no points`;
      else if (state.at[x] !== "moving") yield `points ${name} are not moving: they are in position ${state.at[x]}`;
    },
    does(plant, state, x) { state.at[x] = state.to[x]; },
  },
};
