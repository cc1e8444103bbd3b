// The events of trains, each with its unmet demands and what it changes, as those of routes.

const TRAIN_RULES = {
  enter: {
    * asks(plant, state, x) {
      if (plant.inward[x] === null) yield `${plant.name(x)} is not a border of the network`;
      yield* unclear(plant, state, [x]);
    },
    does(plant, state, x) { state.addTrain(plant.inward[x], [x]); },
  },

  head: {
    * asks(plant, state, x) {
      const train = state.withHead(x);
      if (!train) {
        yield `no train has its front in ${plant.name(x)}`;
        return;
      }
      const board = plant.board(x, train.direction);
      if (board !== undefined && state.aspect[board] !== "open") {
        yield `board ${plant.boards[board].name} is closed`;
      }
      if (ahead(plant, state, x, train.direction) === null) {
        yield state.at[x] === "moving" ? `points ${plant.name(x)} are moving under its front`
          : "the network ends there";
      }
    },
    does(plant, state, x) {
      const train = state.withHead(x);
      const [board, to] = [plant.board(x, train.direction), ahead(plant, state, x, train.direction)];
      train.body.push(to);
      state.on[to] += 1;
      if (board !== undefined) state.aspect[board] = "closed";
    },
  },

  tail: {
    * asks(plant, state, x) {
      if (state.withTail(x)) return;
      const train = state.standingOn(x);
      yield train ? `${plant.name(x)} is the only section of train ${train.number}`
        : `no train has its rear in ${plant.name(x)}`;
    },
    does(plant, state, x) {
      state.withTail(x).body.shift();
      state.on[x] -= 1;
    },
  },

  leave: {
    * asks(plant, state, x) {
      const train = state.standingOn(x);
      if (!train) {
        const others = state.in(x);
        yield others.length ? `train ${others[0].number} has other sections besides ${plant.name(x)}`
          : `no train is in ${plant.name(x)}`;
      } else if (plant.next(x, train.direction).length) {
        yield `the network continues after ${plant.name(x)}`;
      }
    },
    does(plant, state, x) { state.dropTrain(state.standingOn(x)); },
  },
};
