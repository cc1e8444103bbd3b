// The plant that the page is about, and its states. Sections, boards and routes are known by their
// numbers, as docs/reference/model.md counts them; tools/simulate writes them into the page.

const OPPOSITE = { down: "up", up: "down" };
const OTHER_LEG = { plus: "minus", minus: "plus" };
const ROUTE_EVENTS = ["mark", "allocate", "lock", "sense", "release", "finish", "cancel"];

class Plant {
  constructor(given) {
    this.sections = given.sections;
    this.boards = given.boards;
    this.routes = given.routes.map((route) => {
      const beside = [...route.overlap, ...route.protecting_points.map(([x]) => x)];
      return { ...route, beside, locked: [...route.path, ...beside],
        wanted: [...route.points, ...route.protecting_points] };
    });
    this.points = numbersWhere(this.sections, (section) => section.point);
    this.boardOn = { down: {}, up: {} };
    this.boards.forEach((board, b) => { this.boardOn[board.direction][board.section] = b; });
    this.inward = this.sections.map((_, x) => this.inwardAt(x));
    this.borders = numbersWhere(this.inward, (direction) => direction !== null);
    this.routesFrom = this.boards.map((_, b) => numbersWhere(this.routes, (route) => route.source === b));
    this.named = { route: byName(this.routes), section: byName(this.sections), board: byName(this.boards) };
  }

  // the sections next to x on a side: of a point that faces there plus, then minus
  next(x, side) {
    const { point, faces, ends } = this.sections[x];
    const found = !point ? [ends[side]] : faces === side ? [ends.plus, ends.minus] : [ends.stem];
    return found.filter((y) => y !== null);
  }

  // the direction in which a train comes in at a border; null elsewhere
  inwardAt(x) {
    if (this.sections[x].point) return null;
    const [down, up] = [this.next(x, "down").length, this.next(x, "up").length];
    return down + up !== 1 ? null : up ? "up" : "down";
  }

  // the board on x for trains that run in a direction, or undefined
  board(x, direction) { return this.boardOn[direction][x]; }

  // the direction of a route is that of its source
  direction(r) { return this.boards[this.routes[r].source].direction; }

  name(x) { return this.sections[x].name; }
}

function numbersWhere(things, test) {
  return things.flatMap((thing, number) => (test(thing) ? [number] : []));
}

function byName(things) {
  return new Map(things.map((thing, number) => [thing.name, number]));
}

// All that changes, in lists by number. `on` counts for each section the trains that have it. Each
// train has a number of its own, in the order in which they came.
class State {
  constructor(plant) {
    this.mode = plant.routes.map(() => "free");
    this.seen = plant.routes.map(() => 0);
    this.rel = plant.routes.map(() => 0);
    this.at = plant.sections.map(() => "plus");
    this.to = plant.sections.map(() => "plus");
    this.aspect = plant.boards.map(() => "closed");
    this.lock = plant.sections.map(() => "free");
    this.on = plant.sections.map(() => 0);
    this.trains = [];
    this.came = 0;
  }

  copy() {
    const other = Object.create(State.prototype);
    for (const part of ["mode", "seen", "rel", "at", "to", "aspect", "lock", "on"]) {
      other[part] = this[part].slice();
    }
    other.trains = this.trains.map((train) => ({ ...train, body: train.body.slice() }));
    other.came = this.came;
    return other;
  }

  addTrain(direction, body) {
    this.came += 1;
    this.trains.push({ number: this.came, direction, body });
    for (const x of body) this.on[x] += 1;
  }

  dropTrain(train) {
    this.trains.splice(this.trains.indexOf(train), 1);
    for (const x of train.body) this.on[x] -= 1;
  }

  withHead(x) { return this.trains.find((train) => train.body.at(-1) === x); }

  withTail(x) { return this.trains.find((train) => train.body.length > 1 && train.body[0] === x); }

  standingOn(x) { return this.trains.find((train) => train.body.length === 1 && train.body[0] === x); }

  in(x) { return this.trains.filter((train) => train.body.includes(x)); }
}

// the section ahead of x in a direction; null where there is none
function ahead(plant, state, x, direction) {
  const { point, faces, ends } = plant.sections[x];
  if (!point) return ends[direction];
  if (faces !== direction) return ends.stem;
  return state.at[x] === "moving" ? null : ends[state.at[x]];
}
