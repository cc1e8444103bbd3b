// Where a train lies in the plan, as trackplan/drawing.py draws it.

function toward([x, y], [toX, toY], part) { return [x + (toX - x) * part, y + (toY - y) * part]; }

function lineOf(points) { return `M${points.map(([x, y]) => `${Math.round(x)} ${Math.round(y)}`).join("L")}`; }

function legTo(plant, x, other) {
  const found = Object.entries(plant.sections[x].ends).find(([, y]) => y === other);
  return found && other !== undefined ? found[0] : null;
}

// the points of a train's way through a section
function wayThrough(plant, legs, state, x, { direction, before, after }) {
  const { point, faces } = plant.sections[x];
  if (!point) return direction === "up" ? legs[x].line : [...legs[x].line].reverse();
  const lies = state.at[x] === "moving" ? "plus" : state.at[x];
  const found = legTo(plant, x, faces === direction ? after : before);
  const aside = found === null || found === "stem" ? lies : found;
  const way = [legs[x].stem[0], legs[x].stem[1], legs[x][aside][1]];
  return faces === direction ? way : way.reverse();
}

// a train's line from tail to head, the corners of its arrow, and where its number stands
function trainShape(plant, legs, state, { direction, body }) {
  const points = body.flatMap((x, place) => wayThrough(plant, legs, state, x,
    { direction, before: body[place - 1], after: body[place + 1] }));
  points[0] = toward(points[0], points[1], 0.22);
  const last = points.length - 1;
  const tip = toward(points[last], points[last - 1], 0.16);
  points[last] = toward(points[last], points[last - 1], 0.3);
  const shift = direction === "up" ? -2 : 2;
  const line = points.map(([x, y]) => [x, y + shift]);
  return { line: lineOf(line), arrow: arrowOf(line[last], [tip[0], tip[1] + shift]),
    middle: toward(line[last - 1], line[last], 0.6), low: Math.min(...line.map(([x]) => x)),
    high: Math.max(...line.map(([x]) => x)) };
}

function arrowOf([x, y], [tipX, tipY]) {
  const [dx, dy] = [tipX - x, tipY - y];
  const length = Math.max(Math.hypot(dx, dy), 0.1);
  const [ux, uy] = [dx / length, dy / length];
  const [bx, by] = [x + ux * 2, y + uy * 2];
  return `${lineOf([[bx + uy * 7, by - ux * 7], [bx + ux * 14, by + uy * 14], [bx - uy * 7, by + ux * 7]])}z`;
}
