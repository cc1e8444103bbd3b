// The track plan: made once, and then only what an event changes is written. A long plan is cut into
// strips, one below the other, each a window on the whole; a part in two strips is made for both. The signs
// are those of the report.

const BETWEEN_STRIPS = 8;
const LOCK_CLASS = { free: "f", locked: "l", used: "u" };

class Plan {
  // `act` takes the kind and the number of a part that is clicked
  constructor(plant, geometry, act) {
    this.plant = plant;
    this.geometry = geometry;
    this.parts = [];        // what can be clicked: its node, and where it is seen
    this.sections = plant.sections.map(() => []);
    this.boards = plant.boards.map(() => []);
    this.trains = new Map();
    const width = Math.max(...geometry.strips.map(([, , length]) => length));
    this.strips = [];
    let at = 0;
    for (const [number, strip] of geometry.strips.entries()) {
      this.strips.push(this.madeStrip(number, strip, at));
      at += strip[3] + BETWEEN_STRIPS;
    }
    this.node = drawn("svg", { class: "plan live", viewBox: `0 0 ${width} ${at}`, role: "group",
      "aria-label": "Track plan. The arrow keys move from sign to sign." }, ...this.strips.map(({ node }) => node));
    this.width = width;
    this.node.addEventListener("click", ({ target }) => {
      const part = target.closest("[data-kind]");
      if (part) act(part.dataset.kind, Number(part.dataset.number));
    });
    this.parts[0]?.node.setAttribute("tabindex", "0");
  }

  // -- what stays

  madeStrip(number, [x, y, width, height], at) {
    const strip = { low: x, high: x + width, x, y, at, sections: new Set(), marked: "" };
    const layers = ["below", "lines", "signs", "trains", "over"].map((name) => drawn("g", { class: name }));
    [strip.below, strip.lines, strip.signs, strip.trains, strip.over] = layers;
    strip.node = drawn("svg", { x: 0, y: at, width, height, viewBox: `${x} ${y} ${width} ${height}` },
      strip.below, drawn("g", {}, ...this.joints(x, x + width)), strip.lines, strip.signs, strip.trains,
      drawn("use", { href: `#names${number}`, class: "names" }), strip.over);
    this.addSections(strip);
    this.addSigns(strip);
    return strip;
  }

  // the joints between two places along the plan; not those of other strips, which would be painted too
  joints(low, high) {
    return this.geometry.joints.filter(([, points]) => points.some(([at]) => at >= low && at <= high))
      .map(([kind, points]) => drawn("path", { d: lineOf(points), class: kind }));
  }

  // a part that can be clicked, at a place of the whole plan
  part(strip, kind, number, [x, y], ...children) {
    const node = drawn("g", { class: `part ${kind}`, "data-kind": kind, "data-number": number, role: "button",
      tabindex: "-1" }, ...children);
    this.parts.push({ node, x: x - strip.x, y: y - strip.y + strip.at });
    return node;
  }

  addSections(strip) {
    this.geometry.legs.forEach((legs, x) => {
      const places = Object.values(legs).flat().map(([place]) => place);
      if (Math.min(...places) > strip.high || Math.max(...places) < strip.low) return;
      const lines = Object.fromEntries(Object.entries(legs).map(([leg, points]) =>
        [leg, drawn("path", { d: lineOf(points), class: "t f" })]));
      const cores = Object.fromEntries(Object.entries(legs).map(([leg, points]) =>
        [leg, drawn("path", { d: lineOf(points), class: "core none" })]));
      const [atX, atY] = this.geometry.letters[x];
      const letter = drawn("text", { x: atX, y: atY, class: "letter", "aria-hidden": "true" });
      const hits = Object.values(legs).map((points) => drawn("path", { d: lineOf(points), class: "hit" }));
      const under = this.plant.sections[x].point
        ? ["plus", "minus"].map((leg) => drawn("path", { d: lineOf(legs[leg]), class: "w" })) : [];
      const node = this.part(strip, "section", x, this.geometry.middles[x], ...hits, ...under,
        ...Object.values(lines), ...Object.values(cores), letter);
      const dot = this.plant.sections[x].point
        ? drawn("circle", { cx: legs.stem[1][0], cy: legs.stem[1][1], r: 4, class: "g" }) : null;
      if (dot) node.append(dot);
      strip.lines.append(node);
      strip.sections.add(x);
      this.sections[x].push({ node, lines, cores, letter, dot });
    });
  }

  addSigns(strip) {
    const isIn = ([x]) => x >= strip.low && x <= strip.high;
    this.geometry.signs.forEach((place, b) => {
      if (!isIn(place)) return;
      const { bar, way } = this.geometry.shapes[this.plant.boards[b].direction];
      const node = this.part(strip, "board", b, place,
        drawn("circle", { r: 14, class: "hit" }), drawn("circle", { r: 10.5, class: "target" }),
        drawn("rect", { x: -6, y: -6, width: 12, height: 12, class: "shut" }),
        drawn("path", { d: bar, class: "bar" }),
        drawn("circle", { r: 7.5, class: "clear" }),
        drawn("path", { d: way, class: "way" }));
      node.setAttribute("transform", `translate(${place.join(" ")})`);
      strip.signs.append(node);
      this.boards[b].push({ node });
    });
    for (const [x, place] of Object.entries(this.geometry.entries)) {
      if (!isIn(place)) continue;
      const node = this.part(strip, "entry", x, place, drawn("circle", { r: 14, class: "hit" }),
        drawn("circle", { r: 8 }), drawn("path", { d: "M-4.5 0H4.5M0 -4.5V4.5" }));
      setAttribute(node, "transform", `translate(${place.join(" ")})`);
      setAttribute(node, "aria-label", `Train enters at ${this.plant.name(x)}`);
      strip.signs.append(node);
    }
  }

  // -- what changes

  show(state, marks) {
    this.sections.forEach((nodes, x) => nodes.forEach((node) => this.showSection(node, state, x)));
    this.boards.forEach((nodes, b) => nodes.forEach((made) => this.showBoard(made, state, b, marks)));
    this.showTrains(state);
    for (const strip of this.strips) this.showMarks(strip, marks);
  }

  // what is said of a section tells all that is drawn of it
  showSection(made, state, x) {
    const words = sectionWords(this.plant, state, x);
    if (made.shown === words) return;
    made.shown = words;
    const { node, lines, cores, letter, dot } = made;
    const lock = LOCK_CLASS[state.lock[x]];
    for (const [leg, line] of Object.entries(lines)) {
      const isAside = dot !== null && leg !== "stem" && leg !== state.at[x];
      setAttribute(line, "class", `${isAside ? "d" : "t"} ${lock}`);
      setAttribute(cores[leg], "class", lock === "u" && !isAside ? "core" : "core none");
    }
    if (dot) {
      const isMoving = state.at[x] === "moving";
      setAttribute(dot, "class", isMoving ? "g mv" : "g");
      setAttribute(dot, "r", isMoving ? "6" : "4");
    }
    setText(letter, this.geometry.marks[state.lock[x]]);
    setAttribute(node, "aria-label", words);
  }

  showBoard(made, state, b, marks) {
    const isTarget = marks.targets.has(b);
    const words = ["part board", state.aspect[b], marks.boards.has(b) ? "ring" : "", isTarget ? "to" : ""];
    const class_ = words.filter((word) => word).join(" ");
    if (made.shown === class_) return;
    made.shown = class_;
    const { node } = made;
    setAttribute(node, "class", class_);
    const sets = isTarget ? ", exit of a route: requests it" : "";
    setAttribute(node, "aria-label", `${boardWords(this.plant, state, b)}${sets}`);
  }

  showTrains(state) {
    for (const number of this.trains.keys()) {
      if (!state.trains.some((train) => train.number === number)) this.dropTrain(number);
    }
    for (const train of state.trains) {
      if (!this.trains.has(train.number)) this.trains.set(train.number, this.madeTrain(train));
      const shape = trainShape(this.plant, this.geometry.legs, state, train);
      const words = trainWords(this.plant, state, train);
      this.trains.get(train.number).forEach((made, number) => this.showTrain(made, this.strips[number], shape, words));
    }
  }

  madeTrain({ number, direction }) {
    return this.strips.map((strip) => {
      const [hit, line, arrow] = ["hit", `tr ${direction}`, `ah ${direction}`]
        .map((name) => drawn("path", { class: name }));
      const half = 4 + 4 * String(number).length;
      const sign = drawn("g", { class: `number ${direction}` },
        drawn("rect", { x: -half, y: -7, width: 2 * half, height: 14, rx: 6 }),
        drawn("text", { x: 0, y: 4, "text-anchor": "middle" }, String(number)));
      const node = this.part(strip, "train", number, [0, 0], hit, line, arrow, sign);
      strip.trains.append(node);
      return { node, hit, line, arrow, sign, part: this.parts.at(-1) };
    });
  }

  showTrain({ node, hit, line, arrow, sign, part }, strip, shape, words) {
    setAttribute(node, "display", shape.low <= strip.high && shape.high >= strip.low ? "inline" : "none");
    setAttribute(hit, "d", shape.line);
    setAttribute(line, "d", shape.line);
    setAttribute(arrow, "d", shape.arrow);
    setAttribute(sign, "transform", `translate(${shape.middle.map(Math.round).join(" ")})`);
    setAttribute(node, "aria-label", words);
    part.x = shape.middle[0] - strip.x;
    part.y = shape.middle[1] - strip.y + strip.at;
  }

  dropTrain(number) {
    const nodes = this.trains.get(number).map(({ node }) => node);
    const hadFocus = nodes.includes(document.activeElement);
    nodes.forEach((node) => node.remove());
    this.parts = this.parts.filter(({ node }) => !nodes.includes(node));
    this.trains.delete(number);
    if (hadFocus) this.focus(this.parts[0].node);
    else if (!this.parts.some(({ node }) => node.tabIndex === 0)) setAttribute(this.parts[0].node, "tabindex", "0");
  }

  showMarks(strip, marks) {
    const kinds = { on: marks.path, ov: marks.overlap, pp: marks.protecting, mk: marks.sections, goal: marks.goals };
    const found = Object.entries(kinds).flatMap(([kind, legs]) =>
      legs.filter(([x]) => strip.sections.has(x)).map(([x, leg]) => [kind, x, leg]));
    const key = `${marks.hazard} ${found.join(" ")}`;
    if (strip.marked === key) return;
    strip.marked = key;
    strip.below.replaceChildren(...found.flatMap(([kind, x, leg]) =>
      this.markedLines(x, leg).map((d) => drawn("path", { d, class: kind }))));
    const at = marks.hazard === null ? null : this.geometry.middles[marks.hazard];
    strip.over.replaceChildren(...(at === null ? [] : this.hazardSign(at)));
  }

  // the lines of a section, of a point those that a leg is on
  markedLines(x, leg) {
    return Object.entries(this.geometry.legs[x])
      .filter(([name]) => leg === null || ["stem", "line", leg].includes(name)).map(([, points]) => lineOf(points));
  }

  hazardSign([x, y]) {
    return [drawn("circle", { cx: x, cy: y, r: 17, class: "hz" }),
      drawn("path", { d: `M${x - 9} ${y - 9}L${x + 9} ${y + 9}M${x - 9} ${y + 9}L${x + 9} ${y - 9}`, class: "hz" })];
  }

  // -- by keys

  // goes from the part that has the focus to the nearest one in a direction, as [1, 0] for right
  move([right, below]) {
    const from = this.parts.find(({ node }) => node === document.activeElement);
    if (!from) return;
    const seen = this.parts.filter(({ node }) => node !== from.node && node.getAttribute("display") !== "none");
    let best = null;
    for (const part of seen) {
      const [dx, dy] = [part.x - from.x, part.y - from.y];
      const along = dx * right + dy * below;
      const price = along + 3 * Math.abs(dx * below + dy * right);
      if (along > 2 && (best === null || price < best.price)) best = { part, price };
    }
    if (!best) return;
    this.focus(best.part.node);
  }

  // the part that the tabulator comes to
  focus(node) {
    for (const part of this.parts) if (part.node.tabIndex === 0) part.node.setAttribute("tabindex", "-1");
    node.setAttribute("tabindex", "0");
    node.focus();
    node.scrollIntoView({ block: "nearest", inline: "nearest" });
  }
}
