// The lists beside the plan: trains, routes and the run.

const SHOWN_EVENTS = 300;   // of the run, around the place

class Routes {
  constructor(plant, list, found, game) {
    this.plant = plant;
    this.found = found;
    this.rows = plant.routes.map((route, r) => this.madeRow(r, game));
    list.replaceChildren(...this.rows.map(({ node }) => node));
    if (!plant.routes.length) list.append(element("li", {}, "The table has no routes."));
  }

  madeRow(r, game) {
    const { name } = this.plant.routes[r];
    const words = routeWords(this.plant, r);
    const choose = button(words, () => game.choose("route", r), `Show route ${words}`);
    const set = button("Request", () => game.ask({ word: "mark", number: r }), `Request ${name}`);
    const cancel = button("Cancel", () => game.ask({ word: "cancel", number: r }), `Cancel ${name}`);
    const [mode, waits] = [element("span", { class: "mode" }), element("span", { class: "waits" })];
    const node = element("li", {}, element("div", { class: "row" }, choose, set, cancel, mode), waits);
    return { node, mode, waits, set, cancel, key: this.searched(r) };
  }

  // what a search looks into
  searched(r) {
    const { path, source, destination } = this.plant.routes[r];
    const boards = [source, destination].filter((b) => b !== null).map((b) => this.plant.boards[b].name);
    return [routeWords(this.plant, r), ...boards, ...path.map((x) => this.plant.name(x))].join(" ").toLowerCase();
  }

  search(words) {
    const wanted = words.toLowerCase().split(" ").filter((word) => word);
    let count = 0;
    for (const { node, key } of this.rows) {
      const isFound = wanted.every((word) => key.includes(word));
      setShown(node, isFound);
      count += isFound;
    }
    setText(this.found, wanted.length ? `${count} of ${this.rows.length} routes` : "");
  }

  show(state) {
    this.rows.forEach((row, r) => {
      const what = waitsFor(this.plant, state, r);
      const key = [modeWords(this.plant, state, r), ...what].join(";");
      if (row.shown === key) return;
      row.shown = key;
      const { node, mode, waits, set, cancel } = row;
      const isPending = ["marked", "allocating"].includes(state.mode[r]);
      setAttribute(node, "class", `route ${state.mode[r]}`);
      setText(mode, modeWords(this.plant, state, r));
      setShown(set, !isPending);
      setShown(cancel, isPending);
      setText(waits, what.length ? `${isPending ? "stays until it locks; " : ""}waits: ${what.join("; ")}` : "");
    });
  }
}

function showTrains(game, list) {
  const { plant, state } = game;
  const rows = state.trains.map((train) => {
    const of = `train ${train.number}`;
    const [first, last] = [train.body[0], train.body.at(-1)];
    return element("li", { "data-train": train.number },
      element("div", {}, trainWords(plant, state, train)),
      element("div", { class: "row" },
        button("Front on", () => game.ask({ word: "head", number: last }), `The front of ${of} moves on`),
        button("Rear", () => game.ask({ word: "tail", number: first }), `The rear of ${of} follows`),
        button("Leave", () => game.ask({ word: "leave", number: last }), `Let ${of} leave the area`),
        button("Run on", () => game.run(train.number), `Let ${of} run as far as its boards allow`)));
  });
  keepFocus(list, () => list.replaceChildren(...rows.length ? rows : [element("li", {}, "No trains.")]));
}

// writes a list anew; a button that had the focus has it again
function keepFocus(list, write) {
  const label = list.contains(document.activeElement) ? document.activeElement.getAttribute("aria-label") : null;
  write();
  if (label === null) return;
  const again = [...list.querySelectorAll("button")].find((one) => one.getAttribute("aria-label") === label);
  (again ?? list.querySelector("button") ?? byId("ask").querySelector("input")).focus();
}

// the events of the run around the place; a click on one goes there
function showRun(game, list) {
  const { play, plant } = game;
  const low = Math.max(0, Math.min(play.place - SHOWN_EVENTS / 2, play.events.length - SHOWN_EVENTS));
  const high = Math.min(play.events.length, low + SHOWN_EVENTS);
  const rows = [runRow(game, 0, play.first ? "a state" : "start", "")];
  if (low > 0) rows.push(element("li", { role: "presentation" }, `.. ${low} events before`));
  for (let place = low + 1; place <= high; place += 1) {
    const event = play.events[place - 1];
    const kind = COMMANDS.includes(event.word) ? "command" : "";
    rows.push(runRow(game, place, `${place}. ${eventLine(plant, event)}`, kind));
  }
  const after = play.events.length - high;
  if (after > 0) rows.push(element("li", { role: "presentation" }, `.. ${after} events after`));
  list.replaceChildren(...rows);
  const here = list.querySelector("[aria-selected=true]");
  if (here) setAttribute(list, "aria-activedescendant", here.id);
  if (here) requestAnimationFrame(() => { list.scrollTop = here.offsetTop - list.offsetTop - list.clientHeight / 2; });
}

function runRow({ play }, place, words, kind) {
  const later = place > play.place ? " later" : "";
  return element("li", { id: `at${place}`, "data-place": place, class: `${kind}${later}`, role: "option",
    "aria-selected": String(place === play.place) }, words);
}
