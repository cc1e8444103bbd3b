// The page: the run, and what is shown of it.

const MOST_EVENTS = 20000;      // of a run to which events are added; its text may have a megabyte
const BY_ITSELF = { all: AUTOMATIC, plant: AUTOMATIC.filter((word) => !["head", "leave"].includes(word)), none: [] };
const SLOWLY = 160;             // milliseconds from event to event

class Game {
  constructor(given) {
    this.given = given;
    this.plant = new Plant(given.plant);
    this.play = new Play(this.plant, null, []);
    this.mode = "all";
    this.chosen = null;
    this.timer = null;
    this.keepsAddress = false;
    this.isUnkept = false;      // whether the address can't keep the run
    this.plan = new Plan(this.plant, given.plan, (kind, number) => this.click(kind, number));
    this.routes = new Routes(this.plant, byId("routes"), byId("found"), this);
  }

  get state() { return this.play.state; }

  // -- what is asked

  // Asks for an event: one that isn't enabled is refused with its reason, and changes nothing. After one that
  // is, the automatic events that were selected follow.
  ask(event) {
    this.stopShowing();
    const why = refusal(this.plant, this.state, event) ?? this.tooLong();
    if (why) {
      if (!this.tooLong()) this.play.refuse(event);
      // a hazard stays on the screen
      if (hazard(this.plant, this.state)) this.say(why);
      else this.alert(why);
      this.show();
      return false;
    }
    this.done(eventWords(this.plant, this.state, event), () => {
      this.play.add(event);
      this.goOn();
    });
    return true;
  }

  tooLong() {
    return this.play.place < MOST_EVENTS ? null
      : `A run of the simulator has at most ${MOST_EVENTS} events. Go back, or load it again from a state.`;
  }

  // Does what adds events, and says what followed; the words are about the first of them. A request that stays
  // is announced, and one that is locked at last too.
  done(words, act) {
    const before = this.play.place;
    const queued = this.plant.routes.map((_, r) => r).filter((r) => stays(this.state, r));
    act();
    const more = this.play.place - before - 1;
    this.alert("");
    const then = more > 0 ? [`Then ${more} automatic ${more === 1 ? "event" : "events"} followed.`] : [];
    const events = this.play.events.slice(before, this.play.place);
    this.say([words, ...then, ...queueWords(this.plant, this.state, events, queued)].join(" "));
    if (byId("slowly").checked && more > 0) this.showSlowly(before + 1);
    else this.show();
  }

  // does the automatic events
  goOn() {
    while (!hazard(this.plant, this.state) && !this.tooLong()) {
      const event = firstAutomatic(this.plant, this.state, BY_ITSELF[this.mode]);
      if (!event) return;
      this.play.add(event);
    }
  }

  // a train runs as far as its boards allow; its tail follows
  run(number) {
    this.stopShowing();
    const find = () => this.state.trains.find((train) => train.number === number);
    const event = this.nextOf(find());
    if (!event) {
      this.ask({ word: "head", number: find().body.at(-1) });
      return;
    }
    this.done(`Train ${number} runs on.`, () => {
      for (let next = event; next && !this.tooLong(); next = find() && this.nextOf(find())) {
        this.play.add(next);
        this.goOn();
      }
    });
  }

  // what a train does next when it runs, or null
  nextOf({ body }) {
    const choices = [["tail", body[0]], ["head", body.at(-1)], ["leave", body.at(-1)]];
    const found = choices.find(([word, number]) => !refusal(this.plant, this.state, { word, number }));
    return found ? { word: found[0], number: found[1] } : null;
  }

  // an event as a line of a run text, written by hand
  askLine(line) {
    try {
      const lines = new Lines(`${line.trim().replace(/ +/g, " ")}\n`);
      return this.ask(readEvent(this.plant, lines, Object.keys(RULES)));
    } catch (fault) {
      if (!(fault instanceof BadLine)) throw fault;
      this.alert(fault.message.replace("Line 1 is bad", "This is not an event"));
      return false;
    }
  }

  // -- back and forth

  go(place) {
    this.stopShowing();
    this.play.go(place);
    this.alert("");
    const { events } = this.play;
    this.say(this.play.place ? `After event ${this.play.place} of ${events.length}: `
      + `${eventLine(this.plant, events[this.play.place - 1])}.` : "In the first state.");
    this.show();
  }

  // the places before and after one command with what came of it
  commandBefore() {
    const { events, place } = this.play;
    for (let at = place - 1; at > 0; at -= 1) if (COMMANDS.includes(events[at].word)) return at;
    return 0;
  }

  commandAfter() {
    const { events, place } = this.play;
    for (let at = place + 1; at < events.length; at += 1) if (COMMANDS.includes(events[at].word)) return at;
    return events.length;
  }

  // begins with other events; the run before can be brought back
  begin(first, events, words) {
    this.stopShowing();
    const before = this.play;
    this.play = new Play(this.plant, first, events);
    if (before.events.length) this.play.cut = { first: before.first, events: before.events };
    this.chosen = null;
    this.alert("");
    this.say(words);
    this.show();
  }

  uncut() {
    const { cut } = this.play;
    if (cut) this.begin(cut.first, cut.events, "The events that were cut off are back. The events that replaced them can be brought back.");
  }

  showSlowly(place) {
    this.play.go(place);
    this.show();
    this.timer = setInterval(() => {
      this.play.go(this.play.place + 1);
      if (this.play.place === this.play.events.length) this.stopShowing();
      this.show();
    }, SLOWLY);
  }

  stopShowing() {
    if (this.timer === null) return;
    clearInterval(this.timer);
    this.timer = null;
    this.play.go(this.play.events.length);
  }

  // -- what is clicked

  click(kind, number) {
    const routes = kind === "board" || kind === "section" ? routesTo(this.plant, this.chosen, kind, number) : [];
    if (kind === "entry") this.ask({ word: "enter", number });
    else if (routes.length === 1) this.setRoute(routes[0]);
    else if (routes.length > 1) this.choosePair(routes);
    else if (kind === "train" && this.mode !== "all") this.step(number);
    else if (this.chosen?.kind === kind && this.chosen.number === number) this.choose(null, 0);
    else this.choose(kind, number);
  }

  setRoute(r) {
    this.chosen = { kind: "route", number: r };
    this.ask({ word: "mark", number: r });
  }

  choosePair(routes) {
    this.chosen = { kind: "pair", number: this.chosen.number, routes };
    this.say("Several routes lead there. Select one below the plan.");
    this.show();
  }

  // a train that is clicked moves on by one section, or leaves
  step(number) {
    const { body } = this.state.trains.find((train) => train.number === number);
    const canLeave = !refusal(this.plant, this.state, { word: "leave", number: body.at(-1) });
    this.chosen = { kind: "train", number };
    this.ask({ word: canLeave ? "leave" : "head", number: body.at(-1) });
  }

  choose(kind, number) {
    this.stopShowing();
    this.chosen = kind === null ? null : { kind, number };
    this.alert("");
    this.show();
    this.say(byId("chosen").firstElementChild.textContent);
  }

  // -- what is shown

  say(words) { setText(byId("said"), words); }

  alert(words) {
    const node = byId("alert");
    node.textContent = "";
    node.textContent = words;
    setShown(byId("offer"), false);
  }

  // says why a text isn't loaded; if it is a run up to some event, that part can be loaded
  refuseText(words, notARun) {
    this.alert(words);
    if (!notARun) return;
    const offer = byId("offer");
    const { first, before } = notARun;
    offer.onclick = () => this.begin(first, before, `Loaded: a run of ${before.length} events.`);
    setText(offer, `Load the events before it (${before.length})`);
    setShown(offer, true);
  }

  show() {
    const { play, plant, state } = this;
    const stands = hazard(plant, state);
    if (stands) {
      setText(byId("alert"), `${hazardWords(plant, stands)} The run ends here. Go back to try something else.`);
    }
    setAttribute(document.body, "class", stands ? "hazard" : "");
    this.plan.show(state, marksOf(this));
    setText(byId("blocked"), [...blockadeWords(plant, state), ...lostWords(plant, state)].join(" "));
    setText(byId("place"), `${play.place} of ${play.events.length}`);
    setShown(byId("uncut"), play.cut !== null);
    setText(byId("own"), hazardLine(plant, stands));
    keepFocus(byId("chosen"), () => byId("chosen").replaceChildren(...chosenParts(this)));
    showTrains(this, byId("trains"));
    this.routes.show(state);
    showRun(this, byId("run"));
    if (this.keepsAddress) this.isUnkept = !keepInAddress(this);
  }
}

function wirePage(game) {
  const acts = { "to-start": () => game.go(0), back: () => game.go(game.play.place - 1),
    forth: () => game.go(game.play.place + 1), "to-end": () => game.go(game.play.events.length),
    uncut: () => game.uncut(), smaller: () => resize(game, 1 / 1.25), larger: () => resize(game, 1.25) };
  for (const [id, act] of Object.entries(acts)) byId(id).addEventListener("click", act);
  for (const choice of document.querySelectorAll("input[name=mode]")) {
    choice.addEventListener("change", () => changeMode(game, choice.value));
  }
  byId("search").addEventListener("input", ({ target }) => game.routes.search(target.value));
  byId("ask").addEventListener("submit", (sent) => {
    sent.preventDefault();
    if (game.askLine(byId("event").value)) byId("event").value = "";
  });
  byId("run").addEventListener("click", ({ target }) => {
    const row = target.closest("[data-place]");
    if (row) game.go(Number(row.dataset.place));
  });
}

function changeMode(game, mode) {
  game.mode = mode;
  game.stopShowing();
  const { plant, play, state } = game;
  const event = hazard(plant, state) ? null : firstAutomatic(plant, state, BY_ITSELF[mode]);
  if (event && play.place === play.events.length) game.done(eventWords(plant, state, event), () => game.goOn());
}

// another size of the plan; at first it is as wide as the page, but not too small to be read or touched
function resize(game, by) {
  const { node, width } = game.plan;
  const size = Math.min(Math.max(node.getBoundingClientRect().width * by, width * 0.3), width * 4);
  Object.assign(node.style, { width: `${Math.round(size)}px`, minWidth: "0", maxWidth: "none" });
}

function start() {
  const game = new Game(JSON.parse(byId("data").textContent));
  byId("plan-box").replaceChildren(game.plan.node);
  game.plan.node.style.setProperty("--natural", `${Math.round(game.plan.width)}px`);
  wirePage(game);
  wireKeys(game);
  game.show();
  wireFiles(game);
  return game;
}

const game = start();
