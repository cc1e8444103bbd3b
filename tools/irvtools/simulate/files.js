// Save and load: files, links, the address and text.

const MOST_LINK = 30000;    // characters
const MOST_KEPT = 3000;     // events of a run that the address keeps

function save(name, text) {
  const url = URL.createObjectURL(new Blob([text], { type: "text/plain" }));
  const link = element("a", { href: url, download: name });
  document.body.append(link);
  link.click();
  link.remove();
  setTimeout(() => URL.revokeObjectURL(url), 60000);
}

// the scenario of the run up to the place, if there is one
function sceneOf({ plant, play }) {
  if (play.first) throw new Refusal("This run begins in a given state, but a scenario begins in the initial state, so there is none.");
  const text = sceneText(plant, commandsOf(play.done));
  if (text.length > MOST_SCENE_BYTES) throw new Refusal(`${tooLong(text.length, MOST_SCENE_BYTES)} Save the run instead.`);
  return text;
}

// whether the simulation run of a scenario is the run from which it was taken, in words
function sceneWords({ plant, play }) {
  const { events, rest } = drive(plant, commandsOf(play.done));
  const own = play.done.map((event) => eventLine(plant, event)).join("\n");
  const isSame = events.map((event) => eventLine(plant, event)).join("\n") === own;
  return `The simulator expects that irv drive answers “${rest} steps=${events.length}”${isSame ? ", with this run."
    : ", with a different run: there all other events are automatic, in the order of irv drive."}`;
}

// a link to this page that contains a text
function linkOf(text) {
  const fragment = asFragment(text);
  if (fragment.length > MOST_LINK) throw new Refusal("The text is too long for a link. Save it as a file.");
  return `${location.href.replace(/#.*/s, "")}#${fragment}`;
}

// What a text says: a run, or the simulation run of a scenario, with a sentence about it. A text that is
// neither is refused, and so is a run with an event that isn't enabled.
function readText(plant, given) {
  const text = withoutVerdict(given);
  if (text.startsWith("drive ")) {
    const commands = readScene(plant, text);
    const { events, rest } = drive(plant, commands);
    return { first: null, events, words: `Loaded: a scenario of ${commands.length} commands. `
      + `The simulator expects that irv drive answers “${rest} steps=${events.length}”.` };
  }
  const { first, events } = readRun(plant, text);
  const refused = Play.firstRefused(plant, first, events);
  if (refused) throw new NotARun(first, events.slice(0, refused.number - 1), refused);
  return { first, events, words: `Loaded: a run of ${events.length} events.` };
}

class NotARun extends Refusal {
  constructor(first, before, { number, why }) {
    super(`Not a run at ${number}: ${why}`);
    Object.assign(this, { first, before });
  }
}

// loads a text, or says why it can't; then nothing changes
function load(game, text) {
  tried(game, () => {
    const { first, events, words } = readText(game.plant, text);
    game.begin(first, events, words);
  }, " Nothing was loaded.");
}

// does what may be refused, and says why if it is
function tried(game, act, besides = "") {
  try {
    act();
  } catch (fault) {
    if (!(fault instanceof Refusal)) throw fault;
    game.refuseText(fault.message + besides, fault instanceof NotARun ? fault : null);
  }
}

function wireFiles(game) {
  const stem = game.given.name.replace(/\.json$/, "").replace(/[^A-Za-z0-9_-]+/g, "-") || "plant";
  const text = byId("text");
  byId("save-run").addEventListener("click", () => save(`${stem}.run`, game.play.runText()));
  byId("save-played").addEventListener("click", () => save(`${stem}.played`, game.play.playedText(game.given)));
  byId("save-scene").addEventListener("click", () => tried(game, () => {
    save(`${stem}.scene`, sceneOf(game));
    game.say(sceneWords(game));
  }));
  byId("show-run").addEventListener("click", () => { text.value = game.play.runText(); });
  byId("show-scene").addEventListener("click", () => tried(game, () => { text.value = sceneOf(game); }));
  byId("load-text").addEventListener("click", () => load(game, text.value));
  byId("file").addEventListener("change", async ({ target }) => {
    const [file] = target.files;
    const isLong = file && file.size > 2 * MOST_RUN_BYTES;
    if (isLong) game.refuseText(`${tooLong(file.size, MOST_RUN_BYTES)} Nothing was loaded.`, null);
    else if (file) load(game, await file.text());
    target.value = "";
  });
  wireLinks(game);
}

function wireLinks(game) {
  const texts = { run: () => game.play.runText(), scene: () => sceneOf(game) };
  for (const [kind, text] of Object.entries(texts)) {
    const link = byId(`${kind}-link`);
    // a link is written just before it is copied; a click puts it into the address of the page
    const write = () => tried(game, () => { link.href = linkOf(text()); });
    for (const moment of ["focus", "pointerenter"]) link.addEventListener(moment, write);
    link.addEventListener("click", (clicked) => {
      clicked.preventDefault();
      tried(game, () => {
        history.replaceState(null, "", linkOf(text()));
        game.say("The link is now the address of this page.");
      });
    });
    byId(`copy-${kind}`).addEventListener("click", () => tried(game, () => copyLink(game, link, linkOf(text()))));
  }
  const follow = () => {
    const [fragment, place] = plain(location.hash.slice(1)).split("@");
    if (!fragment || fragment.endsWith("-link")) return;
    load(game, fromFragment(fragment));
    if (place) game.go(Number(place));
  };
  window.addEventListener("hashchange", follow);
  follow();
  game.keepsAddress = true;
  // a run that the address can't keep is lost by leaving the page, so the browser asks
  window.addEventListener("beforeunload", (leaving) => { if (game.isUnkept) leaving.preventDefault(); });
}

// Writes the whole run and the place into the address, so that a reload keeps them. Returns whether it could.
function keepInAddress({ plant, play }) {
  const isEmpty = !play.first && !play.events.length;
  const isShort = play.events.length <= MOST_KEPT;
  const fragment = isEmpty || !isShort ? "" : asFragment(runText(plant, play.first, play.events));
  const isKept = isEmpty || isShort && fragment.length <= MOST_LINK;
  const place = play.place < play.events.length ? `@${play.place}` : "";
  const address = location.href.replace(/#.*/s, "") + (isKept && fragment ? `#${fragment}${place}` : "");
  if (location.href !== address) history.replaceState(null, "", address);
  return isKept;
}

function copyLink(game, link, href) {
  link.href = href;
  const fallback = () => game.say("This browser does not let pages copy. Copy the link below with the browser's menu.");
  if (!navigator.clipboard) fallback();
  else navigator.clipboard.writeText(href).then(() => game.say("The link is copied."), fallback);
}

// what a browser wrote otherwise in a link
function plain(fragment) {
  try {
    return decodeURI(fragment);
  } catch {
    return fragment;
  }
}
