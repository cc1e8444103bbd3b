// What keys do; docs/guides/simulator.md lists them.

const ARROWS = { ArrowLeft: [-1, 0], ArrowRight: [1, 0], ArrowUp: [0, -1], ArrowDown: [0, 1] };

function isInText(node) { return node.matches("input:not([type=radio]):not([type=checkbox]), textarea"); }

function wireKeys(game) {
  document.addEventListener("keydown", (pressed) => {
    const target = pressed.target instanceof Element ? pressed.target : document.body;
    if (pressed.altKey || isInText(target)) return;
    const done = pressed.ctrlKey || pressed.metaKey ? historyKey(game, pressed) : plainKey(game, pressed, target);
    if (done) pressed.preventDefault();
  });
}

function historyKey(game, { key, shiftKey }) {
  const isForth = key === "y" || key === "Z" || key === "z" && shiftKey;
  if (!isForth && key !== "z") return false;
  game.go(game.play.place + (isForth ? 1 : -1));
  return true;
}

function plainKey(game, { key }, target) {
  if (key === "Escape") {
    game.choose(null, 0);
    return true;
  }
  if (target.matches("input")) return false;
  const part = target.closest("[data-kind]");
  if (part && key in ARROWS) game.plan.move(ARROWS[key]);
  else if (part && (key === "Enter" || key === " ")) game.click(part.dataset.kind, Number(part.dataset.number));
  else return pageKey(game, key, { isInRun: target.id === "run", isOnPart: part !== null });
  return true;
}

// Back and forth: by one event, by one command, to either end. Keys that move a page do so still where the
// focus is neither on the plan nor on the run.
function pageKey(game, key, { isInRun, isOnPart }) {
  const { place, events } = game.play;
  const places = { ArrowLeft: place - 1, ArrowRight: place + 1 };
  if (isInRun) Object.assign(places, { ArrowUp: place - 1, ArrowDown: place + 1 });
  if (isInRun || isOnPart) {
    Object.assign(places, { PageUp: game.commandBefore(), PageDown: game.commandAfter(), Home: 0, End: events.length });
  }
  if (!(key in places)) return false;
  game.go(places[key]);
  return true;
}
