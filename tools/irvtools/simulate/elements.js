// Elements of the page. Names and texts come in as text, never as markup.

const SVG = "http://www.w3.org/2000/svg";

function fill(node, attributes, children) {
  for (const [name, value] of Object.entries(attributes)) {
    if (name === "on") for (const [kind, act] of Object.entries(value)) node.addEventListener(kind, act);
    else if (value !== null && value !== undefined) node.setAttribute(name, value);
  }
  node.append(...children);
  return node;
}

function element(name, attributes = {}, ...children) {
  return fill(document.createElement(name), attributes, children);
}

function drawn(name, attributes = {}, ...children) {
  return fill(document.createElementNS(SVG, name), attributes, children);
}

function button(words, act, label) {
  return element("button", { type: "button", on: { click: act }, "aria-label": label }, words);
}

function byId(id) { return document.getElementById(id); }

// writes only what changes, so that what stays isn't laid out or read out again
function setText(node, words) {
  if (node.textContent !== words) node.textContent = words;
}

function setAttribute(node, name, value) {
  if (node.getAttribute(name) !== value) node.setAttribute(name, value);
}

function setShown(node, isShown) {
  if (node.hidden === isShown) node.hidden = !isShown;
}
