"use strict";
/* Making elements, measuring texts, keys that move among the nodes of a drawing, and drawing late. */
const SVG = "http://www.w3.org/2000/svg";

function fill(node, attributes, children) {
  for (const [name, value] of Object.entries(attributes || {})) {
    if (typeof value === "function") node.addEventListener(name, value);
    else if (value !== null && value !== undefined && value !== false) node.setAttribute(name, value === true ? "" : value);
  }
  for (const child of children.flat(Infinity)) if (child !== null && child !== undefined) node.append(child);
  return node;
}

function make(name, attributes, ...children) {
  return fill(document.createElement(name), attributes, children);
}

function draw(name, attributes, ...children) {
  return fill(document.createElementNS(SVG, name), attributes, children);
}

const FONT = getComputedStyle(document.documentElement).getPropertyValue("--font").trim();
const pen = document.createElement("canvas").getContext("2d");
const widths = new Map();

/* The width of a text in pixels; `style` is the front of a CSS font, as "italic 12px". */
function wide(text, style) {
  const key = style + " " + text;
  let width = widths.get(key);
  if (width === undefined) {
    pen.font = style + " " + FONT;
    width = Math.ceil(pen.measureText(text).width) + 1;
    widths.set(key, width);
  }
  return width;
}

function plural(count, one, many) {
  return count.toLocaleString("en") + " " + (count === 1 ? one : many || one + "s");
}

function shortened(text, most) {
  const letters = [...text];
  return letters.length <= most ? text : letters.slice(0, most - 1).join("") + "…";
}

/* A frame that scrolls where its drawing is wider than the page. */
function frame(kind, label, drawing) {
  return make("div", { class: "drawing " + kind, tabindex: "0", role: "group", "aria-label": label }, drawing);
}

/* Makes a drawing larger or smaller, or as wide as its frame; `narrow` does so at first where it is somewhat too wide. */
function zoomed(svg, factor) {
  const base = svg.viewBox.baseVal, fit = (svg.parentNode.clientWidth - 2) / base.width, now = svg.width.baseVal.value / base.width;
  const scale = factor === "fit" ? Math.min(1, fit) : factor === "narrow" ? (fit < 1 && fit >= .6 ? fit : 1) : factor === 1 ? 1 : Math.min(3, Math.max(.1, now * factor));
  svg.setAttribute("width", base.width * scale);
  svg.setAttribute("height", base.height * scale);
  return scale;
}

/* The buttons that zoom. */
function zoomButtons(zoom) {
  return [["−", 1 / 1.2, "smaller"], ["+", 1.2, "larger"], ["1:1", 1, "as it was"], ["fit", "fit", "as wide as the page"]].map(([text, factor, label]) =>
    make("button", { type: "button", "aria-label": label, title: label, click: () => zoom(factor) }, text));
}

/* Draws what an element is to hold once it is near the view, and says so in data-drawn. */
const late = new Map();
const watcher = new IntersectionObserver((seen) => {
  for (const entry of seen) if (entry.isIntersecting) drawNow(entry.target);
}, { rootMargin: "500px" });

function drawLater(element, drawing) {
  late.set(element, drawing);
  watcher.observe(element);
}

function drawNow(element) {
  const drawing = late.get(element);
  if (!drawing) return;
  late.delete(element);
  watcher.unobserve(element);
  drawing();
  element.dataset.drawn = "yes";
}

function forget(parent) {
  for (const element of [...late.keys()]) {
    if (parent.contains(element)) {
      late.delete(element);
      watcher.unobserve(element);
    }
  }
  parent.replaceChildren();
}

/* Makes a group of elements one stop of the Tab key; `next` says from a key where the focus goes. */
function roving(root, selector, next) {
  root.addEventListener("keydown", (event) => {
    if (event.ctrlKey || event.altKey || event.metaKey) return;
    const here = event.target.closest(selector);
    const there = here && next(here, event.key);
    if (!there) return;
    event.preventDefault();
    event.stopPropagation();
    moveFocus(root, selector, there);
  });
}

function moveFocus(root, selector, there) {
  for (const element of root.querySelectorAll(selector + '[tabindex="0"]')) element.setAttribute("tabindex", "-1");
  there.setAttribute("tabindex", "0");
  there.focus();
}

function inform(text) {
  let place = document.getElementById("told");
  if (!place) document.body.append(place = make("div", { id: "told", class: "visually-hidden", role: "status", "aria-live": "polite" }));
  place.textContent = text;
}

/* A group of buttons of which one is pressed. */
function choice(name, options, chosen, onChoice) {
  const buttons = options.map(([value, text, key]) => make("button", {
    type: "button", "data-value": value, "aria-pressed": String(value === chosen), title: key ? "key " + key : null,
    click: () => {
      for (const button of buttons) button.setAttribute("aria-pressed", String(button.dataset.value === value));
      onChoice(value);
    },
  }, text));
  return make("span", { class: "group", role: "group", "aria-label": name, "data-choice": name }, make("span", { class: "name" }, name), buttons);
}

function press(root, name, value) {
  const group = root.querySelector(`[data-choice="${name}"]`);
  if (!group) return;
  const buttons = [...group.querySelectorAll("button")];
  const at = buttons.findIndex((button) => button.getAttribute("aria-pressed") === "true");
  (value ? buttons.find((button) => button.dataset.value === value) : buttons[(at + 1) % buttons.length]).click();
}
