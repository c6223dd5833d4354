"""The script of a page that zooms and moves what is shown.

What goes with the time is a picture of its own above the lanes, which is moved as a whole, and which the browser needn't
paint anew for that. It is drawn anew where the zoom has changed, or where it has been moved by about its width.
"""

VIEW = r"""
const facts = JSON.parse(document.querySelector("#facts").textContent);
const {left, plot, right, levels, letter, middle} = facts;
const page = document.documentElement;
const svgSpace = "http://www.w3.org/2000/svg";
const farthest = 100000;  // pixels that what is drawn may be moved
const mostZoom = Math.min(Math.max(facts.span / 20, 16), 1e7);

let width = plot, zoom = 1, moved = 0;  // the pixels of the plot, and how far what is shown is from its left, in zoomed places
let anchor = 0, waits = false, glide = null, rest = 0;
const placed = {zoom: 0, width: 0, low: 0, high: 0};  // what was last drawn

const pixels = () => zoom * width / plot;  // of a place
const local = place => left + (place * zoom - anchor) * width / plot;  // in the picture that is moved
const placeAt = x => ((x - left) * plot / width + moved) / zoom;

function numbers(data) { return Object.fromEntries(Object.entries(data).map(([key, value]) => [key, Number(value)])); }

function make(kind, values = {}, words = "") {
  const element = document.createElementNS(svgSpace, kind);
  for (const [key, value] of Object.entries(values)) element.setAttribute(key, value);
  if (words) element.textContent = words;
  return element;
}

function makeHtml(kind, values = {}, words = "") {
  const element = document.createElement(kind);
  for (const [key, value] of Object.entries(values)) element.setAttribute(key, value);
  element.textContent = words;
  return element;
}

// Drawing

// Has a frame be drawn, with what is new in it.
function ask() { if (!waits) { waits = true; requestAnimationFrame(draw); } }

// The same where what is drawn has changed.
function drawAnew() {
  placed.zoom = 0;
  ask();
}

function draw() {
  waits = false;
  moved = Math.min(Math.max(moved, 0), plot * (zoom - 1));
  const room = slack * plot / width, isSame = zoom === placed.zoom && width === placed.width && Math.abs(shift()) <= farthest;
  if (!isSame) anchor = moved;
  if (!isSame || moved < placed.low + room || moved + plot > placed.high - room) drawNear();
  for (const panel of panels) panel.moving.style.transform = `translateX(${shift()}px)`;
  placeWindow();
  clearTimeout(rest);
  rest = setTimeout(hideCut, 150);
}

// By how many pixels what was drawn is moved; whole ones keep letters sharp.
function shift() { return Math.round((anchor - moved) * width / plot); }

// Draws what is in view, and as much beside it.
function drawNear() {
  const margin = (width + slack) * plot / width;
  Object.assign(placed, {zoom, width, low: moved - margin, high: moved + plot + margin});
  const low = placed.low / zoom, high = placed.high / zoom;
  for (const panel of panels) {
    placePositions(panel, low, high);
    drawParts(panel, low, high);
    placeSingle(panel, low, high);
    placeWords(panel, low, high);
    placeTicks(panel, low, high);
    placeLit(panel);
  }
}

// Zoom and place

function zoomBy(factor, x) {
  const spot = placeAt(x);
  showFrom(spot - (x - left) * plot / width / zoomed(zoom * factor), zoomed(zoom * factor));
}

const zoomed = wanted => Math.min(Math.max(wanted, 1), mostZoom);

// Shows what begins at a place, at a zoom.
function showFrom(place, wanted) {
  glide = null;
  zoom = zoomed(wanted);
  moved = place * zoom;
  ask();
}

function showWhole() { showFrom(0, 1); }

function moveBy(pixelsRight) {
  glide = null;
  moved -= pixelsRight * plot / width;
  ask();
}

// Shows all between two places, with room at both sides.
function showBetween(first, last) {
  const room = Math.max((last - first) * 0.08, plot / mostZoom / 4);
  const wanted = zoomed(plot / (last - first + 2 * room));
  showFrom((first + last) / 2 - plot / wanted / 2, wanted);
}

// Moves what is shown to a place, in a few frames unless that isn't wanted.
function glideTo(wanted) {
  const target = Math.min(Math.max(wanted, 0), plot * (zoom - 1)), begin = moved, start = performance.now();
  if (matchMedia("(prefers-reduced-motion: reduce)").matches) { moved = target; ask(); return; }
  const mine = glide = {};
  const go = now => {
    if (glide !== mine) return;
    const part = Math.min(Math.max((now - start) / 180, 0), 1);
    moved = begin + (target - begin) * part * (2 - part);
    if (part === 1) glide = null; else requestAnimationFrame(go);
    ask();
  };
  requestAnimationFrame(go);
}

// Shows what is marked of a panel.
function showMarked(number) {
  const opening = facts.openings[number];
  if (!opening) return;
  showBetween(...opening);
  scrollToPanel(panels[number]);
}

// Scrolls the page to the caption of a panel, unless the first lanes of the panel are in view.
function scrollToPanel({box}) {
  const first = document.querySelector("#tools").getBoundingClientRect().bottom, {top} = box.getBoundingClientRect();
  if (top < first || top + 120 > innerHeight) scrollBy(0, box.previousElementSibling.getBoundingClientRect().top - first);
}

function fit() {
  const whole = Math.max(document.querySelector("#panels").clientWidth, 320);
  width = whole - left - right;
  for (const {svg} of panels) {
    svg.removeAttribute("viewBox");
    svg.setAttribute("width", whole);
    svg.querySelector(".below > .axis").setAttribute("x2", whole);
  }
  drawStrip();
  page.style.setProperty("--tools", `${document.querySelector("#tools").offsetHeight}px`);
  ask();
}
"""
