"""The script of a page that shows the whole log in a strip above, and in it what is shown below."""

STRIP = r"""
const strip = document.querySelector("#strip"), stripWindow = strip.querySelector(".window");
const [stripRows, stripMoments] = strip.querySelectorAll("svg");  // below and above what is shown
const stripHeight = 40, stripEdge = 5;
const stripParts = {all: make("path", {class: "all"}), hits: make("path", {class: "hits"})};
stripRows.append(make("text", {x: 12, y: 24}, "the whole log"), ...Object.values(stripParts));

const stripAt = place => left + place * width / plot;

// Draws all rows, each at the height of its lane, and the moments that are marked.
function drawStrip() {
  for (const part of [stripRows, stripMoments]) {
    part.setAttribute("width", left + width + right);
    part.setAttribute("height", stripHeight);
  }
  stripParts.all.setAttribute("d", stripPath(panels[facts.first].rows));
  stripMoments.replaceChildren(...facts.moments.flat().map(({x, kind}) => {
    const line = make("g", {class: kind});
    line.append(make("line", {x1: stripAt(x), x2: stripAt(x), y1: 0, y2: stripHeight, "stroke-width": 2}));
    return line;
  }));
  markHits();
}

function stripPath(rows) {
  const shown = order.filter(lane => !hiddenLanes.has(lane)), heights = new Map();
  shown.forEach((lane, number) => heights.set(lane, 4 + (stripHeight - 8) * number / shown.length));
  const tall = Math.max((stripHeight - 8) / Math.max(shown.length, 1) - 1, 3);
  return rows.filter(row => heights.has(row.lane))
    .map(row => `M${digits(stripAt(row.x))} ${digits(heights.get(row.lane))}v${digits(tall)}`).join("");
}

// Marks the rows that the search has found.
function markHits() {
  const found = panels[facts.first].rows.filter(part => isSearching() && hits.has(part.row));
  stripParts.hits.setAttribute("d", stripPath(found));
}

function placeWindow() {
  const wide = `${Math.max(width / zoom, 3)}px`;
  stripWindow.style.transform = `translateX(${left + moved * width / plot / zoom}px)`;
  if (stripWindow.style.width !== wide) stripWindow.style.width = wide;
}

// What a pointer has hold of in the strip: an end of what is shown, or the middle.
let stripHold = null;

function stripPlace(event) { return (event.clientX - strip.getBoundingClientRect().left - left) * plot / width; }

function stripHoldAt(place) {
  const first = moved / zoom, last = first + plot / zoom, near = stripEdge * plot / width;
  const inner = Math.min(near, (last - first) / 4);
  if (place > first - near && place < first + inner) return {kind: "first", last};
  if (place > last - inner && place < last + near) return {kind: "last", first};
  const isInside = place >= first && place <= last;
  return {kind: "all", behind: isInside ? place - first : plot / zoom / 2};
}

function dragStrip(event) {
  const place = Math.min(Math.max(stripPlace(event), 0), plot), least = plot / mostZoom;
  if (stripHold.kind === "all") { showFrom(place - stripHold.behind, zoom); return; }
  const first = stripHold.first ?? Math.min(place, stripHold.last - least);
  const last = stripHold.last ?? Math.max(place, stripHold.first + least);
  showFrom(first, plot / (last - first));
}

strip.addEventListener("pointerdown", event => {
  strip.setPointerCapture(event.pointerId);
  stripHold = stripHoldAt(stripPlace(event));
  dragStrip(event);
});
strip.addEventListener("pointermove", event => { if (stripHold) dragStrip(event); });
for (const end of ["pointerup", "pointercancel"]) strip.addEventListener(end, () => { stripHold = null; });
strip.addEventListener("wheel", event => {
  event.preventDefault();
  const place = stripPlace(event), factor = zoomed(zoom * wheelFactor(event));
  showFrom(place - plot / factor / 2, factor);
}, {passive: false});
"""
