"""The script of a page that shows what is at the pointer, and takes the wheel, the pointer and the keys."""

POINTER = r"""
const tip = document.querySelector("#tip"), mostTitles = 6, near = 7;  // pixels from a row

// What is at a point of a panel, by its titles: rows first, and then what is under them.
function titlesAt(panel, x, y) {
  const box = panel.svg.getBoundingClientRect(), across = x - box.left - shift(), down = y - box.top, {parts} = panel;
  const isNear = (part, height, far) => !isHidden(panel, part.lane) && Math.abs(down - panel.tops[part.lane] - height) <= far;
  const isAt = part => Math.abs(local(part.x) - across) <= near;
  const isIn = part => local(part.a) - 3 <= across && across <= Math.max(local(part.b), local(part.a) + 2) + 3;
  const isOn = {
    span: isIn, moment: isAt,
    bend: part => [0, -3, 3].some(off => part.element.isPointInStroke(new DOMPoint(across, down + off))),
  };
  return [...new Set([
    ...parts.rows.filter(part => isNear(part, middle, 9) && isAt(part)),
    ...parts.readings.filter(part => isNear(part, middle, 7) && isIn(part)),
    ...parts.skews.filter(part => isNear(part, middle, 4) && isIn(part)),
    ...parts.pulses.filter(part => isNear(part, part.y, 7) && isAt(part)),
    ...parts.states.filter(part => isNear(part, part.y + 4.5, 6) && isIn(part)),
    ...parts.messages.filter(part => isOnMessage(panel, part, across, down)),
    ...parts.single.filter(part => part.isShown && isOn[part.kind]?.(part)),
  ].map(part => part.title).filter(Boolean))];
}

// Whether a point is on the arrow of a message, or just beside it.
function isOnMessage(panel, part, across, down) {
  if (isHidden(panel, part.from) || isHidden(panel, part.to)) return false;
  const [a, y, b, z] = [local(part.a), heightOf(panel, part.from), local(part.b), heightOf(panel, part.to)];
  const square = (b - a) ** 2 + (z - y) ** 2 || 1, passed = ((across - a) * (b - a) + (down - y) * (z - y)) / square;
  const along = Math.min(Math.max(passed, 0), 1);
  return Math.hypot(a + along * (b - a) - across, y + along * (z - y) - down) <= 4;
}

// A moment as an ISO 8601 time in the zone of the log's source, where that is known.
function shownMoment(moment) {
  const {digits, epoch, ahead, zone} = panels[0].ticks.dataset;
  if (epoch === undefined) return moment;
  const whole = 10n ** BigInt(digits), local = moment + BigInt(epoch) + BigInt(ahead) * whole;
  const rest = (local % whole + whole) % whole, date = new Date(Number((local - rest) / whole) * 1000);
  if (isNaN(date)) return moment;
  return date.toISOString().slice(0, -5) + (digits > 0 ? `.${String(rest).padStart(digits, "0")}` : "") + zone;
}

// Shows the moment at a point, and what is there.
function showTip(panel, x, y) {
  const across = x - panel.svg.getBoundingClientRect().left, {offset, span} = numbers(panel.ticks.dataset);
  const found = titlesAt(panel, x, y), more = found.length - mostTitles;
  const isInPlot = across >= left && across <= left + width;
  const moment = BigInt(panel.ticks.dataset.base) + BigInt(Math.round(offset + placeAt(across) / plot * span));
  const lines = [
    ...(isInPlot ? [`at ${shownMoment(moment)}`] : []), ...found.slice(0, mostTitles), ...(more > 0 ? [`and ${more} more`] : []),
  ];
  tip.style.visibility = lines.length ? "visible" : "hidden";
  tip.textContent = lines.join("\n");
  tip.style.left = `${Math.max(0, Math.min(x + 14, page.clientWidth - tip.offsetWidth - 2))}px`;
  tip.style.top = `${y + 18 + tip.offsetHeight > page.clientHeight ? Math.max(y - 8 - tip.offsetHeight, 0) : y + 18}px`;
}

// The row of the lane at a point that is nearest to it, or none.
function rowAt(panel, x, y) {
  const box = panel.svg.getBoundingClientRect(), lane = laneAt(panel, y);
  const across = x - box.left - shift(), down = y - box.top - panel.tops[lane] - middle;
  if (lane === undefined || Math.abs(down) > 12 || isOverNames(panel, x)) return null;
  let nearest = null, least = near;
  for (const part of panel.rows) {
    const far = part.lane === lane ? Math.abs(local(part.x) - across) : Infinity;
    if (far <= least) { least = far; nearest = part.row; }
  }
  return nearest;
}

let pointed = null, hold = null;  // where the pointer is, and whether it drags the picture

function point() {
  if (!pointed || hold || laneHold) return;
  const {panel, x, y} = pointed;
  pointed = null;
  light(rowAt(panel, x, y), true);
  showTip(panel, x, y);
}

// By how much a turn of the wheel zooms: some turn by pixels, and others by lines.
function wheelFactor(event) {
  const turned = event.deltaY * (event.deltaMode === 0 ? 1 : 40);
  return Math.exp(-Math.min(Math.max(turned, -240), 240) * 0.0015);
}

function isOverNames(panel, x) { return x - panel.svg.getBoundingClientRect().left < left - 12; }

for (const panel of panels) {
  const {box, svg} = panel;
  box.addEventListener("wheel", event => {
    if (isOverNames(panel, event.clientX) || event.ctrlKey) return;
    event.preventDefault();
    if (Math.abs(event.deltaX) > Math.abs(event.deltaY)) moveBy(-event.deltaX);
    else zoomBy(wheelFactor(event), event.clientX - svg.getBoundingClientRect().left);
  }, {passive: false});
  box.addEventListener("pointerdown", event => {
    if (event.button !== 0) return;
    const head = event.target.closest(".head");
    if (event.target.closest(".hide")) { setHidden(Number(head.dataset.lane), true); return; }
    box.setPointerCapture(event.pointerId);
    tip.style.visibility = "hidden";
    if (head && isOverNames(panel, event.clientX)) holdLane(panel, Number(head.dataset.lane));
    else hold = {x: event.clientX, y: event.clientY};
  });
  box.addEventListener("pointermove", event => {
    if (laneHold) dragLane(event.clientY);
    else if (hold) dragTo(event.clientX, event.clientY);
    else { pointed = {panel, x: event.clientX, y: event.clientY}; requestAnimationFrame(point); }
  });
  for (const end of ["pointerup", "pointercancel"]) box.addEventListener(end, () => { hold = null; dropLane(); });
  box.addEventListener("pointerleave", () => { pointed = null; tip.style.visibility = "hidden"; light(null, false); });
  box.addEventListener("dblclick", showWhole);
}

function dragTo(x, y) {
  moveBy(x - hold.x);
  if (y !== hold.y) scrollBy(0, hold.y - y);
  hold = {x, y};
}

// Buttons and keys

const zoomIn = () => zoomBy(1.5, left + width / 2), zoomOut = () => zoomBy(1 / 1.5, left + width / 2);
const marked = facts.openings.map((opening, number) => opening && number).filter(number => number !== null);
let nextMarked = 0;

// Shows what is marked; of several panels with marks one after another.
function showNextMarked() {
  if (marked.length) showMarked(marked[nextMarked++ % marked.length]);
}

const acts = {out: zoomOut, in: zoomIn, whole: showWhole, marked: showNextMarked};
for (const button of document.querySelectorAll("[data-act]")) button.addEventListener("click", acts[button.dataset.act]);
for (const button of document.querySelectorAll("[data-panel]")) {
  button.addEventListener("click", () => showMarked(Number(button.dataset.panel)));
}

const keys = {
  "+": zoomIn, "=": zoomIn, "-": zoomOut, 0: showWhole, m: showNextMarked, n: () => goOn(1), p: () => goOn(-1),
  ArrowLeft: () => moveBy(width / 8), ArrowRight: () => moveBy(-width / 8),
  "/": () => { document.querySelector("#side").open = true; search.focus(); },
};
addEventListener("keydown", event => {
  if (event.ctrlKey || event.metaKey || event.altKey || !keys[event.key]) return;
  keys[event.key]();
  event.preventDefault();
});
// A list that has opened above the picture closes with a click elsewhere, or with Escape.
const opened = () => [...document.querySelectorAll("#tools details[open]")];
addEventListener("pointerdown", event => {
  for (const details of opened()) if (!details.contains(event.target)) details.open = false;
});
addEventListener("keydown", event => {
  if (event.key !== "Escape") return;
  for (const details of opened()) {
    details.open = false;
    details.querySelector("summary").focus();
  }
});

for (const part of document.querySelectorAll(".scripted-only")) part.hidden = false;
page.classList.add("scripted");
document.querySelector("#side").open = innerWidth > 820;
addEventListener("resize", fit);
find();
fit();
placeLanes();
showMarked(facts.first);
const firstNamed = entries.find(entry => entry.classList.contains("named"));
if (firstNamed) list.scrollTop = firstNamed.offsetTop - list.offsetTop - list.clientHeight / 3;
"""
