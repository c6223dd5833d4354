"""The script of a page that hides lanes and moves them."""

LANES = r"""
const order = facts.hosts.map((_, lane) => lane);  // from top to bottom
const hiddenLanes = new Set();
const laneList = document.querySelector("#lanes ol");
const gap = 6;  // between lanes

// Puts all lanes in their order below one another, and what goes from lane to lane.
function placeLanes() {
  for (const panel of panels) {
    let top = panel.top;
    panel.tops = facts.hosts.map(() => null);
    for (const lane of order.filter(lane => !hiddenLanes.has(lane))) {
      panel.tops[lane] = top;
      top += panel.heights[lane] + gap;
    }
    panel.bottom = top;
    for (const head of panel.svg.querySelectorAll(".head")) {
      const laneTop = panel.tops[head.dataset.lane];
      head.style.display = laneTop === null ? "none" : "";
      if (laneTop !== null) head.setAttribute("transform", `translate(0,${laneTop})`);
    }
    for (const line of panel.moving.querySelectorAll(".moment line")) line.setAttribute("y2", panel.bottom);
    for (const span of panel.moving.querySelectorAll(".span")) span.setAttribute("height", panel.bottom + 4 - panel.top);
    for (const part of [panel.svg.querySelector(".below"), panel.ticks])
      part.setAttribute("transform", `translate(0,${panel.bottom + 6})`);
    panel.svg.setAttribute("height", panel.bottom + facts.below);
  }
  drawStrip();
  drawAnew();
}

function setHidden(lane, isOut) {
  if (isOut) hiddenLanes.add(lane); else hiddenLanes.delete(lane);
  laneList.querySelector(`[data-lane="${lane}"] input`).checked = !isOut;
  tellHidden();
  placeLanes();
}

function tellHidden() {
  document.querySelector("#lanes summary").textContent = hiddenLanes.size ? `Lanes (${hiddenLanes.size} hidden)` : "Lanes";
}

// Moves a lane to a number of the order.
function moveLane(lane, number) {
  order.splice(order.indexOf(lane), 1);
  order.splice(Math.min(Math.max(number, 0), order.length), 0, lane);
  laneList.append(...order.map(one => laneList.querySelector(`[data-lane="${one}"]`)));
  placeLanes();
}

function laneEntry(lane) {
  const entry = makeHtml("li", {"data-lane": lane}), box = makeHtml("input", {type: "checkbox"}), label = makeHtml("label");
  box.checked = true;
  label.append(box, ` ${facts.hosts[lane]}`);
  box.addEventListener("change", () => setHidden(lane, !box.checked));
  entry.append(label);
  for (const [sign, by, where] of [["\u2191", -1, "up"], ["\u2193", 1, "down"]]) {
    const button = makeHtml("button", {type: "button", "aria-label": `move ${facts.hosts[lane]} ${where}`}, sign);
    button.addEventListener("click", () => { moveLane(lane, order.indexOf(lane) + by); button.focus(); });
    entry.append(button);
  }
  return entry;
}

laneList.append(...order.map(laneEntry));
document.querySelector("#every").addEventListener("click", () => {
  hiddenLanes.clear();
  for (const box of laneList.querySelectorAll("input")) box.checked = true;
  tellHidden();
  placeLanes();
});

for (const {svg} of panels) {
  for (const head of svg.querySelectorAll(".head")) {
    const hide = make("text", {class: "hide", x: left - 16, y: 20, "text-anchor": "middle"}, "\u00d7");
    hide.append(make("title", {}, `hide ${facts.hosts[head.dataset.lane]}`));
    head.append(hide);
  }
}

// The lane of a panel at a height of the window, the first or the last one beyond them.
function laneAt(panel, y) {
  const height = y - panel.svg.getBoundingClientRect().top, shown = order.filter(lane => !hiddenLanes.has(lane));
  return shown.find(lane => height < panel.tops[lane] + panel.heights[lane] + gap) ?? shown[shown.length - 1];
}

let laneHold = null;  // the lane that is moved, and its panel

function holdLane(panel, lane) {
  laneHold = {panel, lane};
  for (const head of document.querySelectorAll(`.head[data-lane="${lane}"]`)) head.classList.add("dragged");
}

function dragLane(y) {
  const other = laneAt(laneHold.panel, y);
  if (other !== laneHold.lane) moveLane(laneHold.lane, order.indexOf(other));
}

function dropLane() {
  laneHold = null;
  for (const head of document.querySelectorAll(".dragged")) head.classList.remove("dragged");
}
"""
