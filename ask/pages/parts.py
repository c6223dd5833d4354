"""The script of a page that reads the parts of a picture, and draws those that are in view.

Most parts of one kind in one lane are drawn as one path, so that a picture of many rows has few elements. Marks of which
there are few stay elements of their own.
"""

PARTS = r"""
const slack = 220;  // pixels beside what is in view in which labels of rows may begin
const reach = 1000;  // pixels beside what is drawn at which lines are cut
const layers = ["states", "pulses", "messages", "heads", "skews", "readings", "moved", "stamps", "found", "dots"];  // upwards

// Reading

function partsOf(moving, selector, more = () => ({}), inner = null) {
  const has = element => !inner || element.querySelector(`:scope > ${inner}`);
  return [...moving.querySelectorAll(selector)].filter(has).map(element => {
    const lane = Number(element.closest("[data-lane]")?.dataset.lane ?? -1);
    const title = element.querySelector(":scope > title")?.textContent;
    return {...numbers(element.dataset), lane, title, element, ...more(element)};
  });
}

const marksWith = (moving, inner, more) => partsOf(moving, "[data-lane] > .x", more, inner);

function rowOf(element) {
  return {
    label: element.querySelector(".label"), shift: element.querySelector(".shift"),
    isNamed: element.classList.contains("named"), shape: element.querySelector("path.row") ? "diamond" : "dot",
  };
}

function stateOf(element) { return {y: Number(element.getAttribute("y")), fill: element.getAttribute("fill")}; }

function pulseOf(element) { return {fill: element.querySelector(".pulse").getAttribute("fill")}; }

// The parts of a panel by their kinds, of which none but the last are elements any more.
function partsOfPanel(moving) {
  const parts = {
    states: partsOf(moving, "[data-lane] > .w", stateOf), pulses: marksWith(moving, ".pulse", pulseOf),
    messages: partsOf(moving, ".message"), skews: partsOf(moving, ".skew"), moved: partsOf(moving, ".moved"),
    readings: partsOf(moving, "line.reading"), strokes: marksWith(moving, ".reading"), stamps: marksWith(moving, ".stamp"),
    rows: marksWith(moving, ".row", rowOf), loop: partsOf(moving, ".m"),
  };
  parts.single = [
    ...partsOf(moving, ".span", () => ({kind: "span"})),
    ...partsOf(moving, ".moment > .x", element => ({kind: "moment", flag: element.querySelector(".flag")})),
    ...partsOf(moving, ".c", () => ({kind: "bend"})), ...parts.loop.map(part => Object.assign(part, {kind: "figure"})),
    ...partsOf(moving, ".clock > .x", () => ({kind: "clock"})),
    ...parts.rows.filter(part => part.isNamed).map(part => ({...part, kind: "mark", label: null, shift: null})),
  ];
  for (const kind of ["states", "pulses", "messages", "skews", "moved", "readings", "strokes", "stamps"])
    for (const part of parts[kind]) { part.element.remove(); part.element = null; }
  for (const row of parts.rows) if (!row.isNamed) { row.element.remove(); row.element = null; }
  return parts;
}

// What goes with the time is taken out of the picture of a panel, and laid above it.
function panelOf(svg, number) {
  const box = makeHtml("div", {class: "box"}), view = makeHtml("div", {class: "view"}), moving = make("svg", {class: "moving"});
  const ticks = svg.querySelector(".ticks"), inner = svg.querySelector("g.moving");
  const words = make("g"), lit = make("circle", {class: "lit", r: 8});
  svg.replaceWith(box);
  moving.append(inner, ticks);
  svg.querySelector("[clip-path]").remove();
  view.append(moving);
  box.append(svg, view);
  const parts = partsOfPanel(inner), positions = inner.querySelector(".position"), groups = {};
  for (const part of parts.single.filter(part => part.lane >= 0)) inner.append(part.element);  // no longer in its lane
  for (const group of inner.querySelectorAll("[data-lane]")) group.remove();
  for (const layer of layers) groups[layer] = make("g", {class: `layer ${layer}`});
  inner.querySelector(".position").after(...Object.values(groups));
  inner.append(lit, words);
  for (const row of parts.rows) {
    for (const text of [row.label, row.shift]) if (text) text.remove();
  }
  return {
    box, svg, number, moving, parts, positions, groups, words, lit, ticks, rows: parts.rows, paths: new Map(), rooms: new Map(),
    places: positions.dataset.places.split(" ").map(Number),
    top: Number(svg.dataset.top), heights: svg.dataset.heights.split(" ").map(Number), bottom: 0, tops: [],
  };
}

const panels = [...document.querySelectorAll("svg.panel")].map(panelOf);

// Drawing

const heightOf = (panel, lane) => lane < 0 ? facts.clock : panel.tops[lane] + middle;
const isHidden = (panel, lane) => lane >= 0 && panel.tops[lane] === null;
const cut = x => Math.min(Math.max(x, local(placed.low / zoom) - reach), local(placed.high / zoom) + reach);
const shapes = {
  dot: (x, y, size) => `M${x - size} ${y}a${size} ${size} 0 1 0 ${2 * size} 0a${size} ${size} 0 1 0 ${-2 * size} 0`,
  diamond: (x, y, size) => {
    const [wide, tall] = [1.25 * size, 1.5 * size];
    return `M${x} ${y - tall}l${wide} ${tall}l${-wide} ${tall}l${-wide} ${-tall}z`;
  },
};
const digits = number => Math.round(number * 10) / 10;

// Draws the parts of a panel that are between two places.
function drawParts(panel, low, high) {
  const texts = new Map();
  const add = (layer, lane, text, fill = "") => {
    const key = `${layer} ${lane} ${fill}`;
    texts.set(key, (texts.get(key) ?? "") + text);
  };
  const {parts} = panel;
  const isBetween = part => Math.max(part.x ?? part.a, part.x ?? part.b) >= low && Math.min(part.x ?? part.a, part.x ?? part.b) <= high;
  const visible = kind => parts[kind].filter(part => isBetween(part) && !isHidden(panel, part.lane));
  const bar = (layer, height) => part => {
    const a = digits(cut(local(part.a))), y = panel.tops[part.lane] + height(part);
    add(layer, part.lane, `M${a} ${y}H${Math.max(digits(cut(local(part.b))), a + 2)}`, part.fill);
  };
  visible("states").forEach(bar("states", part => part.y + 4.5));
  visible("skews").forEach(bar("skews", () => middle));
  visible("readings").forEach(bar("readings", () => middle));
  for (const {lane, x, y, fill} of visible("pulses"))
    add("pulses", lane, shapes.diamond(digits(local(x)), panel.tops[lane] + y, 4), fill);
  for (const {lane, x} of visible("strokes")) add("readings", lane, `M${digits(local(x))} ${panel.tops[lane] + middle - 7}v14`);
  for (const {lane, a, b} of visible("moved"))
    add("moved", lane, `M${digits(cut(local(a)))} ${panel.tops[lane] + middle}H${digits(cut(local(b)))}`);
  for (const {lane, x} of visible("stamps")) add("stamps", lane, shapes.dot(digits(local(x)), panel.tops[lane] + middle, 2.6));
  drawMessages(panel, parts.messages.filter(isBetween), add);
  drawDots(panel, visible("rows"), add);
  for (const [key, path] of panel.paths) if (!texts.has(key)) path.setAttribute("d", "");
  for (const [key, text] of texts) pathOf(panel, key).setAttribute("d", text);
}

// The path of a layer, a lane and a colour.
function pathOf(panel, key) {
  if (!panel.paths.has(key)) {
    const [layer, , fill] = key.split(" "), path = make("path", fill ? {[layer === "states" ? "stroke" : "fill"]: fill} : {});
    panel.groups[layer].append(path);
    panel.paths.set(key, path);
  }
  return panel.paths.get(key);
}

// Rows as dots; of those that are at the same pixel one is drawn.
function drawDots(panel, rows, add) {
  const last = new Map();
  for (const part of rows) {
    const x = digits(local(part.x)), y = panel.tops[part.lane] + middle;
    if (isSearching() && hits.has(part.row)) add("found", part.lane, shapes.dot(x, y, 7));
    if (part.isNamed || Math.abs(x - (last.get(part.lane) ?? -Infinity)) < 0.5) continue;
    last.set(part.lane, x);
    add("dots", part.lane, shapes[part.shape](x, y, 4));
  }
}

function drawMessages(panel, messages, add) {
  for (const part of messages) {
    if (isHidden(panel, part.from) || isHidden(panel, part.to)) continue;
    const [a, y, b, z] = [local(part.a), heightOf(panel, part.from), local(part.b), heightOf(panel, part.to)];
    const first = cut(a), last = cut(b), heightAt = x => digits(a === b ? z : y + (z - y) * (x - a) / (b - a));
    add("messages", -1, `M${digits(first)} ${a === b ? y : heightAt(first)}L${digits(last)} ${heightAt(last)}`);
    const long = Math.hypot(b - a, z - y) || 1, [across, down] = [(b - a) / long, (z - y) / long];
    const corner = side => `L${digits(b - 9 * across - side * 4.5 * down)} ${digits(z - 9 * down + side * 4.5 * across)}`;
    if (last === b) add("heads", -1, `M${digits(b)} ${z}${corner(1)}${corner(-1)}z`);
  }
}

// How each kind of single mark is placed.
const placers = {
  span: (panel, part) => {
    const a = cut(local(part.a));
    part.element.setAttribute("x", a);
    part.element.setAttribute("width", Math.max(cut(local(part.b)) - a, 2));
  },
  moment: (panel, part) => {
    part.element.setAttribute("transform", `translate(${local(part.x)},0)`);
    placeFlag(panel, part);
  },
  clock: (panel, part) => part.element.setAttribute("transform", `translate(${local(part.x)},${facts.clock})`),
  mark: (panel, part) => {
    part.element.setAttribute("transform", `translate(${local(part.x)},${panel.tops[part.lane] + part.y})`);
  },
  bend: (panel, part) => part.element.setAttribute("d", bentOf(panel, part).path),
  figure: (panel, part) => { part.spot = bentOf(panel, part); },
};

function placeSingle(panel, low, high) {
  for (const part of panel.parts.single) {
    const [first, last] = part.x === undefined ? [Math.min(part.a, part.b), Math.max(part.a, part.b)] : [part.x, part.x];
    const lanes = [part.lane, part.from ?? -1, part.to ?? -1];
    part.isShown = last >= low && first <= high && !lanes.some(lane => isHidden(panel, lane));
    part.element.style.display = part.isShown ? "" : "none";
    if (part.isShown) placers[part.kind](panel, part);
  }
}

const bentOf = (panel, part) => bent(local(part.a), heightOf(panel, part.from), local(part.b), heightOf(panel, part.to));

// A path between two points that is bent to its left, and the place of its label.
function bent(a, y, b, z) {
  const length = Math.hypot(b - a, z - y), bend = Math.min(34, 12 + length / 8);
  if (length < 2) return {path: `M${a} ${y} C${a - 30} ${y - 40} ${a + 30} ${y - 40} ${a} ${y}`, x: a + 20, y: y - 22};
  const across = (a + b) / 2 + bend * (z - y) / length, down = (y + z) / 2 - bend * (b - a) / length;
  return {
    path: `M${a} ${y} Q${across} ${down} ${b} ${z}`,
    x: 0.36 * a + 0.48 * across + 0.16 * b + 4, y: 0.36 * y + 0.48 * down + 0.16 * z,
  };
}

// The lines through all lanes at which there are rows; of those that are too near to be told apart one is drawn.
function placePositions(panel, low, high) {
  let path = "", last = -Infinity;
  for (let number = firstFrom(panel.places, low); number < panel.places.length && panel.places[number] <= high; number++) {
    const x = digits(local(panel.places[number]));
    if (x - last < 0.5) continue;
    path += `M${x} ${panel.top - 4}V${panel.bottom}`;
    last = x;
  }
  panel.positions.setAttribute("d", path);
}

// Round moments along an axis, about a hundred points apart.
function placeTicks(panel, low, high) {
  const {offset, span} = numbers(panel.ticks.dataset), most = Math.max(2, width / 100), shown = span / zoom;
  let step = 1;
  for (let power = 1; shown / step > most; power *= 10)
    step = [power, 2 * power, 5 * power].find(size => shown / size <= most) ?? 10 * power;
  const first = Math.max(low / plot, 0) * span + offset, last = Math.min(high / plot, 1) * span + offset, ticks = [];
  for (let moment = Math.ceil(first / step) * step; moment <= last; moment += step) {
    const x = local((moment - offset) / span * plot), tick = make("g", {transform: `translate(${x},0)`, "data-x": x});
    const words = make("text", {class: "small", y: 16, "text-anchor": "middle"}, String(moment));
    tick.append(make("line", {class: "axis", y2: 4}), words);
    ticks.push(tick);
  }
  panel.ticks.replaceChildren(...ticks);
}

// The ring about the row that is pointed at, where that is drawn.
function placeLit(panel) {
  const row = lit === null ? null : marksOf[lit].find(item => item.panel === panel);
  const isShown = Boolean(row) && !isHidden(panel, row.lane) && row.x * zoom >= placed.low && row.x * zoom <= placed.high;
  panel.lit.style.display = isShown ? "" : "none";
  if (!isShown) return;
  panel.lit.setAttribute("cx", local(row.x));
  panel.lit.setAttribute("cy", panel.tops[row.lane] + middle);
}

// The number of the first of some sorted places that isn't before one.
function firstFrom(places, wanted) {
  let low = 0, high = places.length;
  while (low < high) {
    const half = (low + high) >> 1;
    if (places[half] < wanted) low = half + 1; else high = half;
  }
  return low;
}
"""
