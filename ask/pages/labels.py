"""The script of a page that decides which labels have room.

Labels are placed for steps of the zoom, each for the least zoom of its step. Parts only come apart as the zoom grows, so
what has room there has room at each zoom of the step, and nothing is decided while the picture is moved.
"""

LABELS = r"""
const stepsOfDouble = 2;  // of the zoom

// The least pixels of a place that the step of the zoom has.
function leastPixels() { return 2 ** (Math.floor(Math.log2(pixels()) * stepsOfDouble) / stepsOfDouble); }

// Where the words of each part of a panel have room, for the step of the zoom.
function roomsOf(panel) {
  const least = leastPixels();
  if (!panel.rooms.has(least)) panel.rooms.set(least, decided(panel, least));
  return panel.rooms.get(least);
}

// Rows that are named take their room first, and the others from left to right.
function decided(panel, least) {
  const rooms = new Map(), taken = new Map(), free = new Map();
  const across = [...panel.rows].sort((one, other) => one.x - other.x);
  for (const part of [...across.filter(part => part.isNamed), ...across.filter(part => !part.isNamed)])
    rooms.set(part, labelRoom(part, least, taken));
  for (const part of across) if (part.shift) rooms.get(part).hasShift = hasShiftRoom(part, least, free);
  let end = -Infinity;
  for (const part of panel.parts.single.filter(part => part.flag)) {
    const wide = Number(part.flag.dataset.wide), x = part.x * least, isLeft = x + wide > plot * least + right;
    const begin = isLeft ? x - wide : x, hasRoom = begin >= end;
    if (hasRoom) end = begin + wide + 12;
    rooms.set(part, {hasRoom, isLeft});
  }
  return rooms;
}

// The lowest height at which a label has room in its lane, -1 where it has at none.
function labelRoom(part, least, taken) {
  const wide = Number(part.label.dataset.wide), x = part.x * least, isLeft = x + wide > plot * least + right;
  const begin = isLeft ? x + 3 - wide : x - 3, end = begin + wide + 7;
  for (let level = 0; level < levels; level++) {
    const key = `${part.lane} ${level}`, boxes = taken.get(key) ?? {begins: [], ends: []};
    const place = firstFrom(boxes.begins, begin), {begins, ends} = boxes;
    if ((place === 0 || ends[place - 1] <= begin) && (place === begins.length || end <= begins[place])) {
      begins.splice(place, 0, begin);
      ends.splice(place, 0, end);
      taken.set(key, boxes);
      return {level, isLeft, hasShift: false};
    }
  }
  return {level: -1, isLeft, hasShift: false};
}

function hasShiftRoom(part, least, free) {
  const half = letter * part.shift.textContent.length / 2, x = part.x * least;
  if (x - half < (free.get(part.lane) ?? -Infinity)) return false;
  free.set(part.lane, x + half + 3);
  return true;
}

// Shows the words of the rows that are between two places and have room, and no others.
function placeWords(panel, low, high) {
  const rooms = roomsOf(panel);
  for (const part of panel.rows) {
    const {level, isLeft, hasShift} = rooms.get(part), isDrawn = part.x >= low && part.x <= high && !isHidden(panel, part.lane);
    part.level = isDrawn ? level : -1;
    part.isLeft = isLeft;
    const x = digits(local(part.x)), y = panel.tops[part.lane] + middle;
    part.label.classList.remove("off");
    if (attach(panel, part.label, part.level >= 0))
      placeText(part.label, x + (isLeft ? 3 : -3), y - 8 - 11 * level, isLeft ? "end" : "start");
    if (part.shift) part.shift.classList.remove("off");
    if (part.shift && attach(panel, part.shift, isDrawn && hasShift))
      placeText(part.shift, x, y + 15, part.x * pixels() > 12 ? "middle" : "start");
  }
  if (panel.parts.loop.length) placeLoopWords(panel);
}

// Hides the words that the edges of the view cut, once it is at rest.
function hideCut() {
  const first = -shift() + left - 12, last = first + width + 12 + right;
  const hide = (text, begin, end) => text.classList.toggle("off", begin < first || end > last);
  for (const panel of panels) {
    for (const part of panel.rows.filter(part => part.level >= 0)) {
      const box = labelBox(panel, part);
      hide(part.label, box.left, box.right);
    }
    for (const tick of panel.ticks.children) {
      const x = Number(tick.dataset.x), half = letter * tick.textContent.length / 2;
      hide(tick.lastChild, x - half, x + half);
    }
  }
}

// Has a text be there or not, and tells which.
function attach(panel, text, isThere) {
  if (isThere && !text.parentNode) panel.words.append(text);
  else if (!isThere && text.parentNode) text.remove();
  return isThere;
}

function placeText(text, x, y, anchor) {
  text.setAttribute("x", x);
  text.setAttribute("y", y);
  text.setAttribute("text-anchor", anchor);
}

function placeFlag(panel, part) {
  const {hasRoom, isLeft} = roomsOf(panel).get(part);
  part.flag.classList.toggle("off", !hasRoom);
  placeText(part.flag, isLeft ? -6 : 6, 11, isLeft ? "end" : "start");
}

// The figures of a loop of bounds: each where it lies on no other words, or not at all.
function placeLoopWords(panel) {
  const boxes = panel.rows.filter(part => part.level >= 0).map(part => labelBox(panel, part));
  for (const part of panel.parts.single.filter(part => part.kind === "clock" && part.isShown))
    boxes.push({left: local(part.x) - 125, right: local(part.x) + 5, top: facts.clock - 8, bottom: facts.clock + 8});
  for (const part of panel.parts.loop.filter(part => part.isShown)) {
    const wide = 7.4 * part.element.textContent.length, {x, y} = part.spot;
    const places = [[0, 0], [0, -14], [0, 14], [8, 24], [0, -28], [0, 30], [-wide - 8, 0], [-wide - 8, -14], [-wide - 8, 14]];
    const free = places.map(([across, down]) => [x + across, y + down])
      .map(([begin, line]) => ({left: begin, right: begin + wide, top: line - 11, bottom: line + 3}))
      .find(box => !boxes.some(other => isOver(box, other)));
    part.element.classList.toggle("off", !free);
    if (!free) continue;
    boxes.push(free);
    placeText(part.element, free.left, free.bottom - 3, "start");
  }
}

function labelBox(panel, part) {
  const wide = Number(part.label.dataset.wide), x = local(part.x);
  const bottom = panel.tops[part.lane] + middle - 6 - 11 * part.level;
  const begin = part.isLeft ? x + 3 - wide : x - 3;
  return {left: begin, right: begin + wide, top: bottom - 12, bottom};
}

const isOver = (one, other) =>
  one.left < other.right && other.left < one.right && one.top < other.bottom && other.top < one.bottom;
"""
