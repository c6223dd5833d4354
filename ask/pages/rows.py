"""The script of a page that lists the rows, searches them, and lights up the one that is pointed at."""

ROWS = r"""
const [list, search, count] = ["#rows", "#search", "#count"].map(name => document.querySelector(name));
const marksOf = facts.rows.map(() => []);  // of each row the parts of all panels
for (const panel of panels) for (const part of panel.rows) marksOf[part.row].push(Object.assign(part, {panel}));
const hits = new Set(facts.rows.keys());  // the rows that the search has found
let lit = null, gone = null;  // the row that is pointed at, and the one that was gone to last

const entries = facts.rows.map(entryOf);
list.append(...entries);
const texts = facts.rows.map(row =>
  `line ${row.line} ${facts.hosts[row.host]} ${row.kind} ${row.name} ${row.stamp}`.toLowerCase());

function entryOf(row, number) {
  const entry = makeHtml("li", {role: "option", id: `row${number}`, "aria-selected": "false", "data-row": number});
  const words = makeHtml("span", {class: "words"});
  const what = `${facts.hosts[row.host]} ${row.kind} ${row.name}`;
  words.append(makeHtml("span", {class: "what"}, what), makeHtml("span", {class: "stamp"}, row.stamp));
  entry.append(makeHtml("span", {class: "line"}, row.line), words);
  const named = marksOf[number].find(part => part.isNamed);
  if (named) entry.classList.add("named", named.element.classList.contains("fails") ? "fails" : "holds");
  return entry;
}

// Lights up a row in the list and in all panels, and no other one.
function light(number, isScrolled) {
  if (number === lit) return;
  for (const [row, isLit] of [[lit, false], [number, true]]) {
    if (row === null) continue;
    entries[row].classList.toggle("lit", isLit);
    entries[row].setAttribute("aria-selected", isLit);
  }
  lit = number;
  panels.forEach(placeLit);
  if (number === null) list.removeAttribute("aria-activedescendant");
  else list.setAttribute("aria-activedescendant", `row${number}`);
  if (number !== null && isScrolled) scrollListTo(entries[number]);
}

// Scrolls the list alone, and not the page.
function scrollListTo(entry) {
  const top = entry.offsetTop - list.offsetTop, least = top + entry.offsetHeight - list.clientHeight;
  if (top < list.scrollTop) list.scrollTop = top;
  else if (least > list.scrollTop) list.scrollTop = least;
}

const isSearching = () => search.value.trim() !== "";

// Shows the rows alone that have all words of the search.
function find() {
  const words = search.value.toLowerCase().split(/\s+/).filter(Boolean);
  hits.clear();
  texts.forEach((text, row) => { if (words.every(word => text.includes(word))) hits.add(row); });
  entries.forEach((entry, row) => { entry.hidden = !hits.has(row); });
  count.textContent = isSearching() ? `${hits.size} of ${facts.rows.length} rows` : `${facts.rows.length} rows`;
  markHits();
  drawAnew();
}

// Goes on to the next row that was found, or back to the one before.
function goOn(by) {
  const found = [...hits].sort((one, other) => one - other);
  if (!found.length) return;
  const at = found.indexOf(gone);
  showRow(found[at < 0 ? (by > 0 ? 0 : found.length - 1) : (at + by + found.length) % found.length]);
}

// Moves the picture to a row, and zooms in where it couldn't be told from others.
function showRow(number) {
  const {panel, x} = marksOf[number][facts.first], {host} = facts.rows[number];
  if (hiddenLanes.has(host)) setHidden(host, false);
  gone = number;
  light(number, true);
  const {places} = panel, at = firstFrom(places, x), few = 12;
  const around = Math.max(x - places[Math.max(at - few, 0)], places[Math.min(at + few, places.length - 1)] - x);
  const wanted = Math.max(zoom, zoomed(plot / Math.max(2 * around, plot / mostZoom)));
  if (wanted === zoom) glideTo(x * zoom - plot / 2);
  else showFrom(x - plot / wanted / 2, wanted);
  scrollToLane(host);
}

// Scrolls the page where the lane of a host is in none of the panels in view.
function scrollToLane(lane) {
  const first = document.querySelector("#tools").getBoundingClientRect().bottom;
  const tops = panels.map(panel => panel.svg.getBoundingClientRect().top + panel.tops[lane]);
  if (tops.some(top => top >= first && top + 60 <= innerHeight)) return;
  scrollBy(0, tops[facts.first] - first - 30);
}

list.addEventListener("pointermove", event => {
  const entry = event.target.closest("[data-row]");
  if (entry) light(Number(entry.dataset.row), false);
});
list.addEventListener("click", event => {
  const entry = event.target.closest("[data-row]");
  if (entry) showRow(Number(entry.dataset.row));
});
const listKeys = {
  ArrowDown: () => step(1), ArrowUp: () => step(-1), PageDown: () => step(15), PageUp: () => step(-15),
  Home: () => step(-Infinity), End: () => step(Infinity), Enter: () => { if (lit !== null) showRow(lit); },
};

// Lights up the row of the list so many after the one that is lit.
function step(by) {
  const found = [...hits].sort((one, other) => one - other);
  const at = lit === null ? -1 : found.indexOf(lit);
  if (found.length) light(found[Math.min(Math.max(at + by, 0), found.length - 1)], true);
}

list.addEventListener("keydown", event => {
  if (!listKeys[event.key]) return;
  listKeys[event.key]();
  event.preventDefault();
  event.stopPropagation();
});
search.addEventListener("input", find);
search.addEventListener("keydown", event => {
  if (event.key === "Enter") goOn(event.shiftKey ? -1 : 1);
  else if (event.key === "ArrowDown") { list.focus(); step(0); event.preventDefault(); }
  else if (event.key === "Escape") { search.value = ""; find(); search.blur(); }
  event.stopPropagation();
});
"""
