// The points of two injections as a map of two axes: a column for each step of the first one, a row for how many steps later the second one
// comes, and a panel for each pair of handlers. If there is no room for all columns or rows, each is for several steps.

const MOST_COLUMNS = 540, MOST_ROWS = 48, WIDEST_PAIR = 26, HIGHEST_PAIR = 14, LOWEST_PAIR = 5, PANEL_TITLE = 18, PANEL_AXIS = 22;
const pairs = { panels: new Map(), last: 0, farthest: 0 };
for (const [row, point, index] of data.several) {
  const [step, first, other, second, ...more] = point.split(" ");
  if (second === undefined || more.length) continue;
  const later = Number(other) - Number(step), names = `${first} ${second}`;
  if (!pairs.panels.has(names)) pairs.panels.set(names, []);
  pairs.panels.get(names).push({ row, point, step: Number(step), later, handler: data.handlers.indexOf(first), found: byIndex.get(index) });
  pairs.last = Math.max(pairs.last, Number(step));
  pairs.farthest = Math.max(pairs.farthest, later);
}

// For each cell the point that is shown: one of a class that passes the filter, if there is one, and among these of the first class.
function cellsOf(points, wide, high) {
  const cells = new Map(), place = it => (isShown(it.found) ? 0 : data.classes.length) + it.found.number;
  for (const it of points) {
    const key = `${Math.floor(it.step / wide)} ${Math.floor(it.later / high)}`;
    if (!cells.has(key) || place(it) < place(cells.get(key))) cells.set(key, it);
  }
  return cells;
}

function pairShape(it, box) {
  const name = isShown(it.found) ? it.found.colour : styleOf("--dimmed");
  const found = shape("rect", { ...box, fill: name }, null, `${it.point}: row ${it.row}, class ${it.found.number}: ${it.found.name}`);
  found.addEventListener("click", () => choose(it.found, it));
  return found;
}

function panelOf([first, second], points) {
  const wide = Math.ceil((pairs.last + 1) / MOST_COLUMNS), high = Math.ceil((pairs.farthest + 1) / MOST_ROWS);
  const columns = Math.floor(pairs.last / wide) + 1, rows = Math.floor(pairs.farthest / high) + 1;
  const width = Math.max(2, Math.min(WIDEST_PAIR, mapWidth() / columns)), height = Math.max(LOWEST_PAIR, Math.min(HIGHEST_PAIR, width));
  const title = `${first} before a step, and then ${second} so many steps later`, bottom = PANEL_TITLE + rows * height;
  const panel = shape("svg", { width: left() + columns * width + MARGIN, height: bottom + PANEL_AXIS, role: "img", "aria-label": title });
  panel.append(shape("text", { class: "quiet", x: left(), y: 12 }, title));
  for (const [key, it] of cellsOf(points, wide, high)) {
    const [column, row] = key.split(" ").map(Number), gap = width >= LOWEST_PAIR ? 1 : 0;
    panel.append(pairShape(it, { x: left() + column * width, y: PANEL_TITLE + row * height, width: width - gap, height: height - gap }));
  }
  for (const row of new Set([0, rows - 1])) {
    const at = { class: "quiet", x: left() - 6, y: PANEL_TITLE + (row + 0.5) * height + 4, "text-anchor": "end" };
    panel.append(shape("text", at, (row * high).toLocaleString("en")));
  }
  const interval = niceInterval((pairs.last.toLocaleString("en").length + 2) * CHARACTER / width * wide);
  for (let step = 0; step <= pairs.last; step += interval) {
    const at = { class: "quiet", x: left() + (step / wide + (wide === 1 ? 0.5 : 0)) * width, y: bottom + 14, "text-anchor": "middle" };
    panel.append(shape("text", at, step.toLocaleString("en")));
  }
  return panel;
}

function drawPairs() {
  const box = document.getElementById("pairs");
  box.hidden = !pairs.panels.size;
  box.replaceChildren(...[...pairs.panels].map(([names, points]) => panelOf(names.split(" "), points)));
}
