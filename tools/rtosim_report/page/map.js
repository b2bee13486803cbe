// The map of points, which can be zoomed: a column for each step, a row for each handler, and the chosen cell.

const canvas = document.getElementById("map");
const CELL = 26, GAP = 8, TOP = 8, AXIS = 22, MARGIN = 12, CHARACTER = 7.3, NUMBER_FROM = 14;
const view = { from: 0, to: lastStep + 1 };

function left() {
  return MARGIN + CHARACTER * (1 + Math.max(4, ...data.handlers.map(it => it.length)));
}

function mapWidth() {
  return canvas.clientWidth - left() - MARGIN;
}

function across(step) {
  return left() + (step - view.from) / (view.to - view.from) * mapWidth();
}

function styleOf(name) {
  return getComputedStyle(document.documentElement).getPropertyValue(name).trim();
}

// For each column of pixels the first class of its points, in the order of classes.
function columnsOf(handler) {
  const width = Math.max(1, Math.floor(mapWidth()));
  const scale = width / (view.to - view.from);
  const best = new Array(width).fill(null);
  for (const it of pointsOf[handler]) {
    const first = Math.max(0, Math.floor((it.step - view.from) * scale));
    const last = Math.min(width - 1, Math.ceil((it.step + it.count - view.from) * scale) - 1);
    for (let at = first; at <= last; at += 1) {
      if (!best[at] || it.found.number < best[at].number) best[at] = it.found;
    }
  }
  return best;
}

function drawCells(draw, handler, top) {
  const columns = columnsOf(handler);
  let start = 0;
  for (let at = 1; at <= columns.length; at += 1) {
    if (at < columns.length && columns[at] === columns[start]) continue;
    const found = columns[start];
    if (found) {
      draw.fillStyle = isShown(found) ? found.colour : styleOf("--dimmed");
      draw.fillRect(left() + start, top, at - start, CELL);
    }
    start = at;
  }
}

// If there is room, lines between the cells, and the numbers of their classes.
function drawNumbers(draw, handler, top) {
  const width = mapWidth() / (view.to - view.from);
  if (width < NUMBER_FROM) return;
  for (let step = Math.max(0, Math.floor(view.from)); step < Math.min(lastStep + 1, view.to); step += 1) {
    const it = pointAt(handler, step);
    draw.fillStyle = styleOf("--paper");
    draw.fillRect(across(step) - 0.5, top, 1, CELL);
    if (!it || String(it.found.number).length * CHARACTER + 4 > width) continue;
    draw.fillStyle = !isShown(it.found) ? styleOf("--ink") : it.found.isLight ? "#ffffff" : "#000000";
    draw.textAlign = "center";
    draw.fillText(it.found.number, across(step + 0.5), top + 17);
  }
}

function niceInterval(least) {
  for (let power = 1; ; power *= 10) {
    for (const factor of [1, 2, 5]) if (factor * power >= least) return factor * power;
  }
}

function drawAxis(draw, top) {
  const widest = (lastStep.toLocaleString("en").length + 2) * CHARACTER;
  const interval = niceInterval(Math.max(1, widest / mapWidth() * (view.to - view.from)));
  draw.fillStyle = styleOf("--quiet");
  draw.textAlign = "left";
  draw.fillText("step", MARGIN, top + 15);
  draw.textAlign = "center";
  for (let step = Math.ceil(view.from / interval) * interval; step < Math.min(view.to, lastStep + 1); step += interval) {
    const middle = view.to - view.from < mapWidth() / 8 ? 0.5 : 0;
    draw.fillText(step.toLocaleString("en"), across(step + middle), top + 15);
  }
}

function drawChosen(draw) {
  if (!state.point) return;
  const box = boxOf(state.point.handler, state.point.step);
  draw.strokeStyle = styleOf("--ink");
  draw.lineWidth = 2;
  draw.strokeRect(box.left - 1, box.top - 2, Math.max(3, box.width) + 2, CELL + 4);
}

function drawMap() {
  const scale = window.devicePixelRatio || 1;
  const height = TOP + Math.max(1, data.handlers.length) * (CELL + GAP) + AXIS;
  canvas.style.height = `${height}px`;
  canvas.width = canvas.clientWidth * scale;
  canvas.height = height * scale;
  const draw = canvas.getContext("2d");
  draw.scale(scale, scale);
  draw.font = "12px ui-monospace, 'DejaVu Sans Mono', Menlo, Consolas, monospace";
  data.handlers.forEach((name, handler) => {
    const top = TOP + handler * (CELL + GAP);
    draw.textAlign = "left";
    draw.fillStyle = styleOf("--ink");
    draw.fillText(name, MARGIN, top + 17);
    drawCells(draw, handler, top);
    drawNumbers(draw, handler, top);
  });
  drawAxis(draw, TOP + data.handlers.length * (CELL + GAP));
  drawChosen(draw);
  const shown = `steps ${Math.ceil(view.from)} to ${Math.min(lastStep, Math.ceil(view.to) - 1)} of ${lastStep + 1}`;
  document.getElementById("range").textContent = data.handlers.length ? shown : "no points";
}

// The place of a cell in the canvas.
function boxOf(handler, step) {
  return { left: across(step), top: TOP + handler * (CELL + GAP), width: across(step + 1) - across(step), height: CELL };
}

// The point below a place in the canvas: the first step of the column at which the class comes that is shown there.
function pointBelow(x, y) {
  const handler = Math.floor((y - TOP) / (CELL + GAP));
  if (handler < 0 || handler >= data.handlers.length || x < left()) return null;
  const perPixel = (view.to - view.from) / mapWidth();
  const first = Math.floor(view.from + (x - left()) * perPixel);
  const last = Math.min(lastStep, Math.max(first, Math.ceil(view.from + (x - left() + 1) * perPixel) - 1));
  let best = null;
  for (let step = first; step <= last && step - first < 5000; step += 1) {
    const it = pointAt(handler, step);
    if (it && (!best || it.found.number < best.found.number)) best = it;
  }
  return best;
}

// Shows this many times the steps, around this place.
function zoom(factor, around = (view.from + view.to) / 2) {
  const whole = lastStep + 1;
  const width = Math.min(whole, Math.max(Math.min(5, whole), (view.to - view.from) * factor));
  const share = (around - view.from) / (view.to - view.from);
  moveTo(around - share * width, width);
}

function moveTo(from, width) {
  view.from = Math.max(0, Math.min(from, lastStep + 1 - width));
  view.to = view.from + width;
  drawMap();
}

// Moves the map so that the step is visible.
function bring(step) {
  const width = view.to - view.from;
  if (step < view.from || step + 1 > view.to) moveTo(step - width / 2, width);
}
