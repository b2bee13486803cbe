// The list of classes, the filter, what is chosen, the keys.

const list = document.getElementById("classes");
const inputs = { failing: document.getElementById("failing"), handler: document.getElementById("handler"), text: document.getElementById("text") };

function classButton(it) {
  const style = `background:${it.colour};color:${it.isLight ? "#ffffff" : "#000000"}`;
  const button = element(
    "button", { type: "button", "data-class": it.number, id: `class-${it.number}` }, element("span", { class: "swatch", style }, it.number),
    element("span", { class: it.fails ? "fails" : "" }, it.name), element("span", { class: "quiet" }, it.rows.toLocaleString("en")));
  button.addEventListener("click", () => choose(it, null));
  return element("li", {}, button);
}

function baseButton() {
  const button = element("button", { type: "button", id: "base" }, element("span"), element("span", {}, "the base run"), element("span"));
  button.addEventListener("click", () => choose(null, null));
  return element("li", {}, button);
}

function shownClasses() {
  return data.classes.filter(isShown);
}

function fillList() {
  const shown = shownClasses();
  list.replaceChildren(...shown.map(classButton), ...(data.base ? [baseButton()] : []));
  const rows = shown.reduce((sum, it) => sum + it.rows, 0);
  document.getElementById("found").textContent = `${counted(shown.length, "class")} of ${counted(rows, "row")} shown`;
  markChosen();
}

function markChosen() {
  list.querySelectorAll("button").forEach(it => it.removeAttribute("aria-current"));
  const id = state.found ? `class-${state.found.number}` : "base";
  const button = document.getElementById(id);
  if (button) {
    button.setAttribute("aria-current", "true");
    scrollWithin(list.parentElement, button);
  }
}

// Shows a class, or the base run. If a point was chosen in the map, its row is shown too.
function choose(it, point) {
  state.found = it;
  state.point = point;
  if (it) showClass(it);
  else if (data.base) showBase();
  const link = it ? `#${it.link}` : data.base ? "#base-run" : " ";
  if (location.hash !== link) history.replaceState(null, "", link);
  markChosen();
  drawMap();
  moveCursor(point && shownRun ? Math.min(point.step, shownRun.run.steps - 1) : firstStepOf(it));
}

// The step of the injection in the row that is shown.
function firstStepOf(it) {
  const injections = it && shownRun ? shownRun.run.injections : [];
  return injections.length ? injections[0][0] : 0;
}

function chooseLinked() {
  const wanted = decodeURIComponent(location.hash.slice(1));
  const found = data.classes.find(it => it.link === wanted);
  if (found) choose(found, null);
  else choose(wanted === "base-run" ? null : data.classes[0] || null, null);
}

function drawMaps() {
  drawMap();
  drawPairs();
}

function refilter() {
  state.failing = inputs.failing.checked;
  state.handler = inputs.handler.value;
  state.words = inputs.text.value.trim();
  fillList();
  drawMaps();
}

function stepClass(by) {
  const shown = shownClasses();
  const at = shown.indexOf(state.found) + by;
  if (shown[at]) choose(shown[at], null);
}

// The nearest point of the chosen handler, to the left or to the right.
function stepPoint(by) {
  const from = state.point || { handler: 0, step: by > 0 ? -1 : lastStep + 1 };
  for (let step = from.step + by; step >= 0 && step <= lastStep; step += by) {
    const it = pointAt(from.handler, step);
    if (it) {
      bring(step);
      return choose(it.found, it);
    }
  }
}

const KEYS = {
  ArrowUp: () => stepClass(-1), ArrowDown: () => stepClass(1),
  ArrowLeft: event => document.activeElement === canvas ? stepPoint(-1) : moveCursor(state.step - (event.shiftKey ? 10 : 1)),
  ArrowRight: event => document.activeElement === canvas ? stepPoint(1) : moveCursor(state.step + (event.shiftKey ? 10 : 1)),
  Home: () => moveCursor(0), End: () => moveCursor(Infinity),
  "+": () => zoom(0.5), "-": () => zoom(2), 0: () => moveTo(0, lastStep + 1), c: copyCommand, "/": () => inputs.text.focus(),
  f: () => { inputs.failing.checked = !inputs.failing.checked; refilter(); },
};

function onKey(event) {
  const isTyping = event.target.matches("input[type=search], select");
  if (isTyping && event.key === "Escape") return event.target.blur();
  if (isTyping || event.ctrlKey || event.metaKey || event.altKey || !KEYS[event.key]) return;
  event.preventDefault();
  KEYS[event.key](event);
}

// Drags the map, or chooses the point below.
function onPointer(event) {
  const start = event.clientX, from = view.from, width = view.to - view.from;
  let isDragged = false;
  const move = it => {
    isDragged = isDragged || Math.abs(it.clientX - start) > 3;
    if (isDragged) moveTo(from - (it.clientX - start) / mapWidth() * width, width);
  };
  const end = it => {
    canvas.removeEventListener("pointermove", move);
    canvas.removeEventListener("pointerup", end);
    const box = canvas.getBoundingClientRect();
    const found = isDragged ? null : pointBelow(it.clientX - box.left, it.clientY - box.top);
    if (found) choose(found.found, found);
  };
  canvas.setPointerCapture(event.pointerId);
  canvas.addEventListener("pointermove", move);
  canvas.addEventListener("pointerup", end);
}

function onHover(event) {
  const box = canvas.getBoundingClientRect();
  const it = pointBelow(event.clientX - box.left, event.clientY - box.top);
  document.getElementById("hint").textContent = it
    ? `${data.handlers[it.handler]} before step ${it.step}: row ${it.row}, class ${it.found.number}: ${it.found.name}` : hint();
}

function hint() {
  const notes = [];
  if (data.missed.length) notes.push(`${counted(data.missed.length, "point")} not reached`);
  if (data.several.length) notes.push(`${counted(data.several.length, "row")} of several injections, each at its first`);
  return notes.join("; ") || (data.handlers.length ? "click a cell; wheel or + and - to come closer, drag to move" : "");
}

function start() {
  document.getElementById("title").textContent = data.title;
  const words = data.base ? data.base.words : "the base run is not known";
  document.getElementById("totals").textContent = `${counted(data.rows, "row")} in ${counted(data.classes.length, "class")}; ${words}`;
  document.getElementById("hint").textContent = hint();
  inputs.handler.append(...data.handlers.map(name => element("option", { value: name }, name)));
  inputs.failing.addEventListener("change", refilter);
  inputs.handler.addEventListener("change", refilter);
  inputs.text.addEventListener("input", refilter);
  document.getElementById("filter").addEventListener("submit", event => event.preventDefault());
  document.getElementById("closer").addEventListener("click", () => zoom(0.5));
  document.getElementById("farther").addEventListener("click", () => zoom(2));
  document.getElementById("whole").addEventListener("click", () => moveTo(0, lastStep + 1));
  canvas.addEventListener("pointerdown", onPointer);
  canvas.addEventListener("mousemove", onHover);
  canvas.addEventListener("wheel", event => {
    event.preventDefault();
    const x = event.clientX - canvas.getBoundingClientRect().left;
    zoom(event.deltaY > 0 ? 1.25 : 0.8, view.from + (x - left()) / mapWidth() * (view.to - view.from));
  }, { passive: false });
  document.addEventListener("keydown", onKey);
  window.addEventListener("hashchange", chooseLinked);
  window.addEventListener("resize", drawMaps);
  matchMedia("(prefers-color-scheme: dark)").addEventListener("change", drawMaps);
  fillList();
  drawPairs();
  chooseLinked();
}

start();
