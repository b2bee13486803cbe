// A class, or the base run: its words, the command, the lanes, the lines beside those of the base run, and the scripts. They share a cursor.

const detail = document.getElementById("detail");
const STYLES = { "|": "other", "<": "only-base", ">": "only-row", "+": "own" };
const MEANING = { " ": "alike", "~": "other numbers", "|": "other answer", "<": "base run alone", ">": "row alone", "+": "injected" };
const MOST_PLACES = 60;
let shownRun = null;

// The points of a class, as stretches of steps.
function placesOf(it) {
  const found = [];
  data.handlers.forEach((name, handler) => pointsOf[handler].forEach(there => {
    if (there.found !== it) return;
    const last = there.step + there.count - 1;
    found.push(several.get(there.row) || (there.count > 1 ? `${there.step} .. ${last} ${name}` : `${there.step} ${name}`));
  }));
  data.missed.forEach(([, point, index]) => {
    if (index === it.index) found.push(`${point} (not reached)`);
  });
  const more = found.length - MOST_PLACES;
  return found.slice(0, MOST_PLACES).join(", ") + (more > 0 ? `, and ${more.toLocaleString("en")} more` : "");
}

function commandLine(text) {
  const button = element("button", { type: "button", id: "copy" }, "copy");
  button.addEventListener("click", copyCommand);
  return element("div", { class: "command" }, element("code", { id: "command" }, text), button);
}

async function copyCommand() {
  const line = document.getElementById("command");
  if (!line) return;
  try {
    await navigator.clipboard.writeText(line.textContent);
  } catch (why) {
    getSelection().selectAllChildren(line);
    document.execCommand("copy");
  }
  document.getElementById("copy").textContent = "copied";
}

// The pairs of lines. A mark says which side has a line.
function pairsOf(first) {
  const shared = first.shared ? linesOf(data.base.lines.slice(0, 3 * first.shared)) : [];
  const lines = [...shared, ...linesOf(first.lines)], others = linesOf(first.others);
  let inRow = 0, inOthers = 0;
  const found = [...first.marks].map(mark => {
    const row = mark === "<" ? null : lines[inRow++];
    const there = "~|<".includes(mark) ? others[inOthers++] : mark === " " ? row : null;
    return { mark, base: there, row };
  });
  for (const [at, count] of [...(first.folds || [])].reverse()) {
    const text = `.. ${count.toLocaleString("en")} lines are left out ..`;
    found.splice(at, 0, { mark: " ", base: { text }, row: null });
  }
  return found;
}

function tableOf(pairs, heads) {
  const body = element("tbody");
  for (const { mark, base, row } of pairs) {
    const source = data.source ? [(row || base).source || ""] : [];
    const cells = [mark, base ? base.text : "", row ? row.text : "", ...source].map(text => element("td", {}, text));
    const line = element("tr", { class: STYLES[mark] || "", title: MEANING[mark], "data-step": row ? row.step : "" }, ...cells);
    if (row) line.addEventListener("mouseenter", () => moveCursor(row.step, false));
    body.append(line);
  }
  const titles = ["", ...heads, ...(data.source ? [data.source.main] : [])];
  const head = element("tr", {}, ...titles.map(text => element("th", { scope: "col" }, text)));
  return element("table", { id: "lines" }, element("thead", {}, head), body);
}

function linesTable(first) {
  return tableOf(pairsOf(first), [data.base && data.base.head || "the base run, as far as it is known", first.head]);
}

function baseTable() {
  return tableOf(linesOf(data.base.lines).map(row => ({ mark: " ", base: null, row })), ["", data.base.head || "the base run"]);
}

function sourceBeside(name, op) {
  const text = sourceOf(name, op);
  return text ? [element("span", { class: "source quiet" }, text)] : [];
}

function scripts() {
  const box = element("div", { class: "scripts scroll", id: "scripts" });
  if (!data.scripts.length) box.append(element("p", { class: "quiet" }, "scripts are shown with --application"));
  for (const [name, isTask, ops] of data.scripts) {
    box.append(element("div", {}, `${isTask ? "task" : "handler"} ${name}`));
    const lines = ops.map((op, at) => element("li", {}, element("span", {}, op), ...sourceBeside(name, at)));
    box.append(element("ol", { start: 0, "data-task": name }, ...lines));
  }
  return box;
}

function runView(run, table) {
  const found = document.createDocumentFragment();
  if (run.tooLong !== undefined) {
    const why = run.tooLong ? `${counted(run.tooLong, "line")}: too long to be drawn on this page; rtosim-report svg draws it` : "the report has heads alone";
    found.append(element("p", {}, why));
    if (!table) return found;
  }
  const box = element("div", { class: "lanes", id: "lanes", tabindex: 0 });
  found.append(element("h3", {}, run.head), ...(run.lanes ? [legend(run.lanes), box] : []));
  found.append(element("p", { class: "quiet", id: "at", role: "status" }));
  found.append(element("div", { class: "beside" }, element("div", { class: "scroll", tabindex: 0 }, table), scripts()));
  if (!run.lanes) return found;
  shownRun = new Lanes(run.lanes, detail.clientWidth);
  box.append(shownRun.svg);
  const follow = event => moveCursor(shownRun.stepAt(event.clientX - shownRun.svg.getBoundingClientRect().left), false);
  box.addEventListener("mousemove", follow);
  box.addEventListener("click", follow);
  return found;
}

function showClass(it) {
  const first = firstOf(it.index), head = pointOfHead(first.head);
  const point = state.point && state.point.found === it ? state.point : null;
  const pointText = point ? several.get(point.row) || `${point.step} ${data.handlers[point.handler]}` : head;
  const row = point ? point.row : first.row;
  const title = element("h2", { class: it.fails ? "fails" : "" }, `class ${it.number}: ${it.name}`);
  const link = element("a", { href: `#${it.link}`, id: "link" }, "link to this class");
  const counts = `${counted(it.rows, "row")}; ${it.steps} steps, ${it.ticks} ticks; ${it.handlers.join(" ")}`;
  shownRun = null;
  detail.replaceChildren(title, element("p", {}, `${it.verdict}: ${counts}. `, link));
  it.words.filter(words => words !== it.name).forEach(words => detail.append(element("p", {}, words)));
  detail.append(element("p", { class: "quiet" }, `at ${placesOf(it)}`));
  detail.append(element("p", { id: "row" }, `row ${row} at ${pointText}`, row === first.row ? "" : `; shown is the first of the class, row ${first.row} at ${head}`));
  detail.append(commandLine(commandOf(row, pointText)), runView(first, first.lines ? linesTable(first) : null));
}

function showBase() {
  shownRun = null;
  detail.replaceChildren(element("h2", {}, "the base run"), element("p", {}, data.base.words));
  if (data.command.run) detail.append(commandLine(data.command.run));
  const table = data.base.lines.length ? baseTable() : data.base.tooLong ? null : element("p", {}, "no line is known");
  detail.append(runView({ ...data.base, head: data.base.head || "" }, table));
}

// The op of each lane's task at a step.
function opsAt(run, step) {
  const found = new Map();
  for (const [lane, numbers] of run.ops) {
    let op = null;
    for (let at = 0; at < numbers.length && numbers[at] <= step; at += 3) op = numbers[at + 2];
    if (op !== null) found.set(run.names[lane][0], op);
  }
  return found;
}

function runnerAt(run, step) {
  const bar = run.bars.find(([, start, end, doing]) => doing === "runs" && start <= step && step < end);
  return bar ? run.names[bar[0]][0] : "";
}

function markScripts(run, step) {
  const ops = opsAt(run, step), runner = runnerAt(run, step);
  let current = null;
  document.querySelectorAll("#scripts ol").forEach(list => [...list.children].forEach((line, at) => {
    const isThere = ops.get(list.dataset.task) === at;
    if (!isThere) return line.removeAttribute("aria-current");
    line.setAttribute("aria-current", list.dataset.task === runner ? "step" : "true");
    if (list.dataset.task === runner) current = line;
  }));
  const op = current ? [...current.parentElement.children].indexOf(current) : 0, source = current && sourceOf(runner, op);
  const text = current ? `; ${runner} is in op ${op}, ${current.firstChild.textContent}${source ? `, line ${source}` : ""}` : "";
  document.getElementById("at").textContent = `step ${step}, tick ${(run.clock[0] + tickAt(run.clock, step)) % 2 ** 32}: ${runner || "nobody known"} runs${text}`;
  if (current) scrollWithin(document.getElementById("scripts"), current);
}

function scrollWithin(box, line) {
  const top = line.getBoundingClientRect().top - box.getBoundingClientRect().top;
  if (top < 24 || top > box.clientHeight - 24) box.scrollTop += top - box.clientHeight / 2;
}

// Moves the cursor over the lanes, the lines and the scripts. The lines are scrolled to it if that is asked for.
function moveCursor(step, brings = true) {
  if (!shownRun) return;
  state.step = Math.max(0, Math.min(shownRun.run.steps - 1, step));
  if (brings) shownRun.moveTo(state.step);
  else shownRun.cursor.setAttribute("x", shownRun.across(state.step));
  let last = null;
  document.querySelectorAll("#lines tr[data-step]").forEach(line => {
    line.classList.remove("at");
    if (line.dataset.step !== "" && Number(line.dataset.step) <= state.step) last = line;
  });
  document.querySelectorAll(`#lines tr[data-step="${state.step}"]`).forEach(line => line.classList.add("at"));
  if (last && brings) scrollWithin(last.closest(".scroll"), last);
  markScripts(shownRun.run, state.step);
}
