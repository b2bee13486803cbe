// What the page shows: the data, the classes in their order, the points of each handler, and what is chosen.

const data = JSON.parse(document.getElementById("data").textContent);
const STRETCH = 5;
const byIndex = new Map(data.classes.map(it => [it.index, it]));
const several = new Map(data.several.map(([row, point]) => [row, point]));

// The stretches of points of each handler. A stretch has its first row, its first step, the class, and the number of its rows.
const pointsOf = data.handlers.map(() => []);
let lastStep = 0;
for (let at = 0; at < data.points.length; at += STRETCH) {
  const [row, step, handler, index, count] = data.points.slice(at, at + STRETCH);
  pointsOf[handler].push({ row, step, count, found: byIndex.get(index) });
  lastStep = Math.max(lastStep, step + count - 1);
}

// For each handler and step the index of a stretch: the one whose class comes first; -1 if there is none.
const stretchAt = pointsOf.map(stretches => {
  const found = new Int32Array(lastStep + 1).fill(-1);
  stretches.forEach((it, at) => {
    for (let step = it.step; step < it.step + it.count; step += 1) {
      if (found[step] < 0 || it.found.number < stretches[found[step]].found.number) found[step] = at;
    }
  });
  return found;
});

// The first row of a class. It is parsed when it is first looked at.
const readFirsts = new Map();
function firstOf(index) {
  if (!readFirsts.has(index)) readFirsts.set(index, JSON.parse(document.getElementById(`first-${index}`).textContent));
  return readFirsts.get(index);
}

const state = { found: null, point: null, step: 0, failing: false, handler: "", words: "" };

function counted(number, noun) {
  return `${number.toLocaleString("en")} ${noun}${number === 1 ? "" : noun.endsWith("ss") ? "es" : "s"}`;
}

// Whether a class passes the filter.
function isShown(it) {
  if (state.failing && !it.fails) return false;
  if (state.handler && !it.handlers.includes(state.handler)) return false;
  const text = [it.name, it.verdict, ...it.words].join("\n").toLowerCase();
  return state.words.toLowerCase().split(/\s+/).every(word => text.includes(word));
}

// The row of a handler's point, or null. If there are several, it is one of the class that comes first.
function pointAt(handler, step) {
  const at = step >= 0 && step <= lastStep ? stretchAt[handler][step] : -1;
  if (at < 0) return null;
  const it = pointsOf[handler][at];
  return { handler, step, row: it.row + step - it.step, found: it.found };
}

// The command that shows a row. For several injections that no command takes, it is the entry for a campaign.
function commandOf(row, pointText) {
  const words = pointText.split(" ");
  if (words.length > 2) return data.command.takesPoints ? `${data.command.run} --point '${pointText}'` : `points = ["${pointText}"]`;
  const at = `--at ${words[0]} --handler ${words[1]}`;
  if (data.command.run) return `${data.command.run} ${at}`;
  return data.command.show ? `rtosim-report show ${row} ${data.command.show}${data.command.base}` : at;
}

// The point of a class's first row, as in its head line.
function pointOfHead(head) {
  const found = /^row \d+ at (.*?): /.exec(head);
  return found ? found[1] : "";
}

// The lines of a run, as an object each.
function linesOf(numbers) {
  const found = [];
  for (let at = 0; at < numbers.length; at += 3) {
    const [step, tick, text] = numbers.slice(at, at + 3);
    found.push({ step, text: `${step} ${tick} ${data.texts[text]}`, source: sourceOfEvent(data.texts[text]) });
  }
  return found;
}

// The line of C of an op, if a map has it.
function sourceOf(name, op) {
  const lines = data.source && data.source.lines[name];
  return lines && lines[op] || "";
}

function sourceOfEvent(text) {
  const [kind, name, op] = text.split(" ");
  return kind === "call" || kind === "isr" ? sourceOf(name, Number(op)) : "";
}

function element(name, attributes = {}, ...children) {
  const found = document.createElement(name);
  for (const [key, value] of Object.entries(attributes)) {
    if (value !== null && value !== undefined) found.setAttribute(key, value);
  }
  found.append(...children);
  return found;
}

function shape(name, attributes = {}, text = null, title = null) {
  const found = document.createElementNS("http://www.w3.org/2000/svg", name);
  for (const [key, value] of Object.entries(attributes)) found.setAttribute(key, value);
  if (text !== null) found.textContent = text;
  if (title !== null) found.append(shape("title", {}, title));
  return found;
}
