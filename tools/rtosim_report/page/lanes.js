// A run's lanes as a drawing, with the cursor over them.

const BAR = 14, LABEL = 14, LANE_GAP = 12, VARIABLE_ROW = 22, PLOT_TOP = 22, WIDEST = 54, NARROWEST = 6, MOST_WIDE = 60000;
const DOING = { runs: "runs", waits: "waits", sleeps: "sleeps", suspended: "is suspended", ready: "is Ready", pending: "is pending" };
// For each kind of window: how far below the bar it is, and what it means.
const WINDOWS = { locked: [1, "the queue is locked"], held: [5, "the scheduler is held"], masked: [1, "interrupts are masked"],
  armed: [1, "the interrupt is armed"], raised: [5, "the interrupt is raised"] };
const LEGEND = [["runs", "runs"], ["waits", "waits in a call"], ["sleeps", "sleeps"], ["suspended", "suspended"], ["ready", "Ready"],
  ["ended", "ended"], ["idle", "idle runs"], ["locked", "queue locked"], ["held", "scheduler held"], ["masked", "interrupts masked"],
  ["pending", "pending"], ["armed", "armed"], ["raised", "raised"], ["mark-injected", "injected"]];
// Kinds of windows that are in the legend only if the run has them.
const SELDOM = ["armed", "raised"];

// The elapsed ticks at a boundary: those that are known, spread evenly between known ones.
function tickAt([, boundaries, ticks], boundary) {
  let at = boundaries.length - 1;
  while (at > 0 && boundaries[at] > boundary) at -= 1;
  if (at + 1 === boundaries.length) return ticks[at];
  const share = (boundary - boundaries[at]) / (boundaries[at + 1] - boundaries[at]);
  return Math.floor(ticks[at] + (ticks[at + 1] - ticks[at]) * share);
}

class Lanes {
  constructor(run, width) {
    this.run = run;
    this.left = 22 + CHARACTER * Math.max(8, ...[...run.names, ...run.variables].map(([name]) => name.length));
    const plot = Math.max(300, width - this.left - 60);
    this.stepWidth = Math.min(WIDEST, Math.max(plot / Math.max(1, run.steps), Math.min(NARROWEST, MOST_WIDE / Math.max(1, run.steps))));
    this.tops = [];
    let top = PLOT_TOP;
    for (const [, kind] of run.names) {
      this.tops.push(top + (kind === "idle" ? 0 : 2 * LABEL));
      top += (kind === "idle" ? 0 : 2 * LABEL) + BAR + LANE_GAP;
    }
    this.variablesTop = top;
    top += VARIABLE_ROW * run.variables.length;
    this.bottom = top;
    this.width = this.left + run.steps * this.stepWidth + 36;
    // Where texts end at the latest, if they can: within the box, or where the run ends that is wider. How far to the right they go.
    this.limit = Math.max(width - 16, this.width - 12);
    this.needed = 0;
    this.svg = shape("svg", { width: this.width, height: top + 40, role: "img", "aria-label": "lanes of the run" });
    this.draw();
    this.svg.setAttribute("width", Math.max(this.width, this.needed + 12));
  }

  across(boundary) {
    return this.left + boundary * this.stepWidth;
  }

  stepAt(x) {
    return Math.max(0, Math.min(this.run.steps - 1, Math.floor((x - this.left) / this.stepWidth)));
  }

  draw() {
    this.run.names.forEach(([name], lane) => this.drawGround(name, lane));
    this.drawAxis();
    this.cursor = shape("rect", { class: "cursor", y: PLOT_TOP - 6, height: this.bottom - PLOT_TOP + 8, width: this.stepWidth, x: this.left });
    this.svg.append(this.cursor);
    this.run.bars.forEach(it => this.drawBar(...it));
    this.run.windows.forEach(it => this.drawWindow(...it));
    this.run.endings.forEach(([lane, at]) => this.svg.append(shape(
      "rect", { class: "ended", x: this.across(at), y: this.tops[lane], width: 4, height: BAR }, null, `${this.run.names[lane][0]} has ended`)));
    this.run.names.forEach((_, lane) => this.drawNotes(this.run.notes.filter(it => it[0] === lane), lane));
    this.run.variables.forEach(([name, values], row) => this.drawVariable(name, values, this.variablesTop + VARIABLE_ROW * row));
    this.drawInjections();
  }

  // A row for a variable: a box for each of its values, from one store to the next.
  drawVariable(name, values, top) {
    this.svg.append(shape("text", { x: 8, y: top + BAR - 3 }, name));
    for (let at = 0; at < values.length; at += 3) {
      const [start, end, value] = values.slice(at, at + 3), width = Math.max(0.75, (end - start) * this.stepWidth), text = String(value);
      this.svg.append(shape("rect", { class: "value", x: this.across(start), y: top, width, height: BAR }, null, `${name} = ${text}: from step ${start} on`));
      if ((text.length + 1) * CHARACTER > width) continue;
      this.svg.append(shape("text", { x: this.across((start + end) / 2), y: top + BAR - 3, "text-anchor": "middle" }, text));
    }
  }

  drawGround(name, lane) {
    const rows = this.run.names[lane][1] === "idle" ? 0 : 2 * LABEL;
    const top = this.tops[lane] - rows - LANE_GAP / 2;
    if (lane % 2 === 0) this.svg.append(shape("rect", { class: "stripe", x: 0, y: top, width: "100%", height: rows + BAR + LANE_GAP }));
    this.svg.append(shape("text", { x: 8, y: this.tops[lane] + BAR - 3 }, name));
  }

  drawAxis() {
    const { steps, clock } = this.run;
    const widest = Math.max(steps.toLocaleString("en").length, (clock[0] + tickAt(clock, steps)).toLocaleString("en").length);
    const interval = niceInterval((widest + 2) * CHARACTER / this.stepWidth);
    this.svg.append(shape("text", { class: "quiet", x: 8, y: this.bottom + 14 }, "step"));
    this.svg.append(shape("text", { class: "quiet", x: 8, y: this.bottom + 28 }, "tick"));
    for (let step = 0; step <= steps; step += interval) {
      const at = this.across(step), tick = (clock[0] + tickAt(clock, step)) % 2 ** 32;
      this.svg.append(shape("line", { class: "rule", x1: at, x2: at, y1: PLOT_TOP - 6, y2: this.bottom + 2 }));
      for (const [value, below] of [[step, 14], [tick, 28]]) {
        const text = value.toLocaleString("en");
        this.needed = Math.max(this.needed, at + text.length * CHARACTER / 2);
        this.svg.append(shape("text", { class: "quiet", x: at, y: this.bottom + below, "text-anchor": "middle" }, text));
      }
    }
  }

  drawBar(lane, start, end, doing, call) {
    const [name, kind] = this.run.names[lane];
    const style = kind === "idle" ? "idle" : doing, isReady = doing === "ready";
    const what = call ? `waits: ${call}` : DOING[doing];
    const width = Math.max(0.75, (end - start) * this.stepWidth);
    const box = { class: style, x: this.across(start), y: this.tops[lane] + 5 * isReady, width, height: isReady ? 4 : BAR };
    this.svg.append(shape("rect", box, null, `${name} ${what}: steps ${start} to ${end - 1}`));
    if (doing === "runs" || isReady || what.length * CHARACTER + 6 > width) return;
    const text = { x: this.across((start + end) / 2), y: this.tops[lane] + BAR - 3, "text-anchor": "middle", "data-ground": style };
    this.svg.append(shape("text", text, what));
  }

  drawWindow(lane, start, end, kind) {
    const [below, what] = WINDOWS[kind];
    const box = { class: kind, x: this.across(start), y: this.tops[lane] + BAR + below, width: (end - start) * this.stepWidth, height: 3 };
    this.svg.append(shape("rect", box, null, `${what}: steps ${start} to ${end - 1}`));
  }

  // A mark at each step, and what is reported above it. A text without room is counted after one beside it. The last one of a lane, which
  // may be the answer that fails, is always shown.
  drawNotes(notes, lane) {
    const rows = [[], []], top = this.tops[lane];
    const groups = new Map();
    for (const [, step, isInjected, text] of notes) {
      const key = `${step} ${isInjected}`;
      groups.set(key, [...(groups.get(key) || []), data.texts[text]]);
    }
    const lastKey = [...groups.keys()].pop();
    for (const [key, texts] of groups) {
      const [step, isInjected] = key.split(" ").map(Number), told = texts.join(", ");
      const at = this.across(step + (isInjected ? 0 : 0.5));
      this.svg.append(shape("line", { class: "note", x1: at, x2: at, y1: top - 3, y2: top + BAR }, null, `${told}; ${isInjected ? "before " : ""}step ${step}`));
      const left = Math.min(at + (isInjected ? 5 : -2), this.limit - `${told} +99`.length * CHARACTER);
      const isBefore = row => row.length > 0 && left < row[row.length - 1].end + 6;
      const free = key === lastKey ? this.cleared(rows, isBefore) : rows.find(row => !isBefore(row));
      if (free) {
        const folded = free.gone || 0, shown = told + (folded ? ` +${folded}` : "");
        free.push({ left, told, isInjected, folded, end: left + shown.length * CHARACTER });
      } else {
        const last = rows.map(row => row[row.length - 1]).sort((one, other) => one.end - other.end)[0];
        last.folded += 1;
        last.end = last.left + `${last.told} +${last.folded}`.length * CHARACTER;
      }
    }
    this.needed = Math.max(this.needed, ...rows.map(row => (row.length ? row[row.length - 1].end : 0)));
    rows.forEach((row, index) => row.forEach(it => this.svg.append(shape(
      "text", { class: it.isInjected ? "injected" : "", x: it.left, y: top - 5 - index * LABEL }, it.told + (it.folded ? ` +${it.folded}` : "")))));
  }

  // The row from which the fewest texts go, so that another one has room there; and how many are gone.
  cleared(rows, isBefore) {
    const left = rows.map(row => row.slice());
    left.forEach(row => {
      while (isBefore(row)) row.pop();
    });
    const index = rows[0].length - left[0].length <= rows[1].length - left[1].length ? 0 : 1;
    const gone = rows[index].splice(left[index].length);
    rows[index].gone = gone.reduce((sum, it) => sum + 1 + it.folded, 0);
    return rows[index];
  }

  drawInjections() {
    let free = -Infinity;
    for (const [step, handler] of this.run.injections) {
      const at = this.across(step), text = `${handler} before step ${step}`;
      this.svg.append(shape("line", { class: "injection", x1: at, x2: at, y1: 0, y2: this.bottom + 2 }, null, text));
      const left = Math.max(Math.min(at + 5, this.limit - text.length * CHARACTER), free);
      this.needed = Math.max(this.needed, left + text.length * CHARACTER);
      this.svg.append(shape("text", { class: "injected", x: left, y: 12 }, text));
      free = left + text.length * CHARACTER + 12;
    }
  }

  // Moves the cursor, and the lanes so that it is visible.
  moveTo(step) {
    this.cursor.setAttribute("x", this.across(step));
    const box = this.svg.parentElement;
    if (!box) return;
    const at = this.across(step);
    if (at < box.scrollLeft + this.left || at + this.stepWidth > box.scrollLeft + box.clientWidth) {
      box.scrollLeft = at - box.clientWidth / 2;
    }
  }
}

function legend(run) {
  const there = new Set(run.windows.map(([, , , kind]) => kind));
  return element("div", { class: "legend quiet" }, ...LEGEND.filter(([style]) => !SELDOM.includes(style) || there.has(style)).map(([style, text]) => {
    const sign = shape("svg", { viewBox: "0 0 11 11", "aria-hidden": "true" });
    sign.append(shape("rect", { class: style, width: style === "ended" ? 4 : 11, height: style === "ready" ? 4 : 11, y: style === "ready" ? 4 : 0 }));
    return element("span", {}, sign, text);
  }));
}
