// The steps of each simulator, over the time of the study, in the order of the record or on a clock, and who waited for whom.
"use strict";

view.lane = 26;

/** The turns of a record in typed arrays, and by simulator the numbers of its turns. */
view.turnsOf = async function (record) {
  const turns = {};
  for (const [name, column] of Object.entries(record.turns)) turns[name] = await view.unpack(column);
  const count = turns.time.length, sizes = new Array(record.simulators.length).fill(0);
  for (let turn = 0; turn < count; turn++) sizes[turns.simulator[turn]]++;
  turns.of = sizes.map(size => new Int32Array(size));
  const filled = new Array(sizes.length).fill(0);
  for (let turn = 0; turn < count; turn++) {
    const sim = turns.simulator[turn];
    turns.of[sim][filled[sim]++] = turn;
  }
  // by simulator those of its turns that have moments
  turns.noted = turns.of.map(own => turns.begin ? own.filter(turn => turns.begin[turn] === turns.begin[turn]) : own.slice(0, 0));
  let tiers = 0;
  for (let turn = 0; turn < count; turn++) tiers = Math.max(tiers, turns.tier[turn]);
  return Object.assign(turns, {count, tiers: tiers + 1, entries: record.entries});
};

/** Builds the part of the page. */
view.steps = async function (section, record) {
  const turns = await view.turnsOf(record);
  const order = d3.range(record.simulators.length).sort((a, b) => record.simulators[a].rank - record.simulators[b].rank);
  const state = {record, turns, order, by: "time", chosen: -1, bad: []};
  if (!turns.count) {
    section.append(view.make("p", {}, "The record has no step."));
    return null;
  }
  const told = view.make("div", {class: "told"});
  section.append(view.make("p", {class: "hint", id: "steps-help"},
    "A row is a simulator, a bar is a step. Tab to the plot; ← and → go from step to step, ↑ and ↓ to another simulator, Enter to the " +
    "step that it waited for; + and − zoom, Shift with ← and → moves, 0 shows all. A click chooses a step."));
  const axis = view.make("p", {class: "soft", id: "steps-axis"}, view.stepsAxes.time);
  const choose = view.choice("Along", {time: "Time of the study", order: "Order of the record", ...(turns.begin ? {clock: "Clock"} : {})}, "time", key => {
    state.by = key;
    axis.textContent = view.stepsAxes[key];
    view.chartWhole(state.plot);
    state.plot.ask();
  });
  state.choose = choose;
  state.plot = view.plot(section, {
    label: "Steps of each simulator", help: "steps-help steps-axis", tools: choose,
    extent: () => view.stepsExtent(state),
    left: width => Math.min(width < 640 ? 120 : 200, 26 + 7 * d3.max(record.simulators, sim => sim.id.length)), height: () => order.length * view.lane + 6,
    draw: (...all) => view.stepsDraw(state, ...all), key: event => view.stepsKey(state, event),
    point: (x, y, kind) => kind === "click" && view.stepsPick(state, x, y),
  });
  state.told = told;
  section.append(axis, view.stepsLegend(), told, view.waited(state));
  view.stepsTell(state);
  return state;
};

/** What each axis shows. */
view.stepsAxes = {
  time: "The axis shows units of the study's time: at which time each step was, and not how long it took. A record has no clock, also one of a run in real time.",
  order: "The axis shows the entries of the record, in the order in which they came: from where a step was asked for to its last answer.",
  clock: "The axis shows milliseconds of the clock since the first step, as simulators noted them. A row without a bar has no notes.",
};

/** The whole axis. */
view.stepsExtent = function ({by, turns, record}) {
  if (by === "time") return [0, view.lastTime(record)];
  return [0, Math.max(1, by === "order" ? turns.entries : d3.max(turns.end))];
};

/** The turns of a simulator that have a place on the axis. */
view.stepsOf = (state, sim) => state.by === "clock" ? state.turns.noted[sim] : state.turns.of[sim];

/** The end of the axis of times: the run's end, or sooner where the record ends long before. */
view.lastTime = function (record) {
  if (record.last === undefined) {
    const times = record.turns.time.numbers;
    record.last = times && times.length ? d3.max(times) + 1 : record.until;
  }
  return Math.max(1, record.until > record.last * 1.5 ? record.last : record.until);
};

view.stepsLegend = () => view.make("ul", {class: "legend", "aria-label": "Marks"},
  ...[["step", "accent"], ["step without an answer", "bad"], ["waited for: from the message that came last before it was asked", "weak"]].map(([text, tone]) => {
    const svg = d3.create("svg").attr("viewBox", "0 0 38 10").attr("aria-hidden", "true");
    svg.append("rect").attr("x", 2).attr("width", 34).attr("y", tone === "weak" ? 4 : 0).attr("height", tone === "weak" ? 2.5 : 10).attr("fill", `var(--${tone})`);
    return view.make("li", {}, svg.node(), text);
  }));

/** From where to where a turn's bar goes. */
view.bar = function (state, turn) {
  const {turns} = state;
  if (state.by === "time") {
    const part = 0.9 / turns.tiers, start = turns.time[turn] + turns.tier[turn] * part;
    return [start, start + part * 0.92];
  }
  if (state.by === "clock") return [turns.begin[turn], turns.end[turn]];
  return [turns.asked[turn], view.isOpen(state, turn) ? turns.entries : turns.ended[turn] + 0.8];
};

/** Whether the turn isn't at its end in the record. */
view.isOpen = (state, turn) => state.turns.ended[turn] < 0 || state.open && state.open.has(turn);

view.stepsDraw = function (state, context, scale, width, height, ticks) {
  const {order, record, plot} = state, tone = {step: view.tone("accent"), bad: view.tone("bad")};
  context.strokeStyle = view.tone("grid");
  context.lineWidth = 1;
  context.beginPath();
  for (const tick of ticks) { context.moveTo(scale(tick) + 0.5, 0); context.lineTo(scale(tick) + 0.5, height); }
  order.forEach((_, row) => { context.moveTo(plot.left, (row + 1) * view.lane + 0.5); context.lineTo(width, (row + 1) * view.lane + 0.5); });
  context.stroke();
  let seen = 0;
  order.forEach((sim, row) => { seen += view.laneDraw(state, context, scale, width, view.stepsOf(state, sim), row, tone); });
  // arcs are drawn where there is room for them
  if (seen * 30 <= (width - plot.left) * order.length && seen <= 400) view.waitsDraw(state, context, scale);
  view.chosenDraw(state, context, scale);
  view.chartMargin(context, plot, height);
  order.forEach((sim, row) => {
    context.fillStyle = state.bad.includes(sim) ? tone.bad : view.tone("ink");
    context.textBaseline = "middle";
    context.fillText(view.fitted(context, record.simulators[sim].id, plot.left - 16), 8, row * view.lane + view.lane / 2);
  });
};

/** Draws the bars of a simulator that are seen, at most one a column of pixels; gives how many turns are seen. */
view.laneDraw = function (state, context, scale, width, own, row, tone) {
  const from = scale.invert(state.plot.left), to = scale.invert(width);
  let place = view.laneFirst(state, own, from), drawn = -1;
  const start = place, y = row * view.lane + 5;
  while (place < own.length) {
    const [a, b] = view.bar(state, own[place]);
    if (a > to) break;
    const x = scale(a), wide = Math.max(1.5, scale(b) - x);
    if (x + wide > drawn + 0.5) {
      context.fillStyle = view.isOpen(state, own[place]) ? tone.bad : tone.step;
      context.fillRect(Math.max(x, drawn), y, Math.max(1, x + wide - Math.max(x, drawn)), view.lane - 10);
      drawn = x + wide + (wide > 4 ? 0.5 : 0);
    }
    place = wide > 1.5 ? place + 1 : Math.max(place + 1, view.laneFirst(state, own, scale.invert(Math.floor(x) + 1)));
  }
  return place - start;
};

/** The first of a simulator's turns whose bar doesn't end before the value. */
view.laneFirst = function (state, own, value) {
  let low = 0, high = own.length;
  while (low < high) {
    const middle = (low + high) >> 1;
    if (view.bar(state, own[middle])[1] < value) low = middle + 1; else high = middle;
  }
  return low;
};

/** An arc from the turn that was waited for to the one that waited. */
view.waitDraw = function (state, context, scale, turn, wide) {
  const {turns, order} = state, before = turns.after[turn];
  if (before < 0) return;
  const rows = [before, turn].map(one => order.indexOf(turns.simulator[one]) * view.lane + view.lane / 2);
  const from = scale(state.by === "order" ? turns.asked[turn] - 0.2 : view.bar(state, before)[1]), to = scale(view.bar(state, turn)[0]);
  if (!(from === from && to === to)) return;
  const bend = Math.max(8, Math.min(40, Math.abs(rows[1] - rows[0]) / 3));
  context.lineWidth = wide;
  context.beginPath();
  context.moveTo(from, rows[0]);
  context.bezierCurveTo(from + bend, rows[0], to - bend, rows[1], to, rows[1]);
  context.stroke();
  context.beginPath();
  context.moveTo(to + 1, rows[1]);
  context.lineTo(to - 6, rows[1] - 3.5);
  context.lineTo(to - 6, rows[1] + 3.5);
  context.fill();
};

view.waitsDraw = function (state, context, scale) {
  const {turns, plot} = state, from = scale.invert(plot.left), to = scale.invert(plot.width);
  context.strokeStyle = context.fillStyle = view.tone("weak");
  context.globalAlpha = 0.75;
  for (const sim of state.order) {
    const own = view.stepsOf(state, sim);
    for (let place = view.laneFirst(state, own, from); place < own.length && view.bar(state, own[place])[0] <= to; place++) {
      if (turns.after[own[place]] >= 0 && turns.simulator[turns.after[own[place]]] !== turns.simulator[own[place]]) view.waitDraw(state, context, scale, own[place], 1.2);
    }
  }
  context.globalAlpha = 1;
};

view.isNoted = ({turns}, turn) => Boolean(turns.begin) && turns.begin[turn] === turns.begin[turn];

view.chosenDraw = function (state, context, scale) {
  if (state.chosen < 0 || state.by === "clock" && !view.isNoted(state, state.chosen)) return;
  const {turns, order} = state, row = order.indexOf(turns.simulator[state.chosen]), [a, b] = view.bar(state, state.chosen).map(scale);
  context.strokeStyle = context.fillStyle = view.tone("weak");
  view.waitDraw(state, context, scale, state.chosen, 2.4);
  context.strokeStyle = view.tone("ink");
  context.lineWidth = 2;
  context.strokeRect(a - 2, row * view.lane + 3, Math.max(4, b - a + 4), view.lane - 6);
};

/** Chooses the step that is nearest to the point. */
view.stepsPick = function (state, x, y) {
  const sim = state.order[Math.floor(y / view.lane)], own = sim === undefined ? [] : view.stepsOf(state, sim);
  if (!own.length) return;
  const value = state.plot.scale.invert(x), next = Math.min(own.length - 1, view.laneFirst(state, own, value));
  const gap = place => Math.min(...view.bar(state, own[place]).map(end => Math.abs(end - value)));
  const [a] = view.bar(state, own[next]);
  view.stepsChoose(state, own[a > value && next > 0 && gap(next - 1) < gap(next) ? next - 1 : next]);
};

view.stepsChoose = function (state, turn) {
  state.chosen = turn;
  if (state.by !== "clock" || view.isNoted(state, turn)) view.chartShow(state.plot, view.bar(state, turn)[0]);
  const row = state.order.indexOf(state.turns.simulator[turn]), lanes = state.plot.canvas.parentElement, top = row * view.lane;
  if (top < lanes.scrollTop) lanes.scrollTop = top;
  else if (top + view.lane > lanes.scrollTop + lanes.clientHeight) lanes.scrollTop = top + view.lane - lanes.clientHeight + 8;
  state.plot.ask();
  view.stepsTell(state);
};

/** Tells of the step that is chosen. */
view.stepsTell = function (state) {
  const {turns, record, chosen} = state;
  if (chosen < 0) {
    state.told.replaceChildren(view.make("span", {class: "soft"}, `${view.plural(turns.count, "step")}. Choose one to read who it waited for.`));
    return;
  }
  const line = place => view.whole(record.first_line + place), parts = [`asked at line ${line(turns.asked[chosen])} of the record`, view.waitText(state, chosen)];
  parts.push(`may not be triggered by others up to ${view.whole(turns.advance[chosen])} (max_advance)`);
  if (turns.requests[chosen]) parts.push(`sent ${view.plural(turns.requests[chosen], "request")}`);
  if (turns.replied[chosen] < 0) parts.push("gave no answer");
  else parts.push(`answered at line ${line(turns.replied[chosen])}: ${turns.next[chosen] < 0 ? "no next step" : "next step at " + view.whole(turns.next[chosen])}`);
  if (turns.ended[chosen] > turns.replied[chosen] && turns.replied[chosen] >= 0) parts.push(`gave its outputs at line ${line(turns.ended[chosen])}`);
  if (view.isNoted(state, chosen)) {
    parts.push(`began ${view.milliseconds(turns.begin[chosen])} after the first step and took ${view.milliseconds(turns.end[chosen] - turns.begin[chosen])}`);
  } else if (turns.begin) parts.push("no moments were noted");
  const name = `${view.stepName(state, chosen)}: `;
  state.told.replaceChildren(view.make("strong", {}, name), parts.join("; ") + ".");
  view.say(name + parts.join("; "));
};

view.milliseconds = value => `${d3.format(value < 10 ? ",.3f" : ",.1f")(value)} ms`;

view.stepName = ({record, turns}, turn) => `${record.simulators[turns.simulator[turn]].id}, step ${view.whole(turns.time[turn])}:${turns.tier[turn]}`;

view.waitText = function (state, turn) {
  const before = state.turns.after[turn];
  if (before < 0) return "at the beginning, it waited for no simulator";
  const own = state.turns.simulator[before] === state.turns.simulator[turn];
  return own ? "after its own step before" : `it waited for ${view.stepName(state, before)}`;
};

view.stepsKey = function (state, event) {
  const {turns, order} = state, {key} = event;
  if (!["ArrowLeft", "ArrowRight", "ArrowUp", "ArrowDown", "Enter"].includes(key)) return false;
  if (state.chosen < 0) {
    view.stepsChoose(state, turns.of[order.find(sim => turns.of[sim].length)][0]);
    return true;
  }
  const sim = turns.simulator[state.chosen], own = turns.of[sim], place = view.reach(own, state.chosen);
  if (key === "Enter") {
    if (turns.after[state.chosen] >= 0) view.stepsChoose(state, turns.after[state.chosen]);
  } else if (key === "ArrowLeft" || key === "ArrowRight") {
    view.stepsChoose(state, own[Math.max(0, Math.min(own.length - 1, place + (key === "ArrowLeft" ? -1 : 1)))]);
  } else {
    view.stepsLane(state, order.indexOf(sim), key === "ArrowUp" ? -1 : 1);
  }
  return true;
};

/** Goes to the next simulator above or below that has a step, to its step at the same place of the axis. */
view.stepsLane = function (state, row, by) {
  const {order} = state, value = view.bar(state, state.chosen)[0];
  for (let other = row + by; other >= 0 && other < order.length; other += by) {
    const own = view.stepsOf(state, order[other]);
    if (own.length) {
      view.stepsChoose(state, own[Math.min(own.length - 1, view.laneFirst(state, own, value))]);
      return;
    }
  }
};

/** A table: after whose message each simulator was asked for its steps. */
view.waited = function (state) {
  const {turns, record, order} = state, counts = record.simulators.map(() => new Map());
  for (let turn = 0; turn < turns.count; turn++) {
    const before = turns.after[turn], sim = turns.simulator[turn], whom = before < 0 ? -1 : turns.simulator[before];
    counts[sim].set(whom, (counts[sim].get(whom) || 0) + 1);
  }
  const name = (sim, whom) => whom < 0 ? "no simulator" : whom === sim ? "its own step before" : record.simulators[whom].id;
  const rows = order.filter(sim => turns.of[sim].length).map(sim => {
    const most = [...counts[sim]].sort((a, b) => b[1] - a[1]);
    const text = most.slice(0, 6).map(([whom, count]) => `${name(sim, whom)} ${view.whole(count)}×`).join(", ") + (most.length > 6 ? `, and ${most.length - 6} others` : "");
    return view.make("tr", {}, view.make("td", {}, record.simulators[sim].id), view.make("td", {class: "number"}, view.whole(turns.of[sim].length)), view.make("td", {}, text));
  });
  const head = view.make("tr", {}, view.make("th", {scope: "col"}, "simulator"), view.make("th", {scope: "col", class: "number"}, "steps"), view.make("th", {scope: "col"}, "waited for"));
  return view.make("details", {open: rows.length <= 12}, view.make("summary", {}, "Who waited for whom"),
    view.make("div", {class: "scroll"}, view.make("table", {}, view.make("thead", {}, head), view.make("tbody", {}, ...rows))));
};
