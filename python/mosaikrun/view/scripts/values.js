// The values of attributes over time: chosen by name, thinned by least and greatest a column of pixels.
"use strict";

view.mostShown = 200;
view.mostFound = 100;

/** All attributes that have values: each with its series in the first record, and in the second. */
view.itemsOf = function (records) {
  const items = new Map();
  records.forEach((record, place) => {
    for (const group of record.samples) {
      for (const series of group.series) {
        const key = `${series.entity}.${series.attribute}`;
        if (!items.has(key)) items.set(key, {key, name: key, simulator: group.simulator, attribute: series.attribute, holds: series.holds, parts: []});
        items.get(key).parts[place] = {group, series};
      }
    }
  });
  return [...items.values()];
};

/** By input of an entity the attributes that connections bring there. */
view.inputsOf = function (record, items) {
  const known = new Map(items.map(item => [item.key, item])), inputs = new Map();
  const id = entity => `${record.simulators[record.entities[entity][0]].id}.${record.entities[entity][2]}`;
  for (const [from, output, to, input] of record.connections) {
    const item = known.get(`${id(from)}.${output}`), key = `${id(to)}.${input}`;
    if (item) inputs.set(key, [...(inputs.get(key) || []), item]);
  }
  return [...inputs].map(([key, sources]) => ({key: "input " + key, name: key, sources}));
};

/** The places on the axis of a group of samples. */
view.placesOf = async function (group, tiers) {
  if (!group.places) {
    const times = await view.unpack(group.times), tier = await view.unpack(group.tiers), part = 0.9 / tiers;
    group.places = Float64Array.from(times, (time, sample) => time + tier[sample] * part);
  }
  return group.places;
};

/** Unpacks an attribute's series: the places on the axis, the values, their least and greatest, and texts if it has any. */
view.load = async function (item, tiers) {
  await Promise.all(item.parts.map(async part => {
    if (!part || part.xs) return;
    const places = await view.placesOf(part.group, tiers), {series} = part;
    const values = await view.unpack(series.values), samples = series.samples && await view.unpack(series.samples);
    const xs = samples ? Float64Array.from(samples, sample => places[sample]) : places.subarray(series.first, series.first + values.length);
    Object.assign(part, view.sorted(xs, values), {texts: series.texts});
    [part.least, part.greatest] = d3.extent(part.ys);
  }));
  item.texts = item.parts.find(part => part && part.texts);
  item.differs = view.difference(item);
  return item;
};

/** The values in the order of their places: one that was given for a later time may come before others. */
view.sorted = function (xs, ys) {
  for (let i = 1; i < xs.length; i++) {
    if (xs[i] < xs[i - 1]) {
      const order = d3.range(xs.length).sort((a, b) => xs[a] - xs[b] || a - b);
      return {xs: Float64Array.from(order, i => xs[i]), ys: ys.map((_, i) => ys[order[i]])};
    }
  }
  return {xs, ys};
};

/** Where the two records first have other values, or null. */
view.difference = function ({parts}) {
  if (parts.length < 2 || !parts[0] || !parts[1]) return null;
  const [a, b] = parts, value = (part, i) => part.texts ? part.texts[part.ys[i]] : part.ys[i];
  for (let i = 0; i < Math.max(a.xs.length, b.xs.length); i++) {
    if (i >= a.xs.length || i >= b.xs.length) return Math.min(a.xs[i] ?? Infinity, b.xs[i] ?? Infinity);
    if (a.xs[i] !== b.xs[i] || value(a, i) !== value(b, i)) return Math.min(a.xs[i], b.xs[i]);
  }
  return null;
};

/** Builds the part of the page. */
view.values = async function (section, records, blame) {
  const items = view.itemsOf(records);
  if (!items.length) {
    section.append(view.make("p", {}, "The record has no value that a connection takes."));
    return null;
  }
  const tiers = 1 + Math.max(0, ...await Promise.all(records.map(async record => d3.max(await view.unpack(record.turns.tier)) || 0)));
  const state = {records, items, inputs: view.inputsOf(records[0], items), tiers, chosen: [], cursor: null, layout: "apart"};
  section.append(view.make("p", {class: "hint", id: "values-help"},
    "Find attributes by a part of their name and tick them. In the plot ← and → go from value to value; + and − zoom, Shift with ← and → moves, 0 shows all." +
    (records.length > 1 ? ` Lines are of ${records[0].name}, dashed ones of ${records[1].name}.` : "")));
  const finder = view.finder(state), right = view.make("div");
  section.append(view.make("div", {class: "finder"}, finder, right));
  state.arrange = view.choice("Lines", {apart: "Apart", together: "Together"}, "apart", key => { state.layout = key; state.plot.ask(); });
  state.plot = view.plot(right, {
    label: "Values over time", help: "values-help", tools: state.arrange,
    extent: () => [0, Math.max(...records.map(view.lastTime))], left: width => width < 640 ? 62 : 86,
    height: () => d3.sum(view.panels(state), panel => panel.height) + 4,
    draw: (...all) => view.valuesDraw(state, ...all), over: (...all) => view.cursorDraw(state, ...all),
    key: event => view.valuesKey(state, event), point: x => view.cursorSet(state, state.plot.scale.invert(x), false),
  });
  state.list = view.make("div", {class: "chosen-list scroll"});
  right.append(state.list);
  await view.chooseFirst(state, blame);
  return state;
};

/** What is shown at first: of each simulator and attribute one, or what differs in two records. */
view.chooseFirst = async function (state, blame) {
  let first = [];
  if (blame && !blame.equal) {
    const own = state.items.filter(item => blame.blamed.some(one => one.simulator === item.simulator));
    await Promise.all(own.slice(0, 400).map(item => view.load(item, state.tiers)));
    first = own.filter(item => item.differs !== null).slice(0, 4);
  }
  if (!first.length) {
    const kinds = new Map(state.items.map(item => [`${item.simulator} ${item.attribute}`, item]).reverse());
    first = state.items.filter(item => [...kinds.values()].includes(item)).slice(0, 6);
  }
  await view.choose(state, first);
};

/** Shows exactly these attributes. */
view.choose = async function (state, items) {
  await Promise.all(items.slice(0, view.mostShown).map(item => view.load(item, state.tiers)));
  const numbers = new Set(state.chosen.filter(item => items.includes(item)).map(item => item.number));
  let next = 0;
  for (const item of items) {
    if (state.chosen.includes(item)) continue;
    while (numbers.has(next)) next++;
    item.number = next;
    numbers.add(next);
  }
  const were = state.chosen.length;
  state.chosen = items.slice(0, view.mostShown);
  if (were <= 8 && state.chosen.length > 8) state.arrange.press("together");
  view.listDraw(state);
  state.find();
  state.plot.ask();
};

/** The search box, and what it found. */
view.finder = function (state) {
  const found = view.make("div", {class: "found", role: "group", "aria-label": "Attributes that were found"});
  const count = view.make("p", {class: "soft", "aria-live": "polite"});
  const input = view.make("input", {type: "search", id: "find", placeholder: "as House soc", autocomplete: "off", spellcheck: "false", on: {input: () => state.find()}});
  const matching = () => {
    const words = input.value.toLowerCase().split(/\s+/).filter(Boolean);
    return [...state.items, ...state.inputs].filter(item => words.every(word => item.name.toLowerCase().includes(word)));
  };
  state.find = () => {
    const all = matching(), focused = found.contains(document.activeElement) ? document.activeElement.dataset.key : null;
    found.replaceChildren(...all.slice(0, view.mostFound).map(item => view.foundLine(state, item)));
    if (focused) [...found.querySelectorAll("input")].find(box => box.dataset.key === focused)?.focus();
    count.textContent = `${view.whole(all.length)} found` + (all.length > view.mostFound ? `, the first ${view.mostFound} are listed` : "") + `; ${view.whole(state.chosen.length)} shown.`;
  };
  const showAll = () => view.choose(state, [...new Set([...state.chosen, ...matching().filter(item => item.parts)])]);
  return view.make("div", {}, view.make("label", {for: "find"}, "Find an attribute"), input, found, count, view.make("div", {class: "tools"},
    view.button("Show all found", `Show all that were found, up to ${view.mostShown}`, showAll), view.button("Hide all", "Hide all attributes", () => view.choose(state, []))));
};

/** A line of what was found, with its box to tick; an input stands for all that is connected to it. */
view.foundLine = function (state, item) {
  const own = item.parts ? [item] : item.sources, shown = own.every(one => state.chosen.includes(one));
  const tick = () => view.choose(state, shown ? state.chosen.filter(one => !own.includes(one)) : [...new Set([...state.chosen, ...own])]);
  const box = view.make("input", {type: "checkbox", "data-key": item.key, on: {change: tick}});
  box.checked = shown;
  const about = item.parts ? (item.parts.length > 1 && item.differs ? "differs" : "") : `input of ${view.whole(own.length)}`;
  return view.make("label", {}, box, view.make("span", {}, item.name), view.make("span", {class: "soft"}, about));
};

/** The panels of the plot, from above, each with its attributes and its height. */
view.panels = function (state) {
  const numeric = state.chosen.filter(item => !item.texts), texts = state.chosen.filter(item => item.texts);
  const one = item => ({items: [item], height: item.texts ? Math.min(160, 46 + 16 * item.texts.texts.length) : Math.max(64, Math.min(130, 520 / state.chosen.length))});
  if (state.layout === "apart") return state.chosen.map(one);
  const panels = [...(numeric.length ? [{items: numeric, height: 340}] : []), ...texts.map(one)];
  return panels;
};

view.valuesDraw = function (state, context, scale, width, height, ticks) {
  let top = 0;
  state.sheet = view.sheet(state, height);
  for (const panel of view.panels(state)) {
    const titled = state.layout === "apart" || panel.items.length === 1;
    const parts = panel.items.flatMap(item => item.parts.filter(Boolean));
    const least = d3.min(parts, part => part.least) ?? 0, greatest = d3.max(parts, part => part.greatest) ?? 1;
    const bottom = top + panel.height - 6, upper = top + (titled ? 21 : 9);
    const y = d3.scaleLinear().domain(least === greatest ? [least - 1, greatest + 1] : [least, greatest]).range([bottom - 3, upper]);
    context.save();
    context.beginPath();
    context.rect(state.plot.left, top, width - state.plot.left, panel.height);
    context.clip();
    view.panelGrid(state, context, scale, y, top, panel, width, ticks);
    for (const item of panel.items) item.parts.forEach((part, second) => part && view.lineDraw(state, context, scale, y, item, part, second));
    context.restore();
    view.panelNames(state, context, y, top, panel, titled, width);
    top += panel.height;
  }
  view.sheetShow(state, context);
};

view.panelTicks = (panel, y) => panel.items[0].texts ? d3.range(panel.items[0].texts.texts.length).slice(0, 8) : y.ticks(panel.height > 200 ? 7 : 3).filter(Number.isInteger);

view.panelGrid = function (state, context, scale, y, top, panel, width, ticks) {
  context.strokeStyle = view.tone("grid");
  context.lineWidth = 1;
  context.beginPath();
  for (const tick of ticks) { context.moveTo(Math.round(scale(tick)) + 0.5, top); context.lineTo(Math.round(scale(tick)) + 0.5, top + panel.height); }
  for (const tick of view.panelTicks(panel, y)) { context.moveTo(state.plot.left, Math.round(y(tick)) + 0.5); context.lineTo(width, Math.round(y(tick)) + 0.5); }
  context.stroke();
  const differs = d3.min(panel.items, item => item.differs ?? undefined);
  if (differs === undefined) return;
  context.strokeStyle = context.fillStyle = view.tone("bad");
  context.setLineDash([3, 3]);
  context.strokeRect(scale(differs), top - 2, width * 2, panel.height + 4);
  context.setLineDash([]);
  context.globalAlpha = 0.07;
  context.fillRect(scale(differs), top, width * 2, panel.height);
  context.globalAlpha = 1;
};

view.panelNames = function (state, context, y, top, panel, titled, width) {
  context.textBaseline = "middle";
  context.textAlign = "right";
  context.fillStyle = view.tone("soft");
  const texts = panel.items[0].texts, format = view.shortNumber(y);
  for (const tick of view.panelTicks(panel, y)) {
    context.fillText(view.fitted(context, texts ? texts.texts[tick] : format(tick), state.plot.left - 8), state.plot.left - 5, y(tick));
  }
  context.textAlign = "left";
  context.strokeStyle = view.tone("line");
  context.beginPath();
  context.moveTo(0, top + panel.height - 0.5);
  context.lineTo(width, top + panel.height - 0.5);
  context.stroke();
  if (!titled) return;
  context.font = '600 12px system-ui, "DejaVu Sans", sans-serif';
  context.fillStyle = view.colour(panel.items[0].number);
  context.fillText(view.fitted(context, panel.items[0].name, width - state.plot.left - 12), state.plot.left + 5, top + 10);
  context.font = '12px system-ui, "DejaVu Sans", sans-serif';
};

/** Numbers of an axis: in thousands and millions where they are long. */
view.shortNumber = function (y) {
  const greatest = Math.max(...y.domain().map(Math.abs));
  return greatest >= 1e6 ? d3.format("~s") : value => view.number(value);
};

/** Draws a series: each value where there is room, else the least and greatest of each column of pixels. */
view.lineDraw = function (state, context, scale, y, item, part, second) {
  const {xs, ys} = part, {left, width} = state.plot;
  const from = Math.max(0, d3.bisectLeft(xs, scale.invert(left)) - 1), to = Math.min(xs.length, d3.bisectRight(xs, scale.invert(width)) + 1);
  context.strokeStyle = context.fillStyle = view.colour(item.number);
  context.lineWidth = state.chosen.length > 30 ? 0.8 : 1.5;
  context.setLineDash(second ? [5, 4] : state.records.length > 1 ? [] : view.dashes(item.number));
  context.beginPath();
  if (to - from > 2 * (width - left)) {
    view.lineThin(state.sheet, scale, y, part, from, to, item, second);
  } else if (item.holds) {
    view.lineHold(context, scale, y, part, from, to, scale(view.holdsUntil(state.records[second], part)));
    context.stroke();
  } else {
    view.lineDots(context, scale, y, xs, ys, from, to, second);
    if (second) context.stroke(); else context.fill();
  }
  context.setLineDash([]);
};

/** Until when the last value holds: until the end of the run, where the record has it. */
view.holdsUntil = (record, {xs}) => record.trouble.length ? xs[xs.length - 1] + 1 : view.lastTime(record);

/** A value holds until the next one, and the last one until the end. */
view.lineHold = function (context, scale, y, {xs, ys}, from, to, end) {
  for (let i = from; i < to; i++) {
    const x = scale(xs[i]), high = y(ys[i]);
    if (i === from) context.moveTo(x, high); else { context.lineTo(x, y(ys[i - 1])); context.lineTo(x, high); }
  }
  if (to > from) context.lineTo(to < xs.length ? scale(xs[to]) : Math.max(end, scale(xs[to - 1])), y(ys[to - 1]));
};

/** An event is a dot; one of the second record a ring. */
view.lineDots = function (context, scale, y, xs, ys, from, to, second) {
  const size = second ? 4.5 : 2.6;
  for (let i = from; i < to; i++) {
    context.moveTo(scale(xs[i]) + size, y(ys[i]));
    context.arc(scale(xs[i]), y(ys[i]), size, 0, 2 * Math.PI);
  }
};

/** A picture in memory of the size of the plot, in pixels of the screen; lines of many points are drawn there. */
view.sheet = function (state, height) {
  const fine = view.fineness(), width = Math.round(state.plot.width * fine), tall = Math.round(height * fine);
  if (!state.paper) state.paper = document.createElement("canvas");
  Object.assign(state.paper, {width, height: tall});
  const image = new ImageData(width, tall);
  return {fine, width, height: tall, image, pixels: new Uint32Array(image.data.buffer), left: Math.floor(state.plot.left * fine), used: false};
};

/** Puts the picture in memory on the plot. */
view.sheetShow = function (state, context) {
  const {sheet, paper, plot} = state;
  if (!sheet.used) return;
  paper.getContext("2d").putImageData(sheet.image, 0, 0);
  context.drawImage(paper, 0, 0, plot.width, sheet.height / sheet.fine);
};

/** A stroke down a column of pixels. */
view.stroke = function (sheet, column, high, low, colour) {
  if (column < sheet.left || column >= sheet.width) return;
  const first = Math.max(0, Math.round(high)), last = Math.min(sheet.height - 1, Math.max(Math.round(low), first + Math.ceil(sheet.fine) - 1));
  for (let at = first * sheet.width + column, end = last * sheet.width + column; at <= end; at += sheet.width) sheet.pixels[at] = colour;
};

/** For each column of pixels a stroke from the least to the greatest value, so that no peak is lost. */
view.lineThin = function (sheet, scale, y, part, from, to, item, second) {
  const {xs, ys} = part, slope = (scale(1) - scale(0)) * sheet.fine, offset = scale(0) * sheet.fine;
  const rise = (y(1) - y(0)) * sheet.fine, base = y(0) * sheet.fine, {r, g, b} = d3.rgb(view.colour(item.number));
  const colour = (255 << 24 | b << 16 | g << 8 | r) >>> 0;
  let column = Math.floor(xs[from] * slope + offset), last = ys[from], least = last, greatest = last;
  sheet.used = true;
  for (let i = from + 1; i <= to; i++) {
    const next = i < to ? Math.floor(xs[i] * slope + offset) : column + 1;
    if (next !== column) {
      // of a second record every other four columns are drawn, as dashes
      if (!second || column & 4) view.stroke(sheet, column, greatest * rise + base, least * rise + base, colour);
      if (i === to) return;
      if (item.holds) {
        for (let between = column + 1; between < next; between++) view.stroke(sheet, between, last * rise + base, last * rise + base, colour);
      }
      column = next;
      least = greatest = item.holds ? last : ys[i];
    }
    last = ys[i];
    if (last < least) least = last;
    if (last > greatest) greatest = last;
  }
};

/** The value at a place of the axis: the last one up to it, of an event only the one that is there. */
view.valueAt = function (item, part, place) {
  const i = d3.bisectRight(part.xs, place + 1e-9) - 1;
  if (i < 0 || !item.holds && Math.floor(part.xs[i]) !== Math.floor(place)) return "";
  return part.texts ? part.texts[part.ys[i]] : view.number(part.ys[i]);
};

view.cursorSet = function (state, place, moves) {
  state.cursor = place;
  if (moves) view.chartShow(state.plot, place);
  view.chartOver(state.plot);
  view.listCursor(state);
};

view.cursorDraw = function (state, context, scale, height) {
  if (state.cursor === null || scale(state.cursor) < state.plot.left) return;
  const x = Math.round(scale(state.cursor)) + 0.5, time = view.whole(Math.floor(state.cursor + 1e-9));
  context.strokeStyle = context.fillStyle = view.tone("ink");
  context.beginPath();
  context.moveTo(x, 0);
  context.lineTo(x, height);
  context.stroke();
  context.textBaseline = "top";
  context.textAlign = x > state.plot.width - 80 ? "right" : "left";
  context.fillText(time, x + (context.textAlign === "left" ? 4 : -4), 2);
};

/** Left and right go to the value before and the next one of all that is shown. */
view.valuesKey = function (state, event) {
  const by = {ArrowLeft: -1, ArrowRight: 1}[event.key];
  if (!by) return false;
  const parts = state.chosen.flatMap(item => item.parts.filter(Boolean)), here = state.cursor === null ? state.plot.scale.invert(state.plot.left) - 1e-6 : state.cursor;
  const places = parts.map(({xs}) => by > 0 ? xs[d3.bisectRight(xs, here + 1e-9)] : xs[d3.bisectLeft(xs, here - 1e-9) - 1]).filter(place => place !== undefined);
  if (!places.length) return true;
  view.cursorSet(state, by > 0 ? d3.min(places) : d3.max(places), true);
  const told = state.chosen.slice(0, 6).map(item => `${item.name} ${view.valueAt(item, item.parts.find(Boolean), state.cursor) || "no value"}`);
  view.say(`Time ${Math.floor(state.cursor + 1e-9)}: ${told.join(", ")}`);
  return true;
};

/** The table of what is shown: it is the plot's legend too. */
view.listDraw = function (state) {
  const two = state.records.length > 1;
  const head = ["", "attribute", "values", "least", "greatest", "last", ...(two ? ["at cursor, first", "second", "first differs at"] : ["at cursor"]), ""];
  const rows = state.chosen.map(item => view.listRow(state, item, two));
  const numeric = place => place > 1 && place < head.length - 1 ? "number" : null;
  state.list.replaceChildren(state.chosen.length ? view.make("table", {}, view.make("caption", {class: "unseen"}, "Attributes that are shown"),
    view.make("thead", {}, view.make("tr", {}, ...head.map((text, place) => view.make("th", {scope: "col", class: numeric(place)}, text)))),
    view.make("tbody", {}, ...rows)) : view.make("p", {class: "soft"}, "Nothing is shown: tick an attribute."));
  view.listCursor(state);
};

view.listRow = function (state, item, two) {
  const part = item.parts.find(Boolean), value = number => item.texts ? "" : view.number(number);
  const last = part.texts ? part.texts[part.ys[part.ys.length - 1]] : view.number(part.ys[part.ys.length - 1]);
  const mark = d3.create("svg").attr("class", "mark").attr("viewBox", "0 0 30 10").attr("aria-hidden", "true");
  mark.append("line").attr("x1", 0).attr("x2", 30).attr("y1", 5).attr("y2", 5).attr("stroke-width", 3).attr("stroke", view.colour(item.number))
    .attr("stroke-dasharray", item.holds ? view.dashes(item.number).join(" ") : "1 5").attr("stroke-linecap", item.holds ? null : "round");
  item.cells = item.parts.map(() => view.make("td", {class: "number"}));
  if (two) while (item.cells.length < 2) item.cells.push(view.make("td", {class: "number"}));
  const numbers = [view.whole(part.ys.length), value(d3.min(item.parts.filter(Boolean), one => one.least)), value(d3.max(item.parts.filter(Boolean), one => one.greatest)), last];
  return view.make("tr", {}, view.make("td", {}, mark.node()), view.make("td", {}, item.name),
    ...numbers.map(text => view.make("td", {class: "number"}, text)), ...item.cells,
    two ? view.make("td", {class: "number"}, item.differs === null ? "nowhere" : view.whole(Math.floor(item.differs + 1e-9))) : null,
    view.make("td", {}, view.button("×", `Hide ${item.name}`, () => view.choose(state, state.chosen.filter(one => one !== item)))));
};

/** The values at the cursor in the table. */
view.listCursor = function (state) {
  for (const item of state.chosen) {
    item.cells.forEach((cell, place) => { cell.textContent = state.cursor === null || !item.parts[place] ? "" : view.valueAt(item, item.parts[place], state.cursor); });
  }
};
