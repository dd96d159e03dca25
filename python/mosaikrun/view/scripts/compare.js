// What went wrong in a record, and who answered differently in the second of two.
"use strict";

/** A term and what belongs to it, for a list of facts. */
view.fact = (name, text) => view.make("div", {}, view.make("dt", {}, name), view.make("dd", {}, text));

/** The turn that an entry of the record belongs to: the last one of its simulator that was asked before it. */
view.turnAt = function (turns, sim, place) {
  let found = -1;
  for (const turn of sim < 0 ? d3.range(turns.count) : turns.of[sim]) if (turns.asked[turn] <= place) found = turn; else break;
  return found;
};

/** Builds the card of one trouble of a record. */
view.troubleCard = function (record, trouble, steps) {
  const card = view.make("div", {class: "card bad"}, view.make("h3", {}, `${record.name}: `, view.make("code", {}, trouble.line), ` (status ${trouble.status})`));
  if (trouble.short) card.append(view.make("p", {}, trouble.short));
  if (trouble.text) {
    card.append(view.make("p", {}, `At line ${view.whole(record.first_line + trouble.place)} of the record:`), view.make("pre", {class: "said"}, trouble.text));
  }
  if (trouble.open.length) {
    card.append(view.make("p", {}, "These steps weren't at their end:"), view.make("ul", {},
      ...trouble.open.slice(0, 20).map(one => view.make("li", {}, `${one.simulator}, step ${view.whole(one.time)}:${one.tier}`)),
      trouble.open.length > 20 ? view.make("li", {}, `and ${trouble.open.length - 20} more`) : null));
  }
  const turn = steps ? view.troubleTurn(record, trouble, steps.turns) : -1;
  if (turn >= 0) card.append(view.showButton(steps, turn));
  return card;
};

/** The turn in which it went wrong. */
view.troubleTurn = function (record, trouble, turns) {
  const number = name => record.simulators.findIndex(sim => sim.id === name);
  if (trouble.open.length) return turns.of[number(trouble.open[0].simulator)].slice(-1)[0] ?? -1;
  if (trouble.place === undefined) return -1;
  const got = /^got \[(\d+),/.exec(trouble.text || "") || /^ask \[(\d+),/.exec(trouble.text || "");
  return view.turnAt(turns, got ? Number(got[1]) : -1, trouble.place);
};

view.showButton = (steps, turn) => view.button("Show this step", `Show ${view.stepName(steps, turn)} among the steps`, () => {
  steps.choose.press("order");
  const start = view.bar(steps, turn)[0];
  view.chartDraw(steps.plot);
  view.chartRange(steps.plot, Math.max(0, start - 30), Math.min(steps.turns.entries, start + 15));
  view.stepsChoose(steps, turn);
  document.getElementById("steps").scrollIntoView();
  steps.plot.box.focus({preventScroll: true});
});

/** Builds the part about what went wrong; the simulators that it names are marked. */
view.trouble = function (section, records, steps, graph) {
  const cards = [];
  records.forEach((record, place) => {
    for (const trouble of record.trouble) cards.push(view.troubleCard(record, trouble, place === 0 ? steps : null));
    for (const line of record.trouble.length ? [] : record.missing) cards.push(view.make("div", {class: "card bad"}, `${record.name}: ${line}`));
  });
  section.hidden = !cards.length;
  section.append(...cards);
  const named = records[0].trouble.flatMap(trouble => [...trouble.open.map(one => one.simulator), (/^run \d+: (\S+)/.exec(trouble.line) || [])[1]]);
  const bad = records[0].simulators.map((_, number) => number).filter(number => named.includes(records[0].simulators[number].id));
  graph.bad = bad;
  if (!steps) return;
  steps.bad = bad;
  const open = records[0].trouble.flatMap(trouble => trouble.open.map(one => records[0].simulators.findIndex(sim => sim.id === one.simulator)));
  steps.open = new Set(open.map(number => steps.turns.of[number][steps.turns.of[number].length - 1]));
};

/** The members of a tree of JSON, each with its path. */
view.leaves = function (tree, path = "", found = new Map()) {
  if (tree !== null && typeof tree === "object") {
    for (const [key, value] of Object.entries(tree)) view.leaves(value, path ? `${path} › ${key}` : key, found);
  } else found.set(path, JSON.stringify(tree));
  return found;
};

/** A table of what differs in two messages. */
view.messageDifference = function (first, second) {
  let trees;
  try { trees = [first, second].map(text => JSON.parse(text)[2]); } catch { return null; }
  const [a, b] = trees.map(tree => view.leaves(tree)), keys = [...new Set([...a.keys(), ...b.keys()])].filter(key => a.get(key) !== b.get(key));
  const rows = keys.slice(0, 50).map(key => view.make("tr", {}, view.make("td", {}, key || "the answer"),
    ...[a, b].map(one => view.make("td", {class: "number"}, view.make("mark", {}, one.has(key) ? one.get(key) : "nothing")))));
  const head = view.make("tr", {}, ...["", "first", "second"].map((text, place) => view.make("th", {scope: "col", class: place ? "number" : null}, text)));
  return view.make("div", {class: "scroll"}, view.make("table", {}, view.make("thead", {}, head), view.make("tbody", {}, ...rows)),
    keys.length > 50 ? view.make("p", {class: "soft"}, `and ${keys.length - 50} more`) : "");
};

view.blamedCard = function (records, one, steps) {
  const cut = text => text.length > 1500 ? text.slice(0, 1500) + "…" : text;
  const card = view.make("div", {class: "card"}, view.make("h3", {}, `${one.simulator} answered differently` + (one.step ? ` in its step ${view.whole(one.step[0])}:${one.step[1]}` : "")),
    view.make("p", {}, `It had been sent the same, and had said the same in ${view.plural(one.message, "message")} before.`));
  if (one.request) card.append(view.make("p", {}, "The request:"), view.make("pre", {class: "said"}, cut(one.request)));
  card.append(view.make("div", {class: "pair"}, ...[one.first, one.second].map((text, place) => view.make("div", {},
    view.make("p", {}, `In ${records[place].name}` + (one.places[place] < 0 ? ":" : `, line ${view.whole(records[place].first_line + one.places[place])}:`)),
    view.make("pre", {class: "said"}, cut(text))))));
  const table = view.messageDifference(one.first, one.second);
  if (table) card.append(view.make("p", {}, "What differs:"), table);
  const sim = records[0].simulators.findIndex(other => other.id === one.simulator);
  const turn = steps && one.places[0] >= 0 ? view.turnAt(steps.turns, sim, one.places[0]) : -1;
  if (turn >= 0) card.append(view.showButton(steps, turn));
  return card;
};

/** Builds the part about two records. */
view.compare = function (section, records, blame, steps, graph) {
  section.hidden = false;
  if (blame.equal) {
    section.append(view.make("p", {}, "Every simulator was sent and said the same in both records."));
    return;
  }
  section.append(view.make("p", {class: "hint"}, "Named are the simulators that had been sent the same and had said the same up to a message, and then said something else. " +
    "One that only got other inputs isn't named."), ...blame.blamed.map(one => view.blamedCard(records, one, steps)));
  const names = blame.blamed.map(one => one.simulator);
  graph.bad = (graph.bad || []).concat(records[0].simulators.map((_, number) => number).filter(number => names.includes(records[0].simulators[number].id)));
  if (steps) steps.bad = graph.bad;
};
