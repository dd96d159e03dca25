// Builds the page when it is loaded.
"use strict";

view.size = bytes => bytes < 1e6 ? `${view.whole(Math.max(1, Math.round(bytes / 1e3)))} kB` : `${d3.format(",.1f")(bytes / 1e6)} MB`;

/** The title, the state and the facts of a study. */
view.head = function ({records, blame}) {
  const [record] = records, state = document.getElementById("state");
  document.getElementById("title").textContent = records.map(one => one.name).join(" and ");
  const bad = records.some(one => one.trouble.length);
  const text = blame ? (blame.equal ? "equal" : view.plural(blame.blamed.length, "simulator") + " answered differently") : bad ? "not at its end" : "whole";
  state.textContent = text;
  state.classList.add(bad || blame && !blame.equal ? "bad" : "good");
  document.getElementById("facts").append(view.fact("until", view.whole(record.until)), view.fact("simulators", view.whole(record.simulators.length)),
    view.fact("entities", view.whole(record.entities.length)), view.fact("connections", view.whole(record.connections.length)),
    ...(record.asynchronous.length ? [view.fact("asynchronous pairs", view.whole(record.asynchronous.length))] : []),
    view.fact("steps", records.map(one => view.whole(one.turns.time.count)).join(" and ")),
    view.fact("messages", records.map(one => view.whole(one.messages)).join(" and ")), view.fact("record", records.map(one => view.size(one.bytes)).join(" and ")));
};

/** Links to the parts that are there. */
view.parts = function () {
  const parts = [...document.querySelectorAll("main > section:not([hidden])")];
  document.getElementById("parts").append(...parts.map(part => view.make("li", {}, view.make("a", {href: "#" + part.id}, part.querySelector("h2").textContent))));
};

view.start = async function () {
  const data = JSON.parse(document.getElementById("data").textContent), part = id => document.getElementById(id);
  view.data = data;
  view.head(data);
  const [record] = data.records;
  await Promise.all(data.records.map(one => view.unpack(one.turns.time)));
  view.graphState = view.graph(part("graph"), record);
  view.stepsState = await view.steps(part("steps"), record);
  view.trouble(part("trouble"), data.records, view.stepsState, view.graphState);
  if (data.blame) view.compare(part("compare"), data.records, data.blame, view.stepsState, view.graphState);
  view.parts();
  view.valuesState = await view.values(part("values"), data.records, data.blame);
  matchMedia("(prefers-color-scheme: dark)").addEventListener("change", view.recolour);
  for (const [event, printing] of [["beforeprint", true], ["afterprint", false]]) {
    addEventListener(event, () => view.print(printing));
  }
  view.redraw();
  document.body.dataset.ready = "yes";
};

/** Draws all for the printer, or for the screen again. */
view.print = function (printing) {
  view.printing = printing;
  document.documentElement.classList.toggle("printing", printing);
  view.recolour();
};

/** Draws all anew, with other colours. */
view.recolour = function () {
  if (view.valuesState) view.listDraw(view.valuesState);
  view.redraw();
};

view.start().catch(fault => {
  const broken = document.getElementById("broken");
  broken.textContent = `This page can't be shown: ${fault.message}. It needs a browser of the year 2023 or newer.`;
  broken.hidden = false;
  console.error(fault);
});
