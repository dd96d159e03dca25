// What all parts of the page stand on: the data, unpacking of columns, colours, and small makers of elements.
"use strict";
const view = {};

/** The numbers of a packed column, as a typed array; a column is unpacked once. */
view.unpack = async function (column) {
  if (!column.numbers) {
    const kinds = {i8: Int8Array, i16: Int16Array, i32: Int32Array, f64: Float64Array};
    const bytes = Uint8Array.from(atob(column.data), letter => letter.charCodeAt(0));
    const stream = new Blob([bytes]).stream().pipeThrough(new DecompressionStream("deflate"));
    column.numbers = new kinds[column.kind](await new Response(stream).arrayBuffer());
    delete column.data;
  }
  return column.numbers;
};

/** An element of this tag, with attributes or properties, and what stands in it. */
view.make = function (tag, attributes, ...inside) {
  const element = document.createElement(tag);
  for (const [name, value] of Object.entries(attributes || {})) {
    if (name === "on") for (const [event, act] of Object.entries(value)) element.addEventListener(event, act);
    else if (value === true) element.setAttribute(name, "");
    else if (value !== false && value !== null && value !== undefined) element.setAttribute(name, value);
  }
  element.append(...inside.filter(one => one !== null && one !== undefined));
  return element;
};

/** Eight colours that colour-blind readers can tell apart (Okabe and Ito), for light and dark. */
view.colours = {
  light: ["#0072b2", "#c2510a", "#00795a", "#a8468a", "#8a6d00", "#1f8fc7", "#3a3a3a", "#b3261e"],
  dark: ["#56b4e9", "#f0954d", "#2fc79a", "#e29fcb", "#f0e442", "#9fd3f5", "#d0d7de", "#ff9d94"],
};
view.printing = false;
view.isDark = () => !view.printing && matchMedia("(prefers-color-scheme: dark)").matches;

/** The colour of the series of this number. */
view.colour = number => view.colours[view.isDark() ? "dark" : "light"][number % 8];
/** The dashes of the series of this number: eight colours, then the same with dashes. */
view.dashes = number => [[], [7, 3], [2, 3], [9, 3, 2, 3]][Math.floor(number / 8) % 4];
/** A colour of the style. */
view.tone = name => getComputedStyle(document.documentElement).getPropertyValue("--" + name).trim();

view.whole = d3.format(",d");
/** A number as a text; one of a float's size is said with its leading digits. */
view.number = value => Number.isInteger(value) ? value.toLocaleString("en") : String(value);
view.plural = (count, one, many) => `${view.whole(count)} ${count === 1 ? one : many || one + "s"}`;

/** Tells a reader that hears the page. */
view.say = function (text) {
  document.getElementById("said").textContent = text;
};

/** The first place in a rising list that isn't less than the value. */
view.reach = (list, value, from, to) => d3.bisectLeft(list, value, from, to);

/** What a wheel and a drag may do: the wheel zooms only where the plot has the focus, so that the page still scrolls. */
view.mayZoom = function (element) {
  return () => {
    const event = d3.event;
    if (event.type === "wheel") return event.ctrlKey || element.contains(document.activeElement);
    return !event.button && !event.ctrlKey;
  };
};

/** A button with a name that is read out. */
view.button = (text, label, act) => view.make("button", {type: "button", "aria-label": label, title: label, on: {click: act}}, text);

/** A group of buttons of which one is pressed; `act` gets the key of the one that is chosen. */
view.choice = function (label, keys, chosen, act) {
  const group = view.make("div", {class: "group", role: "group", "aria-label": label}, view.make("span", {class: "soft"}, label));
  const buttons = Object.entries(keys).map(([key, text]) => view.make("button", {
    type: "button", "aria-pressed": String(key === chosen), "data-key": key, on: {click: () => press(key)},
  }, text));
  function press(key) {
    for (const button of buttons) button.setAttribute("aria-pressed", String(button.dataset.key === key));
    act(key);
  }
  group.append(...buttons);
  group.press = press;
  return group;
};

/** Parts of a page that are drawn anew when the colours or the width change. */
view.drawn = [];
view.redraw = () => view.drawn.forEach(draw => draw());
