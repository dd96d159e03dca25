// A plot over a horizontal axis that can be zoomed and moved by mouse, touch, buttons and keys.
"use strict";

/**
 * Makes a plot in `place`. `options` has `label`, `extent()` (the whole axis), `left()` (room at the left), `height()`,
 * `draw(context, scale, width, height)`, `key(event)` (true where it used the key), `point(x, y)` and, where it has
 * lanes that may be too many to be seen at once, `lanes`.
 */
view.plot = function (place, options) {
  const axis = d3.create("svg").attr("height", 26).attr("class", "axis").attr("aria-hidden", "true");
  const canvas = view.make("canvas", {"aria-hidden": "true"});
  const over = options.over ? view.make("canvas", {"aria-hidden": "true", class: "over"}) : null;
  const lanes = view.make("div", {class: "lanes"}, canvas, over);
  const box = view.make("div", {class: "plot", tabindex: "0", role: "group", "aria-roledescription": "plot",
    "aria-label": options.label, "aria-describedby": options.help}, axis.node(), lanes);
  const plot = {box, canvas, over, transform: d3.zoomIdentity, scale: d3.scaleLinear(), options};
  const zoom = d3.zoom().filter(view.mayZoom(box)).on("zoom", () => {
    plot.transform = d3.event.transform;
    plot.ask();
  });
  plot.zoom = zoom;
  plot.axis = axis.append("g").attr("transform", "translate(0,24)");
  place.append(view.chartTools(plot), box);
  d3.select(canvas).call(zoom).on("dblclick.zoom", null).style("touch-action", "pan-y");
  canvas.addEventListener("pointerdown", () => box.focus({preventScroll: true}));
  for (const kind of ["click", "mousemove"]) {
    canvas.addEventListener(kind, event => options.point && options.point(event.offsetX, event.offsetY, kind));
  }
  box.addEventListener("keydown", event => view.chartKey(plot, event));
  let waits = false;
  plot.ask = () => {
    if (!waits) requestAnimationFrame(() => { waits = false; view.chartDraw(plot); });
    waits = true;
  };
  new ResizeObserver(plot.ask).observe(box);
  view.drawn.push(() => view.chartDraw(plot));
  return plot;
};

/** The buttons of a plot. */
view.chartTools = function (plot) {
  const act = (text, label, by) => view.button(text, label, () => by());
  return view.make("div", {class: "tools"}, plot.options.tools, view.make("div", {class: "group", role: "group", "aria-label": "Zoom"},
    act("+", "Zoom in", () => view.chartZoom(plot, 2)), act("−", "Zoom out", () => view.chartZoom(plot, 0.5)),
    act("◀", "Earlier", () => view.chartMove(plot, -0.5)), act("▶", "Later", () => view.chartMove(plot, 0.5)),
    act("Whole", "The whole axis", () => view.chartWhole(plot))));
};

view.chartZoom = (plot, factor) => d3.select(plot.canvas).call(plot.zoom.scaleBy, factor);
view.chartMove = (plot, part) => d3.select(plot.canvas).call(plot.zoom.translateBy, -part * plot.span / plot.transform.k, 0);
view.chartWhole = plot => d3.select(plot.canvas).call(plot.zoom.transform, d3.zoomIdentity);

/** Moves the plot so that the value is seen. */
view.chartShow = function (plot, value) {
  const x = plot.scale(value);
  if (x < plot.left + 5 || x > plot.width - 28) {
    const middle = plot.base.invert ? plot.base(value) : 0;
    d3.select(plot.canvas).call(plot.zoom.translateTo, middle, 0);
  }
};

/** Shows the part of the axis from one value to the other. */
view.chartRange = function (plot, from, to) {
  const [a, b] = [plot.base(from), plot.base(to)];
  const factor = Math.min(plot.most, plot.span / Math.max(1e-9, b - a));
  const moved = d3.zoomIdentity.translate(plot.left - factor * a, 0).scale(factor);
  d3.select(plot.canvas).call(plot.zoom.transform, moved);
};

view.chartKey = function (plot, event) {
  if (event.ctrlKey || event.altKey || event.metaKey) return;
  const shift = event.shiftKey;
  const acts = {
    "+": () => view.chartZoom(plot, 2), "=": () => view.chartZoom(plot, 2), "-": () => view.chartZoom(plot, 0.5),
    "0": () => view.chartWhole(plot),
  };
  if (shift) Object.assign(acts, {ArrowLeft: () => view.chartMove(plot, -0.25), ArrowRight: () => view.chartMove(plot, 0.25)});
  const act = acts[event.key];
  if (act) act();
  if (act || (plot.options.key && plot.options.key(event))) event.preventDefault();
};

/** Sets the sizes, the scale and the axis, and draws. */
view.chartDraw = function (plot) {
  const {canvas, box, options} = plot;
  const width = box.clientWidth, height = options.height();
  if (!width) return;
  const [from, to] = options.extent(), left = options.left(width);
  Object.assign(plot, {width, left, span: width - left - 26, most: Math.max(2, (to - from) * 2)});
  plot.base = d3.scaleLinear().domain([from, to]).range([left, width - 26]);
  plot.zoom.scaleExtent([1, plot.most]).extent([[left, 0], [width - 26, height]])
    .translateExtent([[left, -1e9], [width - 26, 1e9]]);
  plot.scale = plot.transform.rescaleX(plot.base);
  const ticks = plot.scale.ticks(Math.max(2, Math.floor(width / 110))).filter(Number.isInteger);
  plot.axis.call(d3.axisTop(plot.scale).tickValues(ticks).tickFormat(view.whole).tickSizeOuter(0));
  options.draw(view.cleared(canvas, width, height), plot.scale, width, height, ticks);
  view.chartOver(plot);
};

/** Draws what lies over the plot, such as a cursor. */
view.chartOver = function (plot) {
  if (plot.over && plot.width) plot.options.over(view.cleared(plot.over, plot.width, plot.options.height()), plot.scale, plot.options.height());
};

/** How many pixels of the screen, or of the paper, a unit of length has. */
view.fineness = () => Math.max(view.printing ? 2 : 1, devicePixelRatio || 1);

/** The context of a canvas of this size, with nothing on it. */
view.cleared = function (canvas, width, height) {
  const fine = view.fineness(), context = canvas.getContext("2d");
  if (canvas.width !== Math.round(width * fine) || canvas.height !== Math.round(height * fine)) {
    canvas.width = Math.round(width * fine);
    canvas.height = Math.round(height * fine);
    canvas.style.height = height + "px";
  }
  context.setTransform(fine, 0, 0, fine, 0, 0);
  context.clearRect(0, 0, width, height);
  context.font = '12px system-ui, "DejaVu Sans", sans-serif';
  return context;
};

/** The names of lanes or of an axis at the left, over what was drawn beyond the left edge. */
view.chartMargin = function (context, plot, height) {
  context.fillStyle = view.tone("card");
  context.fillRect(0, 0, plot.left, height);
};

/** A text that is cut so that it has this width. */
view.fitted = function (context, text, width) {
  if (context.measureText(text).width <= width) return text;
  let end = text.length;
  while (end > 1 && context.measureText(text.slice(0, end) + "…").width > width) end--;
  return text.slice(0, end) + "…";
};
