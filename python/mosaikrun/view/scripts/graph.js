// The graph: simulators, or their entities, and the connections between them with their kinds.
"use strict";

view.kinds = {
  plain: {name: "plain", dash: "", tone: "plain"},
  shift: {name: "time-shifted", dash: "9 4", tone: "shift"},
  weak: {name: "weak", dash: "2 4", tone: "weak"},
  async: {name: "asynchronous", dash: "12 3 2 3", tone: "async"},
};
/** More nodes than these aren't drawn one by one. */
view.mostNodes = 60;
/** Where more nodes than these are drawn they are lower, with their name alone. */
view.fewNodes = 20;

/** The nodes of a graph: a simulator, an entity, or all entities of one model, each. */
view.nodesOf = function (record, what) {
  const count = d3.nest().key(one => one[0]).rollup(ones => ones.length).map(record.entities);
  if (what === "simulators") {
    return record.simulators.map((sim, number) => ({
      key: String(number), name: sim.id, about: sim.type, more: view.plural(count.get(number) || 0, "entity", "entities"), simulator: number,
    }));
  }
  if (record.entities.length <= view.mostNodes) {
    return record.entities.map(([sim, model, eid], number) => ({
      key: String(number), name: `${record.simulators[sim].id}.${eid}`, about: record.models[model][1], more: "", simulator: sim,
    }));
  }
  const groups = d3.nest().key(one => one[1]).entries(record.entities);
  return groups.map(({key, values}) => ({
    key, name: `${record.simulators[values[0][0]].id} × ${view.whole(values.length)}`, about: record.models[key][1], more: "", simulator: values[0][0],
  }));
};

/** To which node an entity belongs. */
view.nodeOf = function (record, what) {
  if (what === "simulators") return entity => String(record.entities[entity][0]);
  if (record.entities.length <= view.mostNodes) return entity => String(entity);
  return entity => String(record.entities[entity][1]);
};

/** The edges of a graph: the connections from one node to another, of one kind and width, are one edge. */
view.edgesOf = function (record, what) {
  const edges = new Map(), node = view.nodeOf(record, what);
  const add = (from, to, kind, delay, pair) => {
    const key = [from, to, kind, delay].join(" ");
    const edge = edges.get(key) || {from, to, kind, delay, count: 0, pairs: new Map()};
    edge.count += 1;
    edge.pairs.set(pair, (edge.pairs.get(pair) || 0) + 1);
    edges.set(key, edge);
  };
  for (const [from, output, to, input, kind, delay] of record.connections) {
    add(node(from), node(to), kind, delay, output === input ? output : `${output} → ${input}`);
  }
  if (what === "simulators") for (const [from, to] of record.asynchronous) add(String(from), String(to), "async", 0, "requests");
  return [...edges.values()];
};

/** What stands at an edge. */
view.edgeText = function (edge) {
  const pairs = [...edge.pairs].map(([pair, count]) => count > 1 ? `${pair} ×${view.whole(count)}` : pair);
  const text = pairs.slice(0, 2).join(", ") + (pairs.length > 2 ? ` and ${pairs.length - 2} more` : "");
  return edge.kind === "shift" ? `${text} (+${view.whole(edge.delay)})` : text;
};

/** Places the nodes and edges in layers. */
view.layout = function (nodes, edges, narrow) {
  const graph = new dagre.graphlib.Graph({multigraph: true});
  graph.setGraph({rankdir: narrow ? "TB" : "LR", nodesep: nodes.length > view.fewNodes ? 7 : 24, ranksep: narrow ? 46 : 96, edgesep: 16, marginx: 12, marginy: 12});
  graph.setDefaultEdgeLabel(() => ({}));
  for (const node of nodes) {
    const low = nodes.length > view.fewNodes;
    const wide = Math.max(node.name.length * 8, low ? 0 : (node.about + (node.more ? ", " + node.more : "")).length * 6.6);
    graph.setNode(node.key, {width: Math.max(90, wide + 22), height: low ? 26 : 48, low, node});
  }
  edges.forEach((edge, number) => {
    const text = view.edgeText(edge);
    const size = nodes.length > view.fewNodes ? {} : {width: text.length * 6.2, height: 14, labelpos: "c"};
    graph.setEdge(edge.from, edge.to, {...size, weight: edge.kind === "plain" ? 3 : 1, edge, text}, String(number));
  });
  dagre.layout(graph);
  return graph;
};

/** Builds the part of the page. */
view.graph = function (section, record) {
  const state = {what: "simulators", chosen: null};
  const legend = view.make("ul", {class: "legend", "aria-label": "Kinds of connections"});
  const help = view.make("p", {class: "hint", id: "graph-help"},
    "Tab to the graph, arrow keys go from node to node, Enter chooses one and lists its connections; + and − zoom, 0 shows all.");
  const svg = d3.create("svg").attr("class", "graph").attr("role", "group")
    .attr("aria-label", "Graph of simulators and connections").attr("aria-describedby", "graph-help");
  const told = view.make("div", {class: "told", "aria-live": "polite"});
  const box = view.make("div", {class: "plot"}, svg.node());
  const inner = svg.append("g");
  const zoom = d3.zoom().scaleExtent([0.05, 6]).filter(view.mayZoom(box)).on("zoom", () => inner.attr("transform", d3.event.transform));
  svg.call(zoom).on("dblclick.zoom", null).style("touch-action", "pan-y");
  Object.assign(state, {record, svg, inner, zoom, told, box, legend});
  const tools = view.make("div", {class: "tools"},
    view.choice("Show", {simulators: "Simulators", entities: "Entities"}, "simulators", key => { state.what = key; state.chosen = null; view.graphDraw(state); }),
    view.make("div", {class: "group", role: "group", "aria-label": "Zoom"},
      view.button("+", "Zoom in", () => svg.call(zoom.scaleBy, 1.4)), view.button("−", "Zoom out", () => svg.call(zoom.scaleBy, 1 / 1.4)),
      view.button("Whole", "The whole graph", () => view.graphFit(state))));
  section.append(help, tools, legend, box, told);
  let width = 0;
  new ResizeObserver(() => { if (box.clientWidth && box.clientWidth !== width) { width = box.clientWidth; view.graphDraw(state); } }).observe(box);
  box.addEventListener("keydown", event => view.graphKey(state, event));
  view.drawn.push(() => view.graphDraw(state));
  return state;
};

/** Draws the graph anew. */
view.graphDraw = function (state) {
  const {record, inner, box} = state;
  if (!box.clientWidth) return;
  const nodes = view.nodesOf(record, state.what), edges = view.edgesOf(record, state.what);
  const graph = view.layout(nodes, edges, box.clientWidth < 640);
  Object.assign(state, {graph, nodes, edges});
  view.graphLegend(state);
  inner.selectAll("*").remove();
  view.graphEdges(state);
  view.graphNodes(state);
  view.graphFit(state);
  view.graphTell(state);
};

view.graphLegend = function (state) {
  const kinds = Object.keys(view.kinds).filter(kind => state.edges.some(edge => edge.kind === kind));
  state.legend.replaceChildren(...kinds.map(kind => {
    const {name, dash, tone} = view.kinds[kind];
    const svg = d3.create("svg").attr("viewBox", "0 0 38 10").attr("aria-hidden", "true");
    svg.append("line").attr("x1", 1).attr("x2", 37).attr("y1", 5).attr("y2", 5).attr("stroke", view.tone(tone))
      .attr("stroke-width", 2.2).attr("stroke-dasharray", dash);
    return view.make("li", {}, svg.node(), name);
  }));
};

view.graphEdges = function (state) {
  const {graph, inner} = state, line = d3.line().x(p => p.x).y(p => p.y).curve(d3.curveBasis);
  const heads = inner.append("defs").selectAll("marker").data(Object.entries(view.kinds)).enter().append("marker")
    .attr("id", ([kind]) => "head-" + kind).attr("viewBox", "0 0 10 10").attr("refX", 9).attr("refY", 5)
    .attr("markerWidth", 9).attr("markerHeight", 9).attr("markerUnits", "userSpaceOnUse").attr("orient", "auto");
  heads.append("path").attr("d", "M0,0L10,5L0,10z").attr("fill", ([, kind]) => view.tone(kind.tone));
  const edges = graph.edges().map(key => graph.edge(key));
  inner.selectAll(".edge").data(edges).enter().append("path").attr("class", "edge").attr("d", one => line(one.points))
    .attr("stroke", one => view.tone(view.kinds[one.edge.kind].tone)).attr("stroke-dasharray", one => view.kinds[one.edge.kind].dash)
    .attr("marker-end", one => `url(#head-${one.edge.kind})`);
  if (state.nodes.length <= view.fewNodes) {
    const labels = inner.selectAll(".edge-label").data(edges).enter().append("g").attr("transform", one => `translate(${one.x},${one.y})`);
    labels.append("rect").attr("class", "behind").attr("x", one => -one.text.length * 3.1 - 3).attr("y", -8)
      .attr("width", one => one.text.length * 6.2 + 6).attr("height", 16);
    labels.append("text").attr("class", "edge-label").attr("text-anchor", "middle").attr("y", 4).text(one => one.text);
  }
};

view.graphNodes = function (state) {
  const {graph, inner} = state;
  const nodes = inner.selectAll(".node").data(graph.nodes().map(key => graph.node(key))).enter().append("g")
    .attr("class", "node").attr("role", "button").attr("tabindex", (_, place) => place === 0 ? 0 : -1)
    .attr("transform", one => `translate(${one.x - one.width / 2},${one.y - one.height / 2})`)
    .attr("aria-label", one => `${one.node.name}, ${one.node.about}${one.node.more ? ", " + one.node.more : ""}`)
    .attr("data-key", one => one.node.key)
    .classed("bad", one => (state.bad || []).includes(one.node.simulator))
    .on("click", one => view.graphChoose(state, one.node.key));
  nodes.append("rect").attr("width", one => one.width).attr("height", one => one.height).attr("rx", 7);
  nodes.append("text").attr("class", "name").attr("x", one => one.width / 2).attr("y", one => one.low ? 18 : 20).attr("text-anchor", "middle").text(one => one.node.name);
  nodes.filter(one => !one.low).append("text").attr("x", one => one.width / 2).attr("y", 37).attr("text-anchor", "middle")
    .text(one => one.node.about + (one.node.more ? ", " + one.node.more : ""));
};

/** Makes all of the graph be seen. */
view.graphFit = function (state) {
  const {width, height} = state.graph.graph(), room = state.box.clientWidth;
  const scale = Math.min(1.25, room / width);
  const tall = Math.max(120, Math.min(state.nodes.length > view.fewNodes ? 900 : 620, height * scale));
  const fit = Math.min(scale, tall / height);
  state.svg.attr("viewBox", null).attr("height", tall).attr("width", room);
  const moved = d3.zoomIdentity.translate((room - width * fit) / 2, (tall - height * fit) / 2).scale(fit);
  state.svg.call(state.zoom.transform, moved);
};

/** Chooses a node: its connections are listed, the others become faint. */
view.graphChoose = function (state, key) {
  state.chosen = state.chosen === key ? null : key;
  view.graphTell(state);
};

view.graphTell = function (state) {
  const {chosen, inner, told} = state, touches = edge => chosen === null || edge.from === chosen || edge.to === chosen;
  inner.selectAll(".node").classed("chosen", one => one.node.key === chosen).attr("aria-pressed", one => String(one.node.key === chosen));
  inner.selectAll(".edge").classed("faint", one => !touches(one.edge));
  const name = key => state.nodes.find(node => node.key === key).name;
  if (chosen === null) {
    const total = state.record.connections.length;
    told.replaceChildren(view.make("span", {class: "soft"}, `${view.plural(total, "connection")} in ${view.plural(state.edges.length, "edge")}.`));
    return;
  }
  const rows = state.edges.filter(touches).slice(0, 200).map(edge => view.make("tr", {},
    ...[name(edge.from), name(edge.to), view.kinds[edge.kind].name + (edge.kind === "shift" ? ` by ${view.whole(edge.delay)}` : ""), view.edgeText(edge)]
      .map(text => view.make("td", {}, text))));
  const head = view.make("tr", {}, ...["from", "to", "kind", "attributes"].map(text => view.make("th", {scope: "col"}, text)));
  told.replaceChildren(view.make("h3", {}, `Connections of ${name(chosen)}`), view.make("div", {class: "scroll"},
    view.make("table", {}, view.make("thead", {}, head), view.make("tbody", {}, ...rows))));
};

/** Arrow keys go to the nearest node in their direction. */
view.graphKey = function (state, event) {
  const {svg, zoom, graph} = state;
  const acts = {"+": () => svg.call(zoom.scaleBy, 1.4), "=": () => svg.call(zoom.scaleBy, 1.4), "-": () => svg.call(zoom.scaleBy, 1 / 1.4), "0": () => view.graphFit(state)};
  const here = event.target.closest(".node");
  const way = {ArrowLeft: [-1, 0], ArrowRight: [1, 0], ArrowUp: [0, -1], ArrowDown: [0, 1]}[event.key];
  if (here && (event.key === "Enter" || event.key === " ")) acts[event.key] = () => view.graphChoose(state, here.dataset.key);
  if (here && way) acts[event.key] = () => view.graphStep(state, here, graph.node(here.dataset.key), way);
  if (acts[event.key] && !event.ctrlKey && !event.altKey && !event.metaKey) {
    acts[event.key]();
    event.preventDefault();
  }
};

view.graphStep = function (state, here, from, [dx, dy]) {
  const others = state.inner.selectAll(".node").nodes().filter(one => one !== here).map(element => {
    const one = state.graph.node(element.dataset.key), x = one.x - from.x, y = one.y - from.y;
    return {element, along: x * dx + y * dy, aside: Math.abs(x * dy) + Math.abs(y * dx)};
  }).filter(one => one.along > 1);
  if (!others.length) return;
  const next = others[d3.scan(others, (a, b) => a.along + 2 * a.aside - b.along - 2 * b.aside)].element;
  here.setAttribute("tabindex", "-1");
  next.setAttribute("tabindex", "0");
  next.focus();
};
