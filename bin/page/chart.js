/* The packed classes of a line: a bar for each over the words that it spans, and a table of how each is made. */
function chartView(edges, unknown) {
  const view = make("div", { class: "chart", "data-classes": edges.length });
  const bars = make("div", {}), table = make("div", {});
  let chosen = null;
  const choose = (number, focus) => {
    chosen = number === chosen ? null : number;
    const parts = new Set(chosen ? edges[chosen - 1][4].flatMap((maker) => maker[1]) : []);
    for (const one of view.querySelectorAll("[data-class]")) {
      const is = Number(one.dataset.class);
      one.classList.toggle("chosen", is === chosen);
      one.classList.toggle("part", parts.has(is));
    }
    if (focus) view.querySelector(`tr[data-class="${number}"]`).scrollIntoView({ block: "nearest" });
  };
  bars.append(frame("chart-frame", "chart", chartDrawing(edges, unknown, choose)));
  table.append(chartTable(edges, choose));
  return fill(view, {}, [
    unknown.length ? make("p", { class: "note", "data-unknown": unknown.length }, "No entry covers: " + unknown.map(([from, to, word]) => `${word} (${from}:${to})`).join(", ")) : null,
    bars, edges.some((edge) => edge[3]) ? make("p", { class: "note" }, "★: a root admits the class. Press a class to see of which it is made.") : null,
    make("details", { open: edges.length <= 400 }, make("summary", {}, "How each class is made"), make("div", { class: "scroll" }, table)),
  ]);
}

function leafWords(maker) {
  const found = /"((?:[^"\\]|\\.)*)"/.exec(maker);
  return found ? found[1].replace(/\\(.)/gs, "$1") : "";
}

/* Lanes: shorter classes lie lower, and no two bars of a lane meet. Columns are as wide as their one-word bars need. */
function chartDrawing(edges, unknown, choose) {
  const nodes = [...new Set([...edges.flatMap((edge) => [edge[0], edge[1]]), ...unknown.flatMap((one) => [one[0], one[1]])])].sort((a, b) => a - b);
  const column = new Map(nodes.map((node, at) => [node, at]));
  const widths = nodes.slice(1).map(() => 60);
  const texts = edges.map((edge, at) => `${at + 1} ${edge[2]}${edge[3] ? " ★" : ""}`);
  const need = (from, to, width) => {
    const a = column.get(from), b = column.get(to);
    let has = 0;
    for (let k = a; k < b; k++) has += widths[k];
    if (has < width) for (let k = a; k < b; k++) widths[k] += (width - has) / (b - a);
  };
  const order = edges.map((edge, at) => at).sort((a, b) => length(a) - length(b) || a - b);
  function length(at) { return column.get(edges[at][1]) - column.get(edges[at][0]); }
  for (const at of order) need(edges[at][0], edges[at][1], wide(texts[at], "12px") + 22);
  const words = [];
  edges.forEach((edge) => edge[4].forEach(([maker, daughters]) => {
    const word = daughters.length ? "" : leafWords(maker);
    if (word && !words.some((one) => one[0] === edge[0] && one[1] === edge[1] && one[2] === word)) words.push([edge[0], edge[1], word, ""]);
  }));
  unknown.forEach(([from, to, word]) => words.push([from, to, word, " unknown"]));
  words.forEach(([from, to, word]) => need(from, to, wide(word, "600 13px") + 16));
  const ends = [0];
  widths.forEach((width, at) => ends.push(ends[at] + width));
  const x = (node) => ends[column.get(node)] || 0;
  const lanes = [], laneOf = (from, to) => {
    const lane = lanes.findIndex((taken) => taken.every(([a, b]) => to <= a || from >= b));
    if (lane < 0) lanes.push([]);
    lanes[lane < 0 ? lanes.length - 1 : lane].push([from, to]);
    return lane < 0 ? lanes.length - 1 : lane;
  };
  const wordLanes = words.map(([from, to]) => laneOf(from, to)), below = lanes.length;
  for (let k = 0; k < below; k++) lanes[k] = [[-1, Infinity]];
  const barLanes = new Map(order.map((at) => [at, laneOf(edges[at][0], edges[at][1])]));
  const height = lanes.length * 26 + 20, y = (lane) => height - 20 - (lane + 1) * 26;
  const svg = sheet(ends[ends.length - 1], height, "chart-drawing", 1,
    nodes.map((node) => [draw("line", { class: "rail", x1: x(node), x2: x(node), y1: 0, y2: height - 16 }), draw("text", { x: x(node), y: height - 2, "text-anchor": "middle" }, String(node))]),
    words.map(([from, to, word, kind], at) => draw("text", { class: "word" + kind, x: (x(from) + x(to)) / 2, y: y(wordLanes[at]) + 17, "text-anchor": "middle" }, word)),
    edges.map((edge, at) => draw("g", { class: "class" + (edge[3] ? " root" : ""), "data-class": at + 1, tabindex: at ? "-1" : "0", role: "button", "aria-label": `class ${at + 1}, ${edge[2]}, from ${edge[0]} to ${edge[1]}${edge[3] ? ", a root" : ""}`, transform: `translate(${x(edge[0])} ${y(barLanes.get(at))})`, click: () => choose(at + 1, false) },
      draw("title", {}, `${texts[at]} ${edge[0]}:${edge[1]}, ${plural(edge[4].length, "way")}`),
      draw("rect", { class: "bar-box", x: 2, y: 2, width: x(edge[1]) - x(edge[0]) - 4, height: 22, rx: 4 }),
      draw("text", { x: (x(edge[1]) - x(edge[0])) / 2, y: 17, "text-anchor": "middle" }, texts[at]))));
  svg.dataset.classes = edges.length;
  roving(svg, ".class", (here, key) => {
    const number = Number(here.dataset.class), go = { ArrowRight: 1, ArrowDown: -1, ArrowLeft: -1, ArrowUp: 1 }[key];
    if (key === "Enter" || key === " ") choose(number, true);
    return key === "Enter" || key === " " ? here : go && svg.querySelector(`[data-class="${number + go}"]`);
  });
  return svg;
}

function chartTable(edges, choose) {
  return make("table", { class: "classes" }, make("thead", {}, make("tr", {}, ["class", "from:to", "type", "made by"].map((name) => make("th", { scope: "col" }, name)))),
    make("tbody", {}, edges.map((edge, at) => make("tr", { "data-class": at + 1, class: "class-row" }, make("td", {}, String(at + 1)), make("td", {}, `${edge[0]}:${edge[1]}`), make("td", {}, edge[2] + (edge[3] ? " ★" : "")),
      make("td", { class: "wide" }, edge[4].map(([maker, daughters]) => make("div", {}, daughters.length ? [maker + " ", daughters.map((one) => [make("button", { type: "button", class: "var", click: () => choose(one, true) }, String(one)), " "])] : maker)))))));
}
