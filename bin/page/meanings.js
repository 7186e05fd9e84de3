/* MRSs: reading them, the table, the graph of handles, and scopes as trees of labels. */
function readMrs(text) {
  let at = 0;
  const mrs = { top: null, index: null, eps: [], hcons: [], icons: [], variables: new Map() };
  const skip = () => { while (at < text.length && /\s/.test(text[at])) at++; };
  const take = (form) => { skip(); form.lastIndex = at; const found = form.exec(text); at = form.lastIndex; return found[0]; };
  const sees = (mark) => { skip(); return text.startsWith(mark, at); };
  const mark = (expected) => { skip(); at += expected.length; };
  const NAME = /[^\s\[\]<>:"]+/y, PRED = /"(?:[^"\\]|\\.)*"|[^\s\[\]<>"]+/y, STRING = /"(?:[^"\\]|\\.)*"/y, LNK = /<[^>]*>/y;
  const plain = (quoted) => quoted.slice(1, -1).replace(/\\(.)/gs, "$1");
  function variable() {
    const name = take(NAME).toLowerCase();
    if (!mrs.variables.has(name)) mrs.variables.set(name, []);
    if (sees("[")) {
      mark("[");
      take(NAME);
      while (!sees("]")) {
        const key = take(NAME).toUpperCase();
        mark(":");
        const value = take(NAME), list = mrs.variables.get(name);
        if (!list.some(([one]) => one === key)) list.push([key, value]);
      }
      mark("]");
    }
    return name;
  }
  function ep() {
    mark("[");
    const one = { pred: take(PRED), span: "", label: null, roles: [] };
    if (text[at] === "<") one.span = take(LNK);
    if (one.pred[0] === '"') one.pred = plain(one.pred);
    while (!sees("]")) {
      const role = take(NAME).toUpperCase();
      mark(":");
      if (role === "LBL") one.label = variable();
      else if (sees('"')) one.roles.push({ role, value: plain(take(STRING)), isText: true });
      else one.roles.push({ role, value: variable(), isText: false });
    }
    mark("]");
    return one;
  }
  function constraints(into) {
    mark("<");
    while (!sees(">")) into.push([variable(), take(NAME).toLowerCase(), variable()]);
    mark(">");
  }
  mark("[");
  if (sees("<")) take(LNK);
  if (sees('"')) take(STRING);
  while (!sees("]")) {
    const name = take(NAME).toUpperCase();
    mark(":");
    if (name === "TOP" || name === "LTOP") mrs.top = variable();
    else if (name === "INDEX") mrs.index = variable();
    else if (name === "HCONS") constraints(mrs.hcons);
    else if (name === "ICONS") constraints(mrs.icons);
    else {
      mark("<");
      while (!sees(">")) mrs.eps.push(ep());
      mark(">");
    }
  }
  return mrs;
}

const isHandle = (name) => /^h\d+$/.test(name);
const isQuantifier = (ep) => ["RSTR", "BODY"].every((role) => ep.roles.some((one) => one.role === role && !one.isText && isHandle(one.value)));
/* The roles in the order in which they are read: a quantifier's restriction before its body. */
const rolesOf = (ep) => (isQuantifier(ep) ? ep.roles.slice().sort((a, b) => (a.role === "BODY") - (b.role === "BODY")) : ep.roles);
const holesOf = (ep) => rolesOf(ep).filter((one) => !one.isText && isHandle(one.value));
const shortValue = (one) => (one.isText ? `"${one.value}"` : one.value);

/* A variable as a button: pointing at it, or pressing it, shows where else it stands. */
function variable(name) {
  return make("button", { type: "button", class: "var " + name.replace(/\d+$/, ""), "data-var": name, tabindex: "-1", "aria-label": "variable " + name }, name);
}

/* Lets the variables within an element show their other places. */
function pins(root) {
  let pinned = null;
  const show = (name) => {
    for (const one of root.querySelectorAll("[data-var]")) one.classList.toggle("pinned", one.dataset.var === name);
  };
  const named = (event) => { const hit = event.target.closest("[data-var]"); return hit ? hit.dataset.var : null; };
  root.addEventListener("mouseover", (event) => show(named(event) || pinned));
  root.addEventListener("focusin", (event) => show(named(event) || pinned));
  root.addEventListener("mouseleave", () => show(pinned));
  root.addEventListener("click", (event) => {
    const name = named(event);
    if (name) show(pinned = pinned === name ? null : name);
  });
  const first = root.querySelector(".var");
  if (first) first.setAttribute("tabindex", "0");
  roving(root, ".var", (here, key) => {
    const all = [...root.querySelectorAll(".var")], at = all.indexOf(here);
    return { ArrowLeft: all[at - 1], ArrowRight: all[at + 1], ArrowUp: all[at - 1], ArrowDown: all[at + 1], Home: all[0], End: all[all.length - 1] }[key];
  });
}

const ROLES = ["ARG0", "ARG1", "ARG2", "ARG3", "ARG4", "RSTR", "BODY", "L-HNDL", "R-HNDL", "L-INDEX", "R-INDEX", "CARG"];

function mrsTable(mrs) {
  const met = new Set(mrs.eps.flatMap((ep) => ep.roles.map((one) => one.role)));
  const roles = [...ROLES.filter((role) => met.has(role)), ...[...met].filter((role) => !ROLES.includes(role)).sort()];
  const rows = mrs.eps.map((ep) => make("tr", { class: "ep" }, make("td", {}, variable(ep.label)), make("td", { class: "pred" }, ep.pred, ep.span ? make("span", { class: "count" }, " " + ep.span) : null),
    roles.map((role) => {
      const one = ep.roles.find((other) => other.role === role);
      return make("td", {}, !one ? null : one.isText ? make("span", { class: "text" }, shortValue(one)) : variable(one.value));
    })));
  const table = make("table", { class: "relations", "data-eps": mrs.eps.length },
    make("thead", {}, make("tr", {}, ["LBL", "relation", ...roles].map((name) => make("th", { scope: "col" }, name)))), make("tbody", {}, rows));
  const said = [...mrs.variables].filter(([, properties]) => properties.length);
  const constraint = (one) => make("li", { class: "constraint" }, variable(one[0]), ` ${one[1]} `, variable(one[2]));
  return make("div", { class: "mrs-table" },
    make("p", { class: "note" }, "TOP ", variable(mrs.top), "   INDEX ", variable(mrs.index)),
    make("div", { class: "scroll" }, table),
    mrs.hcons.length ? [make("h4", {}, "Constraints on handles"), make("ul", { class: "facts", style: "list-style:none;padding:0", "data-hcons": mrs.hcons.length }, mrs.hcons.map(constraint))] : null,
    mrs.icons.length ? [make("h4", {}, "Constraints on individuals"), make("ul", { class: "facts", style: "list-style:none;padding:0", "data-icons": mrs.icons.length }, mrs.icons.map(constraint))] : null,
    said.length ? [make("h4", {}, "Variables"), make("div", { class: "scroll" }, make("table", { class: "properties" }, make("tbody", {},
      said.map(([name, properties]) => make("tr", {}, make("th", { scope: "row" }, variable(name)), properties.map(([key, value]) => make("td", {}, `${key} `, make("span", { class: "text" }, value))))))))] : null);
}

/* A box for a label: its relations, and below them a cell for each hole. */
function boxOf(label, eps, extra) {
  const lines = eps.map((ep) => ({ text: `${ep.pred}(${ep.roles.filter((one) => one.isText || !isHandle(one.value)).map(shortValue).join(", ")})`, ep }));
  const holes = eps.flatMap((ep, at) => holesOf(ep).map((one) => ({ ...one, ep: at, text: (eps.length > 1 ? `${at + 1}. ` : "") + `${one.role} ${one.value}` })));
  const box = { label, lines, holes, eps, daughters: [], open: true, ...extra };
  if (eps.length > 1 && holes.length) lines.forEach((line, at) => { line.text = `${at + 1}. ${line.text}`; });
  for (const hole of holes) hole.w = wide(hole.text, "12px") + 14;
  const cells = holes.reduce((sum, hole) => sum + hole.w, 0);
  box.w = Math.max(wide(label, "11px") + 16, cells, ...lines.map((line) => wide(line.text, "13px") + 18));
  box.h = 18 + 19 * lines.length + (holes.length ? 24 : 4);
  let x = 0;
  for (const hole of holes) {
    hole.w *= cells ? Math.max(1, box.w / cells) : 1;
    hole.x = x + hole.w / 2;
    x += hole.w;
  }
  return box;
}

function drawBox(box) {
  const group = draw("g", { class: "box" + (box.eps.some(isQuantifier) ? " quantifier" : "") + (box.isTop ? " top" : ""), transform: `translate(${round(box.x - box.w / 2)} ${round(box.y)})`, "data-label": box.label },
    draw("rect", { class: "frame", width: box.w, height: box.h, rx: 6 }),
    draw("g", { "data-var": box.isTop ? null : box.label }, draw("rect", { class: "spot", x: 4, y: 3, width: wide(box.label, "11px") + 6, height: 14, rx: 3 }), draw("text", { class: "label", x: 7, y: 14 }, box.label)),
    box.lines.map((line, at) => draw("text", { class: "ep-line", x: 8, y: 31 + 19 * at }, line.text)),
    box.holes.length ? draw("path", { class: "cell", d: `M0 ${box.h - 22}H${box.w}` }) : null,
    box.holes.map((hole) => [
      hole.x > hole.w / 2 + 1 ? draw("path", { class: "cell", d: `M${hole.x - hole.w / 2} ${box.h - 22}V${box.h}` }) : null,
      draw("g", { "data-var": hole.value }, draw("rect", { class: "spot", x: hole.x - hole.w / 2 + 2, y: box.h - 20, width: hole.w - 4, height: 18, rx: 3 }), draw("text", { class: "hole", x: hole.x, y: box.h - 7, "text-anchor": "middle" }, hole.text)),
    ]));
  return group;
}

function boxesOf(mrs) {
  const byLabel = new Map();
  for (const ep of mrs.eps) byLabel.set(ep.label, [...(byLabel.get(ep.label) || []), ep]);
  return byLabel;
}

/* The graph of handles: from each hole a line to the label that it equals (whole) or is qeq to (dashed). */
function handleGraph(mrs) {
  const byLabel = boxesOf(mrs), boxes = new Map();
  for (const [label, eps] of byLabel) boxes.set(label, boxOf(label, eps));
  const start = boxOf("TOP " + mrs.top, [], { isTop: true, start: true });
  const edges = [];
  const reach = (from, hole, handle) => {
    if (boxes.has(handle)) edges.push({ from, hole, to: boxes.get(handle), kind: "direct" });
    for (const [left, , right] of mrs.hcons) if (left === handle && boxes.has(right)) edges.push({ from, hole, to: boxes.get(right), kind: "qeq" });
  };
  reach(start, null, mrs.top);
  for (const box of boxes.values()) for (const hole of box.holes) reach(box, hole, hole.value);
  const all = [start, ...boxes.values()];
  const size = layered(all, edges);
  const lines = edges.map((edge) => draw("path", { class: edge.kind, d: curve(edge) }));
  const svg = sheet(size.width, size.height, "handles", 1, lines, all.map(drawBox));
  fill(svg, { role: "img", "aria-label": "graph of handles: " + edges.map((edge) => `${edge.hole ? edge.hole.text : "TOP"} ${edge.kind === "qeq" ? "qeq" : "is"} ${edge.to.label}`).join("; "), "data-labels": boxes.size, "data-edges": edges.length }, []);
  return frame("handles-frame", "graph of handles", svg);
}

function curve(edge) {
  const points = [[edge.hole ? edge.from.x - edge.from.w / 2 + edge.hole.x : edge.from.x, edge.from.y + edge.from.h], ...edge.way.map((one) => [one.x, one.y + one.h / 2]), [edge.to.x, edge.to.y]];
  let path = `M${round(points[0][0])} ${round(points[0][1])}`;
  for (let k = 1; k < points.length; k++) {
    const [x, y] = points[k - 1], [u, v] = points[k], middle = (y + v) / 2;
    path += v > y ? `C${round(x)} ${round(middle)} ${round(u)} ${round(middle)} ${round(u)} ${round(v)}`
      : `C${round(x)} ${round(y + 40)} ${round(u)} ${round(v - 40)} ${round(u)} ${round(v)}`;
  }
  return path;
}

/* Places boxes in layers, each below those that lead to it; an edge over several layers goes by a place in each. */
function layered(boxes, edges) {
  const into = new Map(boxes.map((box) => [box, []]));
  for (const edge of edges) if (edge.from !== edge.to) into.get(edge.to).push(edge.from);
  const state = new Map();
  const layerOf = (box) => {
    if (state.get(box) === "open") return 0;
    if (box.layer === undefined) {
      state.set(box, "open");
      box.layer = box.start ? 0 : Math.max(1, ...into.get(box).map((one) => layerOf(one) + 1));
      state.set(box, "done");
    }
    return box.layer;
  };
  boxes.forEach(layerOf);
  const layers = [];
  const put = (one, layer) => (layers[layer] = layers[layer] || []).push(one);
  boxes.forEach((box) => put(box, box.layer));
  const links = [];
  for (const edge of edges) {
    edge.way = [];
    let before = edge.from;
    for (let layer = edge.from.layer + 1; layer < edge.to.layer; layer++) {
      const stop = { w: 10, h: 0, layer };
      put(stop, layer);
      edge.way.push(stop);
      links.push([before, stop, before === edge.from ? edge.hole : null]);
      before = stop;
    }
    links.push([before, edge.to, before === edge.from ? edge.hole : null]);
  }
  return setLayers(layers, links);
}

function setLayers(layers, links) {
  const gap = 26;
  let y = 0;
  for (const layer of layers) {
    let x = 0;
    const height = Math.max(...layer.map((one) => one.h));
    for (const one of layer) {
      one.x = x + one.w / 2;
      one.y = y;
      if (!one.lines) one.h = height;
      x += one.w + gap;
    }
    y += height + 46;
  }
  const anchor = (one, hole) => (hole ? one.x - one.w / 2 + hole.x : one.x);
  const wish = (one, down) => {
    const near = links.filter(([from, to]) => (down ? to : from) === one).map(([from, to, hole]) => (down ? anchor(from, hole) : to.x - (hole ? hole.x - one.w / 2 : 0)));
    return near.length ? near.reduce((sum, x) => sum + x, 0) / near.length : one.x;
  };
  for (let sweep = 0; sweep < 8; sweep++) {
    const down = sweep % 2 === 0;
    for (const layer of down ? layers : layers.slice().reverse()) {
      const wished = layer.map((one) => [one, wish(one, down)]);
      if (sweep < 6) wished.sort((a, b) => a[1] - b[1]);
      spread(wished, gap);
      layer.splice(0, layer.length, ...wished.map(([one]) => one));
    }
  }
  const all = layers.flat();
  closeGaps(all, gap);
  return { width: Math.max(...all.map((one) => one.x + one.w / 2)), height: y - 46 };
}

/* Takes away what is empty from above to below, but for a gap, and begins at 0. */
function closeGaps(all, gap) {
  let end = null, moved = 0;
  for (const one of all.slice().sort((a, b) => a.x - a.w / 2 - (b.x - b.w / 2))) {
    const left = one.x - one.w / 2;
    if (end === null) moved = left;
    else if (left - moved > end + gap) moved = left - end - gap;
    one.x -= moved;
    end = end === null ? one.x + one.w / 2 : Math.max(end, one.x + one.w / 2);
  }
}

/* Puts the members of a layer as near to their wishes as their order and widths allow: those that press together share a mean. */
function spread(wished, gap) {
  const blocks = [];
  for (const [one, x] of wished) {
    let block = { members: [one], offsets: [0], sum: x, x };
    while (blocks.length) {
      const before = blocks[blocks.length - 1], last = before.members[before.members.length - 1], first = block.members[0];
      const apart = before.offsets[before.offsets.length - 1] + last.w / 2 + gap + first.w / 2;
      if (block.x >= before.x + apart) break;
      blocks.pop();
      const offsets = [...before.offsets, ...block.offsets.map((offset) => offset + apart)];
      const sum = before.sum + block.sum - apart * block.members.length;
      block = { members: [...before.members, ...block.members], offsets, sum, x: sum / offsets.length };
    }
    blocks.push(block);
  }
  for (const block of blocks) block.members.forEach((one, k) => { one.x = block.x + block.offsets[k]; });
}

/* A scope as a tree of labels: below each label the labels of its holes. */
function scopeTree(mrs, scope) {
  const byLabel = boxesOf(mrs), holes = new Map(scope[1]), met = new Set();
  const root = boxOf(scope[0], byLabel.get(scope[0]) || []);
  const left = [root];
  while (left.length) {
    const box = left.pop();
    if (met.has(box.label)) continue;
    met.add(box.label);
    for (const hole of box.holes) {
      const label = holes.has(hole.value) ? holes.get(hole.value) : byLabel.has(hole.value) ? hole.value : null;
      if (label === null) continue;
      const below = boxOf(label, byLabel.get(label) || []);
      below.hole = hole;
      below.mother = box;
      box.daughters.push(below);
    }
    left.push(...box.daughters.slice().reverse());
  }
  return root;
}

function formula(box) {
  const inner = (ep, at) => {
    const args = rolesOf(ep).map((one) => {
      if (one.isText || !isHandle(one.value)) return shortValue(one);
      const below = box.daughters.find((other) => other.hole.role === one.role && other.hole.ep === at);
      return below ? formula(below) : one.value;
    });
    return `${ep.pred}(${args.join(", ")})`;
  };
  return box.eps.length ? box.eps.map(inner).join(" ∧ ") : box.label;
}

function scopeDrawing(mrs, scope, label) {
  const root = scopeTree(mrs, scope);
  const { nodes, width, height } = place(root, 34);
  const lines = nodes.flatMap((box) => box.daughters.map((below) => draw("path", { class: "direct", d: curve({ from: box, hole: below.hole, to: below, way: [] }) })));
  const svg = sheet(width, height, "scope-tree", 1, lines, nodes.map(drawBox));
  fill(svg, { role: "img", "aria-label": label, "data-labels": nodes.length, "data-root": round(root.x) }, []);
  return [frame("scope-frame", label, svg), make("p", { class: "formula" }, formula(root))];
}

/* Zooms a drawing of scopes, and shows its root. */
function atRoot(svg, factor) {
  const scale = zoomed(svg, factor);
  if (factor === "narrow" || factor === 1) svg.parentNode.scrollTo((Number(svg.dataset.root) + 6) * scale - svg.parentNode.clientWidth / 2, 0);
}

/* The scopes of an MRS, one at a time. */
function scopeView(mrs, scopes) {
  const view = make("div", { class: "scopes", "data-scopes": scopes.s ? scopes.s.length : 0 });
  if (scopes.f) return fill(view, {}, [make("h4", {}, "Scopes"), make("p", { class: "note" }, `refused: ${scopes.f}`)]);
  if (!scopes.s.length) return fill(view, {}, [make("h4", {}, "Scopes"), make("p", { class: "note" }, "It has no scoped reading.")]);
  let at = 0;
  const heading = make("span", { class: "name" }), stage = make("div", {});
  const show = (next) => {
    at = (next + scopes.s.length) % scopes.s.length;
    heading.textContent = `Scope ${at + 1} of ${scopes.s.length}`;
    stage.replaceChildren(...scopeDrawing(mrs, scopes.s[at], heading.textContent));
    if (stage.clientWidth) atRoot(stage.querySelector("svg"), "narrow");
  };
  show(0);
  const button = (text, move, label) => make("button", { type: "button", class: label, "aria-label": label + " scope", click: () => show(at + move) }, text);
  const many = scopes.s.length > 1;
  return fill(view, {}, [make("h4", {}, make("span", { class: "group" }, heading, many ? [button("‹", -1, "previous"), button("›", 1, "next")] : null)), stage]);
}
