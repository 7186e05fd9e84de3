/* Trees: reading them, placing nodes so that no two labels meet, and drawing. Nothing here recurs, so depth is no limit. */
const GAP = 18;

function readTree(text) {
  const token = /[()]|"(?:[^"\\]|\\.)*"|[^\s()"]+/g;
  const above = [];
  const leaves = [];
  let root = null, leaf = 0, found;
  while ((found = token.exec(text))) {
    const at = found[0], node = above[above.length - 1];
    if (at === "(") {
      const made = { name: token.exec(text)[0], daughters: [], words: null, mother: node || null, open: true, leaves, first: leaves.length };
      if (node) node.daughters.push(made);
      root = root || made;
      above.push(made);
    } else if (at === ")") {
      above.pop();
      if (node.words !== null) {
        if (node.from === undefined) node.from = leaf, node.to = leaf + node.words.split(" ").length;
        leaf = node.to;
        leaves.push(node.words);
      } else {
        node.from = node.daughters[0].from;
        node.to = node.daughters[node.daughters.length - 1].to;
      }
      node.last = leaves.length;
    } else if (at[0] === '"') node.words = at.slice(1, -1).replace(/\\(.)/gs, "$1");
    else if (node.from === undefined) node.from = Number(at);
    else node.to = Number(at);
  }
  return root;
}

function shownDaughters(node) {
  return node.open ? node.daughters : [];
}

/* All nodes that are shown, mothers before daughters. */
function inOrder(root, daughters = shownDaughters) {
  const list = [], left = [root];
  while (left.length) {
    const node = left.pop();
    list.push(node);
    left.push(...daughters(node).slice().reverse());
  }
  return list;
}

/* The first words that a node stands over. */
function words(node) {
  return shortened(node.leaves.slice(node.first, Math.min(node.last, node.first + 12)).join(" "), 40);
}

/* Gives each shown node x (its middle) and y (its upper side), where each has w and h. An outline has the left and the right
   end of each level, the deepest first, less its base; the deeper of two is kept and changed, so the work is small. */
function place(root, levelGap) {
  const nodes = inOrder(root);
  for (let at = nodes.length - 1; at >= 0; at--) {
    const node = nodes[at], below = shownDaughters(node);
    let line = below.length ? below[0].outline : { left: [], right: [], base: 0 };
    const offsets = [0];
    for (let k = 1; k < below.length; k++) {
      const [joined, offset] = beside(line, below[k].outline);
      line = joined;
      offsets.push(offset);
    }
    const middle = (offsets[0] + offsets[offsets.length - 1]) / 2;
    line.base -= middle;
    below.forEach((one, k) => { one.offset = offsets[k] - middle; });
    line.left.push(-node.w / 2 - line.base);
    line.right.push(node.w / 2 - line.base);
    node.outline = line;
  }
  return settle(root, nodes, levelGap);
}

/* Puts an outline to the right of another one: the joined outline and how far the second one moved. */
function beside(a, b) {
  const least = Math.min(a.left.length, b.left.length);
  let shift = -Infinity;
  for (let level = 1; level <= least; level++) {
    const right = a.right[a.right.length - level] + a.base, left = b.left[b.left.length - level] + b.base;
    shift = Math.max(shift, right + GAP - left);
  }
  if (a.left.length >= b.left.length) {
    for (let level = 1; level <= least; level++) a.right[a.right.length - level] = b.right[b.right.length - level] + b.base + shift - a.base;
    return [a, shift];
  }
  b.base += shift;
  for (let level = 1; level <= least; level++) b.left[b.left.length - level] = a.left[a.left.length - level] + a.base - b.base;
  return [b, shift];
}

function settle(root, nodes, levelGap) {
  const heights = [];
  root.level = 0;
  for (const node of nodes) {
    heights[node.level] = Math.max(heights[node.level] || 0, node.h);
    for (const one of shownDaughters(node)) one.level = node.level + 1;
  }
  const tops = [0];
  heights.forEach((height, level) => tops.push(tops[level] + height + levelGap));
  let least = Infinity, most = -Infinity;
  root.x = 0;
  for (const node of nodes) {
    node.y = tops[node.level];
    node.outline = null;
    least = Math.min(least, node.x - node.w / 2);
    most = Math.max(most, node.x + node.w / 2);
    for (const one of shownDaughters(node)) one.x = node.x + one.offset;
  }
  for (const node of nodes) node.x -= least;
  return { nodes, width: most - least, height: tops[heights.length] - levelGap };
}

/* A drawing of its own size, that can be made smaller or larger. */
function sheet(width, height, kind, scale, ...parts) {
  const w = Math.ceil(width + 12), h = Math.ceil(height + 12);
  return draw("svg", { class: kind, width: w * scale, height: h * scale, viewBox: `-6 -6 ${w} ${h}` }, ...parts);
}

const PAD = 5;

function sizeNode(node) {
  if (node.words !== null) {
    node.lines = [["entry", node.name, "italic 12px"], ["word", node.words, "600 14px"]];
  } else if (node.open) node.lines = [["rule", node.name, "600 13px"]];
  else node.lines = [["rule", node.name, "600 13px"], ["rest", "▸ " + words(node), "12px"]];
  node.w = Math.max(...node.lines.map(([, text, style]) => wide(text, style))) + 2 * PAD;
  node.h = 19 * node.lines.length + 2;
}

/* Draws a tree into a frame. `own` says of a node whether it stands in this reading and not in all. */
function showTree(root, own, label) {
  const box = frame("tree tall", label + "; arrow keys move in it, Enter folds", null);
  box.removeAttribute("tabindex");
  let scale = 1;
  const state = { box, root, zoom };
  function redraw(focused) {
    const all = inOrder(root);
    all.forEach(sizeNode);
    const { nodes, width, height } = place(root, 20);
    const lines = [];
    for (const node of nodes) for (const one of shownDaughters(node)) lines.push(`M${round(node.x)} ${round(node.y + node.h)}L${round(one.x)} ${round(one.y)}`);
    const svg = sheet(width, height, "tree-drawing", scale, draw("path", { class: "edges", d: lines.join("") }), nodes.map((node) => treeNode(node, own)));
    svg.setAttribute("role", "tree");
    svg.setAttribute("aria-label", label);
    for (const [name, count] of [["nodes", inOrder(root, (one) => one.daughters).length], ["shown", nodes.length]]) svg.dataset[name] = count;
    svg.addEventListener("click", (event) => { const hit = event.target.closest(".node"); if (hit) fold(hit.node); });
    roving(svg, ".node", (here, key) => step(here.node, key, fold));
    box.replaceChildren(svg);
    const first = focused || root;
    first.drawn.setAttribute("tabindex", "0");
    if (focused) focused.drawn.focus();
  }
  function fold(node) {
    if (!node.daughters.length) return;
    node.open = !node.open;
    redraw(node);
  }
  function zoom(factor) {
    scale = zoomed(box.firstChild, factor);
    if (factor === "narrow" || factor === 1) box.scrollTo((root.x + 6) * scale - box.clientWidth / 2, 0);
  }
  redraw();
  return state;
}

function round(number) {
  return Math.round(number * 2) / 2;
}

function treeNode(node, own) {
  const folds = node.daughters.length > 0;
  const says = node.words !== null ? `${node.name}, word ${node.words}` : `${node.name}, over ${words(node)}`;
  node.drawn = draw("g", {
    class: "node" + (folds ? " folds" : "") + (own && own(node) ? " own" : ""), transform: `translate(${round(node.x)} ${round(node.y)})`, role: "treeitem",
    tabindex: "-1", "aria-label": says, "aria-level": node.level + 1, "aria-expanded": folds ? String(node.open) : null, "data-from": node.from, "data-to": node.to,
  },
  draw("title", {}, `${node.name} ${node.from}:${node.to}` + (folds ? "  (click: fold)" : "")),
  draw("rect", { class: "back", x: -node.w / 2, y: 0, width: node.w, height: node.h, rx: 4 }),
  node.lines.map(([kind, text], at) => draw("text", { class: kind, x: 0, y: 15 + 19 * at, "text-anchor": "middle" }, text)));
  node.drawn.node = node;
  return node.drawn;
}

/* Where the focus goes in a tree. */
function step(node, key, fold) {
  const beside = node.mother ? node.mother.daughters : [node];
  const at = beside.indexOf(node);
  const there = {
    ArrowUp: node.mother, ArrowDown: shownDaughters(node)[0], ArrowLeft: beside[at - 1], ArrowRight: beside[at + 1],
    Home: rootOf(node), " ": node, Enter: node,
  }[key];
  if (key === "Enter" || key === " ") {
    fold(node);
    return node.drawn;
  }
  return there && there.drawn;
}

function rootOf(node) {
  while (node.mother) node = node.mother;
  return node;
}
