"use strict";
// A manager's board: of each event what is sold and may be sold, now and over the night.

const NS = "http://www.w3.org/2000/svg";
const SILENT = 12000;
const NEAR = 0.9; // From this part of its LIMIT on a history is marked.
const [WIDTH, HEIGHT, LEFT, BELOW] = [1000, 170, 60, 22];

let seen = null;
let points = {};
let heard = 0;

const field = (id) => document.getElementById(id);
const figure = (count) => (count === null || count === undefined ? "?" : count.toLocaleString("en"));
const clock = (time) => new Date(time * 1000).toLocaleTimeString("en-GB");

function element(name, properties, ...children) {
  const made = Object.assign(document.createElement(name), properties);
  made.append(...children);
  return made;
}

function draw(name, marks, text) {
  const made = document.createElementNS(NS, name);
  for (const [key, value] of Object.entries(marks)) made.setAttribute(key, value);
  if (text !== undefined) made.textContent = text;
  return made;
}

// The name of a site, and the class of its colour.
const site = (number) => `site ${number}` + (number === seen.history?.site ? ", here" : "");
const shade = (number) => `share s${number % 16}`;

// What each site has of an event, if this view is possible.
const shares = (it) => (it.shares?.every(([left]) => left !== null) ? it.shares : null);

// The seats of an event by where they are, as far as this site knows: name, count, and the class of the colour.
function parts(it) {
  const sold = it.sold - it.refunded;
  if (shares(it)) return [["sold", sold, "sold"], ...shares(it).map(([left], at) => [`left at ${site(at)}`, left, shade(at)])];
  const elsewhere = Math.max(0, it.released - sold - it.left);
  return [["sold", sold, "sold"], ["left here", it.left, "here"], ["left elsewhere, or under way", elsewhere, "way"]];
}

function bar(it) {
  const svg = draw("svg", { viewBox: `0 0 ${WIDTH} 44`, role: "img", width: "100%" });
  let x = 0;
  for (const [name, count, kind] of parts(it)) {
    const width = (WIDTH * count) / Math.max(1, it.released);
    const rect = draw("rect", { x, width, height: 40, class: kind });
    rect.append(draw("title", {}, `${name}: ${figure(count)}`));
    svg.append(rect);
    if (width > 60) svg.append(draw("text", { x: x + width / 2, y: 25, "text-anchor": "middle", class: "in" }, figure(count)));
    x += width;
  }
  return svg;
}

// A stepped area between two lists of heights.
function area(xs, below, above, kind) {
  let path = "";
  xs.forEach((x, at) => {
    if (at) path += `H${x.toFixed(1)}`;
    path += (at ? "V" : `M${x.toFixed(1)},`) + above[at].toFixed(1);
  });
  for (let at = xs.length - 1; at >= 0; at--) {
    path += `V${below[at].toFixed(1)}`;
    if (at < xs.length - 1) path += `H${xs[at].toFixed(1)}`;
  }
  return draw("path", { d: path + "Z", class: kind });
}

function overTime(every) {
  const svg = draw("svg", { viewBox: `0 0 ${WIDTH} ${HEIGHT}`, role: "img", width: "100%" });
  const sites = Math.max(0, ...every.map((point) => point.lefts.length));
  const list = every.filter((point) => !sites || point.lefts.length);
  if (list.length < 2) return svg;
  const begin = list[0].t;
  const end = Math.max(list.at(-1).t, begin + 60);
  const top = Math.max(1, ...list.map((point) => point.released));
  const x = (time) => LEFT + ((WIDTH - LEFT - 8) * (time - begin)) / (end - begin);
  const y = (count) => 8 + (HEIGHT - BELOW - 8) * (1 - count / top);
  const xs = list.map((point) => x(point.t));
  let counts = list.map((point) => point.sold);
  svg.append(area(xs, list.map(() => y(0)), counts.map(y), "sold"));
  const add = (more, kind) => {
    const above = counts.map((count, at) => count + (more(list[at]) ?? 0));
    svg.append(area(xs, counts.map(y), above.map(y), kind));
    counts = above;
  };
  if (sites === 0) add((point) => point.left, "here");
  for (let at = 0; at < sites; at++) add((point) => point.lefts[at], shade(at));
  for (const count of [0, Math.round(top / 2), top]) {
    svg.append(draw("line", { x1: LEFT, x2: WIDTH - 8, y1: y(count), y2: y(count), class: "rule" }));
    svg.append(draw("text", { x: LEFT - 6, y: y(count) + 4, "text-anchor": "end" }, figure(count)));
  }
  for (const [time, anchor] of [[begin, "start"], [(begin + end) / 2, "middle"], [end, "end"]]) {
    svg.append(draw("text", { x: x(time), y: HEIGHT - 5, "text-anchor": anchor }, clock(time)));
  }
  return svg;
}

function row(tag, cells) {
  return element("tr", {}, ...cells.map((text, at) => element(tag, { textContent: text, className: at ? "n" : "" })));
}

// A row for each site: what it may sell, what it sold, and what it took back.
function table(it) {
  const rows = it.shares.map((share, at) => row("td", [site(at), ...share.map(figure)]));
  const head = row("th", ["as far as this site knows", "may sell", "sold", "took back"]);
  return element("table", {}, element("thead", {}, head), element("tbody", {}, ...rows));
}

// What sites ceded: who has fewer, who has more, and how many.
function move({ t, change }) {
  const named = (sign) => change.map((count, at) => [at, sign * count]).filter(([, count]) => count > 0);
  const [from, to] = [named(-1), named(1)];
  const isOne = from.length === 1 && to.length === 1 && from[0][1] === to[0][1];
  const words = (list) => list.map(([at, count]) => site(at) + (isOne ? "" : ` (${figure(count)})`)).join(", ");
  const text = `${words(from)} → ${words(to)}` + (isOne ? `: ${figure(from[0][1])} seats` : "");
  return element("li", {}, element("span", { textContent: clock(t) }), text);
}

function moves(name) {
  const list = seen.moves?.[name] ?? [];
  if (!list.length) return [];
  return [element("h2", { textContent: "Ceded" }), element("ul", { className: "moves" }, ...list.map(move).reverse())];
}

function section(name, it) {
  const made = element("section", {}, element("h1", { textContent: name }));
  if (!it) {
    made.append(element("p", { className: "empty", textContent: "This site does not know the event yet." }));
    return made;
  }
  const back = it.refunded ? ` (${figure(it.sold)} sold, ${figure(it.refunded)} given back)` : "";
  const words = [`${figure(it.released)} seats released`, `${figure(it.sold - it.refunded)} sold${back}`, `${figure(it.open)} open`];
  const legend = parts(it).map(([text, count, kind]) => element("span", {}, element("i", { className: kind }), `${text} ${figure(count)}`));
  made.append(
    element("p", { textContent: words.join(" · ") }),
    bar(it),
    element("div", { className: "legend" }, ...legend),
    overTime(points[name] ?? []),
    ...(it.shares ? [table(it)] : []),
    ...moves(name),
  );
  return made;
}

function show() {
  const isCut = performance.now() - heard > SILENT;
  const isOpen = !isCut && seen?.office === "open";
  field("state").textContent = isCut ? "no contact" : isOpen ? "open" : "office closed";
  field("state").className = "state " + (isOpen ? "open" : "closed");
  if (!seen) return;
  const history = seen.history;
  const isNear = history && history.entries >= NEAR * (history.limit - history.reserve);
  const used = history ? `history ${figure(history.entries)} of ${figure(history.limit)}${isNear ? ", nearly full" : ""}` : "";
  field("more").textContent = history ? `${used} · ${history.callers} callers` : "";
  field("more").className = isNear ? "late" : "";
  field("at").textContent = seen.heard ? `as of ${clock(seen.heard)}` : "";
  const silent = seen.silent.map(({ site: number, due, heard }) => {
    const last = heard ? `last heard of ${clock(heard)}` : "never heard of";
    return element("p", { className: "late", textContent: `Site ${number} is silent: ${last}, something is due to it since ${clock(due)}` });
  });
  field("events").replaceChildren(...silent, ...Object.entries(seen.events).map(([name, it]) => section(name, it)));
}

function note() {
  for (const [name, it] of Object.entries(seen.events)) {
    const list = (points[name] ??= []);
    if (it && (!list.length || seen.heard - list.at(-1).t > 0.2)) {
      const lefts = (it.shares ?? []).map(([left]) => left);
      list.push({ t: seen.heard, sold: it.sold - it.refunded, released: it.released, left: it.left, lefts });
    }
  }
}

async function begin() {
  points = await (await fetch("/points")).json();
  const stream = new EventSource("/stream");
  stream.onmessage = (event) => {
    seen = JSON.parse(event.data);
    heard = performance.now();
    if (seen.heard) note();
    show();
  };
  stream.onerror = () => {
    heard = -SILENT;
    show();
  };
  setInterval(show, 2000);
}

field("logout").addEventListener("click", async () => {
  await fetch("/logout", { method: "POST", headers: { "Content-Type": "application/json" }, body: "{}" });
  location.replace("/login");
});
begin();
