"use strict";
// A clerk's till. A click has an id of its own, which this tab keeps until it is answered: the same click again counts once.

const HOLD_MINUTES = Number(new URLSearchParams(location.search).get("hold") ?? 5);
const QUIET = 350; // So many milliseconds after an answer no click is taken.
const SILENT = 12000; // After so many milliseconds without a word the page does not reach the gateway.
const REASONS = {
  "no-sale": "This site made no sale under that number. Give it back where it was sold.",
  refunded: "Nothing is left of that sale.",
  unknown: "This site does not know the event.",
  "history-full": "This site's history is full: call the manager.",
};

let chosen = localStorage.getItem("event");
let seats = 2;
let busy = null; // the click that is asked
let last = -Infinity; // when the last click was taken or answered
let seen = null; // what the gateway said last
let heard = 0; // when
let lag = 0; // how far the gateway's clock is ahead
let drawn = "";

const field = (id) => document.getElementById(id);
const plural = (count, word) => `${count} ${word}${count === 1 ? "" : "s"}`;
const now = () => Date.now() / 1000 + lag;
const openSeats = () => seen?.events[chosen]?.open ?? 0;
const clock = (time) => new Date(time * 1000).toLocaleTimeString("en-GB");

function post(path, body) {
  const headers = { "Content-Type": "application/json" };
  return fetch(path, { method: "POST", headers, body: JSON.stringify(body), signal: AbortSignal.timeout(15000) });
}

function element(name, properties, ...children) {
  const made = Object.assign(document.createElement(name), properties);
  made.append(...children);
  return made;
}

function say(kind, head, text = "") {
  field("result").className = kind;
  field("result").replaceChildren(element("b", { textContent: head }), element("span", { textContent: text }));
}

// What a click came to.

function sayAnswer(click, body) {
  const [word, rest] = [body.reply.split(" ")[0], Number(body.reply.split(" ")[1])];
  if (word === "done") return sayDone(click, body);
  if (word === "short" || word === "low") {
    const elsewhere = openSeats() > rest ? `${openSeats()} are open at all sites: they may be ceded to this one. ` : "";
    return say("bad", rest ? `Only ${plural(rest, "seat")} left here` : "Sold out here", elsewhere + "Nothing was sold.");
  }
  if (word === "too-many") return say("bad", `Only ${plural(rest, "seat")} of that sale can be given back`, "Nothing was given back.");
  return say("bad", "Refused: " + word, REASONS[word] ?? "");
}

function sayDone(click, body) {
  if (click.verb === "refund") {
    return say("good", "Given back", `${click.seats ? plural(click.seats, "seat") : "all that was left"} of sale ${click.sale}`);
  }
  const what = `${body.event}, number ${body.number}`;
  if (!body.until) return say("good", `Sold: ${plural(body.seats, "seat")}`, `${body.event}, ticket ${body.number}`);
  if (body.until <= now()) return say("bad", "Sold, and given back as you asked", what);
  return say("good", `Held: ${plural(body.seats, "seat")}`, `${what}. Given back by itself at ${clock(body.until)} unless it is paid.`);
}

// Whether the click is answered, or will never be.
async function attempt(click) {
  const reply = await post("/ask/" + click.verb, click);
  if (reply.status === 401) {
    say("wait", "Logged out", "Log in again: this request goes on then.");
    location.assign("/login");
    return new Promise(() => {});
  }
  const body = await reply.json();
  if (body.state === "answered") sayAnswer(click, body);
  else if (body.state === "not-asked") say("bad", "The office is closed", "Nothing was sold and nothing was given back.");
  else if (body.state === "wrong") say("bad", "Not done", body.error);
  else {
    say("wait", "No reply yet", `Asked again under number ${body.number ?? ""}. It counts once or not at all: hand out no ticket before it is answered.`);
    return false;
  }
  return true;
}

// Asks until it is answered. If the page is closed meanwhile, its next load goes on with the same click.
async function ask(click) {
  if (busy) return;
  busy = click;
  sessionStorage.setItem("click", JSON.stringify(click));
  show();
  const what = click.verb === "sell" ? `${plural(click.seats, "seat")} of ${click.event}` : `refund of ${click.sale}`;
  const slow = setTimeout(() => say("wait", "Asking ..", what), 250);
  for (let pause = 300, isOver = false; !isOver; pause = Math.min(2 * pause, 3000)) {
    try {
      isOver = await attempt(click);
    } catch {
      say("wait", "No contact", "This page does not reach the gateway, and asks again. It counts once or not at all: hand out no ticket before it is answered.");
    }
    clearTimeout(slow);
    if (!isOver) await new Promise((done) => setTimeout(done, pause));
  }
  sessionStorage.removeItem("click");
  busy = null;
  last = performance.now();
  show();
}

// The second click of a double click, a key that is held down, and what comes right after an answer are no requests.
function request(event, body) {
  if (busy || event.repeat || event.detail > 1 || performance.now() - last <= QUIET) return;
  last = performance.now();
  ask({ click: crypto.randomUUID(), ...body });
}

function sell(event) {
  if (chosen) request(event, { verb: "sell", event: chosen, seats });
}

function hold(event) {
  if (chosen) request(event, { verb: "sell", event: chosen, seats, minutes: HOLD_MINUTES });
}

function refund(event, sale, part) {
  request(event, { verb: "refund", sale, ...(part ? { seats: part } : {}) });
}

async function pay(sale) {
  try {
    const body = await (await post("/paid", { sale })).json();
    if (body.state === "done") say("good", "Paid", `ticket ${sale}`);
    else say("bad", "Too late", "That hold was given back: sell again.");
  } catch {
    say("bad", "No contact with the box office computer", "Try again.");
  }
}

async function release(sale) {
  try {
    await post("/release", { sale });
  } catch {
    say("bad", "No contact with the box office computer", "Try again.");
  }
}

// What is shown.

function button(text, act, name) {
  const made = element("button", { textContent: text, type: "button" });
  if (name) made.setAttribute("aria-label", name);
  made.addEventListener("click", act);
  return made;
}

function row(cells, kind = "") {
  return element("tr", { className: kind }, ...cells.map(([text, name]) => element("td", { className: name ?? "" }, ...[text].flat())));
}

function table(heads, rows) {
  const head = element("tr", {}, ...heads.map(([text, name]) => element("th", { textContent: text, className: name ?? "" })));
  return element("table", {}, head, ...rows);
}

const empty = (text) => element("p", { textContent: text, className: "empty" });

function remaining(until) {
  const left = Math.max(0, Math.ceil(until - now()));
  return left ? `${Math.floor(left / 60)}:${String(left % 60).padStart(2, "0")}` : "giving back";
}

function holdRow(held) {
  const does = [
    button("Paid", () => pay(held.number), `hold ${held.number} is paid`),
    button("Release", () => release(held.number), `release hold ${held.number}`),
  ];
  const made = row([[String(held.number)], [held.event], [String(held.seats), "n"], [remaining(held.until), "n"], [does, "do"]]);
  made.children[3].dataset.until = held.until;
  return made;
}

function saleRow(sale) {
  const isGone = sale.back >= sale.seats || sale.state === "released";
  let does = [button("Refund", (event) => refund(event, sale.number), `refund sale ${sale.number}`)];
  if (sale.state === "asking") does = [button("Give back if sold", () => release(sale.number))];
  else if (isGone) does = "given back";
  else if (sale.state === "held") does = "held";
  const count = sale.back && !isGone ? `${sale.seats} − ${sale.back}` : String(sale.seats);
  return row([[String(sale.number)], [sale.event], [count, "n"], [clock(sale.at)], [does, "do"]], isGone ? "gone" : sale.state === "asking" ? "late" : "");
}

function state() {
  if (!seen || performance.now() - heard > SILENT) return ["no contact", "closed", seen ? "this page does not reach the gateway" : ""];
  if (seen.office !== "open") return ["office closed", "closed", "sales are not possible until it is opened again"];
  return busy || seen.till?.waiting ? ["asking", "asking", ""] : ["open", "open", ""];
}

function showState() {
  const [text, kind, more] = state();
  field("state").textContent = text;
  field("state").className = "state " + kind;
  field("more").textContent = more;
  field("numbers").className = "numbers" + (kind === "closed" ? " old" : "");
  field("as").textContent = kind === "closed" && seen?.heard ? `as of ${clock(seen.heard)}` : "";
  for (const id of ["sell", "hold"]) field(id).disabled = Boolean(busy) || !chosen || kind === "closed";
  field("sell").textContent = `Sell ${seats}`;
  field("hold").textContent = `Hold ${seats} for ${HOLD_MINUTES} min`;
  for (const each of field("seats").children) each.setAttribute("aria-pressed", Number(each.textContent) === seats);
  for (const each of document.querySelectorAll("[data-until]")) each.textContent = remaining(Number(each.dataset.until));
}

// What the office said is drawn when it changes alone: a button that is made again would lose a click or the focus.
function show() {
  showState();
  if (!seen) return;
  const names = Object.keys(seen.events);
  if (names.length && !names.includes(chosen)) chosen = names[0];
  const key = JSON.stringify([seen.events, seen.till?.holds, seen.till?.sales, chosen]);
  if (key === drawn) return;
  drawn = key;
  field("who").textContent = seen.name ?? "Till";
  field("events").replaceChildren(...names.map(eventButton));
  const it = seen.events[chosen];
  field("left").textContent = it ? it.left.toLocaleString("en") : "–";
  field("open").textContent = it ? (it.open?.toLocaleString("en") ?? "?") : "–";
  field("sold").textContent = it ? (it.sold - it.refunded).toLocaleString("en") : "–";
  if (seen.till) showTill(seen.till);
}

function eventButton(name) {
  const made = button(name, () => choose(name));
  made.setAttribute("aria-pressed", name === chosen);
  return made;
}

function showTill({ holds, sales }) {
  const holdHeads = [["number"], ["event"], ["seats", "n"], ["time left", "n"], [""]];
  field("holds").replaceChildren(holds.length ? table(holdHeads, holds.map(holdRow)) : empty("none"));
  const saleHeads = [["number"], ["event"], ["seats", "n"], ["at"], [""]];
  field("sales").replaceChildren(sales.length ? table(saleHeads, sales.slice(0, 12).map(saleRow)) : empty("none yet"));
}

function choose(name) {
  chosen = name;
  localStorage.setItem("event", name);
  show();
}

function chooseSeats(count) {
  seats = count;
  show();
}

function onKey(event) {
  if (event.key === "Escape") return document.activeElement.blur();
  if (event.target.tagName === "INPUT" || event.ctrlKey || event.altKey || event.metaKey) return;
  const names = Object.keys(seen?.events ?? {});
  const step = { ArrowRight: 1, ArrowLeft: names.length - 1 }[event.key];
  if (/^[0-9]$/.test(event.key)) chooseSeats(Number(event.key) || 10);
  else if (step !== undefined && names.length) choose(names[(names.indexOf(chosen) + step) % names.length]);
  else if (event.key === "Enter" && event.target.tagName !== "BUTTON" && !field("sell").disabled) sell(event);
  else if (event.key === "h" && !field("hold").disabled) hold(event);
  else if (event.key === "p" && seen?.till?.holds.length && !event.repeat) pay(seen.till.holds[0].number);
  else if (event.key === "r") {
    event.preventDefault();
    field("number").focus();
  }
}

function onFind(event) {
  event.preventDefault();
  const [sale, part] = [Number(field("number").value), Number(field("part").value)];
  if (!(sale > 0)) return;
  refund({}, sale, part);
  field("find").reset();
  field("number").blur();
}

function listen() {
  const stream = new EventSource("/stream");
  stream.onmessage = (event) => {
    seen = JSON.parse(event.data);
    lag = seen.now - Date.now() / 1000;
    heard = performance.now();
    show();
  };
  stream.onerror = () => {
    heard = -SILENT;
    show();
    if (stream.readyState === EventSource.CLOSED) setTimeout(() => location.reload(), 3000);
  };
}

for (let count = 1; count <= 10; count++) field("seats").append(button(String(count), () => chooseSeats(count)));
field("sell").addEventListener("click", sell);
field("hold").addEventListener("click", hold);
field("find").addEventListener("submit", onFind);
field("logout").addEventListener("click", async () => {
  await post("/logout", {});
  location.replace("/login");
});
document.addEventListener("keydown", onKey);
listen();
setInterval(show, 500);
const kept = sessionStorage.getItem("click");
if (kept) ask(JSON.parse(kept));
