// What is shown comes as JSON, and is put in as text alone: nothing of it is ever read as HTML.
"use strict";
const main = document.getElementById("main"), counts = document.getElementById("counts");
const WORDS = { live: "working", due: "about to go on", suspended: "waits", waits: "waits", again: "tried again soon", paused: "paused", ended: "ended", failed: "failed" };
const MOST = 400;
let only = "", after = [""], shown = null;

function make(kind, attributes = {}, ...inside) {
  const it = document.createElement(kind);
  for (const [name, value] of Object.entries(attributes)) name in it && typeof value !== "string" ? it[name] = value : it.setAttribute(name, value);
  it.append(...inside.filter(x => x !== null));
  return it;
}
const visible = text => text.replace(/[\u0000-\u001f\u007f-\u009f\u200b-\u200f\u2028-\u202e\u2066-\u2069\ufeff]/g, c => "\\u" + c.charCodeAt(0).toString(16).padStart(4, "0"));
const link = id => "#" + encodeURIComponent(id);
const status = it => make("span", { class: "status " + it }, WORDS[it] || it);
const cut = text => { text = visible(text); return text.length > MOST ? text.slice(0, MOST) + " … (" + text.length + " characters)" : text; };

function span(millis) {
  const s = Math.abs(millis) / 1000;
  return s < 1 ? "less than a second" : s < 100 ? Math.round(s) + " s" : s < 6000 ? Math.round(s / 60) + " min" : s < 172800 ? Math.round(s / 3600) + " h" : Math.round(s / 86400) + " days";
}
function moment(at, now) {
  const when = new Date(at).toLocaleString(undefined, { dateStyle: "medium", timeStyle: "medium" });
  return when + (at > now ? ", in " + span(at - now) : ", " + span(now - at) + " ago");
}

// The token of a worker that wants one is kept while this tab is open.
const token = () => sessionStorage.getItem("token");
async function ask(path, body) {
  const headers = { ...(body ? { "content-type": "application/json" } : {}), ...(token() ? { authorization: "Bearer " + token() } : {}) };
  const answer = await fetch("/ui/api/" + path, body ? { method: "POST", headers, body: JSON.stringify(body) } : { headers });
  const told = await answer.json();
  if (answer.status === 401) { drawToken(); throw new Unasked(); }
  if (!answer.ok) throw new Error(told.message || answer.statusText);
  return told;
}

class Unasked extends Error {}
function drawToken() {
  if (document.getElementById("token")) return;
  const it = make("input", { id: "token", type: "password", autocomplete: "off", "aria-label": "token", placeholder: "token" });
  main.replaceChildren(make("form", { onsubmit: event => { event.preventDefault(); sessionStorage.setItem("token", it.value); main.replaceChildren(); draw(); } },
    make("p", {}, "This worker wants the token of the file that --token names."), it, make("button", {}, "go on")));
  it.focus();
}

async function act(what, id, button) {
  if (what === "cancel" && !confirm("Cancel " + visible(id) + "? Its handler is told, and may undo what it did.")) return;
  button.disabled = true;
  try { await ask("act", { act: what, id }); await draw(); } catch (error) { if (!(error instanceof Unasked)) problem(error); } finally { button.disabled = false; }
}

function problem(error) {
  let it = document.getElementById("problem");
  if (!it) main.prepend(it = make("p", { id: "problem", role: "alert" }));
  it.textContent = "Not done: " + error.message;
}

async function drawList() {
  const told = await ask("list?only=" + only + "&after=" + encodeURIComponent(after[after.length - 1]));
  counts.textContent = told.live + " working, " + told.done + " ended since the worker began";
  const filter = (word, name) => make("button", { "aria-pressed": String(only === word), onclick: () => { only = word; after = [""]; draw(); } }, name);
  const find = make("input", { placeholder: "go to an id", "aria-label": "go to an id", class: "code" });
  const rows = told.rows.map(it => make("tr", {},
    make("td", { class: "code" }, make("a", { href: link(it.id) }, cut(it.id))),
    make("td", { class: "code" }, it.object === it.id ? "" : cut(it.object)),
    make("td", { class: "nowrap" }, status(it.status)),
    make("td", { class: "number" }, String(it.attempts)), make("td", { class: "number" }, String(it.entries))));
  main.replaceChildren(
    make("nav", {}, filter("", "all"), filter("open", "open"), filter("amiss", "amiss"),
      make("form", { onsubmit: event => { event.preventDefault(); if (find.value) location.hash = link(find.value); } }, find)),
    rows.length ? make("table", {}, make("thead", {}, make("tr", {}, make("th", {}, "id"), make("th", {}, "object"), make("th", {}, "status"), make("th", { class: "number" }, "attempts"), make("th", { class: "number" }, "entries"))), make("tbody", {}, ...rows))
      : make("p", { class: "soft" }, only ? "None of these." : "No job was made yet. POST /SERVICE/HANDLER makes one."),
    make("nav", {}, after.length > 1 ? make("button", { onclick: () => { after.pop(); draw(); } }, "before") : null,
      told.next !== null ? make("button", { onclick: () => { after.push(told.next); draw(); } }, "further") : null));
}

function step(it, now) {
  const came = it.came === null ? (it.is_waiting ? make("span", { class: "waits" }, it.kind === "run" ? "not done yet" : "waits") : "") : make("span", { class: "code long" + (it.is_failure ? " bad" : "") }, it.came === "" ? "done" : cut(it.came));
  return make("tr", {},
    make("td", { class: "number soft" }, String(it.place)), make("td", { class: "nowrap" }, it.kind),
    make("td", { class: "code long" + (it.kind === "answer" && it.is_failure ? " bad" : "") }, it.child ? make("a", { href: link(it.child) }, cut(it.about)) : cut(it.about), it.moment ? make("span", { class: "soft" }, (it.about ? " " : "") + "until " + moment(it.moment, now)) : null),
    make("td", {}, came));
}

async function drawOne(id) {
  const it = await ask("one?id=" + encodeURIComponent(id));
  const button = (what, name, kind = "") => make("button", { class: kind, onclick: event => act(what, id, event.target) }, name);
  const facts = [["status", status(it.is_failure ? "failed" : it.status)]];
  if (it.object && it.object !== id) facts.push(["object", cut(it.object)]);
  if (it.until) facts.push(["tried again", moment(it.until, it.now)]);
  if (it.answer !== null) facts.push(["answer", make("span", { class: "code" + (it.is_failure ? " bad" : "") }, cut(it.answer) || "nothing")]);
  if (it.error && it.is_open) facts.push(["last error", make("span", { class: "code bad" }, "(" + it.error.code + ") " + cut(it.error.message))]);
  main.replaceChildren(
    make("h2", { class: "code" }, cut(id)),
    make("dl", { class: "facts" }, ...facts.flatMap(([name, value]) => [make("dt", {}, name), make("dd", {}, value)])),
    it.is_open ? make("nav", {}, it.status === "paused" || it.status === "again" ? button("resume", it.status === "again" ? "try now" : "resume") : null, it.status !== "paused" ? button("pause", "pause") : null, button("cancel", "cancel", "stern")) : "",
    it.steps.length ? make("table", {}, make("thead", {}, make("tr", {}, make("th", { class: "number" }, "place"), make("th", {}, "step"), make("th", {}, "of what"), make("th", {}, "what came of it"))), make("tbody", {}, ...it.steps.map(s => step(s, it.now))))
      : make("p", { class: "soft" }, "Nothing is recorded yet."));
}

async function draw() {
  const id = decodeURIComponent(location.hash.slice(1));
  shown = id;
  try { await (id ? drawOne(id) : drawList()); } catch (error) { if (shown === id && !(error instanceof Unasked)) problem(error); }
}
addEventListener("hashchange", () => { main.replaceChildren(); draw(); });
setInterval(() => { if (!document.hidden && !(document.activeElement instanceof HTMLInputElement)) draw(); }, 2000);
draw();
