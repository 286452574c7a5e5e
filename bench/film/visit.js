// Goes through every event of a page forwards and back, and writes what the page holds and draws into #result.
// Loaded by bench/film behind the page's own script, whose names it uses.
"use strict";
const seen = {faults:window.faults, title:film.title, from:film.from, end:film.end, events:[], draws:[], differing:[], ms:0, back:0};
function drawn() {
  const frames = [...document.querySelectorAll(".frame")].map(f => [f.dataset.key, f.querySelector(".p").innerText.replace(/\s+/g, " ")]);
  const objects = [...document.querySelectorAll("[data-object]")].map(o => o.dataset.object);
  return {event:at, frames, objects, headings:[...document.querySelectorAll(".thread h3")].map(h => h.innerText.replace(/\s+/g, " ")), output:outs[at]};
}
function shownAt(e) {
  const key = (m, d) => JSON.stringify([Object.fromEntries([...m].sort()), d]);
  return key(viewAt(e), drawn());
}
try {
  $("all").checked = true; inFull = true;
  const there = [], t0 = performance.now();
  for (let e = 0; e <= N; e++) go(e);
  seen.ms = (performance.now() - t0) / (N + 1);
  for (let e = 0; e <= N; e++) { go(e); there.push(shownAt(e)); seen.events.push({t:film.events[e].t, what:film.events[e].what || "", kind:film.events[e].kind, view:Object.fromEntries(viewAt(e))}); seen.draws.push(drawn()); }
  const t1 = performance.now();
  for (let e = N; e >= 0; e--) go(e);
  seen.back = (performance.now() - t1) / (N + 1);
  for (let e = N; e >= 0; e--) { go(e); if (shownAt(e) !== there[e]) seen.differing.push(e); }
  // The keys, and the page with the lower frames as lines, without strings, in large type and in the other shade.
  $("all").checked = false; inFull = false;
  for (const k of ["End", "Home", "ArrowRight", "ArrowDown", "ArrowUp", "PageDown", "PageUp", "ArrowLeft", "+", "+", "d", "s", "f", "-", "d", "s", "f"]) document.dispatchEvent(new KeyboardEvent("keydown", {key:k, bubbles:true}));
  for (let e = 0; e <= N; e++) go(e);
  find("done", false); find("no such text", true);
} catch (fault) { seen.faults.push("at event " + at + ": " + fault + " " + fault.stack); }
const result = document.createElement("pre"); result.id = "result"; result.textContent = JSON.stringify(seen); document.body.append(result);
