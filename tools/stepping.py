"""A page that shows a run step by step: one file of HTML, which a browser opens without anything beside it.

It is made of the events of a run, each as `./tdx-view trace --json` tells it, of the state after none and after each of
them, as `./tdx-view state --json` tells it, and of the script."""

import json
import os

from outside import TOP, bytes_of, end, need, ran
from runs import calls_of, lines_of, number, words_for

VIEW, PROGRAM = TOP + "/tdx-view", TOP + "/crates/tdx_view/out/tdx_view"
# A run of more events than this wants a window: there is a state for each of them.
MOST = 4000

# Where a call names the slot of the bundle that it makes, and of the one that it takes, counted from 1.
MAKES = {"EXPORT.STATE.IMMUTABLE": 2, "EXPORT.MEM": 4, "EXPORT.TRACK": 2, "EXPORT.STATE.TD": 2, "EXPORT.STATE.VP": 3, "IMPORT.ABORT": 2}
TAKES = {"EXPORT.ABORT": 2, "IMPORT.STATE.IMMUTABLE": 2, "IMPORT.MEM": 2, "IMPORT.TRACK": 2, "IMPORT.STATE.TD": 2, "IMPORT.STATE.VP": 3}


def slot_of(words, places):
    """The slot that a call's words name; None where it names none."""
    place = places.get(words[0], len(words))
    return words[place] if place < len(words) else None


def bundles_of(events, calls):
    """The bundles that calls have made, and have taken, each with its event: it is out, or in, from the call's last event on."""
    found, acts = [], {}
    for its in events:
        key = f"{its['processor']}.{its['line']}"
        words = calls.get(key, "").split()
        if its["what"] == "act":
            acts[key] = its["event"]
        if words and its.get("reply", "").startswith("SUCCESS"):
            for verb, places in (("made", MAKES), ("taken", TAKES)):
                slot = slot_of(words, places)
                if slot is not None:
                    found.append({"verb": verb, "slot": number(slot), "call": key, "name": words[0], "act": acts.get(key, its["event"]), "event": its["event"]})
    return found


def numbered(states):
    """The objects of all states, each once, and each state as their numbers."""
    places, lines = {}, []
    rows = []
    for text in states:
        row = []
        for line in text.splitlines():
            if line not in places:
                places[line] = len(lines)
                lines.append(json.loads(line))
            row.append(places[line])
        rows.append(row)
    return lines, rows


def page_of(name, script, events, states):
    """The page of a run: of these events, with the state before the first and after each of them."""
    lines, rows = numbered(states)
    text = lines_of(script)
    calls = {key: words for _, key, words in calls_of(text)}
    data = {"name": name, "script": text[:-1] if text[-1:] == [""] else text, "events": events, "lines": lines, "states": rows, "bundles": bundles_of(events, calls)}
    return PAGE.replace("@NAME@", escaped(name)).replace("@DATA@", json.dumps(data, separators=(",", ":")).replace("</", "<\\/").replace("<!--", "<\\!--"))


def viewed(program, *words):
    """What a program prints of a run, or the end of the tool where it shows none."""
    status, text = ran([program, *words])
    text = text.decode("ascii", "backslashreplace")
    if status:
        end(text.strip() or f"{program} ended in the status {status}", status)
    return text


def shown(name, window, options):
    """The page of a script's run, or of these events of it. The states are asked of the program itself, which the first of
    these calls has left: ./tdx-view looks each time whether the sources have changed."""
    its = [*words_for(options), "--", name]
    events = [json.loads(line) for line in viewed(VIEW, "trace", "--json", *its).splitlines()]
    first, last = window or (1, len(events))
    events = [each for each in events if first <= each["event"] <= last]
    need(events, f"{name} has no such event")
    need(len(events) <= MOST, f"{name} has {len(events)} events: name at most {MOST} of them, as 1-{MOST}")
    program = PROGRAM if os.access(PROGRAM, os.X_OK) else VIEW
    numbers = range(events[0]["event"] - 1, events[-1]["event"] + 1)
    return page_of(name, bytes_of(name), events, [viewed(program, "state", "--json", "--after", str(each), *its) for each in numbers])


def escaped(text):
    """A text inside HTML."""
    return text.replace("&", "&amp;").replace("<", "&lt;").replace(">", "&gt;").replace('"', "&quot;")


PAGE = r"""<!DOCTYPE html>
<html lang="en">
<meta charset="utf-8">
<meta name="viewport" content="width=device-width, initial-scale=1">
<title>@NAME@, step by step</title>
<style>
  :root { color-scheme: light; --edge: #bbb; --now: #fff3c4; --new: #dff0d8; --bad: #a40000; }
  * { box-sizing: border-box; }
  body { margin: 0; font: 14px/1.35 "DejaVu Sans", Verdana, sans-serif; color: #111; background: #fff; }
  header { position: sticky; top: 0; z-index: 2; padding: 8px 12px; background: #f4f4f4; border-bottom: 1px solid var(--edge); }
  h1 { display: inline; font-size: 16px; margin: 0 12px 0 0; }
  h2 { font-size: 13px; margin: 0 0 4px; }
  button { font: inherit; padding: 1px 9px; }
  input[type=range] { width: 38%; vertical-align: middle; }
  kbd { border: 1px solid #999; border-radius: 3px; padding: 0 4px; background: #fff; font-size: 12px; }
  #said { margin: 6px 0 0; font-weight: bold; min-height: 1.35em; }
  #said.bad { color: var(--bad); }
  main { display: grid; grid-template-columns: minmax(260px, 1.1fr) minmax(300px, 1.2fr) minmax(300px, 1.3fr); gap: 12px; padding: 12px; }
  section { border: 1px solid var(--edge); border-radius: 4px; padding: 8px; overflow: auto; max-height: calc(100vh - 110px); }
  .part { margin-bottom: 12px; }
  table { border-collapse: collapse; width: 100%; }
  th, td { text-align: left; vertical-align: top; padding: 1px 6px; border-bottom: 1px solid #eee; }
  tbody tr { cursor: default; }
  #events tbody tr { cursor: pointer; }
  tr.now > * { background: var(--now); }
  tr.later { color: #999; }
  tr.new > *, li.new { background: var(--new); }
  tr.new > :first-child::before, li.new::before { content: "\25B8 "; }
  .bad { color: var(--bad); }
  td.number { text-align: right; color: #666; }
  code, pre { font: 13px/1.35 "DejaVu Sans Mono", monospace; }
  pre { margin: 0; overflow: auto; max-height: 34vh; }
  pre .now { background: var(--now); font-weight: bold; }
  ul { margin: 0; padding-left: 18px; list-style: none; text-indent: -12px; }
  .none { color: #777; }
  .held { display: inline-block; border: 1px solid #555; border-radius: 3px; padding: 0 5px; margin: 1px 3px 1px 0; white-space: nowrap; }
  .held.shared { border-style: dashed; }
  @media (max-width: 900px) { main { grid-template-columns: 1fr; } section { max-height: none; } }
</style>
<header>
  <h1>@NAME@</h1>
  <button id="first" title="the start (Home)">|&#9664;</button>
  <button id="back" title="one event back (left arrow)">&#9664;</button>
  <input id="at" type="range" min="0" value="0" aria-label="event">
  <button id="on" title="one event on (right arrow)">&#9654;</button>
  <button id="last" title="the end (End)">&#9654;|</button>
  <span id="count"></span>
  <span>&nbsp; <kbd>&larr;</kbd> <kbd>&rarr;</kbd> an event, <kbd>PgUp</kbd> <kbd>PgDn</kbd> a call's end, <kbd>r</kbd> the next refusal, <kbd>Home</kbd> <kbd>End</kbd></span>
  <p id="said" aria-live="polite"></p>
</header>
<noscript><p>This page shows a run by a script of its own, which this browser doesn't run.</p></noscript>
<main>
  <section id="events" aria-label="events"><table><thead><tr id="head"></tr></thead><tbody id="rows"></tbody></table></section>
  <div>
    <section class="part" aria-label="locks and processors"><h2>Processors and their locks</h2><table><tbody id="lps"></tbody></table></section>
    <section class="part" aria-label="bundles"><h2>Bundles that calls have made or taken</h2><ul id="bundles"></ul></section>
    <section class="part" aria-label="script"><h2>The script</h2><pre id="script"></pre></section>
  </div>
  <section aria-label="pages"><h2>Pages that aren't the host's, and what they have</h2><table><thead><tr><th>page<th>kind<th>of<th>what it has</tr></thead><tbody id="pages"></tbody></table></section>
</main>
<script id="run" type="application/json">@DATA@</script>
<script>
"use strict";
const run = JSON.parse(document.getElementById("run").textContent);
const its = (id) => document.getElementById(id);
const element = (name, text, kind) => { const made = document.createElement(name); if (text !== undefined) made.textContent = text; if (kind) made.className = kind; return made; };
const last = run.events.length;
const first = last ? run.events[0].event - 1 : 0;
const processors = [...new Set(run.events.map((e) => e.processor))].sort((a, b) => a - b);
const isRefused = (reply) => reply !== undefined && !/^(SUCCESS|EXIT)( |$)/.test(reply);
let at = 0;

// What an event was, in words.
function said(e) {
  const parts = [e.what];
  if (e.lock) parts.push(e.lock);
  if (e.mode) parts.push(e.mode);
  if (e.access) parts.push(e.access);
  if (e.gpa !== undefined) parts.push("0x" + e.gpa.toString(16));
  if (e.level !== undefined) parts.push("level " + e.level);
  if (e.page !== undefined) parts.push("page " + e.page + " word " + e.word);
  return parts.join(" ");
}
const isBad = (e) => e.what === "denied" || isRefused(e.reply);

// What the objects of a state say behind what they are of: a word, and a member's name.
const TOLD = {
  page: [["BEPOCH ", "bepoch"]],
  td: [["", "life"], ["HKID ", "hkid"], ["children ", "children"]],
  tdcs: [["TDCS ", "page"], ["", "op"], ["TD_EPOCH ", "td_epoch"], ["in guest ", "in_guest"], ["before ", "in_guest_before"], ["vcpus ", "vcpus"], ["streams ", "streams"], ["session ", "session"], ["epoch ", "migration_epoch"]],
  entry: [["at ", "gpa"], ["level ", "level"], ["", "state"], ["mark ", "mark"]],
  vcpu: [["index ", "index"], ["", "state"], ["position ", "position"], ["lp ", "processor"], ["TD_EPOCH ", "td_epoch"]],
  stream: [["counter ", "counter"]],
  done: [["done ", "done"], ["of ", "calls"]],
  holds: [["", "lock"], ["of ", "td"], ["", "mode"]],
  guest: [["in guest of ", "td"], ["vcpu ", "vcpu"], ["completed ", "completed"], ["of ", "most"]],
  cached: [["cached ", "gpa"], ["of ", "td"], ["page ", "page"], ["", "access"]],
};
const told = (it) => TOLD[it.what].filter(([, name]) => it[name] !== undefined).map(([word, name]) => word + (name === "gpa" ? "0x" + it.gpa.toString(16) : it[name])).join(" ");

// The objects of a state that are of a page, each with the member that says which.
const OF_PAGE = { page: "page", td: "td", tdcs: "td", vcpu: "vcpu", stream: "stream" };

// The objects of a state by their numbers, and by what they are of.
function parted(place) {
  const state = { pages: new Map(), lps: new Map(), entries: new Map() };
  const add = (map, key, number) => map.has(key) ? map.get(key).push(number) : map.set(key, [number]);
  for (const number of run.states[place]) {
    const it = run.lines[number];
    if (it.what === "entry") state.entries.set(it.page, number);
    else if (OF_PAGE[it.what]) add(state.pages, it[OF_PAGE[it.what]], number);
    else add(state.lps, it.processor, number);
  }
  return state;
}
const isChanged = (now, before) => JSON.stringify(now) !== JSON.stringify(before);

function head() {
  its("head").append(element("th", "event"), ...processors.map((p) => element("th", "LP " + p)));
  run.events.forEach((e, place) => {
    const row = element("tr");
    row.append(element("td", e.event, "number"));
    for (const p of processors) {
      const cell = element("td");
      if (p === e.processor) {
        if (e.what === "act" || !place || run.events[place - 1].line !== e.line || run.events[place - 1].processor !== p) cell.append(element("strong", p + "." + e.line + " " + e.call + " "));
        cell.append(element("span", said(e), isBad(e) ? "bad" : ""));
        if (e.reply !== undefined) cell.append(element("span", " \u2192 " + e.reply, isRefused(e.reply) ? "bad" : ""));
      }
      row.append(cell);
    }
    row.addEventListener("click", () => show(place + 1));
    its("rows").append(row);
  });
  run.script.forEach((line, place) => its("script").append(element("span", line + "\n")));
  its("at").max = last;
}

function showLps(now, before) {
  const rows = [...now.lps].map(([lp, numbers]) => {
    const row = element("tr"), what = element("td");
    row.append(element("th", "LP " + lp), what);
    for (const it of numbers.map((n) => run.lines[n])) {
      if (it.what === "holds") what.append(element("span", (it.holder === "guest" ? "guest: " : "") + told(it), "held " + it.mode));
      else what.append(element("div", told(it)));
    }
    if (isChanged(numbers, before.lps.get(lp))) row.className = "new";
    return row;
  });
  its("lps").replaceChildren(...rows);
}

function showPages(now, before) {
  const rows = [...now.pages].map(([page, numbers]) => {
    const [own, ...others] = numbers.map((n) => run.lines[n]), row = element("tr"), what = element("td");
    row.append(element("td", page), element("td", own.kind), element("td", own.td), what);
    if (own.bepoch !== undefined) what.append(element("div", told(own)));
    for (const it of others) what.append(element("div", (it.what === "tdcs" ? "td" : it.what) + " " + told(it)));
    const entry = now.entries.get(page);
    if (entry !== undefined) what.append(element("div", told(run.lines[entry])));
    if (entry !== before.entries.get(page) || isChanged(numbers, before.pages.get(page))) row.className = "new";
    return row;
  });
  for (const page of before.pages.keys()) {
    if (!now.pages.has(page)) {
      const row = element("tr", undefined, "new");
      row.append(element("td", page), element("td", "the host's again"), element("td", ""), element("td", ""));
      rows.push(row);
    }
  }
  if (!rows.length) { const row = element("tr"); row.append(element("td", "none", "none")); rows.push(row); }
  its("pages").replaceChildren(...rows);
}

function showBundles(event) {
  const shown = run.bundles.filter((b) => b.event <= event).map((b) =>
    element("li", "slot " + b.slot + ": " + b.verb + " by " + b.call + " " + b.name + (b.verb === "made" ? ", out from event " + b.event + " on (made at " + b.act + ")" : " at event " + b.act), b.event === event ? "new" : ""));
  its("bundles").replaceChildren(...(shown.length ? shown : [element("li", "none yet", "none")]));
}

function show(place) {
  at = Math.max(0, Math.min(last, place));
  const e = at ? run.events[at - 1] : null;
  const now = parted(at), before = at ? parted(at - 1) : now;
  its("at").value = at;
  its("count").textContent = at ? "event " + e.event + " of " + (first + last) : "before event " + (first + 1);
  its("said").textContent = e ? e.processor + "." + e.line + " " + e.call + ": " + said(e) + (e.reply !== undefined ? " \u2192 " + e.reply : "") : "before the first event shown";
  its("said").className = e && isBad(e) ? "bad" : "";
  [...its("rows").children].forEach((row, n) => { row.className = n === at - 1 ? "now" : n >= at ? "later" : ""; });
  [...its("script").children].forEach((line, n) => { line.className = e && n === e.script_line - 1 ? "now" : ""; });
  for (const id of ["rows", "script"]) { const row = its(id).querySelector(".now"); if (row) row.scrollIntoView({ block: "nearest" }); }
  showLps(now, before);
  showPages(now, before);
  showBundles(e ? e.event : first);
  history.replaceState(null, "", "#" + (first + at));
}

// The next place in a direction at which an event is so.
function next(step, is) {
  for (let n = at + step; n >= 1 && n <= last; n += step) if (is(run.events[n - 1])) return n;
  return step > 0 ? last : 0;
}
const ends = (e) => e.reply !== undefined;
const keys = {
  ArrowRight: () => show(at + 1), ArrowLeft: () => show(at - 1), Home: () => show(0), End: () => show(last),
  PageDown: () => show(next(1, ends)), PageUp: () => show(next(-1, ends)), r: () => show(next(1, isBad)),
};
document.addEventListener("keydown", (pressed) => {
  if (pressed.ctrlKey || pressed.altKey || pressed.metaKey || !keys[pressed.key]) return;
  pressed.preventDefault();
  keys[pressed.key]();
});
its("first").onclick = keys.Home;
its("back").onclick = keys.ArrowLeft;
its("on").onclick = keys.ArrowRight;
its("last").onclick = keys.End;
its("at").oninput = () => show(Number(its("at").value));
head();
show((Number(location.hash.slice(1)) || first) - first);
</script>
</html>
"""
