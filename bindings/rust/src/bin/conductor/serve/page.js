"use strict";
(() => {
  const $ = (id) => document.getElementById(id);
  const secret = /^#[0-9a-f]{32}$/.test(location.hash) ? location.hash.slice(1) : "";
  const STEP = 30; // so many orders are shown at first, and so many more each time
  const SVG = "image/svg+xml";

  let plan = null; // as /plan has it
  let now = null; // as /state has it
  let rows = []; // what is on the page of each drone
  let items = new Map(); // what is on the page of each order that is shown
  let previews = new Map(); // of this version: the change, or null and why not
  let marked = new Set();
  let room = STEP;
  let best = null; // what was found, and in which version

  const make = (tag, about = {}, ...inside) => {
    const element = document.createElement(tag);
    for (const [name, value] of Object.entries(about)) {
      if (name === "text") element.textContent = value;
      else if (name === "class") element.className = value;
      else if (name.startsWith("on")) element.addEventListener(name.slice(2), value);
      else element.setAttribute(name, value);
    }
    element.append(...inside);
    return element;
  };
  const put = (element, text) => { if (element.textContent !== text) element.textContent = text; };
  const counted = (n, one, many = one + "s") => (n === 1 ? "1 " + one : n + " " + many);

  const say = (words, accepted) => {
    $("said").className = accepted === undefined ? "" : accepted ? "done" : "refused";
    $("said").textContent = words;
  };

  // ---- calls

  const call = async (line, version) => {
    const headers = { "Content-Type": "text/plain", "X-Conductor-Secret": secret };
    if (version !== undefined) headers["X-Conductor-Version"] = String(version);
    try {
      const reply = await fetch("/call", { method: "POST", headers, body: line + "\n" });
      const json = (reply.headers.get("Content-Type") || "").startsWith("application/json");
      return json ? await reply.json() : { accepted: false, words: (await reply.text()).trim() };
    } catch {
      return { accepted: false, words: "no answer from the conductor: look whether it was done before you try again" };
    }
  };
  const make_call = async (line, version) => {
    const answer = await call(line, version);
    say(answer.words, answer.accepted);
    return answer;
  };

  const ask_to_withdraw = (drone) => {
    const name = plan.drones[drone].name;
    $("ask-words").textContent = `Withdraw ${name}? It is carried home by hand, holds nothing any more and nobody waits for it. Nothing takes this back.`;
    $("ask-yes").textContent = `Withdraw ${name}`;
    $("ask-yes").onclick = () => { $("ask").close(); make_call(`withdraw=${drone}`); };
    $("ask").showModal();
  };

  // ---- drones

  const BUTTONS = [["grant", "Grant"], ["arrive", "Arrive"], ["withdraw", "Withdraw"]];

  const new_row = (drone, number) => {
    const cell = (name) => make("td", { class: name });
    const row = { number: make("td", { class: "number", text: String(number) }), place: cell("place"), next: cell("next"), now: cell("now"), buttons: {} };
    const calls = make("td", { class: "calls pilots" });
    for (const [key, words] of BUTTONS) {
      const made = key === "withdraw" ? () => ask_to_withdraw(number) : () => make_call(`${key}=${number}`);
      row.buttons[key] = make("button", { type: "button", "data-do": key, "aria-label": `${words} ${drone.name}`, text: words, onclick: made });
      calls.append(row.buttons[key]);
    }
    row.element = make("tr", { "data-drone": number }, row.number, make("td", { class: "name", text: drone.name }), row.place, row.next, row.now, calls);
    return row;
  };

  const place = (cell, drone, stop) => {
    const at = drone.stops[stop];
    cell.replaceChildren(...(at ? [`crossing ${at[0]}`, make("small", { text: `stop ${stop} of 0 to ${drone.stops.length - 1}` })] : ["–"]));
  };

  // whom a drone waits for, and why
  const awaited = (p) => {
    const [first, s, waits, k] = in_force(p);
    const next = plan.drones[first].stops[s + 1];
    const until = next ? ` until it has reached its stop ${s + 1}, crossing ${next[0]}` : "";
    return ["waits for ", name_of(first), ` at ${crossing(first, s, waits, k)}${until} (dependency ${p})`];
  };
  const name_of = (d) => make("b", { text: plan.drones[d].name });
  const crossing = (first, s, waits, k) => {
    const [here, there] = [plan.drones[first].stops[s][0], plan.drones[waits].stops[k][0]];
    return here === there ? `crossing ${here}` : `the near crossings ${here} and ${there}`;
  };

  const NOW = {
    "may go": ["now-may", "may go"],
    "under way": ["now-way", "under way"],
    finished: ["now-out", "at its last stop"],
    withdrawn: ["now-out", "withdrawn, carried home"],
  };
  const standing = (cell, state) => {
    if (state.standing !== "waits") {
      const [kind, words] = NOW[state.standing] || ["", state.standing];
      cell.className = "now " + kind;
      return cell.replaceChildren(words);
    }
    cell.className = "now now-waits";
    const why = state.waits.map((p) => make("p", {}, ...awaited(p)));
    const open = Boolean(cell.querySelector("details[open]"));
    const rest = why.splice(why.length > 2 ? 1 : 2);
    cell.replaceChildren(...why);
    if (rest.length) {
      const details = make("details", {}, make("summary", { text: `and ${rest.length} more` }), ...rest);
      details.open = open;
      cell.append(details);
    }
  };

  const show_row = (row, drone, state) => {
    const key = JSON.stringify(state);
    if (row.key === key) return;
    row.key = key;
    place(row.place, drone, state.visited);
    place(row.next, drone, state.standing === "finished" || state.standing === "withdrawn" ? -1 : state.visited + 1);
    standing(row.now, state);
    row.buttons.grant.className = state.standing === "may go" ? "now" : "";
    row.buttons.arrive.className = state.standing === "under way" ? "now" : "";
  };

  const show_reported = () => {
    const select = $("reported");
    const away = now.drones.flatMap((state, d) => (state.standing === "under way" ? [d] : []));
    const key = away.join(",");
    if (select.dataset.key === key) return;
    const before = select.value;
    select.dataset.key = key;
    select.replaceChildren(make("option", { value: "none", text: "nobody" }), ...away.map((d) => make("option", { value: d, text: plan.drones[d].name })));
    select.value = away.includes(Number(before)) ? before : "none";
  };

  // from drone to drone by the arrows
  $("rows").addEventListener("keydown", (event) => {
    const step = { ArrowDown: 1, ArrowUp: -1 }[event.key];
    const button = event.target.closest("button[data-do]");
    if (!step || !button) return;
    const number = Number(button.closest("tr").dataset.drone) + step;
    if (rows[number]) rows[number].buttons[button.dataset.do].focus();
    event.preventDefault();
  });

  // ---- orders

  const in_force = (p) => {
    const [a, s, b, k] = plan.dependencies[p];
    return now.turned_set.has(p) ? [b, k, a, s] : [a, s, b, k];
  };
  const shown_orders = () => {
    const whose = $("whose").value;
    if (whose === "all") return now.open;
    const change = (p) => (previews.has(p) ? previews.get(p).change : null);
    if (whose === "saving") return now.open.filter((p) => change(p) < 0).sort((a, b) => change(a) - change(b) || a - b);
    const drone = Number(whose);
    return now.open.filter((p) => plan.dependencies[p][0] === drone || plan.dependencies[p][2] === drone);
  };

  const new_item = (p) => {
    const item = { words: make("span", { class: "words" }), preview: make("span", { class: "preview", text: "…" }) };
    const mark = make("input", { type: "checkbox", class: "pilots", "aria-label": `mark dependency ${p}`, onchange: () => { marked[mark.checked ? "add" : "delete"](p); show_marked(); } });
    mark.checked = marked.has(p);
    item.mark = mark;
    item.turn = make("button", { type: "button", class: "pilots", "data-turn": p, text: "Turn", "aria-label": `Turn dependency ${p}`, onclick: () => make_call(`turn=${p}`, now.version) });
    item.element = make("li", { "data-order": p }, mark, make("span", { class: "number", text: String(p) }), item.words, item.preview, item.turn);
    return item;
  };

  const words_of = (p) => {
    const [first, s, waits, k] = in_force(p);
    return [`At ${crossing(first, s, waits, k)} `, name_of(first), " goes before ", name_of(waits), now.turned_set.has(p) ? " (turned)" : ""];
  };

  const show_preview = (p) => {
    const item = items.get(p), found = previews.get(p);
    if (!item) return;
    item.preview.className = "preview " + (found && found.change < 0 ? "less" : "other");
    put(item.preview, found ? found.words : "…");
  };

  const show_orders = () => {
    const all = shown_orders(), some = all.slice(0, room);
    const kept = new Map();
    for (const p of some) {
      const item = items.get(p) || new_item(p);
      const key = now.turned_set.has(p);
      if (item.turned !== key) { item.turned = key; item.words.replaceChildren(...words_of(p)); }
      kept.set(p, item);
    }
    items = kept;
    const elements = some.map((p) => items.get(p).element);
    const list = $("list");
    if (elements.length !== list.children.length || elements.some((e, i) => list.children[i] !== e)) list.replaceChildren(...elements);
    $("more").hidden = some.length === all.length;
    show_count(all.length, some.length);
    some.forEach(show_preview);
    ask_previews();
  };

  const show_count = (all, some) => {
    const saving = $("whose").value === "saving";
    const none = saving ? "None that saves rounds by itself." : "None now: the others are fixed, or a drone has entered its crossing.";
    const looked = saving && previews.size < now.open.length ? ` (looked at ${previews.size} of ${now.open.length})` : "";
    put($("count"), (all ? counted(all, "order") + (some < all ? `, ${some} shown` : "") : looked ? "" : none) + looked);
  };

  // what turning each shown one would change, some at a time; where those that save rounds are asked for, each one that is open
  let asking = false;
  const ask_previews = async () => {
    if (asking) return;
    asking = true;
    try {
      for (;;) {
        const saving = $("whose").value === "saving";
        const wanted = (saving ? now.open : [...items.keys()]).filter((p) => !previews.has(p)).slice(0, 64);
        if (!wanted.length) break;
        const answer = await (await fetch("/previews?of=" + wanted.join(","))).json();
        if (answer.version !== now.version) { await pause(50); continue; }
        for (const [p, change, words] of answer.previews) { previews.set(p, { change, words }); show_preview(p); }
        if (saving) show_orders();
      }
    } catch { /* the connection is lost, which the events tell */ }
    asking = false;
  };
  const pause = (time) => new Promise((done) => setTimeout(done, time));

  const show_marked = async () => {
    const list = [...marked].sort((a, b) => a - b);
    $("marked").hidden = list.length === 0;
    put($("marked-count"), `${list.length} marked:`);
    for (const [p, item] of items) item.mark.checked = marked.has(p);
    if (!list.length) return;
    put($("marked-preview"), "…");
    const answer = await call("previews=" + list.join(","));
    if (list.join() === [...marked].sort((a, b) => a - b).join()) put($("marked-preview"), "together " + answer.words);
  };

  const show_best = () => {
    const old = best && best.version !== now.version;
    $("apply").hidden = !best || old || !best.turns || best.turns.length === 0;
    if (old) { best = null; put($("found"), "Something changed since: look again."); }
  };

  // ---- the picture

  let drawing = false, drawn = -1;
  const fit = (whole) => { $("fit").checked = whole; $("picture").classList.toggle("fit", whole); };
  const show_picture = async () => {
    if (drawing) return;
    drawing = true;
    try {
      while (drawn !== now.version) {
        const version = now.version, form = $("form").value, start = performance.now();
        const text = await (await fetch(form)).text();
        if (form !== $("form").value) continue;
        const svg = document.importNode(new DOMParser().parseFromString(text, SVG).documentElement, true);
        if (drawn < 0 && Number(svg.getAttribute("width")) > 1.6 * $("picture").clientWidth) fit(false); // too small to read
        $("picture").replaceChildren(svg);
        drawn = version;
        await new Promise(requestAnimationFrame); // a page that nobody sees draws no more
        await pause(Math.max(200, 4 * (performance.now() - start))); // a large picture leaves time for the rest
      }
    } catch { /* the connection is lost, which the events tell */ }
    drawing = false;
  };

  // ---- what is now

  const show = (state) => {
    const first = now === null;
    now = state;
    now.turned_set = new Set(now.turned);
    previews = new Map();
    marked = new Set([...marked].filter((p) => now.open.includes(p)));
    put($("cost"), String(now.cost));
    put($("rounds"), counted(now.rounds, "round"));
    now.drones.forEach((state, d) => show_row(rows[d], plan.drones[d], state));
    show_reported();
    show_orders();
    show_marked();
    show_best();
    show_picture();
    if (first) say(secret ? "Ready." : "Ready to look.");
    document.body.dataset.version = now.version;
  };

  const begin = async () => {
    plan = await (await fetch("/plan")).json();
    put($("plan"), plan.name);
    document.title = plan.name + " – conductor";
    put($("kept"), plan.journal ? "Each call is on disk before it is answered." : "Nothing is kept: there is no journal.");
    rows = plan.drones.map(new_row);
    $("rows").replaceChildren(...rows.map((row) => row.element));
    $("whose").replaceChildren(make("option", { value: "all", text: "all drones" }), make("option", { value: "saving", text: "all that save rounds" }), ...plan.drones.map((d, i) => make("option", { value: i, text: d.name })));
    items = new Map();
    marked = new Set();
    now = null;
    drawn = -1;
  };

  const listen = () => {
    const events = new EventSource("/events");
    let turn = Promise.resolve();
    events.onmessage = (event) => {
      turn = turn.then(async () => {
        const state = JSON.parse(event.data);
        if (!plan || plan.run !== state.run) await begin();
        $("lost").hidden = true;
        document.body.classList.remove("lost");
        show(state);
      }).catch(() => events.onerror());
    };
    events.onerror = () => {
      $("lost").hidden = false;
      document.body.classList.add("lost");
      if (events.readyState === EventSource.CLOSED) { events.close(); setTimeout(listen, 1000); }
    };
  };

  // ---- buttons and keys

  $("press").onclick = () => make_call("press=" + $("reported").value);
  $("more").onclick = () => { room += STEP; show_orders(); };
  $("whose").onchange = () => { room = STEP; show_orders(); };
  $("unmark").onclick = () => { marked.clear(); show_marked(); };
  $("turn-marked").onclick = async () => {
    const answer = await make_call("turns=" + [...marked].sort((a, b) => a - b).join(","), now.version);
    if (answer.accepted) { marked.clear(); show_marked(); }
  };
  $("search").onclick = async () => {
    put($("found"), "looking …");
    const answer = await call("best=" + ($("budget").value || "0"));
    best = answer.accepted ? answer : null;
    put($("found"), answer.words);
    show_best();
  };
  $("apply").onclick = () => best && make_call("turns=" + best.turns.join(","), best.version);
  $("ask-no").onclick = () => $("ask").close();
  $("fit").onchange = () => fit($("fit").checked);
  $("form").onchange = () => { drawn = -1; show_picture(); };
  const go_to = (part) => { $(part).scrollIntoView(); $(part).focus({ preventScroll: true }); };
  for (const link of document.querySelectorAll("nav a")) link.onclick = (event) => { event.preventDefault(); go_to(link.dataset.part); };
  document.addEventListener("keydown", (event) => {
    if (event.ctrlKey || event.altKey || event.metaKey || event.target.closest("input, select, dialog")) return;
    const part = { 1: "drones", 2: "orders", 3: "drawing" }[event.key];
    if (part) go_to(part);
  });
  addEventListener("hashchange", () => location.reload());

  if (!secret) { document.body.classList.add("looking"); $("looking").hidden = false; }
  listen();
})();
