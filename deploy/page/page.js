// The page of the office. Each view has an address, `#due/1/2024-02-20`, like the office's own. A view is asked for
// when its address is, and nothing is kept but the units' names. No text of the office or of a file is read as HTML.
import {
  CAUSES, GROUNDS, WAITS, Trouble, daysBetween, download, isDay, monthAfter, quarterOf, read, send, today,
} from "./office.js";

const ROWS = 250; // of a long list, at first and with each "Show more"
const ROUTES = 20; // of many routes, likewise
const PAPER = 10; // times as many are printed at most: more would take a browser minutes and gigabytes
const STOPS = 25; // of a route, unless the reader says otherwise
const QUARTERS = 12; // of the chart
const MOST_BYTES = 262_144; // of a batch
const READING = "Reading ...";

/** The views: the title of each, and what gives its elements. */
const VIEWS = {
  due: ["Due", due], tags: ["Tags", tags], route: ["Routes", route], percent: ["Percent leaking", percent],
  report: ["Semiannual report", report], sync: ["Sync", sync], help: ["Help", help],
};
const at = (id) => document.getElementById(id);
const asked = at("asked").elements;
const count = (number) => Number(number).toLocaleString("en-US");
const plural = (number, one) => `${count(number)} ${one}${Number(number) === 1 ? "" : "s"}`;

// ---- elements

/** An element with properties and children; children that are no elements are texts. */
function make(name, properties = {}, ...children) {
  const it = Object.assign(document.createElement(name), properties);
  it.append(...children.flat().filter((child) => child !== null && child !== undefined));
  return it;
}

/** A word or two in a colored field. The words alone say what the color says. */
const mark = (kind, text) => make("span", { className: `mark ${kind}` }, text);

/** Numbers that sum a list up: each with what it counts, and a color that it has unless it is zero. */
function cards(...all) {
  const card = ([number, text, kind = ""]) =>
    make("li", { className: number ? kind : "" }, make("b", {}, count(number)), ` ${text}`);
  return make("ul", { className: "cards" }, all.map(card));
}

/** A control with its label. */
function field(text, control) {
  control.id = `field-${text.toLowerCase().replaceAll(" ", "-")}`;
  return make("div", { className: "field" }, make("label", { htmlFor: control.id }, text), control);
}

/** A list to choose from, of pairs of a value and its text. */
function choice(options, chosen = "") {
  const option = ([value, text]) => make("option", { value, selected: String(value) === String(chosen) }, text);
  return make("select", {}, options.map(option));
}

const button = (text, onclick, kind = "") =>
  make("button", { type: "button", className: `plain ${kind}`, onclick }, text);

/** A download of rows as CSV, below a row that names the columns. */
const csvButton = (file, names, rows) =>
  button("Download CSV", () => download(`${file}.csv`, [names, ...rows]), "push");

let onPaper = []; // what makes more of each long list that is shown, before it is printed

/** Fills an element with parts, some at once: more when they are asked for, or on paper. Returns the button. */
function inParts(holder, items, part, step) {
  let made = 0;
  const grow = (until) => {
    holder.append(...items.slice(made, until).map(part));
    made = Math.min(until, items.length);
    more.hidden = made === items.length;
    more.textContent = `Show ${count(Math.min(step, items.length - made))} more of ${count(items.length - made)}`;
  };
  const more = button("", () => {
    const first = made;
    grow(made + step);
    holder.children[first].tabIndex = -1;
    holder.children[first].focus();
  }, "more");
  grow(step);
  onPaper.push((isPaper) => {
    grow(Math.max(made, PAPER * step));
    if (isPaper) more.textContent = `The first ${count(made)} of ${count(items.length)}. The CSV file has all.`;
  });
  return more;
}

/**
 * A list as a table with a download. `label` names it, `none` is said when it is empty. A column is its heading, its
 * cell for a row, and "number" if the cells stand right. In the file `file`, `names` are the columns and `line` gives
 * the cells for a row. `groups` is a row above the headings.
 */
function list({ label, none, columns, rows, file, names, line = (row) => row, groups = null }) {
  const bar = make("div", { className: "bar" }, csvButton(file, names, rows.map(line)));
  if (!rows.length) return [bar, make("p", { className: "note" }, none)];
  const cell = (row) => ([, value, className = ""], place) =>
    (place ? make("td", { className }, value(row)) : make("th", { className, scope: "row" }, value(row)));
  const body = make("tbody");
  const more = inParts(body, rows, (row) => make("tr", {}, columns.map(cell(row))), ROWS);
  const head = make("tr", {}, columns.map(([text, , className = ""]) => make("th", { className, scope: "col" }, text)));
  const caption = make("caption", { className: "hidden" }, label);
  const table = make("table", {}, caption, make("thead", {}, groups, head), body);
  return [bar, make("div", { className: "sheet" }, table), more];
}

// ---- the units

const units = new Map(); // by number: the unit's name, and the first month of its quarter 1. Neither ever changes.

/** A unit's name and first month, as its first report has them. */
async function unitOf(unit, day, signal) {
  if (!units.has(unit)) {
    const { head, rows } = await read(`/report/${unit}/1/${day}`, signal);
    units.set(unit, { name: head[1], first: rows[0][0] });
  }
  return units.get(unit);
}

// ---- the views of a unit

async function due({ unit, day, signal }) {
  const { rows } = await read(`/due/${unit}/${day}`, signal);
  const all = rows.map(([component, cause, by, state, on = ""]) => ({ component, cause, by, state, on }));
  const order = { missed: 0, open: 1, done: 2 };
  all.sort((a, b) => order[a.state] - order[b.state] || a.by.localeCompare(b.by));
  const inState = (state) => all.filter((it) => it.state === state);
  const soon = inState("open").filter((it) => daysBetween(day, it.by) <= 7);
  const summary = cards([inState("missed").length, "missed", "bad"], [soon.length, "due within 7 days", "warn"],
    [inState("open").length, "open"], [inState("done").length, "done"]);
  const of = (cause) => all.filter((it) => it.cause === cause).length;
  const causes = Object.keys(CAUSES).filter(of).map((it) => [it, `${CAUSES[it]} (${count(of(it))})`]);
  const cause = choice([["", `All causes (${count(all.length)})`], ...causes]);
  const state = choice([["", "All states"], ["missed", "Missed"], ["open", "Open"], ["done", "Done"]]);
  const component = make("input", { type: "number", min: 1, max: 60_000, placeholder: "all" });
  const told = (it) => {
    const days = daysBetween(day, it.by);
    if (it.state === "done") return mark("good", `Done ${it.on}`);
    if (it.state === "missed") return mark("bad", `Missed ${plural(-days, "day")} ago`);
    return mark(days <= 7 ? "warn" : "calm", days ? `${plural(days, "day")} left` : "Due today");
  };
  const box = make("div");
  const fill = () => {
    const isShown = (it) => (!cause.value || it.cause === cause.value) && (!state.value || it.state === state.value)
      && (!component.value || it.component === component.value);
    const shown = all.filter(isShown);
    onPaper = [];
    box.replaceChildren(...list({
      label: "What is due",
      none: all.length ? "Nothing matches these filters." : "Nothing is due in this unit on this day.",
      columns: [["Component", (it) => it.component, "number"], ["Cause", (it) => CAUSES[it.cause] ?? it.cause],
        ["Due", (it) => it.by], ["State", told]],
      rows: shown, file: `due-${unit}-${day}`, names: ["component", "cause", "due", "state", "done"],
      line: (it) => [it.component, it.cause, it.by, it.state, it.on],
    }));
    say(`${shown.length === all.length ? "" : `${count(shown.length)} of `}${plural(all.length, "line")}`);
  };
  cause.onchange = state.onchange = component.oninput = fill;
  fill();
  const fields = [field("Cause", cause), field("State", state), field("Component", component)];
  return [summary, make("div", { className: "filters" }, fields), box];
}

async function tags({ unit, day, signal }) {
  const [tags, delays] = await Promise.all(["tags", "delays"].map((it) => read(`/${it}/${unit}/${day}`, signal)));
  const delayOf = new Map(delays.rows.map(([component, , detected, , ground, , signer, , expected, , until]) =>
    [`${component} ${detected}`, { ground, signer, expected, until }]));
  const all = tags.rows.map(([component, , detected, , attempt, tried, , repair, closed, tag]) =>
    ({ component, detected, attempt, tried, repair, closed, tag, delay: delayOf.get(`${component} ${detected}`) }));
  const isOpen = (it) => it.closed === "-";
  const left = (it) => (isDay(it.repair) ? daysBetween(day, it.repair) : 99_999);
  all.sort((a, b) => isOpen(b) - isOpen(a) || (isOpen(a) ? left(a) - left(b) : b.closed.localeCompare(a.closed)));
  const open = all.filter(isOpen);
  const told = (it) => {
    if (!isOpen(it)) return mark("good", "Closed");
    if (!isDay(it.repair)) return mark("calm", WAITS[it.repair] ?? it.repair);
    if (left(it) < 0) return mark("bad", `Late by ${plural(-left(it), "day")}`);
    return mark(left(it) <= 5 ? "warn" : "calm", left(it) ? `${plural(left(it), "day")} left` : "Due today");
  };
  const repair = (it) => {
    const by = isDay(it.repair) ? `by ${it.repair}` : "";
    return [told(it), make("small", {}, isOpen(it) ? by : it.closed)];
  };
  const attempt = (it) => {
    if (it.tried !== "-") return it.tried;
    const isMissed = isOpen(it) && it.attempt < day;
    return isMissed ? [mark("bad", "Missed"), make("small", {}, `by ${it.attempt}`)] : `by ${it.attempt}`;
  };
  const why = ({ delay }) => {
    if (!delay) return null;
    const { ground, signer, expected } = delay;
    const more = [signer !== "0" && `signer ${signer}`, expected !== "-" && `expected ${expected}`];
    return [`(${ground}) ${GROUNDS[ground] ?? ""}`, make("small", {}, more.filter(Boolean).join(", "))];
  };
  say(plural(all.length, "tag"));
  const sum = (test) => open.filter(test).length;
  return [
    cards([open.length, "open"], [sum((it) => left(it) < 0), "late", "bad"],
      [sum((it) => it.tried === "-"), "without an attempt", "warn"], [sum((it) => it.delay), "delayed"],
      [all.length - open.length, "closed in a year"]),
    ...list({
      label: "Leak tags", none: "No leak has a tag in this unit on this day.",
      columns: [["Component", (it) => it.component, "number"], ["Detected", (it) => it.detected],
        ["First attempt", attempt], ["Repair", repair], ["Delay of repair", why, "text"],
        ["Tag", (it) => (it.tag === "removable" ? "may come off" : "stays on")]],
      rows: all, file: `tags-${unit}-${day}`,
      names: ["component", "detected", "attempt due", "attempted", "repair", "closed", "tag",
        "ground", "signer", "expected", "until"],
      line: ({ delay = {}, ...it }) => [it.component, it.detected, it.attempt, it.tried, it.repair, it.closed, it.tag,
        delay.ground ?? "", delay.signer ?? "", delay.expected ?? "", delay.until ?? ""],
    }),
  ];
}

async function route({ unit, day, extra = STOPS, signal }) {
  const paths = [`/route/${unit}/${day}/${extra}`, `/due/${unit}/${day}`];
  const [routes, due] = await Promise.all(paths.map((it) => read(it, signal)));
  const unmet = new Map(); // what is to be done, by component
  for (const [component, cause, , state] of due.rows) {
    if (state !== "done") unmet.set(component, (unmet.get(component) ?? new Set()).add(CAUSES[cause] ?? cause));
  }
  const tasks = (component) => [...(unmet.get(component) ?? [])].join(", ");
  const all = routes.rows.map(([, number, ...components]) => ({ number: number.replace(":", ""), components }));
  const lines = all.flatMap((it) => it.components.map((component, stop) => [it.number, stop + 1, component]));
  const most = make("input", { type: "number", min: 1, max: 65_535, value: extra, required: true });
  most.onchange = () => most.reportValidity() && go("route", unit, day, most.value);
  const stop = (component) => make("li", {}, make("b", {}, component), ` ${tasks(component)}`);
  const section = ({ number, components }) => make("section", {},
    make("h2", {}, `Route ${number} `, make("small", {}, plural(components.length, "stop"))),
    make("ol", {}, components.map(stop)));
  const box = make("div", { className: "routes" });
  const more = inParts(box, all, section, ROUTES);
  const none = make("p", { className: "note" }, "Nothing is due in this unit on this day: there is nowhere to walk.");
  say(`${plural(all.length, "route")}, ${plural(lines.length, "stop")}`);
  return [make("div", { className: "bar" }, field("Stops per route", most),
    csvButton(`route-${unit}-${day}`, ["route", "stop", "component"], lines)), all.length ? box : none, more];
}

async function percent({ unit, day, signal }) {
  const { first } = await unitOf(unit, day, signal);
  const last = quarterOf(first, day);
  if (last < 1) throw new Trouble("The unit's first quarter has not begun on this day.");
  const numbers = Array.from({ length: Math.min(QUARTERS, last) }, (_, it) => last - it).reverse();
  const all = await Promise.all(numbers.map(async (quarter) => {
    const { head } = await read(`/percent/${unit}/${quarter}/${day}`, signal);
    const [, , , , leaking, , monitored, ...words] = head;
    const [from, to] = [monthAfter(first, 3 * quarter - 3), monthAfter(first, 3 * quarter - 1)];
    const value = Number(monitored) ? 100 * leaking / monitored : null;
    const [isGood, isSkipped] = [words[0] === "good", words.at(-2) !== "not"];
    return { quarter, from, to, leaking, monitored, value, isGood, isSkipped };
  }));
  const told = (it) => (it.value === null ? "–" : it.value.toFixed(2));
  const good = (it) => (it.isGood ? mark("good", "Good") : mark("bad", "Not good"));
  say(`${plural(all.length, "quarter")}, in the table the newest first`);
  return [
    make("figure", {}, chart(all), make("figcaption", {}, "Valves found leaking, in percent of those monitored. "
      + "Green with a check: a good quarter; red with a cross: not good; striped, or “skip”: monitoring was skipped.")),
    ...list({
      label: "Percent leaking by quarter",
      columns: [["Quarter", (it) => it.quarter, "number"], ["Months", (it) => `${it.from} to ${it.to}`],
        ["Leaking", (it) => count(it.leaking), "number"], ["Monitored", (it) => count(it.monitored), "number"],
        ["Percent", told, "number"], ["Performance", good],
        ["Monitoring", (it) => (it.isSkipped ? mark("calm", "Skipped") : "Required")]],
      rows: all.toReversed(), file: `percent-${unit}-${day}`,
      names: ["quarter", "from", "to", "leaking", "monitored", "percent", "performance", "monitoring"],
      line: (it) => [it.quarter, it.from, it.to, it.leaking, it.monitored, it.value === null ? "" : told(it),
        it.isGood ? "good" : "not good", it.isSkipped ? "skipped" : "not skipped"],
    }),
  ];
}

/** An element of a drawing. */
function draw(name, properties, ...children) {
  const it = document.createElementNS("http://www.w3.org/2000/svg", name);
  for (const [key, value] of Object.entries(properties)) it.setAttribute(key, value);
  it.append(...children);
  return it;
}

/** The chart of quarters. The table below it has the same numbers, so to a screen reader it is one picture. */
function chart(all) {
  const [wide, high, left, top, below] = [1000, 300, 54, 26, 52];
  // Bars of more than 10 percent are cut there, so that the 2 percent stay in sight.
  const greatest = Math.min(10, Math.max(2.5, ...all.map((it) => it.value ?? 0)));
  const tick = [0.5, 1, 2].find((it) => greatest / it <= 6);
  const ticks = Math.ceil(greatest / tick);
  const y = (value) => high - below - value / (ticks * tick) * (high - below - top);
  const step = (wide - left) / QUARTERS;
  const text = (x, y, kind, words) => draw("text", { x, y, class: kind }, words);
  const line = (value, kind) => draw("line", { x1: left, x2: wide, y1: y(value), y2: y(value), class: kind });
  const scale = (value, kind) => text(left - 8, y(value) + 4, `${kind} end`, `${value}%`);
  const level = (_, it) => [line(it * tick, "grid"), it * tick === 2 ? "" : scale(it * tick, "axis")];
  const bars = all.map((it, place) => {
    const [middle, least] = [left + (place + 0.5) * step, it.value === null ? 0 : 2];
    const value = Math.min(10, it.value ?? 0);
    const bar = { x: middle - step * 0.3, y: y(value) - least, width: step * 0.6, height: y(0) - y(value) + least };
    const number = it.value?.toFixed(it.value < 10 ? 1 : 0) ?? (it.isSkipped ? "skip" : "none");
    return [draw("rect", { ...bar, class: it.isGood ? "good" : "bad" }),
      it.isSkipped ? draw("rect", { ...bar, fill: "url(#stripes)" }) : "",
      text(middle, y(value) - 8, "value", `${it.value > 10 ? "↑" : ""}${number} ${it.isGood ? "✓" : "✗"}`),
      text(middle, high - 30, "axis", it.from), text(middle, high - 12, "axis", `Q${it.quarter}`)];
  });
  const stripe = draw("rect", { width: 4, height: 8, class: "stripe" });
  const turned = { patternUnits: "userSpaceOnUse", patternTransform: "rotate(45)" };
  const stripes = draw("pattern", { id: "stripes", width: 8, height: 8, ...turned }, stripe);
  const read = (it) => (it.value === null ? "none monitored" : `${it.value.toFixed(1)} percent`);
  const words = (it) =>
    `Quarter ${it.quarter}: ${read(it)}, ${it.isGood ? "good" : "not good"}${it.isSkipped ? ", skipped" : ""}.`;
  const summary = `Percent leaking by quarter. ${all.map(words).join(" ")}`;
  return draw("svg", { viewBox: `0 0 ${wide} ${high}`, role: "img", "aria-label": summary },
    draw("defs", {}, stripes), ...Array.from({ length: ticks + 1 }, level).flat(),
    ...bars.flat(), line(2, "limit"), scale(2, "limit-text"));
}

async function report({ unit, day, extra, signal }) {
  const { first } = await unitOf(unit, day, signal);
  const halves = Math.ceil(quarterOf(first, day) / 2);
  if (halves < 1) throw new Trouble("The unit's first reporting period has not begun on this day.");
  const ended = Math.floor((quarterOf(first, day) - 1) / 2);
  const half = extra ?? (ended || 1);
  const { head, rows } = await read(`/report/${unit}/${half}/${day}`, signal);
  const span = (it) => `${monthAfter(first, 6 * it - 6)} to ${monthAfter(first, 6 * it - 1)}`;
  const periods = Array.from({ length: halves }, (_, it) => halves - it);
  const pick = choice(periods.map((it) => [it, `${it}: ${span(it)}${it > ended ? " (not ended)" : ""}`]), half);
  pick.onchange = () => go("report", unit, day, pick.value);
  const at = (...places) => (row) => places.map((place) => row[place]);
  const months = rows.slice(0, 6).map(at(0, 2, 3, 5, 6, 8, 9));
  const delays = rows.filter(([word]) => word === "delay").map(at(1, 3, 5, 7, 9, 11, 13));
  const shutdowns = rows.filter(([word]) => word === "shutdown")
    .map(([, from, to]) => [from, to, daysBetween(from, to) + 1]);
  const columns = (heads, numbers) =>
    heads.map((text, place) => [text, (row) => row[place], numbers.includes(place) ? "number" : ""]);
  const name = `report-${unit}-${half}-${day}`;
  say(`6 months, ${plural(delays.length, "delay")} of repair, ${plural(shutdowns.length, "shutdown")}`);
  const kinds = ["Valves", "Pumps", "Compressors"];
  const ofDelays = columns(["Component", "Detected", "Ground", "Signer", "Expected", "Until", "Closed"], [0, 3]);
  ofDelays[2] = ["Ground", (row) => `(${row[2]}) ${GROUNDS[row[2]] ?? ""}`, "text"];
  ofDelays[5][1] = (row) => WAITS[row[5]] ?? row[5];
  return [
    make("div", { className: "filters" }, field("Reporting period", pick)),
    make("h2", {}, `${head[1]}, unit ${unit}: reporting period ${half}, ${span(half)}`),
    ...list({
      label: "Leaking components, and those not repaired in time, by month",
      groups: make("tr", { className: "groups" }, make("td"),
        kinds.map((it) => make("th", { colSpan: 2, scope: "colgroup" }, it))),
      columns: columns(["Month", ...kinds.flatMap(() => ["Leaking", "Not repaired"])], [1, 2, 3, 4, 5, 6]),
      rows: months, file: name, names: ["month", ...kinds.flatMap((it) => [`${it} leaking`, `${it} not repaired`])],
    }),
    make("h2", {}, "Delays of repair"),
    ...list({
      label: "Delays of repair", none: "No repair was delayed in this reporting period.",
      columns: ofDelays, rows: delays, file: `${name}-delays`,
      names: ["component", "detected", "ground", "signer", "expected", "until", "closed"],
    }),
    make("h2", {}, "Process unit shutdowns"),
    ...list({
      label: "Process unit shutdowns", none: "No shutdown has a day in this reporting period.",
      columns: columns(["First day", "Last day", "Days"], [2]), rows: shutdowns,
      file: `${name}-shutdowns`, names: ["first", "last", "days"],
    }),
  ];
}

// ---- batches

function sync() {
  const came = make("ol", { className: "answers" });
  const files = make("input", { type: "file", accept: ".json,application/json", multiple: true, id: "files" });
  const all = async (chosen) => {
    for (const file of chosen) await sendFile(file, came);
    files.value = "";
  };
  files.onchange = () => all([...files.files]);
  const drop = make("div", { className: "drop" }, make("label", { htmlFor: "files" }, "Batches as JSON files"),
    make("p", {}, "Drop files here, or choose them. Each is sent as it is, and answered below."), files);
  const over = (isOver) => (event) => {
    event.preventDefault();
    drop.classList.toggle("over", isOver);
  };
  [drop.ondragover, drop.ondragleave] = [over(true), over(false)];
  drop.ondrop = (event) => {
    over(false)(event);
    all([...event.dataTransfer.files]);
  };
  return [drop, came];
}

/** Sends a file, and shows what became of it. */
async function sendFile(file, came) {
  say(`Sending ${file.name} ...`);
  const tooLarge = `The file has ${count(file.size)} bytes. A batch has at most ${count(MOST_BYTES)}.`;
  const text = file.size > MOST_BYTES ? null : await file.text();
  const answer = text === null ? { title: "Not sent", says: tooLarge } : await send(text);
  came.prepend(make("li", {}, mark(answer.kept ? "good" : "bad", answer.title), make("b", {}, ` ${file.name}`),
    make("p", {}, answer.says), answer.fact && factOf(text, answer.fact)));
  say(`${file.name}: ${answer.title}`);
}

/** A fact of a batch, by its number from 1, as a small table. */
function factOf(text, number) {
  const fact = JSON.parse(text).facts[number - 1];
  const line = ([key, value]) => make("tr", {}, make("th", { scope: "row" }, key), make("td", {}, String(value)));
  return make("table", { className: "fact" }, make("caption", {}, `Fact ${number}`),
    make("tbody", {}, Object.entries(fact).map(line)));
}

function help() { return [at("help").content.cloneNode(true)]; }

// ---- which view is shown

let turn = new AbortController();

/** Says how much is shown, also to a screen reader. */
const say = (text) => { at("state").textContent = text; };

const go = (...words) => { location.hash = words.join("/"); };

/** What the address asks for. What it lacks is as it was, or unit 1 today. */
function wanted() {
  const [view, unit, day, extra] = location.hash.slice(1).split("/").map(decodeURIComponent);
  return { view: Object.hasOwn(VIEWS, view) ? view : "due", unit: unit || asked.unit.value,
    day: day || asked.day.value || today(), extra };
}

/** Shows the view of the address. An answer to an earlier one is dropped. */
async function show(isFirst) {
  turn.abort();
  turn = new AbortController();
  const { signal } = turn;
  const { view, unit, day, extra } = wanted();
  [asked.unit.value, asked.day.value] = [unit, day];
  const isOfUnit = !["sync", "help"].includes(view);
  const [title, shown] = VIEWS[view];
  at("asked").hidden = !isOfUnit;
  at("print").hidden = view === "sync";
  at("view").textContent = title;
  at("about").textContent = isOfUnit ? `Unit ${unit}, as of ${day}` : "";
  document.title = `${title}${isOfUnit ? `, unit ${unit}, ${day}` : ""} – LDAR office`;
  for (const link of document.querySelectorAll("nav a")) {
    link.href = `#${[link.dataset.view, unit, day].map(encodeURIComponent).join("/")}`;
    link.ariaCurrent = link.dataset.view === view ? "page" : null;
  }
  if (!isFirst) at("view").focus();
  onPaper = [];
  at("shown").replaceChildren();
  say(READING);
  try {
    const words = [unit, day, extra].map((it) => it && encodeURIComponent(it));
    const parts = await shown({ unit: words[0], day: words[1], extra: words[2], signal });
    if (signal.aborted) return;
    at("shown").replaceChildren(...parts);
    if (at("state").textContent === READING) say("");
    const { name } = isOfUnit ? await unitOf(words[0], words[1], signal).catch(() => ({})) : {};
    if (name && !signal.aborted) at("about").textContent = `Unit ${unit} ${name}, as of ${day}`;
  } catch (error) {
    if (signal.aborted) return;
    say("");
    const says = error instanceof Trouble ? error.message : `This page has an error: ${error.message}`;
    const again = button("Try again", () => show(false));
    at("shown").replaceChildren(make("div", { className: "note", role: "alert" }, make("p", {}, says), again));
  }
}

at("asked").onsubmit = (event) => {
  event.preventDefault();
  const before = location.hash;
  go(wanted().view, asked.unit.value, asked.day.value);
  if (location.hash === before) show(false);
};
at("print").onclick = () => print();
document.querySelector(".skip").onclick = (event) => {
  event.preventDefault();
  at("view").focus();
};
// (a file that is dropped beside the field is not to take the page's place)
for (const name of ["dragover", "drop"]) addEventListener(name, (event) => event.preventDefault());
addEventListener("beforeprint", () => onPaper.forEach((it) => it(true)));
addEventListener("afterprint", () => onPaper.forEach((it) => it(false)));
addEventListener("hashchange", () => show(false));
show(true);
