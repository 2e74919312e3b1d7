// Curves over the run's days: stocks by part, the five exchanges, and below each what is missing.
const LEFT = 58, RIGHT = 14, TOP = 12, PLOT = 190, GAP = 30, STRIP = 40, FOOT = 2;
// The days that the charts show, or null for all.
let span = null;
const charts = new Set();

function svg(name, attributes, ...inner) {
  const made = document.createElementNS("http://www.w3.org/2000/svg", name);
  for (const [key, value] of Object.entries(attributes)) made.setAttribute(key, value);
  made.append(...inner);
  return made;
}

// Round numbers between two ends.
function ticks(low, high, count) {
  const raw = (high - low) / count, power = 10 ** Math.floor(Math.log10(raw));
  const step = [1, 2, 5, 10].map(it => it * power).find(it => it >= raw * 0.999);
  const made = [];
  for (let n = Math.ceil(low / step - 1e-9); n * step <= high + step * 1e-9; n++) made.push(n * step);
  return made;
}

// The thousands that an axis is counted in, and how that is written.
function scaleOf(most) {
  const power = most > 0 ? 3 * Math.max(0, Math.floor(Math.log10(most) / 3)) : 0;
  const raised = String(power).replace(/./g, it => "⁰¹²³⁴⁵⁶⁷⁸⁹"[it]);
  return power ? [10 ** power, `10${raised} `] : [1, ""];
}

// A chart: `days` along it, `lines` with a name, a colour, dashed or not, and numbers; `missing` of whole numbers; `tip(n)` what
// the pointer is told at the n-th place.
class Chart {
  constructor(title, unit, days, lines, missing, tip) {
    Object.assign(this, { title, unit, days, lines, missing, tip });
    this.box = element("div", { class: "chart" });
    this.most = missing.reduce((most, it) => (it < 0n ? -it : it) > most ? (it < 0n ? -it : it) : most, 0n);
    new ResizeObserver(() => this.draw()).observe(this.box);
    charts.add(this);
  }

  // Shows the days of `span`: the first and the last place that lie in it.
  within() {
    const [from, to] = span ?? [this.days[0], this.days[this.days.length - 1]], last = this.days.length - 1;
    this.from = Math.max(0, Math.min(last, this.days.findIndex(it => it >= from - 1e-9)));
    this.to = Math.max(this.from, this.days.findLastIndex(it => it <= to + 1e-9));
  }

  draw() {
    const wide = Math.floor(this.box.clientWidth - 24);
    if (wide < 60 || (wide === this.wide && span === this.span)) return;
    this.wide = wide;
    this.span = span;
    this.within();
    this.extent();
    const [scale, thousands] = scaleOf(Math.max(Math.abs(this.low), Math.abs(this.high)));
    const high = TOP + PLOT + GAP + STRIP + FOOT;
    const picture = svg("svg", { viewBox: `0 0 ${wide} ${high}`, height: high, role: "img", "aria-label": this.title });
    this.axes(picture, scale);
    for (const line of this.lines) {
      picture.append(svg("path", { class: line.dashed ? "curve dashed" : "curve", d: this.path(line.numbers), style: `stroke: var(--${line.colour})` }));
    }
    this.strip(picture);
    this.cross = svg("line", { class: "cross", y1: TOP, y2: high - FOOT, visibility: "hidden" });
    const area = svg("rect", { class: "area", x: LEFT, y: TOP, width: this.across(), height: high - TOP - FOOT, fill: "transparent" });
    this.band = svg("rect", { class: "band", y: TOP, height: PLOT, visibility: "hidden" });
    area.onpointermove = event => this.point(event, area);
    area.onpointerdown = event => { this.grip = this.x(this.point(event, area)); };
    area.onpointerup = event => this.drop(event, area);
    area.onpointerleave = () => this.leave();
    area.ondblclick = () => show(null);
    picture.append(this.band, this.cross, area);
    this.box.replaceChildren(element("h3", {}, this.title, element("small", {}, ` in ${thousands}${this.unit}`)), picture);
  }

  across() { return this.wide - LEFT - RIGHT; }

  extent() {
    let low = 0, high = 0;
    for (const { numbers } of this.lines) for (const it of numbers.subarray(this.from, this.to + 1)) {
      if (it < low) low = it;
      if (it > high) high = it;
    }
    const room = (high - low) * 0.05 || 1;
    this.low = low < 0 ? low - room : 0;
    this.high = high > 0 ? high + room : low < 0 ? 0 : 1;
  }

  x(n) {
    return this.place(this.days[n]);
  }

  place(day) {
    const first = this.days[this.from], last = this.days[this.to];
    return LEFT + (last > first ? (day - first) / (last - first) : 0.5) * this.across();
  }

  y(number) { return TOP + (this.high - number) / (this.high - this.low) * PLOT; }

  path(numbers) {
    const made = [];
    for (let n = this.from; n <= this.to; n++) made.push(`${this.x(n).toFixed(1)} ${this.y(numbers[n]).toFixed(1)}`);
    return `M${made.length === 1 ? `${made[0]} h4` : made.join("L")}`;
  }

  axes(picture, scale) {
    for (const it of ticks(this.low / scale, this.high / scale, 5)) {
      const y = this.y(it * scale);
      picture.append(svg("line", { class: it === 0 ? "zero" : "grid", x1: LEFT, x2: this.wide - RIGHT, y1: y, y2: y }),
        svg("text", { x: LEFT - 7, y: y + 4, "text-anchor": "end" }, rough(it)));
    }
    const first = this.days[this.from], last = this.days[this.to], foot = TOP + PLOT + 16;
    const marks = last > first ? ticks(first, last, Math.max(2, Math.min(6, this.across() / 60))) : [first];
    for (const it of marks) {
      const x = this.place(it), word = it === marks[marks.length - 1] ? `${rough(it)} days` : rough(it);
      picture.append(svg("line", { class: "grid", x1: x, x2: x, y1: TOP, y2: TOP + PLOT }),
        svg("text", { x: x > this.wide - 60 ? this.wide - 2 : x, y: foot, "text-anchor": x > this.wide - 60 ? "end" : "middle" }, word));
    }
  }

  // What is missing, as a strip of its own. It says so in words.
  strip(picture) {
    const middle = TOP + PLOT + GAP + STRIP / 2, most = Number(this.most), bad = this.most ? " bad" : "";
    const at = it => middle - (most ? Number(it) / most : 0) * STRIP * 0.35;
    const points = this.missing.slice(this.from, this.to + 1).map((it, n) => `${this.x(this.from + n).toFixed(1)} ${at(it).toFixed(1)}`);
    picture.append(
      svg("line", { class: "grid", x1: LEFT, x2: this.wide - RIGHT, y1: middle, y2: middle }),
      svg("path", { class: `missing${bad}`, d: `M${points.length === 1 ? `${points[0]} h4` : points.join("L")}` }),
      svg("text", { x: LEFT - 7, y: middle + 4, "text-anchor": "end" }, "missing"),
      svg("text", { class: `verdict${bad}`, x: this.wide - RIGHT, y: middle - 7, "text-anchor": "end" }, this.most ? `up to ${exact(this.most)}` : "exactly 0"));
  }

  // Tells the numbers of the place at the pointer, and gives the place.
  point(event, area) {
    const box = area.getBoundingClientRect(), part = Math.min(1, Math.max(0, (event.clientX - box.left) / box.width));
    const day = this.days[this.from] + part * (this.days[this.to] - this.days[this.from]);
    let n = this.from, end = this.to;
    while (n < end) { const half = (n + end) >> 1; if (this.days[half] < day) n = half + 1; else end = half; }
    if (n > this.from && day - this.days[n - 1] < this.days[n] - day) n--;
    for (const it of ["x1", "x2"]) this.cross.setAttribute(it, this.x(n));
    this.cross.setAttribute("visibility", "visible");
    if (this.grip !== undefined) {
      this.band.setAttribute("x", Math.min(this.grip, this.x(n)));
      this.band.setAttribute("width", Math.abs(this.grip - this.x(n)));
      this.band.setAttribute("visibility", "visible");
    }
    showTip(event, this.tip(n));
    return n;
  }

  // The end of a drag: all charts show the days between.
  drop(event, area) {
    const ends = [this.grip, this.x(this.point(event, area))].sort((one, other) => one - other);
    this.leave();
    if (ends[1] - ends[0] > 8) {
      const [first, last] = [this.days[this.from], this.days[this.to]];
      show(ends.map(it => first + (it - LEFT) / this.across() * (last - first)));
    }
  }

  leave() {
    this.grip = undefined;
    for (const it of [this.cross, this.band]) it.setAttribute("visibility", "hidden");
    document.querySelector(".tip").hidden = true;
  }
}

function show(days) {
  span = days;
  document.body.classList.toggle("near", Boolean(span));
  for (const it of charts) { if (it.box.isConnected) it.draw(); else charts.delete(it); }
}

function showTip(event, inner) {
  const tip = document.querySelector(".tip");
  tip.replaceChildren(...inner);
  tip.hidden = false;
  const x = event.clientX + 16 + tip.offsetWidth > innerWidth ? event.clientX - 16 - tip.offsetWidth : event.clientX + 16;
  const y = event.clientY + 16 + tip.offsetHeight > innerHeight ? event.clientY - 16 - tip.offsetHeight : event.clientY + 16;
  tip.style.left = `${Math.max(8, Math.min(x, innerWidth - tip.offsetWidth - 8))}px`;
  tip.style.top = `${Math.max(8, y)}px`;
}

function legend(host, entries) {
  host.replaceChildren(...entries.map(([name, colour, dashed]) =>
    element("span", {}, element("i", { style: `border-color: var(--${colour})`, class: dashed ? "dashed" : "" }), name)));
}

function momentOf(n) {
  const from = run.runs.findLastIndex(it => it.first <= Math.max(0, n - 1));
  const within = run.runs.length > 1 ? `, step ${n - run.runs[from].first} of ${run.runs[from].name}` : "";
  return element("b", {}, `${run.dates[n]}, step ${exact(n)}${within}`);
}

// Heat, water and salt of each part; below it what is missing from the total.
async function drawStocks(shows) {
  const host = document.querySelector("#stocks .charts"), days = (await numbers("seconds")).near.map(it => it / 86400), made = [];
  for (const quantity of run.quantities) {
    const columns = {};
    for (const it of [...run.parts, "entered", "left", "total"]) columns[it] = await numbers(`stocks ${quantity} ${it}`);
    const lines = run.parts.filter(part => columns[part].big.some(it => it !== 0n)).map(part => {
      const { near, big } = columns[part];
      return { name: part, colour: part, numbers: shows === "amount" ? near : Float64Array.from(big, it => Number(it - big[0])) };
    });
    const { total, entered, left } = columns;
    const missing = Array.from(total.big, (it, n) => it - total.big[0] - entered.big[n] + left.big[n]);
    const tip = n => [momentOf(n), table([...run.parts, "total", "entered", "left"].map(it =>
      [it.replace("_", " "), exact(columns[it].big[n])]).concat([["missing", exact(missing[n])]]))];
    made.push(new Chart(quantity, `units of ${quantity}`, days, lines, missing, tip));
  }
  host.replaceChildren(...made.map(it => it.box));
  legend(document.querySelector("#stocks .legend"), run.parts.map(it => [it.replace("_", " "), it]));
  return made;
}

const NOTES = [
  ["air → land, air → ice", "heat and evaporation between the air and what lies under it, and rain. Below 0 more came back than went."],
  ["land → ice", "runoff, to the cells of the ocean where the outlets lead."],
  ["ocean → ice", "frazil and skin, which the ice takes a step later."],
  ["ice → ocean", "skin, melt and runoff, which the ocean takes a step later."],
  ["missing", "before + gave − took − after, where before and after are in flight."],
];

// What was given and taken in each step, of one quantity; below it what is missing, flights counted.
async function drawExchanges(quantity) {
  const host = document.querySelector("#exchanges .charts"), days = (await numbers("seconds")).near.map(it => it / 86400).slice(1), made = [];
  if (!days.length) {
    host.replaceChildren(element("p", { class: "note" }, "The run had no step, and so there is no exchange."));
    return made;
  }
  for (const name of run.exchanges) {
    const [before, gave, took, after] = await Promise.all(["before", "gave", "took", "after"].map(it => numbers(`exchanges ${name} ${quantity} ${it}`)));
    const missing = Array.from(gave.big, (it, n) => before.big[n] + it - took.big[n] - after.big[n]);
    const lines = [{ name: "gave", colour: "gave", numbers: gave.near }, { name: "took", colour: "took", dashed: true, numbers: took.near }];
    const tip = n => [momentOf(n + 1), table([["before", before], ["gave", gave], ["took", took], ["after", after]].map(([it, numbers]) =>
      [it, exact(numbers.big[n])]).concat([["missing", exact(missing[n])]]))];
    made.push(new Chart(name.replace("-", " → "), `units of ${quantity} a step`, days, lines, missing, tip));
  }
  const note = element("dl", { class: "note" }, ...NOTES.flatMap(([name, text]) => [element("dt", {}, name), element("dd", {}, text)]));
  host.replaceChildren(...made.map(it => it.box), note);
  legend(document.querySelector("#exchanges .legend"), [["gave, summed over the giver’s cells", "gave"], ["took, summed over the taker’s cells", "took", true]]);
  return made;
}
