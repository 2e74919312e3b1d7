// Maps of the start and the last state and of their difference, with the numbers under the pointer.
const COLOURS = {
  warmth: "313695 4575b4 74add1 abd9e9 e0f3f8 ffffbf fee090 fdae61 f46d43 d73027 a50026",
  water: "f7fbff deebf7 c6dbef 9ecae1 6baed6 4292c6 2171b5 08519c 08306b",
  sun: "ffffe5 fff7bc fee391 fec44f fe9929 ec7014 cc4c02 993404 662506",
  salt: "440154 482878 3e4a89 31688e 26828e 1f9e89 35b779 6ece58 b5de2b fde725",
  part: "00204d 00336f 39486b 575c6d 707173 8a8779 a69d75 c4b56c e4cf5b ffea46",
  change: "053061 2166ac 4393c3 92c5de d1e5f0 f7f7f7 fddbc7 f4a582 d6604d b2182b 67001f",
};
const VAPOUR_HEAT = 3926;

const per = (above, below, scale = 1) => below > 0 ? scale * above / below : NaN;
const warmth = (heat, water, latent) => per(Math.max(0, heat - latent * water), 4 * water);

// A field: its mosaic, what it is called, its unit and colours, and its value of a cell's numbers `s` (by section) and area `a`.
// Sections of one group are shown together; `layer` and `category` tell which of its numbers there are several of.
const FIELDS = [
  ["air_temperature", "air", "temperature of the air", "K", "warmth", (s, a) => per(Math.max(0, s.air_heat - VAPOUR_HEAT * s.air_vapour), run.ca * a)],
  ["air_vapour", "air", "vapour of the air", "for each unit of area", "water", (s, a) => per(s.air_vapour, a)],
  ["air_sun", "air", "sun on the air", "for each unit of area and fast step", "sun", (s, a) => per(s.air_sun, a)],
  ["land_temperature", "land", "temperature of the land", "K", "warmth", (s, a) => a > 0 ? per(s.land_heat, run.cl * a + 4 * s.land_water) : NaN],
  ["land_water", "land", "water of the land", "for each unit of area", "water", (s, a) => per(s.land_water, a)],
  ["ocean_temperature", "ocean", "temperature of the ocean", "K", "warmth", s => warmth(s.heat, s.water, 334)],
  ["ocean_salinity", "ocean", "salinity of the ocean", "for each 1,000 units of water", "salt", s => per(s.salt, s.water, 1000)],
  ["ocean_water", "ocean", "water of the ocean", "for each unit of area", "water", (s, a) => per(s.water, a)],
  ["ice_part", "ice", "part of the cell", "", "part", (s, a) => a > 0 ? s.parts / 65536 : NaN],
  ["ice_water", "ice", "amount of ice", "for each unit of area", "water", (s, a) => per(s.ice, a)],
  ["ice_temperature", "ice", "temperature of the ice", "K", "warmth", s => Math.min(273, per(s.ice_heat, 4 * s.ice))],
  ["to_ice_frazil", "to ice", "frazil, to the ice", "for each unit of area", "water", (s, a) => per(s.frazil_water, a)],
  ["to_ice_skin", "to ice", "skin, to the ice", "for each unit of area", "water", (s, a) => per(s.skin_water, a)],
  ["to_ocean_water", "to ocean", "water, to the ocean", "for each unit of area", "water", (s, a) => per(s.ocean_water, a)],
].map(([id, group, label, unit, colours, value]) => ({ id, group, label, unit, colours, value }));

// The numbers of each group: the section, its mosaic, and which of several numbers it is.
const GROUPS = {
  "air": { of: "atmos", sections: [["air_heat"], ["air_vapour"], ["air_sun"]] },
  "land": { of: "land", sections: [["land_heat"], ["land_water"]] },
  "ocean": { of: "ocean", sections: [["water", "layer"], ["heat", "layer"], ["salt", "layer"]] },
  "ice": { of: "ocean", sections: [["parts", "category"], ["ice", "thick"], ["ice_heat", "thick"]] },
  "to ice": { of: "ocean", sections: [["frazil_water", 0], ["frazil_heat", 1], ["skin_water", 2], ["skin_heat", 3], ["skin_salt", 4]], from: "to_ice" },
  "to ocean": { of: "ocean", sections: [["ocean_water", 0], ["ocean_heat", 1], ["ocean_salt", 2]], from: "to_ocean" },
};

// A picture of a mosaic: its cell at each pixel, row 0 at the top, or -1.
class Picture {
  constructor(mosaic) {
    const places = mosaic.places, spans = mosaic.shapes.map(([nx, ny], tile) => places[tile][2] % 2 ? [ny, nx] : [nx, ny]);
    this.wide = Math.max(...places.map(([x], tile) => x + spans[tile][0]));
    this.high = Math.max(...places.map(([, y], tile) => y + spans[tile][1]));
    this.cells = new Int32Array(this.wide * this.high).fill(-1);
    this.names = [];
    this.where = [];
    let first = 0;
    mosaic.shapes.forEach(([nx, ny], tile) => {
      const [x, y, turns] = places[tile];
      for (let j = 0; j < ny; j++) for (let i = 0; i < nx; i++) {
        const [u, v] = [[i, j], [ny - 1 - j, i], [nx - 1 - i, ny - 1 - j], [j, nx - 1 - i]][turns];
        const at = (this.high - 1 - (y + v)) * this.wide + x + u;
        this.cells[at] = first + j * nx + i;
        this.where[first + j * nx + i] = [at % this.wide, Math.floor(at / this.wide), tile, i, j];
      }
      this.names.push([(x + spans[tile][0] / 2) / this.wide, 1 - (y + spans[tile][1] / 2) / this.high]);
      first += nx * ny;
    });
  }
}

function palette(name) {
  const anchors = COLOURS[name].split(" ").map(it => [0, 2, 4].map(k => parseInt(it.slice(k, k + 2), 16)));
  const made = new Uint8Array(256 * 3);
  for (let n = 0; n < 256; n++) {
    const at = n / 255 * (anchors.length - 1), low = Math.min(anchors.length - 2, Math.floor(at));
    for (let k = 0; k < 3; k++) made[3 * n + k] = Math.round(anchors[low][k] + (at - low) * (anchors[low + 1][k] - anchors[low][k]));
  }
  return made;
}

// The ends of the colours: a few cells that lie far out take those of the ends.
function ends(values) {
  const sorted = Float64Array.from(values.filter(it => !Number.isNaN(it))).sort();
  if (!sorted.length) return [0, 1];
  const [low, high] = [0.01, 0.99].map(it => sorted[Math.round(it * (sorted.length - 1))]);
  return high > low ? [low, high] : [low, low + (Math.abs(low) * 1e-6 || 1)];
}

const pictures = {};
const maps = { field: FIELDS[0], layer: 0, category: run.category, cell: -1 };

function blobOf(state, section, which, group) {
  const at = { layer: maps.layer, category: maps.category, thick: maps.category - 1 }[which] ?? which ?? 0;
  return at < 0 ? null : numbers(`${state} ${group.from ?? section} ${at}`);
}

// The group's numbers of a state by section. Open water has no ice.
async function sectionsOf(state, group) {
  const made = {};
  for (const [section, which] of group.sections) {
    const found = await blobOf(state, section, which, group);
    if (found) made[section] = found;
  }
  return made;
}

function valuesOf(field, sections, area) {
  const names = Object.keys(sections), made = new Float64Array(area.length), s = {};
  for (let n = 0; n < area.length; n++) {
    for (const it of names) s[it] = sections[it].near[n];
    made[n] = field.value(s, area[n]);
  }
  return made;
}

function paint(id, title, picture, values, area, [low, high], colours) {
  const host = document.getElementById(id), canvas = element("canvas", { width: picture.wide, height: picture.high, tabindex: 0, "aria-label": `map: ${title}` });
  const room = canvas.getContext("2d"), image = room.createImageData(picture.wide, picture.high), shades = palette(colours);
  const dry = getComputedStyle(document.documentElement).getPropertyValue("--dry").trim();
  const grey = [1, 3, 5].map(k => parseInt(dry.slice(k, k + 2), 16));
  picture.cells.forEach((cell, at) => {
    if (cell < 0) return;
    const level = Math.max(0, Math.min(255, Math.floor((values[cell] - low) / (high - low) * 256)));
    for (let k = 0; k < 3; k++) image.data[4 * at + k] = Number.isNaN(values[cell]) ? grey[k] : shades[3 * level + k];
    image.data[4 * at + 3] = 255;
  });
  room.putImageData(image, 0, 0);
  const frame = element("div", { class: "picture" }, canvas);
  frame.style.maxWidth = `${Math.max(picture.wide, Math.round(720 * Math.min(2.2, picture.wide / picture.high)))}px`;
  if (picture.names.length > 1) {
    picture.names.forEach(([x, y], tile) => frame.append(element("span", { class: "tile", style: `left: ${100 * x}%; top: ${100 * y}%` }, `tile ${tile}`)));
  }
  const steps = Array.from({ length: 11 }, (_, n) => `rgb(${shades.slice(3 * Math.round(25.5 * n), 3 * Math.round(25.5 * n) + 3).join(" ")})`);
  const bar = element("div", { class: "bar" }, rough(low), element("i", { style: `background: linear-gradient(to right, ${steps.join(", ")})` }), rough(high));
  const said = `${maps.field.label}${extraWords(maps.field)}${maps.field.unit && ", "}${maps.field.unit}`;
  host.replaceChildren(element("figcaption", {}, title, element("small", {}, ` ${said}`)), frame, bar);
  canvas.onpointermove = canvas.onpointerdown = event => {
    const box = canvas.getBoundingClientRect();
    pointAt(Math.floor((event.clientX - box.left) / box.width * picture.wide), Math.floor((event.clientY - box.top) / box.height * picture.high));
  };
  canvas.onkeydown = event => {
    const way = { ArrowLeft: [-1, 0], ArrowRight: [1, 0], ArrowUp: [0, -1], ArrowDown: [0, 1] }[event.key];
    if (!way) return;
    event.preventDefault();
    const [x, y] = maps.cell < 0 ? [-way[0], -way[1]] : picture.where[maps.cell];
    pointAt(x + way[0], y + way[1]);
  };
  canvas.style.imageRendering = canvas.clientWidth >= picture.wide ? "pixelated" : "auto";
}

function pointAt(x, y) {
  const picture = pictures[GROUPS[maps.field.group].of];
  const cell = x < 0 || y < 0 || x >= picture.wide || y >= picture.high ? -1 : picture.cells[y * picture.wide + x];
  if (cell >= 0) { maps.cell = cell; tellCell(); }
}

// The numbers of the cell under the pointer, as they stand in the files.
function tellCell() {
  const { field, start, last, area, cell } = maps, group = GROUPS[field.group], picture = pictures[group.of], under = document.querySelector(".under");
  document.querySelectorAll(".box").forEach(it => it.remove());
  if (cell < 0) {
    under.replaceChildren("Point at a map, or move with the arrow keys: here are the numbers of the cell.");
    return;
  }
  const [x, y, tile, i, j] = picture.where[cell], where = `left: ${100 * (x + 0.5) / picture.wide}%; top: ${100 * (y + 0.5) / picture.high}%`;
  const size = `width: ${100 / picture.wide}%; height: ${100 / picture.high}%`;
  document.querySelectorAll(".picture").forEach(it => it.append(element("div", { class: "box", style: `${where}; ${size}` })));
  const rows = [["", "start", "last", "difference"], [field.label, ...[maps.startValues[cell], maps.lastValues[cell], maps.lastValues[cell] - maps.startValues[cell]].map(it =>
    Number.isNaN(it) ? "none" : it.toLocaleString("en", { maximumFractionDigits: 3 }).replace("-", "−"))]];
  for (const section of Object.keys(last)) {
    const [a, b] = [start[section].big[cell], last[section].big[cell]];
    rows.push([section, exact(a), exact(b), exact(b - a)]);
  }
  under.replaceChildren(element("b", {}, `${group.of}, tile ${tile}, column ${i}, row ${j}, area ${exact(area.big[cell])}${extraWords(field)}`), table(rows));
}

function extraWords(field) {
  return field.group === "ocean" ? `, layer ${maps.layer}` : field.group === "ice" ? `, category ${maps.category}` : "";
}

async function drawMaps() {
  const field = maps.field, group = GROUPS[field.group];
  document.getElementById("layer").disabled = field.group !== "ocean";
  document.getElementById("category").disabled = field.group !== "ice";
  const [area, start, last] = [await numbers(`area ${group.of}`), await sectionsOf("start", group), await sectionsOf("last", group)];
  const startValues = valuesOf(field, start, area.near), lastValues = valuesOf(field, last, area.near);
  const difference = lastValues.map((it, n) => it - startValues[n]), picture = pictures[group.of] ??= new Picture(run.mosaics[group.of]);
  if (maps.of !== group.of) maps.cell = -1;
  Object.assign(maps, { of: group.of, area, start, last, startValues, lastValues });
  const both = new Float64Array([...startValues, ...lastValues]), widest = Math.max(...ends(difference.map(Math.abs)));
  paint("start", "start", picture, startValues, area.near, ends(both), field.colours);
  paint("last", "last", picture, lastValues, area.near, ends(both), field.colours);
  paint("difference", "difference", picture, difference, area.near, [-widest, widest], "change");
  tellCell();
}

function chooseMaps() {
  const groups = new Map();
  for (const { id, group, label } of FIELDS) {
    if (!groups.has(group)) groups.set(group, element("optgroup", { label: group }));
    groups.get(group).append(element("option", { value: id }, label));
  }
  document.getElementById("field").append(...groups.values());
  const options = count => Array.from({ length: count }, (_, n) => element("option", { value: n }, n));
  document.getElementById("layer").append(...options(run.layers));
  document.getElementById("category").append(...options(run.categories + 1));
  document.getElementById("category").value = maps.category;
  for (const id of ["field", "layer", "category"]) {
    document.getElementById(id).onchange = event => {
      maps[id] = id === "field" ? FIELDS.find(it => it.id === event.target.value) : Number(event.target.value);
      return drawMaps();
    };
  }
  choice(document.querySelector("#maps .choice"), shows => {
    document.querySelector(".maps").classList.toggle("large", shows === "large");
    return drawMaps();
  });
}
