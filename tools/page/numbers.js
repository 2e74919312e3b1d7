// The numbers of the page: whole numbers of 64 bits, packed by planes of bytes, deflated, and written in base 64.
const run = JSON.parse(document.getElementById("run").textContent);
const kept = new Map();

// The numbers of a name: `big` has them exactly, `near` as floating point to draw by.
function numbers(name) {
  if (!kept.has(name)) kept.set(name, unpack(document.getElementById(name).textContent));
  return kept.get(name);
}

async function unpack(text) {
  const packed = Uint8Array.from(atob(text), it => it.charCodeAt(0));
  const stream = new Blob([packed]).stream().pipeThrough(new DecompressionStream("deflate"));
  const planes = new Uint8Array(await new Response(stream).arrayBuffer());
  const count = planes.length / 8, bytes = new Uint8Array(planes.length), near = new Float64Array(count);
  for (let k = 0; k < 8; k++) for (let n = 0; n < count; n++) bytes[8 * n + k] = planes[k * count + n];
  const low = new Uint32Array(bytes.buffer), high = new Int32Array(bytes.buffer);
  for (let n = 0; n < count; n++) near[n] = high[2 * n + 1] * 4294967296 + low[2 * n];
  return { big: new BigInt64Array(bytes.buffer), near };
}

// A whole number with all its digits.
function exact(number) {
  return String(number).replace("-", "−").replace(/\B(?=(\d{3})+$)/g, ",");
}

// A number of three or four digits, for axes and bars.
function rough(number) {
  const size = Math.abs(number);
  if (size === 0) return "0";
  if (size >= 1e6 || size < 1e-3) return number.toExponential(2).replace("e+", "e").replace("-", "−");
  return number.toLocaleString("en", { maximumSignificantDigits: 4 }).replace("-", "−");
}

function element(name, attributes = {}, ...inner) {
  const made = document.createElement(name);
  for (const [key, value] of Object.entries(attributes)) made.setAttribute(key, value);
  made.append(...inner);
  return made;
}

function table(rows) {
  return element("table", {}, ...rows.map(([name, ...cells]) =>
    element("tr", {}, element("th", {}, name), ...cells.map(it => element("td", {}, it)))));
}

// Buttons of which one is pressed. `then` is told which.
function choice(host, then) {
  const buttons = [...host.querySelectorAll("button")];
  for (const button of buttons) {
    button.onclick = () => {
      for (const it of buttons) it.setAttribute("aria-pressed", it === button);
      then(button.dataset.shows);
    };
  }
}
