// Puts the page together.
function facts() {
  const cells = name => run.mosaics[name].shapes.reduce((sum, [nx, ny]) => sum + nx * ny, 0), last = run.dates.length - 1;
  document.querySelector("h1").textContent = run.title;
  document.querySelector(".facts").textContent = `${run.dates[0]} to ${run.dates[last]}, ${exact(last)} coupling steps. ` +
    `${exact(cells("atmos"))} cells of air, ${exact(cells("land"))} of land, ${exact(cells("ocean"))} of ocean, ` +
    `${run.layers} layers, ${run.categories} categories of ice. All amounts are whole numbers.`;
}

// Says for all rows of both tables whether anything is missing.
function checks(stocks, lost, rows) {
  const host = document.querySelector(".checks"), missing = stocks.filter(it => it.most);
  host.append(element("li", missing.length ? { class: "bad" } : {}, missing.length ? `Missing from the totals: ${missing.map(it => `${it.title} up to ${exact(it.most)}`).join(", ")}`
    : "Nothing is missing from the totals of heat, water and salt: exactly 0 in each row."));
  if (rows) {
    host.append(element("li", lost ? { class: "bad" } : {}, lost ? `${exact(lost)} rows of exchanges don’t balance.`
      : `before + gave = took + after in all ${exact(rows)} rows of exchanges.`));
  }
}

async function lostRows() {
  let lost = 0, rows = 0;
  if (run.dates.length === 1) return [0, 0];
  for (const name of run.exchanges) for (const quantity of run.quantities) {
    const [before, gave, took, after] = await Promise.all(["before", "gave", "took", "after"].map(it => numbers(`exchanges ${name} ${quantity} ${it}`)));
    rows += gave.big.length;
    gave.big.forEach((it, n) => { if (before.big[n] + it !== took.big[n] + after.big[n]) lost++; });
  }
  return [lost, rows];
}

async function open() {
  facts();
  for (const { name, text } of run.namelists) document.getElementById("namelist").append(element("p", { class: "facts" }, name), element("pre", {}, text));
  choice(document.querySelector("#stocks .choice"), drawStocks);
  choice(document.querySelector("#exchanges .choice"), drawExchanges);
  document.querySelector(".all").onclick = () => show(null);
  chooseMaps();
  checks(await drawStocks("change"), ...await lostRows());
  await drawExchanges("heat");
  await drawMaps();
  matchMedia("(prefers-color-scheme: dark)").onchange = drawMaps;
  document.body.dataset.ready = Math.round(performance.now());
}

open().catch(fault => {
  document.querySelector(".facts").textContent = `This browser can’t show the page: ${fault.message}`;
  throw fault;
});
