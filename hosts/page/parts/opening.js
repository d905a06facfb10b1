// Opens the page: reads its lines, and shows their run.

// The text of the listing. A character that no page can have, that of number 0, is an element in its place.
function listingOf(place) {
  return [...place.childNodes].map((it) => (it.nodeType === Node.TEXT_NODE ? it.data : "\0")).join("");
}

// The bars of the legend are drawn as those of the picture are.
function drawLegend(scene) {
  for (const sign of document.querySelectorAll("#legend canvas")) {
    const ratio = window.devicePixelRatio || 1;
    sign.width = 52 * ratio;
    sign.height = 18 * ratio;
    const context = sign.getContext("2d");
    context.setTransform(ratio, 0, 0, ratio, 0, 0);
    // The same scene on this canvas.
    drawSign(Object.assign(Object.create(scene), { context }), sign.dataset.sign);
  }
}

// A sign of the legend, by its name.
function drawSign(scene, name) {
  const signs = {
    tie: () => scene.line("faint", [4, 9, 46, 9]),
    nested: () => scene.line("faint", [4, 9, 46, 9], [5, 4]),
    against: () => drawAgainst(scene, 25, 0, 12),
    refused: () => drawDiamond(scene, 25, 2),
    writes: () => scene.fill("writes", 4, 5, 42, STRIP - 1),
    reads: () => scene.line("reads", [4, 5, 46, 5, 46, 13, 4, 13, 4, 5], [2, 2]),
    write: () => drawAccessSign(scene, true, 25, 7),
    read: () => drawAccessSign(scene, false, 25, 7),
    base: () => scene.line("base", [25, 1, 25, 17], [], 2),
    order: () => drawBadge(scene, "1", 25, 1, 15),
  };
  if (signs[name]) signs[name]();
  else drawBar(scene, name, 4, 2, 36);
}

function open() {
  const names = byId("names").textContent.split("\n").slice(0, -1);
  const run = new Run(listingOf(byId("listing")), names);
  const page = new Page(run);
  drawLegend(page.scene);
  listen(page);
  return page;
}

// What went wrong stands in the page, above the lines, which can still be read.
function openOrSay() {
  try {
    return open();
  } catch (error) {
    document.documentElement.className = "";
    byId("size").textContent = `These lines can't be shown: ${error.message}`;
    throw error;
  }
}

const page = openOrSay();
