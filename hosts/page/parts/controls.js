// What the pointer, the keys and the fields of the page do.

// Draws at most once a frame, however often it is asked for.
function oncePerFrame(work) {
  let isAsked = false;
  return () => {
    if (isAsked) return;
    isAsked = true;
    requestAnimationFrame(() => {
      isAsked = false;
      work();
    });
  };
}

function listenToPointer(page, canvas, draw) {
  let drag = null;
  canvas.addEventListener("pointerdown", (event) => {
    drag = { x: event.offsetX, y: event.offsetY, isMoved: false };
    canvas.setPointerCapture(event.pointerId);
  });
  canvas.addEventListener("pointermove", (event) => {
    if (!drag) return showTitle(page, event);
    const [x, y] = [drag.x - event.offsetX, drag.y - event.offsetY];
    if (!drag.isMoved && Math.abs(x) + Math.abs(y) < 5) return undefined;
    drag = { x: event.offsetX, y: event.offsetY, isMoved: true };
    page.scene.view.pan(x, y);
    return draw();
  });
  canvas.addEventListener("pointerup", (event) => {
    if (drag && !drag.isMoved) clickAt(page, event.offsetX, event.offsetY);
    drag = null;
  });
  canvas.addEventListener("pointerleave", hideTitle);
}

// A click chooses what lies there and its moment; where nothing does, the moment alone.
function clickAt(page, x, y) {
  const place = page.scene.placeAt(x, y);
  const at = page.scene.view.entryAt(x);
  page.choose(place ? place.chosen(at) : { count: Math.floor(at) + 1, action: null });
}

// The title of what lies under the pointer.
function showTitle(page, event) {
  const place = page.scene.placeAt(event.offsetX, event.offsetY);
  if (!place) return hideTitle();
  const title = byId("title");
  title.textContent = place.told().map(shortLine).join("\n");
  title.hidden = false;
  const { clientX, clientY } = event;
  title.style.left = `${Math.max(4, Math.min(clientX + 14, innerWidth - title.offsetWidth - 8))}px`;
  title.style.top = `${Math.min(clientY + 16, innerHeight - title.offsetHeight - 8)}px`;
  return undefined;
}

function hideTitle() {
  byId("title").hidden = true;
}

// The wheel scrolls the picture, and where that is at its end the page; with Ctrl it zooms, at the pointer.
function listenToWheel(page, canvas, draw) {
  canvas.addEventListener("wheel", (event) => {
    const { view } = page.scene;
    const [x, y] = event.shiftKey ? [event.deltaY, 0] : [event.deltaX, event.deltaY];
    if (event.ctrlKey) view.zoom(1.0015 ** -event.deltaY, event.offsetX);
    else if (!view.pan(x, y)) return;
    event.preventDefault();
    draw();
  }, { passive: false });
}

// What keys do wherever no field has the focus.
const KEYS = {
  ArrowLeft: (page) => page.chooseEntry(page.shown.count - 2),
  ArrowRight: (page) => page.chooseEntry(page.shown.count),
  Home: (page) => page.choose({ count: 0 }),
  End: (page) => page.choose({ count: page.run.entries.length }),
  Enter: (page) => page.choose({ action: page.run.entries[page.shown.count - 1]?.actor ?? null }),
  Escape: (page) => page.choose({ action: null }),
  "+": (page) => page.scene.zoomAtMoment(1.5),
  "-": (page) => page.scene.zoomAtMoment(1 / 1.5),
  0: (page) => page.scene.view.fit(),
  a: (page) => page.scene.view.pan(-80, 0),
  d: (page) => page.scene.view.pan(80, 0),
  w: (page) => page.scene.view.pan(0, -80),
  s: (page) => page.scene.view.pan(0, 80),
};

function listenToKeys(page, draw) {
  document.addEventListener("keydown", (event) => {
    const isField = event.target.matches("input, select, summary, button");
    if (isField || event.ctrlKey || event.altKey || event.metaKey || !(event.key in KEYS)) return;
    event.preventDefault();
    hideTitle();
    KEYS[event.key](page);
    draw();
  });
}

function listenToFields(page, draw) {
  byId("moment").addEventListener("input", (event) => page.choose({ count: Number(event.target.value) }));
  for (const id of ["objects", "action", "status"]) {
    byId(id).addEventListener("input", () => page.applyFilter());
  }
  const buttons = { closer: "+", further: "-", whole: "0", back: "ArrowLeft", on: "ArrowRight" };
  for (const [id, key] of Object.entries(buttons)) {
    byId(id).addEventListener("click", () => {
      KEYS[key](page);
      draw();
    });
  }
}

function listen(page) {
  const canvas = byId("canvas");
  const draw = oncePerFrame(() => page.draw());
  listenToPointer(page, canvas, draw);
  listenToWheel(page, canvas, draw);
  listenToKeys(page, draw);
  listenToFields(page, draw);
  new ResizeObserver(oncePerFrame(() => page.resize())).observe(canvas);
  matchMedia("(prefers-color-scheme: dark)").addEventListener("change", () => {
    page.scene.readColours();
    drawLegend(page.scene);
    page.draw();
  });
}
