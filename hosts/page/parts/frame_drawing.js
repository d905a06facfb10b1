// Draws what stays in its place around a run: the numbers of entries, the serial order and the names of objects; and
// the moment that is chosen.

// How many entries there are from one number on the axis to the next: 1, 2, 5, 10, ..
function stepOfAxis(view) {
  const least = 46 / view.scale;
  const ten = 10 ** Math.floor(Math.log10(Math.max(least, 1)));
  return [1, 2, 5, 10].map((it) => it * ten).find((it) => it >= least);
}

// The entries with a number on the axis.
function entriesWithNumber(scene) {
  const { run, view } = scene;
  const step = stepOfAxis(view);
  const first = Math.max(0, Math.ceil(view.entryAt(LEFT) / step));
  const last = Math.floor(Math.min(view.entryAt(view.width), run.entries.length - 1) / step);
  return Array.from({ length: Math.max(0, last - first + 1) }, (_, place) => (first + place) * step);
}

function drawGrid(scene) {
  for (const at of entriesWithNumber(scene)) {
    const x = scene.view.x(at);
    scene.line("grid", [x, TOP, x, scene.view.height]);
  }
}

function drawAxis(scene) {
  const { run, view } = scene;
  scene.fill("paper", LEFT, 0, view.width, TOP);
  scene.line("grid", [0, TOP, view.width, TOP]);
  scene.text("faint", "entry", 8, 15, 10);
  scene.text("faint", "serial order", 8, 36, 10);
  for (const at of entriesWithNumber(scene)) drawNumber(scene, run.entries[at].number, view.x(at));
  drawOrder(scene);
}

function drawNumber(scene, number, x) {
  if (x < LEFT) return;
  scene.text("faint", number, x - 3 * number.length, 15, 10);
}

// The commits of topactions, numbered in their order, where the one before leaves room.
function drawOrder(scene) {
  const { view } = scene;
  let room = LEFT;
  drawInSight(scene.run.serial, view, (it) => it.end, (it) => it.end, (action) => {
    scene.setShown(scene.filter.showsAction(action));
    const text = String(action.order);
    const width = 6.2 * text.length + 8;
    const x = view.x(action.end);
    if (x - width / 2 < room) {
      if (x > room) scene.line("order", [x, 26, x, 41]);
    } else {
      drawBadge(scene, text, x, 26, width);
      room = x + width / 2 + 2;
    }
    const chosen = () => ({ action, count: action.end + 1 });
    scene.put(x - width / 2, 25, width, 17, () => toldOfCommit(scene.run, action), chosen);
  });
  scene.setShown(true);
}

function drawBadge(scene, text, x, y, width) {
  const { context, colours } = scene;
  context.fillStyle = colours.order;
  context.strokeStyle = colours.ink;
  context.lineWidth = 1;
  context.beginPath();
  context.roundRect(x - width / 2, y, width, 15, 7);
  context.fill();
  context.stroke();
  scene.text("ink", text, x - 3.1 * text.length, y + 11, 10);
}

function drawNames(scene) {
  const { context, run, view } = scene;
  scene.fill("paper", 0, 0, LEFT, view.height);
  scene.line("grid", [LEFT, 0, LEFT, view.height]);
  context.save();
  context.beginPath();
  context.rect(0, TOP, LEFT, view.height);
  context.clip();
  scene.text("faint", `${run.actions.length} actions`, 8, view.rowTop(0) + 11, 10);
  for (const lane of view.lanesInSight()) drawLaneName(scene, lane);
  context.restore();
}

function drawLaneName(scene, lane) {
  const { object } = lane;
  const y = scene.view.laneTop(lane);
  scene.fill("lane", 4, y, LEFT - 4, lane.height);
  scene.textWithin("ink", scene.run.labelOf(object.number), 8, y + 13, LEFT - 12);
  scene.textWithin("faint", object.shape, 8, y + 25, LEFT - 12, 9);
  const more = object.strips.length - MOST_STRIPS;
  if (more > 0) scene.text("faint", `and ${more} more at once`, 8, y + 37, 9);
  scene.put(4, y, LEFT - 4, lane.height, () => toldOfObject(scene.run, object), () => ({}));
}

// The moment behind the entries that are chosen.
function drawMoment(scene) {
  const x = scene.view.x(scene.shown.count - 0.5);
  scene.line("chosen", [x, TOP, x, scene.view.height], [], 1.5);
}
