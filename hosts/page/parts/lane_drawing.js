// Draws the objects of a run: their lanes, the locks in them, accesses, and what commits leave.

function drawLanes(scene) {
  for (const lane of scene.view.lanesInSight()) drawLane(scene, lane);
}

function drawLane(scene, lane) {
  const { view } = scene;
  const y = view.laneTop(lane);
  scene.fill("lane", LEFT, y, view.width - LEFT, lane.height);
  const strips = lane.object.strips.slice(0, MOST_STRIPS);
  strips.forEach((holds, strip) => drawStrip(scene, holds, y + 3 + strip * STRIP));
  const below = y + 4 + strips.length * STRIP;
  scene.setShown(true);
  drawPointsInSight(lane.object.accesses, view, (access) => drawAccess(scene, access, below));
  drawBases(scene, lane, y, below);
}

// Locks one after another, side by side with those of other strips.
function drawStrip(scene, holds, y) {
  const endOf = (hold) => lastOf(hold, scene.run);
  drawInSight(holds, scene.view, (it) => it.begin, endOf, (hold) => {
    scene.setShown(scene.filter.showsAction(hold.action));
    drawHold(scene, hold, y);
  });
}

function drawHold(scene, hold, y) {
  const { run, view } = scene;
  const x = Math.max(view.x(hold.begin), LEFT - 20);
  const width = Math.max(Math.min(view.x(lastOf(hold, run)), view.width + 20) - x, 2);
  scene.fill(hold.writes ? "writes" : "paper", x, y, width, STRIP - 1);
  const corners = [x, y, x + width, y, x + width, y + STRIP - 1, x, y + STRIP - 1, x, y];
  scene.line(hold.writes ? "writes" : "reads", corners, hold.writes ? [] : [2, 2]);
  const name = `a${hold.action.number}`;
  const from = Math.max(x, LEFT);
  if (x + width - from >= 5 * name.length + 6) scene.text(hold.writes ? "paper" : "ink", name, from + 3, y + 7, 8);
  scene.put(x, y, width, STRIP, () => toldOfHold(run, hold), (at) => chosenIn(hold, at, run));
}

// A full square for an access that may change the object, a ring for one that looks at it.
function drawAccessSign(scene, writes, x, y) {
  const { context } = scene;
  if (writes) {
    scene.fill("writes", x - 2.5, y, 5, 5);
    return;
  }
  context.strokeStyle = scene.colours.reads;
  context.lineWidth = 1;
  context.beginPath();
  context.arc(x, y + 2.5, 2.5, 0, 7);
  context.stroke();
}

function drawAccess(scene, access, y) {
  const x = scene.view.x(access.at);
  drawAccessSign(scene, access.writes, x, y);
  const chosen = () => ({ action: access.action, count: access.at + 1 });
  scene.put(x - 3, y - 1, 6, 7, () => [scene.run.entries[access.at].line], chosen);
}

// What is there for good from each commit on.
function drawBases(scene, lane, y, below) {
  const { view } = scene;
  const { object } = lane;
  const texts = (object.baseTexts ??= new BaseTexts(object));
  drawPointsInSight(object.bases, view, (base, next) => {
    const x = view.x(base.at);
    scene.line("base", [x, y, x, y + lane.height], [], Math.min(view.scale, 2));
    const place = firstWhere(object.bases, 0, (it) => it.at >= base.at);
    const room = Math.min(next ? view.x(next.at) : Infinity, view.width) - x - 8;
    if (room > 24) scene.textWithin("ink", texts.of(place), x + 4, below + 17, room, 10);
    const told = () => [...toldOfCommit(scene.run, base.action), texts.of(place)];
    scene.put(x - 3, y, 6, lane.height, told, () => ({ action: base.action, count: base.at + 1 }));
  });
}
