// Draws the actions of a run: their bars, what began what, and refused calls.

// The bar of an action, from one pixel to another, as the legend has it, too.
function drawBar(scene, fate, x, y, width) {
  const { context, colours } = scene;
  context.fillStyle = fate === "committed" ? colours.committed : scene.patterns[fate] ?? colours.paper;
  context.fillRect(x, y, width, BAR);
  context.strokeStyle = colours[fate];
  context.lineWidth = 1.2;
  context.setLineDash(fate === "ancestor" ? [4, 2] : []);
  context.strokeRect(x, y, width, BAR);
  context.setLineDash([]);
  if (width >= 12) drawEnd(scene, fate, x + width, y);
}

// The sign at the end of a bar.
function drawEnd(scene, fate, x, y) {
  if (fate === "alone") {
    scene.line("ink", [x - 4, y + 3, x + 4, y + 11], [], 1.6);
    scene.line("ink", [x + 4, y + 3, x - 4, y + 11], [], 1.6);
  } else if (fate === "ancestor") {
    scene.line("ink", [x - 4, y + 7, x + 4, y + 7], [], 1.6);
  } else if (fate === "sibling") {
    scene.line("ink", [x + 4, y + 2, x - 4, y + 7, x + 4, y + 12], [], 1.6);
  } else if (fate === "live") {
    drawArrow(scene, x, y);
  }
}

function drawArrow(scene, x, y) {
  const { context } = scene;
  context.fillStyle = scene.colours.live;
  context.beginPath();
  context.moveTo(x, y);
  context.lineTo(x + 8, y + 7);
  context.lineTo(x, y + 14);
  context.fill();
}

// The entry at which an action ends, or the one behind the last if it is live.
function lastOf(action, run) {
  return action.end ?? run.entries.length;
}

function drawActions(scene) {
  const [first, last] = scene.view.rowsInSight();
  for (let row = first; row <= last; row++) drawRow(scene, row, drawTie);
  for (let row = first; row <= last; row++) drawRow(scene, row, drawAction);
  for (let row = first; row <= last; row++) drawRefusals(scene, row);
  drawRefusals(scene, -1);
  scene.setShown(true);
  if (scene.shown.action) drawChosen(scene, scene.shown.action);
}

function drawRow(scene, row, draw) {
  const endOf = (it) => lastOf(it, scene.run);
  drawInSight(scene.run.rows[row], scene.view, (it) => it.begin, endOf, (action, next) => {
    scene.setShown(scene.filter.showsAction(action));
    draw(scene, action, next);
  });
}

// The line from the bar of the action that began this one.
function drawTie(scene, action) {
  if (!action.creator) return;
  const x = scene.view.x(action.begin);
  const from = scene.view.rowTop(action.creator.row) + BAR;
  scene.line("faint", [x, from, x, scene.view.rowTop(action.row)], action.parent ? [] : [5, 4]);
}

function drawAction(scene, action) {
  const { run, view } = scene;
  const x = Math.max(view.x(action.begin), LEFT - 20);
  const width = Math.max(Math.min(view.x(lastOf(action, run)), view.width + 20) - x, 2);
  const y = view.rowTop(action.row);
  drawBar(scene, action.fate, x, y, width);
  const room = width - Math.max(LEFT - x, 0) - 8;
  const colour = action.fate === "committed" ? "paper" : "ink";
  const name = `a${action.number}`;
  if (room >= 6.7 * name.length + (action.order ? 14 : 0)) {
    drawName(scene, colour, action.fate, name, Math.max(x, LEFT) + 4, y);
  }
  scene.put(x, y, width, BAR, () => toldOfAction(run, action), (at) => chosenIn(action, at, run));
}

// The name is written over the pattern of its bar, on ground of its own.
function drawName(scene, colour, fate, name, x, y) {
  if (scene.patterns[fate]) scene.fill("paper", x - 2, y + 1, 6.7 * name.length + 4, BAR - 2);
  scene.text(colour, name, x, y + 11);
}

// The frame around the bar of the action that is chosen.
function drawChosen(scene, action) {
  const { run, view } = scene;
  const left = Math.max(view.x(action.begin), LEFT - 20) - 3;
  const right = Math.min(view.x(lastOf(action, run)), view.width + 20) + 3;
  const top = view.rowTop(action.row) - 3;
  const bottom = top + BAR + 6;
  scene.line("chosen", [left, top, right, top, right, bottom, left, bottom, left, top], [], 2.5);
}

// What a click on a bar chooses: the action, and the entry of its life that is there.
function chosenIn(action, at, run) {
  return { action, count: Math.min(Math.max(Math.floor(at), action.begin), lastOf(action, run)) + 1 };
}

// Refused calls of a row: each a diamond, with its name where the next one leaves room.
function drawRefusals(scene, row) {
  const { view } = scene;
  drawPointsInSight(scene.run.refusedInRow.get(row) ?? [], view, (refusal, next) => {
    scene.setShown(scene.filter.showsEntry(refusal.entry, scene.run));
    const x = view.x(refusal.at);
    const y = view.rowTop(row);
    if (refusal.against) drawAgainst(scene, x, y + 7, view.rowTop(refusal.against.row) + 7);
    drawDiamond(scene, x, y);
    const room = (next ? view.x(next.at) : Infinity) - x;
    scene.textWithin("refused", whyOf(scene.run, refusal), x - 4, y + 23, room, 10);
    scene.put(x - 6, y, 12, BAR, () => toldOfRefusal(scene.run, refusal), () => chosenBy(refusal));
  });
}

function chosenBy(refusal) {
  return { action: refusal.action, count: refusal.at + 1 };
}

function drawDiamond(scene, x, y) {
  const { context, colours } = scene;
  context.fillStyle = colours.order;
  context.strokeStyle = colours.ink;
  context.lineWidth = 1;
  context.beginPath();
  context.moveTo(x, y + 1);
  context.lineTo(x + 6, y + 7);
  context.lineTo(x, y + 13);
  context.lineTo(x - 6, y + 7);
  context.closePath();
  context.fill();
  context.stroke();
}

// The line from a conflict to the bar of the action whose lock was in the way.
function drawAgainst(scene, x, from, to) {
  const { context } = scene;
  scene.line("against", [x, from, x, to], [2, 3], 2);
  context.beginPath();
  context.arc(x, to, 4, 0, 7);
  context.fillStyle = scene.colours.paper;
  context.fill();
  context.stroke();
}

// Why a call was refused; of a conflict, over which object.
function whyOf(run, refusal) {
  return refusal.why === "Conflict" && refusal.object ? `Conflict ${run.nameOf(refusal.object.number)}` : refusal.why;
}
