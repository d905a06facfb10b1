// `View`: which part of a run is in sight, and where in it each thing is, in pixels.

// The names of objects stand left of this, and the numbers of entries and the serial order above that.
const LEFT = 150;
const TOP = 46;
const ROW = 24;
const BAR = 14;
// Locks side by side in a lane are so high each; of more than so many the lane says how many there are.
const STRIP = 9;
const MOST_STRIPS = 8;
const WIDEST = 60;

class View {
  constructor(run) {
    this.run = run;
    Object.assign(this, { width: 0, height: 0, left: 0, top: 0, scale: 0 });
    this.showLanes(run.objects);
  }

  // These objects have lanes, one below the other.
  showLanes(objects) {
    // What was refused to nobody that is live stands above all rows.
    this.firstRow = this.run.refusedInRow.has(-1) ? 1 : 0;
    let top = (this.firstRow + this.run.rows.length) * ROW + 14;
    this.lanes = objects.map((object) => {
      const lane = { object, top, height: 26 + STRIP * Math.min(object.strips.length, MOST_STRIPS) };
      top += lane.height + 4;
      return lane;
    });
    this.whole = top;
  }

  // How high the picture is where it is seen whole.
  wholeHeight() {
    return TOP + this.whole + 4;
  }

  // The picture has another size. What was seen whole still is.
  resize(width, height) {
    const wasFitting = this.scale <= this.leastScale() * 1.001;
    Object.assign(this, { width, height });
    if (wasFitting) this.fit();
    this.clamp();
  }

  // The scale at which the whole run is in sight, however narrow the window is.
  leastScale() {
    return Math.min(this.room() / Math.max(this.run.entries.length, 1), WIDEST);
  }

  room() {
    return Math.max(this.width - LEFT - 30, 50);
  }

  fit() {
    Object.assign(this, { scale: this.leastScale(), left: 0 });
  }

  clamp() {
    this.scale = Math.min(Math.max(this.scale, this.leastScale()), WIDEST);
    this.left = Math.max(0, Math.min(this.left, this.run.entries.length - this.room() / this.scale));
    this.top = Math.max(0, Math.min(this.top, this.whole - (this.height - TOP)));
  }

  zoom(factor, x = (LEFT + this.width) / 2) {
    const entry = this.entryAt(x);
    this.scale = Math.min(Math.max(this.scale * factor, this.leastScale()), WIDEST);
    this.left = entry - (x - LEFT - 12) / this.scale;
    this.clamp();
  }

  // Moves by so many pixels; whether it could.
  pan(x, y) {
    const { left, top } = this;
    this.left += x / this.scale;
    this.top += y;
    this.clamp();
    return this.left !== left || this.top !== top;
  }

  // Brings an entry into sight, and a row where one is given.
  reveal(at, row = null) {
    const x = this.x(at);
    if (x < LEFT || x > this.width - 20) this.left = at - (this.width - LEFT) / 2 / this.scale;
    const y = row === null ? null : this.rowTop(row);
    if (y !== null && (y < TOP || y > this.height - ROW)) this.top += y - this.height / 2;
    this.clamp();
  }

  x(at) {
    return LEFT + 12 + (at - this.left) * this.scale;
  }

  entryAt(x) {
    return this.left + (x - LEFT - 12) / this.scale;
  }

  rowTop(row) {
    return TOP + 5 + (row + this.firstRow) * ROW - this.top;
  }

  laneTop(lane) {
    return TOP + lane.top - this.top;
  }

  // The first and the last row that can be seen.
  rowsInSight() {
    const first = Math.max(0, Math.floor(this.top / ROW) - this.firstRow);
    const last = Math.ceil((this.top + this.height - TOP) / ROW) - this.firstRow;
    return [first, Math.min(last, this.run.rows.length - 1)];
  }

  lanesInSight() {
    const first = firstWhere(this.lanes, 0, (it) => it.top + it.height >= this.top);
    const behind = firstWhere(this.lanes, first, (it) => it.top > this.top + this.height - TOP);
    return this.lanes.slice(first, behind);
  }
}

// The first place from this one on whose item is so; of items that aren't before it, and are from there on.
function firstWhere(items, from, isSo) {
  let low = from;
  let high = items.length;
  while (low < high) {
    const middle = (low + high) >> 1;
    if (isSo(items[middle])) high = middle;
    else low = middle + 1;
  }
  return low;
}

// Draws what can be seen of items that come one after another, each from one entry to another; of those that end on
// one pixel only the first.
function drawInSight(items, view, beginOf, endOf, draw) {
  const from = (entry, place) => firstWhere(items, place, (it) => endOf(it) >= entry);
  const right = view.entryAt(view.width);
  let place = from(view.entryAt(LEFT), 0);
  while (place < items.length && beginOf(items[place]) <= right) {
    draw(items[place], items[place + 1]);
    place = from(view.entryAt(view.x(endOf(items[place])) + 1), place + 1);
  }
}

// The same of items at one entry each.
function drawPointsInSight(items, view, draw) {
  drawInSight(items, view, (it) => it.at, (it) => it.at, draw);
}
