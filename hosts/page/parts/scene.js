// `Scene`: the canvas that a run is drawn on, its colours, and what lies where on it.

const COLOURS = [
  "paper", "ink", "faint", "grid", "lane", "committed", "alone", "ancestor", "sibling", "live", "writes", "reads",
  "base", "refused", "against", "chosen", "order",
];

class Scene {
  constructor(canvas, run) {
    this.canvas = canvas;
    this.run = run;
    this.view = new View(run);
    this.context = canvas.getContext("2d");
    // What lies under the pointer: places with their texts, and what a click there chooses.
    this.places = [];
    this.readColours();
  }

  // The colours are the style sheet's, for light and dark.
  readColours() {
    const style = getComputedStyle(document.documentElement);
    this.colours = Object.fromEntries(COLOURS.map((name) => [name, style.getPropertyValue(`--${name}`).trim()]));
    this.patterns = {
      ancestor: this.pattern((context) => {
        context.strokeStyle = this.colours.ancestor;
        context.lineWidth = 1.4;
        context.beginPath();
        context.moveTo(-1, 7);
        context.lineTo(7, -1);
        context.stroke();
      }),
      sibling: this.pattern((context) => {
        context.fillStyle = this.colours.sibling;
        context.fillRect(1, 1, 2, 2);
      }),
    };
  }

  // A pattern of squares of six pixels, in each of which this is drawn.
  pattern(draw) {
    const square = document.createElement("canvas");
    square.width = square.height = 6;
    const context = square.getContext("2d");
    context.fillStyle = this.colours.paper;
    context.fillRect(0, 0, 6, 6);
    draw(context);
    return this.context.createPattern(square, "repeat");
  }

  // A small run takes no more room than it needs.
  resize() {
    this.canvas.style.maxHeight = `${this.view.wholeHeight()}px`;
    const { width, height } = this.canvas.getBoundingClientRect();
    const ratio = window.devicePixelRatio || 1;
    this.canvas.width = Math.round(width * ratio);
    this.canvas.height = Math.round(height * ratio);
    this.context.setTransform(ratio, 0, 0, ratio, 0, 0);
    this.view.resize(width, height);
  }

  // Zooms where the chosen moment is, if that is in sight.
  zoomAtMoment(factor) {
    const x = this.view.x(this.shown.count - 0.5);
    this.view.zoom(factor, x >= LEFT && x <= this.view.width ? x : undefined);
  }

  fill(colour, x, y, width, height) {
    this.context.fillStyle = this.colours[colour];
    this.context.fillRect(x, y, width, height);
  }

  // A line through these points: x and y of each.
  line(colour, points, dashes = [], width = 1) {
    const { context } = this;
    context.strokeStyle = this.colours[colour];
    context.lineWidth = width;
    context.setLineDash(dashes);
    context.beginPath();
    for (let at = 0; at < points.length; at += 2) context.lineTo(points[at], points[at + 1]);
    context.stroke();
    context.setLineDash([]);
  }

  text(colour, text, x, y, size = 11) {
    this.context.fillStyle = this.colours[colour];
    this.context.font = `${size}px monospace`;
    this.context.fillText(text, x, y);
  }

  // A text of which so much is written as there is room for, if that is some of it.
  textWithin(colour, text, x, y, room, size = 11) {
    const letters = Math.floor(room / (size * 0.61));
    if (letters >= text.length) this.text(colour, text, x, y, size);
    else if (letters >= 4) this.text(colour, `${text.slice(0, letters - 1)}…`, x, y, size);
  }

  // A place that a pointer finds; `told` says its lines when they are wanted.
  put(x, y, width, height, told, chosen) {
    this.places.push({ x, y, width, height, told, chosen });
  }

  // What was drawn last of what lies there.
  placeAt(x, y) {
    const isThere = (it) => x >= it.x - 1 && x <= it.x + it.width + 1 && y >= it.y && y <= it.y + it.height;
    return this.places.findLast(isThere);
  }

  draw(filter, shown) {
    const { context, view } = this;
    this.filter = filter;
    this.shown = shown;
    this.places = [];
    this.fill("paper", 0, 0, view.width, view.height);
    drawGrid(this);
    context.save();
    context.beginPath();
    context.rect(LEFT, TOP, view.width, view.height);
    context.clip();
    drawActions(this);
    drawLanes(this);
    drawMoment(this);
    context.restore();
    drawNames(this);
    drawAxis(this);
  }

  // What the filter leaves out is drawn faintly.
  setShown(isShown) {
    this.context.globalAlpha = isShown ? 1 : 0.15;
  }
}
