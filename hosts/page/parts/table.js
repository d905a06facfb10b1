// `Table`: a table of many rows, of which the page has those that can be seen. Each says which one it is, for those who
// hear it.

const ROW_HEIGHT = 22;
// A longer text is cut in the page.
const MOST_LETTERS = 2000;

class Table {
  // A table with this name, in this place; its heads, each with its part of the width in hundredths.
  constructor(place, name, heads) {
    this.place = place;
    this.rows = { count: 0, of: null, current: -1 };
    place.append(this.head(name, heads));
    place.addEventListener("scroll", () => this.draw());
    new ResizeObserver(() => this.draw()).observe(place);
  }

  head(name, heads) {
    const table = element("table");
    table.setAttribute("aria-label", name);
    const line = element("tr");
    for (const [text, width] of Object.entries(heads)) {
      const cell = element("th", text);
      cell.scope = "col";
      cell.style.width = `${width}%`;
      line.append(cell);
    }
    const head = element("thead");
    head.append(line);
    this.body = element("tbody");
    table.append(head, this.body);
    this.table = table;
    return table;
  }

  // Shows so many rows, of which one may be the current one. Of a place `of` says the cells, and what a click does.
  show(count, of, current = -1) {
    this.rows = { count, of, current };
    this.table.setAttribute("aria-rowcount", count + 1);
    if (current >= 0) this.reveal(current);
    this.draw();
  }

  reveal(place) {
    const top = place * ROW_HEIGHT;
    const room = this.place.clientHeight - 2 * ROW_HEIGHT;
    if (top < this.place.scrollTop) this.place.scrollTop = top;
    else if (top > this.place.scrollTop + room) this.place.scrollTop = top - room;
  }

  draw() {
    const { count, of } = this.rows;
    if (!of) return;
    const first = Math.max(0, Math.min(Math.floor(this.place.scrollTop / ROW_HEIGHT), count - 1));
    const last = Math.min(count, first + Math.ceil(this.place.clientHeight / ROW_HEIGHT) + 1);
    const places = Array.from({ length: Math.max(last - first, 0) }, (_, place) => first + place);
    const rows = places.map((place) => this.row(place, of(place)));
    this.body.replaceChildren(spacer(first), ...rows, spacer(count - last));
  }

  row(place, { cells, pick }) {
    const line = element("tr");
    line.setAttribute("aria-rowindex", place + 2);
    if (place === this.rows.current) line.setAttribute("aria-current", "true");
    line.append(...cells.map(cellOf));
    if (pick) line.addEventListener("click", pick);
    return line;
  }
}

// What stands for so many rows that can't be seen.
function spacer(rows) {
  const line = element("tr");
  line.setAttribute("aria-hidden", "true");
  line.className = "spacer";
  line.style.height = `${Math.max(rows, 0) * ROW_HEIGHT}px`;
  return line;
}

function element(name, text = "") {
  const made = document.createElement(name);
  made.textContent = text;
  return made;
}

function cellOf(text) {
  const shown = text.length > MOST_LETTERS ? `${text.slice(0, MOST_LETTERS)}… (${text.length} letters)` : text;
  const cell = element("td", shown);
  cell.title = shown;
  return cell;
}
