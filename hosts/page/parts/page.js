// `Page`: what is chosen and shown, and how the parts of the page answer.

class Page {
  constructor(run) {
    this.run = run;
    this.scene = new Scene(byId("canvas"), run);
    this.shown = { count: run.entries.length, action: null };
    this.filter = new Filter(run, "", "", "");
    this.entries = run.entries;
    this.tables = {
      entries: new Table(byId("entries"), "Entries", { Entry: 12, Action: 11, Object: 17, Call: 38, Reply: 22 }),
      state: new Table(byId("state"), "What the objects held", { Object: 28, What: 24, Content: 48 }),
      serial: new Table(byId("serial"), "Serial order", { Number: 16, Action: 16, Entry: 16, Changed: 52 }),
      chosen: new Table(byId("chosen"), "Entries of the action", { Entry: 14, Call: 56, Reply: 30 }),
    };
    byId("size").textContent = sizeOf(run);
    byId("moment").max = run.entries.length;
    this.showSerial();
    this.resize();
    this.show();
  }

  resize() {
    this.scene.resize();
    this.draw();
  }

  draw() {
    this.scene.draw(this.filter, this.shown);
  }

  // Shows the run behind so many entries, with this action or none as the one that is chosen.
  choose({ count = this.shown.count, action = this.shown.action }) {
    this.shown = { count: Math.max(0, Math.min(count, this.run.entries.length)), action };
    this.show();
  }

  chooseEntry(at) {
    this.choose({ count: at + 1 });
    this.scene.view.reveal(at, this.run.entries[at]?.actor?.row ?? null);
    this.draw();
  }

  show() {
    const { count } = this.shown;
    byId("moment").value = count;
    const line = count > 0 ? this.run.entries[count - 1].line : "";
    byId("moment").setAttribute("aria-valuetext", `${momentOf(this.run, count)}: ${shortLine(line)}`);
    byId("told").textContent = count > 0 ? shortLine(line) : momentOf(this.run, 0);
    byId("when").textContent = momentOf(this.run, count);
    this.showEntries();
    this.showState();
    this.showChosen();
    this.draw();
  }

  showEntries() {
    const current = firstWhere(this.entries, 0, (it) => it.at >= this.shown.count - 1);
    const isThere = this.entries[current]?.at === this.shown.count - 1;
    const rowAt = (place) => this.entryRow(this.entries[place]);
    this.tables.entries.show(this.entries.length, rowAt, isThere ? current : -1);
  }

  entryRow(entry) {
    const cells = [entry.number, actorOf(entry), objectOf(this.run, entry), entry.call, entry.reply];
    return { cells, pick: () => this.chooseEntry(entry.at) };
  }

  showState() {
    const rows = stateAt(this.run, this.shown.count, (it) => this.filter.showsObject(it));
    this.tables.state.show(rows.length, (place) => this.stateRow(rows[place]));
  }

  stateRow(row) {
    const what = row.who ? `version of a${row.who.number}` : row.kind;
    const pick = row.who ? () => this.choose({ action: row.who }) : null;
    return { cells: [this.run.labelOf(row.object.number), what, row.text()], pick };
  }

  showSerial() {
    const { serial } = this.run;
    this.tables.serial.show(serial.length, (place) => this.serialRow(serial[place]));
  }

  serialRow(action) {
    const written = [...action.holds.values()].filter((it) => it.writes);
    const changed = written.map((it) => this.run.labelOf(it.object.number)).join(" ");
    const cells = [String(action.order), `a${action.number}`, this.run.entries[action.end].number, changed];
    return { cells, pick: () => this.chooseAction(action) };
  }

  chooseAction(action) {
    this.choose({ action, count: lastOf(action, this.run) + 1 });
    this.scene.view.reveal(lastOf(action, this.run), action.row);
    this.draw();
  }

  showChosen() {
    const { action, count } = this.shown;
    byId("life").textContent = action ? lifeOf(action) : "Choose an action: click on a bar, or on a row of a table.";
    const entries = action ? entriesOf(action, this.run) : [];
    const current = entries.findIndex((it) => it.at === count - 1);
    this.tables.chosen.show(entries.length, (place) => this.chosenRow(entries[place]), current);
  }

  chosenRow(entry) {
    return { cells: [entry.number, entry.call, entry.reply], pick: () => this.chooseEntry(entry.at) };
  }

  // Shows what the fields of the filter say.
  applyFilter() {
    const [objects, action, status] = ["objects", "action", "status"].map((it) => byId(it).value);
    this.filter = new Filter(this.run, objects, action, status);
    this.entries = this.run.entries.filter((it) => this.filter.showsEntry(it, this.run));
    const words = this.filter.isOpen ? "" : `${counted(this.entries.length, "entry", "entries")} shown`;
    byId("faults").textContent = this.filter.faults.join(", ") || words;
    this.scene.view.showLanes(this.run.objects.filter((it) => this.filter.showsObject(it)));
    this.scene.resize();
    this.show();
  }
}

// The entries of an action: its begin, its calls, and that by which it ended, which may be another one's.
function entriesOf(action, run) {
  const places = new Set(action.end === null ? action.entries : [...action.entries, action.end]);
  return [...places].sort((one, other) => one - other).map((at) => run.entries[at]);
}

function shortLine(line) {
  return line.length > 300 ? `${line.slice(0, 300)}…` : line;
}

function byId(id) {
  return document.getElementById(id);
}
