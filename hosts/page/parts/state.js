// What the objects held behind so many entries of a run: their bases, their readers and their versions.

const BASE = "base";
const GONE = "gone";

// Who has what an action did, behind so many entries: the first of it and its ancestors that hasn't committed by then;
// the base, where all have; nobody, where one was aborted.
function ownerAt(action, count) {
  let owner = action;
  while (owner.end !== null && owner.end < count && owner.committed) {
    if (!owner.parent) return BASE;
    owner = owner.parent;
  }
  return owner.end !== null && owner.end < count ? GONE : owner;
}

// The actions that hold an object behind so many entries, in increasing number: for writing, or for reading.
function holdersAt(object, count, writes) {
  const isHeld = (it) => it.writes === writes && it.begin < count && (it.end === null || it.end >= count);
  const found = object.holds.filter(isHeld).map((it) => it.action);
  return found.sort((one, other) => one.number - other.number);
}

// The contents of an object behind so many entries: its base, and then what each of these writers sees. The changes
// come in the order in which they were made, since no one writes an object below another one's version.
class Contents {
  constructor(object, writers) {
    this.levels = new Map(writers.map((action, place) => [action, place + 1]));
    this.content = contentOf(object.opening);
    this.texts = [];
  }

  // Goes up to the version of this level; what is below it stays as it is.
  riseTo(level) {
    if (level <= this.texts.length) return;
    const text = contentText(this.content);
    while (this.texts.length < level) this.texts.push(text);
    this.content = copyOf(this.content);
  }

  make(change, count) {
    const owner = ownerAt(change.action, count);
    if (owner === GONE) return;
    this.riseTo(this.levels.get(owner) ?? 0);
    this.content = changed(this.content, change.operation);
  }

  all() {
    this.riseTo(this.levels.size + 1);
    return this.texts;
  }
}

function contentsAt(object, writers, count) {
  const contents = new Contents(object, writers);
  for (const change of object.changes) {
    if (change.at >= count) break;
    contents.make(change, count);
  }
  return contents.all();
}

// How many letters of an object's base are written in the picture.
const LETTERS = 60;

// What commits have left in an object, one after another: the beginnings of the texts. Each is worked out once, from
// the one before it: what was done in between and is there for good was done by those that the commit is of.
class BaseTexts {
  constructor(object) {
    this.object = object;
    this.content = contentOf(object.opening);
    this.texts = [];
    this.made = 0;
  }

  of(place) {
    while (this.texts.length <= place) this.texts.push(this.next(this.object.bases[this.texts.length].at + 1));
    return this.texts[place];
  }

  next(count) {
    const { changes } = this.object;
    for (; this.made < changes.length && changes[this.made].at < count; this.made++) {
      const change = changes[this.made];
      if (ownerAt(change.action, count) === BASE) this.content = changed(this.content, change.operation);
    }
    return shortText(this.content, LETTERS);
  }
}

// Whether an object is declared behind so many entries.
function isDeclared(object, count) {
  return object.at < count;
}

// What an object held behind so many entries. Contents are worked out when they are asked for.
function heldAt(object, count) {
  const readers = holdersAt(object, count, false);
  const writers = holdersAt(object, count, true);
  let texts = null;
  const text = (level) => (texts ??= contentsAt(object, writers, count))[level];
  const rows = [
    { object, kind: "base", who: null, text: () => text(0) },
    { object, kind: "readers", who: null, text: () => readers.map((it) => `a${it.number}`).join(" ") || "none" },
  ];
  const versions = writers.map((who, place) => ({ object, kind: "version", who, text: () => text(place + 1) }));
  return [...rows, ...versions];
}

// The line of the listing `stacks` that says the same.
function stackLine(row) {
  const who = row.who ? ` a${row.who.number}` : "";
  return `o${row.object.number} ${row.kind}${who} ${row.text()}`;
}

// All rows of the objects that are wanted, behind so many entries.
function stateAt(run, count, isWanted = () => true) {
  return run.objects.filter((it) => isDeclared(it, count) && isWanted(it)).flatMap((it) => heldAt(it, count));
}
