// `Run`: what a journal's listing says, in the form in which it is shown. It takes the replies as they stand, and
// checks none.

class Run {
  constructor(text, names) {
    this.names = names;
    this.entries = [];
    this.actions = [];
    this.objects = [];
    // The commits of topactions, nested ones too: their order is the serial order.
    this.serial = [];
    this.firstAction = 0;
    this.opening = null;
    // The actions of each row, and what was refused them, in the order of the entries.
    this.rows = [];
    this.freeRows = new FreeRows();
    this.refusedInRow = new Map();
    for (const line of linesOf(text)) this.take(line);
    for (const action of this.actions) this.settleFate(action);
  }

  take(line) {
    if (line.startsWith("opening ")) this.takeOpening(line);
    else this.takeEntry(entryOf(line, this.entries.length));
  }

  // A line of what a checkpoint has folded: how much, or what an object held.
  takeOpening(line) {
    const words = line.split(" ");
    if (words[1] === "entries") {
      this.opening = { entries: words[2], actions: Number(words[4]) };
      this.firstAction = this.opening.actions;
    } else {
      this.addObject(words[2], words.slice(3).join(" "), -1);
    }
  }

  takeEntry(entry) {
    this.entries.push(entry);
    const action = entry.action === null ? null : this.actions[entry.action - this.firstAction] ?? null;
    action?.entries.push(entry.at);
    entry.actor = action;
    if (entry.isRefused) this.addRefusal(entry, action);
    else if (entry.verb === "declare") this.declare(entry);
    else if (entry.verb.startsWith("begin_")) this.begin(entry, action);
    else if (entry.verb === "commit") this.commit(action, entry.at);
    else if (entry.verb === "abort") this.abort([action], "alone", entry.at);
    else if (entry.verb === "abort_others") this.abort(siblingsOf(action), "sibling", entry.at);
    else this.access(entry, action);
  }

  declare(entry) {
    entry.object = this.objects.length;
    this.addObject(entry.operation, "absent", entry.at);
  }

  addObject(shape, base, at) {
    const number = this.objects.length;
    const object = { number, shape, opening: base, at, accesses: [], changes: [], bases: [] };
    object.holds = [];
    object.held = new Set();
    object.strips = [];
    object.freeStrips = new FreeRows();
    this.objects.push(object);
  }

  // Which lock was in the way of a refused access: the first on its object that an action has which is no ancestor.
  addRefusal(entry, action) {
    const object = this.objects[entry.object];
    const refusal = { at: entry.at, entry, action, object, why: entry.reply.slice(8), against: null };
    if (refusal.why === "Conflict" && object && action) {
      const writes = WRITES.has(entry.verb);
      const inWay = (hold) => (writes || hold.writes) && !isAncestor(hold.action, action);
      refusal.against = firstOf(object.held, inWay)?.action ?? null;
    }
    // The row of an action that is over may be another one's.
    const row = action?.end === null ? action.row : -1;
    if (!this.refusedInRow.has(row)) this.refusedInRow.set(row, []);
    this.refusedInRow.get(row).push(refusal);
  }

  begin(entry, creator) {
    const number = numberOf(entry.reply);
    const kind = entry.verb.slice("begin_".length);
    const parent = kind === "sub" ? creator : null;
    const row = this.freeRows.first(creator ? creator.row + 1 : 0);
    const action = { number, kind, creator, parent, row, begin: entry.at, end: null, fate: "live" };
    // It stays so where an ancestor is aborted later, which undoes what it did.
    action.committed = false;
    action.entries = [entry.at];
    action.holds = new Map();
    action.liveInside = new Set();
    action.order = null;
    this.freeRows.take(row);
    (this.rows[row] ??= []).push(action);
    this.actions.push(action);
    entry.actor = action;
    creator?.liveInside.add(action);
  }

  access(entry, action) {
    const object = this.objects[entry.object];
    const writes = WRITES.has(entry.verb);
    if (!gotLock(entry)) return;
    object.accesses.push({ at: entry.at, action, writes });
    this.lock(action, object, writes, entry.at);
    if (isChange(entry)) object.changes.push({ at: entry.at, action, operation: entry.operation });
  }

  lock(action, object, writes, at) {
    const key = 2 * object.number + (writes ? 1 : 0);
    if (action.holds.has(key)) return;
    const strip = object.freeStrips.first(0);
    const hold = { action, object, writes, begin: at, end: null, strip };
    object.freeStrips.take(strip);
    (object.strips[strip] ??= []).push(hold);
    object.holds.push(hold);
    object.held.add(hold);
    action.holds.set(key, hold);
  }

  // A commit hands locks to the parent; where there is none they are released, and what was written is there for good.
  commit(action, at) {
    const { parent } = action;
    this.end(action, "committed", at);
    action.committed = true;
    for (const hold of action.holds.values()) {
      this.release(hold, at);
      if (parent) this.lock(parent, hold.object, hold.writes, at);
      else if (hold.writes) hold.object.bases.push({ at, action });
    }
    if (!parent) action.order = this.serial.push(action);
  }

  // Ends these actions, and all that is live in them by subactions.
  abort(actions, fate, at) {
    for (const action of actions) {
      this.end(action, fate, at);
      for (const hold of action.holds.values()) this.release(hold, at);
      this.abort(liveSubactionsOf(action), "ancestor", at);
    }
  }

  end(action, fate, at) {
    action.fate = fate;
    action.end = at;
    action.creator?.liveInside.delete(action);
    this.freeRows.release(action.row);
  }

  release(hold, at) {
    hold.end = at;
    hold.object.held.delete(hold);
    hold.object.freeStrips.release(hold.strip);
  }

  // What had committed is undone where its parent is.
  settleFate(action) {
    const isUndone = action.parent && !["live", "committed"].includes(action.parent.fate);
    if (action.fate === "committed" && isUndone) action.fate = "ancestor";
  }

  nameOf(object) {
    return this.names[object] ?? `o${object}`;
  }

  // The same with its number, where it has a name.
  labelOf(object) {
    return object in this.names ? `${this.names[object]} (o${object})` : `o${object}`;
  }
}

// The first of these that is so; the others aren't looked at.
function firstOf(these, isSo) {
  for (const it of these) {
    if (isSo(it)) return it;
  }
  return undefined;
}

function isAncestor(upper, lower) {
  for (let action = lower; action; action = action.parent) {
    if (action === upper) return true;
  }
  return false;
}

function siblingsOf(action) {
  return [...(action.creator?.liveInside ?? [])].filter((it) => it !== action);
}

function liveSubactionsOf(action) {
  return [...action.liveInside].filter((it) => it.parent === action);
}
