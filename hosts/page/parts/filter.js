// `Filter`: which entries, actions and objects of a run are shown: those of some objects, of an action and all that it
// began, or of a status.

class Filter {
  constructor(run, objects, action, status) {
    this.faults = [];
    this.status = status;
    this.objects = this.objectsNamed(run, objects);
    const within = this.actionsWithin(run, action);
    const refused = status === "refused" && actionsRefused(run);
    const hasStatus = (it) => !status || (refused ? refused.has(it) : it.fate === status);
    // Those that the fields for actions leave, and of these those that have to do with the objects.
    this.meant = new Set(run.actions.filter((it) => (!within || within.has(it)) && hasStatus(it)));
    const using = this.objects && actionsUsing(run, this.objects);
    this.actions = using ? new Set([...this.meant].filter((it) => using.has(it))) : this.meant;
    this.isOpen = !within && !using && !status;
    this.hasActions = Boolean(within || status);
  }

  // The objects of these words, each a name or a number such as o3; null where there are none.
  objectsNamed(run, words) {
    const wanted = words.split(/[\s,]+/).filter(Boolean);
    const numbers = wanted.map((word) => (run.names.includes(word) ? run.names.indexOf(word) : numberNamed(word, "o")));
    wanted.filter((_, place) => !run.objects[numbers[place]]).forEach((word) => this.faults.push(`no object ${word}`));
    return wanted.length ? new Set(numbers.map((it) => run.objects[it]).filter(Boolean)) : null;
  }

  // An action and all that it began, and that these began; null where none is named.
  actionsWithin(run, word) {
    const name = word.trim();
    if (!name) return null;
    const top = run.actions[numberNamed(name, "a") - run.firstAction];
    if (!top) this.faults.push(`no action ${name}`);
    const within = new Set(top ? [top] : []);
    for (const action of run.actions) {
      if (within.has(action.creator)) within.add(action);
    }
    return within;
  }

  showsAction(action) {
    return this.actions.has(action);
  }

  showsObject(object) {
    return !this.objects || this.objects.has(object);
  }

  showsEntry(entry, run) {
    if (this.isOpen) return true;
    if (this.objects && !this.objects.has(run.objects[entry.object])) return false;
    if (this.status === "refused" && !entry.isRefused) return false;
    return !this.hasActions || this.meant.has(entry.actor);
  }
}

// The number of a name such as a7, which begins with this letter; the letter may be left out.
function numberNamed(name, letter) {
  return new RegExp(`^${letter}?\\d+$`).test(name) ? Number(name.replace(letter, "")) : -1;
}

// The actions that had a lock on one of these objects, or were refused an access to one.
function actionsUsing(run, objects) {
  const holders = [...objects].flatMap((it) => it.holds.map((hold) => hold.action));
  const refused = run.entries.filter((it) => it.isRefused && objects.has(run.objects[it.object]));
  return new Set([...holders, ...refused.map((it) => it.actor)]);
}

function actionsRefused(run) {
  return new Set([...run.refusedInRow.values()].flatMap((refusals) => refusals.map((it) => it.action)));
}
