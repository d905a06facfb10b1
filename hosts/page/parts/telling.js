// What is said in words of the things of a run.

const ENDINGS = {
  committed: "committed",
  alone: "aborted by itself",
  ancestor: "undone with an ancestor",
  sibling: "aborted by a sibling",
  live: "live at the end",
};

const KINDS = { top: "topaction", sub: "subaction", nested: "nested topaction" };

// So many things: `1 entry`, `2 entries`.
function counted(count, one, several) {
  return `${count.toLocaleString("en")} ${count === 1 ? one : several}`;
}

// How an action was begun, and what became of it.
function lifeOf(action) {
  const of = action.creator ? ` of a${action.creator.number}` : "";
  const order = action.order ? `, number ${action.order} in the serial order` : "";
  return `a${action.number}: a ${KINDS[action.kind]}${of}, ${ENDINGS[action.fate]}${order}`;
}

function toldOfAction(run, action) {
  const last = action.end === null ? [] : [run.entries[action.end].line];
  return [lifeOf(action), run.entries[action.begin].line, ...last];
}

function toldOfHold(run, hold) {
  const deed = hold.writes ? "writing" : "reading";
  return [`a${hold.action.number} holds ${run.labelOf(hold.object.number)} for ${deed}`, run.entries[hold.begin].line];
}

function toldOfCommit(run, action) {
  return [`a${action.number} is number ${action.order} in the serial order`, run.entries[action.end].line];
}

function toldOfRefusal(run, refusal) {
  const { action, against, entry, object } = refusal;
  if (!against || !action) return [entry.line];
  const over = `over ${run.labelOf(object.number)}, held by a${against.number}`;
  return [`a${action.number} has a conflict ${over}`, entry.line];
}

function toldOfObject(run, object) {
  return [run.labelOf(object.number), object.shape];
}

// What a call is made on, by its name.
function objectOf(run, entry) {
  return entry.object === null ? "" : run.labelOf(entry.object);
}

function actorOf(entry) {
  return entry.actor ? `a${entry.actor.number}` : "";
}

// What is behind so many entries, in words.
function momentOf(run, count) {
  if (count === 0) return "Before the first entry";
  return `Behind entry ${run.entries[count - 1].number}`;
}

// What a run has, in a line.
function sizeOf(run) {
  const parts = [
    counted(run.entries.length, "entry", "entries"),
    counted(run.actions.length, "action", "actions"),
    counted(run.objects.length, "object", "objects"),
    counted(run.serial.length, "topaction committed", "topactions committed"),
  ];
  const folded = run.opening ? `; ${run.opening.entries} entries before that were folded` : "";
  return `${parts.join(", ")}${folded}`;
}
