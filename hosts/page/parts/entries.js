// Entries of a journal, read from the lines of its listing.

const ACCESSES = new Set(["ask", "alter", "test_read", "test_write"]);
const WRITES = new Set(["alter", "test_write"]);

// The lines of a listing, each of which ends in a line feed.
function linesOf(text) {
  return text.split("\n").slice(0, -1);
}

// The place of the arrow between a call and its reply: the first that is in no text value.
function placeOfArrow(line) {
  let from = 0;
  let arrow = line.indexOf(" -> ");
  let quote = line.indexOf('"');
  while (quote >= 0 && quote < arrow) {
    from = endOfText(line, quote) + 1;
    arrow = line.indexOf(" -> ", from);
    quote = line.indexOf('"', from);
  }
  return arrow;
}

// The number in a name such as a7 or o7.
function numberOf(name) {
  return Number(name.slice(1));
}

// The entry of a line, which is the one at this place of the listing. Its number stays a text, since it may have more
// digits than a number keeps.
function entryOf(line, at) {
  const arrow = placeOfArrow(line);
  const [number, call] = firstWord(line.slice(0, arrow));
  const [verb, rest] = firstWord(call);
  const entry = { at, number, line, verb, call, reply: line.slice(arrow + 4) };
  Object.assign(entry, { action: null, actor: null, object: null, operation: "" });
  entry.isRefused = entry.reply.startsWith("refused ");
  if (verb === "declare") entry.operation = rest;
  else if (rest !== "") readNames(entry, rest);
  return entry;
}

// Reads which action makes a call, the object of an access, and the operation.
function readNames(entry, rest) {
  const [action, behind] = firstWord(rest);
  entry.action = numberOf(action);
  if (!ACCESSES.has(entry.verb)) return;
  const [object, operation] = firstWord(behind);
  entry.object = numberOf(object);
  entry.operation = operation;
}

// Whether an access got its lock: a test that says no didn't.
function gotLock(entry) {
  return !entry.isRefused && ACCESSES.has(entry.verb) && entry.reply !== "flag false";
}

// Whether an access changed what its object holds, or may have: a signal changes nothing.
function isChange(entry) {
  return entry.verb === "alter" && !entry.isRefused && !entry.reply.startsWith("signal ");
}
