// Contents of objects: read from their written forms, changed, and written again. Values stay texts.

// The place of the quote that ends the text value which begins at this place.
function endOfText(text, begin) {
  let at = begin + 1;
  while (at < text.length && text[at] !== '"') at += text[at] === "\\" ? 2 : 1;
  return at;
}

// The values of a list: what stands between commas that are in no inner brackets.
function valuesOf(text) {
  const values = [];
  let depth = 0;
  let begin = 0;
  for (let at = 0; at < text.length; at++) {
    const letter = text[at];
    if (letter === '"') at = endOfText(text, at);
    else if (letter === "[" || letter === "{" || letter === "<") depth++;
    else if (letter === "]" || letter === "}" || letter === ">") depth--;
    else if (letter === "," && depth === 0) {
      values.push(text.slice(begin, at));
      begin = at + 1;
    }
  }
  return text === "" ? [] : [...values, text.slice(begin)];
}

// The content that a text spells; null is absent. An array keeps its items by keys that follow one another, so that
// both its ends can be changed at once, whatever its length.
function contentOf(text) {
  if (text === "absent") return null;
  if (text[0] === "{") return { kind: "record", fields: valuesOf(text.slice(1, -1)) };
  if (text[0] === "<") {
    const colon = text.indexOf(":");
    return { kind: "variant", tag: text.slice(1, colon), value: text.slice(colon + 1, -1) };
  }
  const bracket = text.indexOf("[");
  const values = valuesOf(text.slice(bracket + 1, -1));
  const items = new Map(values.entries());
  return { kind: "array", low: Number(text.slice(0, bracket)), first: 0, size: values.length, items };
}

// The values of an array, in their order.
function itemsOf(array) {
  return Array.from({ length: array.size }, (_, place) => array.items.get(array.first + place));
}

// The text that spells a content.
function contentText(content) {
  if (content === null) return "absent";
  if (content.kind === "record") return `{${content.fields.join(",")}}`;
  if (content.kind === "variant") return `<${content.tag}:${content.value}>`;
  return `${content.low}[${itemsOf(content).join(",")}]`;
}

// The beginning of that text, which takes no longer for a long one; for a content whose parts are long, or many.
function shortText(content, letters) {
  if (content === null) return "absent";
  const short = (text) => text.slice(0, letters);
  if (content.kind === "record") return short(`{${content.fields.slice(0, letters).map(short).join(",")}}`);
  if (content.kind === "variant") return short(`<${content.tag}:${short(content.value)}>`);
  const items = itemsOf({ ...content, size: Math.min(content.size, letters) }).map(short);
  return short(`${content.low}[${items.join(",")}]`);
}

// A content that can be changed without changing this one.
function copyOf(content) {
  if (content?.kind === "record") return { ...content, fields: [...content.fields] };
  if (content?.kind === "array") return { ...content, items: new Map(content.items) };
  return content && { ...content };
}

// The first word of a text, and what comes after it.
function firstWord(text) {
  const blank = text.indexOf(" ");
  return blank < 0 ? [text, ""] : [text.slice(0, blank), text.slice(blank + 1)];
}

// Leaves so many items of an array, from this bound on.
function trim(array, from, count) {
  const kept = itemsOf(array).slice(from - array.low, from - array.low + count);
  return Object.assign(array, { low: from, first: 0, size: kept.length, items: new Map(kept.entries()) });
}

// What each change that was done leaves, by its name: of a content that it may change, and of what the change brings.
const CHANGES = {
  touch: (content) => content,
  create: (_, text) => contentOf(text),
  set_field(record, text) {
    const [field, value] = firstWord(text);
    record.fields[Number(field)] = value;
    return record;
  },
  change_tag(_, text) {
    const [tag, value] = firstWord(text);
    return { kind: "variant", tag, value };
  },
  store(array, text) {
    const [index, value] = firstWord(text);
    array.items.set(array.first + Number(index) - array.low, value);
    return array;
  },
  addh(array, value) {
    array.items.set(array.first + array.size, value);
    return Object.assign(array, { size: array.size + 1 });
  },
  addl(array, value) {
    array.items.set(array.first - 1, value);
    return Object.assign(array, { first: array.first - 1, low: array.low - 1, size: array.size + 1 });
  },
  remh(array) {
    array.items.delete(array.first + array.size - 1);
    return Object.assign(array, { size: array.size - 1 });
  },
  reml(array) {
    array.items.delete(array.first);
    return Object.assign(array, { first: array.first + 1, low: array.low + 1, size: array.size - 1 });
  },
  set_low: (array, bound) => Object.assign(array, { low: Number(bound) }),
  trim(array, text) {
    const [from, count] = firstWord(text);
    return trim(array, Number(from), Number(count));
  },
};

// The content that a change leaves, which may be the same one, changed.
function changed(content, operation) {
  const [name, text] = firstWord(operation);
  return CHANGES[name](content, text);
}
