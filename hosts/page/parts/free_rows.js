// `FreeRows`: which rows are taken, in words of 32 bits, and above them words that say which words are full.

class FreeRows {
  constructor() {
    this.levels = [];
  }

  word(level, place) {
    return this.levels[level]?.[place] ?? 0;
  }

  // The first row from this one on that is free.
  first(from, level = 0) {
    const place = from >>> 5;
    const free = ~this.word(level, place) & (-1 << (from & 31));
    if (free !== 0) return place * 32 + lowestBit(free);
    const next = this.first(place + 1, level + 1);
    return next * 32 + lowestBit(~this.word(level, next));
  }

  take(row, level = 0) {
    const place = row >>> 5;
    this.levels[level] ??= [];
    this.levels[level][place] = this.word(level, place) | (1 << (row & 31));
    if (this.levels[level][place] === -1) this.take(place, level + 1);
  }

  release(row, level = 0) {
    const place = row >>> 5;
    const wasFull = this.word(level, place) === -1;
    this.levels[level][place] &= ~(1 << (row & 31));
    if (wasFull) this.release(place, level + 1);
  }
}

// Which bit is the lowest one that is set.
function lowestBit(word) {
  return 31 - Math.clz32(word & -word);
}
