// The run, and the pool after each record. A copy is kept now and then, and
// what the records after it changed is played on top, so no jump takes long.

const byId = name => document.getElementById(name);

const data = JSON.parse(byId('run').textContent);
const last = data.records.length - 1;
const records = data.records.map(
  ([client, asked, happened, answer, changes]) => ({
    client, changes, words: [asked, happened, answer].map(textOf),
  }));
const notable = data.notable.map(
  ([number, kind, what]) => ({number, kind, what: textOf(what)}));

const COPY_EVERY = 64;
const copies = [];

function textOf(number) {
  return data.texts[number];
}

// What has parts of its own is changed part by part.
function change(pool, changes) {
  for (const [key, value] of Object.entries(changes)) {
    if (value === null || Array.isArray(value) || typeof value !== 'object') {
      pool[key] = value;
    } else {
      change(pool[key], value);
    }
  }
}

function makeCopies() {
  const pool = structuredClone(data.first);
  records.forEach((record, number) => {
    change(pool, record.changes);
    if (number % COPY_EVERY === 0) {
      copies.push(structuredClone(pool));
    }
  });
}

function poolAfter(number) {
  const copy = Math.floor(number / COPY_EVERY);
  const pool = structuredClone(copies[copy]);
  for (let next = copy * COPY_EVERY + 1; next <= number; next += 1) {
    change(pool, records[next].changes);
  }
  return pool;
}

function handSlot(pool) {
  return pool.hand % Object.keys(pool.slots).length;
}
