// The cards: clients, slots and table entries. A card has cells, each of
// which knows how to read from a pool what it shows. So what a record changed
// is what is read differently before it.

const NONE = '–';  // where there is nothing to show
const cells = [];

function addCell(card, element, read, write = showText) {
  cells.push({card, element, read, write, shown: null});
}

function showText(element, value) {
  element.textContent = value;
}

function orNone(value) {
  return value === null ? NONE : String(value);
}

function grow(parent, template) {
  const made = byId(template).content.firstElementChild.cloneNode(true);
  parent.append(made);
  return made;
}

function within(card, name) {
  return card.querySelector('.' + name);
}

function longest(texts) {
  return texts.reduce(
    (most, one) => (one.length > most.length ? one : most), '');
}

// Clients.

const FIELDS = ['wanted', 'own', 'found', 'victim', 'seen', 'place', 'busy',
                'start'];

function addClient(number) {
  const card = grow(byId('clients'), 'client');
  const of = pool => pool.clients[number];
  card.dataset.client = number;
  within(card, 'name').textContent = number;
  within(card, 'sizer').textContent = longest(Object.values(data.stages));
  addCell(card, within(card, 'badge'), pool => orNone(of(pool).stage),
          showStage);
  addCell(card, within(card, 'stage'),
          pool => data.stages[of(pool).stage] || 'rests');
  for (const field of FIELDS) {
    addCell(card, within(card, field), pool => orNone(of(pool)[field]));
  }
  for (const place of Object.keys(of(data.first).grants)) {
    addGrant(card, pool => of(pool).grants[place]);
  }
}

function showStage(badge, stage) {
  badge.textContent = stage;
  badge.dataset.phase = stage === NONE ? '' : data.phases[stage];
}

function addGrant(card, of) {
  const grant = grow(within(card, 'grants'), 'grant');
  const part = (pool, place) => (of(pool) ? String(of(pool)[place]) : NONE);
  addCell(card, within(grant, 'page'), pool => part(pool, 0));
  addCell(card, within(grant, 'frame'), pool => part(pool, 1));
  addCell(card, grant, pool => Boolean(of(pool)),
          (element, open) => element.classList.toggle('open', open));
}

// Slots.

function addSlot(number) {
  const card = grow(byId('slots'), 'slot');
  const named = pool => pool.slots[number];
  const part = (pool, place) => (named(pool)
    ? String(pool.frames[named(pool)[0]][place]) : NONE);
  card.dataset.slot = number;
  within(card, 'name').textContent = number;
  addCell(card, within(card, 'frame'),
          pool => (named(pool) ? String(named(pool)[0]) : NONE));
  ['page', 'pins', 'count'].forEach((name, place) => {
    addCell(card, within(card, name), pool => part(pool, place));
  });
  addCell(card, within(card, 'state'),
          pool => (named(pool) ? named(pool)[1] : 'empty'), showState);
  // The hand is no part of the slot, so the slot did not change by it.
  addCell(null, within(card, 'hand-here'), pool => handSlot(pool) === number,
          (_, here) => card.classList.toggle('hand', here));
}

function showState(element, state) {
  element.textContent = state;
  element.closest('.card').dataset.state = state;
}

function addNumbers() {
  const hand = byId('hand');
  const free = byId('free');
  addCell(hand, within(hand, 'hand'), pool => String(pool.hand));
  addCell(hand, within(hand, 'slot'), pool => String(handSlot(pool)));
  addCell(free, within(free, 'free'), pool => String(pool.free));
}

// Table entries.

function addEntry(page) {
  const card = grow(byId('table'), 'entry');
  const frame = pool => pool.table[page];
  card.dataset.page = page;
  within(card, 'page').textContent = page;
  addCell(card, within(card, 'frame'), pool => orNone(frame(pool)));
  addCell(card, within(card, 'state'), pool => entryState(pool, frame(pool)),
          showState);
}

function entryState(pool, frame) {
  if (frame === null) {
    return 'no entry';
  }
  return pool.frames[frame][1] < 0 ? 'evicted' : '';
}

// All of them.

function addCards() {
  for (const [name, digits] of Object.entries(data.room)) {
    byId('pool').style.setProperty('--room-' + name, digits);
  }
  Object.keys(data.first.clients).map(Number).forEach(addClient);
  Object.keys(data.first.slots).map(Number).forEach(addSlot);
  Object.keys(data.first.table).forEach(addEntry);
  addNumbers();
}

function showPool(number) {
  const pool = poolAfter(Math.max(number - 1, 0));
  const before = cells.map(cell => cell.read(pool));
  change(pool, records[number].changes);
  const changed = new Map();
  cells.forEach((cell, place) => {
    const value = cell.read(pool);
    const differs = value !== before[place];
    if (value !== cell.shown) {
      cell.write(cell.element, value);
      cell.shown = value;
    }
    // What is forgotten is plain to see, and a mark on nothing is not.
    cell.element.classList.toggle('changed', differs && value !== NONE);
    changed.set(cell.card, differs || changed.get(cell.card) === true);
  });
  changed.delete(null);
  changed.forEach((differs, card) => {
    card.classList.toggle('changed', differs);
  });
}

function showCurrentClient(client) {
  for (const card of byId('clients').children) {
    const acts = card.dataset.client === String(client);
    card.classList.toggle('current', acts);
    card.setAttribute('aria-current', String(acts));
  }
}
