// Going from record to record.

let current = null;

function bounded(number) {
  return Math.min(Math.max(number, 0), last);
}

function show(number) {
  current = bounded(number);
  showPool(current);
  showCurrentClient(records[current].client);
  showWords(current);
  showPlace(current);
  byId('slider').value = current;
  byId('field').value = current;
  byId('here').style.left = share(current);
  for (const [name, step] of Object.entries(BUTTONS)) {
    const stays = bounded(step()) === current;
    byId(name).setAttribute('aria-disabled', String(stays));
  }
}

function go(number) {
  if (bounded(number) !== current) {
    show(number);
    keepHash();
  }
}

// The address. Browsers take only so many in a while, so of quick steps the
// last is written a little later. A step makes no entry in the history: back
// leads to where a link was followed.

const HASH_PAUSE = 400;  // milliseconds; one of them allows 100 in 30 seconds
let hashTimer = null;
let written = 0;  // when it was written last
let address = null;  // as it was last read or written

function keepHash() {
  clearTimeout(hashTimer);
  hashTimer = setTimeout(writeHash,
                         Math.max(written + HASH_PAUSE - Date.now(), 0));
}

// Where another address has come in between, that one is to be shown; and
// one that is there already is not written again.
function writeHash() {
  const due = '#' + current;
  if (location.hash === address && address !== due) {
    history.replaceState(null, '', due);
    address = due;
    written = Date.now();
  }
}

function readHash() {
  address = location.hash;
  const found = /^#(\d{1,9})$/.exec(address);
  show(found ? Number(found[1]) : 0);
}

// Buttons and keys.

function nextNotable() {
  const found = notable.find(one => one.number > current);
  return found ? found.number : current;
}

function previousNotable() {
  const found = notable.filter(one => one.number < current).pop();
  return found ? found.number : current;
}

const BUTTONS = {
  first: () => 0,
  back: () => current - 1,
  forward: () => current + 1,
  last: () => last,
  previous: previousNotable,
  next: nextNotable,
};

const KEYS = {
  ArrowLeft: BUTTONS.back,
  ArrowRight: BUTTONS.forward,
  PageUp: () => current - 10,
  PageDown: () => current + 10,
  Home: BUTTONS.first,
  End: BUTTONS.last,
  n: BUTTONS.next,
  p: BUTTONS.previous,
};

const WITH_SHIFT = {ArrowLeft: KEYS.PageUp, ArrowRight: KEYS.PageDown};

// The number field keeps its keys, and so does what they scroll. The slider
// would take the same ones a second time, so none of these reaches it.
function onKey(event) {
  const step = (event.shiftKey && WITH_SHIFT[event.key]) || KEYS[event.key];
  if (!step || event.ctrlKey || event.altKey || event.metaKey
      || event.target.closest('#field, pre')) {
    return;
  }
  event.preventDefault();
  go(step());
}

function onField(event) {
  const typed = event.target.valueAsNumber;
  if (Number.isInteger(typed)) {
    go(typed);
  }
  event.target.value = current;
}

function onFieldKey(event) {
  if (event.key === 'Enter') {
    event.target.blur();  // and the keys step again
  }
}

// What is beside the cards begins below the deck, however high that is.
function measureDeck() {
  document.documentElement.style.setProperty(
    '--deck', byId('deck').offsetHeight + 'px');
}

function listen() {
  for (const [name, step] of Object.entries(BUTTONS)) {
    byId(name).addEventListener('click', () => go(step()));
  }
  byId('slider').addEventListener('input',
                                  event => go(event.target.valueAsNumber));
  byId('field').addEventListener('change', onField);
  byId('field').addEventListener('keydown', onFieldKey);
  byId('strip').addEventListener('click',
                                 event => go(recordAt(event.clientX)));
  byId('links').addEventListener('click', writeHash);  // for the way back
  document.addEventListener('keydown', onKey);
  window.addEventListener('hashchange', readHash);
  new ResizeObserver(measureDeck).observe(byId('deck'));
}

byId('slider').max = last;
byId('field').max = last;
document.querySelector('.at .last').textContent = last;
makeCopies();
addCards();
addLinks();
reserveLines();
measureDeck();
listen();
readHash();
