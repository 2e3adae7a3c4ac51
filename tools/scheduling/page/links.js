// The record's words, the links to notable records, and where the current
// record stands among them.

const LINES = ['asked', 'happened', 'answer'];

// The longest text of each line holds its room, so that nothing moves.
function reserveLines() {
  LINES.forEach((name, place) => {
    const sizer = document.createElement('span');
    sizer.className = 'sizer';
    sizer.setAttribute('aria-hidden', 'true');
    sizer.textContent = longest(records.map(record => record.words[place]));
    byId(name).before(sizer);
  });
}

function showWords(number) {
  const mark = notable.find(one => one.number === number);
  byId('number').textContent = number;
  showKind(byId('kind'), mark ? mark.kind : '');
  LINES.forEach((name, place) => {
    byId(name).textContent = records[number].words[place] || NONE;
  });
}

function showKind(element, kind) {
  element.textContent = kind;
  element.dataset.kind = kind;
}

// The list.

const links = [];
let placeShown = -1;

function addLink({number, kind, what}) {
  const link = grow(byId('links'), 'link').firstElementChild;
  const client = records[number].client;
  link.href = '#' + number;
  link.dataset.record = number;
  within(link, 'at').textContent = number;
  showKind(within(link, 'kind'), kind);
  within(link, 'who').textContent = client === null ? '' : 'client ' + client;
  within(link, 'what').textContent = what;
  links.push(link);
}

function addCounts() {
  const counts = new Map();
  for (const {kind} of notable) {
    counts.set(kind, (counts.get(kind) || 0) + 1);
  }
  byId('counts').textContent = [...counts].map(([kind, times]) =>
    times + ' ' + kind + (times === 1 ? '' : 's')).join(', ')
    || 'none in this run';
}

// The place in the list: the last link at or before the record.
function showPlace(number) {
  const place = notable.filter(one => one.number <= number).length - 1;
  if (links[placeShown]) {
    links[placeShown].removeAttribute('aria-current');
    links[placeShown].classList.remove('here');
  }
  if (links[place]) {
    links[place].classList.add('here');
    if (notable[place].number === number) {
      links[place].setAttribute('aria-current', 'true');
    }
  }
  placeShown = place;
  keepInSight(byId('links'), links[place]);
}

// Only the list scrolls: the page must not move under the reader.
function keepInSight(box, link) {
  if (!link) {
    box.scrollTop = 0;
    return;
  }
  const top = link.offsetTop;
  const bottom = top + link.offsetHeight;
  if (top < box.scrollTop || bottom > box.scrollTop + box.clientHeight) {
    box.scrollTop = (top + bottom - box.clientHeight) / 2;
  }
}

// The strip above the slider.

const NEAR = 5;  // pixels: a mark is thin, a click beside it is meant for it

function share(number) {
  return (last ? 100 * number / last : 0) + '%';
}

function addMark({number, kind}) {
  const mark = document.createElement('span');
  mark.className = 'mark';
  mark.dataset.kind = kind;
  mark.style.left = share(number);
  byId('strip').append(mark);
}

// The record that a click in the strip is meant for.
function recordAt(x) {
  const box = byId('strip').getBoundingClientRect();
  const here = (x - box.left) / box.width * last;
  const far = number => Math.abs(number - here);
  const nearest = notable.map(one => one.number)
    .reduce((best, one) => (far(one) < far(best) ? one : best), Infinity);
  return far(nearest) * box.width <= NEAR * last ? nearest : Math.round(here);
}

function addLinks() {
  byId('strip').style.setProperty('--column', share(1));
  notable.forEach(addLink);
  notable.forEach(addMark);
  addCounts();
}
