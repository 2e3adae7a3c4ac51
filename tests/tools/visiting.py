"""A reader of a run's page in a browser: what stands there, and ways to go.

What stands there is read by the page's hooks: data-slot, data-client and
data-page, and the class of each number.
"""

import json

from browser import Failed
from checking import need, same

READ = """(() => {
  const NONE = '–';
  const all = (selector, of = document) => [...of.querySelectorAll(selector)];
  const text = (of, name) => of.querySelector('.' + name).textContent;
  const number = (of, name) =>
    text(of, name) === NONE ? null : Number(text(of, name));
  const FIELDS = ['wanted', 'own', 'found', 'victim', 'seen', 'place',
                  'start', 'busy'];
  const grants = card => all('.grant.open', card)
    .map(grant => [number(grant, 'page'), number(grant, 'frame')])
    .sort((one, other) => one[0] - other[0]);
  const numbers = (selector, name) =>
    all(selector).map(card => Number(card.dataset[name]));
  return {
    record: Number(document.getElementById('number').textContent),
    words: ['kind', 'asked', 'happened', 'answer'].map(
      name => document.getElementById(name).textContent),
    free: number(document.getElementById('free'), 'free'),
    hand: number(document.getElementById('hand'), 'hand'),
    hands: [number(document.getElementById('hand'), 'slot'),
            ...numbers('.slot.hand', 'slot')],
    slots: all('[data-slot]').map(card => text(card, 'state') === 'empty'
      ? null : [...['frame', 'page', 'pins', 'count'].map(
        name => number(card, name)), text(card, 'state')]),
    table: all('[data-page]').filter(card => text(card, 'frame') !== NONE)
      .map(card => [number(card, 'page'), number(card, 'frame'),
                    text(card, 'state') === 'evicted']),
    clients: all('[data-client]').map(card => ({
      stage: number(card, 'badge'), words: text(card, 'stage'),
      grants: grants(card), ...Object.fromEntries(
        FIELDS.map(name => [name, number(card, name)]))})),
    current: numbers('.client.current', 'client'),
    changed: {slots: numbers('.slot.changed', 'slot'),
              table: numbers('.entry.changed', 'page'),
              clients: numbers('.client.changed', 'client'),
              numbers: all('.number.changed').map(one => one.id)},
    here: all('#links .here').map(link => Number(link.dataset.record)),
    marked: all('#links [aria-current]').map(
      link => Number(link.dataset.record)),
  };
})()"""

LINKS = """[...document.querySelectorAll('#links a')].map(link => [
  Number(link.getAttribute('href').slice(1)),
  link.querySelector('.kind').textContent])"""

# Whether the layout holds: what is too wide, how high the whole is, and how
# far the deck is from the top or the heading after scrolling down.
LAYOUT = """(() => {
  const box = selector =>
    document.querySelector(selector).getBoundingClientRect();
  const wide = [...document.querySelectorAll('.card, .grant, #deck, body')]
    .filter(one => one.scrollWidth > one.clientWidth)
    .map(one => one.className + ' ' + one.textContent);
  const height = document.documentElement.scrollHeight;
  scrollTo(0, height);
  const away = box('#deck').top - Math.max(box('header').bottom, 0);
  scrollTo(0, 0);
  return {wide, height, away, deck: box('#deck').height};
})()"""

# The marks in the strip: their records, rows and colours, and the colours of
# the words for them in the list.
MARKS = """(() => {
  const box = one => one.getBoundingClientRect();
  const strip = box(document.getElementById('strip'));
  const colours = one => {
    const style = getComputedStyle(one);
    return [style.backgroundColor, style.color].map(
      colour => colour.match(/[0-9.]+/g).map(Number));
  };
  const words = [...document.querySelectorAll('#links .kind')];
  return [...document.querySelectorAll('#strip .mark')].map((mark, place) => ({
    kind: mark.dataset.kind,
    across: ((box(mark).left + box(mark).right) / 2 - strip.left)
      / strip.width,
    row: [box(mark).top - strip.top, box(mark).bottom - strip.top],
    inside: box(mark).top >= strip.top && box(mark).bottom <= strip.bottom,
    colour: colours(mark)[0],
    word: colours(words[place]),
  }));
})()"""

# Each link's own click; where it leads to is shown a moment later. Chromium
# takes no more than 200 in ten seconds, so a run should have fewer links.
FOLLOWED = """(async () => {
  const shown = document.getElementById('number');
  const found = [];
  for (const link of document.querySelectorAll('#links a')) {
    if ('#' + shown.textContent !== link.hash) {
      link.click();
      await new Promise(done => {
        addEventListener('hashchange', done, {once: true});
      });
    }
    found.push([Number(shown.textContent), location.hash]);
  }
  return found;
})()"""

# The address is written a little later than a step is shown.
ADDRESS = """new Promise(done => {
  setTimeout(() => { done(location.hash); }, 500);
})"""

SHOWN = """new Promise(done => {
  const until = Date.now() + 10000;
  const look = () => {
    const shown = document.getElementById('number').textContent;
    if (shown === '%d' || Date.now() > until) { done(Number(shown)); }
    else { setTimeout(look, 2); }
  };
  look();
})"""


class Visitor:
    """Whoever reads a page; each way leads to a record."""

    def __init__(self, browser, path):
        self.browser, self.path = browser, path
        self.evaluate, self.key = browser.evaluate, browser.key
        self.url = browser.open(path)

    def read(self):
        return self.evaluate(READ)

    def record(self):
        return int(self.evaluate(
            "document.getElementById('number').textContent"))

    def wait_for(self, number):
        """Links and addresses take a moment."""
        found = self.evaluate(SHOWN % number)
        if found != number:
            raise Failed("it shows record %d and not %d" % (found, number))

    def focus(self, name):
        self.evaluate("document.getElementById(%s).focus()"
                      % json.dumps(name))

    def keys(self, name, times, shift=False):
        for _ in range(times):
            self.key(name, shift)

    # Ways.

    def by_slider(self, number):
        self.evaluate("""(slider => {
            slider.value = %d;
            slider.dispatchEvent(new Event('input'));
            })(document.getElementById('slider'))""" % number)

    def by_field(self, number):
        self.browser.click("#field")
        self.evaluate("document.getElementById('field').select()")
        for digit in str(number):
            self.key(digit)
        self.key("Enter")

    def by_keys(self, number):
        """By ones and tens, from the nearer end."""
        last = int(self.evaluate("document.getElementById('slider').max"))
        if number <= last - number:
            self.key("Home")
            self.keys("PageDown", number // 20)
            self.keys("ArrowRight", number // 10 - number // 20, shift=True)
            self.keys("ArrowRight", number % 10)
        else:
            self.key("End")
            self.keys("PageUp", (last - number) // 10)
            self.keys("ArrowLeft", (last - number) % 10)

    def by_address(self, number):
        self.evaluate("location.hash = '#%d'" % number)
        self.wait_for(number)

    def by_opening(self, number):
        self.browser.open(self.path, "#%d" % number)

    def by_buttons(self, number):
        """From before it, or to and fro where nothing is before it."""
        self.by_slider(max(number - 2, 0))
        for _ in range(min(number, 2)):
            self.browser.click("#forward")

    def back_to(self, number):
        self.by_slider(number + 3)
        self.keys("ArrowLeft", self.record() - number)

    def by_link(self, number):
        self.browser.click('#links a[href="#%d"]' % number)
        self.wait_for(number)

    def by_strip(self, number):
        last = int(self.evaluate("document.getElementById('slider').max"))
        self.browser.click("#strip", number / last if last else 0.5)

    def follow_all(self):
        """Follow each link; what is shown then, and the address."""
        return self.evaluate(FOLLOWED)


# Checks.


PRESSES = (  # from a record of the two clients, a key, with shift; where to
    (20, "ArrowRight", False, 21), (20, "ArrowLeft", False, 19),
    (20, "ArrowRight", True, 30), (20, "ArrowLeft", True, 10),
    (20, "PageDown", False, 30), (20, "PageUp", False, 10),
    (20, "Home", False, 0), (20, "End", False, 51),
    (45, "PageDown", False, 51), (20, "n", False, 29), (29, "n", False, 41),
    (41, "n", False, 44), (44, "n", False, 47), (47, "p", False, 44),
    (29, "p", False, 29), (40, "p", False, 29), (0, "ArrowLeft", False, 0))


def check_keys(visitor, run):
    """Each key does one thing, whatever has the focus."""
    for focused in ("slider", "forward", "field"):
        visitor.focus(focused)
        for start, key, shift, there in PRESSES:
            visitor.by_slider(start)
            visitor.key(key, shift)
            same(visitor.record(), start if focused == "field" else there,
                 "%s at record %d, in %s" % (key, start, focused))
    visitor.by_field(9999)
    same(visitor.record(), run.last, "a number that is too large")
    visitor.key("ArrowLeft")
    same(visitor.record(), run.last - 1, "a key after the field")


def check_history(visitor, run):
    """Back leads to where a link was followed; reloading changes nothing."""
    visitor.by_slider(5)
    visitor.keys("ArrowRight", 11)
    same(visitor.evaluate(ADDRESS), "#16", "the address after steps")
    visitor.key("ArrowRight")
    visitor.by_link(run.notable[0][0])
    visitor.evaluate("history.back()")
    visitor.wait_for(17)
    visitor.browser.reload()
    visitor.wait_for(17)
    visitor.by_address(run.last)
    visitor.evaluate("location.hash = '#none'")
    visitor.wait_for(0)


def light(colour):
    """How much light a colour gives, 0 to 1, by the rule for web pages."""
    parts = [part / 255 for part in colour[:3]]
    return sum(share * (part / 12.92 if part <= 0.04045
                        else ((part + 0.055) / 1.055) ** 2.4)
               for share, part in zip((0.2126, 0.7152, 0.0722), parts))


def contrast(one, other):
    low, high = sorted((light(one), light(other)))
    return (high + 0.05) / (low + 0.05)


def looks_of(visitor, run):
    """The row and the colour of each kind of mark in the strip."""
    found = {}
    marks = visitor.evaluate(MARKS)
    same([mark["kind"] for mark in marks], [kind for _, kind in run.notable],
         "the marks in the strip")
    for mark, (number, kind) in zip(marks, run.notable):
        need(abs(mark["across"] * run.last - number) < 0.5 and mark["inside"],
             "the place of record %d in the strip: %r" % (number, mark))
        ground, letters = mark["word"]
        same(ground, mark["colour"], "the colour of %s in the list" % kind)
        need(contrast(ground, letters) >= 4.5, "%s cannot be read" % kind)
        look = mark["row"], mark["colour"]
        same(found.setdefault(kind, look), look, "the look of %s" % kind)
    return found


def check_apart(looks):
    """Marks of different kinds have other rows and other colours."""
    rows = sorted(row for row, _ in looks.values())
    need(all(above[1] <= below[0] for above, below in zip(rows, rows[1:])),
         "rows of the strip: %r" % rows)
    colours = {tuple(colour) for _, colour in looks.values()}
    same(len(colours), len(looks), "colours of marks")


def check_layout(visitor, run, width, height):
    """Nothing is too wide, nothing moves, and the deck stays in sight."""
    visitor.browser.view(width, height)
    found = []
    for part in range(10):
        visitor.by_slider(run.last * part // 9)
        found.append(visitor.evaluate(LAYOUT))
        same(found[-1], dict(found[0], wide=[]), "layout")
    same(found[0]["away"], 0, "the deck after scrolling")
    need(found[0]["deck"] < height / 3, "the deck is too high")
