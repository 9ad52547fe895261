"""Trials in a real browser of numbers that stand where they belong, and of states that are told by their shapes."""

from .try_common import post, same, true, until
from .try_in_browser import choose, shown, traffic

# Each call site of the source in sight: its selector, its kind, the count under it, and whether that stands under its words.
SITES = """
return [...document.querySelectorAll('.source .site')].filter(it => it.querySelector('.tell')).map(it => {
  const word = it.querySelector(':scope > span').getBoundingClientRect(), count = it.querySelector('.tell').getBoundingClientRect();
  return [it.className.split(' ')[1], it.querySelector('.tell').innerText, count.top > word.top + word.height / 2 && Math.abs(count.left - word.left) < 3];
});
"""
# How something is drawn, but for its colours.
SHAPES = """
const bare = text => text.replace(/rgba?\\([^)]*\\)|oklab\\([^)]*\\)|color\\([^)]*\\)/g, '');
const drawn = it => { const style = getComputedStyle(it); return bare(['border', 'borderRadius', 'transform', 'clipPath'].map(name => style[name]).join('|')) + (style.backgroundColor === 'rgba(0, 0, 0, 0)'); };
const made = (box, of) => { const it = document.createElement('i'); it.className = of; box.append(it); return it; };
const box = document.createElement('span');
box.className = 'shapes';
document.querySelector('#head').append(box);
const lamp = document.querySelector('#lamp'), before = lamp.className;
const lamps = ['there', 'lost', 'full'].map(state => { lamp.className = `lamp ${state}`; return drawn(lamp); });
lamp.className = before;
const kinds = ['empty', 'mono', 'poly', 'mega', 'post'], sites = kinds.map(kind => {
  const it = document.createElement('span');
  it.className = `site ${kind}`;
  it.append(document.createElement('span'));
  box.append(it);
  return bare(getComputedStyle(it.firstChild).textDecorationStyle);
});
const shapes = kinds.map(kind => drawn(made(box, kind)));
box.remove();
return [lamps, shapes, sites];
"""
# The cells of the map with one colour for all states, so that shape alone is left.
CELLS = """
const names = ['--accent', '--amber', '--idle', '--fresh', '--red', '--faint'], root = document.documentElement;
for (const name of names) root.style.setProperty(name, 'rgb(200, 0, 0)');
dispatchEvent(new Event('resize'));
const map = document.querySelector('#map'), pen = map.getContext('2d', { willReadFrequently: true }), size = arguments[0];
const found = Array.from({ length: arguments[1] }, (_, n) => {
  const { data } = pen.getImageData(n * size, 0, size - 1, size - 1);
  return Array.from({ length: data.length / 4 }, (_, k) => (data[4 * k] === 200 && data[4 * k + 1] === 0 && data[4 * k + 3] > 128 ? 1 : 0)).join('');
});
for (const name of names) root.style.removeProperty(name);
dispatchEvent(new Event('resize'));
return found;
"""
LINES = "return [...document.querySelectorAll('.rights .pane')].slice(0, 4).map(it => it.querySelectorAll('line.edit').length)"


def counts_stand_under_their_sends(program):
    """Under each send of the source stand its state and its count, those that the image tells; and the actors in a method lead to themselves."""
    with shown(program, workers="1") as (server, image, opened, browser):
        till = traffic(image)
        choose(browser, "Till", "sell:")

        def told():
            return [("post" if it.selector == "post:with:with:" else it.state, str(it.sends)) for it in image.stats("Till", "sell:")]

        def seen():
            return [(kind, text.replace("✉ ", "")) for kind, text, _ in browser.run(SITES)]

        until(lambda: seen() == told() and seen()[0][1] != "0", "the counts of the image under the sends")
        same({kind for kind, _ in seen()}, {"mono", "mega", "post"})
        same([below for *_, below in browser.run(SITES)], [True] * len(told()))
        image.sender(3).post(till, "audit")
        choose(browser, "Till", "audit")
        browser.click("#under-running")
        browser.wait_text("#under-body", f"actor {till.number}, a Till")
        browser.wait("const it = document.querySelector('#under-body .item'); it?.click(); return Boolean(it)")
        browser.wait_text("#inspected .frame", "Till › audit")
        image.install("Till", "weigh: n ^false")


def room_and_edits_are_drawn(program):
    """The head and the table of the room say when the history and the edits will be full, and each picture over time has a line at each
    edit that was seen."""
    with shown(program) as (server, image, opened, browser):
        till = traffic(image)
        browser.click("#tab-pictures")
        browser.wait("return document.querySelectorAll('.rights svg').length > 2")
        for number in range(2):
            image.install("Till", f"sold ^{number}")
        browser.wait(f"const all = (() => {{ {LINES} }})(); return all.length === 4 && all.every(it => it === 2)")

        def grows():
            image.install("Till", "sold ^sold")
            post(image, 9, *[(till, "sold")] * 20)
            return all("full in" in browser.text(it) for it in ("#figure-history", "[aria-label=Room] tr:nth-child(1)", "[aria-label=Room] tr:nth-child(2)"))

        until(grows, "the time until there is no room")
        true("none in" in browser.text("#figure-edits"), browser.text("#figure-edits"))


def states_differ_in_shape(program):
    """Without their colours the states of the lamp, of call sites, of the lines under sends and of actors in the map still differ."""
    # The browser has advice on pixels that are read, which is for this trial alone.
    with shown(program, workers="1", may_say=("willReadFrequently",)) as (server, image, opened, browser):
        for shapes in browser.run(SHAPES):
            same((len(set(shapes)), shapes), (len(shapes), shapes))
        idle, fault, closed, waits, _ = (image.new_actor("Till") for _ in range(5))
        post(image, 1, (idle, "sold"), (fault, "zork"))
        image.close(closed)
        image.sender(2).post(idle, "audit")
        until(lambda: image.actors()[idle.number].phase == "frames")
        # With one worker, which the turn before has.
        browser.click("#tab-actors")
        browser.wait_text(".legend", "in a turn 1")
        turn, failed, shut, *_, fresh = browser.run(CELLS, 13, 5)
        image.install("Till", "weigh: n ^false")
        browser.wait_text(".legend", "in a turn 0")
        rest = browser.run(CELLS, 13, 5)[0]
        shapes = {"turn": turn, "fault": failed, "closed": shut, "fresh": fresh, "idle": rest}
        same({one: [other for other, cells in shapes.items() if cells == shapes[one]] for one in shapes}, {it: [it] for it in shapes})


TRIALS = counts_stand_under_their_sends, room_and_edits_are_drawn, states_differ_in_shape
