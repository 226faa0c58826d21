"""What the page of `web` must show, by the rules of the reference, and expressions for what it shows, for tests/lib/page_trials.py."""

from dataclasses import dataclass

from lib import reference

NAMES = ["South", "North"]
LABELS = "[...document.querySelectorAll('#board > *')].map((one) => one.ariaLabel)"
ROWS = """[...document.querySelectorAll('#played li')].map((one) =>
  [one.className, ...[...one.firstChild.children].map((part) => part.textContent)].join('|'))"""
# The first words of the second move of the list.
SECOND = "element('played').children[1]?.innerText.replace(/\\s+/g, ' ').trim().split(' ').slice(0, 4).join(' ')"
LINES_SHOWN = "[...document.querySelectorAll('#lines li')].map((one) => one.textContent)"
# The button with this text.
BUTTON = "[...document.querySelectorAll('button')].find((one) => one.checkVisibility() && one.innerText === '{}')"
# The names of the cells that have a class, or a number of sown seeds.
CLASSED = "[...document.querySelectorAll('#board > .{}')].map((one) => one.id)"
SOWN = """Object.fromEntries([...document.querySelectorAll('#board > *')]
  .map((one) => [one.id, one.lastChild.textContent]).filter(([, sown]) => sown))"""
# The lowest contrast of a text with what is behind it, and that text. What can't be used needs none.
CONTRAST = """(() => {
  const channels = (color) => color.match(/[0-9.]+/g).map(Number), weights = [0.2126, 0.7152, 0.0722];
  const linear = (one) => (one <= 0.04045 ? one / 12.92 : ((one + 0.055) / 1.055) ** 2.4);
  const light = (color) => weights.reduce((sum, weight, place) => sum + weight * linear(channels(color)[place] / 255), 0);
  const behind = (one) => {
    const color = getComputedStyle(one).backgroundColor, [, , , alpha = 1] = channels(color);
    return alpha === 1 || !one.parentElement ? color : behind(one.parentElement);
  };
  const ratio = (one) => {
    const [low, high] = [light(getComputedStyle(one).color), light(behind(one))].sort((a, b) => a - b);
    return (high + 0.05) / (low + 0.05);
  };
  const hasText = (one) => [...one.childNodes].some((node) => node.nodeType === 3 && node.data.trim());
  const isUsed = (one) => one.checkVisibility() && !one.closest(':disabled') && !one.closest('svg');
  const texts = [...document.querySelectorAll('body *')].filter((one) => isUsed(one) && hasText(one));
  const ratios = texts.map((one) => [ratio(one), one.id || one.className || one.tagName, one.textContent.slice(0, 30)]);
  return ratios.sort(([a], [b]) => a - b)[0];
})()"""


def signed(value):
    return f"{value:+d}" if value else "0"


def counted(number, noun):
    return f"{number} {noun}{'s' * (number != 1)}"


def values_of(position):
    return {house: reference.value(position, house) for house in reference.legal(position)}


@dataclass
class Place:
    """A position of a game: who moves there, the values there, and the house that is moved, if one is."""

    position: reference.Position
    player: int
    values: dict
    house: int = None
    word: str = ""

    @property
    def line(self):
        return reference.text(self.position)

    @property
    def lost(self):
        return max(self.values.values()) - self.values[self.house] if self.house else 0

    @property
    def best(self):
        return max(self.values, key=lambda house: (self.values[house], -house))

    @property
    def margin(self):
        """South's margin of best play."""
        margin = max(self.values.values()) if self.values else reference.best_play(self.position)[0]
        return -margin if self.player else margin


def course_of(line, houses, player=0):
    """Returns the places of a game."""
    places = []
    position = reference.read(line.encode())
    for house in [*houses, None]:
        places.append(Place(position, player, values_of(position), house))
        if house:
            position, places[-1].word = reference.after(position, house)
            player ^= places[-1].word == "turn"
    return places


def board_of(line, player=0, values=None):
    """Returns the names of the stores and houses of a position, as they stand in the page."""
    sides = reference.read(line.encode())[:2][:: -1 if player else 1]

    def house(owner, number, seeds):
        worth = f", worth {signed(values[number])}" if values and owner == player and number in values else ""
        return f"{NAMES[owner]}, house {number}: {counted(seeds, 'seed')}{worth}"

    rows = [[house(owner, number, seeds) for number, seeds in enumerate(side.houses, 1)] for owner, side in enumerate(sides)]
    stores = [f"{NAMES[owner]}, store: {side.store}" for owner, side in enumerate(sides)]
    return [stores[1], *rows[1][::-1], stores[0], *rows[0]]


def way_of(line, player, house):
    """Returns the cells that get seeds, with how many, the last one, and the captured ones with their seeds."""
    position = reference.read(line.encode())
    (own, other), m = position[:2], len(position.own.houses)
    row, across = ([f"house-{side}-{number + 1}" for number in range(m)] for side in (player, 1 - player))
    cells = [*row, f"store-{player}", *across]
    lap, seeds, sown = len(cells), own.houses[house - 1], {}
    for distance in range(1, seeds + 1):
        cell = cells[(house - 1 + distance) % lap]
        sown[cell] = sown.get(cell, 0) + 1
    last = (house - 1 + seeds) % lap
    before = 0 if last == house - 1 else [*own.houses, own.store, *other.houses][last]
    captured = []
    if last < m and before + sown[cells[last]] == 1:
        across = 2 * m - last
        taken = other.houses[across - m - 1] + sown.get(cells[across], 0)
        captured = [taken + 1, {cells[last], cells[across]}] if taken or position.takes_empty else []
    return sown, cells[last], captured
