"""The trials of the page of `web` in a browser, for tests/web: what it shows of positions and games, and what clicks and keys do."""

import time
from contextlib import contextmanager
from urllib.parse import quote, unquote

from lib import browser, reference
from lib.failing import equal, must
from lib.tool_trials import drawn_game, drawn_line
from lib.page_wanted import (
    BUTTON, CLASSED, CONTRAST, LABELS, LINES_SHOWN, NAMES, ROWS, SECOND, SOWN, board_of, counted, course_of, signed, values_of, way_of,
)

from kalah import rules
from kalah.answers import Late
from kalah.web import server as web
from kalah.web.answers import Busy

START, USUAL = "1,1/0 1,1/0", "4,4,4,4,4,4/0 4,4,4,4,4,4/0"
# Addresses that are no position, and what is said of them.
HOSTILE = ["<img src=x onerror=alert(1)>", "<script>alert(1)</script>", "%", "1,1/0\n1,1", "x" * 300]
LINES, GAMES = 12, 2
# The widths of a small telephone's window and of a computer's, in points; and how long a slow server takes, in seconds.
WIDTHS, SLOW = [360, 1280], 2


class PageTrials:
    def __init__(self, page, server, draw):
        # The game that the address of the page has: a line, and the houses that were moved.
        self.page, self.server, self.draw, self.played = page, server, draw, []

    def run(self, screenshots):
        for width in WIDTHS:
            self.page.window(width)
            self.page.settings(prefers_reduced_motion="reduce")
            for trial in (self.placed, self.mouse_and_keys, self.drawn_lines, self.ends, self.looked_at, self.variation, self.new_game,
                          self.entered, self.links, self.seen, self.best_play_after, self.guess_first, self.copied, self.above_the_limit):
                trial()
            for number in range(GAMES):
                self.game(number % 2)
            self.taken_back()
            self.strengths()
            self.late_best()
            self.late_clicks()
            self.late_start()
            self.quiet()
            self.kept()
            self.too_late()
            self.hostile()
            self.fits(width, screenshots)
            self.newcomer()
            self.named(width)
        self.motion()
        self.rules(screenshots)
        self.review(screenshots)
        self.quiet()

    # What the trials do.

    def soon(self, text, want):
        """Waits until an expression has this value."""
        end = time.monotonic() + browser.SOON
        while (got := self.value(text)) != want:
            must(time.monotonic() < end, f"the page: {text} is {got!r} in place of {want!r}")
            time.sleep(0.02)

    def value(self, text):
        """Returns the value of an expression, or, as long as the page is not there, why it has none."""
        try:
            return self.page.eval(text)
        except browser.Silent as why:
            return str(why)

    def says(self, want):
        self.soon("element('said').textContent", want)

    def says_last(self, want):
        """The status ends with this, after what the last move did."""
        self.soon(f"element('said').textContent.endsWith({want!r})", True)

    def shows(self, line, player=0, values=True, rest="", text=None):
        """The page shows a position, the values there, and its address. `rest` is what the address has after the moves."""
        position = reference.read(line.encode())
        known = values_of(position) if values and not isinstance(position, str) else None
        self.soon(LABELS, board_of(line, player, known))
        best = [f"house-{player}-{house}" for house in known or {} if known[house] == max(known.values())]
        self.soon(f"{CLASSED.format('best')}.sort()", sorted(best))
        self.soon("decodeURIComponent(location.hash)", f"#{' '.join(map(str, self.played))}{rest}")
        rule = "Empty-capture" if line.endswith(" e") else "Classic"
        self.soon(f"element('rule-said').textContent.startsWith('{rule} rule: ')", True)

    def open(self, line, *houses, rest=""):
        self.page.send("Page.navigate", url="about:blank")
        self.page.send("Page.navigate", url=self.server.address(" ".join(map(str, [line, *houses])) + rest))
        self.soon("document.querySelectorAll('#board > *').length > 0", True)
        self.played = [line, *houses]

    def set(self, id_, value):
        """Chooses the value of a list."""
        self.page.eval(f"element('{id_}').value = '{value}'; element('{id_}').dispatchEvent(new Event('change'))")

    def choose(self, player, house):
        """Moves a house by the mouse or a key, once it can be moved."""
        self.soon(f"document.getElementById('house-{player}-{house}')?.ariaDisabled", "false")
        self.draw.choice([lambda: self.page.click(f"house-{player}-{house}"), lambda: self.page.key(str(house))])()
        self.played.append(house)

    def click(self, id_):
        """Clicks a button once the page has all its answers, as they may move it."""
        self.soon("pending.size", 0)
        self.page.click(id_)

    def drawn(self):
        """A line in which both players have seeds, and a game from it of three moves at least."""
        while True:
            line = drawn_line(self.draw, 4, 8).replace("/99", "/9")
            houses = [house for _, house, _ in drawn_game(self.draw, line)[0]]
            if len(houses) > 2:
                return line, houses

    @contextmanager
    def slow(self, seconds=SLOW):
        """Meanwhile each answer takes some seconds more."""
        ask = self.server.ask
        self.server.ask = {path: lambda text, answer=answer: (time.sleep(seconds), answer(text))[1] for path, answer in ask.items()}
        yield
        self.server.ask = ask

    # The board.

    def placed(self):
        """The stores stand at the ends, and South's houses below those of North that lie opposite."""
        self.open("1,2,3/4 5,6,7/8")
        boxes = self.page.eval("[...document.querySelectorAll('#board > *')].map((one) => one.getBoundingClientRect().toJSON())")
        (north, *above), (south, *below) = boxes[:4], boxes[4:]
        columns = [box["x"] for box in (north, *above, south)]
        must(columns == sorted({*columns}) and columns[1:4] == [box["x"] for box in below], f"the page: the columns of {boxes}")
        equal({box["bottom"] < below[0]["top"] for box in above}, {True}, f"the page: the rows of {boxes}")

    def mouse_and_keys(self):
        self.open(START)
        self.shows(START)
        self.says("South is to move.")
        self.page.key("w")
        self.shows(START, values=False)
        self.page.key("w")
        self.shows(START)
        self.click("house-0-2")
        self.played.append(2)
        self.shows("1,0/1 1,1/0")
        self.says("South moves house 2 and moves again. South is to move.")
        self.page.key("2")
        self.soon("element('wrong').innerText.trim()", "house 2 can't be moved")
        self.page.key("1")
        self.played.append(1)
        self.says("South moves house 1, captures 2 seeds. The game is over. South wins, 3 to 1.")
        self.soon(ROWS, ["|1.|South|house 2|+2|", "|2.|South|house 1|+2|"])
        self.click("undo")
        self.played.pop()
        self.shows("1,0/1 1,1/0")
        self.page.key("u")
        self.played.pop()
        self.shows(START)
        self.soon("[element('undo').disabled, element('redo').disabled]", [True, False])
        for press in (lambda: self.click("redo"), lambda: self.page.key("r")):
            press()
        self.played += [2, 1]
        self.says_last("South wins, 3 to 1.")
        self.soon("[element('undo').disabled, element('redo').disabled]", [False, True])
        self.open(START)
        self.shows(START)
        self.page.eval("element('first').focus(); document.querySelector('header a').focus()")
        for house in ("house-1-2", "house-1-1", "house-0-1", "house-0-2"):
            self.page.key("Tab")
            self.soon("document.activeElement.id", house)
        self.page.key("Enter")
        self.played.append(2)
        self.shows("1,0/1 1,1/0")

    def drawn_lines(self):
        """Lines of both rules are shown as they are, with the values of their moves, and the best of them are marked."""
        for _ in range(LINES):
            line = drawn_line(self.draw, 4, 8)
            self.open(line)
            self.shows(line)

    def ends(self):
        """Who wins is said with all seeds, also those in houses."""
        ends = {"0,0/3 1,2/4": "North wins, 7 to 3.", "2,3/4 0,0/1": "South wins, 9 to 1.", "0,0/3 1,0/2": "It is a draw, 3 to 3."}
        for line, said in ends.items():
            self.open(line)
            self.says(f"The game is over. {said}")

    # A game, looked at.

    def rows_of(self, course):
        """Returns what the list says of a game's moves."""
        worst = [max((place.lost for place in course if place.player == player), default=0) for player in (0, 1)]
        rows, marked = [], set()
        for number, place in enumerate(course[:-1], 1):
            lost = f"loses {place.lost}" if place.lost else ""
            rows.append(f"|{number}.|{NAMES[place.player]}|house {place.house}|{signed(place.values[place.house])}|{lost}")
            if place.lost and place.lost == worst[place.player] and place.player not in {one for one, _, _ in marked}:
                marked.add((place.player, number, place.lost))
        return rows, [f"{NAMES[player]}: move {number} loses {lost}" for player, number, lost in sorted(marked)]

    def looked_at(self):
        """The list has each move's value and loss, the curve South's margins; clicks on either and arrow keys go there."""
        line, houses = self.drawn()
        first = self.draw.choice([0, 1])
        course, north = course_of(line, houses, first), "&first=North" * first
        self.open(line, *houses, rest=north)
        self.soon("element('undo').disabled", False)
        rows, worst = self.rows_of(course)
        self.soon(ROWS, rows)
        self.soon("[...document.querySelectorAll('#worst button')].map((one) => one.textContent)", worst)
        self.soon("[...document.querySelectorAll('#played .worst')].map((one) => one.firstChild.textContent)",
                  sorted((said.split(" ")[2] + "." for said in worst), key=lambda text: int(text[:-1])))
        margins = ", ".join(f"{number}: {signed(place.margin)}" for number, place in enumerate(course))
        self.soon("element('curve').getAttribute('aria-label')", f"South's margin: {margins}")
        bad = [bool(place.lost) for place in course]
        self.soon("[...document.querySelectorAll('#curve circle')].map((one) => one.classList.contains('bad'))", bad)
        heights = self.page.eval("[...document.querySelectorAll('#curve circle')].map((one) => Number(one.getAttribute('cy')))")
        order = sorted(range(len(course)), key=lambda number: heights[number])
        is_right = all(course[one].margin >= course[two].margin for one, two in zip(order, order[1:]))
        must(is_right, f"the page: the curve of {line} {houses}: {heights}")
        for _ in range(4):
            at = self.draw.randrange(len(course))
            if at and self.draw.random() < 0.5:
                self.click(f"move-{at}")
            else:
                self.soon("pending.size", 0)
                self.page.click_at(f"document.querySelectorAll('#curve .at')[{at}]")
            self.at(course, at, north)
        self.click("first")
        self.at(course, 0, north)
        for at in range(1, len(course)):
            self.page.key("ArrowRight")
            self.at(course, at, north)
        self.page.key("ArrowLeft")
        self.at(course, len(course) - 2, north)
        for key, at in (("Home", 0), ("End", len(course) - 1)):
            self.page.key(key)
            self.at(course, at, north)

    def at(self, course, at, rest=""):
        """The page shows this place of the game, and what is to be said of the move before it."""
        place, before = course[at], course[at - 1]
        self.shows(place.line, place.player, rest=rest + (f"&at={at}" if at < len(course) - 1 else ""))
        self.soon(f"element('move-{at}')?.ariaCurrent", "true" if at else None)
        if not at:
            return self.soon("element('comment').innerText.trim()", "")
        worth = signed(before.values[before.house])
        if before.lost:
            best, most = before.best, signed(before.values[before.best])
            said = f"Worth {worth}: it loses {before.lost}. House {best} is worth {most}. Show house {best}"
        else:
            said = f"Worth {worth}: {'a best move' if len(before.values) > 1 else 'the only move'}."
        self.soon("element('comment').innerText.replace(/\\s+/g, ' ').trim()", said)

    def variation(self):
        """Another move at an earlier place begins a variation, and the game stays. What would have been better is one."""
        self.open(START, 1, 1, 2)
        self.soon(ROWS, ["|1.|South|house 1|-2|loses 4", "|2.|North|house 1|+2|", "|3.|South|house 2|-2|"])
        self.click("worst-0")
        self.shows("1,1/0 0,2/0", player=1, rest="&at=1")
        self.click("better")
        self.shows("1,0/1 1,1/0", rest="&try=0:2&at=1v")
        game = ["|1.|South|house 1|-2|loses 4", "try|1.|South|house 2|+2|", "|2.|North|house 1|+2|", "|3.|South|house 2|-2|"]
        self.soon(ROWS, game)
        self.page.key("1")
        self.says_last("South wins, 3 to 1.")
        self.soon(ROWS, [*game[:2], "try|2.|South|house 1|+2|", *game[2:]])
        self.soon("decodeURIComponent(location.hash)", f"#{START} 1 1 2&try=0:2,1&at=2v")
        self.open(START, 1, 1, 2, rest="&try=0:2,1&at=2v")
        self.says_last("South wins, 3 to 1.")
        self.soon(ROWS, [*game[:2], "try|2.|South|house 1|+2|", *game[2:]])
        self.click("move-3")
        self.says_last("North wins, 3 to 1.")
        self.click("move-v2")
        self.says_last("South wins, 3 to 1.")
        self.page.key("ArrowLeft")
        self.page.key("ArrowLeft")
        self.shows(START, rest="&try=0:2,1&at=0v")
        self.page.key("1")
        self.shows("1,1/0 0,2/0", player=1, rest="&try=0:2,1&at=1")
        self.open(START, 1, rest="&try=0:2&at=1")
        self.shows("1,1/0 0,2/0", player=1, rest="&try=0:2")
        self.choose(1, 1)
        self.shows(course_of(START, [1, 1])[-1].line, rest="&try=0:2")

    def new_game(self):
        """A new game has the houses, seeds, rule and first player that are chosen; Undo brings the game before it back."""
        self.open(START, 1)
        self.shows("1,1/0 0,2/0", player=1)
        self.click("new")
        self.page.eval("element('houses').value = 2; element('seeds').value = 3; element('seeds').oninput();"
                       "element('rule').value = ' e'; element('mover').value = '1'")
        self.soon("element('new-said').textContent", "")
        self.click("begin")
        self.played = ["3,3/0 3,3/0 e"]
        self.shows("3,3/0 3,3/0 e", player=1, rest="&first=North")
        self.says("North is to move.")
        self.choose(1, 2)
        reached, word = reference.after(reference.read(b"3,3/0 3,3/0 e"), 2)
        equal(word, "turn", "how house 2 of 3,3/0 3,3/0 e ends")
        self.shows(reference.text(reached), rest="&first=North")
        for _ in range(2):
            self.click("undo")
        self.played = [START, 1]
        self.shows("1,1/0 0,2/0", player=1)
        self.click("new")
        self.page.eval("element('houses').value = 6; element('seeds').value = 4; element('seeds').oninput()")
        self.soon("element('new-said').textContent", "48 seeds: there are values once at most 31 are left in houses.")
        self.page.key("Escape")
        self.soon("document.querySelector('dialog[open]')", None)

    def entered(self):
        """A game is pasted as numbers, letters or an address, and opened as far as its moves go."""
        texts = [f"{START} 2 1", f" {START}\n1. BA ", f"{START} 2,1", self.server.address(f"{START} 2 1")]
        for text in texts:
            self.open("2,2/0 2,2/0")
            self.enter(text)
            self.played = [START, 2, 1]
            self.says_last("South wins, 3 to 1.")
            self.soon("decodeURIComponent(location.hash)", f"#{START} 2 1")
        self.enter("1,0/0 0,2/0 e")
        self.played = ["1,0/0 0,2/0 e"]
        self.shows("1,0/0 0,2/0 e")

    def enter(self, text):
        self.click("enter")
        self.page.eval("element('text').value = ''")
        self.click("text")
        self.page.type(text)
        self.click("open")

    def links(self):
        """An address opens the game that it has at its move, up to a move that can't be made, and moves can be taken back."""
        for line in (START, f"{START} e"):
            self.open(line, 2, 1)
            self.says_last("The game is over. South wins, 3 to 1.")
            self.page.key("u")
            self.played.pop()
            self.shows(f"1,0/1 1,1/0{line.removeprefix(START)}")
        self.open(START, 2, 1, rest="&at=1")
        self.shows("1,0/1 1,1/0", rest="&at=1")
        self.soon("element('undo').disabled", True)
        self.open(START, 1, 3, 2)
        self.soon("element('wrong').innerText.trim()", f"{START} 1 3 2: move 2: North can't move house 3: houses are 1 to 2")
        self.played = [START, 1]
        self.shows("1,1/0 0,2/0", player=1)
        self.open(START, 2, 1)
        # The page may be drawn before it hears of the new address.
        self.page.eval(f"location.hash = '#{quote(START)}%201'; show()")
        self.played = [START, 1]
        self.shows("1,1/0 0,2/0", player=1)

    def copied(self):
        self.open(START, 1, 1, 2)
        self.says_last("North wins, 3 to 1.")
        for button, text in (("link", self.server.address(f"{START} 1 1 2")), ("record", f"{START} 1. A a 2. B")):
            self.click(button)
            self.soon("document.querySelector('#copied input').value", text)
        self.open("3,3/0 3,3/0", 2, 1, rest="&first=North")
        self.soon("element('undo').disabled", False)
        self.click("record")
        self.soon("document.querySelector('#copied input').value", "3,3/0 3,3/0 1... b 2. A")

    # A move, seen.

    def seen(self):
        """After a move each cell has the number of seeds that fell there; the house, the last cell and a capture are marked."""
        for _ in range(LINES):
            line, houses = self.drawn()
            place = course_of(line, houses)[0]
            sown, last, captured = way_of(line, 0, place.house)
            self.open(line, place.house, rest="&at=1")
            self.soon("element('said').textContent.startsWith('South moves house ')", True)
            self.soon(SOWN, {cell: f"+{number}" for cell, number in sown.items()})
            self.soon(CLASSED.format("moved"), [f"house-0-{place.house}"])
            self.soon(CLASSED.format("sown-last"), [last])
            self.soon(f"{CLASSED.format('captured')}.sort()", sorted(captured[1]) if captured else [])
            said = f", captures {counted(captured[0], 'seed')}" if captured else ""
            end = {"again": " and moves again. ", "turn": ". ", "over": ". "}[place.word]
            self.soon(f"element('said').textContent.startsWith('South moves house {place.house}{said}{end}')", True)
        self.open(START)
        self.soon("document.querySelectorAll('#arrow path').length", 2)

    def best_play_after(self):
        """On demand the best play after each move is said."""
        self.open(START)
        self.page.click_at("document.querySelector('#lines summary')")
        self.soon(LINES_SHOWN, ["1: -2, then North 1, South 2", "2: +2, then South 1"])
        line, houses = self.drawn()
        place = course_of(line, houses)[0]
        self.open(line)
        self.page.eval("element('lines').open = true")
        self.soon(LINES_SHOWN, [self.said_of(place, house) for house in place.values])

    def said_of(self, place, house):
        position, word = reference.after(place.position, house)
        player, said, is_new = (place.player ^ (word == "turn")), [], True
        if word == "over":
            return f"{house}: {signed(place.values[house])}, and the game is over"
        while word != "over":
            best = reference.best_play(position)[1]
            said.append(f"{', ' * bool(said)}{NAMES[player]} {best}" if is_new else f" {best}")
            position, word = reference.after(position, best)
            is_new = word == "turn"
            player ^= is_new
        text = "".join(said[:14]) + " .." * (len(said) > 14)
        return f"{house}: {signed(place.values[house])}, then {text}"

    def above_the_limit(self):
        """From the usual board the solver's moves are guesses, and said to be; why there are no values is a remark."""
        self.open(USUAL)
        house = rules.guess(USUAL)
        said = "No values above 31 seeds: 48 are in houses."
        self.soon("element('remark').textContent", f"{said} Looking 4 moves ahead, house {house} seems best.")
        self.soon("[element('wrong').innerText.trim(), element('arrow').classList.contains('guess')]", ["", True])
        self.set("solver", 1)
        self.choose(0, 1)
        reached = rules.text(rules.after(rules.read(USUAL), 1)[0])
        self.soon(SECOND, f"2. North house {rules.guess(reached)}")
        self.click("move-2")
        self.soon("element('comment').innerText.includes('it looks 4 moves ahead')", True)

    # For a lesson.

    def guess_first(self):
        """Values are hidden until a move is made, and right guesses are counted, each position once."""
        self.open(START)
        self.set("values", "guess")
        self.shows(START, values=False)
        self.soon("element('score').textContent", "Right guesses: 0 of 0")
        self.choose(0, 1)
        self.soon("element('score').textContent", "Right guesses: 0 of 1")
        self.soon("element('comment').innerText.replace(/\\s+/g, ' ').trim()", "Worth -2: it loses 4. House 2 is worth +2. Show house 2")
        self.shows("1,1/0 0,2/0", player=1, values=False)
        self.page.key("u")
        self.played.pop()
        self.shows(START)
        self.choose(0, 2)
        self.soon(LABELS, board_of("1,0/1 1,1/0"))
        self.soon("element('score').textContent", "Right guesses: 0 of 1")
        self.open("2,2/0 2,2/0")
        self.set("values", "guess")
        place = course_of("2,2/0 2,2/0", [])[0]
        must(len({*place.values.values()}) > 1, "2,2/0 2,2/0 has one value")
        self.choose(0, place.best)
        self.soon("element('score').textContent", "Right guesses: 1 of 1")

    def game(self, person):
        """A game against the solver: it makes the moves of best play. Undo takes its moves back with that of the person."""
        line, player, word = drawn_line(self.draw, 4, 8).replace("/99", "/9"), 0, ""
        self.open(line)
        self.set("solver", 1 - person)
        asked = []
        while word != "over":
            position = reference.read(line.encode())
            if player == person:
                self.shows(line, player)
                asked.append((line, [*self.played]))
                house = self.draw.choice(reference.legal(position))
                self.choose(player, house)
            else:
                house = reference.best_play(position)[1]
                self.played.append(house)
            reached, word = reference.after(position, house)
            line, player = reference.text(reached), player ^ (word == "turn")
        self.shows(line, player)
        self.soon("element('said').textContent.includes('The game is over.')", True)
        for line, played in reversed(asked[-3:]):
            self.page.key("u")
            self.played = played
            self.shows(line, person)

    def taken_back(self):
        """Undo after the solver's move goes back to where the person was to move, and stays there; Redo has both moves again."""
        line = "3,3,3/0 3,3,3/0"
        self.open(line)
        self.set("solver", 1)
        self.choose(0, 2)
        moved = course_of(line, [2])[1]
        equal(moved.player, 1, f"who moves after house 2 of {line}")
        while moved.player:
            self.played.append(moved.best)
            moved = course_of(line, self.played[1:])[-1]
        self.shows(moved.line)
        both = self.played
        for _ in range(2):
            self.page.key("u")
            self.played = [line]
            self.shows(line)
            time.sleep(0.3)
            self.shows(line)
            self.click("redo")
            self.played = both
            self.shows(moved.line)

    def strengths(self):
        """The solver looks 2 ahead, or leaves best play at some moves; and each strength is said."""
        self.open("3,3,3/0 3,3,3/0")
        self.set("solver", 1)
        said = [(strength, self.page.eval(f"element('strength').value = '{strength}'; show(); element('strength-said').textContent"))
                for strength in ("best", "some", "ahead")]
        must(len({text for _, text in said}) == 3 and all(said), f"the page: {said}")
        for _ in range(3):
            line, houses = self.drawn()
            first = course_of(line, houses)[0]
            moved = next((house for house in first.values if reference.after(first.position, house)[1] == "turn"), None)
            if not moved:
                continue
            position, _ = reference.after(first.position, moved)
            ahead = rules.seen_of_moves(rules.read(reference.text(position)), 2)
            self.solver_moves(line, moved, "ahead", max(ahead, key=ahead.get))
            values = values_of(position)
            worse = [house for house in values if values[house] < max(values.values())]
            for drawn in (0.0, 0.2, 0.3, 0.9):
                is_worse = drawn < 0.25 and worse
                want = worse[int(drawn / 0.25 * len(worse))] if is_worse else reference.best_play(position)[1]
                self.solver_moves(line, moved, "some", want, drawn)

    def solver_moves(self, line, moved, strength, want, drawn=0.0):
        self.open(line)
        self.page.eval(f"Math.random = () => {drawn}; element('strength').value = '{strength}'")
        self.set("solver", 1)
        self.page.key(str(moved)) if self.page.eval("Boolean(about(now().line).moves)") else self.choose(0, moved)
        self.soon(SECOND, f"2. North house {want}")

    # A slow server.

    def late_best(self):
        """An answer that comes after the position has changed changes nothing: each position gets its own."""
        while True:
            line, houses = self.drawn()
            first = course_of(line, houses)[0]
            turns = [house for house in first.values if reference.after(first.position, house)[1] == "turn"]
            replies = {house: reference.best_play(reference.after(first.position, house)[0])[1] for house in turns}
            differing = [(one, two) for one in turns for two in turns if replies[one] != replies[two]]
            if differing and all(replies.values()):
                break
        one, two = self.draw.choice(differing)
        reached = reference.after(first.position, two)[0]
        with self.slow():
            self.open(line)
            self.set("solver", 1)
            self.choose(0, one)
            self.says_last("The solver moves for North.")
            time.sleep(SLOW * 1.2)
            self.page.key("u")
            self.played.pop()
            self.choose(0, two)
            self.says_last("The solver moves for North.")
        self.played.append(replies[two])
        end, word = reference.after(reached, replies[two])
        player = 1 ^ (word == "turn")
        if word == "again":
            # It goes on; the moves so far are looked at.
            return self.soon(f"decodeURIComponent(location.hash).startsWith('#{' '.join(map(str, self.played))}')", True)
        self.shows(reference.text(end), player)
        time.sleep(SLOW)
        self.shows(reference.text(end), player)

    def late_clicks(self):
        """While the solver thinks, clicks and keys move nothing for it, and Undo brings the position back for good."""
        with self.slow():
            self.open(START)
            self.set("solver", 1)
            self.choose(0, 1)
            self.says_last("The solver moves for North.")
            # What the moves are is known before the solver's move is.
            self.soon("Boolean(about(now().line).moves)", True)
            self.page.click("house-1-2")
            self.page.key("2")
            self.soon("element('played').children.length", 1)
            self.page.click("undo")
            self.played.pop()
            self.soon("decodeURIComponent(location.hash)", f"#{START}")
            time.sleep(1.5 * SLOW)
            self.soon("decodeURIComponent(location.hash)", f"#{START}")
            self.page.key("r")
            self.page.key("2")
            self.says_last("The solver moves for North.") if self.page.eval("isSolversTurn(state)") else None
        self.soon(SECOND, f"2. North house {reference.best_play(reference.read(b'1,1/0 0,2/0'))[1]}")

    def late_start(self):
        """Of two games that are opened the later one is shown, whichever answer comes first. A click meanwhile plays in the game that is
        shown."""
        game = self.server.ask["/game"]
        self.open("2,2/0 2,2/0")
        self.shows("2,2/0 2,2/0")
        self.server.ask["/game"] = lambda text: (time.sleep(SLOW if "1,1/0" in text else 0), game(text))[1]
        self.enter(START)
        self.choose(0, 1)
        self.soon("element('played').children.length", 1)
        self.enter("3,3/0 3,3/0")
        self.played = ["3,3/0 3,3/0"]
        self.shows("3,3/0 3,3/0")
        time.sleep(1.2 * SLOW)
        self.shows("3,3/0 3,3/0")
        self.server.ask["/game"] = game

    def kept(self):
        """A page that was kept takes no answer of another version, and says so."""
        self.open(START)
        self.shows(START)
        version, web.HEADERS["Kalah-Version"] = web.HEADERS["Kalah-Version"], "0.0.0"
        self.page.key("1")
        self.soon("element('wrong').innerText.startsWith('this page was kept from another version of kalah')", True)
        must(self.page.eval("about(now().line).moves === undefined"), "the page takes an answer of another version")
        web.HEADERS["Kalah-Version"] = version
        self.page.click("retry")
        self.played = [START, 1]
        self.shows("1,1/0 0,2/0", player=1)

    def too_late(self):
        """If values and best play take too long, that is a remark, and the solver looks ahead; a busy server is asked again on demand."""
        ask = self.server.ask

        def late(_):
            raise Late("kalah has not answered in 1 seconds")

        def busy(_):
            raise Busy

        self.server.ask = {**ask, "/best": late, "/values": late}
        self.open(START)
        self.soon("element('remark').textContent", "No values here: they take too long.")
        self.set("solver", 1)
        self.page.key("1")
        self.soon(SECOND, "2. North house 1")
        self.soon("element('judged').textContent", "(best play takes too long here; it looks 2 moves ahead)")
        self.server.ask = {**ask, "/values": busy}
        self.open(START)
        self.soon("element('wrong').innerText.replace(/\\s+/g, ' ').trim()", "too many questions at once Try again")
        self.server.ask = ask
        self.click("retry")
        self.shows(START)

    # For everybody.

    def hostile(self):
        """An address that is no position is named as a text, and another position is shown."""
        for text in HOSTILE:
            self.page.send("Page.navigate", url="about:blank")
            self.page.send("Page.navigate", url=f"http://127.0.0.1:{self.server.server_port}/#{text if text == '%' else quote(text)}")
            self.soon("document.getElementById('wrong')?.textContent.startsWith(" + repr(text) + " + ': ')", True)
            self.says("South is to move.")
            equal(self.page.eval("document.querySelectorAll('img, #wrong span *').length"), 0, f"the page: {text} is not escaped")
        self.open(START, 1)
        self.shows("1,1/0 0,2/0", player=1)
        self.enter("1,1/0 <b>")
        self.soon("element('wrong').innerText.startsWith('1,1/0 <b>: fault shape')", True)
        self.shows("1,1/0 0,2/0", player=1)
        self.page.events = [event for event in self.page.events if event["method"] != "Log.entryAdded"]

    def fits(self, width, screenshots):
        """Nothing is wider than the window, the widest board and the list are both in it, and texts can be read, in light and dark."""
        line = "0,3,1,4,12,1/15 2,0,3,1,1,2/13 e"
        for scheme in ("light", "dark"):
            self.page.settings(prefers_color_scheme=scheme, prefers_reduced_motion="reduce")
            self.open(line, 6, 5)
            self.soon("document.querySelectorAll('.best').length > 0 && document.querySelectorAll('#curve circle').length === 3", True)
            must(self.page.eval("document.documentElement.scrollWidth") <= width, f"the page is wider than {width} points")
            boxes = self.page.eval("[...document.querySelectorAll('#board > *')].map((one) => one.getBoundingClientRect().toJSON())")
            inside = all(0 <= box["left"] and box["right"] <= width and box["width"] >= 24 for box in boxes)
            must(inside and len(boxes) == 14, f"the page, {width} points wide: {boxes}")
            list_, height = self.page.eval("[element('played').getBoundingClientRect().toJSON(), innerHeight]")
            in_reach = boxes[0]["top"] >= 0 and list_["top"] + 60 <= height
            must(in_reach, f"the page, {width} points wide: the list is at {list_}, of {height}")
            for name in ("", "new-game", "enter-game"):
                if name:
                    self.page.eval(f"element('{name}').showModal()")
                    box = self.page.eval(f"element('{name}').getBoundingClientRect().toJSON()")
                    must(0 <= box["left"] and box["right"] <= width, f"the page, {width} points wide: {name} at {box}")
                ratio, *what = self.page.eval(CONTRAST)
                must(ratio >= 4.5, f"the page, {scheme}, {name}: a contrast of {ratio}: {what}")
                if screenshots:
                    self.page.screenshot(screenshots / f"page{'-' * bool(name)}{name}-{width}-{scheme}.png")
                self.page.eval(f"{name and f'element({name!r}).close()' or 0}")
        keys = self.page.eval("getComputedStyle(document.querySelector('.keys')).display")
        must(keys == ("none" if width < 500 else "block"), f"the page, {width} points wide: key hints are {keys}")
        self.page.settings(prefers_color_scheme="light", prefers_reduced_motion="reduce")

    def newcomer(self):
        """The buttons that one sees first lead to a game that is entered, its worst move, and what would have been better."""
        self.open("2,2/0 2,2/0")
        self.page.click_at(BUTTON.format("Enter a game"))
        self.soon("document.activeElement.id", "text")
        self.page.type(f"{START} 1 1 2")
        self.page.click_at(BUTTON.format("Open"))
        self.soon("element('worst').innerText.replace(/\\s+/g, ' ').trim()", "Worst moves: South: move 1 loses 4")
        for text in ("South: move 1 loses 4", "Show house 2"):
            where = BUTTON.format(text)
            box, height = self.page.eval(f"[{where}.getBoundingClientRect().toJSON(), innerHeight]")
            must(0 <= box["top"] and box["bottom"] <= height, f"the page: {text} is at {box}, of {height}")
            self.page.click_at(where)
        self.says("South moves house 2 and moves again. South is to move.")
        self.soon("element('comment').innerText.trim()", "Worth +2: a best move.")

    def named(self, width):
        """Each button, list, field and link has a name for screen readers; what is said is said aloud."""
        self.open(START, 1)
        self.shows("1,1/0 0,2/0", player=1)
        for dialog in ("", "new-game", "enter-game"):
            if dialog:
                self.page.eval(f"element('{dialog}').showModal()")
            for node in self.page.send("Accessibility.getFullAXTree")["nodes"]:
                role = node.get("role", {}).get("value")
                if role in ("button", "combobox", "textbox", "spinbutton", "link", "dialog", "image") and not node.get("ignored"):
                    must(node.get("name", {}).get("value"), f"the page, {width}: a {role} has no name: {node}")
            if dialog:
                self.page.eval(f"element('{dialog}').close()")
        equal(self.page.eval("element('said').ariaLive"), "polite", "the page: how what is said is said aloud")

    def motion(self):
        """Seeds fall one after another, unless the system's setting is for less motion."""
        for setting, moves in (("no-preference", True), ("reduce", False)):
            self.page.settings(prefers_reduced_motion=setting)
            self.open("3,3,3/0 3,3,3/0")
            self.shows("3,3,3/0 3,3,3/0", values=True)
            self.page.click("house-0-2")
            self.soon("element('played').children.length", 1)
            got = self.page.eval("element('board').getAnimations({ subtree: true }).length > 0")
            equal(got, moves, f"the page, with {setting}: whether seeds move")
        self.page.settings(prefers_reduced_motion="no-preference")
        self.open(START)
        self.set("solver", 1)
        self.choose(0, 1)
        self.soon("element('played').children.length > 1", True)
        # While seeds fall, the solver waits, and the move is taken back.
        line = "3,3,3/0 3,3,3/0"
        self.open(line)
        self.set("solver", 1)
        self.page.eval("need('best', '4,3,3/0 3,0,4/1')")
        self.soon("Boolean(about('4,3,3/0 3,0,4/1').best)", True)
        self.choose(0, 2)
        self.soon("isSolversTurn(state) && Boolean(about(now().line).moves) && Boolean(solversMove(now()))", True)
        self.page.key("u")
        self.played = [line]
        time.sleep(1.5)
        self.shows(line)
        self.page.settings(prefers_reduced_motion="reduce")

    def rules(self, screenshots):
        """The page links the rules, whose pictures are drawn."""
        self.open(START)
        must(self.page.eval("document.querySelector('header a').href").endswith("/rules"), "the page links no rules")
        for width in WIDTHS:
            for scheme in ("light", "dark"):
                self.page.window(width)
                self.page.settings(prefers_color_scheme=scheme)
                self.page.send("Page.navigate", url=f"http://127.0.0.1:{self.server.server_port}/rules")
                self.soon("document.querySelectorAll('.picture .board').length", 11)
                must(self.page.eval("document.documentElement.scrollWidth") <= width, f"the rules are wider than {width} points")
                ratio, *what = self.page.eval(CONTRAST)
                must(ratio >= 4.5, f"the rules, {scheme}: a contrast of {ratio}: {what}")
                if screenshots:
                    self.page.screenshot(screenshots / f"rules-{width}-{scheme}.png")
        self.page.settings(prefers_color_scheme="light", prefers_reduced_motion="reduce")

    def review(self, screenshots):
        """The game is reviewed on a page to print."""
        line, houses = "3,3,3/0 3,3,3/0", [2, 1, 3, 2, 3, 1]
        self.open(line, *houses, rest="&at=2")
        self.soon("element('review').checkVisibility()", True)
        address = self.page.eval("element('review').href")
        must(unquote(address).endswith(f"/review?{line} {' '.join(map(str, houses))}"), f"the page: the review is at {address}")
        self.soon("pending.size", 0)
        if screenshots:
            self.page.pdf(screenshots / "page.pdf")
        self.page.send("Page.navigate", url=address)
        self.soon("document.querySelectorAll('svg').length > 6 && document.body.innerText.includes('moves house 2')", True)
        if screenshots:
            self.page.pdf(screenshots / "review.pdf")

    def quiet(self):
        """No dialog, no error of the script or in the console, and nothing from elsewhere."""
        for event in self.page.events:
            method, params = event["method"], event["params"]
            must(method not in ("Page.javascriptDialogOpening", "Runtime.exceptionThrown"), f"the page: {event}")
            must(method != "Log.entryAdded" or params["entry"]["level"] != "error", f"the page: {event}")
            must(method != "Runtime.consoleAPICalled" or params["type"] not in ("error", "warning"), f"the page: {event}")
            if method == "Network.requestWillBeSent":
                url = params["request"]["url"]
                must(url.startswith((f"http://127.0.0.1:{self.server.server_port}/", "data:,")), f"the page gets {url}")
        self.page.events.clear()
