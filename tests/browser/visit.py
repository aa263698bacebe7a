"""A page that is open in the browser: what a visitor does on it, and what is read then."""

import os

import reading

HERE = os.path.dirname(os.path.abspath(__file__))


def script(name):
    with open(os.path.join(HERE, name), encoding="utf-8") as file:
        return file.read()


class Visit:
    def __init__(self, browser, path):
        self.browser, self.path = browser, path
        self.scripts = script("reading.js") + script("audit.js")

    def open(self, width=1280, dark=False, scripts=True, at=""):
        """Opens the page anew; the seconds until it is loaded."""
        took = self.browser.open(self.path, width, dark, scripts, at)
        self.browser.value(self.scripts)
        return took

    def go_to(self, fragment):
        """Another fragment of the address, while the page stays open."""
        self.browser.call(
            "fragment => location.hash === fragment || new Promise(done => {"
            " addEventListener('hashchange', () => setTimeout(done), { once: true }); location.hash = fragment; })", fragment)

    def has(self, name):
        return self.browser.value("!!document.getElementById(%r)" % name)

    def is_ready(self):
        return self.browser.value("document.documentElement.dataset.ready") == "1"

    def headline(self):
        return self.browser.call("reading.headline")

    def words(self):
        return self.browser.call("reading.words")

    def picture(self):
        return self.browser.call("reading.picture")

    def firings(self):
        """The rows of the table that says what the picture says."""
        return self.browser.call("reading.firings")

    def both(self):
        """The words and the picture, read together."""
        return self.browser.call("() => [reading.words(), reading.picture()]")

    def move(self, moment):
        """The slider put to a moment by its number; the words and the picture then."""
        return self.browser.call("moment => { reading.move(moment); return [reading.words(), reading.picture()]; }", moment)

    def press(self, name):
        """A button pressed, if it can be."""
        self.browser.call("name => { const e = document.getElementById(name); if (!e.disabled && !e.hidden) e.click(); }", name)

    def press_from(self, moment, name):
        """A button pressed at a moment; what the page says of the moment that it leads to."""
        way = "(moment, name) => { reading.move(moment); document.getElementById(name).click(); return reading.words().moment; }"
        return self.browser.call(way, moment, name)

    def choose(self, number):
        """The bar of a firing clicked; what the page then tells of it, or None where the bar is not drawn (any more)."""
        return self.browser.call(
            "number => { const bar = document.querySelector('.firing[data-f=\"' + number + '\"]'); if (!bar) return null;"
            " bar.dispatchEvent(new MouseEvent('click', { bubbles: true })); return reading.why(); }", number)

    def why(self):
        return self.browser.call("reading.why")

    def cause_lines(self):
        return self.browser.call("reading.causeLines")

    def strip(self):
        return self.browser.call("reading.strip")

    def follow_link(self, name):
        """The first link in a part of the page; its words, or None where there is none."""
        words = self.browser.call("name => (e => e && e.textContent)(document.querySelector('#' + name + ' .link'))", name)
        if words:
            self.browser.call("name => document.querySelector('#' + name + ' .link').click()", name)
        return words

    def click_column(self, frame, column):
        """A real click in a column, above the lanes. The picture is brought into the window first."""
        self.browser.value("document.querySelector('#lanes svg').scrollIntoView({ block: 'start' })")
        top = self.browser.value("document.querySelector('#lanes svg').getBoundingClientRect().top")
        self.browser.click(frame.scale.x(column + 0.5), top + 24)

    def is_seen(self, name):
        return self.browser.call("name => document.getElementById(name).checkVisibility()", name)

    def rows_seen(self, query):
        """The cells of rows, as far as they are seen."""
        return self.browser.call("reading.rowsSeen", query)

    def can_press(self, name):
        return self.browser.call("name => { const e = document.getElementById(name); return !e.disabled && !e.hidden; }", name)

    def focus(self, name):
        self.browser.call("name => document.getElementById(name).focus()", name)

    def keys(self, *keys):
        for key in keys:
            self.browser.key(key)

    def on_focus(self, attribute):
        """An attribute of what has the focus."""
        return self.browser.call("name => document.activeElement.getAttribute(name)", attribute)

    def audit(self, kind):
        return self.browser.call("audit." + kind)

    def done(self):
        """How many events the moment looked at is behind, by the page's words."""
        return reading.moment(self.words()["moment"])[1]
