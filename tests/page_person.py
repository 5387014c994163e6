"""Someone at the page: what a person does there, and where the page and its circuits are."""
import json
import pathlib

ROOT = pathlib.Path(__file__).resolve().parent.parent
BUILT = ROOT / "target" / "page"
PAGE = BUILT / "fidrovelj.html"
OLDER = BUILT / "fidrovelj-32.html"
DATA = ROOT / "crates" / "vectors_circuits" / "data"
WORK = ROOT / "target" / "tests"
CIPHER = ROOT / "circuits" / "aes_128.txt"
AND = "1 3\n2 1 1\n1 1\n2 1 0 1 2 AND\n"
EXAMPLES = ["AES S-box", "PRESENT S-box", "an AND in the wrong order", "Keccak's chi as equations"]


class Person:
    """Someone at the page in one of the browsers."""

    def __init__(self, browser, native, page=PAGE):
        self.browser, self.native, self.page = browser, native, page
        self.run, self.click, self.write = browser.run, browser.click, browser.write

    def open(self, address=None):
        self.browser.open(address or self.page.as_uri())
        self.browser.wait("document.documentElement.dataset.ready")

    def text(self, selector):
        return self.run(f"return document.querySelector({json.dumps(selector)}).textContent")

    def texts(self, selector):
        every = f"[...document.querySelectorAll({json.dumps(selector)})]"
        return self.run(f"return {every}.map((each) => each.textContent)")

    def after(self, action, selector, seconds=60):
        """What an element says once an action is done."""
        self.run(f"document.querySelector({json.dumps(selector)}).textContent = ''")
        action()
        self.browser.wait("document.querySelector('main').getAttribute('aria-busy') === 'false' && "
                          f"document.querySelector({json.dumps(selector)}).textContent", seconds)
        return self.text(selector)

    def example(self, title, selector):
        self.browser.wait("document.querySelector('main').getAttribute('aria-busy') === 'false'")
        return self.after(lambda: self.click(f"#examples button:nth-of-type({EXAMPLES.index(title) + 1})"), selector)

    def drop(self, box, path):
        return self.after(lambda: self.browser.drop(f"#{box} .text", path), f"#{box} .state")

    def paste(self, box, text):
        return self.after(lambda: self.write(f"#{box} .text", text), f"#{box} .state")

    def press(self, name, selector, seconds=60):
        return self.after(lambda: self.click(f"#{name}"), selector, seconds)

    def fill(self, selector, digits, widths):
        """Fields of values, each with its piece of a list."""
        pieces = [digits[sum(widths[:index]):sum(widths[:index + 1])] for index in range(len(widths))]
        self.run(f"""const pieces = {json.dumps(pieces)};
            document.querySelectorAll({json.dumps(selector)}).forEach((field) => {{ field.value = pieces.shift(); }})""")

    def saved(self, button):
        """The texts that a button offers for download."""
        self.run("window.saved = []; window.make ??= URL.createObjectURL.bind(URL); "
                 "URL.createObjectURL = (blob) => { window.saved.push(blob); return window.make(blob); };"
                 "HTMLAnchorElement.prototype.click = () => {}")
        self.click(button)
        return self.run("return Promise.all(window.saved.map((blob) => blob.text()))")

    def picture(self, name):
        if self.page == PAGE:
            self.browser.picture(BUILT / f"{self.browser.name}-{name}.png")
