"""Pages that html5-parser reads in place of html5lib: the trees are the same. Skipped where html5lib or html5-parser is not there."""
import random
import unittest

from test_html import PAGES, fastparser, html, ours, pages_in, theirs, without_added_line_feeds

SEED, TRIED = 7, 1500
IS_MISSING = fastparser is None or fastparser.html5_parser is None
NAMES = (
    "div p a b i em span ul li ol dl dt dd table tr td th tbody caption h1 h2 pre form button select option section nav main figure figcaption summary"
    " details br hr img input textarea script style title noscript svg template x-menu"
).split()
TEXTS = ("a", " ", "\n", "x &amp; y", "&lt;", "é", "&nbsp;", "&copy", "&notit;", "a<b", "\n\n", "1 < 2", "\t", "😀", "<!-- c -->", "<!x>", "<![CDATA[x]]>", "\x00")
ATTRIBUTES = ("id=a", "class='b c'", 'title="x&amp;y"', "hidden", "ID=B id=c", "href=?a&b=c", 'onclick="a>b"', "style=", "v-on:click=x", "xml:lang=de", "xmlns=x")


def random_page(dice):
    """Make a page of tags that mostly nest."""
    pieces, above = [dice.choice(["", "<!DOCTYPE html>", '<!doctype HTML PUBLIC "a" "b">', "<!--c--><!doctype html>"])], []
    for _ in range(dice.randrange(3, 30)):
        if dice.random() < 0.3:
            pieces.append(dice.choice(TEXTS))
        elif dice.random() < 0.55 or not above:
            above.append(dice.choice(NAMES))
            words = dice.sample(ATTRIBUTES, dice.choice([0, 0, 1, 2]))
            pieces.append(f"<{' '.join([above[-1], *words])}{dice.choice(['', '', ' /'])}>")
        else:
            pieces.append(f"</{dice.choice(NAMES) if dice.random() < 0.1 else above.pop()}>")
    return "".join(pieces + [f"</{name}>" for name in reversed(above)] * (dice.random() < 0.8))


@unittest.skipIf(IS_MISSING, "html5lib or html5-parser is not there")
class Faster(unittest.TestCase):
    def check(self, page):
        with html.parse(page) as document:
            self.assertEqual(without_added_line_feeds(ours(document)), theirs(page))

    def test_random_pages(self):
        dice = random.Random(SEED)
        pages = [page for page in (random_page(dice) for _ in range(TRIED)) if fastparser.readable(page) is not None]
        self.assertGreater(len(pages), TRIED // 20)
        for page in pages:
            with self.subTest(page=page):
                self.check(page)

    def test_which_pages_are_left_to_html5lib(self):
        """Each of these html5-parser reads otherwise, or may do so."""
        for page in (
            "<template>a</template>", "<svg></svg>", "<noscript><p>a</noscript>", "<ruby>a<rtc>b</ruby>", "<dialog>a</dialog>", "<x-menu>a</x-menu>",
            "<form>a</form>", "<form><p>a</p></form>", "<pre><b>\n\na</b></pre>", "<table><p>a</table>", "<table>a", "<p xmlns=x>", "<b<i>", "<!DOCTYPE>a",
            "<!--c--><!DOCTYPE html>a", '<!DOCTYPE html PUBLIC "">a', "a\x00", "a\r\nb", "\ufeffa", "a\ud800", "<i><main>a</i></main>",
        ):
            self.assertIsNone(fastparser.readable(page), page)

    def test_bytes_are_read_in_the_encoding_that_html5lib_finds(self):
        for page, text in (
            ('<meta charset="utf-8">é'.encode(), '<meta charset="utf-8">é'),
            ("<title>a</title>é".encode("latin-1"), "<title>a</title>é"),
            ("\ufeff<p>é".encode(), None),
            (b'<meta charset="utf-8">\xff', None),
            (b'<meta charset="utf-8"><meta charset="koi8-r">', None),
            (b"<!--" + b"x" * 2000 + b'--><meta charset="utf-8">', None),
        ):
            self.assertEqual(fastparser.readable(page), text)

    def test_the_pages_of_the_examples_that_are_read_so(self):
        read = [name for name, page in pages_in(PAGES) if fastparser.readable(page) is not None]
        self.assertEqual(read, ["languages.html"])


if __name__ == "__main__":
    unittest.main()
