"""Views: the page, and what a browser shows of it."""
import json
import re
import unittest

from browser import Browser, find_browser
from made_runs import made_run
from support import ToolTest
from test_image import full_image
from test_report import RUN


class PageTest(ToolTest):
    def page(self, text, *words):
        """The page of a run, and the values in it."""
        self.write("run.txt", text)
        self.tool("view", "run.txt", "-o", "run.html", *words)
        page = (self.folder / "run.html").read_text()
        return page, json.loads(re.search(r'id="data">(.*?)</script>', page, re.S)[1].replace("<\\/", "</"))

    def test_a_page_has_all_in_itself(self):
        page, values = self.page(RUN)
        self.assertEqual(re.findall(r"(?:src|href)\s*=|https?:|@import|url\(|fetch\(|XMLHttpRequest|WebSocket", page), [])
        self.assertEqual((values["superblocks"], values["slots"], values["rungs"]), (2, 2, 4))

    def test_sizes_are_those_of_the_drive_where_it_is_given(self):
        self.small_image()
        _, values = self.page(RUN, "--image", "small.img")
        self.assertEqual((values["superblocks"], values["slots"]), (4, 4))
        self.assertEqual(values["channels"][0]["start"]["state"], [0, 0, 0, 0])

    def test_a_full_image_says_how_the_run_began(self):
        self.write("full.img", full_image())
        _, values = self.page(RUN, "--image", "full.img")
        self.assertEqual(values["channels"][0]["start"],
                         {"state": [2, 1, 3, 0], "used": [4, 1, 0, 0], "rows": [[0, 0], [2, 1]]})

    def test_entries_past_the_limit_are_told(self):
        _, values = self.page(RUN, "--most", 5)
        self.assertIn("11 entries after the first 5 of a channel aren't shown", values["told"])

    def test_what_cannot_be_viewed_is_refused(self):
        self.write("run.txt", RUN[RUN.index("summary"):])
        self.refused("view", "run.txt", "-o", "run.html", tells="run.txt:1: has no histories", leaves="run.html")
        self.write("run.txt", RUN.replace("write 5 0.0", "write 5 0"))
        self.refused("view", "run.txt", "-o", "run.html", tells="run.txt:2", leaves="run.html")


@unittest.skipUnless(find_browser(), "no Chromium is installed (Debian's package chromium), so no page is shown")
class BrowserTest(ToolTest):
    @classmethod
    def setUpClass(cls):
        cls.browser = Browser(find_browser())
        cls.addClassCleanup(cls.browser.close)

    def test_superblocks_and_table_follow_the_run(self):
        self.write("run.txt", RUN)
        self.tool("view", "run.txt", "-o", "run.html")
        browser = self.browser
        self.assertTrue(browser.show(self.folder / "run.html"))
        model = browser.value("""(() => { const s = ssdView.page.modelOf(0).superblocks;
            return [...s.state, ...s.used, ...s.live]; })()""")
        # Superblock 0 is bad after its failed erase and holds the page that wasn't copied; 1 is the frontier with the copy.
        self.assertEqual(model, [3, 1, 0, 1, 1, 1])
        self.assertEqual(browser.value("[...ssdView.page.histories[0].rung].indexOf(1)"), 5)
        browser.value("(ssdView.page.point(0, 11), new Promise(done => requestAnimationFrame(() => setTimeout(done))))")
        pointed = browser.value("document.querySelector('tr.pointed').innerText")
        self.assertEqual(pointed, "11\t0.2\tbad erase 0 1 fail\tretired 0")

    def test_a_hundred_thousand_entries_stay_quick(self):
        self.write("run.txt", made_run(100_000))
        self.tool("view", "run.txt", "-o", "run.html")
        browser = self.browser
        self.assertTrue(browser.show(self.folder / "run.html"))
        self.assertEqual(browser.requests[-1], f"file://{self.folder / 'run.html'}")
        self.assertTrue(all(url.startswith("file://") for url in browser.requests), browser.requests)
        self.assertLess(browser.value("document.querySelectorAll('*').length"), 500, "a node for each entry?")
        browser.move(420, 200)
        pointed = browser.value("ssdView.page.pointed.at")
        self.assertGreater(pointed, 1000)
        self.assertIn(f"around {pointed}", browser.value("find('pointed').textContent"))
        redrawn = browser.value("(() => { ssdView.page.stale = true; ssdView.page.draw(); return ssdView.page.drawTime; })()")
        # Far above what is measured, since other work may hold the processors.
        self.assertLess(redrawn, 2000)
        self.assertLess(browser.value("(ssdView.page.point(1, 7), ssdView.page.draw(), ssdView.page.drawTime)"), 500)


if __name__ == "__main__":
    unittest.main()
