"""The page in a headless Chromium: written on, looked at, touched, linked, by mouse and by keys. Skipped where there is no such browser."""
import os
import threading
import time
import unittest
from pathlib import Path

import browser
import menu
import serving
from programs import Program

TOP = Path(__file__).resolve().parent.parent
EXAMPLES = TOP / "examples"
DF1 = os.environ.get("DF1", str(TOP / "crates/df1/out/df1"))

WRITE = "script = document.getElementById('script'); script.value = arguments[0]; script.dispatchEvent(new Event('input')); "
DRAWN = "return Number(document.documentElement.dataset.drawn ?? 0)"
ARROWS = "return [...document.querySelectorAll('#picture [data-arrow]')].map((one) => one.getAttribute('aria-label').split('; ').slice(0, 2).join('; '))"
TEXT = "return document.getElementById('script').value"
LIT = """return {
  lines: [...document.querySelectorAll('.lights .lit')].map((one) => Math.round((parseFloat(one.style.top) - 8) / 20) + 1),
  arrows: [...document.querySelectorAll('#picture .flight.lit')].map((one) => one.dataset.arrow),
  report: [...document.querySelectorAll('#report .lit')].map((one) => one.textContent) }"""
WRITTEN = "a to b: write N7:0 = 1234, TNS 0001"
ACK, REPLY, LAST = "b to a: ACK", "b to a: reply, done, TNS 0001", "a to b: ACK"
EVENTS = "file b 7 89 16\nai 0FAA02078900003412\nak 19\nad 19\nbk 13\nbd 13\nak 2\nad 2\n"
EXCHANGE = f"{EVENTS}end\n"


@unittest.skipUnless(browser.starts(), "there is no Chromium with its chromedriver that starts")
class Page(unittest.TestCase):
    """A browser before a page."""

    @classmethod
    def setUpClass(cls):
        cls.server = serving.Server(Program([DF1], seconds=60))
        cls.addClassCleanup(cls.server.server_close)
        cls.addClassCleanup(cls.server.shutdown)
        threading.Thread(target=cls.server.serve_forever, args=(0.05,), daemon=True).start()
        cls.browser = browser.Browser()
        cls.addClassCleanup(cls.browser.close)

    def setUp(self):
        self.browser.open("about:blank")
        self.browser.open(f"{self.server.address}/")
        self.browser.until(DRAWN)

    def tearDown(self):
        self.assertEqual(self.browser.complaints(), [])

    def write(self, script):
        """Writes a script, and waits until what it gives is shown."""
        before = self.browser.run(DRAWN)
        self.browser.run(WRITE, script)
        self.browser.until(f"{DRAWN} > arguments[0]", before)

    def arrows(self):
        """The arrows, each with what became of it."""
        return [text.replace("; arrived", "") for text in self.browser.run(ARROWS)]

    def offer(self, arrow, begin):
        """Clicks on an arrow, and then on the offer that begins so; waits until it is drawn."""
        before = self.browser.run(DRAWN)
        self.browser.run(f"document.querySelector('[data-arrow=\"{arrow}\"]').dispatchEvent(new MouseEvent('click', {{ bubbles: true }}))")
        self.browser.run("[...document.querySelectorAll('#touch button')].find((one) => one.textContent.startsWith(arguments[0])).click()", begin)
        self.browser.until(f"{DRAWN} > arguments[0]", before)


class Writing(Page):
    def test_what_is_written_is_drawn(self):
        self.write(EXCHANGE)
        self.assertEqual(self.arrows(), [WRITTEN, ACK, REPLY, LAST])
        report = self.browser.run("return document.getElementById('report').innerText").split()
        self.assertEqual(report[-2:], ["deceived", "0"])
        self.assertTrue(self.browser.run("return document.getElementById('fault').hidden"))

    def test_keys_write_and_each_change_is_drawn(self):
        self.write("")
        self.browser.click("#script")
        self.browser.press("ai 0603\nak 99\nad 99\nend\n")
        self.browser.until("return document.querySelectorAll('#picture [data-arrow]').length === 1")
        self.assertEqual(self.arrows(), ["a to b: status, TNS 0001"])

    def test_a_small_change_is_drawn_in_a_third_of_a_second_of_the_page(self):
        self.write(EXCHANGE)
        # The machine may be busy with other work: it is tried until it is seen.
        best, count = 60, 0
        while best > 0.33 and count < 40:
            begun, count = time.monotonic(), count + 1
            self.write(EXCHANGE.replace("ak 2\n", f"ak 2\nat {count}\n"))
            best = min(best, time.monotonic() - begun)
        self.assertLess(best, 0.33)

    def test_a_faulty_line_is_marked_and_said_in_words(self):
        self.write(EXCHANGE.replace("bk 13", "bk 0"))
        self.assertEqual(self.browser.run("return document.querySelector('.numbers .wrong').textContent"), "5")
        self.assertTrue(self.browser.run("return Boolean(document.querySelector('.lights .wrong'))"))
        words = self.browser.run("return document.getElementById('fault').innerText")
        for part in ("Line 5: value", "a number, word or length is out of its range", "ak 0 has to be ak 1: n is 1 to 4000000", "The form is bk [n]"):
            self.assertIn(part, words)
        self.assertEqual(self.arrows(), [WRITTEN])
        self.assertEqual(self.browser.run("return document.getElementById('why').textContent"), "Drawn: the lines before line 5.")
        self.browser.click("#fault button")
        caret = self.browser.run("return document.getElementById('script').value.slice(0, document.getElementById('script').selectionStart)")
        self.assertEqual(caret.count("\n"), 4)
        self.write(EXCHANGE)
        self.assertTrue(self.browser.run("return document.getElementById('fault').hidden && !document.querySelector('.wrong')"))

    def test_a_script_of_3000_lines_is_numbered_and_drawn_where_it_is_written(self):
        script = "file b 7 89 16\n" + "ai 0FAA02078900003412\nak 99\nad 99\nbk 99\nbd 99\nak 99\nad 99\n" * 430 + "end\n"
        self.write(script)
        self.assertEqual(len(self.arrows()), 200)
        self.assertIn("Lines 1 to 350 are drawn.", self.browser.run("return document.getElementById('part').innerText"))
        self.assertLess(self.browser.run("return document.querySelectorAll('.numbers div').length"), 100)
        self.browser.run("const it = document.getElementById('script'); it.focus(); it.setSelectionRange(it.value.length - 4, it.value.length - 4)")
        self.browser.press("at 3\n")
        self.browser.until("return document.getElementById('part').innerText.includes('to the end')")
        self.assertIn("3 ticks", self.browser.run("return document.getElementById('picture').textContent"))
        self.browser.click("#start")
        self.browser.until("return document.getElementById('part').innerText.startsWith('Lines 1 to')")

    def test_html_in_a_comment_is_shown_as_it_is_written(self):
        self.write("# <img src=x onerror=\"document.title='hurt'\"><script>document.title='hurt'</script>\nai 0603\nend\n")
        self.assertIn("<img src=x onerror=", self.browser.run("return document.getElementById('picture').textContent"))
        self.assertEqual(self.browser.run("return [document.title, document.querySelectorAll('img').length]"), ["df1", 0])

    def test_a_long_script_is_not_drawn_and_says_so(self):
        self.write(EVENTS + f"# {'x' * 1000}\n" * 1100 + "end\n")
        self.assertIn("isn't drawn", self.browser.run("return document.getElementById('why').textContent"))
        self.assertIn("deceived 0", self.browser.run("return document.getElementById('report').textContent"))
        self.assertEqual(self.arrows(), [])
        self.browser.until("return document.getElementById('said').textContent === 'Too long for a link.' && location.hash === ''")

    def test_examples_are_chosen_by_what_they_show(self):
        self.browser.until("return document.querySelectorAll('#examples option').length > 30")
        shows = self.browser.run("return [...document.querySelectorAll('#examples optgroup')].map((one) => [one.label, one.children.length])")
        self.assertEqual(shows, [[group["name"], len(group["scripts"])] for group in menu.examples()["groups"]])
        self.assertEqual(sum(count for _, count in shows), len(list(EXAMPLES.glob("*.df1"))))
        before = self.browser.run(DRAWN)
        self.browser.run("""const menu = document.getElementById('examples');
            menu.value = [...menu.options].find((one) => one.text.startsWith('A master writes a word of a station.')).value; menu.dispatchEvent(new Event('change'))""")
        self.browser.until(f"{DRAWN} > arguments[0]", before)
        self.assertEqual(self.browser.run(TEXT), (EXAMPLES / "polled-write.df1").read_text())
        self.assertIn("m to 3: ACK to 3", self.arrows())


class Links(Page):
    def test_a_script_is_a_link(self):
        script = EXCHANGE.replace("file", "# ä & 100% + # \"x\"\nfile")
        self.write(script)
        self.browser.until("return location.hash.includes('100')")
        link = self.browser.address
        self.browser.open("about:blank")
        self.browser.open(link)
        self.browser.until(DRAWN)
        self.assertEqual((self.browser.run(TEXT), self.arrows()), (script, [WRITTEN, ACK, REPLY, LAST]))

    def test_a_capture_is_a_link(self):
        self.browser.open("about:blank")
        self.browser.open(f"{self.server.address}/#capture=100503FD&side=master&check=crc")
        self.browser.until("return document.documentElement.dataset.heard")
        self.assertEqual(self.browser.run("return document.getElementById('items').tBodies[0].innerText.trim().split(/\\s+/)"), ["0–3", "poll", "03"])
        self.browser.click("#tab-script")
        self.browser.until(DRAWN)
        self.assertEqual(self.browser.run(TEXT), (EXAMPLES / "lost-ack.df1").read_text())


class Touching(Page):
    def test_a_line_its_arrow_and_its_report_light_up_together(self):
        self.write(EXCHANGE)
        both = {"lines": [3, 4], "arrows": ["a.0.b"], "report": ["a sent 100201000F000100AA0207890000341210036D", "b exec 01000F000100AA02078900003412"]}
        self.browser.point("[data-arrow='a.0.b'] .hit")
        self.assertEqual(self.browser.run(LIT), both)
        self.browser.run("document.querySelectorAll('#report div')[3].dispatchEvent(new MouseEvent('mouseover', { bubbles: true }))")
        self.assertEqual(self.browser.run(LIT), {"lines": [6], "arrows": ["b.2.a"], "report": ["a answered 1 00014F000100"]})
        self.browser.run("const it = document.getElementById('script'); it.focus(); const at = it.value.indexOf('bk 13'); it.setSelectionRange(at, at)")
        self.browser.press("Shift")
        lit = self.browser.run(LIT)
        self.assertEqual((lit["lines"], sorted(lit["arrows"]), lit["report"]), ([5], ["b.0.a", "b.2.a"], ["b sent 1006100200014F0001001003AF"]))

    def test_an_arrow_shows_its_bytes_and_fields(self):
        self.write(EXCHANGE)
        self.browser.point("[data-arrow='a.0.b'] .hit")
        words = self.browser.run("return document.getElementById('touch').innerText.replace(/\\s+/g, ' ')")
        for part in (f"{WRITTEN} (arrived)", "DST 01 to node 1", "TNS 01 00 transaction 0001", "FNC AA write", "address 07 89 00 00 N7:0", "data 34 12 1234", "check 6D BCC"):
            self.assertIn(part, words)

    def test_an_arrow_is_lost_and_delivered_again(self):
        self.write(EXCHANGE)
        self.offer("b.0.a", "Lose it")
        self.assertEqual(self.browser.run(TEXT), EXCHANGE.replace("bd 13", "bx 2\nbd 11"))
        self.assertEqual(self.arrows()[1], f"{ACK}; 2 of 2 bytes lost")
        self.offer("b.0.a", "Deliver it")
        self.assertEqual(self.browser.run(TEXT), EXCHANGE.replace("bd 13", "bd 2\nbd 11"))
        self.assertEqual(self.arrows(), [WRITTEN, ACK, REPLY, LAST])

    def test_a_byte_is_damaged(self):
        self.write(EXCHANGE)
        self.browser.run("document.querySelector('[data-arrow=\"a.0.b\"]').dispatchEvent(new MouseEvent('click', { bubbles: true }))")
        self.browser.run("document.querySelectorAll('#touch .hex button')[14].click(); document.querySelector('#touch input').value = '40'")
        before = self.browser.run(DRAWN)
        self.browser.run("[...document.querySelectorAll('#touch button')].find((one) => one.textContent === 'Damage byte 15').click()")
        self.browser.until(f"{DRAWN} > arguments[0]", before)
        self.assertEqual(self.browser.run(TEXT), EXCHANGE.replace("ad 19", "ad 14\nac 40\nad 5"))
        self.assertEqual(self.arrows()[0], f"{WRITTEN}; byte 15: 34 → 74")

    def test_an_arrow_is_held_back_until_its_end_asks(self):
        self.write(EXCHANGE)
        self.offer("b.0.a", "Hold it back")
        self.assertEqual(self.browser.run(TEXT), EXCHANGE.replace("bd 13", "at 10\nbd 13"))
        self.assertIn("a enquiry", self.browser.run("return document.getElementById('report').innerText"))

    def test_what_is_under_way_is_lost_before_the_end(self):
        self.write("ai 0603\nak 99\nad 99\nbk 99\nend\n")
        self.offer("b.2.a", "Lose it")
        self.assertEqual(self.browser.run(TEXT), "ai 0603\nak 99\nad 99\nbk 99\nbd 2\nbx 11\nend\n")

    def test_what_is_under_way_at_a_faulty_line_is_lost_before_it(self):
        self.write("ai 0603\nak 99\nzz\nend\n")
        self.offer("a.0.b", "Lose it")
        self.assertEqual(self.browser.run(TEXT), "ai 0603\nak 99\nax 12\nzz\nend\n")
        self.write("ai 0603\nak 99")
        self.offer("a.0.b", "Deliver it")
        self.assertEqual(self.browser.run(TEXT), "ai 0603\nak 99\nad 12\n")

    def test_a_script_that_has_changed_since_is_not_edited(self):
        self.write(EXCHANGE)
        self.browser.run("document.querySelector('[data-arrow=\"a.0.b\"]').dispatchEvent(new MouseEvent('click', { bubbles: true }))")
        self.browser.run(WRITE + "document.querySelector('#touch button').click()", f"# another line\n{EXCHANGE}")
        self.assertEqual(self.browser.run(TEXT), f"# another line\n{EXCHANGE}")

    def test_an_edit_can_be_undone(self):
        self.write(EXCHANGE)
        self.offer("a.0.b", "Lose it")
        self.assertIn("ax 19", self.browser.run(TEXT))
        self.browser.run("document.execCommand('undo')")
        self.assertEqual(self.browser.run(TEXT), EXCHANGE)

    def test_a_message_of_a_master_is_lost_on_its_way_to_one_station(self):
        self.write((EXAMPLES / "polled-write.df1").read_text())
        self.offer("m.0.3", "Lose it")
        self.assertIn("\nmx 3 22\n", self.browser.run(TEXT))
        self.assertEqual(self.arrows().count("m to 3: write N7:0 = 1234, TNS 0001; 22 of 22 bytes lost"), 1)

    def test_arrows_are_reached_and_lost_by_keys(self):
        self.write(EXCHANGE)
        self.browser.run("document.querySelector('#picture [tabindex=\"0\"]').focus()")
        self.browser.press("\ue015", "\ue015")
        self.assertEqual(self.browser.run("return document.activeElement.dataset.arrow"), "b.2.a")
        before = self.browser.run(DRAWN)
        self.browser.press("Enter")
        self.assertEqual(self.browser.run("return document.activeElement.textContent"), "Lose it")
        self.browser.press("Enter")
        self.browser.until(f"{DRAWN} > arguments[0]", before)
        self.assertEqual(self.browser.run(TEXT), EXCHANGE.replace("bd 13", "bd 2\nbx 11"))


# Each offer made for each arrow of a script; answers what didn't come of it as it says.
OFFERS = """
const { change, inOrder, lose, deliver, damage, hold } = await import("/edits.js");
const ask = async (text) => (await fetch("/replay", { method: "POST", body: text })).json();
const text = arguments[0], end = text.split("\\n").indexOf("end") + 1, told = await ask(text), wrong = [];
const edited = (edits) => inOrder(edits).reduce((so_far, edit) => {
  const { first, last, text } = change(so_far, edit);
  return so_far.slice(0, first) + text + so_far.slice(last);
}, text);
for (const [key, arrow] of Object.entries(told.arrows)) {
  if (!arrow.moves) continue;
  const size = arrow.bytes.length / 2, isLost = arrow.moves.length > 0 && arrow.moves.every((move) => move.kind === "x");
  const look = async (name, edits, right) => {
    const answer = await ask(edited(edits));
    if (answer.status !== 0 || !right(answer)) wrong.push(`${name} ${key}: ${answer.note} ${answer.arrows?.[key]?.fate}`);
  };
  await look("lose", lose(arrow, end), (answer) => answer.arrows[key].fate.startsWith(`${size} of ${size} bytes lost`));
  const isSame = arrow.moves.every((move) => move.kind === "d") && !arrow.waits;  // its lines are cut, and nothing else
  await look("deliver", deliver(arrow, end), (answer) => !/lost|under way/.test(answer.arrows[key].fate) && (!isSame || answer.report === told.report));
  if (isLost) continue;
  const [clock, ticks] = arrow.clock;
  await look("hold", hold(arrow, clock, ticks, end), (answer) => new RegExp(`>${ticks} tick`).test(answer.picture));
  for (const place of [0, size - 1]) {
    await look("damage", damage(arrow, place, "40", end), (answer) => answer.arrows[key].fate.includes(`byte ${place + 1}: `));
  }
}
return wrong;
"""
VARIOUS = ["trace", "both-ends-at-once", "embedding", "damaged-frame-and-lost-nak", "no-room", "polled-write", "reset"]


class Offers(Page):
    def test_what_an_offer_says_comes_of_it_for_each_arrow(self):
        for name in VARIOUS:
            with self.subTest(name):
                self.assertEqual(self.browser.wait(OFFERS, (EXAMPLES / f"{name}.df1").read_text()), [])


class Captured(Page):
    def test_a_capture_is_a_table_and_its_bytes_are_coloured(self):
        self.browser.run("document.getElementById('tab-script').focus()")
        self.browser.press("ArrowRight")
        self.assertEqual(self.browser.run("return document.activeElement.id"), "tab-capture")
        self.browser.click("#capture")
        self.browser.press("55 10 06 10 02 08 09 06 00 02 04 03 10 03 E0 10 02 01")
        self.browser.until("return document.getElementById('counts').textContent === 'heard 3 bad 1 open 3'")
        rows = self.browser.run("return [...document.querySelectorAll('#items tbody tr')].map((row) => row.innerText.trim().split(/\\s+/).slice(0, 3).join(' '))")
        self.assertEqual(rows, ["0–0 stray 55", "1–2 ack", "3–14 good status", "15–17 open"])
        classes = self.browser.run("return [...document.querySelectorAll('#bytes span')].map((one) => one.dataset.item + ' ' + one.className.split(' ')[0])")
        self.assertEqual(classes, ["0 kind-wrong", *["1 kind-2"] * 2, *["2 kind-3"] * 12, *["3 kind-4"] * 3])
        colours = self.browser.run("return [0, 1, 3, 15].map((place) => getComputedStyle(document.querySelectorAll('#bytes span')[place]).backgroundColor)")
        self.assertEqual(len(set(colours)), 4)
        self.browser.run("document.querySelectorAll('#items tbody tr')[2].focus()")
        self.assertIn("DST 08", self.browser.run("return document.getElementById('item-fields').innerText.replace(/\\s+/g, ' ')"))
        self.assertEqual(self.browser.run("return document.querySelectorAll('#bytes .lit').length"), 12)

    def test_what_is_no_capture_says_so(self):
        self.browser.click("#tab-capture")
        self.browser.run("const it = document.getElementById('capture'); it.value = '10 0G'; it.dispatchEvent(new Event('input'))")
        self.browser.until("return document.getElementById('counts').textContent.includes('no hexadecimal digit')")
        self.browser.complaints()  # the browser notes an answer of status 400


class Looks(Page):
    def test_on_a_narrow_window_nothing_is_cut_and_the_parts_stand_one_below_another(self):
        self.addCleanup(self.browser.resize, 1400, 900)
        self.browser.resize(500, 800)
        self.write(EXCHANGE)
        wide = self.browser.run("return [document.documentElement.scrollWidth, innerWidth]")
        self.assertLessEqual(wide[0], wide[1])
        tops = self.browser.run("return ['.editor', '#picture', '#touch', '#report'].map((one) => document.querySelector(one).getBoundingClientRect().top)")
        self.assertEqual(tops, sorted(tops))

    def test_nothing_is_asked_of_any_other_machine(self):
        self.write(EXCHANGE)
        asked = self.browser.run("return performance.getEntriesByType('resource').map((one) => new URL(one.name).origin)")
        self.assertEqual(set(asked), {self.server.address})

    def test_dark_and_light_have_their_colours(self):
        dark = browser.Browser(is_dark=True)
        self.addCleanup(dark.close)
        dark.open(f"{self.server.address}/")
        dark.until(DRAWN)
        papers = [one.run("return getComputedStyle(document.body).backgroundColor + getComputedStyle(document.querySelector('#picture .paper')).fill") for one in (self.browser, dark)]
        self.assertEqual(papers, ["rgb(255, 255, 255)" * 2, "rgb(13, 17, 23)" * 2])


@unittest.skipUnless(browser.starts(), "there is no Chromium with its chromedriver that starts")
class Ended(unittest.TestCase):
    def test_where_the_server_is_ended_the_page_says_so(self):
        server = serving.Server(Program([DF1], seconds=60))
        threading.Thread(target=server.serve_forever, args=(0.05,), daemon=True).start()
        one = browser.Browser()
        self.addCleanup(one.close)
        one.open(f"{server.address}/")
        one.until(DRAWN)
        server.shutdown()
        server.server_close()
        one.run(WRITE, "end\n")
        one.until("return document.getElementById('why').textContent.startsWith('The server doesn')")


if __name__ == "__main__":
    unittest.main()
