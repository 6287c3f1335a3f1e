"""What a browser shows when a disk is full, and of names and pages that mean harm."""
import http.server
import threading

from served import SMALL, BrowserTest, cell, skip_without_browser

# a desk that can write files of 600 bytes
LIMITED = """#!/usr/bin/env python3
import os, resource, signal, sys
if sys.argv[1] == "desk":
    signal.signal(signal.SIGXFSZ, signal.SIG_IGN)
    resource.setrlimit(resource.RLIMIT_FSIZE, (600, 600))
os.execv("{program}", ["timedesk", *sys.argv[1:]])
"""
EVIL = "<img/src=x/onerror=window.hit=1>"
# names of both directions, of markup, and with a line separator
HOSTILE = f"""Name: hostile
Courses: 3
Rooms: 2
Days: 2
Periods_per_day: 3
Curricula: 1
Constraints: 0
COURSES:
{EVIL} t1 2 1 30
\u202eمقرر\u2028x "><script>window.hit=1</script> 2 1 20
</style><b> t1 1 1 50
ROOMS:
قاعة 40
<i>B</i> 25
CURRICULA:
';alert(1)// 2 {EVIL} \u202eمقرر\u2028x
UNAVAILABILITY_CONSTRAINTS:
END.
"""
START = f"{EVIL} قاعة 0 0\n\u202eمقرر\u2028x <i>B</i> 0 1\n"
LABELS = (
    "kind,code,name,short name\n"
    f'course,{EVIL},"Alg<b>\u202eebra</b>","A<u>l</u>"\n'
    'teacher,t1,"O\'Neill & Sons ""x""",\n'
)
# what a page of another origin tries, each with what becomes of it
ATTACK = """
const [address, key, done] = arguments;
const at = `http://${address}`;
const told = {};
const sent = { "X-Seat-Key": key, "X-Window": "evil", "Content-Type": "application/json" };
const tries = {
  post: () => fetch(`${at}/api/hello`, { method: "POST", headers: sent, body: "{}" }),
  plain: () => fetch(`${at}/api/hello`, { method: "POST", mode: "no-cors", body: "{}" })
    .then((answer) => { if (answer.type === "opaque") throw 1; }),
  read: () => fetch(`${at}/`).then((answer) => answer.text()),
  news: () => fetch(`${at}/api/news`, { headers: sent }),
  script: () => load("script", "src", `${at}/numbers.js`),
  style: () => load("link", "href", `${at}/page.css`),
  image: () => load("img", "src", `${at}/icon.svg`),
};
function load(tag, name, url) {
  return new Promise((good, bad) => {
    const one = document.createElement(tag);
    if (tag === "link") one.rel = "stylesheet";
    if (tag === "script") one.type = "module";
    one.onload = good;
    one.onerror = bad;
    one[name] = url;
    document.head.append(one);
  });
}
Promise.all(Object.entries(tries).map(([name, go]) =>
  go().then(() => { told[name] = "came through"; }, () => { told[name] = "blocked"; })))
  .then(() => done(told));
"""


class Elsewhere(http.server.BaseHTTPRequestHandler):
    """A page of another origin."""

    def do_GET(self):
        self.send_response(200)
        self.send_header("Content-Type", "text/html")
        self.end_headers()
        self.wfile.write(b"<!doctype html><title>elsewhere</title><body>elsewhere")

    def log_message(self, *_):
        pass


@skip_without_browser
class Faults(BrowserTest):
    def test_full_disk(self):
        """A draft that could not be written is said not to be, and is no news for anybody."""
        program = self.write("limited", LIMITED.format(program=self.program), 0o755)
        self.environment["TIMEDESK"] = program
        self.open("day", SMALL, "3")
        self.serve("day")
        anna, ben = self.planner(), self.planner("seat 1", "ben")
        fill = "open\nplace alg A 1 0\ncommit\n" + "open\ncost\ncommit\n" * 30
        count = self.sit("day", 2, fill).index("not written")
        self.assertGreater(count, 1)
        anna.press("m", "Enter")
        anna.wait("return !!document.querySelector('#week.holding')")
        anna.press("b", "Enter")
        anna.sees("your draft: 1 edit", "#costs")
        self.commit(anna)
        anna.sees("Nothing can be committed any more", "#banner")
        ben.sees("Nothing can be committed any more", "#banner")
        # the last one may be torn
        written = self.drafts_in("day")
        for one in (anna, ben):
            told = one.run("return document.querySelectorAll('#news .drafts > li').length")
            self.assertEqual(told, min(written, 30))
            self.is_clean(one)

    def test_hostile_names(self):
        """Names and reasons are text, whatever is in them, and turn nothing round."""
        self.write("hostile.ctt", HOSTILE)
        self.write("hostile.sol", START)
        import os

        os.mkdir(self.path("labels"))
        self.write("labels/labels.csv", LABELS)
        words = ["--start", self.path("hostile.sol"), "--labels", self.path("labels")]
        self.open("day", self.path("hostile.ctt"), "2", *words)
        self.serve("day")
        anna = self.planner(who="<b>anna</b> \u202eenna")
        ben = self.planner("seat 1", "<script>ben</script>")
        anna.sees("A<u>l</u>", cell((0, 0)))
        anna.sees("<b>anna</b>", "#people")
        anna.click(cell((0, 0)))
        anna.press("x")
        anna.sees("missing 4", "#costs")
        anna.press("e")
        anna.sees("Alg<b>", "#box")
        anna.press("Escape")
        self.committed(anna, "<img src=x onerror=alert(1)>")
        ben.sees("<img src=x onerror=alert(1)>", "#news")
        reader = self.browser()
        reader.go(self.links["reader"])
        reader.wait("return performance.getEntriesByName('ready').length > 0")
        for one in (anna, ben, reader):
            self.assertIsNone(one.run("return window.hit"))
            count = "return document.querySelectorAll('b, u, i, body img:not([src=\"icon.svg\"])')"
            self.assertEqual(one.run(f"{count}.length"), 0)
            # each name with letters from right to left stands in an element of its own
            loose = one.run(
                "const found = [];"
                "const walk = document.createTreeWalker(document.body, NodeFilter.SHOW_TEXT);"
                "while (walk.nextNode()) if (/[\\u0590-\\u08ff\\u202e]/.test(walk.currentNode.data)"
                " && !walk.currentNode.parentElement.closest('bdi, .course, #said'))"
                " found.push(walk.currentNode.data);"
                "return found"
            )
            self.assertEqual(loose, [])
            self.is_clean(one)

    def test_other_pages(self):
        """A page of another origin neither asks nor reads anything, with a key or without."""
        self.open("day", SMALL, "1")
        self.serve("day")
        server = http.server.ThreadingHTTPServer(("127.0.0.1", 0), Elsewhere)
        threading.Thread(target=server.serve_forever, daemon=True).start()
        self.addCleanup(server.server_close)
        self.addCleanup(server.shutdown)
        browser = self.browser()
        browser.go(f"http://localhost:{server.server_address[1]}/")
        told = browser.run_later(ATTACK, self.address(), self.key())
        wanted = ("post", "plain", "read", "news", "script", "style", "image")
        self.assertEqual(told, dict.fromkeys(wanted, "blocked"))
        browser.run(
            "const one = document.createElement('iframe');"
            "one.src = arguments[0]; document.body.append(one)",
            self.links["seat 0"],
        )
        self.assertEqual(self.ask("hello", {})[1].get("wants"), "name")

    def test_policy(self):
        """Nothing becomes markup or a script of the page, whoever tries."""
        self.open("day", SMALL, "1")
        self.serve("day")
        anna = self.planner()
        for act in (
            "document.body.innerHTML = '<b>x</b>'",
            "document.createElement('script').text = 'window.hit = 1'",
            "document.createElement('script').src = '/seat.js?x'",
            "setTimeout('window.hit = 1')",
            "document.body.setAttribute('onclick', 'window.hit = 1')",
        ):
            told = anna.run(f"try {{ {act}; return '' }} catch (fault) {{ return fault.name }}")
            self.assertEqual(told, "TypeError", act)
        anna.run(
            "const one = document.createElement('img');"
            "one.src = 'http://127.0.0.1:9/x'; document.body.append(one)"
        )
        anna.wait("return blocked.includes('img-src')")
        self.assertIsNone(anna.run("return window.hit"))

    def test_rebinding(self):
        """A foreign name that leads to this address is refused in words."""
        self.open("day", SMALL, "1")
        self.serve("day")
        port = self.address().split(":")[1]
        browser = self.browser(words=["--host-resolver-rules=MAP evil.example 127.0.0.1"])
        browser.go(f"http://evil.example:{port}/#{self.key()}")
        browser.sees("unknown host name")
