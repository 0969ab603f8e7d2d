"""sheet: the page by Python's own reader of HTML, nothing in it from the file but as text, and in a real browser where there is one (Chromium)."""
import base64
import html.parser
import json
import re
import shutil
import struct
import subprocess

from building import blorb
from command_kit import ROOT, aiff, be, done, expect, failed, jpeg, mod, ogg, png, refused, run, same, story

TAGS = set("html head meta title style body header h1 bdi dl dt dd a section h2 small ul li b i div figure img figcaption p span article audio pre table "
           "thead tr th tbody td footer".split())
ATTRIBUTES = set("lang charset name content http-equiv href id class src alt style controls preload dir".split())


class Page(html.parser.HTMLParser):
    """Every element with its attributes, the text within each id, and what breaks the rules for such a page."""

    def __init__(self, text):
        super().__init__(convert_charrefs=True)
        self.elements, self.open, self.texts = [], [], {}
        self.feed(text)
        self.close()
        same(self.open, [], "every element is closed")

    def handle_starttag(self, tag, attributes):
        expect(tag in TAGS, f"the element {tag}")
        expect({name for name, _ in attributes} <= ATTRIBUTES, f"the attributes of {tag}: {attributes}")
        self.elements.append((tag, dict(attributes)))
        if tag not in ("meta", "img"):
            self.open.append((tag, dict(attributes).get("id")))

    def handle_endtag(self, tag):
        same(self.open.pop()[0], tag, "elements are closed in order")

    def handle_data(self, data):
        for _, identity in self.open:
            if identity:
                self.texts[identity] = self.texts.get(identity, "") + data

    def of(self, tag):
        return [attributes for name, attributes in self.elements if name == tag]

    def data(self, tag):
        """The bytes and MIME type of each such element."""
        found = [re.fullmatch(r"data:([a-z]+/[a-z]+);base64,([A-Za-z0-9+/]*={0,2})", attributes["src"]) for attributes in self.of(tag)]
        return [(match[1], base64.b64decode(match[2], validate=True)) for match in found]


def rdes(*texts):
    return be(len(texts)) + b"".join(u + be(n) + be(len(t)) + t for u, n, t in texts)


def page_of(file, held, *options):
    file.write_bytes(held)
    result = run("sheet", file, *options)
    same((result.status, result.err), (0, ""), "sheet says nothing")
    text = result.out.decode()
    expect("<script" not in text.lower() and "javascript:" not in text and "http:" not in text.replace('http-equiv', '') and "https:" not in text, "no script, no address")
    return Page(text)


RECORD = b"<ifindex><story><bibliographic><title>The Eel</title><author>A. M. Horns</author></bibliographic></story></ifindex>"
PICTURE = ROOT / "host/tests/data/plain.png"
ENTRIES = [(b"Pict", 9, 0), (b"Pict", 1, 1), (b"Pict", 2, 1), (b"Pict", 3, 2), (b"Pict", 4, 3), (b"Snd ", 3, 4), (b"Snd ", 4, 5), (b"Snd ", 5, 6),
           (b"Data", 7, 7), (b"Data", 8, 8), (b"Exec", 0, 9)]
CHUNKS = [(b"PNG ", png()), (b"PNG ", PICTURE.read_bytes()), (b"JPEG", (ROOT / "host/tests/data/baseline.jpg").read_bytes()), (b"Rect", be(320) + be(200)),
          (b"FORM", aiff(bytes(range(0, 256, 4)) * 200)[8:]), (b"OGGV", ogg()), (b"MOD ", mod()), (b"TEXT", "Grüße\n".encode() + b"x" * 3000), (b"BINA", b"\0\1"),
          (b"ZCOD", story()), (b"IFmd", RECORD), (b"Fspc", be(1)), (b"AUTH", b"me"), (b"RDes", rdes((b"Pict", 1, b"An eel."), (b"Snd ", 3, b"Wind."),
                                                                                                    (b"Pict", 77, b"nobody")))]
GAME = blorb(ENTRIES, CHUNKS)


def whole_page(work):
    """Every picture once at its number with its text, sounds as players, and all the rest in words."""
    page = page_of(work / "game.blb", GAME)
    same([f["id"] for f in page.of("figure")], ["Pict-1", "Pict-2", "Pict-3", "Pict-4", "Pict-9"], "pictures by their numbers")
    same(page.data("img"), [("image/png", CHUNKS[1][1]), ("image/jpeg", CHUNKS[2][1]), ("image/png", png())], "each picture's bytes, once")
    same([i["alt"] for i in page.of("img")], ["An eel.", "Pict 3", "Pict 9"], "texts for those who do not see them")
    for identity, words in {"Pict-1": ("Pict 1", "cover", "PNG, 37 by 23", "shared with Pict 2", "An eel."), "Pict-2": ("the same as Pict 1", "shared with Pict 1"),
                            "Pict-4": ("320 by 200",), "Snd-3": ("Wind.", "8000 Hz, 1 channel, 8 bits, 0:01"), "Snd-5": ("a browser does not play this",),
                            "Data-7": ("Grüße\nxxx", "xxx ..", "TEXT, 3,008 bytes"), "Data-8": ("BINA, 2 bytes",), "Exec-0": ("Z-code, version 5",),
                            "chunks": ("'IFmd'", "'Fspc'", "'AUTH'", "me"), "strangers": ("'Pict' 77: nobody",), "warnings": ("'Data' 7: fizmo", "1 of the texts")}.items():
        for word in words:
            expect(word in page.texts.get(identity, ""), f"{word!r} in {identity}: {page.texts.get(identity)!r}")
    expect("cover" not in page.texts["Pict-2"], "only one is the cover")
    ids = [attributes["id"] for _, attributes in page.elements if "id" in attributes]
    same(len(ids), len(set(ids)), "each id is there once")
    expect(all(a["href"][0] == "#" and a["href"][1:] in ids for a in page.of("a")), "links lead to elements of the page")
    players = page.data("audio")
    same(([kind for kind, _ in players], players[1][1]), (["audio/wav", "audio/ogg"], ogg()), "players")
    same(players[0][1][44:], bytes(b ^ 0x80 for b in bytes(range(0, 256, 4)) * 200), "the samples of the AIFF sound as WAV")
    same([page.texts[key].split()[1] for key in ("pictures", "sounds", "data", "stories", "chunks")], ["5", "3", "2", "1", "chunks"], "how many")
    done("sheet", work / "game.blb", "-o", work / "out.html")
    same((work / "out.html").read_bytes(), run("sheet", work / "game.blb").out, "the same in a file")
    done("sheet", work / "game.blb", "-o", work / "out.html")
    failed("sheet", work / "game.blb", "-o", work / "game.blb", saying="itself")
    (work / "broken.blb").write_bytes(b"FORM")
    refused(2, 0, "sheet", work / "broken.blb")
    done("new", work / "blank")
    same([tag for tag, _ in page_of(work / "blank", (work / "blank").read_bytes()).elements if tag == "section"], [], "a blank file has no section")


def as_wav(work):
    """AIFF sounds of 8 to 32 bits and one or two channels: head and samples as WAV, by Python's own reader of bytes."""
    for bits, channels, frames in ((8, 1, 5), (8, 2, 4), (16, 1, 3), (16, 2, 7), (24, 1, 2), (32, 2, 3), (12, 1, 2)):
        width = (bits + 7) // 8
        samples = bytes((7 * n + 3) % 256 for n in range(width * channels * frames))
        rate = (16383 + 14).to_bytes(2, "big") + (22050 << 49).to_bytes(8, "big")
        comm = channels.to_bytes(2, "big") + be(frames) + bits.to_bytes(2, "big") + rate
        for passed in (0, 2):
            sound = b"AIFF" + part(b"COMM", comm) + part(b"SSND", be(passed) + be(0) + bytes(passed) + samples)
            (kind, wav), = page_of(work / "game.blb", blorb([(b"Snd ", 3, 0)], [(b"FORM", sound)])).data("audio")
            head = struct.unpack("<4sI4s4sIHHIIHH4sI", wav[:44])
            frame = width * channels
            same((kind, *head), ("audio/wav", b"RIFF", len(wav) - 8, b"WAVE", b"fmt ", 16, 1, channels, 22050, 22050 * frame, frame, 8 * width, b"data", len(samples)),
                 f"{bits} bits, {channels} channels")
            swapped = b"".join(samples[n:n + width][::-1] for n in range(0, len(samples), width))
            same(wav[44:], bytes(b ^ 0x80 for b in swapped) if width == 1 else swapped, "the samples")
    for sound in (part(b"COMM", comm), part(b"COMM", comm) + part(b"SSND", b"short"), part(b"COMM", comm) + part(b"SSND", be(99) + be(0) + samples), b"",
                  part(b"COMM", comm[:2] + be(2 ** 32 - 1) + comm[6:]) + part(b"SSND", bytes(8) + samples)):
        result = run("sheet", saved(work / "game.blb", blorb([(b"Snd ", 3, 0)], [(b"FORM", b"AIFF" + sound)])))
        expect(result.status == 0 and b"a browser does not play this" in result.out, "a sound whose samples are not there")


def part(kind, body):
    return kind + be(len(body)) + body + bytes(len(body) % 2)


def saved(file, held):
    file.write_bytes(held)
    return file


EVIL = "\"'><script>alert(1)</script><img src=x onerror=alert(1)>&amp;\u202e"


def escaped(work):
    """What comes from the file, and its own name, is text wherever it stands."""
    evil = EVIL.encode()
    record = f"<ifindex><story><identification><ifid>{html.escape(EVIL)}</ifid></identification><bibliographic>" + "".join(
        f"<{name}>{html.escape(EVIL)}</{name}>" for name in ("title", "author", "headline", "genre", "language")) + "</bibliographic></story></ifindex>"
    held = blorb([(b"Pict", 1, 0), (b"Data", 1, 1), (b"Snd ", 1, 2)],
                 [(b"PNG ", evil), (b"TEXT", evil + bytes(range(256)) + b"\xff\xed\xa0\x80\xef\xbf\xbe"), (b"OGGV", evil), (b"IFmd", record.encode()), (b"AUTH", evil),
                  (b"<b>\"", b""), (b"RDes", rdes((b"Pict", 1, evil), (b"Snd ", 1, evil), (b"<s>\"", 1, evil)))])
    file = work / EVIL.replace("/", "")
    page = page_of(file, held)
    same(len([t for t, _ in page.elements if t in ("script", "iframe", "object")]), 0, "no element from the file")
    same(page.of("img")[0]["alt"], EVIL, "a text as an attribute")
    for identity in ("Pict-1", "Snd-1", "Data-1", "chunks", "strangers"):
        expect(EVIL in page.texts[identity], f"as text in {identity}")
    expect("'<b>\"'" in page.texts["chunks"] and "'<s>\"' 1" in page.texts["strangers"], "types and usages as text")
    expect(not re.search(r"[\x00-\x08\x0b-\x1f\x7f-\x9f\ufffe]", run("sheet", file).out.decode()), "no control character")


def many(work):
    """4,096 numbers on one picture of a megabyte have it in the page once."""
    picture = png() + bytes(10 ** 6)
    page = page_of(work / "game.blb", blorb([(b"Pict", n, 0) for n in range(4096)], [(b"PNG ", picture)]))
    same((len(page.of("figure")), len(page.of("img"))), (4096, 1), "figures and pictures")


# ---- in a browser

COUNTING = """<script>addEventListener("load", async () => {
  const sounds = [...document.querySelectorAll("audio")];
  await Promise.all(sounds.map(a => a.readyState ? 0 : new Promise(done => { a.onloadedmetadata = a.onerror = done; })));
  const found = {figures: document.querySelectorAll("figure").length, pictures: [...document.images].map(i => [i.naturalWidth, i.naturalHeight]),
    seconds: sounds.map(a => Math.round(a.duration * 100) / 100), scripts: document.scripts.length,
    wide: document.documentElement.scrollWidth <= innerWidth, title: document.title};
  document.body.setAttribute("data-found", JSON.stringify(found)); }); </script>"""


def in_a_browser(work):
    """Where there is Chromium the page is shown in it. On a machine that has too much else to do it may not answer at all."""
    browser = shutil.which("chromium") or shutil.which("chromium-browser")
    if browser is None:
        print("  in_a_browser: there is no chromium here, so the page was not shown")
        return
    for _ in range(2):
        try:
            return shown_by(browser, work)
        except subprocess.TimeoutExpired:
            shutil.rmtree(work / "profile", ignore_errors=True)
    print("  in_a_browser: chromium did not answer within four minutes, twice, so the page was not shown")


def shown_by(browser, work):
    """Chromium shows every picture at its size and can play the sounds; the page fits a narrow window; a screenshot is taken. No script of a file runs."""
    page = saved(work / "game.blb", GAME)
    done("sheet", page, "-o", work / "page.html")
    text = (work / "page.html").read_text()
    shown = Page(browsed(browser, work, "--dump-dom", (work / "page.html").as_uri()))
    same([tag for tag, _ in shown.elements], [tag for tag, _ in Page(text).elements], "the browser finds the same elements")
    counted = text.replace("</body>", COUNTING + "</body>").replace("default-src 'none'", "default-src 'none'; script-src 'unsafe-inline'")
    (work / "counted.html").write_text(counted)
    dom = browsed(browser, work, "--window-size=360,800", "--virtual-time-budget=10000", "--dump-dom", (work / "counted.html").as_uri())
    found = json.loads(html.unescape(re.search(r'data-found="([^"]*)"', dom)[1]))
    same((found["figures"], found["pictures"], found["scripts"], found["title"]), (5, [[37, 23], picture_size(CHUNKS[2][1]), [2, 2]], 1, "The Eel"), "what is shown")
    expect(found["seconds"][0] == 1.6 and abs(found["seconds"][1] - .1) < .05, f"how long the sounds play: {found['seconds']}")
    expect(found["wide"], "a narrow window is wide enough")
    browsed(browser, work, "--window-size=1000,700", f"--screenshot={work / 'shot.png'}", (work / "page.html").as_uri())
    shot = (work / "shot.png").read_bytes()
    same(struct.unpack(">II", shot[16:24]), (1000, 700), "a screenshot of the window")
    expect(len(shot) > 10_000, "which is not empty")
    # Whatever stands in a file, no script of it runs: the title stays.
    evil = blorb([(b"Data", 1, 0)], [(b"TEXT", EVIL.encode() + b"<script>document.title='run'</script><svg onload=\"document.title='run'\">")])
    done("sheet", saved(work / "evil.blb", evil), "-o", work / "evil.html")
    expect("<title>evil.blb</title>" in browsed(browser, work, "--virtual-time-budget=2000", "--dump-dom", (work / "evil.html").as_uri()), "no script ran")


def picture_size(held):
    at = 2
    while held[at + 1] not in (0xc0, 0xc1, 0xc2):
        at += 2 + int.from_bytes(held[at + 2:at + 4], "big")
    return [int.from_bytes(held[at + 7:at + 9], "big"), int.from_bytes(held[at + 5:at + 7], "big")]


SWITCHES = ("--headless", "--no-sandbox", "--disable-gpu", "--hide-scrollbars", "--no-first-run", "--disable-extensions", "--disable-background-networking",
            "--disable-sync", "--disable-dev-shm-usage")


def browsed(browser, work, *words):
    result = subprocess.run([browser, *SWITCHES, f"--user-data-dir={work / 'profile'}", *words], stdout=subprocess.PIPE, stderr=subprocess.PIPE,
                            timeout=240, check=False)
    same(result.returncode, 0, f"the browser: {result.stderr[-300:]}")
    return result.stdout.decode()


PARTS = (whole_page, as_wav, escaped, many, in_a_browser)
