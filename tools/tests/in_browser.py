"""Looks at pages of runs in Chromium without a window, and compares what their DOM has with what the examples say.

usage: python3 in_browser.py CHROMIUM     in tools/tests; prints each fault, and nothing where there is none
"""

import subprocess
import sys
import tempfile
from html.parser import HTMLParser
from pathlib import Path

TOOLS = Path(__file__).resolve().parent.parent
sys.dont_write_bytecode = True
sys.path.insert(0, str(TOOLS))

from fabrics import RNG, fat_tree, mapped  # noqa: E402
from fabtools import fabric as fabrics  # noqa: E402
from fabtools import inputs  # noqa: E402

EXAMPLES = TOOLS.parent / "examples"
LOOKS = ("fat-tree", "torus", "room")
HOSTS_A_LEAF = 8
FLAGS = ("--headless", "--no-sandbox", "--disable-gpu", "--virtual-time-budget=4000", "--host-resolver-rules=MAP * ~NOTFOUND")


class Dom(HTMLParser):
    """The elements of a page with their attributes, and the text in each that has an id."""

    def __init__(self, text):
        super().__init__(convert_charrefs=True)
        self.found, self.texts, self.within = [], {}, []
        self.feed(text)

    def handle_starttag(self, tag, attributes):
        attributes = dict(attributes)
        self.found.append((tag, attributes))
        if tag not in ("meta", "input", "br"):
            self.within.append((tag, attributes.get("id")))

    def handle_endtag(self, tag):
        while self.within and self.within.pop()[0] != tag:
            pass

    def handle_data(self, text):
        for _, name in self.within:
            if name:
                self.texts[name] = self.texts.get(name, "") + text

    def of(self, tag, looks=None):
        return [it for name, it in self.found if name == tag and (looks is None or looks in it.get("class", "").split())]


# What a hand does with mouse and keys, and what is there after each: the page is asked by a script behind its own.
HAND = """<script>
const tried = [];
const press = (it, key) => it.dispatchEvent(new KeyboardEvent("keydown", { key, bubbles: true, cancelable: true }));
const click = (id) => at(id).dispatchEvent(new MouseEvent("click", { bubbles: true }));
const open = () => [...document.querySelectorAll("details[open]")].map((it) => it.id).join(" ");
click("c5"); tried.push(open());
click("c6"); tried.push(open());
const first = document.querySelector("summary");
first.focus(); press(first, "ArrowDown"); tried.push(document.activeElement === document.querySelectorAll("summary")[1]);
click("v_h2"); click("v_h9"); tried.push(at("from").value + " " + at("to").value);
at("swap").click(); tried.push(at("from").value + " " + at("to").value);
at("loads").click(); tried.push(at("c0").querySelector(".wire").style.stroke);
at("ports").click(); tried.push(at("fabric").className);
at("theme").click(); tried.push(document.documentElement.dataset.theme);
at("kinds").firstChild.click(); tried.push(at("events").children.length);
at("zoom").children[1].click(); tried.push(at("fabric").style.getPropertyValue("--zoom"));
// What the pointer is at stays there under the wheel, and moves along with a drag, which is no click.
const box = (id) => at(id).querySelector("rect").getBoundingClientRect();
const place = (id) => [box(id).left + box(id).width / 2, box(id).top + box(id).height / 2];
const near = (one, other, by) => Math.hypot(one[0] + by[0] - other[0], one[1] + by[1] - other[1]) < 3;
const mouse = (it, name, [clientX, clientY]) => it.dispatchEvent(
  new PointerEvent(name, { clientX, clientY, button: 0, pointerType: "mouse", bubbles: true, cancelable: true }));
const stage = at("fabric");
const [was, host] = [place("v_h9"), at("v_h9")];
stage.dispatchEvent(new WheelEvent("wheel", { clientX: was[0], clientY: was[1], deltaY: -400, bubbles: true, cancelable: true }));
tried.push(near(was, place("v_h9"), [0, 0]));
mouse(host, "pointerdown", was); mouse(host, "pointermove", [was[0] - 40, was[1] + 30]); mouse(host, "pointerup", was); click("v_h9");
tried.push(near(was, place("v_h9"), [-40, 30]) + " " + at("from").value);
at("find").value = "leaf"; at("find").dispatchEvent(new Event("input")); press(at("find"), "Enter");
tried.push(at("matches").textContent + " " + document.querySelectorAll(".vertex.found").length);
// Tab reaches one item of each list; the pairs of an open cable are aside of it.
const stops = (id) => [...at(id).querySelectorAll("summary, button, li")].filter((it) => it.tabIndex >= 0).length;
at("zoom").children[2].click();
setTimeout(() => {
  tried.push(stops("cables") + " " + stops("events"));
  document.querySelector("details[open] summary").focus(); press(document.activeElement, "ArrowRight");
  tried.push(document.activeElement.textContent, location.hash);
  press(document.body, "Escape"); tried.push(open()); document.body.dataset.tried = tried.join("|");
}, 50);
</script>"""
DONE = (
    "d5|d6|true|h2 h9|h9 h2||no-ports|light|0|1.4|true|true h9|4 4|1 0|h6 › h0|"
    "#from=h9&to=h2&cable=h6:0&find=leaf&loads=no&ports=no&lines=&theme=light|"
)


def by_hand(chromium, folder):
    """What is wrong with the page of the fat tree in use."""
    page = Path(folder) / "used.html"
    page.write_text((Path(folder) / "fat-tree.html").read_text().replace("</body>", HAND + "</body>"))
    tried = dom(chromium, page, "theme=dark").of("body")[0].get("data-tried")
    if tried != DONE:
        yield f"page of fat-tree in use: {tried} in place of {DONE}"


def dom(chromium, page, choice):
    ran = subprocess.run([chromium, *FLAGS, "--dump-dom", f"file://{page}#{choice}"], capture_output=True, text=True, timeout=600)
    return Dom(ran.stdout)


def turns(a, b):
    """The turns of a route of the large fabric between hosts of these numbers, by spine0 where they stand at two leaves."""
    (leaf, port), (to_leaf, to_port) = divmod(a, HOSTS_A_LEAF), divmod(b, HOSTS_A_LEAF)
    way = [to_port - port] if leaf == to_leaf else [HOSTS_A_LEAF - port, to_leaf - leaf, to_port - HOSTS_A_LEAF]
    return " ".join(f"{it:+}" for it in way)


def write_large(folder):
    """A fabric of as many hosts as there may be, and a report of its map and its 16,256 routes."""
    fabric = fat_tree(leaves=16, spines=8, hosts=HOSTS_A_LEAF)
    shown = mapped(fabric, "h0", RNG)
    lines = ["map h0 complete asks 0 packets 0"]
    lines += [f"switch {it} core" if it.startswith("#") else f"host {it}" for it in shown.vertices]
    lines += [f"cable {v} {p:+} {w} {q:+}".replace("+0", "0") for (v, p), (w, q) in shown.cables]
    hosts = range(len(fabric.hosts))
    routes = [f"route h{a} h{b} {turns(a, b)}" for a in hosts for b in hosts if a != b]
    lines += ["endmap", f"routes {len(routes)}", *routes, "endroutes", "end injected 0 dropped 0"]
    (folder / "large.in").write_text(fabric.text() + "map h0 32 1\nroutes\nend\n")
    (folder / "large.out").write_text("".join(f"{it}\n" for it in lines))


def faults(chromium, name, examples, folder):
    report = (examples / f"{name}.out").read_text()
    page = Path(folder) / f"{name}.html"
    page.write_text(subprocess.run([TOOLS / "page", examples / f"{name}.in", examples / f"{name}.out"], capture_output=True, text=True, check=True).stdout)
    run = inputs.run(examples / f"{name}.in", examples / f"{name}.out")
    loads = run.loads()
    busiest = max(loads, key=lambda it: (loads[it], it))
    cable = next(at for at, it in enumerate(run.fabric.cables) if set(it) == set(busiest))
    a, b = run.fabric.hosts[0], run.fabric.hosts[-1]
    seen = dom(chromium, page, f"from={a}&to={b}&cable={busiest[0][0]}:{busiest[0][1]}&theme=dark")
    way = run.way(a, b)
    pairs = sum(busiest in it or busiest[::-1] in it for it in (fabrics.follow(run.fabric, s, t)[0] for s, _, t in run.routes))
    over = [it for it in seen.of("path") if "marker-end" in it]
    wanted = {
        "the code ran to its end": (seen.of("body")[0].get("data-ready"), "yes"),
        "it is dark where that is asked": (seen.of("html")[0].get("data-theme"), "dark"),
        "a host to choose for each host, twice": (len(seen.of("option")), 2 * len(run.fabric.hosts)),
        "a box for each vertex": (len(seen.of("g", "vertex")), len(run.fabric.vertices())),
        "a line for each cable": (len(seen.of("path", "wire")), len(run.fabric.cables)),
        "each cable in the list": (len(seen.of("details")), len(run.fabric.cables)),
        "an arrow for each cable of the route": (len(over), len(way)),
        "the route's ports": (seen.texts["way"], f"{len(way)} cables: " + " ".join(f"{p[0]}:{p[1]}>{q[0]}:{q[1]}" for p, q in way)),
        "the chosen cable is open": ([it.get("id") for it in seen.of("details") if "open" in it], [f"d{cable}"]),
        "a button for each pair over it": (sum(" › " in it for it in pieces(seen.texts["cables"])), pairs),
        "the map's name of each switch": (all(f"#{it}" in seen.texts["fabric"] for it in range(len(run.fabric.switches))), True),
        "the report": (seen.texts["report"], report),
    }
    for what, (got, meant) in wanted.items():
        if got != meant:
            yield f"page of {name}: {what}: {str(got)[:200]} in place of {str(meant)[:200]}"


def pieces(text):
    """The pairs of a text in which they stand one after another, as `h0 › h1h0 › h2`."""
    return [f" › {it}" for it in text.split(" › ")[1:]]


def main(words):
    with tempfile.TemporaryDirectory(prefix="pages-") as folder:
        write_large(Path(folder))
        for name, where in [*((it, EXAMPLES) for it in LOOKS), ("large", Path(folder))]:
            for it in faults(words[0], name, where, folder):
                print(it)
        for it in by_hand(words[0], folder):
            print(it)


if __name__ == "__main__":
    main(sys.argv[1:])
