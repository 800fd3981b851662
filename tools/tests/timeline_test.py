"""The test of tools/timeline.html: see the head of tools/tests/timeline."""
import base64
import glob
import json
import os
import re
import signal
import subprocess
import sys
import tempfile
import time

import timeline_made as made
from timeline_browser import Browser, BrowserError

ROOT = os.path.abspath(os.path.join(os.path.dirname(__file__), "..", ".."))
PAGE = os.path.join(ROOT, "tools", "timeline.html")
failures, passed = [], 0


def check(name, holds, note=""):
    global passed
    if holds:
        passed += 1
    else:
        failures.append(name)
        print(f"FAILED {name}: {note}", flush=True)


# ---- histories, and what their texts say: computed apart from the page

def replayed(program, folder, name, script, words=()):
    """The path of the whole output of a replay."""
    path = os.path.join(folder, name + ".history")
    with open(path, "wb") as out:
        status = subprocess.run([program, "replay", *words], input=script.encode(), stdout=out, stderr=subprocess.PIPE, check=False).returncode
    check(f"{name} is replayed", status in (0, 3), f"status {status}")
    return path


def read(path):
    with open(path, encoding="utf-8") as file:
        return file.read()


def facts_of(text):
    """What the text says: entries, refusals, lost answers, the writes of the summary and the final objects."""
    lines = text.split("\n")
    end = lines.index("end") if "end" in lines else len(lines)
    entries = [json.loads(l) for l in lines[1:end] if l.strip()]
    facts = {"entries": len(entries), "refused": sum("refused" in e["reply"] for e in entries), "lost": sum(not e["told"] for e in entries)}
    if "objects" in lines[end:]:
        begin = lines.index("objects", end)
        close = lines.index("summary", begin)
        facts["objects"] = sorted((json.loads(l) for l in lines[begin + 1:close]), key=lambda o: json.dumps(o, sort_keys=True))
        facts["writes"] = int(lines[close + 1].split()[1])
    return facts


# ---- the page

def opened(browser, *paths):
    """Gives files to the page as a user does, and waits until it has read them."""
    browser.open(PAGE)
    browser.give("#file", *paths)
    return waited(browser, os.path.basename(paths[0]))


def waited(browser, name, most=1200):
    begin = time.time()
    while time.time() - begin < most:
        state = browser.run(f"[view.history?.name === {json.dumps(name)}, find('error').textContent, find('progress').hidden]")
        if state[0] and state[2]:
            return time.time() - begin
        if state[1]:
            raise BrowserError(state[1])
        time.sleep(0.02)
    raise BrowserError(f"{name} was not read in {most} seconds")


# Each row is clicked; of each `by`th entry what its rule asks for is opened too.
CLICK_ALL = """(by => {
  let clicked = 0, wide = 0;
  view.level = 'all';
  layAll();
  for (const entry of view.history.entries) {
    pick(entry.at, true);
    drawRows();
    const row = document.getElementById('entry-' + (entry.at + 1));
    row.click();
    if (view.picked === entry.at && find('detail').querySelector('h2').textContent.startsWith('Entry ' + (entry.at + 1) + ' ')) clicked++;
    for (const box of entry.at % by ? [] : find('detail').querySelectorAll('details')) { box.open = true; box.ontoggle(); }
    if (/undefined|NaN|\\[object/.test(find('detail').textContent.replace(JSON.stringify(valueAt(view.history, entry.at).ask), ''))) wide++;
  }
  drawOver();
  for (const record of view.history.records) showObject(record.key);
  showOverview();
  const h = view.history, c = h.counts;
  return { entries: h.entries.length, clicked, wide, refused: c.refused, lost: c.lost, writes: h.version, objects: finalStore(h) };
})"""

# For each entry of a controller: is something of its rule wanting? And of Answer, for every entry.
ALL_EVIDENCE = """((upto, by) => {
  const h = view.history, wanting = [];
  for (let at = 0; at < upto; at += by) {
    const value = valueAt(h, at), rules = value.kind === 'User' ? ['Answer'] : ['Answer', 'Kind', ruleOf(value.kind, value.ask)];
    for (const rule of rules) if (!allFound(evidence(h, at, rule))) wanting.push((at + 1) + ' ' + rule + ': ' + evidence(h, at, rule).filter(f => f.found === false).map(f => f.text + ' ' + (f.note || '')).join('; '));
    if (value.kind !== 'User' && evidence(h, at, rules[2]).every(f => f.found === undefined)) wanting.push((at + 1) + ' nothing was looked at');
  }
  return wanting;
})"""


def test_history(browser, path, by=1):
    name, facts = os.path.basename(path), facts_of(read(path))
    opened(browser, path)
    said = browser.run(f"{CLICK_ALL}({by})")
    for word in ("entries", "refused", "lost"):
        check(f"{name}: {word}", said[word] == facts[word], f"{said[word]}, and the text has {facts[word]}")
    check(f"{name}: each entry is clicked", said["clicked"] == facts["entries"], said["clicked"])
    check(f"{name}: details have no hole", said["wide"] == 0, said["wide"])
    if "objects" in facts:
        have = sorted(said["objects"], key=lambda o: json.dumps(o, sort_keys=True))
        check(f"{name}: the fold of the replies is the objects of replay", have == facts["objects"], "they differ")
        check(f"{name}: writes", said["writes"] == facts["writes"], f"{said['writes']}, and the summary has {facts['writes']}")
        wanting = browser.run(f"{ALL_EVIDENCE}({facts['entries']}, {by})")
        check(f"{name}: the evidence of each entry is found", not wanting, wanting[:3])


def test_verdict(browser, folder, name, verdict):
    path = os.path.join(ROOT, "examples", "audits", name + ".history")
    opened(browser, path)
    browser.run(f"find('verdict').value = {json.dumps(verdict)}; find('verdict').onchange({{ target: find('verdict') }})")
    state = browser.run("({ picked: view.picked, box: find('evidence')?.textContent || '', wanting: document.querySelectorAll('#evidence .wanting').length, marked: (drawRows(), document.querySelectorAll('.row.verdict').length) })")
    found = re.match(r"no: entry (\d+) (\w+)", verdict)
    if not found:
        check(f"{name}: a yes marks nothing", not state["box"] and state["marked"] == 0, state)
        upto = facts_of(read(path))["entries"]
    else:
        upto = int(found[1]) - 1
        check(f"{name}: the verdict marks its entry", state["picked"] == upto and state["marked"] == 1, state["picked"])
        check(f"{name}: its evidence is listed, with what is wanting", state["box"] and found[2] in state["box"] and state["wanting"] > 0, state["box"])
    wanting = browser.run(f"{ALL_EVIDENCE}({upto}, 1)")
    check(f"{name}: before that nothing is wanting", not wanting, wanting[:3])


def test_rules(browser):
    """The page knows each rule that docs/RULES.md names."""
    named = set(re.findall(r"^\*\*(\w+)[.*]", read(os.path.join(ROOT, "docs", "RULES.md")), re.M)) | {"Answer"}
    named -= {"Told", "Newest", "After", "At", "Class", "Ended"}
    browser.open(PAGE)
    missing = sorted(named - set(browser.run("Object.keys(EVIDENCE)")))
    check("each rule of docs/RULES.md has its evidence", len(named) > 20 and not missing, missing)


def test_default_class(browser, folder):
    for told in (True, False):
        path = os.path.join(folder, f"default-class-{told}.history")
        with open(path, "w", encoding="utf-8") as out:
            out.write(made.default_class_history(told))
        opened(browser, path)
        facts = browser.run("evidence(view.history, 5, ruleOf('Binder', valueAt(view.history, 5).ask)).map(f => f.found)")
        check(f"DefaultClass, classes told: {told}", len(facts) == 8 and (False in facts) is not told and (all(facts) is told), facts)


def test_imports(browser, folder):
    path = os.path.join(folder, "imported.history")
    with open(path, "w", encoding="utf-8") as out:
        out.write(made.imported_history())
    test_history(browser, path)
    text = browser.run("find('detail').textContent")
    check("imports are shown", "Objects that stood from the start: 3" in text and browser.run("view.strips.filter(s => s.key).length") >= 3, text[:200])


def test_why(browser, program, folder):
    for name, script, words in (("pending", made.pending_script(), made.PENDING_WORDS), ("staying", made.staying_script(), made.STAYING_WORDS)):
        path = replayed(program, folder, name, script)
        test_history(browser, path)
        opened(browser, path)
        boxes = browser.run("[...find('detail').querySelectorAll('.box')].map(b => b.textContent)")
        for key, text in words.items():
            there = any(text in box and key in box for box in boxes)
            check(f"why, {name}: {key}", there, boxes)


def test_filter(browser, zones):
    opened(browser, zones)
    browser.run("find('about').value = 'claim c'; find('about').onchange()")
    keys = browser.run("[...view.about].map(id => showKey(view.history.keyNames[id])).sort()")
    check("a filter follows references", keys == ["claim c", "class late", "data data-1", "node n1", "pod p", "volume pvc-…4"], keys)
    rows = browser.run("view.rows.filter(at => at >= 0).map(at => at + 1)")
    check("a filter shows the calls about them", rows and set(rows) <= set(browser.run("view.history.entries.filter(e => e.keys.some(id => view.about.has(id))).map(e => e.at + 1)")), rows)
    browser.run("clearFilters()")
    check("no filter shows all again", browser.run("view.about === undefined && view.rows.filter(at => at >= 0).length") > len(rows), "")
    for level, least in (("acts", 30), ("news", 60), ("all", 229)):
        browser.run(f"find('level').value = '{level}'; find('level').onchange({{ target: find('level') }})")
        count = browser.run("view.rows.filter(at => at >= 0).length")
        check(f"the level {level} shows at least {least} calls", count >= least, count)


def test_keys(browser, zones):
    opened(browser, zones)
    steps = [("Home", 0), ("ArrowDown", 1), ("j", 2), ("k", 1), ("End", 228), ("Home", 0), ("r", 113), ("ArrowUp", 98)]
    for key, want in steps:
        browser.press(key)
        check(f"key {key}", browser.run("view.picked") == want, browser.run("view.picked"))
    browser.press("/")
    check("key /", browser.run("document.activeElement.id") == "about", "")
    browser.run("document.activeElement.blur()")
    browser.press("Escape")
    browser.press("o")
    check("key o", browser.run("find('detail').querySelector('h2').textContent") == "What is open at the end", "")
    browser.run("location.hash = '#144'")
    check("#144 is a link", browser.until("view.picked === 143"), browser.run("view.picked"))
    check("each number is a link", browser.run("drawRows() || document.querySelector('#entry-144 a').getAttribute('href')") == "#144", "")


def test_shapes(browser, mounted):
    opened(browser, mounted)
    drawn = browser.run("""(drawOver(), { paths: new Set([...find('picture').querySelectorAll('path[transform], .answer-lost > path:first-child')].map(p => p.getAttribute('d'))).size,
      hollow: find('picture').querySelectorAll('.answer-lost').length, flags: [...find('picture').querySelectorAll('path')].filter(p => /l6,3l-6,3Z/.test(p.getAttribute('d'))).length,
      lanes: view.lanes.map(l => l.label), bars: [...find('picture').querySelectorAll('text')].map(t => t.textContent) })""")
    check("calls are told apart by their shape", drawn["paths"] >= 4, drawn["paths"])
    check("a lost answer is hollow", drawn["hollow"] == 1, drawn["hollow"])
    check("a restart has a mark, in the lane of its actor", drawn["flags"] == 1 and "Agent of n1 (6, 7)" in drawn["lanes"], drawn["lanes"])
    check("nodes show epochs and mounts", any(t.startswith("epoch 2, 1 mounted") for t in drawn["bars"]), drawn["bars"])
    opened(browser, mounted, os.path.join(ROOT, "examples", "mounted-claim.script"))
    browser.until("view.lanes.some(l => l.name)")
    lanes = browser.run("view.lanes.map(l => [l.label, l.seats.length])")
    check("a script beside the history names the actors", ["agent-n1", 2] in lanes and ["binder (drain)", 1] in lanes, lanes)


def test_saved(browser, folder, path):
    text = read(path)
    opened(browser, path)
    browser.run("takeVerdict('no: entry 120 Erase', true)")
    browser.call("Browser.setDownloadBehavior", behavior="allow", downloadPath=folder)
    browser.run("save()")
    saved = os.path.join(folder, "erase.html")
    for _ in range(1200):
        if os.path.exists(saved) and not glob.glob(os.path.join(folder, "*.crdownload")):
            break
        time.sleep(0.1)
    check("a button saves the page", os.path.exists(saved), os.listdir(folder))
    browser.open(saved)
    waited(browser, "erase.history")
    state = browser.run("({ entries: view.history.entries.length, picked: view.picked, verdict: find('verdict').value, line: view.history.entries[0].line, text: decoder.decode(view.history.bytes) })")
    check("the saved page has the history in it, and the verdict", (state["entries"], state["picked"], state["verdict"], state["line"]) == (120, 119, "no: entry 120 Erase", 2), state["entries"])
    check("and the same text", state["text"] == "no: entry 120 Erase\n" + text, "they differ")
    again = browser.run("savedPage().text()")
    check("a saved page saves itself again", again == read(saved), "they differ")


def test_compare(browser, folder, path):
    lines = read(path).split("\n")
    changed = os.path.join(folder, "changed.history")
    with open(changed, "w", encoding="utf-8") as out:
        out.write("\n".join(lines[:30] + [lines[30].replace('"told":true', '"told":false')] + lines[31:]))
    opened(browser, path)
    for other, words in ((changed, "the first difference is at entry 30."), (path, "They are the same: 120 entries.")):
        browser.give("#other-file", other)
        browser.until(f"find('compare').textContent.includes({json.dumps(words)})", 60)
        text = browser.run("find('compare').textContent")
        check(f"two histories: {words}", words in text and ("told" in text or other == path), text[:200])
    browser.run("[...find('compare').querySelectorAll('button')].pop().click()")
    check("and back", browser.run("!find('main').hidden && find('compare').hidden"), "")


def test_ways_in(browser, path):
    """Pasted, dropped, wrong and cut texts."""
    text = read(path)
    browser.open(PAGE)
    browser.run(f"find('paste').value = {json.dumps(text)}; find('paste').oninput({{ target: find('paste') }})")
    waited(browser, "pasted history")
    check("a pasted history is shown", browser.run("view.history.entries.length") == facts_of(text)["entries"], "")
    browser.open(PAGE)
    browser.run(f"(() => {{ const data = new DataTransfer(); data.items.add(new File([{json.dumps(text)}], 'dropped.history')); document.ondrop(new DragEvent('drop', {{ dataTransfer: data }})); }})()")
    waited(browser, "dropped.history")
    check("a dropped history is shown", browser.run("view.history.entries.length") == facts_of(text)["entries"], "")
    for name, wrong, words in (("YAML", "kind: Pod\nname: p\n", "is not JSON"), ("no text", " \n", "no setup line"), ("a script", '{"do":"drain"}\n', "This is a script"),
                               ("a list", '{"kind":"List"}\n', "neither a setup line"), ("a broken entry", text[:4000], "is not JSON"), ("an entry without reply", text.split("\n")[0] + '\n{"ask":{}}\n', "is no entry")):
        browser.open(PAGE)
        browser.run(f"open(new Blob([{json.dumps(wrong)}]), 'wrong')")
        check(f"{name} is an error line", words in browser.run("find('error').textContent"), browser.run("find('error').textContent"))
    cut = "\n".join(text.split("\n")[:20]) + "\n"
    browser.open(PAGE)
    browser.run(f"open(new Blob([{json.dumps(cut)}]), 'cut')")
    check("a history without its end is shown, and said to be cut", "cut off" in browser.run("find('title').textContent"), "")
    browser.open(PAGE)
    browser.run(f"open(new Blob(['\\n' + {json.dumps(text)}.replace(/\\n/g, '\\r\\n')]), 'windows')")
    check("carriage returns do no harm", browser.run("view.history?.entries.length") == facts_of(text)["entries"], "")


def test_face(browser, path):
    text = read(PAGE)
    check("the page has its own policy", "content=\"default-src 'none'; style-src 'unsafe-inline'; script-src 'unsafe-inline'" in text, "")
    check("nothing of it names another address", not re.search(r"(src|href)=\"?(https?:)?//", text), "")
    browser.call("Network.enable")
    opened(browser, path)
    asked = [about["request"]["url"] for name, about in browser.events if name == "Network.requestWillBeSent"]
    check("it asks for nothing but itself", all(url.startswith(("file://", "blob:")) for url in asked), asked)
    check("it says that it is not proved and judges nothing", "not proved and judges nothing" in browser.run("find('notice').innerText"), "")
    held = len(browser.errors)
    check("its policy refuses the network", browser.run("fetch('https://example.com/').then(() => 'sent', () => 'refused')") == "refused", "")
    del browser.errors[held:]
    paper = browser.paper()
    check("it can be printed", paper.startswith(b"%PDF") and len(paper) > 20000, len(paper))
    browser.call("Emulation.setEmulatedMedia", media="print")
    browser.run("layPaper()")
    check("on paper the calls stand whole", browser.run("find('paper').querySelectorAll('.row').length === view.rows.length && getComputedStyle(find('tools')).display === 'none'"), "")
    browser.call("Emulation.setEmulatedMedia", media="")


def test_opening(browser, program, folder):
    """A history that begins with imports opens at the first call of a user, with the rows that changed."""
    script = read(os.path.join(ROOT, "examples", "cluster", "cluster.script"))
    delete = made.line(do="delete", kind="PersistentVolumeClaim", namespace="shop", name="cache")
    path = replayed(program, folder, "opening", script + made.line(do="drain") + delete)
    opened(browser, path)
    entries = [json.loads(line) for line in read(path).split("\nend\n")[0].split("\n")[1:]]
    first = next(at for at, entry in enumerate(entries) if entry["kind"] == "User")
    check("it opens at the first call of a user", browser.run("view.picked") == first, browser.run("view.picked"))
    seen = browser.run("[find('list').scrollTop, rowOf(view.picked) * ROW, find('list').clientHeight]")
    check("and that call is seen", seen[0] <= seen[1] <= seen[0] + seen[2], seen)
    keys = browser.run("view.strips.filter(s => s.key).map(s => showKey(s.key))")
    check("with the rows that changed", sorted(keys) == ["claim shop/cache", "volume pvc-eeab2ceb…"], keys)
    check("and what is open in words", browser.run("find('detail').querySelector('h2').textContent") == "What is open at the end", "")
    browser.run("find('unchanged').click()")
    check("a box shows the others", browser.run("view.strips.filter(s => s.key).length") >= 20, browser.run("view.strips.length"))
    check("a history without imports has no such box", (opened(browser, os.path.join(ROOT, "examples", "audits", "erase.history")), browser.run("find('unchanged').parentElement.hidden"))[1], "")


def test_map(browser, zones):
    """The overview fits the window, and its frame moves what is shown."""
    opened(browser, zones)
    browser.run("view.zoom = 8; layAll(); drawOver(); drawFrame()")
    state = browser.run("({ width: find('map').clientWidth, picture: Number(find('map').firstElementChild.getAttribute('width')), whole: view.rows.length * view.width, frame: Number(find('frame').getAttribute('width')) })")
    check("the whole history has the width of the window", state["picture"] == state["width"] < state["whole"], state)
    check("the frame is the part that is shown", 4 <= state["frame"] < state["width"] / 2, state)
    marks = browser.run("['user', 'write', 'device', 'bad'].map(name => (find('map').querySelector('.map-' + name).getAttribute('d').match(/M/g) || []).length)")
    check("it has users' calls, writes, devices and refusals", all(marks), marks)
    moved = browser.run("""(() => { const box = find('map').getBoundingClientRect(), send = (kind, x, buttons) => find('map')[kind]({ clientX: x, pointerId: 1, buttons });
      find('map').setPointerCapture = () => {}; const places = []; for (const share of [0.9, 0.1, 0.5]) { send(share === 0.9 ? 'onpointerdown' : 'onpointermove', box.left + box.width * share, 1); drawFrame(); places.push([find('over').scrollLeft, find('list').scrollTop, Number(find('frame').getAttribute('x'))]); } return places; })()""")
    check("the frame moves lanes and list", moved[0] > moved[2] > moved[1] and moved[0][1] > moved[1][1] and moved[0][2] > moved[1][2], moved)


def test_red(browser, mounted, zones):
    """Red is what was refused or lost, and nothing else; a lost answer is drawn above the others."""
    for path in (mounted, zones):
        opened(browser, path)
        browser.run("find('level').value = 'all'; find('level').onchange({ target: find('level') }); view.zoom = 0.4; layAll(); drawOver()")
        state = browser.run("""({ red: [...find('picture').querySelectorAll('[fill="var(--bad)"]')].length, lost: find('picture').querySelectorAll('.answer-lost').length,
          refused: view.history.entries.filter(e => e.shape === 'refused' && e.told).length, unheard: view.history.entries.filter(e => !e.told).length,
          reads: view.history.entries.filter(e => e.shape === 'refused' && e.verb === 'get').length, stroke: find('picture').querySelector('.answer-lost path')?.getAttribute('stroke'),
          seen: view.rows.length * view.width <= find('over').clientWidth - LABEL })""")
        name = os.path.basename(path)
        check(f"{name}: red signs are the refused calls", state["red"] <= state["refused"] and (not state["seen"] or state["red"] == state["refused"]), state)
        check(f"{name}: each lost answer is red", state["lost"] <= state["unheard"] and (state["unheard"] == 0 or state["stroke"] == "var(--bad)"), state)
        check(f"{name}: a read that finds nothing is no refusal", state["reads"] == 0, state)
    bars = browser.run("Object.values(STATE).map(s => s[0])")
    reds = [one for one in bars if int(one[1:3], 16) > int(one[3:5], 16) + 50 and int(one[1:3], 16) > int(one[5:7], 16) + 50]
    check("no bar is red", not reds, reds)


def test_legend(browser, mounted):
    """The legend's colours are those drawn."""
    opened(browser, mounted)
    state = browser.run("""(() => { const rows = [...find('legend').children].map(span => ({ text: span.textContent, fills: [...span.querySelectorAll('rect, path')].map(x => x.getAttribute('fill')), strokes: [...span.querySelectorAll('path')].map(x => x.getAttribute('stroke')) }));
      const lost = (drawOver(), find('picture').querySelector('.answer-lost')); return { rows, state: STATE, colour: COLOUR, going: document.getElementById('going').firstElementChild.getAttribute('stroke'), lost: lost && [...lost.children].map(x => x.getAttribute('stroke')) }; })()""")
    by_text = {row["text"]: row for row in state["rows"]}
    for name in ("Pending", "Available", "Bound", "Released", "Failed"):
        row = next(row for text, row in by_text.items() if text.startswith(name))
        check(f"legend: {name}", row["fills"][0] == state["state"][name][0], row)
    for text, form in (("a user’s write", "user"), ("a controller’s write", "write"), ("refused", "refused")):
        check(f"legend: {text}", by_text[text]["fills"] == [state["colour"][form]], by_text[text])
    going = by_text["brown stripes: to go"]
    red, green, blue = (int(state["going"][at:at + 2], 16) for at in (1, 3, 5))
    check("legend: brown is brown", "url(#going)" in going["fills"] and len(state["going"]) == 7 and red > green > blue and red - blue > 60, [going, state["going"]])
    lost = next(row for text, row in by_text.items() if "lost" in text and "hollow" in text)
    check("legend: a lost answer", lost["strokes"] == state["lost"] == [state["colour"]["lost"]] * 2, [lost, state["lost"]])


def test_labels(browser):
    """Labels that are cut keep what tells them apart."""
    browser.open(PAGE)
    sets = [["claim team-with-a-long-name/data-of-some-application-%d" % n for n in range(120)], ["volume pvc-of-a-very-long-name-%03d-in-the-second-zone" % n for n in range(200)],
            ["claim a/%sx%s" % ("b" * n, "c" * (60 - n)) for n in range(50)], ["pod p", "pod q", "Agent of a-node-with-a-long-name-1 (7)", "Agent of a-node-with-a-long-name-2 (8)"]]
    for names in sets:
        shown = browser.run(f"[...labelsApart({json.dumps(names)}, MOST_LABEL).values()]")
        check(f"{len(names)} labels as {shown[0]}", len(set(shown)) == len(names) and max(map(len, shown)) <= 26, sorted(shown)[:6])


def test_causes(browser, program, folder):
    """Why a claim is Pending, counted by cause, with the nearest volumes first."""
    path = replayed(program, folder, "causes", made.causes_script())
    opened(browser, path)
    rows = browser.run("[...[...find('detail').querySelectorAll('.box')].find(b => b.textContent.startsWith('Why claim c is Pending')).querySelectorAll('tr')].map(r => r.textContent)")
    volumes = [row for row in rows if row.startswith("volume")]
    check("why: few rows for 40 volumes", len(volumes) <= 3 + 3, rows)
    check("why: the volume of the claim's name is first", volumes and volumes[0].startswith("volume againis for another claim: claim c"), volumes[:1])
    check("why: causes are counted", any("21 volumes: each has another class" in row for row in volumes) and any("volumes: each is too small" in row for row in volumes), volumes)


def test_side(browser, first):
    """An extended run: its side has a row of its own, with each entry at the call that it came after."""
    lines = read(first).split("\n")
    at, claim = lines.index("end") + 1, {"kind": "PersistentVolumeClaim", "metadata": {"name": "d", "namespace": "shop"}}
    sides = [{"after": 2, "ask": {"do": "create", "object": claim}, "reply": {"limit": 7, "refused": "OverBytes", "used": 5}},
             {"after": 2, "ask": {"bytes": 9, "do": "grow", "name": "c", "namespace": "shop"}, "reply": {"done": True}},
             {"after": 3, "ask": {"do": "data", "kind": "PersistentVolumeClaim", "name": "c", "namespace": "shop"}, "reply": {"bytes": 9}}]
    text = [*lines[:at], "side", *map(json.dumps, sides), "end side", "size shop/c asked 9 given 9 volume 9 data 9", *lines[at:]]
    browser.open(PAGE)
    browser.run(f"open(new Blob([{json.dumps(chr(10).join(text))}]), 'side')")
    waited(browser, "side")
    found = browser.run("""(drawOver(), { strips: view.strips.filter(s => s.sides).length, sizes: view.history.sizes.length, labels: [...find('picture').querySelectorAll('text')].map(t => t.textContent),
      tip: tipWords({ strip: view.strips.find(s => s.sides), row: sideRow(view.history.sides[0]) }), summary: view.history.summary.length })""")
    check("the side has a row of its own", found["strips"] == 1 and "side" in found["labels"] and found["sizes"] == 1 and found["summary"] >= 7, found)
    check("it says what was held back and what grew", all(word in found["tip"] for word in ("create PersistentVolumeClaim shop/d → OverBytes, used 5, limit 7", "grow PersistentVolumeClaim shop/c to 9 bytes → done")), found["tip"])
    browser.open(PAGE)
    browser.run(f"open(new Blob([{json.dumps(chr(10).join([*lines[:at], 'side', '{}']))}]), 'odd')")
    browser.until("find('error').textContent", 60)
    check("an odd side is an error line", "is no entry of a side" in browser.run("find('error').textContent"))


def test_odd(browser, first):
    """Words that JavaScript has in each object, values of thousands of levels, and lists of kubectl."""
    lines = read(first).split("\n")
    deep = lines[1].replace('"told":true', '"told":true,"x":' + "[" * 9000 + "]" * 9000)
    entry = json.loads(lines[1])
    refused = json.dumps({**entry, "reply": {"refused": "constructor"}})
    for name, text, words in (("do valueOf", [lines[0], lines[1].replace('"do":"create"', '"do":"valueOf"')], "is no entry of a history"),
                              ("do hasOwnProperty", [lines[0], lines[1].replace('"do":"create"', '"do":"hasOwnProperty"')], "is no entry of a history"),
                              ("a value 9,000 deep", [lines[0], deep], "nests too deep"),
                              ("a list of kubectl", json.dumps({"apiVersion": "v1", "kind": "List", "items": []}, indent=4).split("\n"), "tools/from-cluster < odd")):
        browser.open(PAGE)
        browser.run(f"open(new Blob([{json.dumps(chr(10).join(text))}]), 'odd')")
        browser.until("find('error').textContent", 60)
        check(f"{name} is an error line", words in browser.run("find('error').textContent"), browser.run("find('error').textContent"))
    browser.open(PAGE)
    browser.run(f"open(new Blob([{json.dumps(chr(10).join([lines[0], refused]))}]), 'odd')")
    waited(browser, "odd")
    browser.run("pick(0); takeVerdict('no: entry 1 valueOf', true)")
    text = browser.run("find('detail').textContent")
    check("an unknown refusal and an unknown rule are said as they are", "constructor" in text and "knows no rule of this name" in text and "[object" not in text, text[:300])


SCROLL = """((what) => {
  const list = find('list'), over = find('over');
  for (let i = 0; i <= 20; i++) {
    if (what === 'down') { list.scrollTop = list.scrollHeight * i / 20; drawRows(); list.offsetHeight; }
    if (what === 'across') { over.scrollLeft = over.scrollWidth * i / 20; drawOver(); over.offsetHeight; }
    if (what === 'click') { pick(Math.floor((view.history.entries.length - 1) * i / 20), true); drawRows(); drawOver(); }
    if (what === 'filter') { view.about = i % 2 ? related(view.history, i) : undefined; layAll(); drawRows(); drawOver(); }
  }
})"""


def test_scale(browser, folder, name, entries, size, most):
    """Bounds are in seconds of processor of the page, so that they say the same on a busy machine."""
    path = os.path.join(folder, name + ".history")
    made.long_history(path, entries, size)
    mebibytes = os.path.getsize(path) / 2 ** 20
    browser.open(PAGE)
    before = browser.processor()
    took = opened(browser, path)
    read_in = browser.processor() - before
    browser.run("find('level').value = 'all'; find('level').onchange({ target: find('level') })")
    check(f"{name}: all entries are there", browser.run("view.history.entries.length === view.rows.length && view.rows.length") == entries, "")
    each = {}
    for what in ("down", "across", "click", "filter"):
        before = browser.processor()
        browser.run(f"{SCROLL}('{what}')")
        each[what] = (browser.processor() - before) / 21
    elements = browser.run("document.querySelectorAll('*').length")
    print(f"{name}: {entries} entries, {mebibytes:.0f} MiB: read in {took:.1f} s, {read_in:.1f} s of processor; in ms of processor each a scroll down "
          f"{each['down'] * 1000:.0f}, across {each['across'] * 1000:.0f}, a click {each['click'] * 1000:.0f}, a filter {each['filter'] * 1000:.0f}; {elements} elements", flush=True)
    check(f"{name}: read in {most} s of processor", read_in <= most, read_in)
    check(f"{name}: scrolls, clicks and filters in half a second each", max(each.values()) < 0.5, each)
    check(f"{name}: only what is seen is drawn", elements < 6000, elements)
    os.remove(path)


def main():
    signal.signal(signal.SIGTERM, lambda *_: sys.exit(1))
    program, extra = os.path.abspath(sys.argv[1]), sys.argv[2:]
    begin = time.time()
    with tempfile.TemporaryDirectory(prefix="timeline-") as folder:
        browser = Browser()
        try:
            run_all(browser, program, folder, extra)
        finally:
            browser.close()
    print(f"{passed} held, {len(failures)} failed, {time.time() - begin:.0f} s")
    return 1 if failures else 0


def run_all(browser, program, folder, extra):
    audits = os.path.join(ROOT, "examples", "audits")
    replays = [replayed(program, folder, os.path.basename(s)[:-7], read(s)) for s in sorted(glob.glob(os.path.join(ROOT, "examples", "*.script")))]
    for path in replays + extra + sorted(glob.glob(os.path.join(audits, "*.history"))):
        test_history(browser, path)
    for line in read(os.path.join(audits, "verdicts")).splitlines():
        test_verdict(browser, folder, *line.split(": ", 1))
    of = {os.path.basename(p)[:-8]: p for p in replays}
    test_rules(browser)
    test_default_class(browser, folder)
    test_imports(browser, folder)
    test_why(browser, program, folder)
    test_filter(browser, of["two-zones"])
    test_keys(browser, of["two-zones"])
    test_shapes(browser, of["mounted-claim"])
    test_red(browser, of["mounted-claim"], of["two-zones"])
    test_legend(browser, of["mounted-claim"])
    test_labels(browser)
    test_map(browser, of["two-zones"])
    test_opening(browser, program, folder)
    test_causes(browser, program, folder)
    test_side(browser, of["first"])
    test_odd(browser, of["first"])
    erase = os.path.join(audits, "erase.history")
    test_saved(browser, folder, erase)
    test_compare(browser, folder, erase)
    test_ways_in(browser, of["first"])
    test_face(browser, of["two-zones"])
    large = replayed(program, folder, "large", made.large_script(), ("--budget", "400000"))
    print(f"large: {facts_of(read(large))['entries']} entries, {os.path.getsize(large) / 1e6:.1f} MB", flush=True)
    test_history(browser, large, by=9)
    test_scale(browser, folder, "many entries", 100000, 60 << 20, 40)
    test_scale(browser, folder, "many bytes", 100000, 255 << 20, 90)
    check("no error on the way", not browser.errors, browser.errors[:5])


if __name__ == "__main__":
    sys.exit(main())
