"""How long the page pauses: the longest time in which it takes nothing that is typed, against what the machine can do at the moment."""

# so many milliseconds a table takes to be built and drawn where nothing else is done
USUAL = 10
MOST = 100

# does something, and waits until something else is true and nothing moves any more; answers the longest pause, the longest in the same time
# with nothing to do, and how long a table took to be built and drawn
MEASURE = """const [done] = arguments;
    const change = () => { %s };
    const until = () => %s;
    const table = () => {
        const begun = performance.now();
        const made = document.createElement('table');
        for (let row = 0; row < 60; row += 1) {
            const line = made.insertRow();
            for (let cell = 0; cell < 6; cell += 1) line.insertCell().textContent = `${row} ${cell}`;
            line.insertCell().append(document.createElement('input'));
        }
        document.body.append(made);
        made.offsetHeight;
        made.remove();
        return performance.now() - begun;
    };
    const longest = (ends) => new Promise(told => {
        const { port1, port2 } = new MessageChannel();
        const begun = performance.now();
        let [last, most, moved] = [begun, 0, begun];
        port1.onmessage = () => {
            const now = performance.now();
            if (now - last > 100) moved = now;
            most = Math.max(most, now - last);
            last = now;
            if (ends(now - begun, now - moved)) told([most, now - begun]);
            else port2.postMessage(0);
        };
        port2.postMessage(0);
    });
    (async () => {
        const watched = longest((all, quiet) => all > 20_000 || (quiet > 250 && until()));
        await new Promise(begun => setTimeout(begun));
        change();
        const [pause, time] = await watched;
        if (!until()) return done(null);
        const calm = Math.min(time, 1_000);
        const [idle] = await longest(all => all > calm);
        const tables = Array.from({ length: 15 }, table).sort((a, b) => a - b);
        done([pause, idle, tables[7]]);
    })();"""


def pause(browser, act, until="true"):
    """The longest pause, and how long one may be now."""
    found = browser.ask("POST", "/execute/async", {"script": MEASURE % (act, until), "args": []})
    assert found, f"{act}: it has no end"
    longest, idle, table = found
    return longest, MOST * max(1, table / USUAL) + idle, table


def short(browser, name, act, until="true", again=None, tries=3):
    """Sees that something is done without a long pause: the shortest of some tries counts, as the machine does other things too.
    `again` undoes it before the next try. Returns the pause as it would be where nothing else is done."""
    found = []
    while True:
        found.append(pause(browser, act, until))
        longest, most, _ = min(found, key=lambda it: it[0] / it[1])
        if longest <= most:
            return longest * MOST / most
        assert len(found) < tries, f"{name}: pauses of " + ", ".join(f"{a:.0f} ms where {b:.0f} are right" for a, b, _ in found)
        if again:
            pause(browser, again)
