"""Whether each trial of the page can fail: in a copy of the page a bug is planted, and the trial has to find it. The last line
is `N found, M not found`.

    python3 -m tests.page.planted PROGRAM [NAME]"""
import os
import shutil
import subprocess
import sys
import tempfile

from tests.harness.tree import ROOT

# what a trial stands on, beside the program
COPIED = ("page", "tests", "examples", "docs")

# a live region that comes with its words, so that a screen reader may not say them
REGION = 'said.append(element("b", { role: "status" }, phrases.entry.marked));'

# a trial, the file, a text that stands in it once, and what is there instead; and the browser that shows it, if Chromium does not
BUGS = [
    ("functions of the page", "edi/identifiers.js", "place % 2 ? 1 : 3", "place % 2 ? 3 : 1"),
    ("references", "edi/references.js", "(counter + 1) % COUNTED", "(counter + 1) % 2"),
    ("words of codes", "hub/codes.js", "  B12: {", "  B21: {"),
    ("make page", "examples/page/proxy.py", "script-src 'self'", "script-src *"),
    ("make page", "examples/page/try.py", "with tempfile.TemporaryDirectory() as folder:", "if folder := tempfile.mkdtemp():"),
    ("the examples as show reads them", "edi/receipt.js", '["194", "195", "196"]', '["194", "196", "195"]'),
    ("the cases of show", "edi/message.js", "quantity <= GREATEST", "quantity >= 0"),
    ("made interchanges", "edi/response.js", "!line || !answer || named === null ||", "!line || !answer ||"),
    ("what the page writes", "edi/segments.js", "/[?'+:]/g", "/['+:]/g"),
    ("a day", "edi/envelope.js", 'segmentText("UNZ", "1", reference)', 'segmentText("UNZ", "01", reference)'),
    ("a day", "screens/receipt.js", "inAll(it.received) - announced(it)", "it.received.accepted - announced(it)"),
    ("a day", "parts/download.js", "download(name, bytesOf(text)", 'download(name, bytesOf(text + "\\n")'),
    ("keys", "screens/sign_in.js", "    signedIn(session, typed);", "    localStorage.setItem(number, typed); signedIn(session, typed);"),
    ("keys", "session.js", "if (!isRight(text))", "if (!text)"),
    ("keys", "tab_store.js", "sessionStorage.clear()", "undefined"),
    ("keys", "hub/place.js", 'protocol === "https:" ||', 'protocol === "http:" ||'),
    ("keys", "start.js", 'addEventListener("pageshow", broughtBack);', ""),
    ("ten idle minutes", "lock.js", "  forgetKey();\n", ""),
    ("ten idle minutes", "lock.js", "  if (location.hash !== address) show();", ""),
    ("ten idle minutes", "idle.js", "    look();\n    last", "    last"),
    ("headers of nginx", "docs/PAGE.md", "{ set $cache no-store; }", "{ set $cache no-cache; }"),
    ("headers of nginx", "docs/SERVING.md", 'add_header Strict-Transport-Security "max-age=31536000" always;', ""),
    ("make page", "examples/page/proxy.py", '("Cross-Origin-Opener-Policy", "same-origin")', '("Cross-Origin-Opener-Policy", "unsafe-none")'),
    ("a colleague's answer", "screens/answer.js", 'function: "4", lines }', 'function: "29", lines: [] }'),
    ("functions of the page", "edi/sscc.js", "% (EXTENSION_DIGITS * serials)", "% serials"),
    ("numbers of pallets", "parts/held_sscc.js", "!but.has(it)), ...this.#sentElsewhere]", "!but.has(it))]"),
    ("numbers of pallets", "screens/pallets.js", "this.propose(isOwn, true)", "this.propose(isOwn)"),
    ("numbers of pallets", "parts/held_sscc.js", "locks.request(`${NAME}.${sscc}`", "locks.request(`${Math.random()}`"),
    ("numbers of pallets", "screens/pallets.js", "!it.isLabelled && needs(it)", "needs(it)"),
    ("numbers that end", "hub/order_numbers.js", "a.document.length - b.document.length", "b.document.length - a.document.length"),
    ("numbers that end", "entries.js", "  if (areFound()) return;\n  const last", "  return;\n  const last"),
    ("clocks", "parts/document_number.js", "day(now).slice(2)", 'now.toISOString().slice(2, 10).replaceAll("-", "")'),
    ("clocks", "edi/dates.js", 'Number(text.padEnd(12, "0"))', "Number(text)"),
    ("nothing is silent", "screens/despatch.js", "      this.orders.check(),\n", ""),
    ("nothing is silent", "screens/supplier.js", "check(field, wrongGln(gln))", "true"),
    ("keys", "session.js", "=== 404 ? new", "!== 200 ? new"),
    ("states of", "hub/sending_states.js", 'deny: "unanswered"', 'deny: "denied"'),
    ("documents on", "hub/sending.js", "Math.max(0, this.facts.until - Date.now())", "0"),
    ("answers of the front", "hub/client.js", "250_000", "90_000"),
    ("connections", "hub/sending_states.js", 'break: "pausing"', 'break: "unanswered"'),
    ("connections", "hub/sending.js", "this.ask(this.facts.text)", 'this.ask(this.facts.text.replace("+", `+${this.facts.tries}`))'),
    ("connections", "start.js", "banner.draw(session.sent.sendings);", ""),
    ("enter moves", "parts/enter_moves.js", "next.focus();", ""),
    ("enter moves", "parts/summary.js", "this.heading.focus({ preventScroll: true });", 'this.element.querySelector("button")?.focus();'),
    ("typed work", "parts/form_content.js", 'names.unshift(at.dataset.field ?? "")', 'names.unshift("")'),
    ("typed work", "parts/sending_form.js", "this.warn(typed && !keepDraft", "this.warn(!keepDraft"),
    ("typed work", "parts/sending_form.js", '[saying("warn", phrases.start.unkept)]', "[]"),
    ("typed work", "start.js", "? phrases.start.unkept : phrases.start.kept", "? phrases.start.kept : phrases.start.kept"),
    ("typed work", "kept.js", "own.some((it) => key.startsWith(it))", "own.length"),
    ("what was sent", "parts/banner.js", 'this.failures = element("div", {});', "this.failures = this.notices;"),
    ("what was sent", "hub/sent_list.js", "interrupted(it)));", "it));"),
    ("uploads in", "hub/upload_queue.js", 'return { ...item, wrong: "unreadable" };', "throw new Error(file.name);"),
    ("uploads in", "hub/sending_queue.js", "while (this.waiting.length && !this.blocking.length)", "while (this.waiting.length)"),
    ("answers that are none", "hub/sending.js", 'event: "break", reply, reason: "unreadable"', 'event: "deny", reply, reason: ""'),
    ("answers that are none", "hub/sending.js", "await this.pause(wait || PAUSE);", "await this.pause(PAUSE);"),
    ("the menu loads", "start.js", "if (here) show();", "if (here) return;"),
    ("refusals", "screens/despatch.js", "this.know(await this.session.status());", "await this.session.status();"),
    ("refusals", "screens/cancel.js", 'B17: "quantity"', 'B17: "line"'),
    ("hostile", "parts/dom.js", "parent.append(String(child))", 'parent.insertAdjacentHTML("beforeend", String(child))'),
    ("hostile", "screens/supplier.js", "encodeURIComponent(it.order)", "it.order"),
    ("many lines", "parts/bar.js", "let end = 0;", "let end = performance.now() + 1; while (performance.now() < end); end = 0;"),
    ("many lines", "parts/table.js", "turn * compared(", "compared("),
    ("drafts of a locked", "screens/sign_in.js", "signOut ? phrases.signIn.left : phrases.signIn.kept", "phrases.signIn.kept"),
    ("tables as files", "parts/table.js", "this.shown.map(", "this.rows.map("),
    ("tables as files", "parts/csv.js", "FORMULA.test(text) ||", ""),
    ("tables as files", "parts/csv.js", '.includes(",") ? ";" : ","', '.includes(",") ? "," : ","'),
    ("answers from", "screens/paste_answers.js", "    if (problems.length) return area.focus();\n", ""),
    ("answers from", "parts/answer_rows.js", "seen.has(line) ?", "!line ?"),
    ("today's four", "today_rows.js", "wanted < today", "wanted > today"),
    ("today's four", "today_rows.js", "rows.filter((it) => it.advice !== null)", "rows"),
    ("today is", "screens/today.js", 'document.visibilityState === "visible" && ', ""),
    ("today is", "screens/today.js", "(again ?? this.heading).focus({ preventScroll: true });", ""),
    ("today with", "mail_search.js", "    if (this.#left <= 0) throw new Spent();\n", ""),
    ("accessibility", "style/page.css", "    flex-wrap: wrap;\n    gap: 0;\n", ""),
    ("accessibility", "style/colours.css", "--soft: #4d5a56", "--soft: #8d9a96"),
    ("accessibility", "style/controls.css", "outline: 3px solid var(--focus)", "outline: none"),
    ("accessibility", "parts/field.js", "{ for: id, class", "{ class"),
    ("accessibility", "style/tables.css", "flex-wrap: wrap;\n    justify-content: space-between;", "justify-content: space-between;"),
    ("accessibility", "style/tables.css", "  thead {\n    display: none;", "  thead {\n    position: absolute;\n    clip-path: inset(50%);"),
    ("bars as they", "style/tables.css", "  print-color-adjust: exact;\n", ""),
    ("bars as they", "style/tables.css", "  forced-color-adjust: none;\n", ""),
    ("the focus is not", "screens/entry.js", "    said.focus();\n", ""),
    ("the focus is not", "screens/mailbox.js", "    (links[Math.min(place, links.length - 1)] ?? count).focus();\n", ""),
    ("the focus is not", "screens/entry.js", "said.textContent = phrases.entry.marked;", REGION),
    ("enter moves", "screens/cancel.js", 'const article = it ? gtinAsPrinted(it.gtin) : "";', 'const article = "";'),
    ("refusals", "screens/cancel.js", "ask: () => known.ask(typedIn(fields)), check", "ask: async () => {}, check"),
    ("refusals", "screens/cancel.js", "check: () => isOpen(fields, known) }", "check: () => true }"),
    ("refusals", "screens/cancel.js", "const right = check(fields.quantity, tooMuch", "const right = true; check(fields.quantity, tooMuch"),
    ("refusals", "parts/look.js", "await Promise.race([ask().catch(passOver), late]);", "await ask().catch(passOver); void late;"),
    ("refusals", "parts/sending_form.js", " && JSON.stringify(this.content) === before;", ";"),
    ("refusals", "hub/known_line.js", "    this.isFresh = false;\n", ""),
    ("what was taken is", "screens/mailbox.js", "document.body) first.focus();", "document.body) return;"),
    ("what was taken is", "screens/mailbox.js", "    if (isShowing) return;\n", ""),
    ("the focus is not", "screens/cancel_results.js", "this.said, this.body);", "this.body); this.body.prepend(this.said);"),
    ("enter moves", "parts/sending_form.js", "for (const it of this.before) it.hidden = true;", "this.before.length;"),
    ("uploads in", "screens/upload.js", 'summary.childElementCount ? summary : next?.querySelector(".delivery")', "summary"),
    ("uploads in", "screens/upload.js", 'const before = element("div", {});', "const before = region;"),
    ("uploads in", "hub/upload_queue.js", "    this.items.splice(", '    item.sending?.happen("edit");\n    this.items.splice('),
    ("today's four", "screens/today.js", "      this.draw();\n      this.problem", "      this.problem"),
    ("tables as files", "screens/supplier.js", "csv: false, ", ""),
    ("many pallets", "screens/left_lines.js", ": phrases.leftLines.nothing;", ': "";'),
    ("uploads in", "screens/upload.js", '  if (focused) (near[0] ?? zone.querySelector("input"))?.focus();\n', ""),
    ("today's four", "screens/today.js", "    this.table.element.hidden = !rows.length;\n", ""),
    ("today's four", "screens/today.js", '  if (entry === null && isSearching) return "…";\n', ""),
    ("bars of a status", "style/colours.css", "  --cancelled: #b98a12;", "  --cancelled: #d9aa42;"),
    ("bars of a status", "style/tables.css", "  forced-color-adjust: none;\n", ""),
    ("the keyboard alone", "start.js", "first?.focus({ preventScroll: true });", ""),
    ("what a buyer writes", "edi/order_details.js", "...it.takeAll(4, 1, 5)", "...it.takeAll(4, 1, 6)"),
    ("what a buyer writes", "edi/order_details.js", "!isRead || reading.left.size", "!isRead"),
    ("the order as the buyer", "screens/order.js", "    unread(header.raw),\n", ""),
    ("the order as the buyer", "articles.js", "entries.forEach((it) => articles.learn(it));", ""),
    ("symbols of pallet labels", "labels/code128.js", "value * Math.max(1, place)", "value * (place + 1)"),
    ("symbols that another", "labels/code128.js", "113222 123122", "123122 113222"),
    ("symbols of pallet labels", "labels/bar_code.js", "const QUIET_ZONE = 10;", "const QUIET_ZONE = 2;"),
    ("labels that scan", "labels/sizes.js", "module: 0.5, bar: 32", "module: 0.4, bar: 32"),
    ("labels that scan", "labels/element_strings.js", '["37", String(count)]', '["30", String(count)]'),
    ("labels that scan", "style/labels.css", "    page: label-a6;\n", ""),
    ("labels that scan", "screens/labels.js", "papers.dataset.print = what;", ""),
    ("functions of the page", "suppliers/file.js", "found.has(digits)", "!digits"),
    ("functions of the page", "suppliers/search.js", "has(it.order, it.gtin)", "wanted"),
    ("functions of the page", "edi/any_spelling.js", "release !== NO_RELEASE && text", "text"),
    ("the overview of", "suppliers/figures.js", "counted(pallets.filter(isAnnounced))", "counted(pallets)"),
    ("the overview of", "suppliers/round.js", "await this.#resultOf(gln, stop.signal)", "read(await this.#asked(gln, stop.signal))"),
    ("the overview of", "hub/client.js", "this.#ask(`status/${supplier}`, undefined, stop)", "this.#read(`status/${supplier}`)"),
    ("the overview of", "parts/filtered_table.js", "showAgain(this.filter.of(rows))", "showAgain(rows)"),
    ("the overview of", "parts/table.js", "(focused.isConnected ? focused : same)", "(focused.isConnected ? focused : null)"),
    ("the overview of", "suppliers/list.js", "keepSuppliers(this.caller, { file: file.name, text });", "true;"),
    ("the overview of", "suppliers/list.js", "this.#take(file.name, text, { isKept });", "this.#take(file.name, text);"),
    ("the overview of", "suppliers/list.js", "else if (response.status !== NONE) this.#miss();", ""),
    ("the overview of", "suppliers/list.js", "    this.loading = null;\n    this.isUnread", "    this.isUnread"),
    ("the overview of", "parts/sort_choice.js", "sort(place, falls);", ""),
    ("the overview waits", "suppliers/round.js", "if (!(why instanceof Broken) || !why.wait) throw why;", "throw why;"),
    ("open lines of", "suppliers/wanted_days.js", 'days.size === 1 ? [...days][0] : ""', '[...days][0] ?? ""'),
    ("open lines of", "suppliers/open_rows.js", "wanted < today", "wanted <= today"),
    ("open lines of", "parts/table.js", "sorted.slice(0, this.most)", "sorted"),
    ("several lines", "hub/cancel_queue.js", "reference: sending.facts.id", 'reference: "C1"'),
    ("several lines", "hub/cancel_queue.js", 'sending.addEventListener("change", it.begun, { once: true });', ""),
    ("several lines", "hub/sending_queue.js", "while (this.waiting.length && !this.blocking.length)", "while (this.waiting.length)"),
    ("several lines", "screens/cancel_lines.js", "await look(async () => this.#know(await this.ask()));", "await look(this.ask);"),
    ("several lines", "screens/cancel_lines.js", "return this.#areRight(({ field", "return true || this.#areRight(({ field"),
    ("several lines", "screens/cancel_lines.js", "line.line, gtinAsPrinted(line.gtin), quantity", 'line.line, "", quantity'),
    ("several lines", "screens/cancel_lines.js", "this.chosen.of(it) && !isSent(it)", "this.chosen.of(it)"),
    ("several lines", "parts/line_choice.js", "if (tick.checked) this.kept.choose(line);", "if (!tick) this.kept.choose(line);"),
    ("uploads name", "edi/document_names.js", '"NAD", "SU"', '"NAD", "BY"'),
    ("uploads name", "screens/upload.js", "names.get(reference)?.document", "[...names.values()][0]?.document"),
    ("functions of the page", "despatch/even_split.js", "next = (next + over) % count", "next = 0"),
    ("functions of the page", "despatch/pallet_rows.js", "if (same.size > 1) return", "if (same.size > 9) return"),
    ("many pallets", "screens/pallets.js", "Math.min(quantity, this.ledger.left(line))", "quantity"),
    ("many pallets", "screens/pallet_lines.js", "    if (this.wrongs.size) this.#forgive();\n", ""),
    ("many pallets", "screens/despatch_draft.js", "pallets[place].load.set(line, text);", "continue;"),
    ("many pallets", "screens/pallets.js", "pallet.load.replace(rows", "if (pallet.isCollapsed) pallet.load.replace(rows"),
    ("many pallets", "screens/pallet.js", "this.wantsAll ?? this", "this.wantsAll || this"),
    ("the menu loads", "screens/pallets.js", "draw() {\n", "draw() {\n    if (this.is) return undefined;\n    this.is = 1;\n"),
    ("many pallets", "screens/left_lines.js", "this.ledger.left(it) !== 0", "this.ledger.left(it) > 0"),
    ("pauses of a despatch", "screens/pallets.js", "if (performance.now() > end)", "if (end < 0)"),
    ("pauses of a despatch", "style/despatch.css", "  content-visibility: auto;\n", ""),
    ("pauses of a despatch", "screens/pallets.js", "        getComputedStyle(it.toggle).color;\n", "", "firefox"),
    ("pauses of a despatch", "parts/sending_form.js", "    if (!(await this.lock())) return;\n", "", "firefox"),
    ("pauses of a despatch", "parts/sending_form.js", "(await this.isUnchangedAfter(() => lock(true)))", "!(await lock(true))"),
    ("functions of the page", "edi/shown.js", "lines.length === 1 ? { fault", "lines.length ? { fault"),
    ("places of faults", "edi/fault_place.js", "text.slice(places[it], places[it + 1])", "text.slice(places[it])"),
    ("places of faults", "edi/shown.js", "offset: offset ? Number(offset) : null", "offset: null"),
    ("a file is checked", "hub/explain.js", "text === SERVED", "text"),
    ("a file is checked", "hub/explain.js", 'return status === 404 || status === 405 ? "absent" : "broken";', 'return "broken";'),
    ("a file is checked", "screens/explain.js", "    if (now !== last) return;\n", ""),
    ("a file is checked", "parts/fault_in_words.js", 'element("mark", {}, visible', 'element("span", {}, visible'),
    ("a file is checked", "screens/explain.js", "    verdict.focus({ preventScroll: true });\n", ""),
    ("make page", "examples/page/proxy.py", "elif int(length) > LONGEST:", "elif int(length) > 9 * LONGEST:"),
    ("make page", "examples/page/show.py", "if ran.returncode in (0, 1)", "if ran.returncode == 0"),
    ("a supplier's day", "screens/answer.js", "input.checked = input.value === answer", 'input.checked = input.value === "changed"'),
    ("a supplier's day", "screens/labels.js", "const COPIES = 2;", "const COPIES = 1;"),
    ("tables of words", "words/fr.js", '    pallets: "Palettes",\n', ""),
    ("tables of words", "words/nl.js", "    printed: (character) => `het teken ${character}`", "    printed: () => `het teken`"),
    ("tables of words", "words/de.js", 'chooseOne: "Wählen Sie mindestens eine Bestellung."', 'chooseOne: "Choose at least one order."'),
    ("texts outside", "screens/search.js", "heading(phrases.common.searchAllSuppliers)", 'heading("Search all suppliers")'),
    ("texts outside", "edi/order_details.js", "phrases.order.contractLine(number, line)", "`${number}, line ${line}`"),
    ("types", "parts/due.js", "dueInWords(of(it))", "dueInWords(it)"),
    ("rows in each", "words/nl.js", 'changedTo: ["gewijzigd in", "aantal"]', 'changedTo: ["aantal"]'),
    ("a missing text", "language.js", "own ?? text", "own"),
    ("each screen in each", "screens/today.js", "button(phrases.today.again,", 'button("Look again now",'),
    ("each screen in each", "style/page.css", "    flex-wrap: wrap;\n    gap: 0;\n", ""),
    ("the choice of", "parts/form_content.js", 'it.dataset.field ?? ""].join', 'it.labels?.[0]?.textContent ?? ""].join'),
    ("the choice of", "kept_language.js", "localStorage.setItem(NAME, language);", ""),
    ("a day from", "screens/answer.js", 'quantity.input.disabled = this.answer !== "changed";', "quantity.input.disabled = false;"),
    ("a day from", "style/controls.css", '[type="checkbox"]):disabled,', '[type="checkbox"]):target,'),
    ("a day from", "screens/receipt.js", "    ...correctedSince(receipt, rows),\n    terms(", "    terms("),
    ("typed work", "parts/form_content.js", "!isChoice(it) || it.checked", "!isChoice(it)"),
    ("a colleague's answer", "parts/sending_form.js", "this.sayFirst(verdict.code);", "this.note();"),
    ("functions of the page", "hub/kinds.js", '"partly" : "accepted"', '"accepted" : "accepted"'),
    ("functions of the page", "edi/known_cause.js", "([.,]0+)?", ""),
    ("a file is checked", "parts/fault_in_words.js", "codeInWords(fault.code, causeInWords(fault, text))", "codeInWords(fault.code)"),
    ("several lines", "screens/supplier.js", "first: [actions], last: wanted", "first: [], last: [...wanted, actions]"),
    ("numbers of pallets", "style/despatch.css", ".pallets:not(.needs-ssccs) .label-tick,\n", ""),
    ("uploads name", "screens/upload.js", 'phrases.outcomes[outcome], code && " ", ', ""),
    ("uploads name", "screens/sent.js", "nameOf(gln) || gln", "gln"),
    ("bars as they", "parts/bar.js", '"calc(100% + 1px)"', '"100%"'),
    ("clocks", "edi/dates.js", "momentInWords(Date.UTC(", "momentInWords(+new Date("),
    ("the order as the buyer", "screens/order.js", "partyRow(named(it, nameOf))", "partyRow(it)"),
    ("a supplier's day", "screens/cancel.js", "byName(supplier)", "supplier"),
]


def found(program, trial, file, old, new, browser="chromium"):
    """Whether the trial fails with this bug; that it says so by its own last line, and not by being unable to run."""
    with tempfile.TemporaryDirectory() as folder:
        for name in COPIED:
            shutil.copytree(os.path.join(ROOT, name), os.path.join(folder, name), ignore=shutil.ignore_patterns("*.png", "__pycache__"))
        path = os.path.join(folder, *([] if file.startswith(("examples", "docs")) else ["page"]), file)
        with open(path, encoding="utf-8") as opened:
            text = opened.read()
        assert text.count(old) == 1, f"{old!r} stands {text.count(old)} times in {file}"
        with open(path, "w", encoding="utf-8") as opened:
            opened.write(text.replace(old, new))
        words = [sys.executable, "-m", "tests.page.test", program, trial, f"--browser={browser}"]
        ran = subprocess.run(words, cwd=folder, stdout=subprocess.PIPE, text=True)
        lines = ran.stdout.splitlines()
        why = next((it for it in reversed(lines) if "Error" in it or "Fault" in it), "")
        print(f"{trial}: {file}: {'found' if ran.returncode == 1 else 'NOT FOUND'}: {why[:200]}", flush=True)
        return ran.returncode == 1 and lines[-1] == "0 passed, 1 failed"


def main(program, some=""):
    results = [found(program, *bug) for bug in BUGS if some in bug[0]]
    print(f"{sum(results)} found, {len(results) - sum(results)} not found")
    return 0 if results and all(results) else 1


if __name__ == "__main__":
    sys.exit(main(os.path.abspath(sys.argv[1]), *sys.argv[2:3]))
