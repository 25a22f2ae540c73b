"""How the page looks: in windows of three kinds no text runs out, and each has contrast enough."""

# How much texts and their backgrounds differ in brightness, by the rule of WCAG, over all elements with a text of their own.
CONTRAST = """
const rgba = (color) => { const it = document.createElement("canvas").getContext("2d"); it.fillStyle = color; it.fillRect(0, 0, 1, 1); return [...it.getImageData(0, 0, 1, 1).data]; };
const light = (color) => rgba(color).slice(0, 3).map((c) => c / 255).map((c) => c <= 0.04045 ? c / 12.92 : ((c + 0.055) / 1.055) ** 2.4).reduce((sum, c, at) => sum + c * [0.2126, 0.7152, 0.0722][at], 0);
const background = (it) => { for (; it; it = it.parentElement) { const color = getComputedStyle(it).backgroundColor; if (rgba(color)[3] === 255) return color; } return "white"; };
const low = [];
for (const it of document.querySelectorAll("body *")) {
    const own = [...it.childNodes].some((node) => node.nodeType === 3 && node.data.trim() !== "");
    if (!own || it.id === "text" || !it.checkVisibility() || it.closest("script, style")) continue;
    const [a, b] = [light(getComputedStyle(it).color), light(background(it))].sort((x, y) => y - x);
    const ratio = (a + 0.05) / (b + 0.05);
    if (ratio < 4.5) low.push(`${it.tagName} ${it.className} ${it.textContent.slice(0, 20)}: ${ratio.toFixed(2)}`);
}
return low;
"""
LOOKS = [("wide", 1280, 1000, False), ("narrow", 390, 844, False), ("dark", 1280, 1000, True)]
PICTURED = [("accepted", 3, "[weekday], [day padding:none] [month repr:long] [year] at [hour]:[minute][optional [:[second]]]"), ("refused", 3, "[year]-[mnth]-[day]"),
            ("strftime", 4, "%d/%b/%Y:%H:%M:%S %z")]


def try_looks(page, expect, folder):
    """Pictures go into the folder, if one is given."""
    for name, width, height, dark in LOOKS:
        page.browser.look(width, height, dark)
        page.open("")
        page.set_moment()
        for what, kind, text in PICTURED:
            page.typed(kind, text)
            if what == "accepted":
                page.browser.type("#shown", "Tuesday, 3 February 2026 at 9:05")
                page.browser.type("#any", "EEE dd.MM.yy HH:mm")
                page.browser.type("#dates", "05/03/2026\n23/11/2026")
            expect(f"{what}, {name}: no text runs out", page.browser.run("return document.documentElement.scrollWidth - document.documentElement.clientWidth"), 0)
            expect(f"{what}, {name}: contrast", page.browser.run(CONTRAST), [])
            if folder:
                page.browser.run("scrollTo(0, 0); document.activeElement.blur()")
                page.browser.shot(f"{folder}/{what}-{name}.png")
