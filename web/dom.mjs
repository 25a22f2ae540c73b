// Elements of the page.

export const by = (id) => document.getElementById(id);
export const made = (tag, text, name) => Object.assign(document.createElement(tag), text === undefined ? {} : { textContent: text }, name ? { className: name } : {});
export const button = (text, run, name) => Object.assign(made("button", text, name), { type: "button", onclick: run });

// A text of nothing but spaces, so that it is seen.
export const seen = (text) => (/^\s+$/.test(text) ? text.replace(/ /g, "\u2423").replace(/\n/g, "\u23ce").replace(/\t/g, "\u21e5") : text);

export function copied(title, text, ...buttons) {
    const it = made("div", undefined, "copied");
    const row = made("div", undefined, "buttons");
    const copy = button("Copy", () => copyText(copy, text));
    copy.setAttribute("aria-label", `Copy: ${title}`);
    row.append(...buttons, copy);
    it.append(made("h3", title), row, made("pre", text));
    return it;
}

export async function copyText(from, text) {
    const said = from.textContent;
    try {
        await navigator.clipboard.writeText(text);
        from.textContent = "Copied";
    } catch {
        from.textContent = "Not allowed";
    }
    setTimeout(() => (from.textContent = said), 1200);
}
