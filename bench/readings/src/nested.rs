//! The items of a description. `time` 0.3.9 has optional items and alternatives, and no text for them.

use time::format_description::{FormatItem, parse};

/// The items of a description that may hold one `optional` or one `first`, without escapes in them. All are leaked.
pub fn items(by: &'static str) -> Vec<FormatItem<'static>> {
    let nested = ["[optional [", "[first ["].into_iter().find_map(|begin| by.split_once(begin));
    let Some((front, rest)) = nested else {
        return plain(by);
    };
    let (inside, after) = rest.split_once("]]]").expect("a component ends each nested description");
    let members = inside.split("]] [[");
    let mut members = members.clone().enumerate().map(|(place, member)| {
        let open = if place > 0 { "[" } else { "" };
        // The split took the bracket of the last component.
        let text: &'static str = format!("{open}{member}]").leak();
        FormatItem::Compound(plain(text).leak())
    });
    let item = if by.contains("[optional [") {
        let member: &'static _ = Box::leak(Box::new(members.next().expect("one member")));
        FormatItem::Optional(member)
    } else {
        FormatItem::First(members.collect::<Vec<_>>().leak())
    };
    let mut items = plain(front);
    items.push(item);
    items.extend(plain(after));
    items
}

fn plain(by: &'static str) -> Vec<FormatItem<'static>> {
    parse(by).unwrap_or_else(|error| panic!("{by}: {error}"))
}
