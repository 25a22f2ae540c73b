fn show(now: DateTime<Utc>, x: &str) {
    now.format(if x == "%J" { "%Y" } else { "%m" });
    now.format(if true && (x == "%J") { "%Y" } else { "%m" });
    now.format(match x { "%J" => "%Y", _ => "%m" });
    now.format(x.get("%J"));
    now.format(table["%J"]);
    let day = Style { face: if x.is_empty() { "%J" } else { "%Y" } };
    now.format(day);
    let time = "%J".len();
    now.format(time);
    let sum = "%J" + x;
    now.format(sum);
    let called = || "%J";
    now.format(called);
    now.format(other.face());
    now.format(concat!("%J", "%Y"));
    NaiveDate::parse_from_str(if true { "%J" } else { "" }, "%Y");
}

fn face() -> &'static str {
    log("%J");
    let (a, b) = ("%J", 1);
    let other = "%J";
    fn inner() -> &'static str {
        "%J"
    }
    "%Y"
}

fn more(now: DateTime<Utc>) {
    now.format(face());
    now.format(face);
}

impl A {
    fn name(&self) -> &'static str {
        "%J"
    }
}

impl B {
    fn name(&self) -> &'static str {
        "%Y"
    }

    fn show(&self) {
        now.format(self.name());
    }
}
