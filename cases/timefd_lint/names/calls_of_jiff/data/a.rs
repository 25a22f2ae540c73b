use jiff::{Zoned, civil::Date};

fn show(now: &Zoned, text: &str) {
    now.strftime("%Y-%J");
    Zoned::strptime("%J", text);
    Date::strptime("%Y %J", text);
    jiff::fmt::strtime::format("%J", now);
    jiff::fmt::strtime::parse("%J", text);
    BrokenDownTime::parse("%J", text);
    now.strftime("%Y %Q %9f %:z %^b");
}
