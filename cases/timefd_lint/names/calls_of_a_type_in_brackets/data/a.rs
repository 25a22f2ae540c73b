use chrono::NaiveDate;
use chrono::format::StrftimeItems as Items;

fn show(day: &NaiveDate, text: &str) {
    <NaiveDate>::format(day, "%Y %J");
    (<NaiveDate>::format(day, "%m %J"), 1);
    <NaiveDate>::parse_from_str(text, "%d %J");
    <StrftimeItems>::new("%H %J");
    <Items>::new("%M %J");
    <BrokenDownTime>::parse("%S %J", text);
    <NaiveDate>::format(day, if short { "%y %J" } else { "%y" });
    <NaiveDate>::format("%F %J", "%F");
    <Other>::format(day, "%F %J");
    Kept::<NaiveDate>::format(day, "%F %J");
    <NaiveDate>::show(day, "%F %J");
}
