//! Asks how many bytes a date needs. `../run.sh` builds and runs it.

// Another program uses the rest of the module.
#[allow(dead_code)]
mod timefd;

fn main() {
    let answer = timefd::judge(timefd::VERSION_3, b"[year]-[month]-[day]");
    if answer.status == timefd::ACCEPTED {
        println!("at most {} bytes", answer.value);
    }
}
