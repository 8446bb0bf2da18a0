//! Feeds the same calls to libnamedict.a and to the original, and compares the answers.
mod departures;
mod leaves;
mod lists;
mod ours;
mod random;
mod run;
mod stored;
mod theirs;

fn main() {
    let command = std::env::args().nth(1).unwrap_or_default();
    let mut total = run::Total::default();
    match command.as_str() {
        "all" => {
            leaves::run(&mut total);
            lists::run(&mut total);
            departures::run(&mut total);
        }
        "leaves" => leaves::run(&mut total),
        "lists" => lists::run(&mut total),
        "departures" => departures::run(&mut total),
        "full-page" => return departures::full_page(),
        "stored" => return stored::print(),
        "replay" => return stored::print_replay(),
        "replay-stdout" => return stored::print_replay_stdout(),
        _ => {
            eprintln!("commands: all, leaves, lists, departures, stored, replay, replay-stdout");
            std::process::exit(2);
        }
    }
    total.end();
}
