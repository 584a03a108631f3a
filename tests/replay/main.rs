//! Days for the program replay, each with what it must print.
//!     main days DIRECTORY SEED DAYS   numbered days, and a list of their numbers and names
//!     main make DIRECTORY             the files that ship beside this one, in day/ and refused/
//!     main pieces SIZE                standard input to standard output, each piece alone

// what is shared with the comparison isn't all used here
#[path = "../compare/cases/mod.rs"]
#[allow(dead_code)]
mod cases;
#[path = "../compare/reference/mod.rs"]
#[allow(dead_code)]
mod reference;
#[path = "../compare/stream.rs"]
#[allow(dead_code)]
mod stream;

mod counts;
mod cuts;
mod days;
mod dress;
mod endings;
mod enrolments;
mod files;
mod make;
mod messages;
mod moods;
mod pieces;
mod recording;
mod story;
mod traffic;
mod world;

fn main() {
    let words: Vec<String> = std::env::args().skip(1).collect();
    let words: Vec<&str> = words.iter().map(String::as_str).collect();
    match words[..] {
        ["days", directory, seed, days] => write_days(directory, number(seed), number(days)),
        ["make", directory] => make::all(directory),
        ["pieces", size] => pieces::copy(number(size) as usize),
        _ => panic!("days DIRECTORY SEED DAYS, make DIRECTORY or pieces SIZE"),
    }
}

fn number(word: &str) -> u64 {
    word.parse().unwrap_or_else(|_| panic!("{} must be a number", word))
}

/// What was made of them is said on standard output, in one line.
fn write_days(directory: &str, seed: u64, days: u64) {
    let mut files = files::Files::new(directory);
    cuts::all(&mut files);
    enrolments::all(&mut files);
    let counts = days::all(&mut files, seed, days);
    files.write_list();
    println!("{}", counts);
}
