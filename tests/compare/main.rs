//! Writes cases for the library's calls, with the expected answers: main SEED COUNT, where COUNT is how many messages are at
//! least read, written or handed to a session. The same seed gives the same cases; a greater count only adds more.

mod cases;
mod reference;
mod stream;

fn main() {
    let mut arguments = std::env::args().skip(1);
    let mut number = |name: &str| -> u64 {
        let word = arguments.next().unwrap_or_else(|| panic!("{} is missing", name));
        word.parse().unwrap_or_else(|_| panic!("{} must be a number", name))
    };
    let (seed, count) = (number("SEED"), number("COUNT"));
    let mut stream = stream::Stream::start(std::io::stdout(), seed);
    cases::all(&mut stream, seed, count);
    stream.end();
}
