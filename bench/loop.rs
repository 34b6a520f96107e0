// The hand-written loop that the drain is measured against: each line of standard input gives the log line and the book line of
// the route in examples/hello.
use std::io::{self, BufRead, Write};

fn main() -> io::Result<()> {
    let mut log = String::new();
    let mut book = String::new();
    let mut count = 0u64;
    for line in io::stdin().lock().lines() {
        let _ = line?;
        count += 1;
        log.push_str(&format!("log {count} out: hi\n"));
        book.push_str(&format!("exchange {count} source route1 completed\n"));
    }
    let mut out = io::stdout().lock();
    out.write_all(log.as_bytes())?;
    out.write_all(book.as_bytes())?;
    write!(out, "accepted {count} refused 0\ntotal {count} completed {count} handled 0 failed 0 waiting 0\ndrained\n")
}
