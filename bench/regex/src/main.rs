// Compiles each expression on standard input with the crate regex and matches the name on the first line with it.
// Prints for each the verdict and the least of many runs in nanoseconds.
use std::io::BufRead;
use std::time::Instant;

fn main() {
    let mut lines = std::io::stdin().lock().lines().map(|line| line.expect("text"));
    let name = lines.next().expect("a name");
    for line in lines {
        let expression = format!("^(?:{line})$");
        let mut runs = Vec::new();
        let mut verdict = false;
        for _ in 0..400 {
            let start = Instant::now();
            let compiled = regex::Regex::new(&expression).expect("an expression");
            verdict = compiled.is_match(&name);
            runs.push(start.elapsed().as_nanos());
        }
        runs.sort();
        println!("{} {}", verdict as u8, runs[0]);
    }
}
