//! The arguments that both comparison programs take: how many, the seed, one case alone.

pub struct Arguments {
    pub count: u64,
    pub seed: u64,
    pub only: Option<u64>,
}

impl Arguments {
    pub fn of(program: &str, what: &str, count: u64, words: &[String]) -> Arguments {
        let number = |at: usize| -> Option<u64> {
            let word = words.get(at)?;
            match word.replace('_', "").parse() {
                Ok(value) => Some(value),
                Err(_) => {
                    eprintln!("usage: {program} [{what}] [seed] [one case alone]; not a number: {word}");
                    std::process::exit(2);
                }
            }
        };
        Arguments { count: number(0).unwrap_or(count), seed: number(1).unwrap_or(1), only: number(2) }
    }
}

/// Says what went apart and how to see it again, and leaves.
pub fn apart(program: &str, seed: u64, case: u64, what: &str) -> ! {
    println!("{program}: APART at seed {seed}, case {case}\n{what}");
    println!("again: {program} 1 {seed} {case}");
    std::process::exit(1);
}
