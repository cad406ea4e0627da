//! The words of the command line.

/// Comparisons where nobody says how many.
const COUNT: u64 = 20_000_000;

/// What is to be done, and the seed of the random numbers in a comparison.
#[derive(Debug, PartialEq, Eq)]
pub struct Options {
    pub task: Task,
    pub seed: u64,
}

/// What is to be done.
#[derive(Debug, PartialEq, Eq)]
pub enum Task {
    /// So many comparisons.
    Compare { count: u64 },
    /// So many pairs of types, joined.
    Join { pairs: u64 },
    /// So many lines of recorded answers.
    Record { count: usize },
    /// What the replay must say of these.
    Expect { count: usize },
    /// So many answers to nested joins.
    Nested { count: usize },
}

impl Options {
    /// Reads pairs of a word and a number; None where they are anything else.
    pub fn read(mut words: impl Iterator<Item = String>) -> Option<Options> {
        let mut options = Options { task: Task::Compare { count: COUNT }, seed: 1 };
        while let Some(word) = words.next() {
            let number: u64 = words.next()?.parse().ok()?;
            match &word[..] {
                "--seed" => options.seed = number,
                "--count" => options.task = Task::Compare { count: number },
                "--joins" => options.task = Task::Join { pairs: number },
                "--record" => options.task = Task::Record { count: number as usize },
                "--expect" => options.task = Task::Expect { count: number as usize },
                "--nested" => options.task = Task::Nested { count: number as usize },
                _ => return None,
            }
        }
        Some(options)
    }
}

#[cfg(test)]
mod tests {
    use super::*;

    fn read(line: &str) -> Option<Options> {
        Options::read(line.split_whitespace().map(String::from))
    }

    #[test]
    fn words_come_with_numbers() {
        assert_eq!(read(""), Some(Options { task: Task::Compare { count: COUNT }, seed: 1 }));
        assert_eq!(read("--seed 7 --count 9"), Some(Options { task: Task::Compare { count: 9 }, seed: 7 }));
        assert_eq!(read("--joins 9 --seed 7"), Some(Options { task: Task::Join { pairs: 9 }, seed: 7 }));
        assert_eq!(read("--record 50"), Some(Options { task: Task::Record { count: 50 }, seed: 1 }));
        assert_eq!(read("--expect 50"), Some(Options { task: Task::Expect { count: 50 }, seed: 1 }));
        assert_eq!(read("--nested 50"), Some(Options { task: Task::Nested { count: 50 }, seed: 1 }));
        assert_eq!(["--seed", "--seed x", "--help", "--more 1"].map(read), [None, None, None, None]);
    }
}
