//! The arguments of the fuzzer.

pub const USAGE: &str = "usage: fuzz [--seed N] [--rounds N]
       fuzz [--seed N] --round N";

#[derive(Debug, PartialEq)]
pub struct Options {
    pub seed: u64,
    pub rounds: u64,
    /// The only round that is tried.
    pub round: Option<u64>,
}

impl Options {
    /// None where the arguments are not understood.
    pub fn read(arguments: &[String]) -> Option<Options> {
        let mut options = Options {
            seed: 1,
            rounds: 100_000,
            round: None,
        };
        for pair in arguments.chunks(2) {
            let [option, value] = pair else {
                return None;
            };
            let value = value.parse().ok()?;
            match option.as_str() {
                "--seed" => options.seed = value,
                "--rounds" => options.rounds = value,
                "--round" => options.round = Some(value),
                _ => return None,
            }
        }
        Some(options)
    }
}

#[cfg(test)]
mod tests {
    use super::Options;

    fn read(arguments: &str) -> Option<(u64, u64, Option<u64>)> {
        let arguments: Vec<String> = arguments.split_whitespace().map(String::from).collect();
        let options = Options::read(&arguments)?;
        Some((options.seed, options.rounds, options.round))
    }

    #[test]
    fn options_have_a_number_each() {
        assert_eq!(read(""), Some((1, 100_000, None)));
        assert_eq!(read("--seed 7 --rounds 9"), Some((7, 9, None)));
        assert_eq!(read("--round 3 --seed 7"), Some((7, 100_000, Some(3))));
        for wrong in ["--seed", "--seed x", "--sed 1", "7", "--round -1"] {
            assert_eq!(read(wrong), None, "{wrong}");
        }
    }
}
