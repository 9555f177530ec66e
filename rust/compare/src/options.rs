//! The command line.

use std::time::Duration;

use compare::run::Until;

pub const USAGE: &str = "\
usage: compare [--seed S] [--calls N] [--seconds T] [--case C] [--trace] [--itself | --self-test | --served PROGRAM ..]
       compare --serve
  --seed S      the seed of all inputs; without it seed 1, then a fresh one that is told, with a fifth of the calls
  --calls N     how many calls at least (100000)
  --seconds T   stop after so many seconds, if there are not calls enough before
  --case C      run only this case (of seed 1, if none is given)
  --trace       name each case before it is run, should an implementation not come back from it
  --itself      compare the second implementation with itself
  --self-test   compare it with wrong variants of itself, and find each of them
  --served PROGRAM [WORD..]
                compare it with a program that makes the calls it is sent; all words that follow are its command line
  --serve       be such a program: make the calls that come on standard input with the second implementation";

/// What is compared with the second implementation.
#[derive(Clone, Debug, PartialEq, Eq)]
pub enum Against {
    Archive,
    Itself,
    WrongVariants,
    Served {
        program: String,
        words: Vec<String>,
    },
    /// It makes the calls that another comparison sends.
    Nothing,
}

#[derive(Clone, Debug)]
pub struct Options {
    pub seed: Option<u64>,
    pub until: Until,
    pub case: Option<u64>,
    pub trace: bool,
    pub against: Against,
}

/// The options, or what is wrong with them.
pub fn parse(arguments: impl IntoIterator<Item = String>) -> Result<Options, String> {
    let mut options = Options {
        seed: None,
        until: Until { calls: 100_000, time: None },
        case: None,
        trace: false,
        against: Against::Archive,
    };
    let mut arguments = arguments.into_iter();
    while let Some(argument) = arguments.next() {
        let mut number = || {
            let value = arguments.next().and_then(|value| value.parse().ok());
            value.ok_or_else(|| format!("{argument} wants a whole number"))
        };
        match argument.as_str() {
            "--seed" => options.seed = Some(number()?),
            "--calls" => options.until.calls = number()?,
            "--seconds" => options.until.time = Some(Duration::from_secs(number()?)),
            "--case" => options.case = Some(number()?),
            "--trace" => options.trace = true,
            "--itself" => options.against = Against::Itself,
            "--self-test" => options.against = Against::WrongVariants,
            "--served" => options.against = served(&mut arguments)?,
            "--serve" => options.against = Against::Nothing,
            _ => return Err(format!("{argument} is not an option")),
        }
    }
    Ok(options)
}

/// The rest of the words is the server's command line.
fn served(arguments: &mut impl Iterator<Item = String>) -> Result<Against, String> {
    let program = arguments.next().ok_or("--served wants a program")?;
    Ok(Against::Served { program, words: arguments.collect() })
}

#[cfg(test)]
mod tests {
    use super::*;

    fn parsed(line: &str) -> Result<Options, String> {
        parse(line.split_whitespace().map(String::from))
    }

    #[test]
    fn without_options_there_are_calls_enough() {
        let options = parsed("").expect("nothing is wrong");
        assert_eq!((options.seed, options.against), (None, Against::Archive));
        assert!(options.until.calls >= 20_000);
    }

    #[test]
    fn numbers_follow_their_options() {
        let options = parsed("--seed 5 --calls 6 --seconds 7 --case 8 --itself").expect("nothing is wrong");
        assert_eq!((options.seed, options.until.calls, options.case), (Some(5), 6, Some(8)));
        assert_eq!(options.until.time, Some(Duration::from_secs(7)));
        assert_eq!(options.against, Against::Itself);
    }

    #[test]
    fn all_words_after_served_are_the_servers() {
        let options = parsed("--calls 6 --served qemu-arm server --seed 5").expect("nothing is wrong");
        assert_eq!((options.seed, options.until.calls), (None, 6));
        let words = ["server", "--seed", "5"].map(String::from).to_vec();
        assert_eq!(options.against, Against::Served { program: String::from("qemu-arm"), words });
        assert_eq!(parsed("--serve").expect("nothing is wrong").against, Against::Nothing);
    }

    #[test]
    fn what_is_not_an_option_is_told() {
        assert!(parsed("--sead 5").is_err());
        assert!(parsed("--seed").is_err());
        assert!(parsed("--seed five").is_err());
        assert!(parsed("--calls 6 --served").is_err());
    }
}
