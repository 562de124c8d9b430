// The command line of the comparison.
use crate::kinds;
use reference::faults::Fault;
use reference::kind::Kind;
use std::str::FromStr;

pub const USAGE: &str = "usage: ./compare [--seed S] [--cases N] [--only KIND] [--fault NAME]
       ./compare [--seed S] [--only KIND] [--fault NAME] --case K    one case in full
       ./compare [--seed S] [--cases N] [--only KIND] --faults       each deliberate fault";

/// The counts of a gate run.
const DEFAULT_SEED: u64 = 1;
const DEFAULT_CASES: u64 = 200_000;

#[derive(Debug, Clone, Copy, PartialEq, Eq)]
pub enum Mode {
    Compare,
    OneCase(u64),
    EachFault,
}

pub struct Arguments {
    pub seed: u64,
    pub cases: u64,
    pub only: Option<Kind>,
    pub fault: Option<Fault>,
    pub mode: Mode,
}

impl Arguments {
    pub fn parse(mut words: impl Iterator<Item = String>) -> Result<Self, String> {
        let mut arguments = Arguments {
            seed: DEFAULT_SEED,
            cases: DEFAULT_CASES,
            only: None,
            fault: None,
            mode: Mode::Compare,
        };
        while let Some(option) = words.next() {
            if option == "--faults" {
                arguments.mode = Mode::EachFault;
            } else {
                let value = words.next().ok_or_else(|| format!("{option} needs a value"))?;
                arguments.set(&option, &value)?;
            }
        }
        Ok(arguments)
    }

    fn set(&mut self, option: &str, value: &str) -> Result<(), String> {
        match option {
            "--seed" => self.seed = number(value)?,
            "--cases" => self.cases = u64::from(number::<u32>(value)?),
            "--case" => self.mode = Mode::OneCase(u64::from(number::<u32>(value)?)),
            "--only" => {
                let kind = kinds::named(value).ok_or_else(|| format!("no kind {value}"))?;
                self.only = Some(kind);
            }
            "--fault" => {
                let named = Fault::named(value).ok_or_else(|| format!("no fault {value}"))?;
                self.fault = Some(named);
            }
            _ => return Err(format!("no option {option}")),
        }
        Ok(())
    }
}

fn number<T: FromStr>(value: &str) -> Result<T, String> {
    value.parse().map_err(|_| format!("{value} is no number, or too great"))
}
