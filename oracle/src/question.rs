//! A question to the port: a name and its arguments, in the notation of docs/ROWS.md.

use std::fmt;

#[derive(Clone, Debug, PartialEq)]
pub enum Arg {
    Number(u64),
    List(Vec<u64>),
}

#[derive(Clone, Debug, PartialEq)]
pub struct Question {
    pub name: &'static str,
    pub args: Vec<Arg>,
}

impl fmt::Display for Arg {
    fn fmt(&self, f: &mut fmt::Formatter) -> fmt::Result {
        match self {
            Arg::Number(n) => write!(f, "{n}"),
            Arg::List(l) => {
                f.write_str("[")?;
                for (i, n) in l.iter().enumerate() {
                    if i > 0 {
                        f.write_str(" ")?;
                    }
                    write!(f, "{n}")?;
                }
                f.write_str("]")
            }
        }
    }
}

impl fmt::Display for Question {
    fn fmt(&self, f: &mut fmt::Formatter) -> fmt::Result {
        f.write_str(self.name)?;
        for a in &self.args {
            write!(f, " {a}")?;
        }
        Ok(())
    }
}

impl From<u64> for Arg {
    fn from(n: u64) -> Arg {
        Arg::Number(n)
    }
}

impl From<bool> for Arg {
    fn from(b: bool) -> Arg {
        Arg::Number(b as u64)
    }
}

impl From<Vec<u64>> for Arg {
    fn from(l: Vec<u64>) -> Arg {
        Arg::List(l)
    }
}

impl From<&[u64]> for Arg {
    fn from(l: &[u64]) -> Arg {
        Arg::List(l.to_vec())
    }
}

/// A question from its name and arguments: `ask!("minimum", a, b)`.
#[macro_export]
macro_rules! ask {
    ($name:expr $(, $arg:expr)* $(,)?) => {
        $crate::question::Question { name: $name, args: vec![$($crate::question::Arg::from($arg)),*] }
    };
}

/// An answer line from its parts: `tell!(refusal, state)`.
#[macro_export]
macro_rules! tell {
    ($($arg:expr),* $(,)?) => {
        [$($crate::question::Arg::from($arg).to_string()),*].join(" ")
    };
}

impl Question {
    pub fn number(&self, i: usize) -> u64 {
        match &self.args[i] {
            Arg::Number(n) => *n,
            Arg::List(_) => panic!("argument {i} of {} is a list", self.name),
        }
    }

    pub fn list(&self, i: usize) -> &[u64] {
        match &self.args[i] {
            Arg::List(l) => l,
            Arg::Number(_) => panic!("argument {i} of {} is a number", self.name),
        }
    }

    pub fn numbers(&self, from: usize) -> Vec<u64> {
        (from..self.args.len()).map(|i| self.number(i)).collect()
    }
}
