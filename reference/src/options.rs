//! Command lines of the form `--name value`.

use std::collections::BTreeMap;
use std::str::FromStr;

/// The options of a command line.
pub struct Options {
    values: BTreeMap<String, String>,
}

impl Options {
    /// Reads pairs of name and value; any name but those allowed is an error.
    pub fn read(
        arguments: impl Iterator<Item = String>,
        allowed: &[&str],
    ) -> Result<Options, String> {
        let mut arguments = arguments;
        let mut values = BTreeMap::new();
        while let Some(argument) = arguments.next() {
            let name = argument.strip_prefix("--").filter(|name| allowed.contains(name));
            let name = name.ok_or_else(|| format!("unknown argument {argument}"))?;
            let value = arguments.next().ok_or_else(|| format!("--{name} needs a value"))?;
            values.insert(name.to_string(), value);
        }
        Ok(Options { values })
    }

    /// The value of an option.
    pub fn get<T: FromStr>(&self, name: &str) -> Result<T, String> {
        let value = self.values.get(name).ok_or_else(|| format!("--{name} is missing"))?;
        value.parse().map_err(|_| format!("--{name} can't be {value}"))
    }

    /// The value of an option that may be left out.
    pub fn get_or<T: FromStr>(&self, name: &str, default: T) -> Result<T, String> {
        if self.values.contains_key(name) {
            self.get(name)
        } else {
            Ok(default)
        }
    }
}
