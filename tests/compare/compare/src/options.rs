//! Options of a command, each with a value, each at most once.

use std::collections::HashMap;

/// The options that were given.
pub struct Options(HashMap<String, String>);

impl Options {
    /// Reads names and values in turn; none where a name is not among `names` or comes twice.
    pub fn read(args: &[String], names: &[&str]) -> Option<Options> {
        let mut found = HashMap::new();
        for pair in args.chunks(2) {
            let [name, value] = pair else { return None };
            let known = names.contains(&name.as_str());
            if !known || found.insert(name.clone(), value.clone()).is_some() {
                return None;
            }
        }
        Some(Options(found))
    }

    /// A number, or the default; none where the value is no number.
    pub fn number(&self, name: &str, default: u64) -> Option<u64> {
        self.0.get(name).map_or(Some(default), |v| v.parse().ok())
    }

    pub fn text(&self, name: &str) -> Option<&str> {
        self.0.get(name).map(String::as_str)
    }
}
