//! Arguments of the form `--name value`.

pub struct Options {
    pairs: Vec<(String, String)>,
}

impl Options {
    /// Reads `--name value` pairs. Only the names in the list are taken.
    pub fn read(
        arguments: impl Iterator<Item = String>,
        names: &[&str],
    ) -> Result<Options, String> {
        let mut pairs = Vec::new();
        let mut arguments = arguments;
        while let Some(flag) = arguments.next() {
            let name = flag.strip_prefix("--").unwrap_or("");
            if !names.contains(&name) {
                return Err(format!("unknown argument `{flag}`"));
            }
            let value = arguments.next().ok_or_else(|| format!("no value after `{flag}`"))?;
            pairs.push((name.to_string(), value));
        }
        Ok(Options { pairs })
    }

    pub fn text(&self, name: &str) -> Option<&str> {
        let given = self.pairs.iter().find(|(known, _)| known == name);
        given.map(|(_, value)| value.as_str())
    }

    pub fn needed(&self, name: &str) -> Result<&str, String> {
        self.text(name).ok_or_else(|| format!("`--{name}` is needed"))
    }

    pub fn number(&self, name: &str) -> Result<Option<u64>, String> {
        let Some(text) = self.text(name) else {
            return Ok(None);
        };
        let number = text.parse().map_err(|_| format!("`{text}` is no number for `--{name}`"));
        number.map(Some)
    }
}

#[cfg(test)]
mod tests {
    use super::Options;

    fn read(words: &[&str]) -> Result<Options, String> {
        Options::read(words.iter().map(|word| word.to_string()), &["rig", "seed"])
    }

    #[test]
    fn pairs() {
        let options = read(&["--seed", "7", "--rig", "path"]).expect("right arguments");
        assert_eq!(options.number("seed"), Ok(Some(7)));
        assert_eq!(options.needed("rig"), Ok("path"));
        assert_eq!(options.number("count"), Ok(None));
    }

    #[test]
    fn wrong_arguments() {
        assert!(read(&["--other", "7"]).is_err());
        assert!(read(&["seed", "7"]).is_err());
        assert!(read(&["--seed"]).is_err());
        let options = read(&["--seed", "x"]).expect("the form is right");
        assert!(options.number("seed").is_err());
        assert!(options.needed("rig").is_err());
    }
}
