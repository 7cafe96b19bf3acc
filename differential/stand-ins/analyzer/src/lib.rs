//! Stand-in for `dt_tools_analyzer`: 01's records hold strings and characters already read, so
//! reading them changes nothing and cannot fail.

pub mod string {
    use std::fmt;

    #[derive(Debug)]
    pub enum Unread {}

    impl fmt::Display for Unread {
        fn fmt(&self, _: &mut fmt::Formatter<'_>) -> fmt::Result {
            match *self {}
        }
    }

    pub fn interpret_escaped_string(text: &str) -> Result<String, Unread> {
        Ok(text.to_owned())
    }

    /// A character token of the stand-in tree holds just its character.
    pub fn interpret_escaped_char(text: &str) -> Result<char, Unread> {
        Ok(text.chars().next().expect("a character token holds a character"))
    }
}
