
/// Added while building: a way to what is private above.
pub mod reach {
    pub fn strip_base<'a>(this: &'a str, base: &str) -> Option<&'a str> {
        super::strip_base(this, base)
    }
}
