//! Fields taken from the text that Debug prints, from left to right.

pub struct Scan<'a>(&'a str);

impl<'a> Scan<'a> {
    pub fn new(text: &'a str) -> Self {
        Scan(text)
    }

    /// Goes behind the next occurrence of the words.
    pub fn past(&mut self, words: &str) {
        let at = self.0.find(words).unwrap_or_else(|| panic!("Debug text without {words}"));
        self.0 = &self.0[at + words.len()..];
    }

    /// The decimal behind the words.
    pub fn number(&mut self, words: &str) -> u64 {
        self.past(words);
        let end = self.0.find(|c: char| !c.is_ascii_digit()).unwrap_or(self.0.len());
        let value = self.0[..end].parse().expect("a number in Debug text");
        self.0 = &self.0[end..];
        value
    }

    /// Which of the listed words stands behind the words.
    pub fn word_of(&mut self, words: &str, listed: &[&str]) -> u8 {
        self.past(words);
        let end = self.0.find(|c: char| !c.is_ascii_alphanumeric()).unwrap_or(self.0.len());
        let word = &self.0[..end];
        self.0 = &self.0[end..];
        listed.iter().position(|each| *each == word).expect("a listed word in Debug text") as u8
    }
}
