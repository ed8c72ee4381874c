//! A refusal: the question whose answer is no, and the place.

#[derive(Clone, Copy, Debug, PartialEq, Eq)]
pub struct Refusal {
    pub question: u8,
    pub place: usize,
}

impl Refusal {
    /// The layer goes by the number of the question.
    pub fn layer(&self) -> &'static str {
        match self.question {
            1..=5 => "sheet",
            6..=13 => "book",
            14..=17 => "RC",
            _ => "concession",
        }
    }
}

/// Passes if `yes`, else refuses with the question at place 0.
pub fn ask(question: u8, yes: bool) -> Result<(), Refusal> {
    ask_at(question, 0, yes)
}

/// Passes if `yes`, else refuses with the question at the place.
pub fn ask_at(question: u8, place: usize, yes: bool) -> Result<(), Refusal> {
    if yes {
        Ok(())
    } else {
        Err(Refusal { question, place })
    }
}

/// Asks a question of every item: refuses at the lowest place that fails.
pub fn ask_each<T>(
    question: u8,
    items: impl IntoIterator<Item = T>,
    passes: impl Fn(T) -> bool,
) -> Result<(), Refusal> {
    match items.into_iter().position(|item| !passes(item)) {
        None => Ok(()),
        Some(place) => Err(Refusal { question, place }),
    }
}
