//! Questions and answers (document 01, "The questions, and the number when the answer is no").

/// A question: the number given when its answer is no, and the test itself.
pub type Question<Input> = (u8, fn(&Input) -> bool);

/// The number of the first question whose answer is no, or 0. Later questions are not asked, so a test may rely on the
/// tests before it.
pub fn first_no<Input: ?Sized>(questions: &[Question<Input>], input: &Input) -> u8 {
    questions.iter().find(|(_, test)| !test(input)).map_or(0, |(number, _)| *number)
}

/// The first answer that is not 0, or 0. Each answer belongs to one list of questions. The lists are asked one after
/// another.
pub fn first_refusal(answers: &[u8]) -> u8 {
    answers.iter().copied().find(|answer| *answer != 0).unwrap_or(0)
}

/// Does the list hold the labels 0 to 7, each once? (Questions 6 and 25.)
pub fn is_each_label_once(labels: &[u8]) -> bool {
    let mut sorted = labels.to_vec();
    sorted.sort_unstable();
    sorted == [0, 1, 2, 3, 4, 5, 6, 7]
}
