//! What the last line counts.
use crate::differences::KINDS;

#[derive(Default)]
pub struct Counts {
    /// Laws that were listed alike.
    pub laws: usize,
    /// Of these, laws with needless zeros: they were listed with them and without them.
    pub with_zeros: usize,
    /// By lint.
    pub findings: [usize; 4],
    pub texts: usize,
    /// Pages that were written alike.
    pub pages: usize,
    /// Lines of them with a name that was cut.
    pub cut_names: usize,
    pub formats: usize,
    pub unsettled: usize,
    /// Laws with more findings than the text call and the page call have places for.
    pub without_texts: usize,
    /// By the places in `KINDS`.
    pub differences: [usize; KINDS.len()],
    /// Literal arguments that match only by going back into a bracket.
    pub went_back: usize,
    /// By the refusal's number.
    pub refused: [usize; 19],
    pub too_long: usize,
}

impl Counts {
    pub fn summary(&self, seed: u64) -> String {
        let differences: Vec<String> = KINDS
            .iter()
            .zip(self.differences)
            .map(|(kind, count)| format!("{kind} {count}"))
            .collect();
        let refused: Vec<String> = (1..self.refused.len())
            .filter(|number| self.refused[*number] > 0)
            .map(|number| format!("{number}: {}", self.refused[number]))
            .collect();
        format!(
            "seed {seed}: {} laws agree, {} of them with needless zeros; {} findings {:?}, {} texts, {} pages, \
             {} names cut there, {} formats; named differences: {}; {} unsettled, {} with over 256 findings, \
             {} arguments matched by going back; refused as expected {{{}}}; left out, matching too long: {}",
            self.laws,
            self.with_zeros,
            self.findings.iter().sum::<usize>(),
            self.findings,
            self.texts,
            self.pages,
            self.cut_names,
            self.formats,
            differences.join(", "),
            self.unsettled,
            self.without_texts,
            self.went_back,
            refused.join(", "),
            self.too_long
        )
    }
}
