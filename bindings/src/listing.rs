//! The findings of a law with their texts, in owned values.
use crate::{
    decode, findings, text, Finding, Refusal, Settings, FINDING_WORDS, STORE_WORDS, TEXT_BYTES,
    TEXT_FINDINGS,
};

/// A finding and its text.
#[derive(Clone, Debug, PartialEq, Eq, Hash)]
pub struct Listed {
    /// The finding.
    pub finding: Finding,
    /// Its text.
    pub text: String,
}

/// What [`list`] gives.
#[derive(Clone, Debug, PartialEq, Eq, Hash)]
pub struct Listing {
    /// The findings, in the order of [`findings`].
    pub findings: Vec<Listed>,
    /// The number of rounds in which formats were inferred.
    pub rounds: usize,
    /// Whether the last of them changed nothing. What is proved of [`findings`] asks for this.
    pub settled: bool,
}

/// Lists the findings of a law with their texts, in buffers of its own.
///
/// It makes one findings call and one text call for each finding. Fewer calls cannot give this: the findings call writes no
/// text, and a text call writes one text and none of the finding's eight words. Each text call lists the law anew, so that a
/// law that is slow to list takes as many times longer.
///
/// Over [`TEXT_FINDINGS`] findings are [`Refusal::Findings`], since no text call has places for them; [`findings`] lists them
/// without their texts. [`Refusal::Store`], [`Refusal::NoFinding`], [`Refusal::Text`] and [`Refusal::Settings`] are never
/// answered.
///
/// ```
/// use bilzarko::{list, Mode, Settings};
///
/// let law = std::fs::read("../samples/bearing.law")?;
/// for listed in list(&Settings::new(Mode::Classic), &law)?.findings {
///     let finding = listed.finding;
///     println!("{}-{} {}: {}", finding.span_start, finding.span_end, finding.severity, listed.text);
/// }
/// # Ok::<(), Box<dyn std::error::Error>>(())
/// ```
pub fn list(settings: &Settings, law: &[u8]) -> Result<Listing, Refusal> {
    let mut store = vec![0; STORE_WORDS];
    let mut words = vec![0; FINDING_WORDS * TEXT_FINDINGS];
    let mut bytes = vec![0; TEXT_BYTES];
    let count = findings(settings, law, &mut store, &mut words)?;
    let mut listed = Vec::with_capacity(count.findings);
    for (position, finding) in decode(&words).take(count.findings).enumerate() {
        // The text fits, so that its length is at most that of the buffer.
        let length = text(settings, law, &mut store, position, &mut bytes)?;
        listed.push(Listed {
            finding,
            text: String::from_utf8_lossy(&bytes[..length]).into_owned(),
        });
    }
    Ok(Listing {
        findings: listed,
        rounds: count.rounds,
        settled: count.settled,
    })
}
