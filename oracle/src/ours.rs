//! The three calls that list, with buffers that are filled beforehand.
use bilzarko::{Count, FINDING_WORDS, PAGE_BYTES, Refusal, STORE_WORDS, Settings, TEXT_BYTES};

/// More findings than a law within the limits has: two for each of 512 calls, one for each of 128 sentences twice.
const MOST_FINDINGS: usize = 1_280;
/// Words and bytes that no call writes by chance all over a buffer.
pub const WORD: u32 = 0xa5a5_5a5a;
pub const BYTE: u8 = 0xa5;
/// Store words that no call may touch.
const PAST_STORE: usize = 5;
/// The bytes of a page's buffer: more than any page has.
pub const PAGE_ROOM: usize = PAGE_BYTES + 5;

pub type Words = [u32; FINDING_WORDS];

// The safe crate has no settings that are refused.
unsafe extern "C" {
    fn bilzarko_findings(
        mode: u32,
        overrides: *const u32,
        overrides_length: usize,
        law: *const u8,
        law_length: usize,
        store: *mut u32,
        store_length: usize,
        words: *mut u32,
        words_length: usize,
        answer: *mut [u64; 3],
    ) -> u32;

    fn bilzarko_text(
        mode: u32,
        overrides: *const u32,
        overrides_length: usize,
        law: *const u8,
        law_length: usize,
        store: *mut u32,
        store_length: usize,
        position: usize,
        text: *mut u8,
        text_length: usize,
        answer: *mut u64,
    ) -> u32;

    fn bilzarko_page(
        mode: u32,
        overrides: *const u32,
        overrides_length: usize,
        law: *const u8,
        law_length: usize,
        store: *mut u32,
        store_length: usize,
        page: *mut u8,
        page_length: usize,
        answer: *mut u64,
    ) -> u32;
}

pub struct Buffers {
    pub store: Vec<u32>,
    pub words: Vec<u32>,
    pub text: Vec<u8>,
    pub page: Vec<u8>,
}

impl Buffers {
    pub fn new() -> Buffers {
        Buffers {
            store: vec![WORD; STORE_WORDS + PAST_STORE],
            words: vec![WORD; FINDING_WORDS * MOST_FINDINGS],
            text: vec![BYTE; TEXT_BYTES],
            page: vec![BYTE; PAGE_ROOM],
        }
    }

    /// The words that a call fills.
    pub fn store(&self) -> &[u32] {
        &self.store[..STORE_WORDS]
    }

    /// The findings of a law, or its refusal. The store is then as the call left it.
    pub fn findings(
        &mut self,
        settings: &Settings,
        law: &[u8],
    ) -> Result<(Count, Vec<Words>), Refusal> {
        self.findings_within(settings, law, FINDING_WORDS * MOST_FINDINGS)
    }

    /// The findings of a law, where the buffer has so many words.
    pub fn findings_within(
        &mut self,
        settings: &Settings,
        law: &[u8],
        room: usize,
    ) -> Result<(Count, Vec<Words>), Refusal> {
        self.store.fill(WORD);
        let answer = bilzarko::findings(settings, law, &mut self.store, &mut self.words[..room]);
        self.check_store(answer.err());
        let written = FINDING_WORDS * answer.map_or(0, |count| count.findings);
        let (words, rest) = self.words.split_at_mut(written);
        assert!(
            rest.iter().all(|word| *word == WORD),
            "words past the findings changed"
        );
        let found = words
            .chunks_exact(FINDING_WORDS)
            .map(|eight| eight.try_into().expect("eight words"))
            .collect();
        words.fill(WORD);
        Ok((answer?, found))
    }

    /// The text of a finding.
    pub fn text(
        &mut self,
        settings: &Settings,
        law: &[u8],
        position: usize,
    ) -> Result<String, Refusal> {
        self.text_within(settings, law, position, TEXT_BYTES)
    }

    /// The text of a finding, where the buffer has so many bytes.
    pub fn text_within(
        &mut self,
        settings: &Settings,
        law: &[u8],
        position: usize,
        room: usize,
    ) -> Result<String, Refusal> {
        self.store.fill(WORD);
        let answer = bilzarko::text(
            settings,
            law,
            &mut self.store,
            position,
            &mut self.text[..room],
        );
        self.check_store(answer.err());
        let (text, rest) = self.text.split_at_mut(answer.unwrap_or(0));
        assert!(
            rest.iter().all(|byte| *byte == BYTE),
            "bytes past the text changed"
        );
        let told = String::from_utf8(text.to_vec()).expect("the text is ASCII");
        text.fill(BYTE);
        answer.map(|_| told)
    }

    /// The pages of a law.
    pub fn page(&mut self, settings: &Settings, law: &[u8]) -> Result<String, Refusal> {
        self.page_within(settings, law, PAGE_ROOM)
    }

    /// The pages of a law, where the buffer has so many bytes.
    pub fn page_within(
        &mut self,
        settings: &Settings,
        law: &[u8],
        room: usize,
    ) -> Result<String, Refusal> {
        self.store.fill(WORD);
        let answer = bilzarko::page(settings, law, &mut self.store, &mut self.page[..room]);
        self.check_store(answer.err());
        let (page, rest) = self.page.split_at_mut(answer.unwrap_or(0));
        assert!(
            rest.iter().all(|byte| *byte == BYTE),
            "bytes past the pages changed"
        );
        let printed = String::from_utf8(page.to_vec()).expect("the pages are ASCII");
        page.fill(BYTE);
        answer.map(|_| printed)
    }

    /// The three calls with a store of one word too few.
    pub fn without_store(&mut self, settings: &Settings, law: &[u8]) -> [Option<Refusal>; 3] {
        self.store.fill(WORD);
        let short = &mut self.store[..STORE_WORDS - 1];
        let found = bilzarko::findings(settings, law, short, &mut self.words);
        let told = bilzarko::text(settings, law, short, 0, &mut self.text);
        let printed = bilzarko::page(settings, law, short, &mut self.page);
        let kept = self
            .words
            .iter()
            .chain(&self.store)
            .all(|word| *word == WORD);
        assert!(
            kept && self.text.iter().chain(&self.page).all(|byte| *byte == BYTE),
            "a buffer changed after 15"
        );
        [found.err(), told.err(), printed.err()]
    }

    /// The three calls with settings as words, for a law that is refused in any case. All buffers must stay as they are.
    pub fn refused_with_words(&mut self, mode: u32, overrides: &[u32], law: &[u8]) -> [u32; 3] {
        self.store.fill(WORD);
        let Buffers {
            store,
            words,
            text,
            page,
        } = self;
        let (mut counts, mut bytes, mut printed) = ([0; 3], 0, 0);
        // SAFETY: each pointer and number are those of one slice, and the slices are apart.
        let numbers = unsafe {
            let (o, l) = (overrides.as_ptr(), law.as_ptr());
            let (s, w) = (store.as_mut_ptr(), words.as_mut_ptr());
            let (t, p) = (text.as_mut_ptr(), page.as_mut_ptr());
            let (os, ls, ss) = (overrides.len(), law.len(), store.len());
            [
                bilzarko_findings(mode, o, os, l, ls, s, ss, w, words.len(), &mut counts),
                bilzarko_text(mode, o, os, l, ls, s, ss, 0, t, text.len(), &mut bytes),
                bilzarko_page(mode, o, os, l, ls, s, ss, p, page.len(), &mut printed),
            ]
        };
        let kept = words.iter().chain(store.iter()).all(|word| *word == WORD);
        assert!(
            kept && text.iter().chain(page.iter()).all(|byte| *byte == BYTE),
            "a buffer changed after {numbers:?}"
        );
        assert!(
            counts == [0; 3] && bytes == 0 && printed == 0,
            "an answer was given with {numbers:?}"
        );
        numbers
    }

    /// What must hold of the store for the refusal alone. Where it is filled, its words are compared elsewhere.
    fn check_store(&self, refusal: Option<Refusal>) {
        let (store, rest) = self.store.split_at(STORE_WORDS);
        assert!(
            rest.iter().all(|word| *word == WORD),
            "store words past 8,320 changed"
        );
        match refusal.map(Refusal::number) {
            None | Some(11..=13 | 18) => assert!(!store.contains(&WORD), "the store is not filled"),
            Some(10) => assert!(
                store.iter().all(|word| *word == 0),
                "the store is not zero after 10"
            ),
            Some(number) => assert!(
                store.iter().all(|word| *word == WORD),
                "the store changed after {number}"
            ),
        }
    }
}
