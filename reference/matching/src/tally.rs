//! Counts the kinds of cases seen and the answers that differ.
//! At the end it prints both, and whether a kind was too rare.

/// One kind of case.
struct Kind {
    name: String,
    least: u64,
    seen: u64,
    wrong: u64,
}

/// Which kind; given by `Tally::kind`.
#[derive(Clone, Copy, Debug, PartialEq, Eq)]
pub struct KindId(usize);

#[derive(Default)]
pub struct Tally {
    kinds: Vec<Kind>,
    shown: usize,
}

/// So many differences are printed in full.
const SHOWN: usize = 10;

impl Tally {
    pub fn new() -> Tally {
        Tally::default()
    }

    /// A kind that has to be seen at least so often.
    pub fn kind(&mut self, name: impl Into<String>, least: u64) -> KindId {
        self.kinds.push(Kind {
            name: name.into(),
            least,
            seen: 0,
            wrong: 0,
        });
        KindId(self.kinds.len() - 1)
    }

    pub fn saw(&mut self, kind: KindId) {
        self.saw_many(kind, 1);
    }

    pub fn saw_many(&mut self, kind: KindId, times: u64) {
        self.kinds[kind.0].seen += times;
    }

    /// The kind was seen, and its answer was right or wrong.
    pub fn check(&mut self, kind: KindId, right: bool, describe: impl FnOnce() -> String) {
        self.saw(kind);
        if !right {
            self.wrong(kind, describe);
        }
    }

    /// A wrong answer that is described under another kind.
    pub fn mark_wrong(&mut self, kind: KindId) {
        self.kinds[kind.0].wrong += 1;
    }

    fn wrong(&mut self, kind: KindId, describe: impl FnOnce() -> String) {
        self.mark_wrong(kind);
        if self.shown < SHOWN {
            self.shown += 1;
            println!("WRONG {}: {}", self.kinds[kind.0].name, describe());
        }
    }

    pub fn seen(&self, kind: KindId) -> u64 {
        self.kinds[kind.0].seen
    }

    /// Prints all kinds and the last line; the answer is the exit code.
    pub fn finish(&self) -> i32 {
        let mut failed = 0;
        for kind in &self.kinds {
            let verdict = if kind.wrong > 0 {
                "WRONG"
            } else if kind.seen < kind.least {
                "TOO RARE"
            } else {
                "ok"
            };
            if verdict != "ok" {
                failed += 1;
            }
            print!(
                "{:<58} {:>9} seen, at least {:>7}  {verdict}",
                kind.name, kind.seen, kind.least
            );
            if kind.wrong > 0 {
                print!(" ({})", kind.wrong);
            }
            println!();
        }
        println!("{} passed, {failed} failed", self.kinds.len() - failed);
        i32::from(failed > 0)
    }
}

pub fn hex(bytes: &[u8]) -> String {
    bytes.iter().map(|byte| format!("{byte:02x}")).collect()
}
