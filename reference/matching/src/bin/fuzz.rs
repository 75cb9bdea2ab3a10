//! A million calls of the archive with random, cut, flipped and spliced bytes in fenced buffers, and
//! behind them calls by readings with floats of any bits: no access outside a buffer, no write on
//! refusal, every answer that of the second guard.

use matching::archive::format::{reach_length, LONGEST_SHEET, NUMBERS, VARIABLES};
use matching::archive::{self, Answer, ReachCall};
use matching::expected;
use matching::fences::{array, array_mut, floats, watch_fences, Fenced, Side};
use matching::generate::{
    band_record, model, near, question_bytes, shape, sheet_bytes, span_bytes, times, widths, Case,
};
use matching::laws::{kind_of_bytes, kind_of_numbers};
use matching::random::Random;
use matching::readings::{self, any_float, any_reading, readings_for, Report, Sort};
use matching::spans::any_span;
use matching::spoil::{damage, refusal_place, REFUSALS};
use matching::tally::{hex, KindId, Tally};
use second_guard::sheet::Kind;

const CALLS: usize = 1_000_000;
/// The calls by readings, and their seed.
const READING_CALLS: usize = 800_000;
const READING_SEED: u64 = 17;
/// How many sound cases the bytes are made from.
const CORPUS: usize = 500;
/// Of a hundred mangled sheets so many have damaged marks of bands.
const DAMAGED_MARKS: usize = 8;
/// The longest input in bytes.
const ROOM: usize = 4_096;
/// The bytes of an array of numbers.
const NUMBER_BYTES: usize = std::mem::size_of::<[i32; NUMBERS]>();

/// One sound case as bytes.
struct Sound {
    case: Case,
    sheet: Vec<u8>,
    question: Vec<u8>,
    numbers: Vec<u8>,
    start: Vec<u8>,
}

struct Kinds {
    calls: Vec<KindId>,
    accepted: Vec<KindId>,
    refused: Vec<KindId>,
    refusals: Vec<KindId>,
    inputs_kept: KindId,
    outputs: KindId,
    outputs_on_refusal: KindId,
    around: KindId,
    locked: KindId,
    /// Decisions accepted and refused by mark: `QS`, `QR` and others, which are refused.
    decided: [[KindId; 2]; 2],
    other_mark: KindId,
    /// Sheets in bytes or numbers, accepted and refused by kind and for five and six variables.
    sheets: [[KindId; 2]; GROUPS.len()],
    /// Sheets with damaged marks of bands: accepted, refused by 5 and by 7, and otherwise.
    marks: [KindId; 4],
    readings: ReadingKinds,
}

/// What is seen of calls by readings.
struct ReadingKinds {
    alike: KindId,
    codes: [KindId; CODES.len()],
    refusals: [KindId; readings::REFUSALS.len()],
    /// Kinds and values that end before n readings, and that go on behind them.
    short: [KindId; 2],
    long: [KindId; 2],
    /// A call with such a float.
    floats: [KindId; FLOATS.len()],
    inputs_kept: KindId,
    around: KindId,
    locked: KindId,
}

const CODES: [&str; 4] = ["keep", "finest", "spent", "refused"];

/// The sorts of floats that are counted.
const FLOATS: [Sort; 6] = [
    Sort::MinusZero,
    Sort::Subnormal,
    Sort::Limit,
    Sort::Beyond,
    Sort::Infinite,
    Sort::Nan,
];

impl ReadingKinds {
    fn new(tally: &mut Tally) -> ReadingKinds {
        let mut kind = |what: &str, least: u64| {
            let name = format!("guard_decide_readings: {what}");
            tally.kind(name, least)
        };
        ReadingKinds {
            alike: kind("answers alike", READING_CALLS as u64),
            codes: CODES.map(|code| kind(code, 10_000)),
            refusals: readings::REFUSALS.map(|number| kind(&format!("refused by {number}"), 400)),
            short: ["kinds", "values"].map(|what| kind(&format!("{what} end early"), 20_000)),
            long: ["kinds", "values"].map(|what| kind(&format!("{what} beyond n"), 10_000)),
            floats: FLOATS.map(|sort| kind(&format!("a float {}", sort.text()), 10_000)),
            inputs_kept: kind("inputs as they were", READING_CALLS as u64),
            around: kind("no write around a buffer", READING_CALLS as u64),
            locked: kind("buffers that cannot be written", 20_000),
        }
    }
}

/// The kinds of sheets and the numbers of variables that are counted.
const GROUPS: [(Kind, Option<usize>, &str); 4] = [
    (Kind::Fixed, None, "BD"),
    (Kind::Following, None, "BF"),
    (Kind::Following, Some(5), "BF, n = 5"),
    (Kind::Following, Some(6), "BF, n = 6"),
];

/// What comes of damaged marks of bands.
const OF_DAMAGED_MARKS: [&str; 4] = [
    "accepted",
    "refused by 5",
    "refused by 7",
    "refused otherwise",
];

const NAMES: [&str; 6] = [
    "sheet",
    "recovery",
    "decide",
    "sheet_read",
    "sheet_write",
    "reach",
];

impl Kinds {
    fn new(tally: &mut Tally) -> Kinds {
        let mut each = |what: &str, least: u64| -> Vec<KindId> {
            NAMES
                .iter()
                .map(|name| tally.kind(format!("guard_{name}: {what}"), least))
                .collect()
        };
        let calls = each("answers alike", 50_000);
        let accepted = each("accepted", 5_000);
        let refused = each("refused", 5_000);
        Kinds {
            calls,
            accepted,
            refused,
            refusals: REFUSALS
                .map(|number| tally.kind(format!("refused by {number}"), 500))
                .to_vec(),
            inputs_kept: tally.kind("inputs as they were", 1_000_000),
            outputs: tally.kind("outputs alike", 100_000),
            outputs_on_refusal: tally.kind("no write on refusal", 50_000),
            around: tally.kind("no write around a buffer", 1_000_000),
            locked: tally.kind("buffers that cannot be written", 50_000),
            decided: ["QS", "QR"].map(|mark| {
                ["accepted", "refused"]
                    .map(|what| tally.kind(format!("guard_decide {mark}: {what}"), 10_000))
            }),
            other_mark: tally.kind("guard_decide with another mark: refused", 10_000),
            sheets: GROUPS.map(|(_, _, group)| {
                ["accepted", "refused"]
                    .map(|what| tally.kind(format!("sheets marked {group}: {what}"), 5_000))
            }),
            marks: OF_DAMAGED_MARKS
                .map(|what| tally.kind(format!("damaged marks of bands: {what}"), 1_000)),
            readings: ReadingKinds::new(tally),
        }
    }
}

struct Fuzz {
    random: Random,
    tally: Tally,
    kinds: Kinds,
    corpus: Vec<Sound>,
    /// Two buffers that are read and one that is written.
    first: Fenced,
    second: Fenced,
    out: Fenced,
    /// Of a call by readings: the sheet, the head, the kinds and the values.
    of_readings: [Fenced; 4],
    /// The last sheet has damaged marks.
    marks_damaged: bool,
}

fn corpus(random: &mut Random) -> Vec<Sound> {
    (0..CORPUS)
        .map(|number| {
            let most = random.pick(&[3, 6, 10]);
            let times = times(random, most);
            let mut case = model(random, times, VARIABLES);
            let turns = widths(&case.sheet).len();
            let halvings = random.below(turns);
            shape(random, &mut case, halvings);
            let n = case.sheet.n();
            let allowance = random.spread(1, 400) as u32;
            let question = match number % 2 {
                0 => question_bytes(allowance, case.command, &case.measured, n),
                _ => {
                    let span = any_span(random, &case.sheet);
                    span_bytes(allowance, span, &case.measured, n)
                }
            };
            Sound {
                sheet: sheet_bytes(&case.sheet),
                question,
                numbers: bytes_of(&case.sheet.numbers()),
                start: expected::pairs(&near(random, &case), n),
                case,
            }
        })
        .collect()
}

/// The bytes of an array of numbers as it stands in memory.
fn bytes_of(numbers: &[i32; NUMBERS]) -> Vec<u8> {
    numbers.iter().flat_map(|n| n.to_ne_bytes()).collect()
}

fn numbers_of(bytes: &[u8]) -> [i32; NUMBERS] {
    let four = |i: usize| bytes[4 * i..4 * i + 4].try_into().expect("four bytes");
    std::array::from_fn(|i| i32::from_ne_bytes(four(i)))
}

/// The second guard's reading, its numbers as bytes.
fn expected_read(sheet: &[u8], out: &mut [u8]) -> Answer {
    let mut numbers = numbers_of(out);
    let answer = expected::sheet_read(sheet, &mut numbers);
    out.copy_from_slice(&bytes_of(&numbers));
    answer
}

/// Bytes made from some sound ones and others of their sort.
fn mangle(random: &mut Random, sound: &[u8], other: &[u8]) -> Vec<u8> {
    let mut bytes = sound.to_vec();
    match random.below(100) {
        // Sound.
        0..=29 => {}
        // Flipped.
        30..=59 => damage(random, &mut bytes),
        // Cut.
        60..=67 => bytes.truncate(random.below(sound.len() + 1)),
        // Longer.
        68..=72 => {
            let mut more = vec![0; random.below(40)];
            random.fill(&mut more);
            bytes.extend(more);
        }
        // Spliced: a front of one and a back of the other.
        73..=82 => {
            bytes.truncate(random.below(sound.len() + 1));
            bytes.extend(&other[random.below(other.len() + 1)..]);
        }
        // The other's bytes at the same places.
        83..=89 => {
            let end = sound.len().min(other.len());
            let from = random.below(end + 1);
            let to = from + random.below(end - from + 1);
            bytes[from..to].copy_from_slice(&other[from..to]);
        }
        // Random behind a sound front.
        90..=95 => {
            let from = random.below(sound.len() + 1);
            random.fill(&mut bytes[from..]);
        }
        // Random.
        _ => {
            bytes = vec![0; random.below(200)];
            random.fill(&mut bytes);
        }
    }
    bytes.truncate(ROOM);
    bytes
}

/// A sound sheet with any marks in some of its bands; rarely with a fault besides.
fn damaged_marks(random: &mut Random, sound: &Sound) -> Vec<u8> {
    let mut bytes = sound.sheet.clone();
    let sheet = &sound.case.sheet;
    let mark = random.pick(&[*b"BD", *b"BF", *b"BE", *b"FB", [0, 0]]);
    let all = random.percent(30);
    let any = random.below(sheet.bands().len());
    for k in (0..sheet.bands().len()).filter(|&k| all || k == any) {
        let at = band_record(sheet, k);
        bytes[at..at + 2].copy_from_slice(&mark);
    }
    if random.percent(20) {
        damage(random, &mut bytes);
    }
    bytes
}

impl Fuzz {
    fn new() -> Fuzz {
        let mut random = Random::new(7);
        let mut tally = Tally::new();
        Fuzz {
            kinds: Kinds::new(&mut tally),
            corpus: corpus(&mut random),
            random,
            tally,
            first: Fenced::new(ROOM),
            second: Fenced::new(ROOM),
            out: Fenced::new(ROOM),
            of_readings: std::array::from_fn(|_| Fenced::new(ROOM)),
            marks_damaged: false,
        }
    }

    fn side(&mut self) -> Side {
        if self.random.percent(60) {
            Side::End
        } else {
            Side::Start
        }
    }

    /// Counts a decision under its question's mark.
    fn note_mark(&mut self, question: &[u8], answer: Answer) {
        let refused = usize::from(answer.refusal().is_some());
        let kind = match question.get(..2) {
            Some(b"QS") => self.kinds.decided[0][refused],
            Some(b"QR") => self.kinds.decided[1][refused],
            _ => self.kinds.other_mark,
        };
        self.tally.saw(kind);
    }

    /// Counts an answer under its sheet's kind and number of variables.
    fn note_kind(&mut self, of: Option<(Kind, usize)>, answer: Answer) {
        let refused = usize::from(answer.refusal().is_some());
        let Some((kind, n)) = of else {
            return;
        };
        for ((of_kind, of_n, _), kinds) in GROUPS.into_iter().zip(self.kinds.sheets) {
            if of_kind == kind && of_n.is_none_or(|of_n| of_n == n) {
                self.tally.saw(kinds[refused]);
            }
        }
    }

    /// Counts what comes of damaged marks.
    fn note_damaged_marks(&mut self, answer: Answer) {
        let place = match answer.refusal() {
            None => 0,
            Some(5) => 1,
            Some(7) => 2,
            Some(_) => 3,
        };
        self.tally.saw(self.kinds.marks[place]);
    }

    /// Bytes made from the sheets of two sound cases.
    fn mangled_sheet(&mut self, at: usize, other: usize) -> Vec<u8> {
        if self.random.percent(DAMAGED_MARKS) {
            self.marks_damaged = true;
            return damaged_marks(&mut self.random, &self.corpus[at]);
        }
        let (sound, other) = (&self.corpus[at].sheet, &self.corpus[other].sheet);
        mangle(&mut self.random, sound, other)
    }

    fn call(&mut self, call: usize) {
        let at = self.random.below(CORPUS);
        let other = self.random.below(CORPUS);
        self.marks_damaged = false;
        let (one, two) = match call {
            0 | 1 | 3 => (self.mangled_sheet(at, other), Vec::new()),
            2 => {
                // Mostly only one of the two is mangled.
                let sheet = if self.random.percent(60) {
                    self.corpus[at].sheet.clone()
                } else {
                    self.mangled_sheet(at, other)
                };
                let (sound, other) = (&self.corpus[at].question, &self.corpus[other].question);
                (sheet, mangle(&mut self.random, sound, other))
            }
            4 => {
                let (sound, other) = (&self.corpus[at].numbers, &self.corpus[other].numbers);
                let mut numbers = mangle(&mut self.random, sound, other);
                numbers.resize(NUMBER_BYTES, 0);
                (numbers, Vec::new())
            }
            _ => {
                let sheet = if self.random.percent(70) {
                    self.corpus[at].sheet.clone()
                } else {
                    self.mangled_sheet(at, other)
                };
                let (sound, other) = (&self.corpus[at].start, &self.corpus[other].start);
                (sheet, mangle(&mut self.random, sound, other))
            }
        };
        let room = match call {
            3 => NUMBER_BYTES,
            4 => match self.random.below(4) {
                0 => self.random.below(LONGEST_SHEET + 100),
                _ => self.corpus[at].sheet.len() + self.random.below(30),
            },
            5 => match self.random.below(4) {
                0 => self.random.below(reach_length(VARIABLES) + 16),
                _ => reach_length(self.corpus[at].case.sheet.n()) + self.random.below(3),
            },
            _ => 0,
        };
        let place = match self.random.below(12) {
            0 => self.random.bits(),
            1 => u64::MAX - self.random.below(LONGEST_SHEET + 100) as u64,
            2 => self.random.below(LONGEST_SHEET + 100) as u64,
            3..=6 => self.random.below(30) as u64,
            _ => 0,
        };
        let case = &self.corpus[at].case;
        let reach = ReachCall {
            ticks: match self.random.below(20) {
                0 => self.random.bits() as u32,
                1 => 1_001,
                _ => self.random.below(12) as u32,
            },
            width: match self.random.below(20) {
                0 => self.random.bits() as u32,
                1 => self.random.pick(&[0, 1_000, 1_001]),
                _ => 1 + self.random.below(12) as u32,
            },
            law: self.random.below(3) as u32,
            command: match self.random.below(10) {
                0 => self.random.bits() as i32,
                _ => case.command,
            },
        };

        let mut before = vec![0; room];
        self.random.fill(&mut before);
        let sides = [self.side(), self.side(), self.side()];
        self.first.lend(&one, sides[0]);
        self.second.lend(&two, sides[1]);
        // In some of the calls the buffers that are only read cannot be written at all.
        let locked = self.random.below(8) == 0;
        if locked {
            self.first.lock(true);
            self.second.lock(true);
        }
        let (first, second) = (self.first.lent(), self.second.lent());
        let out = self.out.lend(&before, sides[2]);
        let found = match call {
            0 => archive::sheet(first),
            1 => archive::recovery(first),
            2 => archive::decide(first, second),
            3 => archive::sheet_read(first, array_mut(out)),
            4 => archive::sheet_write(array(first), out, place),
            _ => archive::reach(first, reach, second, out),
        };
        if locked {
            self.first.lock(false);
            self.second.lock(false);
        }
        let mut wanted_out = before.clone();
        let wanted = match call {
            0 => expected::sheet(&one),
            1 => expected::recovery(&one),
            2 => expected::decide(&one, &two),
            3 => expected_read(&one, &mut wanted_out),
            4 => expected::sheet_write(&numbers_of(&one), &mut wanted_out, place),
            _ => expected::reach(&one, reach, &two, &mut wanted_out),
        };

        let describe = || {
            format!(
                "guard_{} {} {} place {place} {reach:?} room {room}: wanted {wanted:x?}, found {found:x?}",
                NAMES[call],
                hex(&one),
                hex(&two)
            )
        };
        let right = wanted == found;
        self.tally.check(self.kinds.calls[call], right, describe);
        if let Some(number) = wanted.refusal() {
            self.tally.saw(self.kinds.refused[call]);
            let kind = self.kinds.refusals[refusal_place(number)];
            self.tally.check(kind, right, describe);
        } else {
            self.tally.saw(self.kinds.accepted[call]);
        }
        if call == 2 {
            self.note_mark(&two, wanted);
        }
        let of = match call {
            4 => kind_of_numbers(&numbers_of(&one)),
            _ => kind_of_bytes(&one),
        };
        self.note_kind(of, wanted);
        if self.marks_damaged {
            self.note_damaged_marks(wanted);
        }
        let kept = self.first.lent() == one && self.second.lent() == two;
        self.tally.check(self.kinds.inputs_kept, kept, describe);
        if room > 0 {
            let alike = self.out.lent() == wanted_out;
            let kind = if wanted.refusal().is_some() {
                self.kinds.outputs_on_refusal
            } else {
                self.kinds.outputs
            };
            self.tally.check(kind, alike, describe);
        }
        let around = self.first.surroundings_kept()
            && self.second.surroundings_kept()
            && self.out.surroundings_kept();
        self.tally.check(self.kinds.around, around, describe);
        if locked {
            self.tally.saw(self.kinds.locked);
        }
    }
}

/// The bytes of floats as they stand in memory.
fn bytes_of_floats(values: &[f32]) -> Vec<u8> {
    values.iter().flat_map(|x| x.to_ne_bytes()).collect()
}

fn floats_of(bytes: &[u8]) -> Vec<f32> {
    let float = |four: &[u8]| f32::from_ne_bytes(four.try_into().expect("four bytes"));
    bytes.chunks_exact(4).map(float).collect()
}

/// The bytes before a question's pairs.
fn head_of(sound: &Sound) -> &[u8] {
    let pairs = 8 * sound.case.sheet.n();
    &sound.question[..sound.question.len() - pairs]
}

/// The arguments of a call by readings.
struct Call {
    sheet: Vec<u8>,
    head: Vec<u8>,
    kinds: Vec<u8>,
    values: Vec<f32>,
}

impl Call {
    fn text(&self) -> String {
        let [sheet, head, kinds] = [&self.sheet, &self.head, &self.kinds].map(|of| hex(of));
        let values = readings::bits_text(&self.values);
        format!("guard_decide_readings {sheet} {head} {kinds} {values}")
    }
}

impl Fuzz {
    /// A sheet and a head, of which mostly at most one is mangled, and readings.
    fn any_call(&mut self) -> Call {
        let at = self.random.below(CORPUS);
        let other = self.random.below(CORPUS);
        let sheet = if self.random.percent(75) {
            self.corpus[at].sheet.clone()
        } else {
            self.mangled_sheet(at, other)
        };
        let (sound, other) = (&self.corpus[at], &self.corpus[other]);
        let head = if self.random.percent(75) {
            head_of(sound).to_vec()
        } else {
            mangle(&mut self.random, head_of(sound), head_of(other))
        };
        let Report { kinds, values } = self.any_report(at);
        Call {
            sheet,
            head,
            kinds,
            values,
        }
    }

    /// Readings that come to a sound case's box, some of them any others; then kinds or values are
    /// mangled, cut or longer in some.
    fn any_report(&mut self, at: usize) -> Report {
        let case = &self.corpus[at].case;
        let random = &mut self.random;
        let mut readings = readings_for(random, &case.measured, case.sheet.n());
        let some = random.pick(&[0, 0, 0, 10, 50]);
        for reading in &mut readings {
            if random.percent(some) {
                *reading = any_reading(random);
            }
        }
        let mut report = Report::of(random, &readings);
        if random.percent(30) {
            let other: Vec<u8> = (0..8).map(|_| random.pick(&[0, 1, 2, 3])).collect();
            report.kinds = mangle(random, &report.kinds, &other);
        }
        if random.percent(30) {
            let other: Vec<f32> = (0..16).map(|_| any_float(random)).collect();
            let [sound, other] = [&report.values, &other].map(|floats| bytes_of_floats(floats));
            report.values = floats_of(&mangle(random, &sound, &other));
        }
        report
    }

    /// One call by readings.
    fn call_readings(&mut self) {
        let call = self.any_call();
        let values = bytes_of_floats(&call.values);
        let parts = [&call.sheet, &call.head, &call.kinds, &values];
        for (place, part) in parts.into_iter().enumerate() {
            let side = self.side();
            self.of_readings[place].lend(part, side);
        }
        // In some of the calls the buffers cannot be written at all.
        let locked = self.random.below(8) == 0;
        if locked {
            self.of_readings.iter_mut().for_each(|of| of.lock(true));
        }
        let [sheet, head, kinds, floats_lent] = self.of_readings.each_mut().map(Fenced::lent);
        let found = archive::decide_readings(sheet, head, kinds, floats(floats_lent));
        if locked {
            self.of_readings.iter_mut().for_each(|of| of.lock(false));
        }
        let wanted = expected::decide_readings(&call.sheet, &call.head, &call.kinds, &call.values);
        let describe = || format!("{}: wanted {wanted:x?}, found {found:x?}", call.text());
        let of = &self.kinds.readings;
        self.tally.check(of.alike, wanted == found, describe);
        let lent = self.of_readings.each_mut().map(Fenced::lent);
        let kept = lent.into_iter().eq(parts.map(|part| &part[..]));
        self.tally.check(of.inputs_kept, kept, describe);
        let buffers = self.of_readings.iter_mut();
        let around = buffers.map(Fenced::surroundings_kept).all(|kept| kept);
        self.tally.check(of.around, around, describe);
        if locked {
            self.tally.saw(of.locked);
        }
        self.note_readings(&call, wanted);
    }

    /// Counts an answer to a call by readings, and what the call had.
    fn note_readings(&mut self, call: &Call, answer: Answer) {
        let of = &self.kinds.readings;
        self.tally.saw(of.codes[answer.code() as usize]);
        if let Some(number) = answer.refusal() {
            let place = readings::REFUSALS.iter().position(|&all| all == number);
            self.tally
                .saw(of.refusals[place.expect("a refusal of readings")]);
        }
        let n = call.sheet.get(2).map_or(0, |&n| usize::from(n));
        let lengths = [(call.kinds.len(), n), (call.values.len(), 2 * n)];
        for (place, (length, all)) in lengths.into_iter().enumerate() {
            if length < all {
                self.tally.saw(of.short[place]);
            } else if length > all {
                self.tally.saw(of.long[place]);
            }
        }
        for (sort, kind) in FLOATS.into_iter().zip(of.floats) {
            if call.values.iter().any(|&x| Sort::of(x) == sort) {
                self.tally.saw(kind);
            }
        }
    }
}

fn main() {
    watch_fences();
    let mut fuzz = Fuzz::new();
    for _ in 0..CALLS {
        let call = fuzz.random.pick(&[0, 0, 1, 2, 2, 2, 3, 4, 4, 5, 5]);
        fuzz.call(call);
    }
    fuzz.random = Random::new(READING_SEED);
    for _ in 0..READING_CALLS {
        fuzz.call_readings();
    }
    std::process::exit(fuzz.tally.finish());
}
