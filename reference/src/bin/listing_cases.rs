//! `make_listing_cases FOLDER`: the cases on which the floor listing is compared, a folder for each.
//! A case names text that its listing has, and the program stops where the second guard's listing has it not.

use second_guard::boxes::{StateBox, VARIABLES};
use second_guard::listing::{listing, questions as questions_of};
use second_guard::sheet::{self, Band, BandLaw, CommandRange, Row, Sheet};
use std::path::Path;
use std::{env, fs};

/// What stands under a file's name.
enum Place {
    Missing,
    Folder,
    File(Vec<u8>),
}

struct Case {
    name: String,
    says: String,
    sheet: Place,
    asks: Place,
}

fn interval(lower: i32, upper: i32) -> StateBox {
    let mut sides = StateBox::default();
    sides.lower[0] = lower.into();
    sides.upper[0] = upper.into();
    sides
}

/// Document 01's sheet A.
fn sheet_a() -> Sheet {
    let mut a = Sheet {
        variables: 1,
        band_count: 1,
        unsafe_count: 1,
        delta: 4,
        alpha: 4,
        rho: 4,
        commands: CommandRange {
            least: -25,
            greatest: 25,
        },
        recovery: interval(-100, 100),
        ..Sheet::default()
    };
    a.caps[0] = 5;
    a.bands[0].edge = sheet::FIRST_EDGE;
    a.bands[0].rows[0] = Row {
        b: 4,
        q: 20,
        ..Row::default()
    };
    a.bands[0].rows[0].a[0] = -1;
    a.unsafe_boxes[0] = interval(130, 2_000_000);
    a
}

/// Sheet A with the plain commands -x/20 within -5..5.
fn a_with_a_law() -> Sheet {
    let mut a = sheet_a();
    let band = &mut a.bands[0];
    (band.safety.least, band.safety.greatest) = (-5, 5);
    band.law.divisor = 20;
    band.law.coefficients[0] = -1;
    a
}

/// Every count is the greatest.
fn all_counts() -> Sheet {
    let mut all = sheet_a();
    all.variables = VARIABLES as i32;
    all.band_count = 8;
    all.unsafe_count = 8;
    all.band_variable = 2;
    all.caps = [5; VARIABLES];
    all.recovery.lower = [-100; VARIABLES];
    all.recovery.upper = [100; VARIABLES];
    for k in 0..8 {
        all.bands[k] = Band {
            edge: [sheet::FIRST_EDGE, -300, -200, -50, 0, 50, 200, 300][k],
            ..Band::default()
        };
        for i in 0..VARIABLES {
            all.bands[k].rows[i].a[i] = -1;
            all.bands[k].rows[i].b = 4;
            all.bands[k].rows[i].q = 20 + k as i32;
        }
        all.unsafe_boxes[k].lower = [130 + k as i64; VARIABLES];
        all.unsafe_boxes[k].upper = [2_000_000; VARIABLES];
    }
    all
}

/// A sheet as long as any: the same with laws.
fn longest() -> Sheet {
    let mut all = all_counts();
    for (constant, band) in (-4..).zip(&mut all.bands) {
        (band.safety.least, band.safety.greatest) = (-2, 3);
        band.law = BandLaw {
            coefficients: [-1, 2, 0, -3, 1, 1],
            constant,
            divisor: 100,
        };
    }
    all
}

fn bytes(sheet: &Sheet) -> Vec<u8> {
    let mut bytes = vec![0; sheet.length()];
    sheet::write(sheet, &mut bytes, 0).expect("the values are allowed");
    bytes
}

fn question(mark: &[u8; 2], allowance: u32, commands: &[i32], pairs: &[(i32, i32)]) -> Vec<u8> {
    let mut bytes = mark.to_vec();
    bytes.extend(allowance.to_be_bytes());
    bytes.extend(commands.iter().flat_map(|command| command.to_be_bytes()));
    for (lower, upper) in pairs {
        bytes.extend(lower.to_be_bytes());
        bytes.extend(upper.to_be_bytes());
    }
    bytes
}

fn ask(lower: i32, upper: i32, command: i32, allowance: u32) -> Vec<u8> {
    question(b"QS", allowance, &[command], &[(lower, upper)])
}

/// A question about a span of commands, from the state 0.
fn ask_span(least: i32, greatest: i32) -> Vec<u8> {
    question(b"QR", 100, &[least, greatest], &[(0, 0)])
}

/// Document 01's five questions.
fn asks_a() -> Vec<u8> {
    [
        ask(0, 0, 25, 100),
        ask(95, 100, 25, 100),
        ask(95, 100, 25, 4),
        ask(131, 131, 0, 100),
        ask(0, 0, 26, 100),
    ]
    .concat()
}

/// Numbers that only look random: the same ones in every run.
struct Numbers(u64);

impl Numbers {
    fn from_to(&mut self, least: i32, greatest: i32) -> i32 {
        self.0 = self
            .0
            .wrapping_mul(6_364_136_223_846_793_005)
            .wrapping_add(1_442_695_040_888_963_407);
        let span = (greatest - least + 1) as u64;
        least + ((self.0 >> 33) % span) as i32
    }
}

/// Questions of n variables with both marks, a few of them refused.
fn many(count: usize, n: usize) -> Vec<u8> {
    let mut numbers = Numbers(n as u64);
    let mut asks = Vec::new();
    for _ in 0..count {
        let allowance = numbers.from_to(0, 30) as u32;
        let command = numbers.from_to(-26, 26);
        let greatest = command + numbers.from_to(-1, 9);
        let pairs: Vec<(i32, i32)> = (0..n)
            .map(|_| {
                let lower = numbers.from_to(-150, 150);
                (lower, lower + numbers.from_to(-1, 40))
            })
            .collect();
        asks.extend(match numbers.from_to(0, 1) {
            0 => question(b"QS", allowance, &[command], &pairs),
            _ => question(b"QR", allowance, &[command, greatest], &pairs),
        });
    }
    asks
}

/// Questions of both marks that take just so many bytes, an even number.
fn filling(size: usize) -> Vec<u8> {
    let (one, two) = (ask(0, 0, 25, 100), ask_span(-25, 25));
    let fits = |spans: &usize| (size - spans * two.len()).is_multiple_of(one.len());
    let mut counts = 0..=size / two.len();
    let spans = counts.find(fits).expect("a size that they can have");
    let ones = (size - spans * two.len()) / one.len();
    [two.repeat(spans), one.repeat(ones)].concat()
}

/// Sheet A with other bytes from a place on.
fn patched(at: usize, new: &[u8]) -> Vec<u8> {
    let mut sheet = bytes(&sheet_a());
    sheet[at..at + new.len()].copy_from_slice(new);
    sheet
}

/// The same of the sheet with a law.
fn law_patched(at: usize, new: &[u8]) -> Vec<u8> {
    let mut sheet = bytes(&a_with_a_law());
    sheet[at..at + new.len()].copy_from_slice(new);
    sheet
}

/// The longest sheet with a mark of no law on its last band.
fn another_mark() -> Vec<u8> {
    let mut sheet = bytes(&longest());
    let mut marks = (0..sheet.len()).filter(|&at| sheet[at..].starts_with(b"BF"));
    let last = marks.next_back().expect("a band");
    sheet[last + 1] = b'D';
    sheet
}

fn files(name: &str, says: &str, sheet: Vec<u8>, asks: Vec<u8>) -> Case {
    let (sheet, asks) = (Place::File(sheet), Place::File(asks));
    places(name, says, sheet, asks)
}

fn places(name: &str, says: &str, sheet: Place, asks: Place) -> Case {
    Case {
        name: name.into(),
        says: says.into(),
        sheet,
        asks,
    }
}

/// Files that are missing, folders, empty or too long.
fn file_cases() -> Vec<Case> {
    use Place::{File, Folder, Missing};
    let a = || File(bytes(&sheet_a()));
    let asks = || File(asks_a());
    let mut cases = vec![
        places("missing_sheet", "sheet refused 1\n", Missing, asks()),
        places("missing_asks", "sheet pass 4 1\n", a(), Missing),
        places("missing_both", "sheet refused 1\n", Missing, Missing),
        places("folder_for_sheet", "sheet refused 1\n", Folder, asks()),
        places("folder_for_asks", "sheet pass 4 1\n", a(), Folder),
        places("empty_sheet", "sheet refused 1\n", File(vec![]), asks()),
        places("empty_asks", "sheet pass 4 1\n", a(), File(vec![])),
    ];
    for size in [
        71, 78, 1_746, 1_747, 1_890, 1_891, 4_095, 4_096, 4_097, 100_000,
    ] {
        let mut long = bytes(&sheet_a());
        long.resize(size, 0);
        let name = format!("a_in_{size}_bytes");
        cases.push(files(&name, "sheet refused 5\n", long, asks_a()));
    }
    for size in [1_889, 1_891, 4_096, 4_097] {
        let mut long = bytes(&longest());
        long.resize(size, 0);
        let name = format!("longest_in_{size}_bytes");
        cases.push(files(&name, "sheet refused 5\n", long, asks_a()));
    }
    let zeros = vec![0; 5_000];
    cases.push(files("long_zeros", "sheet refused 1\n", zeros, asks_a()));
    cases
}

/// The bytes of a box's record where n is the greatest.
const RECORD: usize = 2 + 8 * VARIABLES;

/// The longest sheet with its last two no-go boxes the other way round.
fn out_of_order() -> Vec<u8> {
    let mut sheet = bytes(&longest());
    let from = sheet.len() - 3 * RECORD;
    sheet[from..from + 2 * RECORD].rotate_left(RECORD);
    sheet
}

/// The longest sheet with a recovery box that is clear of the no-go boxes by its last variable alone.
fn clear_by_last_variable() -> Sheet {
    let mut sheet = longest();
    sheet.recovery.upper = [137; VARIABLES];
    sheet.recovery.upper[VARIABLES - 1] = 129;
    sheet
}

/// A sheet whose recovery box shares states with the first no-go box alone.
fn on_the_first_box() -> Vec<u8> {
    let mut sheet = bytes(&clear_by_last_variable());
    let last = sheet.len() - 4;
    sheet[last..].copy_from_slice(&130_i32.to_be_bytes());
    sheet
}

/// A sheet whose recovery box shares a state with the last no-go box alone: 137, and 0 in the others.
fn on_the_last_box() -> Vec<u8> {
    let mut sheet = longest();
    sheet.recovery.upper = [129; VARIABLES];
    sheet.recovery.upper[0] = 137;
    let mut sheet = bytes(&sheet);
    let second_pair = sheet.len() - 2 * RECORD + 2 + 8;
    sheet[second_pair..second_pair + 8 * (VARIABLES - 1)].fill(0);
    sheet
}

/// Refused for a band's mark, which fixes the length, or for a number of its law.
fn refused_laws() -> [(u8, &'static str, Vec<u8>); 5] {
    let up_to_mark = law_patched(22, b"BF")[..24].to_vec();
    [
        (5, "mark_of_a_law", patched(22, b"BF")),
        (5, "law_without_its_mark", law_patched(22, b"BD")),
        (5, "law_up_to_its_mark", up_to_mark),
        (7, "last_band_of_eight", another_mark()),
        (10, "divisor_of_a_law", law_patched(42, &[0, 0])),
    ]
}

/// A refused sheet for each number up to 11, for 20 and for 22, and first refusals among several.
fn refused_sheets() -> Vec<Case> {
    let a = bytes(&sheet_a());
    let refused = [
        (1, "short", a[..19].to_vec()),
        (1, "mark", patched(0, b"XH")),
        (2, "no_variable", patched(2, &[0])),
        (2, "seven_variables", patched(2, &[7])),
        (2, "band_variable_before_times", patched(5, &[1, 0, 0])),
        (3, "sum_of_times", patched(6, &997_u16.to_be_bytes())),
        (4, "commands", patched(12, &26_i32.to_be_bytes())),
        (5, "short", a[..69].to_vec()),
        (5, "other_counts", patched(3, &[2])),
        (6, "cap", patched(20, &[0, 0])),
        (7, "band", patched(22, b"BX")),
        (7, "recovery", patched(60, b"NG")),
        (8, "edge", patched(24, &[0; 4])),
        (9, "safety_range", patched(32, &26_i32.to_be_bytes())),
        (10, "divisor", patched(48, &[0, 0])),
        (11, "no_go_box", patched(56, &[0; 4])),
        (11, "recovery_box", patched(62, &[1, 0])),
        (20, "no_go_boxes", out_of_order()),
        (22, "touching", patched(52, &100_i32.to_be_bytes())),
        (22, "first_of_eight", on_the_first_box()),
        (22, "last_of_eight", on_the_last_box()),
    ];
    let laws = refused_laws();
    let all = refused.into_iter().chain(laws);
    all.map(|(number, name, sheet)| {
        let says = format!("sheet refused {number}\n");
        files(&format!("sheet_{number}_{name}"), &says, sheet, asks_a())
    })
    .collect()
}

/// Questions of all kinds on sheets that passed, and one sheet that did not.
fn questions() -> Vec<Case> {
    let a = || bytes(&sheet_a());
    let mut drifting = sheet_a();
    drifting.bands[0].rows[0].a[0] = 0;
    drifting.bands[0].rows[0].c = 40;
    let tail = |length: usize| [&asks_a()[..], &ask(0, 0, 25, 100)[..length]].concat();
    let mut many_a = many(100_000, 1);
    many_a.extend([b'Q'; 7]);
    vec![
        files("sheet_a", "5 refused 14\n", a(), asks_a()),
        files("failing_sheet", "sheet fail 1 ", bytes(&drifting), asks_a()),
        files("tail_of_1", "6 refused 12\n", a(), tail(1)),
        files("tail_of_17", "6 refused 12\n", a(), tail(17)),
        files("only_a_tail", "1 refused 12\n", a(), b"QS".to_vec()),
        files(
            "12_mark",
            "1 refused 12\n",
            a(),
            [question(b"QT", 9, &[0], &[(0, 0)]), asks_a()].concat(),
        ),
        files(
            "13_allowance",
            "1 refused 13\n",
            a(),
            ask(0, 0, 26, 1_000_001),
        ),
        files(
            "14_command",
            "1 refused 14\n",
            a(),
            ask(1, 0, -26, 1_000_000),
        ),
        files("15_reversed", "1 refused 15\n", a(), ask(1, 0, 25, 100)),
        files("15_far", "1 refused 15\n", a(), ask(0, 1_000_001, 25, 100)),
        files("spent_at_once", "1 over spent 4 0\n", a(), ask(0, 0, 25, 0)),
        files("many", "100001 refused 12\n", a(), many_a),
    ]
}

/// Sheets with laws, and with all counts at their greatest.
fn laws() -> Vec<Case> {
    let asked = |name, says, sheet: Sheet, asks| files(name, says, bytes(&sheet), asks);
    let wide = || many(500, VARIABLES);
    vec![
        asked("a_with_a_law", "sheet pass 4 ", a_with_a_law(), asks_a()),
        asked("many_with_a_law", "500 ", a_with_a_law(), many(500, 1)),
        asked("all_counts", "500 ", all_counts(), wide()),
        asked("longest_sheet", "500 ", longest(), wide()),
    ]
}

/// Files of both marks, on a sheet that passes.
fn marks() -> Vec<Case> {
    let on_a = |name, says, asks: &[&[u8]]| files(name, says, bytes(&sheet_a()), asks.concat());
    let (one, two) = (&ask(0, 0, 25, 100)[..], &ask_span(-25, 25)[..]);
    let (reversed, outside) = (&ask_span(1, 0)[..], &ask_span(-25, 26)[..]);
    let short = &question(b"QR", 100, &[-25], &[(0, 0)])[..];
    let long = &question(b"QS", 100, &[25, 25], &[(0, 0)])[..];
    let unknown = &question(b"RR", 100, &[25], &[(0, 0)])[..];
    vec![
        on_a("span", "1 keep 4 4\n", &[two]),
        on_a("span_of_one", "1 keep 4 4\n", &[&ask_span(25, 25)]),
        on_a("both_marks", "4 keep 4 4\n", &[two, one, two, one]),
        on_a("14_reversed", "2 refused 14\n3 keep", &[one, reversed, two]),
        on_a("14_outside", "1 refused 14\n2 keep", &[outside, one]),
        on_a("span_cut_as_its_mark_says", "1 refused 15\n", &[short, one]),
        on_a(
            "question_cut_as_its_mark_says",
            "2 refused 12\n",
            &[long, one],
        ),
        on_a("unknown_first", "1 refused 12\n", &[unknown, one, two]),
        on_a("unknown_between", "2 refused 12\n", &[two, unknown, one]),
        on_a("unknown_last", "3 refused 12\n", &[one, two, unknown]),
        on_a("unknown_mark_alone", "2 refused 12\n", &[two, b"sq"]),
        on_a("half_a_mark", "2 refused 12\n", &[two, b"Q"]),
        on_a("another_byte", "2 refused 12\n", &[two, b"\0"]),
    ]
}

/// A span cut at each of its bytes, alone and behind other questions.
fn cut_spans() -> Vec<Case> {
    let longest_span = question(b"QR", 100, &[-25, 25], &[(0, 0); VARIABLES]);
    let of_a = (1..22).map(|length| {
        let asks = [&asks_a()[..], &ask_span(-25, 25)[..length]].concat();
        let name = format!("span_cut_at_{length}");
        files(&name, "6 refused 12\n", bytes(&sheet_a()), asks)
    });
    let of_longest = [1, 2, 13, 14, 58, 59, 61].map(|length| {
        let name = format!("longest_span_cut_at_{length}");
        let asks = longest_span[..length].to_vec();
        files(&name, "1 refused 12\n", bytes(&longest()), asks)
    });
    of_a.chain(of_longest).collect()
}

/// Files over the program's buffer, with an unknown mark at a border of it and just beside one.
fn long_files() -> Vec<Case> {
    let after = |size: usize, rest: Vec<u8>, name: String| {
        let count = questions_of(&filling(size), 1).count();
        let says = format!("{} refused 12\n", count + 1);
        let asks = [filling(size), rest].concat();
        files(&name, &says, bytes(&sheet_a()), asks)
    };
    let sizes = [4_094, 4_096, 4_098, 8_192, 65_536];
    let unknown = sizes.map(|size| {
        let rest = [b"RR", &filling(10_000)[..]].concat();
        after(size, rest, format!("unknown_at_{size}"))
    });
    let tails = sizes.map(|size| {
        let tail = ask_span(-25, 25)[..21].to_vec();
        after(size, tail, format!("tail_at_{size}"))
    });
    let bytes_left = sizes.map(|size| after(size, vec![b'Q'], format!("byte_at_{size}")));
    let all = unknown.into_iter().chain(tails).chain(bytes_left);
    all.collect()
}

/// An unknown mark with so many bytes in all: around the length of the longest question, and more.
fn unknown_rests() -> Vec<Case> {
    let rest = |length: usize| {
        let unknown = [b"RR", &filling(130)[..]].concat();
        let asks = [&asks_a()[..], &unknown[..length]].concat();
        let name = format!("unknown_of_{length}_bytes");
        files(&name, "6 refused 12\n", bytes(&sheet_a()), asks)
    };
    [3, 17, 18, 19, 21, 22, 23, 57, 58, 59, 61, 62, 63, 124]
        .map(rest)
        .into()
}

/// Both marks and an unknown one, on a sheet that is refused and on one that fails.
fn marks_on_other_sheets() -> [Case; 2] {
    let asks = || [asks_a(), ask_span(-25, 25), b"RR".to_vec(), asks_a()].concat();
    let refused = bytes(&sheet_a())[..69].to_vec();
    let mut drifting = sheet_a();
    drifting.bands[0].rows[0].a[0] = 0;
    drifting.bands[0].rows[0].c = 40;
    [
        files(
            "marks_on_a_refused_sheet",
            "sheet refused 5\n",
            refused,
            asks(),
        ),
        files(
            "marks_on_a_failing_sheet",
            "sheet fail 1 ",
            bytes(&drifting),
            asks(),
        ),
    ]
}

/// A sheet whose boxes are just clear of each other.
fn clear_sheet() -> Case {
    let sheet = bytes(&clear_by_last_variable());
    files(
        "clear_by_last_variable",
        "sheet pass 4 1\n",
        sheet,
        many(10, VARIABLES),
    )
}

fn set(path: &Path, place: &Place) {
    match place {
        Place::Missing => {}
        Place::Folder => fs::create_dir(path).expect("a new folder"),
        Place::File(bytes) => fs::write(path, bytes).expect("a new file"),
    }
}

fn main() {
    let root = env::args().nth(1).expect("a folder");
    let cases = [
        file_cases(),
        refused_sheets(),
        questions(),
        laws(),
        vec![clear_sheet()],
        marks(),
        cut_spans(),
        long_files(),
        unknown_rests(),
        marks_on_other_sheets().into(),
    ];
    for case in cases.into_iter().flatten() {
        let read = |place: &Place| match place {
            Place::File(bytes) => bytes.clone(),
            _ => Vec::new(),
        };
        let text = listing(&read(&case.sheet), &read(&case.asks));
        assert!(text.contains(&case.says), "{}: {text}", case.name);
        let folder = Path::new(&root).join(&case.name);
        fs::create_dir(&folder).expect("a new folder");
        set(&folder.join("sheet.bin"), &case.sheet);
        set(&folder.join("asks.bin"), &case.asks);
    }
}
