//! The examples and checks that the paper gives with numbers, then a few cases
//! worked by hand from its sentences.

use plain_guard::decision::{decide_values, pack, recovery_values, unpack};
use plain_guard::machine::{
    allowed_change, band_of, ceil_div, floor_div, greatest_change, least_change, plain_commands,
};
use plain_guard::reach::{lies_in, rates, shares_a_state, step, to_box, Count};
use plain_guard::readings::sides_of;
use plain_guard::sheet::{band_mark, head_length, question_length, sheet_length, Question, Sides};
use plain_guard::*;

/// Sheet A.
fn sheet_a() -> Sheet {
    let mut s = Sheet {
        n: 1,
        bands: 1,
        no_go: 1,
        band_variable: 0,
        delta: 4,
        alpha: 4,
        rho: 4,
        least: -25,
        greatest: 25,
        ..Sheet::default()
    };
    s.caps[0] = 5;
    s.band[0].edge = -2_000_000;
    s.band[0].safety_least = 0;
    s.band[0].safety_greatest = 0;
    s.band[0].rows[0].a[0] = -1;
    s.band[0].rows[0].b = 4;
    s.band[0].rows[0].c = 0;
    s.band[0].rows[0].d = 0;
    s.band[0].rows[0].q = 20;
    s.no_go_box[0][0] = (130, 2_000_000);
    s.recovery[0] = (-100, 100);
    s
}

fn bytes_a() -> Vec<u8> {
    write(&sheet_a()).unwrap()
}

fn question(sides: &[(i32, i32)], command: i32, allowance: u32) -> Vec<u8> {
    let mut out = b"QS".to_vec();
    out.extend(allowance.to_be_bytes());
    out.extend(command.to_be_bytes());
    for (lower, upper) in sides {
        out.extend(lower.to_be_bytes());
        out.extend(upper.to_be_bytes());
    }
    out
}

fn questions_a() -> Vec<Vec<u8>> {
    vec![
        question(&[(0, 0)], 25, 100),
        question(&[(95, 100)], 25, 100),
        question(&[(95, 100)], 25, 4),
        question(&[(131, 131)], 0, 100),
        question(&[(0, 0)], 26, 100),
    ]
}

const LINES_A: &str = "sheet pass 4 1
1 keep 4 4
2 keep 4 5
3 over spent 4 4
4 over finest 1 5
5 refused 14
";

// ---- The paper's checks ----

#[test]
fn six_lines() {
    let asks = questions_a().concat();
    let out = listing(Some(&bytes_a()), Some(&asks));
    assert_eq!(String::from_utf8(out).unwrap(), LINES_A);
}

#[test]
fn six_cases_packed() {
    let a = bytes_a();
    let q = questions_a();
    assert_eq!(recovery(&a), pack(0, 4, 1));
    assert_eq!(decide(&a, &q[0]), pack(0, 4, 4));
    assert_eq!(decide(&a, &q[1]), pack(0, 4, 5));
    assert_eq!(decide(&a, &q[2]), pack(2, 4, 4));
    assert_eq!(decide(&a, &q[3]), pack(1, 1, 5));
    assert_eq!(decide(&a, &q[4]), pack(3, 14, 0));
    assert_eq!(
        decide(&a, &q[3]),
        281_474_976_710_656 + 4_294_967_296 + 5,
        "2^48 + 2^32 + 5"
    );
}

#[test]
fn rounding_and_cap() {
    assert_eq!(floor_div(-131, 20), -7);
    assert_eq!(ceil_div(-131, 20), -6);
    assert_eq!(least_change(-131, 0, 20, 5), -5);
    assert_eq!(greatest_change(-131, 0, 20, 5), -5);
    assert_eq!(floor_div(-7, 2), -4);
    assert_eq!(ceil_div(-7, 2), -3);
    for p in -50..=50 {
        for q in 1..=9 {
            let f = floor_div(p, q);
            assert!(f * q <= p && p < (f + 1) * q);
            let c = ceil_div(p, q);
            assert!((c - 1) * q < p && p <= c * q);
        }
    }
}

#[test]
fn first_question_boxes() {
    let a = sheet_a();
    let (end, swept, rounds) = reach(&a, 4, 4, Some(25), &[(0, 0)]).unwrap();
    assert_eq!(
        (end.clone(), swept, rounds),
        (vec![(16, 20)], vec![(0, 20)], 2)
    );
    // The plain reach starts from that end box.
    let (end, swept, rounds) = reach(&a, 4, 4, None, &end).unwrap();
    assert_eq!((end, swept, rounds), (vec![(12, 20)], vec![(12, 20)], 2));
}

#[test]
fn allowance_zero() {
    let q = question(&[(0, 0)], 25, 0);
    assert_eq!(decide(&bytes_a(), &q), pack(2, 4, 0));
}

#[test]
fn swept_and_no_go() {
    let no_go = vec![(130, 2_000_000)];
    assert!(!shares_a_state(&vec![(100, 129)], &no_go));
    assert!(shares_a_state(&vec![(100, 130)], &no_go));
}

#[test]
fn bands_at_an_edge() {
    let mut s = sheet_a();
    s.bands = 2;
    s.band[1] = s.band[0];
    s.band[1].edge = 0;
    assert_eq!(band_of(&s, -1), Some(0));
    assert_eq!(band_of(&s, 0), Some(1));
    assert_eq!(band_of(&s, -2_000_000), Some(0));
    assert_eq!(band_of(&s, 3_000_000), Some(1));
    assert_eq!(band_of(&s, -2_000_001), None);
}

#[test]
fn delta_and_alpha() {
    let mut s = sheet_a();
    s.delta = 400;
    s.alpha = 600;
    let good = write(&s).unwrap();
    assert_eq!(read(&good).unwrap(), s);
    s.alpha = 601;
    assert_eq!(write(&s), Err(3));
    let mut bad = good.clone();
    bad[8..10].copy_from_slice(&601u16.to_be_bytes());
    assert_eq!(read(&bad), Err(3));
}

#[test]
fn lengths() {
    let a = bytes_a();
    assert_eq!(a.len(), 70);
    assert_eq!(sheet_length(*b"BD", 1, 1, 1), 70);
    assert_eq!(question_length(*b"QS", 1), Some(18));
    assert_eq!(read(&a[..19]), Err(1));
    assert_eq!(read(&a[..69]), Err(5));
    let mut long = a.clone();
    long.push(0);
    assert_eq!(read(&long), Err(5));
    assert_eq!(read(&a).unwrap(), sheet_a());
}

#[test]
fn whole_box_rates_do_not_contract() {
    // Over the whole recovery box A's rates are -5 and 5: nothing contracts.
    let a = sheet_a();
    assert_eq!(rates(&a, 0, &vec![(-100, 100)], None), (-5, 5));
    // Over the slabs they are 3 and -3.
    assert_eq!(rates(&a, 0, &vec![(-100, -75)], None).0, 3);
    assert_eq!(rates(&a, 0, &vec![(75, 100)], None).1, -3);
    let (end, swept, rounds) = reach(&a, 4, 4, None, &[(-100, 100)]).unwrap();
    assert_eq!(
        (end, swept, rounds),
        (vec![(-88, 88)], vec![(-100, 100)], 1)
    );
}

// ---- Refusals, one after another ----

#[test]
fn reader_refusals() {
    // (place, new bytes, number) on sheet A.
    let cases: Vec<(usize, Vec<u8>, u8)> = vec![
        (0, b"SG".to_vec(), 1),
        (2, vec![0], 2),
        (2, vec![7], 2),
        (3, vec![0], 2),
        (3, vec![9], 2),
        (4, vec![0], 2),
        (4, vec![9], 2),
        (5, vec![1], 2),
        (6, vec![0, 0], 3),
        (8, vec![0, 0], 3),
        (10, vec![0, 0], 3),
        (10, 1_001u16.to_be_bytes().to_vec(), 3),
        (12, 26i32.to_be_bytes().to_vec(), 4),
        (12, (-10_001i32).to_be_bytes().to_vec(), 4),
        (16, 10_001i32.to_be_bytes().to_vec(), 4),
        (2, vec![2], 5),
        (3, vec![2], 5),
        (4, vec![2], 5),
        (20, vec![0, 0], 6),
        (20, 1_001u16.to_be_bytes().to_vec(), 6),
        (22, b"BE".to_vec(), 7),
        (24, (-1_999_999i32).to_be_bytes().to_vec(), 8),
        (28, 1i32.to_be_bytes().to_vec(), 9),
        (28, (-26i32).to_be_bytes().to_vec(), 9),
        (32, 26i32.to_be_bytes().to_vec(), 9),
        (36, 1_001i16.to_be_bytes().to_vec(), 10),
        (38, (-1_001i16).to_be_bytes().to_vec(), 10),
        (40, 100_000_001i32.to_be_bytes().to_vec(), 10),
        (44, (-1i32).to_be_bytes().to_vec(), 10),
        (44, 100_000_001i32.to_be_bytes().to_vec(), 10),
        (48, vec![0, 0], 10),
        (48, 4_097u16.to_be_bytes().to_vec(), 10),
        (50, b"RC".to_vec(), 7),
        (52, 2_000_001i32.to_be_bytes().to_vec(), 11),
        (56, 129i32.to_be_bytes().to_vec(), 11),
        (56, 2_000_001i32.to_be_bytes().to_vec(), 11),
        (60, b"NG".to_vec(), 7),
        (62, (-1_000_001i32).to_be_bytes().to_vec(), 11),
        (62, 101i32.to_be_bytes().to_vec(), 11),
        (66, 1_000_001i32.to_be_bytes().to_vec(), 11),
    ];
    let a = bytes_a();
    for (place, new, number) in &cases {
        let mut b = a.clone();
        b[*place..place + new.len()].copy_from_slice(new);
        assert_eq!(read(&b), Err(*number), "place {place}");
        assert_eq!(recovery(&b), pack(3, *number as u64, 0));
        assert_eq!(decide(&b, &[]), pack(3, *number as u64, 0));
        let line = format!("sheet refused {number}\n");
        assert_eq!(listing(Some(&b), Some(b"QS")), line.into_bytes());
        // With a second fault later in the file the first one is named.
        if *number >= 6 {
            for (later, other, _) in cases.iter().filter(|c| c.0 > *place + 3) {
                let mut c = b.clone();
                c[*later..later + other.len()].copy_from_slice(other);
                assert_eq!(read(&c), Err(*number), "places {place} and {later}");
            }
        }
    }
}

#[test]
fn writer_refusals_and_buffer() {
    let a = sheet_a();
    let mut s = a;
    s.n = 200;
    s.delta = 0;
    assert_eq!(write(&s), Err(2));
    s.n = 1;
    assert_eq!(write(&s), Err(3));
    let mut s = a;
    s.recovery[0] = (1, 0);
    s.band[0].rows[0].q = 0;
    assert_eq!(write(&s), Err(10));
    s.band[0].rows[0].q = 1;
    let mut small = [7u8; 3];
    assert_eq!(write_at(&s, &mut small, 0), Err(11));

    let mut buffer = vec![7u8; 80];
    assert_eq!(write_at(&a, &mut buffer, 11), Err(17));
    assert_eq!(write_at(&a, &mut buffer, usize::MAX), Err(17));
    assert_eq!(buffer, vec![7u8; 80]);
    assert_eq!(write_at(&a, &mut buffer, 6), Ok(70));
    assert_eq!(buffer[..6], [7u8; 6]);
    assert_eq!(buffer[6..76], bytes_a());
    assert_eq!(buffer[76..], [7u8; 4]);
    assert_eq!(write_at(&a, &mut buffer, 10), Ok(70));
}

#[test]
fn same_up_to_the_counts() {
    let a = sheet_a();
    let mut s = a;
    s.caps[1] = 9;
    s.band[1].edge = 4;
    s.band[0].rows[0].a[1] = 3;
    s.band[0].rows[1].q = 3;
    s.no_go_box[1][0] = (3, 2);
    s.recovery[3] = (3, 2);
    assert_eq!(s, a);
    assert_eq!(write(&s), write(&a));
    s.caps[0] = 9;
    assert_ne!(s, a);
}

#[test]
fn question_refusals() {
    let a = bytes_a();
    let refused = |q: &[u8]| {
        let (code, w, rounds) = unpack(decide(&a, q));
        assert_eq!((code, rounds), (3, 0));
        w
    };
    let good = question(&[(0, 0)], 25, 100);
    assert_eq!(refused(&good[..17]), 12);
    assert_eq!(refused(&[good.clone(), vec![0]].concat()), 12);
    assert_eq!(refused(&[]), 12);
    let mut mark = question(&[(1, 0)], 26, 1_000_001);
    assert_eq!(refused(&mark), 13);
    mark[1] = b'T';
    assert_eq!(refused(&mark), 12);
    assert_eq!(refused(&question(&[(1, 0)], 26, 1_000_000)), 14);
    assert_eq!(refused(&question(&[(1, 0)], -26, 0)), 14);
    assert_eq!(refused(&question(&[(1, 0)], -25, 0)), 15);
    assert_eq!(refused(&question(&[(-1_000_001, 0)], 0, 0)), 15);
    assert_eq!(refused(&question(&[(0, 1_000_001)], 0, 0)), 15);
}

#[test]
fn reach_refusals() {
    let a = sheet_a();
    let mut bad = a;
    bad.caps[0] = 0;
    assert_eq!(reach(&bad, 1_001, 0, Some(26), &[(1, 0)]), Err(6));
    assert_eq!(reach(&a, 1_001, 1, Some(26), &[(1, 0)]), Err(16));
    assert_eq!(reach(&a, 0, 0, Some(26), &[(1, 0)]), Err(16));
    assert_eq!(reach(&a, 0, 1_001, Some(26), &[(1, 0)]), Err(16));
    assert_eq!(reach(&a, 0, 1_000, Some(26), &[(1, 0)]), Err(14));
    assert_eq!(reach(&a, 0, 1_000, None, &[(1, 0)]), Err(15));
    assert_eq!(reach(&a, 0, 1_000, None, &[(0, 1_000_001)]), Err(15));
    assert_eq!(
        reach(&a, 0, 1_000, None, &[(3, 5)]),
        Ok((vec![(3, 5)], vec![(3, 5)], 0))
    );
}

#[test]
fn listing_ends() {
    assert_eq!(listing(None, None), b"sheet refused 1\n");
    assert_eq!(listing(None, Some(b"QS")), b"sheet refused 1\n");
    assert_eq!(listing(Some(&bytes_a()), None), b"sheet pass 4 1\n");
    let mut asks = question(&[(0, 0)], 25, 100);
    asks.push(b'Q');
    assert_eq!(
        listing(Some(&bytes_a()), Some(&asks)),
        b"sheet pass 4 1\n1 keep 4 4\n2 refused 12\n"
    );
    // A recovery box that the plain law leaves: three rounds, then two steps of two, then four.
    let mut s = sheet_a();
    s.recovery[0] = (1, 2);
    assert_eq!(
        listing(Some(&write(&s).unwrap()), Some(&asks)),
        b"sheet fail 1 11\n"
    );
}

// ---- Cases worked by hand ----

#[test]
fn allowance_around_the_count() {
    let a = bytes_a();
    // Keep with the last allowed round.
    assert_eq!(decide(&a, &question(&[(0, 0)], 25, 4)), pack(0, 4, 4));
    assert_eq!(decide(&a, &question(&[(0, 0)], 25, 3)), pack(2, 4, 3));
    // 2 rounds at width 4, 2 at 2, 1 at 1; the width is the one of the due round.
    let at = |allowance| decide(&a, &question(&[(131, 131)], 0, allowance));
    assert_eq!(at(0), pack(2, 4, 0));
    assert_eq!(at(1), pack(2, 4, 1));
    assert_eq!(at(2), pack(2, 2, 2));
    assert_eq!(at(3), pack(2, 2, 3));
    assert_eq!(at(4), pack(2, 1, 4));
    assert_eq!(at(5), pack(1, 1, 5));
}

#[test]
fn halving() {
    // N = x, q = 4, from 50. k = 8: upper sides 141, 302, 582, 1072, 1926,
    // 3424, 6042, 7050, unsettled. k = 4: 89, 119, 140, 155, 167, 176, 182,
    // 188, unsettled. k = 2: 63, 66, 67, settled in the fourth round with
    // rates 12 and 17.
    let mut s = sheet_a();
    s.caps[0] = 1_000;
    s.band[0].rows[0].a[0] = 1;
    s.band[0].rows[0].q = 4;
    let mut count = Count {
        rounds: 0,
        allowance: None,
    };
    let settled = step(&s, &vec![(50, 50)], 8, None, &mut count).unwrap();
    assert_eq!(settled.k, 2);
    assert_eq!(settled.end, vec![(74, 84)]);
    assert_eq!(settled.swept, vec![(50, 84)]);
    assert_eq!(count.rounds, 20);
    // The next step begins with the smaller of the width and the ticks left.
    let whole = reach(&s, 8, 8, None, &[(50, 50)]).unwrap();
    let rest = reach(&s, 6, 8, None, &[(74, 84)]).unwrap();
    assert_eq!(whole.0, rest.0);
    assert_eq!(whole.2, 20 + rest.2);
}

#[test]
fn slab_from_the_start_face() {
    // Start 0..100, N = 2 - x, q = 1, cap 1, k = 2. Round one: lower slab 0..3,
    // N from -1, rate -1; upper slab 97..100, rate -1; M = -1..100, unsettled.
    // Round two: lower slab -1..3, still rate -1, settled. From E's face the
    // slab would be -1..2 with rate 0 and the end's lower side 0.
    let mut s = sheet_a();
    s.caps[0] = 1;
    s.band[0].rows[0].c = 2;
    s.band[0].rows[0].q = 1;
    let (end, swept, rounds) = reach(&s, 2, 2, None, &[(0, 100)]).unwrap();
    assert_eq!((end, swept, rounds), (vec![(-2, 98)], vec![(-2, 100)], 2));
}

/// Sheet A with these bands: edge, safety range, row.
fn with_bands(cap: u16, bands: &[(i32, (i32, i32), Row)]) -> Sheet {
    let mut s = sheet_a();
    s.caps[0] = cap;
    s.bands = bands.len() as u8;
    for (k, (edge, safety, row)) in bands.iter().enumerate() {
        s.band[k] = Band {
            edge: *edge,
            safety_least: safety.0,
            safety_greatest: safety.1,
            ..Band::default()
        };
        s.band[k].rows[0] = *row;
    }
    s
}

fn row_of_one(a: i16, b: i16, c: i32, d: i32, q: u16) -> Row {
    Row {
        a: [a, 0, 0, 0, 0, 0],
        b,
        c,
        d,
        q,
    }
}

#[test]
fn each_band_row_over_its_part_of_the_slab() {
    // Band one up to -1: N = x. Band two 0..6: N = 2x + u, spread 5, commands
    // 2..4. Band three from 7: N = -3x.
    let s = with_bands(
        1_000,
        &[
            (-2_000_000, (0, 0), row_of_one(1, 0, 0, 0, 1)),
            (0, (2, 4), row_of_one(2, 1, 0, 5, 1)),
            (7, (0, 0), row_of_one(-3, 0, 0, 0, 1)),
        ],
    );
    let over = |lower, upper| rates(&s, 0, &vec![(lower, upper)], None);
    // -10..-1, 2 - 5 .. 12 + 4 + 5, -30..-21.
    assert_eq!(over(-10, 10), (-30, 21));
    // The same with u = 20 in band two: 15..37.
    assert_eq!(rates(&s, 0, &vec![(-10, 10)], Some((20, 20))), (-30, 37));
    assert_eq!(over(-10, -1), (-10, -1));
    // An edge on the slab's upper side: band two at 0 alone, -3..9.
    assert_eq!(over(-10, 0), (-10, 9));
    assert_eq!(over(0, 6), (-3, 21));
    // Band two at 6 alone, 9..21, band three at 7 alone, -21.
    assert_eq!(over(6, 7), (-21, 21));
    // The last band has no end.
    assert_eq!(over(7, 200), (-600, -21));
}

#[test]
fn a_slab_cut_by_its_depth_and_by_an_edge() {
    // Start 0..100, cap 4, k = 1: the lower slab is 0..8. Band one up to 5:
    // N = -x, over 0..5, floor(-5 / 2) = -3; over 0..8 it would be -4. Band two
    // from 6: N = 8 - x, over 6..8, 0; beyond 8 it would be less. The upper slab
    // is 92..100, band two: -42, clamped to -4.
    let s = with_bands(
        4,
        &[
            (-2_000_000, (0, 0), row_of_one(-1, 0, 0, 0, 2)),
            (6, (0, 0), row_of_one(-1, 0, 8, 0, 2)),
        ],
    );
    let reached = reach(&s, 1, 1, None, &[(0, 100)]).unwrap();
    assert_eq!(reached, (vec![(-3, 96)], vec![(-3, 100)], 1));
}

#[test]
fn another_variable_is_cut_by_the_band_variable() {
    // x's rows depend on z, the band variable, 0..20 with an edge at 10. x: band
    // one N = z, 0..9; band two N = 25 - z, 5..15. Over the whole slab both
    // would go to 20 and 25.
    let mut s = with_bands(
        1_000,
        &[
            (-2_000_000, (0, 0), row_of_one(0, 0, 0, 0, 1)),
            (10, (0, 0), row_of_one(0, 0, 25, 0, 1)),
        ],
    );
    s.n = 2;
    s.band_variable = 1;
    s.caps[1] = 1_000;
    s.band[0].rows[0].a[1] = 1;
    s.band[1].rows[0].a[1] = -1;
    assert_eq!(rates(&s, 0, &vec![(3, 3), (0, 20)], None), (0, 15));
    assert_eq!(rates(&s, 0, &vec![(3, 3), (0, 9)], None), (0, 9));
}

// ---- No-go records in order (document 02, paper 2) ----

/// Sheet A with n variables, these no-go boxes and a recovery box beside them.
fn with_no_go(n: u8, boxes: &[Sides]) -> Sheet {
    let mut s = sheet_a();
    s.n = n;
    s.no_go = boxes.len() as u8;
    for i in 1..n as usize {
        s.caps[i] = 5;
        s.band[0].rows[i].q = 1;
    }
    s.no_go_box[..boxes.len()].copy_from_slice(boxes);
    s.recovery = [(200, 300); 6];
    s
}

/// The place of no-go record k, and behind the last one that of the recovery record.
fn place_of_record(s: &Sheet, k: usize) -> usize {
    let record = 2 + 8 * s.n as usize;
    sheet_length(band_mark(s), s.n, s.bands, s.no_go) - (s.no_go as usize + 1 - k) * record
}

/// The bytes of a sheet whose no-go boxes need neither be in order nor clear of the recovery box.
fn bytes_as_they_are(s: &Sheet) -> Vec<u8> {
    let mut accepted = *s;
    for k in 0..s.no_go as usize {
        accepted.no_go_box[k] = [(k as i32, k as i32); 6];
    }
    accepted.recovery = [(100, 100); 6];
    let mut bytes = write(&accepted).unwrap();
    for k in 0..=s.no_go as usize {
        let sides = if k == s.no_go as usize {
            s.recovery
        } else {
            s.no_go_box[k]
        };
        for i in 0..s.n as usize {
            let at = place_of_record(s, k) + 2 + 8 * i;
            let (lower, upper) = sides[i];
            bytes[at..at + 4].copy_from_slice(&lower.to_be_bytes());
            bytes[at + 4..at + 8].copy_from_slice(&upper.to_be_bytes());
        }
    }
    bytes
}

/// Reader and writer agree: 0 or the refusal.
fn read_and_written(s: &Sheet) -> u8 {
    let refused = |answer: Result<(), u8>| answer.err().unwrap_or(0);
    let reader = refused(read(&bytes_as_they_are(s)).map(|_| ()));
    let writer = refused(write(s).map(|_| ()));
    assert_eq!(reader, writer);
    reader
}

#[test]
fn no_go_records_now_ascend_strictly() {
    // "No-go records now ascend strictly, compared by first lower side, first upper side, second
    // lower side and so on."
    let base = [10, 30, 50, 70, 90, 110].map(|from| (from, from + 10));
    for n in 1..=6 {
        for i in 0..n as usize {
            for (lower, upper) in [(1, 0), (0, 1)] {
                // Greater in this side alone.
                let mut greater = base;
                greater[i].0 += lower;
                greater[i].1 += upper;
                assert_eq!(read_and_written(&with_no_go(n, &[base, greater])), 0);
                assert_eq!(read_and_written(&with_no_go(n, &[greater, base])), 20);
                // And less in every later variable.
                for later in i + 1..n as usize {
                    greater[later].0 -= 7;
                    greater[later].1 -= 7;
                }
                assert_eq!(read_and_written(&with_no_go(n, &[base, greater])), 0);
                assert_eq!(read_and_written(&with_no_go(n, &[greater, base])), 20);
            }
        }
        // The first lower side comes before the first upper side.
        let mut lower_greater = base;
        lower_greater[0] = (11, 15);
        let boxes = [base, lower_greater];
        assert_eq!(read_and_written(&with_no_go(n, &boxes)), 0);
        // "not greater than the one before": an equal one is not greater.
        assert_eq!(read_and_written(&with_no_go(n, &[base, base])), 20);
    }
}

#[test]
fn only_the_sheets_variables_are_compared() {
    let one = [(10, 20), (0, 0), (0, 0), (9, 9), (0, 0), (0, 0)];
    let turned = (i32::MAX, i32::MIN);
    let two = [(10, 20), (1, 1), (-5, 7), turned, turned, turned];
    assert_eq!(write(&with_no_go(1, &[one, two])), Err(20));
    assert_eq!(write(&with_no_go(1, &[two, one])), Err(20));
    assert!(write(&with_no_go(2, &[one, two])).is_ok());
}

#[test]
fn each_record_against_the_one_before() {
    let of = |numbers: &[i32]| {
        let boxes: Vec<Sides> = numbers.iter().map(|&x| [(x, 99); 6]).collect();
        read_and_written(&with_no_go(2, &boxes))
    };
    // One record has none before it.
    assert_eq!(of(&[-2_000_000]), 0);
    assert_eq!(of(&[1, 2, 3, 4, 5, 6, 7, 8]), 0);
    assert_eq!(of(&[1, 2, 3, 4, 5, 6, 8, 7]), 20);
    assert_eq!(of(&[1, 2, 3, 3, 5, 6, 7, 8]), 20);
    // Greater than the first is not enough.
    assert_eq!(of(&[1, 3, 2]), 20);
}

#[test]
fn after_that_records_own_sides() {
    // "It refuses with 20 a no-go record not greater than the one before, after that record's own
    // sides." Record two is less than record one.
    let s = with_no_go(2, &[[(5, 9); 6], [(3, 9); 6], [(7, 9); 6]]);
    let bytes = bytes_as_they_are(&s);
    let with = |faults: &[(usize, usize, &[u8])]| {
        let mut bytes = bytes.clone();
        for (record, at, new) in faults {
            let place = place_of_record(&s, *record) + at;
            bytes[place..place + new.len()].copy_from_slice(new);
        }
        read(&bytes).unwrap_err()
    };
    let far = 2_000_001i32.to_be_bytes();
    assert_eq!(with(&[]), 20);
    // Its own mark and sides come first, and so do those of the record before.
    assert_eq!(with(&[(1, 0, b"XX")]), 7);
    assert_eq!(with(&[(1, 14, &far)]), 11);
    assert_eq!(with(&[(0, 0, b"XX")]), 7);
    assert_eq!(with(&[(0, 14, &far)]), 11);
    // The next record and the recovery record come later.
    for later in [2, 3] {
        assert_eq!(with(&[(later, 0, b"XX")]), 20);
        assert_eq!(with(&[(later, 14, &far)]), 20);
    }
    // A sheet comes before a question, and "17 last".
    assert_eq!(decide(&bytes, b"QS"), pack(3, 20, 0));
    assert_eq!(recovery(&bytes), pack(3, 20, 0));
    assert_eq!(listing(Some(&bytes), None), b"sheet refused 20\n");
    assert_eq!(reach(&s, 1_001, 0, Some(26), &[(1, 0)]), Err(20));
    assert_eq!(write_at(&s, &mut [], 0), Err(20));
    let ordered = with_no_go(2, &[[(3, 9); 6], [(5, 9); 6]]);
    assert_eq!(write_at(&ordered, &mut [], 0), Err(17));
}

/// Another order of a sheet's no-go boxes.
fn shuffled(dice: &mut Dice, s: &Sheet) -> Sheet {
    let mut other = *s;
    for k in 1..s.no_go as usize {
        let with = dice.from_to(0, k as i64) as usize;
        other.no_go_box.swap(k, with);
    }
    other
}

#[test]
fn the_same_boxes_in_any_order() {
    // "By the definitions, without this test, the same boxes in any order give the same recovery
    // check and decisions".
    let mut dice = Dice(3);
    let mut decisions = [0; 3];
    let mut checks = [0; 2];
    for _ in 0..400 {
        let s = random_sheet(&mut dice);
        let mut q = Question {
            allowance: dice.from_to(0, 200) as u32,
            least: dice.from_to(s.least as i64, s.greatest as i64) as i32,
            greatest: 0,
            measured: Sides::default(),
        };
        q.greatest = dice.from_to(q.least as i64, s.greatest as i64) as i32;
        for i in 0..s.n as usize {
            let lower = dice.from_to(-150, 150) as i32;
            q.measured[i] = (lower, lower + dice.from_to(0, 40) as i32);
        }
        let (decision, check) = (decide_values(&s, &q), recovery_values(&s));
        decisions[unpack(decision).0 as usize] += 1;
        checks[unpack(check).0 as usize] += 1;
        for _ in 0..10 {
            let other = shuffled(&mut dice, &s);
            assert_eq!(decide_values(&other, &q), decision);
            assert_eq!(recovery_values(&other), check);
        }
    }
    assert!(decisions.iter().chain(&checks).all(|seen| *seen > 10));
}

// ---- Changes at their caps (document 02, paper 6) ----

/// Least and greatest allowed change without spread.
fn both_changes(big_n: i64, q: i64, cap: i64) -> (i64, i64) {
    (
        least_change(big_n, 0, q, cap),
        greatest_change(big_n, 0, q, cap),
    )
}

#[test]
fn changes_at_and_around_zero_and_the_caps() {
    for cap in [1, 5, 1_000] {
        assert_eq!(both_changes(-1, 1, cap), (-1, -1));
        assert_eq!(both_changes(0, 1, cap), (0, 0));
        assert_eq!(both_changes(1, 1, cap), (1, 1));
        for q in [7, 4_096] {
            assert_eq!(both_changes(-q, q, cap), (-1, -1));
            assert_eq!(both_changes(-1, q, cap), (-1, 0));
            assert_eq!(both_changes(0, q, cap), (0, 0));
            assert_eq!(both_changes(1, q, cap), (0, 1));
            assert_eq!(both_changes(q, q, cap), (1, 1));
        }
        for q in [1, 7, 4_096] {
            let full = q * cap;
            // Inside a cap by 1: away from 0 it is the cap and toward 0 one less; with q 1
            // nothing is rounded.
            let (outward, inward) = if q == 1 {
                (cap - 1, cap - 1)
            } else {
                (cap, cap - 1)
            };
            assert_eq!(both_changes(-full - 1, q, cap), (-cap, -cap));
            assert_eq!(both_changes(-full, q, cap), (-cap, -cap));
            assert_eq!(both_changes(-full + 1, q, cap), (-outward, -inward));
            assert_eq!(both_changes(full - 1, q, cap), (inward, outward));
            assert_eq!(both_changes(full, q, cap), (cap, cap));
            assert_eq!(both_changes(full + 1, q, cap), (cap, cap));
        }
    }
}

#[test]
fn the_spread_moves_a_change_to_its_cap() {
    // q 7 and cap 5: the ends are at -35 and 35.
    assert_eq!(least_change(-31, 3, 7, 5), -5);
    assert_eq!(least_change(-28, 6, 7, 5), -5);
    assert_eq!(least_change(-31, 4, 7, 5), -5);
    assert_eq!(least_change(38, 3, 7, 5), 5);
    assert_eq!(least_change(37, 3, 7, 5), 4);
    assert_eq!(greatest_change(31, 3, 7, 5), 5);
    assert_eq!(greatest_change(32, 3, 7, 5), 5);
    assert_eq!(greatest_change(-38, 3, 7, 5), -5);
    assert_eq!(greatest_change(-37, 3, 7, 5), -4);
}

/// Paper 6 of document 02: compared with ±q·cap first, divided only strictly between.
fn compared_first(big_n: i64, q: i64, cap: i64) -> (i64, i64) {
    if big_n <= -q * cap {
        (-cap, -cap)
    } else if big_n >= q * cap {
        (cap, cap)
    } else {
        (floor_div(big_n, q), ceil_div(big_n, q))
    }
}

#[test]
fn comparing_first_changes_no_answer() {
    for q in 1..=64 {
        for cap in 1..=12 {
            let end = q * (cap + 2);
            for big_n in -end..=end {
                assert_eq!(both_changes(big_n, q, cap), compared_first(big_n, q, cap));
            }
        }
    }
}

// ---- A recovery box on a no-go box (document 02, paper 8) ----

/// The recovery box of the sheets below in each variable.
const HOME: (i32, i32) = (-7, 12);

/// Reader and writer on a sheet with that recovery box.
fn at_home(n: u8, boxes: &[Sides]) -> u8 {
    let mut s = with_no_go(n, boxes);
    s.recovery = [HOME; 6];
    read_and_written(&s)
}

#[test]
fn shares_a_state_with_a_no_go_box() {
    // "It refuses with 22 a sheet whose recovery box shares a state with a no-go box."
    for n in 1..=6 {
        // One box in the other, either way, and the same box.
        for pair in [(-2_000_000, 2_000_000), (-8, 13), (3, 3), (-6, 11), HOME] {
            assert_eq!(at_home(n, &[[pair; 6]]), 22);
        }
        for i in 0..n as usize {
            let with = |other, pair| {
                let mut sides = [other; 6];
                sides[i] = pair;
                at_home(n, &[sides])
            };
            // Sides count: the last value of a side is shared, the next one is not.
            for other in [(0, 100), (12, 12), (-20, -7)] {
                assert_eq!(with(other, (12, 50)), 22);
                assert_eq!(with(other, (13, 50)), 0);
                assert_eq!(with(other, (-50, -7)), 22);
                assert_eq!(with(other, (-50, -8)), 0);
            }
        }
    }
}

#[test]
fn every_no_go_box_up_to_the_count() {
    for n in 1..=6 {
        for k in 0..8 {
            // Only box k goes further down than 13 in the last variable; in variable one they ascend.
            let mut boxes = [[(-90, 90); 6]; 8];
            for (at, sides) in boxes.iter_mut().enumerate() {
                sides[0].0 += at as i32;
                sides[n as usize - 1] = (13 + at as i32, 90);
            }
            boxes[k][n as usize - 1].0 = if n == 1 { 12 } else { 0 };
            // With n = 1 the boxes before it lie below the recovery box.
            for sides in boxes[..k].iter_mut().filter(|_| n == 1) {
                sides[0] = (sides[0].0 - 99, -8);
            }
            assert_eq!(at_home(n, &boxes), 22);
            assert_eq!(at_home(n, &boxes[..=k]), 22);
            // Behind the count it is not looked at.
            if k > 0 {
                let mut s = with_no_go(n, &boxes);
                s.recovery = [HOME; 6];
                s.no_go = k as u8;
                assert!(write(&s).is_ok());
            }
        }
    }
}

#[test]
fn only_the_sheets_variables_are_shared() {
    let turned = (i32::MAX, i32::MIN);
    let no_go = [(0, 90), (0, 90), (13, 90), turned, turned, turned];
    let mut s = with_no_go(2, &[no_go]);
    s.recovery = [HOME, HOME, HOME, (1, 0), (1, 0), (1, 0)];
    assert_eq!(write(&s), Err(22));
    s.n = 1;
    assert_eq!(write(&s), Err(22));
    // With a third variable, or another second side, they are apart.
    s.n = 3;
    (s.caps[2], s.band[0].rows[2].q) = (5, 1);
    assert!(write(&s).is_ok());
    s.n = 2;
    s.no_go_box[0][1].0 = 13;
    assert!(write(&s).is_ok());
}

#[test]
fn after_the_last_recovery_side() {
    let mut s = with_no_go(2, &[[(5, 9); 6], [(7, 9); 6]]);
    s.recovery = [HOME; 6];
    let bytes = bytes_as_they_are(&s);
    let with = |record: usize, at: usize, new: &[u8]| {
        let mut bytes = bytes.clone();
        let place = place_of_record(&s, record) + at;
        bytes[place..place + new.len()].copy_from_slice(new);
        read(&bytes).unwrap_err()
    };
    let far = 2_000_001i32.to_be_bytes();
    assert_eq!(read(&bytes), Err(22));
    // Marks and sides of all records come first, and so does their order.
    for record in 0..3 {
        assert_eq!(with(record, 0, b"XX"), 7);
        assert_eq!(with(record, 14, &far), 11);
    }
    assert_eq!(with(1, 2, &4i32.to_be_bytes()), 20);
    assert_eq!(with(2, 14, &1_000_001i32.to_be_bytes()), 11);
    // Whatever a call has beside the sheet comes later, and "17 last".
    assert_eq!(decide(&bytes, b"QS"), pack(3, 22, 0));
    assert_eq!(recovery(&bytes), pack(3, 22, 0));
    assert_eq!(listing(Some(&bytes), None), b"sheet refused 22\n");
    assert_eq!(reach(&s, 1_001, 0, Some(26), &[(1, 0)]), Err(22));
    assert_eq!(write_at(&s, &mut [], 0), Err(22));
    s.recovery[1] = (10, 12);
    assert_eq!(write_at(&s, &mut [], 0), Err(17));
}

/// The rounds of a first step at each width of the recovery check, each of which meets no-go box k.
fn rounds_of_first_steps(s: &Sheet, k: usize) -> u64 {
    let (start, no_go) = (to_box(&s.recovery, s.n), to_box(&s.no_go_box[k], s.n));
    let mut count = Count {
        rounds: 0,
        allowance: None,
    };
    let mut width = s.rho as i64;
    while width > 0 {
        let first = step(s, &start, width, None, &mut count).unwrap();
        assert!(lies_in(&start, &first.swept) && shares_a_state(&first.swept, &no_go));
        width /= 2;
    }
    count.rounds
}

#[test]
fn it_could_never_pass_the_recovery_check() {
    // "sheets that could never pass the recovery check": a swept box holds its start box, so each
    // attempt fails with its first step. On sheet A, widths 4, 2 and 1 take a round each.
    let mut a = sheet_a();
    a.no_go_box[0][0] = (0, 0);
    assert_eq!(recovery_values(&a), pack(1, 1, 3));
    let mut dice = Dice(8);
    let mut refused = 0;
    for _ in 0..600 {
        let mut s = random_sheet(&mut dice);
        let last = s.no_go as usize - 1;
        for i in 0..s.n as usize {
            let shared = dice.from_to(s.recovery[i].0 as i64, s.recovery[i].1 as i64) as i32;
            s.no_go_box[last][i] = (shared, shared + dice.from_to(0, 300) as i32);
        }
        let rounds = rounds_of_first_steps(&s, last);
        assert_eq!(recovery_values(&s), pack(1, 1, rounds));
        refused += u32::from(write(&s) == Err(22));
    }
    // In the others that box is not greater than the one before.
    assert!(refused > 200, "{refused}");
}

// ---- A span of commands (document 02, paper 4) ----

/// A question marked `QR`.
fn span(sides: &[(i32, i32)], (least, greatest): (i32, i32), allowance: u32) -> Vec<u8> {
    let mut out = question(sides, least, allowance);
    out[1] = b'R';
    let after = greatest.to_be_bytes();
    out.splice(10..10, after);
    out
}

/// The number by which sheet A refuses a question, 0 for none.
fn refused_by_a(question: &[u8]) -> u64 {
    match unpack(decide(&bytes_a(), question)) {
        (3, number, 0) => number,
        _ => 0,
    }
}

#[test]
fn a_question_marked_qr() {
    // `QR`, allowance 100, -1..2, the box 0..0.
    let bytes = span(&[(0, 0)], (-1, 2), 100);
    #[rustfmt::skip]
    assert_eq!(bytes, [
        b'Q', b'R', 0, 0, 0, 100, 255, 255, 255, 255, 0, 0, 0, 2,
        0, 0, 0, 0, 0, 0, 0, 0,
    ]);
    for n in 1..=6 {
        assert_eq!(question_length(*b"QR", n), Some(14 + 8 * n as usize));
        assert_eq!(question_length(*b"QS", n), Some(10 + 8 * n as usize));
        assert_eq!(question_length(*b"QT", n), None);
    }
    assert_eq!(refused_by_a(&bytes), 0);
    // Each mark has its own length.
    let mut other = bytes.clone();
    other[1] = b'S';
    assert_eq!(refused_by_a(&other), 12);
    let mut other = question(&[(0, 0)], 2, 100);
    assert_eq!(refused_by_a(&other), 0);
    other[1] = b'R';
    assert_eq!(refused_by_a(&other), 12);
    for length in 0..bytes.len() {
        assert_eq!(refused_by_a(&bytes[..length]), 12);
    }
    for mark in [*b"QT", *b"RR", *b"sq", *b"SQ"] {
        let mut unknown = bytes.clone();
        unknown[..2].copy_from_slice(&mark);
        assert_eq!(refused_by_a(&unknown), 12);
    }
}

#[test]
fn a_reversed_span_or_one_outside_is_14() {
    let refused = |ends| refused_by_a(&span(&[(0, 0)], ends, 100));
    for ends in [(-25, 25), (-25, -25), (25, 25), (0, 0)] {
        assert_eq!(refused(ends), 0);
    }
    for ends in [
        (1, 0),
        (25, -25),
        (-26, 25),
        (-25, 26),
        (-26, -26),
        (26, 26),
        (26, -26),
    ] {
        assert_eq!(refused(ends), 14);
    }
    // After 12 and 13, before 15.
    let all = span(&[(1, 0)], (1, 0), 1_000_001);
    assert_eq!(refused_by_a(&all[..21]), 12);
    assert_eq!(refused_by_a(&all), 13);
    assert_eq!(refused_by_a(&span(&[(1, 0)], (1, 0), 1_000_000)), 14);
    assert_eq!(refused_by_a(&span(&[(1, 0)], (0, 26), 0)), 14);
    assert_eq!(refused_by_a(&span(&[(1, 0)], (0, 1), 0)), 15);
}

#[test]
fn all_commands_of_the_span_in_every_band() {
    // Band one: N = 3u. Band two from 0: N = -u + 1. The safety ranges are not asked.
    let s = with_bands(
        1_000,
        &[
            (-2_000_000, (0, 0), row_of_one(0, 3, 0, 0, 1)),
            (0, (7, 8), row_of_one(0, -1, 1, 0, 1)),
        ],
    );
    let over = |lower, upper, ends| rates(&s, 0, &vec![(lower, upper)], Some(ends));
    assert_eq!(over(-5, -1, (-2, 4)), (-6, 12));
    assert_eq!(over(0, 5, (-2, 4)), (-3, 3));
    assert_eq!(over(-5, 5, (-2, 4)), (-6, 12));
    // 3u is 3..6 and -u + 1 is -1..0.
    assert_eq!(over(-5, 5, (1, 2)), (-1, 6));
    assert_eq!(over(-5, 5, (1, 1)), (0, 3));
}

#[test]
fn a_span_of_one_command_answers_as_qs_does() {
    let mut dice = Dice(5);
    let mut codes = [0; 4];
    for _ in 0..1_500 {
        let s = random_sheet(&mut dice);
        let bytes = write(&s).unwrap();
        let u = dice.from_to(s.least as i64 - 1, s.greatest as i64 + 1) as i32;
        let allowance = dice.from_to(0, 120) as u32;
        let mut sides = Vec::new();
        for _ in 0..s.n {
            let lower = dice.from_to(-150, 150) as i32;
            sides.push((lower, lower + dice.from_to(0, 9) as i32));
        }
        let answer = decide(&bytes, &question(&sides, u, allowance));
        assert_eq!(decide(&bytes, &span(&sides, (u, u), allowance)), answer);
        codes[unpack(answer).0 as usize] += 1;
    }
    assert!(codes.iter().all(|&seen| seen > 50), "{codes:?}");
}

#[test]
fn the_program_cuts_its_file_by_mark() {
    let (one, two) = (
        question(&[(0, 0)], 25, 100),
        span(&[(0, 0)], (-25, 25), 100),
    );
    let lines = |parts: &[&[u8]]| {
        let text = listing(Some(&bytes_a()), Some(&parts.concat()));
        let text = String::from_utf8(text).unwrap();
        text.strip_prefix("sheet pass 4 1\n").unwrap().to_string()
    };
    let kept = "1 keep 4 4\n2 keep 4 4\n3 keep 4 4\n";
    assert_eq!(lines(&[&one, &two, &one]), kept);
    assert_eq!(lines(&[&two, &one, &two]), kept);
    // An unknown mark gives a last line, however much is behind it.
    assert_eq!(lines(&[b"QT", &one, &two]), "1 refused 12\n");
    assert_eq!(lines(&[&one, b"xx", &two]), "1 keep 4 4\n2 refused 12\n");
    assert_eq!(lines(&[&two, b"xx"]), "1 keep 4 4\n2 refused 12\n");
    assert_eq!(lines(&[&two, b"Q"]), "1 keep 4 4\n2 refused 12\n");
    // A short tail.
    for length in 1..22 {
        let cut = lines(&[&one, &two[..length]]);
        assert_eq!(cut, "1 keep 4 4\n2 refused 12\n");
    }
}

/// One tick under one command for all variables, each change at random.
fn tick(dice: &mut Dice, s: &Sheet, state: &mut [i64], u: i64) {
    let before = state.to_vec();
    for i in 0..s.n as usize {
        let (lower, upper) = allowed_change(s, &before, i, u).unwrap();
        state[i] += match dice.from_to(0, 2) {
            0 => lower,
            1 => upper,
            _ => dice.from_to(lower, upper),
        };
    }
}

/// Delta ticks, each under any command of the span, and alpha ticks of the plain law.
fn keeps_clear_and_comes_back(dice: &mut Dice, s: &Sheet, q: &Question) -> bool {
    let n = s.n as usize;
    let holds = |sides: &Sides, state: &[i64]| {
        (0..n).all(|i| sides[i].0 as i64 <= state[i] && state[i] <= sides[i].1 as i64)
    };
    let mut state = Vec::new();
    for i in 0..n {
        state.push(dice.from_to(q.measured[i].0 as i64, q.measured[i].1 as i64));
    }
    for time in 0..s.delta + s.alpha {
        let (least, greatest) = match time < s.delta {
            true => (q.least as i64, q.greatest as i64),
            false => plain_commands(s, &state).unwrap(),
        };
        let u = dice.from_to(least, greatest);
        tick(dice, s, &mut state, u);
        if (0..s.no_go as usize).any(|k| holds(&s.no_go_box[k], &state)) {
            return false;
        }
    }
    holds(&s.recovery, &state)
}

#[test]
fn a_keep_covers_any_command_of_the_span_at_each_tick() {
    let mut dice = Dice(6);
    let mut kept = 0;
    for _ in 0..1_500 {
        let s = random_sheet(&mut dice);
        let mut q = Question {
            allowance: 1_000_000,
            least: dice.from_to(s.least as i64, s.greatest as i64) as i32,
            greatest: 0,
            measured: Sides::default(),
        };
        q.greatest = dice.from_to(q.least as i64, s.greatest as i64) as i32;
        for i in 0..s.n as usize {
            let lower = dice.from_to(-100, 100) as i32;
            q.measured[i] = (lower, lower + dice.from_to(0, 9) as i32);
        }
        if q.least == q.greatest || unpack(decide_values(&s, &q)).0 != 0 {
            continue;
        }
        kept += 1;
        for _ in 0..20 {
            assert!(keeps_clear_and_comes_back(&mut dice, &s, &q));
        }
    }
    assert!(kept > 200, "{kept}");
}

// ---- Six variables, and a plain law that follows the state (document 02, paper 9) ----

fn law_of_one(coefficient: i16, constant: i32, divisor: i32) -> BandLaw {
    BandLaw {
        coefficients: [coefficient, 0, 0, 0, 0, 0],
        constant,
        divisor,
    }
}

/// Sheet A with these bands marked `BF`: edge, safety range, law, row.
fn with_laws(cap: u16, bands: &[(i32, (i32, i32), BandLaw, Row)]) -> Sheet {
    let plain: Vec<_> = bands.iter().map(|band| (band.0, band.1, band.3)).collect();
    let mut s = with_bands(cap, &plain);
    for (k, band) in bands.iter().enumerate() {
        s.band[k].law = band.2;
    }
    s
}

#[test]
fn n_may_be_up_to_6() {
    for n in 1..=6 {
        let s = with_no_go(n, &[[(5, 9); 6]]);
        assert_eq!(read(&write(&s).unwrap()).unwrap(), s);
    }
    let mut s = with_no_go(6, &[[(5, 9); 6]]);
    s.n = 7;
    assert_eq!(write(&s), Err(2));
    let mut a = bytes_a();
    a[2] = 7;
    assert_eq!(read(&a), Err(2));
    // 20 + 12 + 8 * (14 + 6 * 24) + 50 * 9, and 18 more for each of 8 laws.
    assert_eq!(sheet_length(*b"BD", 6, 8, 8), 1_746);
    assert_eq!(sheet_length(*b"BF", 6, 8, 8), 1_890);
    assert_eq!(question_length(*b"QS", 6), Some(58));
    assert_eq!(question_length(*b"QR", 6), Some(62));
}

#[test]
fn a_band_marked_bf_adds_its_law_before_its_rows() {
    let mut s = sheet_a();
    s.band[0].law = law_of_one(-2, 3, 4);
    let bytes = write(&s).unwrap();
    let a = bytes_a();
    assert_eq!(bytes.len(), 78);
    assert_eq!(bytes[..22], a[..22]);
    assert_eq!(bytes[22..24], *b"BF");
    // Edge and safety range, then the law, then the row and all else.
    assert_eq!(bytes[24..36], a[24..36]);
    assert_eq!(bytes[36..44], [255, 254, 0, 0, 0, 3, 0, 4]);
    assert_eq!(bytes[44..], a[36..]);
    assert_eq!(read(&bytes).unwrap(), s);
    // "70 bytes for n, bands and no-go all 1", and all law numbers are 0.
    assert_eq!(read(&a).unwrap().band[0].law, BandLaw::default());
}

#[test]
fn from_floor_to_ceil_clamped_to_the_safety_range() {
    // -x / 2, commands -10..10.
    let row = row_of_one(0, 1, 0, 0, 1);
    let law = law_of_one(-1, 0, 2);
    let s = with_laws(1_000, &[(-2_000_000, (-10, 10), law, row)]);
    let at = |x: i64| plain_commands(&s, &[x]).unwrap();
    assert_eq!(at(0), (0, 0));
    assert_eq!(at(7), (-4, -3));
    assert_eq!(at(8), (-4, -4));
    assert_eq!(at(-7), (3, 4));
    // -9.5, -10, -10.5 and far beyond.
    assert_eq!(at(19), (-10, -9));
    assert_eq!(at(20), (-10, -10));
    assert_eq!(at(21), (-10, -10));
    assert_eq!(at(1_000_000), (-10, -10));
    assert_eq!(at(-19), (9, 10));
    assert_eq!(at(-21), (10, 10));
    // A safety range of one command leaves no other, and one away from 0 none near 0.
    let one = with_laws(1_000, &[(-2_000_000, (3, 3), law, row)]);
    assert_eq!(plain_commands(&one, &[7]), Some((3, 3)));
    let away = with_laws(1_000, &[(-2_000_000, (3, 5), law, row)]);
    assert_eq!(plain_commands(&away, &[7]), Some((3, 3)));
    assert_eq!(plain_commands(&away, &[-9]), Some((4, 5)));
    assert_eq!(plain_commands(&away, &[-13]), Some((5, 5)));
    // `BD`: the safety range, whatever the state.
    let mut plain = away;
    plain.band[0].law.divisor = 0;
    assert_eq!(plain_commands(&plain, &[7]), Some((3, 5)));
    assert_eq!(plain_commands(&plain, &[-2_000_001]), None);
}

#[test]
fn over_a_slabs_part_the_ends_are_bounded_like_a_rate() {
    // Band one up to -1: x / 2, commands -5..5, N = u. Band two from 0: (1 - 3x) / 2,
    // commands -4..4, N = x - 2u.
    let s = with_laws(
        1_000,
        &[
            (
                -2_000_000,
                (-5, 5),
                law_of_one(1, 0, 2),
                row_of_one(0, 1, 0, 0, 1),
            ),
            (0, (-4, 4), law_of_one(-3, 1, 2), row_of_one(1, -2, 0, 0, 1)),
        ],
    );
    let over = |lower, upper| rates(&s, 0, &vec![(lower, upper)], None);
    // Sums -10..-1, commands -5..0.
    assert_eq!(over(-10, -1), (-5, 0));
    // Band one over -3..-1: commands -2..0. Band two over 0..2: sums -5..1, commands
    // -3..1, N -2..8. Over -3..2 its sums would go to 10 and its commands to 4.
    assert_eq!(over(-3, 2), (-2, 8));
    // Sums -26..-8: below the safety range with both ends.
    assert_eq!(over(3, 9), (11, 17));
    // Sums -26..-5: the least end is clamped, the greatest is -2.
    assert_eq!(over(2, 9), (6, 17));
    // Under a span the span alone.
    assert_eq!(rates(&s, 0, &vec![(-3, 2)], Some((1, 2))), (-4, 2));
    // Of two variables each is taken at its own side: (x - y) / 1 over 0..3 and 1..2 runs
    // from -2 to 2.
    let law = BandLaw {
        coefficients: [1, -1, 0, 0, 0, 0],
        constant: 0,
        divisor: 1,
    };
    let row = row_of_one(0, 1, 0, 0, 1);
    let mut two = with_laws(1_000, &[(-2_000_000, (-9, 9), law, row)]);
    (two.n, two.caps[1]) = (2, 5);
    assert_eq!(rates(&two, 0, &vec![(0, 3), (1, 2)], None), (-2, 2));
}

#[test]
fn the_slab_is_cut_before_the_law_is_bounded() {
    // Start 0..100, cap 4, k = 1: the lower slab is 0..8, the upper one 92..100. -x / 4
    // is from -2 there, and below the safety range, -20..0, here. Over all of 0..100 the
    // lower rate would be -4.
    let law = law_of_one(-1, 0, 4);
    let row = row_of_one(0, 1, 0, 0, 1);
    let s = with_laws(4, &[(-2_000_000, (-20, 0), law, row)]);
    let reached = reach(&s, 1, 1, None, &[(0, 100)]).unwrap();
    assert_eq!(reached, (vec![(-2, 96)], vec![(-2, 100)], 1));
}

/// Sheet A's bands twice, with marks `BF`, and the places of the two marks.
fn two_laws() -> (Sheet, [usize; 2]) {
    let law = law_of_one(-1, 0, 2);
    let row = row_of_one(-1, 4, 0, 0, 20);
    let s = with_laws(5, &[(-2_000_000, (0, 0), law, row), (50, (0, 0), law, row)]);
    (s, [22, 22 + 36])
}

#[test]
fn the_first_bands_mark_fixes_the_length() {
    let (s, [first, second]) = two_laws();
    let long = write(&s).unwrap();
    let mut plain = s;
    plain.band[0].law.divisor = 0;
    let short = write(&plain).unwrap();
    assert_eq!((long.len(), short.len()), (70 + 28 + 16, 70 + 28));
    let marked = |bytes: &[u8], place: usize, mark: &[u8; 2]| {
        let mut bytes = bytes.to_vec();
        bytes[place..place + 2].copy_from_slice(mark);
        read(&bytes).err().unwrap_or(0)
    };
    // The other mark on the first band asks for the other length.
    assert_eq!(marked(&long, first, b"BF"), 0);
    assert_eq!(marked(&long, first, b"BD"), 5);
    assert_eq!(marked(&short, first, b"BD"), 0);
    assert_eq!(marked(&short, first, b"BF"), 5);
    // "another mark is then 7": on the first band with `BD`'s length, on the second with
    // that of the first band's mark.
    for other in [b"XY", b"BG", b"AF", b"FB", b"bf"] {
        assert_eq!(marked(&short, first, other), 7);
        assert_eq!(marked(&long, first, other), 5);
        assert_eq!(marked(&short, second - 8, other), 7);
        assert_eq!(marked(&long, second, other), 7);
    }
    assert_eq!(marked(&short, second - 8, b"BF"), 7);
    assert_eq!(marked(&long, second, b"BD"), 7);
    // "if it is there": a file that ends before the mark's second letter has `BD`'s length.
    for end in [20, first, first + 1, first + 2, long.len() - 1] {
        assert_eq!(read(&long[..end]), Err(5));
    }
    // Length comes before the cap, the cap before the second mark.
    let mut both = long.clone();
    both[20..22].fill(0);
    both[second] = b'X';
    assert_eq!(read(&both), Err(6));
    assert_eq!(read(&both[..long.len() - 1]), Err(5));
}

#[test]
fn bad_law_numbers_are_10() {
    let (s, marks) = two_laws();
    let bytes = write(&s).unwrap();
    let with = |faults: &[(usize, &[u8])]| {
        let mut bytes = bytes.clone();
        for (place, new) in faults {
            bytes[*place..place + new.len()].copy_from_slice(new);
        }
        read(&bytes).err().unwrap_or(0)
    };
    let coefficient = |number: i16| number.to_be_bytes();
    let constant = |number: i32| number.to_be_bytes();
    for mark in marks {
        let law = mark + 14;
        for (number, refusal) in [(-1_001, 10), (-1_000, 0), (1_000, 0), (1_001, 10)] {
            assert_eq!(with(&[(law, &coefficient(number))]), refusal);
        }
        for (number, refusal) in [(-100_000_001, 10), (-100_000_000, 0), (100_000_001, 10)] {
            assert_eq!(with(&[(law + 2, &constant(number))]), refusal);
        }
        for (number, refusal) in [(0, 10), (1, 0), (4_096, 0), (4_097, 10), (-1, 10)] {
            assert_eq!(with(&[(law + 6, &coefficient(number))]), refusal);
        }
    }
    // After the band's mark, edge and safety range, before the next band's mark.
    let (first, second) = (marks[0], marks[1]);
    let bad: (usize, &[u8]) = (first + 20, &[0, 0]);
    assert_eq!(with(&[bad, (first + 2, &constant(0))]), 8);
    assert_eq!(with(&[bad, (first + 6, &constant(1))]), 9);
    assert_eq!(with(&[bad, (second, b"XX")]), 10);
    assert_eq!(with(&[bad, (second + 2, &constant(-2_000_000))]), 10);
    assert_eq!(with(&[(second + 20, &[0, 0]), (second, b"XX")]), 7);
}

#[test]
fn a_value_is_bd_by_its_first_divisor() {
    let (s, _) = two_laws();
    // Not 0 and out of range: 10.
    for divisor in [-1, 4_097, i32::MIN, i32::MAX] {
        let mut other = s;
        other.band[0].law.divisor = divisor;
        assert_eq!(write(&other), Err(10));
    }
    let mut other = s;
    other.band[1].law.divisor = 0;
    assert_eq!(write(&other), Err(10));
    // 0: the other law numbers are not looked at.
    let mut rubbish = s;
    rubbish.band[0].law = law_of_one(i16::MAX, i32::MIN, 0);
    rubbish.band[1].law = law_of_one(i16::MIN, i32::MAX, -7);
    let bytes = write(&rubbish).unwrap();
    assert_eq!(bytes[22..24], *b"BD");
    let again = read(&bytes).unwrap();
    assert_eq!(again, rubbish);
    assert_eq!(again.band[1].law, BandLaw::default());
    // Numbers behind n or the count are not looked at either.
    let mut behind = s;
    behind.band[0].law.coefficients[1] = i16::MAX;
    behind.band[2].law.divisor = -1;
    assert_eq!(behind, s);
    assert_eq!(write(&behind), write(&s));
    for change in [(1, 0, 0), (0, 1, 0), (0, 0, 1)] {
        let mut other = s;
        other.band[1].law.coefficients[0] += change.0;
        other.band[1].law.constant += change.1;
        other.band[1].law.divisor += change.2;
        assert_ne!(other, s);
    }
}

// ---- Reports from the new drive (document 02, paper 1) ----

fn point(value: f32, tolerance: f32) -> Reading {
    Reading::Point(Point { value, tolerance })
}

/// The bytes before the pairs of a question marked `QS`.
fn head(command: i32, allowance: u32) -> Vec<u8> {
    question(&[], command, allowance)
}

/// The number by which a decision is refused, 0 for none.
fn refused_by(answer: u64) -> u64 {
    match unpack(answer) {
        (3, number, 0) => number,
        _ => 0,
    }
}

/// The least float above 1,000,000: floats are a 16th apart there.
const JUST_OVER: f32 = 1_000_000.062_5;
/// The greatest below it.
const JUST_UNDER: f32 = 999_999.937_5;
/// 2^-149, the least float above 0.
const LEAST: f32 = f32::from_bits(1);

#[test]
fn sheet_a_asked_by_readings() {
    let a = bytes_a();
    // 0..0, 95..100 and 131..131, each by values with a tolerance and by pairs.
    let zero = [
        point(0.0, 0.0),
        point(-0.0, -0.0),
        Reading::Pair(0.0, 0.0),
        Reading::Pair(0.0, -0.0),
    ];
    let high = [
        point(97.5, 2.0),
        point(97.25, 1.125),
        Reading::Pair(95.0, 100.0),
        Reading::Pair(95.75, 99.25),
    ];
    let over = [point(131.0, 0.0), Reading::Pair(131.0, 131.0)];
    let asked = |command, allowance, reading| {
        let answer = decide_readings(&a, &head(command, allowance), &[reading]);
        unpack(answer)
    };
    for reading in zero {
        assert_eq!(asked(25, 100, reading), (0, 4, 4));
        assert_eq!(asked(26, 100, reading), (3, 14, 0));
        assert_eq!(asked(25, 0, reading), (2, 4, 0));
    }
    for reading in high {
        assert_eq!(asked(25, 100, reading), (0, 4, 5));
        assert_eq!(asked(25, 4, reading), (2, 4, 4));
    }
    for reading in over {
        assert_eq!(asked(0, 100, reading), (1, 1, 5));
    }
    assert_eq!(asked(25, 100, Reading::Missing), (3, 18, 0));
    // The packed number itself.
    let answer = decide_readings(&a, &head(25, 100), &[Reading::Missing]);
    assert_eq!(answer, 3 * 281_474_976_710_656 + 18 * 4_294_967_296);
}

#[test]
fn a_value_and_tolerance() {
    // Value, tolerance, and floor(value) - ceil(tolerance), ceil(value) + ceil(tolerance).
    for (value, tolerance, sides) in [
        (7.0, 0.0, (7, 7)),
        (7.0, 2.0, (5, 9)),
        (7.25, 0.0, (7, 8)),
        (-7.25, 0.0, (-8, -7)),
        (7.0, 0.25, (6, 8)),
        // Each is rounded by itself, though 0..1 and 0..2 hold these too.
        (0.5, 0.5, (-1, 2)),
        (1.25, 0.75, (0, 3)),
        (-0.5, 1.5, (-3, 2)),
        (0.0, LEAST, (-1, 1)),
        (LEAST, 0.0, (0, 1)),
        (-LEAST, 0.0, (-1, 0)),
        (LEAST, LEAST, (-1, 2)),
        // The float nearest to 0.1 is a little more, the one nearest to 0.7 a little less.
        (0.1, 0.7, (-1, 2)),
        // In floats these two sums and differences are the value.
        (900_000.0, 0.01, (899_999, 900_001)),
        (-900_000.0, 0.01, (-900_001, -899_999)),
        (5.0, 999.937_5, (-995, 1_005)),
        (5.0, 1_000.0, (-995, 1_005)),
    ] {
        assert_eq!(
            sides_of(point(value, tolerance)),
            Ok(sides),
            "{value} {tolerance}"
        );
    }
}

#[test]
fn a_pair_gives_floor_and_ceil() {
    for (lower, upper, sides) in [
        (3.0, 4.0, (3, 4)),
        (3.0, 3.0, (3, 3)),
        (3.25, 3.25, (3, 4)),
        (3.25, 3.75, (3, 4)),
        (-3.75, -3.25, (-4, -3)),
        (-0.25, 0.25, (-1, 1)),
        (-LEAST, LEAST, (-1, 1)),
        (JUST_UNDER, 1_000_000.0, (999_999, 1_000_000)),
        (-1_000_000.0, -JUST_UNDER, (-1_000_000, -999_999)),
        (-1_000_000.0, 1_000_000.0, (-1_000_000, 1_000_000)),
    ] {
        assert_eq!(
            sides_of(Reading::Pair(lower, upper)),
            Ok(sides),
            "{lower} {upper}"
        );
    }
}

#[test]
fn floor_and_ceil_are_of_the_floats_exact_value() {
    // An f64 holds each f32 and each whole number here exactly.
    let sides_hold = |x: f32| {
        let (floor, ceil) = sides_of(Reading::Pair(x, x)).unwrap();
        let whole = |side: i32| side as f64;
        assert!(
            whole(floor) <= x as f64 && (x as f64) < whole(floor + 1),
            "{x}"
        );
        assert!(whole(ceil - 1) < x as f64 && x as f64 <= whole(ceil), "{x}");
        assert_eq!(sides_of(point(x, 0.0)), Ok((floor, ceil)), "{x}");
    };
    // The bits of the floats up to 1,000,000, and their neighbors where a step goes to the next
    // whole number.
    let last = 1_000_000f32.to_bits();
    for bits in (0..last).step_by(2_003).chain(last - 40..=last) {
        sides_hold(f32::from_bits(bits));
        sides_hold(-f32::from_bits(bits));
    }
    for whole in (0..1_000_000).step_by(997) {
        let bits = (whole as f32).to_bits();
        for near in bits.saturating_sub(2)..=bits + 2 {
            sides_hold(f32::from_bits(near));
            sides_hold(-f32::from_bits(near));
        }
    }
}

#[test]
fn the_box_always_holds_what_the_drive_meant() {
    let mut dice = Dice(3);
    for _ in 0..20_000 {
        // Multiples of 2^-p with at most 24 bits: sums in f64 are exact.
        let p = dice.from_to(4, 20) as i32;
        let unit = 2f32.powi(-p);
        let most = (1_000_000i64 << p).min((1 << 24) - 1);
        let value = dice.from_to(-most, most) as f32 * unit;
        let tolerance = dice.from_to(0, most.min(1_000 << p)) as f32 * unit;
        let (lower, upper) = sides_of(point(value, tolerance)).unwrap();
        assert!(lower as f64 <= value as f64 - tolerance as f64);
        assert!(value as f64 + tolerance as f64 <= upper as f64);
        // It is less than two wider on each side.
        assert!(lower as f64 > value as f64 - tolerance as f64 - 2.0);
        assert!(value as f64 + tolerance as f64 + 2.0 > upper as f64);
    }
}

#[test]
fn minus_zero_is_zero() {
    for value in [0.0, -0.0] {
        for tolerance in [0.0, -0.0] {
            assert_eq!(sides_of(point(value, tolerance)), Ok((0, 0)));
            assert_eq!(sides_of(Reading::Pair(value, tolerance)), Ok((0, 0)));
        }
        assert_eq!(sides_of(point(4.5, value)), Ok((4, 5)));
    }
}

/// Numbers that are bad wherever they stand.
fn bad_anywhere() -> [f32; 10] {
    [
        f32::NAN,
        -f32::NAN,
        // The least NaN, which signals, and the last one.
        f32::from_bits(0x7f80_0001),
        f32::from_bits(0xffff_ffff),
        f32::INFINITY,
        f32::NEG_INFINITY,
        JUST_OVER,
        -JUST_OVER,
        f32::MAX,
        f32::MIN,
    ]
}

#[test]
fn a_nan_an_infinity_or_a_magnitude_over_1000000_is_19() {
    for bad in bad_anywhere() {
        assert_eq!(sides_of(point(bad, 0.0)), Err(19), "{bad}");
        assert_eq!(sides_of(point(0.0, bad)), Err(19), "{bad}");
        assert_eq!(sides_of(point(bad, bad)), Err(19), "{bad}");
        assert_eq!(sides_of(Reading::Pair(bad, 1_000_000.0)), Err(19), "{bad}");
        assert_eq!(sides_of(Reading::Pair(-1_000_000.0, bad)), Err(19), "{bad}");
        assert_eq!(sides_of(Reading::Pair(bad, bad)), Err(19), "{bad}");
    }
    assert_eq!(JUST_OVER.to_bits(), 1_000_000f32.to_bits() + 1);
    assert_eq!(JUST_UNDER.to_bits(), 1_000_000f32.to_bits() - 1);
    // A magnitude of 1,000,000 is not over it.
    for value in [1_000_000.0, -1_000_000.0] {
        let whole = value as i32;
        assert_eq!(sides_of(point(value, 0.0)), Ok((whole, whole)));
        assert_eq!(sides_of(Reading::Pair(value, value)), Ok((whole, whole)));
    }
}

#[test]
fn a_tolerance_below_0_or_over_1000_is_19() {
    // By the float and not by its ceil.
    let over = f32::from_bits(1_000f32.to_bits() + 1);
    for bad in [-LEAST, -0.5, -1.0, -1_000.0, -1_000_000.0, over, 1_000.5] {
        assert_eq!(sides_of(point(0.0, bad)), Err(19), "{bad}");
    }
    assert_eq!(sides_of(point(0.0, 1_000_000.0)), Err(19));
    assert_eq!(sides_of(point(0.0, 1_000.0)), Ok((-1_000, 1_000)));
}

#[test]
fn a_reversed_pair_is_19() {
    // By the floats and not by floor and ceil.
    for (lower, upper) in [
        (1.0, 0.0),
        (0.75, 0.25),
        (LEAST, 0.0),
        (0.0, -LEAST),
        (-0.25, -0.75),
        (1_000_000.0, JUST_UNDER),
        (1_000_000.0, -1_000_000.0),
    ] {
        let (one, other) = (Reading::Pair(lower, upper), Reading::Pair(upper, lower));
        assert_eq!(sides_of(one), Err(19), "{lower} {upper}");
        assert!(sides_of(other).is_ok());
    }
}

#[test]
fn a_box_out_of_range_is_still_15() {
    let a = bytes_a();
    let asked = |reading| refused_by(decide_readings(&a, &head(0, 100), &[reading]));
    for sign in [1.0, -1.0] {
        for (value, tolerance, number) in [
            (1_000_000.0, 0.0, 0),
            (1_000_000.0, -0.0, 0),
            (1_000_000.0, LEAST, 15),
            (1_000_000.0, 1.0, 15),
            (999_999.0, 1.0, 0),
            (999_999.0, 1.062_5, 15),
            (JUST_UNDER, 0.0, 0),
            (JUST_UNDER, 0.062_5, 15),
            (999_000.0, 1_000.0, 0),
            (999_000.062_5, 1_000.0, 15),
            (999_000.0, 1_000.062_5, 19),
            (JUST_OVER, 0.0, 19),
        ] {
            assert_eq!(
                asked(point(sign * value, tolerance)),
                number,
                "{value} {tolerance}"
            );
        }
    }
    // A pair that is not 19 is within the range.
    assert_eq!(asked(Reading::Pair(-1_000_000.0, 1_000_000.0)), 0);
}

#[test]
fn the_bytes_before_a_questions_pairs() {
    let a = bytes_a();
    let asked = |head: &[u8]| refused_by(decide_readings(&a, head, &[point(0.0, 0.0)]));
    let one = head(25, 100);
    let ends = span(&[], (-25, 25), 100);
    assert_eq!((one.len(), ends.len()), (10, 14));
    assert_eq!((asked(&one), asked(&ends)), (0, 0));
    // Any other length is 12, that of a whole question too.
    for bytes in [
        question(&[(0, 0); 2], 25, 100),
        span(&[(0, 0); 2], (0, 0), 100),
    ] {
        for length in 0..bytes.len() {
            let right = head_length([bytes[0], bytes[1]]) == Some(length);
            assert_eq!(asked(&bytes[..length]), if right { 0 } else { 12 });
        }
    }
    for mark in [*b"QT", *b"RR", *b"sq", *b"SQ", *b"SH"] {
        for bytes in [&one, &ends] {
            let mut unknown = bytes.clone();
            unknown[..2].copy_from_slice(&mark);
            assert_eq!(asked(&unknown), 12);
        }
    }
    // Each mark has its own length.
    assert_eq!(asked(&[b"QR", &one[2..]].concat()), 12);
    assert_eq!(asked(&[b"QS", &ends[2..]].concat()), 12);
    assert_eq!(asked(&head(25, 1_000_001)), 13);
    assert_eq!(asked(&head(26, 100)), 14);
    assert_eq!(asked(&span(&[], (1, 0), 100)), 14);
    assert_eq!(asked(&span(&[], (-26, 0), 100)), 14);
}

#[test]
fn a_span_by_readings() {
    let a = bytes_a();
    for ends in [(25, 25), (-25, 25), (0, 25), (-1, 1)] {
        let by_box = decide(&a, &span(&[(95, 100)], ends, 100));
        let by_readings = decide_readings(&a, &span(&[], ends, 100), &[point(97.5, 2.0)]);
        assert_eq!(by_readings, by_box);
    }
}

fn three_variables() -> Vec<u8> {
    write(&with_no_go(3, &[[(130, 140); 6]])).unwrap()
}

#[test]
fn it_refuses_variable_by_variable() {
    let sheet = three_variables();
    let asked = |readings: &[Reading]| refused_by(decide_readings(&sheet, &head(0, 100), readings));
    let good = Reading::Pair(-0.5, 0.5);
    // 15 by the box, 19 by the float, 18 by the missing one.
    let causes = [
        (point(1_000_000.0, 1.0), 15),
        (point(JUST_OVER, 0.0), 19),
        (Reading::Pair(0.75, 0.25), 19),
        (point(0.0, f32::NAN), 19),
        (Reading::Missing, 18),
    ];
    assert_eq!(asked(&[good; 3]), 0);
    for i in 0..3 {
        for (cause, number) in causes {
            let mut readings = [good; 3];
            readings[i] = cause;
            assert_eq!(asked(&readings), number);
            // With a second one behind it: the first of 18 and 19, and 15 only if there is none.
            for j in i + 1..3 {
                for (later, other) in causes {
                    readings[j] = later;
                    let first = if number == 15 { other } else { number };
                    assert_eq!(asked(&readings), first, "{readings:?}");
                }
                readings[j] = good;
            }
        }
    }
}

#[test]
fn for_the_pairs_n_readings() {
    let sheet = three_variables();
    let asked = |readings: &[Reading]| refused_by(decide_readings(&sheet, &head(0, 100), readings));
    let good = Reading::Pair(-0.5, 0.5);
    // Readings that are not there are missing; those behind n are not looked at.
    assert_eq!(asked(&[]), 18);
    assert_eq!(asked(&[good; 2]), 18);
    assert_eq!(asked(&[good, point(f32::NAN, 0.0)]), 19);
    assert_eq!(asked(&[good, point(1_000_000.0, 1.0)]), 18);
    assert_eq!(asked(&[good; 4]), 0);
    assert_eq!(asked(&[good, good, good, Reading::Missing]), 0);
    assert_eq!(asked(&[good, good, good, point(f32::NAN, 0.0)]), 0);
}

#[test]
fn it_refuses_before_15_and_after_14() {
    let sheet = three_variables();
    let mut bad_sheet = sheet.clone();
    bad_sheet[0] = b'X';
    let good = Reading::Pair(-0.5, 0.5);
    let (outside, bad) = (point(1_000_000.0, 1.0), point(f32::NAN, 0.0));
    let all_three = [outside, Reading::Missing, bad];
    let far = head(26, 1_000_001);
    // Each row has a fault less, until there is none.
    let rows: [(&[u8], &[u8], [Reading; 3], u64); 8] = [
        (&bad_sheet, &far[..9], all_three, 1),
        (&sheet, &far[..9], all_three, 12),
        (&sheet, &far, all_three, 13),
        (&sheet, &head(26, 1_000_000), all_three, 14),
        (&sheet, &head(25, 1_000_000), all_three, 18),
        (&sheet, &head(25, 1_000_000), [outside, good, bad], 19),
        (&sheet, &head(25, 1_000_000), [outside, good, good], 15),
        (&sheet, &head(25, 1_000_000), [good; 3], 0),
    ];
    for (sheet, head, readings, number) in rows {
        assert_eq!(refused_by(decide_readings(sheet, head, &readings)), number);
    }
}

/// A reading of a box near lower..upper, and the sides it gives, worked out from sixteenths.
fn any_reading(dice: &mut Dice, lower: i64, upper: i64) -> (Reading, (i32, i32)) {
    let sixteenths = |x: i64| x as f32 / 16.0;
    if dice.from_to(0, 1) == 0 {
        let from = 16 * lower + dice.from_to(0, 15);
        let to = (16 * upper - dice.from_to(0, 15)).max(from);
        let sides = (floor_div(from, 16) as i32, ceil_div(to, 16) as i32);
        return (Reading::Pair(sixteenths(from), sixteenths(to)), sides);
    }
    let value = dice.from_to(16 * lower, 16 * upper);
    let tolerance = dice.from_to(0, 8 * (upper - lower));
    let room = ceil_div(tolerance, 16);
    let sides = (floor_div(value, 16) - room, ceil_div(value, 16) + room);
    let reading = point(sixteenths(value), sixteenths(tolerance));
    (reading, (sides.0 as i32, sides.1 as i32))
}

#[test]
fn it_answers_as_for_a_question_with_that_box() {
    let mut dice = Dice(4);
    let mut seen = [0; 4];
    for _ in 0..2_000 {
        let s = random_sheet(&mut dice);
        let sheet = write(&s).unwrap();
        let (mut readings, mut sides) = (Vec::new(), Vec::new());
        for _ in 0..s.n {
            let lower = dice.from_to(-60, 40);
            let upper = lower + dice.from_to(0, 20);
            let (reading, pair) = any_reading(&mut dice, lower, upper);
            readings.push(reading);
            sides.push(pair);
        }
        let head = any_question(&mut dice, &s, &[]);
        let mut asked = head.clone();
        for (lower, upper) in sides {
            asked.extend(lower.to_be_bytes());
            asked.extend(upper.to_be_bytes());
        }
        let answer = decide_readings(&sheet, &head, &readings);
        assert_eq!(answer, decide(&sheet, &asked));
        seen[unpack(answer).0 as usize] += 1;
    }
    assert!(seen[0] > 50 && seen[1] > 50 && seen[2] > 50, "{seen:?}");
}

#[test]
fn any_floats_have_an_answer() {
    let mut dice = Dice(5);
    let a = bytes_a();
    let mut seen = [0; 4];
    for _ in 0..20_000 {
        let mut float = || {
            let bits = dice.from_to(0, 0xffff) << 16 | dice.from_to(0, 0xffff);
            f32::from_bits(bits as u32)
        };
        let (one, other) = (float(), float());
        for reading in [point(one, other), Reading::Pair(one, other)] {
            let answer = decide_readings(&a, &head(0, 100), &[reading]);
            match refused_by(answer) {
                0 => seen[0] += 1,
                15 => seen[1] += 1,
                19 => seen[2] += 1,
                _ => seen[3] += 1,
            }
        }
    }
    assert!(
        seen[0] > 5_000 && seen[2] > 5_000 && seen[3] == 0,
        "{seen:?}"
    );
}

// ---- The boxes hold every run of the machine ----

struct Dice(u64);

impl Dice {
    fn from_to(&mut self, lower: i64, upper: i64) -> i64 {
        self.0 = self
            .0
            .wrapping_mul(6_364_136_223_846_793_005)
            .wrapping_add(1_442_695_040_888_963_407);
        lower + ((self.0 >> 33) % (upper - lower + 1) as u64) as i64
    }
}

/// A law whose commands are sometimes within the safety range and sometimes clamped.
fn random_law(dice: &mut Dice, n: usize) -> BandLaw {
    let mut law = BandLaw {
        constant: dice.from_to(-200, 200) as i32,
        divisor: dice.from_to(1, 60) as i32,
        ..BandLaw::default()
    };
    for j in 0..n {
        law.coefficients[j] = dice.from_to(-9, 9) as i16;
    }
    law
}

fn random_row(dice: &mut Dice, n: usize, i: usize) -> Row {
    let mut row = Row::default();
    for j in 0..n {
        row.a[j] = dice.from_to(-4, 4) as i16;
    }
    row.a[i] = dice.from_to(-30, 2) as i16;
    row.b = dice.from_to(-20, 20) as i16;
    row.c = dice.from_to(-50, 50) as i32;
    row.d = dice.from_to(0, 30) as i32;
    row.q = dice.from_to(1, 200) as u16;
    row
}

fn random_sheet(dice: &mut Dice) -> Sheet {
    let mut s = Sheet {
        n: dice.from_to(1, 6) as u8,
        bands: dice.from_to(1, 8) as u8,
        no_go: dice.from_to(1, 8) as u8,
        delta: dice.from_to(1, 12) as u16,
        alpha: dice.from_to(1, 12) as u16,
        rho: dice.from_to(1, 12) as u16,
        least: dice.from_to(-30, 0) as i32,
        greatest: dice.from_to(0, 30) as i32,
        ..Sheet::default()
    };
    s.band_variable = dice.from_to(0, s.n as i64 - 1) as u8;
    let n = s.n as usize;
    for i in 0..n {
        s.caps[i] = dice.from_to(1, 20) as u16;
        let lower = dice.from_to(-200, -50) as i32;
        s.recovery[i] = (lower, dice.from_to(50, 200) as i32);
    }
    let follows = dice.from_to(0, 1) == 1;
    let mut edge = -2_000_000;
    for k in 0..s.bands as usize {
        s.band[k].edge = edge;
        edge = edge.max(-150) + dice.from_to(1, 60) as i32;
        s.band[k].safety_least = dice.from_to(s.least as i64, 0) as i32;
        s.band[k].safety_greatest = dice.from_to(0, s.greatest as i64) as i32;
        if follows {
            s.band[k].law = random_law(dice, n);
        }
        for i in 0..n {
            s.band[k].rows[i] = random_row(dice, n, i);
        }
    }
    for k in 0..s.no_go as usize {
        for i in 0..n {
            let lower = dice.from_to(-400, 400) as i32;
            s.no_go_box[k][i] = (lower, lower + dice.from_to(0, 100) as i32);
        }
    }
    put_in_order(&mut s);
    s
}

/// The no-go boxes that are clear of the recovery box, in ascending order, each once; one far away
/// where there is none. Places behind n and the count are 0.
fn put_in_order(s: &mut Sheet) {
    let mut boxes = s.no_go_box[..s.no_go as usize].to_vec();
    let recovery = to_box(&s.recovery, s.n);
    boxes.retain(|no_go| !shares_a_state(&to_box(no_go, s.n), &recovery));
    if boxes.is_empty() {
        let mut far = Sides::default();
        far[0] = (401, 500);
        boxes.push(far);
    }
    boxes.sort();
    boxes.dedup();
    s.no_go = boxes.len() as u8;
    s.no_go_box = [Sides::default(); 8];
    s.no_go_box[..boxes.len()].copy_from_slice(&boxes);
}

#[test]
fn boxes_hold_random_runs() {
    let mut dice = Dice(1);
    for _ in 0..1_000 {
        let s = random_sheet(&mut dice);
        let n = s.n as usize;
        assert_eq!(read(&write(&s).unwrap()).unwrap(), s);
        let mut start = Vec::new();
        for _ in 0..n {
            let lower = dice.from_to(-150, 150);
            start.push((lower, lower + dice.from_to(0, 40)));
        }
        let ticks = dice.from_to(0, 25);
        let width = dice.from_to(1, 30);
        let command = match dice.from_to(0, 1) {
            0 => None,
            _ => Some(dice.from_to(s.least as i64, s.greatest as i64) as i32),
        };
        let (end, swept, _) = reach(&s, ticks as u32, width as u32, command, &start).unwrap();
        assert!(lies_in(&end, &swept));
        for _ in 0..20 {
            let mut state: Vec<i64> = start.iter().map(|p| dice.from_to(p.0, p.1)).collect();
            let inside = |state: &[i64], sides: &[(i64, i64)]| {
                (0..n).all(|i| sides[i].0 <= state[i] && state[i] <= sides[i].1)
            };
            // Some runs lean on the least or the greatest changes.
            let lean = dice.from_to(0, 2);
            for _ in 0..ticks {
                assert!(inside(&state, &swept));
                let (least, greatest) = plain_commands(&s, &state).unwrap();
                let u = match command {
                    Some(u) => u as i64,
                    None => dice.from_to(least, greatest),
                };
                let mut next = state.clone();
                for i in 0..n {
                    let (lower, upper) = allowed_change(&s, &state, i, u).unwrap();
                    next[i] += match lean {
                        0 => lower,
                        1 => upper,
                        _ => dice.from_to(lower, upper),
                    };
                }
                state = next;
            }
            assert!(inside(&state, &end));
        }
    }
}

/// A question with either mark.
fn any_question(dice: &mut Dice, s: &Sheet, sides: &[(i32, i32)]) -> Vec<u8> {
    let least = dice.from_to(s.least as i64, s.greatest as i64);
    let greatest = dice.from_to(least, s.greatest as i64);
    let allowance = dice.from_to(0, 300) as u32;
    match dice.from_to(0, 1) {
        0 => question(sides, least as i32, allowance),
        _ => span(sides, (least as i32, greatest as i32), allowance),
    }
}

#[test]
fn any_bytes_have_an_answer() {
    let mut dice = Dice(2);
    for _ in 0..2_000 {
        let s = random_sheet(&mut dice);
        let mut sheet = write(&s).unwrap();
        let mut sides = Vec::new();
        for _ in 0..s.n {
            let lower = dice.from_to(-150, 150) as i32;
            sides.push((lower, lower + dice.from_to(0, 40) as i32));
        }
        let mut q = any_question(&mut dice, &s, &sides);
        if dice.from_to(0, 2) == 0 {
            let at = dice.from_to(0, sheet.len() as i64 - 1) as usize;
            sheet[at] = dice.from_to(0, 255) as u8;
        }
        if dice.from_to(0, 2) == 0 {
            let at = dice.from_to(0, q.len() as i64 - 1) as usize;
            q[at] = dice.from_to(0, 255) as u8;
        }
        let (code, w, rounds) = unpack(decide(&sheet, &q));
        match code {
            0..=2 => assert!(w >= 1 && w <= 999 && rounds <= 1_000_000),
            _ => assert!((w >= 1 && w <= 15 || w == 20 || w == 22) && rounds == 0),
        }
        if let Ok(again) = read(&sheet) {
            assert_eq!(write(&again).unwrap(), sheet);
        }
        let cut = dice.from_to(0, sheet.len() as i64) as usize;
        let _ = listing(Some(&sheet[..cut]), Some(&q));
        let _ = listing(Some(&sheet), Some(&q));
    }
}
