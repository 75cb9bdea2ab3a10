//! Sheet layout, reader, writer, and a question's layout.

/// n pairs of lower and upper side; only the first n count.
pub type Sides = [(i32, i32); 6];

/// One row of a band: N = sum of a[j] * x[j] + b * u + c, spread d, divisor q.
#[derive(Clone, Copy, Debug, Default, PartialEq, Eq)]
pub struct Row {
    pub a: [i16; 6],
    pub b: i16,
    pub c: i32,
    pub d: i32,
    pub q: u16,
}

/// What a band marked `BF` adds (document 02, paper 9): its plain commands come from
/// (sum of coefficients[j] * x[j] + constant) / divisor. A value's divisor may be one
/// that no file can hold.
#[derive(Clone, Copy, Debug, Default, PartialEq, Eq)]
pub struct BandLaw {
    pub coefficients: [i16; 6],
    pub constant: i32,
    pub divisor: i32,
}

#[derive(Clone, Copy, Debug, Default)]
pub struct Band {
    pub edge: i32,
    pub safety_least: i32,
    pub safety_greatest: i32,
    pub law: BandLaw,
    pub rows: [Row; 6],
}

/// A sheet's value. Array places behind the counts carry no meaning.
#[derive(Clone, Copy, Debug, Default)]
pub struct Sheet {
    pub n: u8,
    /// Number of bands.
    pub bands: u8,
    /// Number of no-go boxes.
    pub no_go: u8,
    pub band_variable: u8,
    pub delta: u16,
    pub alpha: u16,
    pub rho: u16,
    pub least: i32,
    pub greatest: i32,
    pub caps: [u16; 6],
    pub band: [Band; 8],
    pub no_go_box: [Sides; 8],
    pub recovery: Sides,
}

/// The bands' mark of a value: with the divisor 0 in the first band it is `BD`, and no
/// law number counts (READINGS.md, 38).
pub fn band_mark(sheet: &Sheet) -> [u8; 2] {
    if sheet.band[0].law.divisor == 0 {
        *b"BD"
    } else {
        *b"BF"
    }
}

/// "Two sheets are the same when their values up to their counts are."
impl PartialEq for Sheet {
    fn eq(&self, other: &Sheet) -> bool {
        if (self.n, self.bands, self.no_go, self.band_variable)
            != (other.n, other.bands, other.no_go, other.band_variable)
        {
            return false;
        }
        if (self.delta, self.alpha, self.rho) != (other.delta, other.alpha, other.rho) {
            return false;
        }
        if (self.least, self.greatest) != (other.least, other.greatest) {
            return false;
        }
        if band_mark(self) != band_mark(other) {
            return false;
        }
        // Counts out of range go no further than the arrays.
        let n = (self.n as usize).min(6);
        let bands = (self.bands as usize).min(8);
        let no_go = (self.no_go as usize).min(8);
        if self.caps[..n] != other.caps[..n] {
            return false;
        }
        for k in 0..bands {
            let (p, q) = (&self.band[k], &other.band[k]);
            if !same_band(p, q, band_mark(self), n) {
                return false;
            }
        }
        for k in 0..no_go {
            if self.no_go_box[k][..n] != other.no_go_box[k][..n] {
                return false;
            }
        }
        self.recovery[..n] == other.recovery[..n]
    }
}

impl Eq for Sheet {}

/// Two bands with the same mark, up to n; without laws their numbers do not count.
fn same_band(p: &Band, q: &Band, mark: [u8; 2], n: usize) -> bool {
    if (p.edge, p.safety_least, p.safety_greatest) != (q.edge, q.safety_least, q.safety_greatest) {
        return false;
    }
    if mark == *b"BF"
        && (p.law.coefficients[..n] != q.law.coefficients[..n]
            || p.law.constant != q.law.constant
            || p.law.divisor != q.law.divisor)
    {
        return false;
    }
    for i in 0..n {
        let (r, s) = (&p.rows[i], &q.rows[i]);
        if r.a[..n] != s.a[..n] || (r.b, r.c, r.d, r.q) != (s.b, s.c, s.d, s.q) {
            return false;
        }
    }
    true
}

/// "Length: 20 + 2n + bands*(14 + n(2n + 12)) + (2 + 8n)*(no-go + 1)". A band marked
/// `BF` has n coefficients of two bytes, a constant of four and a divisor of two more.
pub fn sheet_length(mark: [u8; 2], n: u8, bands: u8, no_go: u8) -> usize {
    let (n, bands, no_go) = (n as usize, bands as usize, no_go as usize);
    let mut length = 20 + 2 * n + bands * (14 + n * (2 * n + 12)) + (2 + 8 * n) * (no_go + 1);
    if mark == *b"BF" {
        length += bands * (2 * n + 4 + 2);
    }
    length
}

/// The mark that a file's bands have to carry: "if it is there and reads `BF`, the longer
/// form, otherwise `BD`'s" (document 02, paper 9). The first band's mark stands behind the
/// head's 20 bytes and the n caps.
fn mark_of_file(bytes: &[u8], n: u8) -> [u8; 2] {
    let at = 20 + 2 * n as usize;
    if at + 2 <= bytes.len() && bytes[at] == b'B' && bytes[at + 1] == b'F' {
        *b"BF"
    } else {
        *b"BD"
    }
}

/// How many bytes a question has before its pairs: `QS` 10, `QR` 14 (document 02, paper 4).
/// Other marks have no length.
pub fn head_length(mark: [u8; 2]) -> Option<usize> {
    if mark == *b"QS" {
        return Some(10);
    }
    if mark == *b"QR" {
        return Some(14);
    }
    None
}

/// `QS` has 10 + 8n bytes, `QR` 14 + 8n.
pub fn question_length(mark: [u8; 2], n: u8) -> Option<usize> {
    let before = head_length(mark)?;
    Some(before + 8 * n as usize)
}

// ---- The values' ranges, one test for each refusal number ----

/// n 1-6, bands 1-8, no-go boxes 1-8, band variable below n.
fn test_counts(sheet: &Sheet) -> Result<(), u8> {
    if sheet.n < 1 || sheet.n > 6 {
        return Err(2);
    }
    if sheet.bands < 1 || sheet.bands > 8 {
        return Err(2);
    }
    if sheet.no_go < 1 || sheet.no_go > 8 {
        return Err(2);
    }
    if sheet.band_variable >= sheet.n {
        return Err(2);
    }
    Ok(())
}

/// Each at least 1, delta + alpha at most 1,000, rho at most 1,000.
fn test_ticks(sheet: &Sheet) -> Result<(), u8> {
    if sheet.delta < 1 || sheet.alpha < 1 || sheet.rho < 1 {
        return Err(3);
    }
    if sheet.delta as u32 + sheet.alpha as u32 > 1_000 {
        return Err(3);
    }
    if sheet.rho > 1_000 {
        return Err(3);
    }
    Ok(())
}

/// least <= greatest, within +-10,000.
fn test_commands(sheet: &Sheet) -> Result<(), u8> {
    if sheet.least > sheet.greatest || sheet.least < -10_000 || sheet.greatest > 10_000 {
        return Err(4);
    }
    Ok(())
}

/// n caps, 1-1,000.
fn test_caps(sheet: &Sheet) -> Result<(), u8> {
    for i in 0..sheet.n as usize {
        if sheet.caps[i] < 1 || sheet.caps[i] > 1_000 {
            return Err(6);
        }
    }
    Ok(())
}

/// Law coefficients +-1,000, constant +-100,000,000, divisor 1-4,096.
fn test_law(law: &BandLaw, n: u8) -> Result<(), u8> {
    for j in 0..n as usize {
        if law.coefficients[j] < -1_000 || law.coefficients[j] > 1_000 {
            return Err(10);
        }
    }
    if law.constant < -100_000_000 || law.constant > 100_000_000 {
        return Err(10);
    }
    if law.divisor < 1 || law.divisor > 4_096 {
        return Err(10);
    }
    Ok(())
}

/// Band k's edge, then its safety range, then its law if the mark is `BF`, then its rows.
fn test_band(sheet: &Sheet, mark: [u8; 2], k: usize) -> Result<(), u8> {
    let band = &sheet.band[k];
    if k == 0 {
        if band.edge != -2_000_000 {
            return Err(8);
        }
    } else if band.edge <= sheet.band[k - 1].edge || band.edge > 2_000_000 {
        return Err(8);
    }
    if band.safety_least > band.safety_greatest
        || band.safety_least < sheet.least
        || band.safety_greatest > sheet.greatest
    {
        return Err(9);
    }
    if mark == *b"BF" {
        test_law(&band.law, sheet.n)?;
    }
    for i in 0..sheet.n as usize {
        let row = &band.rows[i];
        for j in 0..sheet.n as usize {
            if row.a[j] < -1_000 || row.a[j] > 1_000 {
                return Err(10);
            }
        }
        if row.b < -1_000 || row.b > 1_000 {
            return Err(10);
        }
        if row.c < -100_000_000 || row.c > 100_000_000 {
            return Err(10);
        }
        if row.d < 0 || row.d > 100_000_000 {
            return Err(10);
        }
        if row.q < 1 || row.q > 4_096 {
            return Err(10);
        }
    }
    Ok(())
}

/// n pairs, lower <= upper, within +-bound; else the given refusal.
fn test_sides(sides: &Sides, n: u8, bound: i32, refusal: u8) -> Result<(), u8> {
    for i in 0..n as usize {
        let (lower, upper) = sides[i];
        if lower > upper || lower < -bound || upper > bound {
            return Err(refusal);
        }
    }
    Ok(())
}

/// "It refuses with 20 a no-go record not greater than the one before" (document 02, paper 2).
/// The first record has none before it.
fn test_order(sheet: &Sheet, k: usize) -> Result<(), u8> {
    if k == 0 {
        return Ok(());
    }
    for i in 0..sheet.n as usize {
        let (lower, upper) = sheet.no_go_box[k][i];
        let (lower_before, upper_before) = sheet.no_go_box[k - 1][i];
        if lower != lower_before {
            return if lower > lower_before {
                Ok(())
            } else {
                Err(20)
            };
        }
        if upper != upper_before {
            return if upper > upper_before {
                Ok(())
            } else {
                Err(20)
            };
        }
    }
    // All sides are the same: not greater.
    Err(20)
}

/// Is some state in no-go box k and in the recovery box? The values of a variable that are in both
/// run from the greater lower side to the lesser upper side.
fn no_go_on_recovery(sheet: &Sheet, k: usize) -> bool {
    for i in 0..sheet.n as usize {
        let from = sheet.no_go_box[k][i].0.max(sheet.recovery[i].0);
        let to = sheet.no_go_box[k][i].1.min(sheet.recovery[i].1);
        if from > to {
            return false;
        }
    }
    true
}

/// "It refuses with 22 a sheet whose recovery box shares a state with a no-go box" (document 02,
/// paper 8).
fn test_recovery_clear(sheet: &Sheet) -> Result<(), u8> {
    for k in 0..sheet.no_go as usize {
        if no_go_on_recovery(sheet, k) {
            return Err(22);
        }
    }
    Ok(())
}

/// All the values of a sheet in file order.
pub fn test_values(sheet: &Sheet) -> Result<(), u8> {
    test_counts(sheet)?;
    test_ticks(sheet)?;
    test_commands(sheet)?;
    test_caps(sheet)?;
    for k in 0..sheet.bands as usize {
        test_band(sheet, band_mark(sheet), k)?;
    }
    for k in 0..sheet.no_go as usize {
        test_sides(&sheet.no_go_box[k], sheet.n, 2_000_000, 11)?;
        test_order(sheet, k)?;
    }
    test_sides(&sheet.recovery, sheet.n, 1_000_000, 11)?;
    test_recovery_clear(sheet)
}

// ---- Reading ----

/// Takes big-endian numbers one after another. The caller has tested the length.
struct Bytes<'a> {
    bytes: &'a [u8],
    at: usize,
}

impl Bytes<'_> {
    fn u8(&mut self) -> u8 {
        let value = self.bytes[self.at];
        self.at += 1;
        value
    }

    fn u16(&mut self) -> u16 {
        let high = self.u8() as u16;
        let low = self.u8() as u16;
        high * 256 + low
    }

    fn u32(&mut self) -> u32 {
        let high = self.u16() as u32;
        let low = self.u16() as u32;
        high * 65_536 + low
    }

    // The casts to signed numbers are two's complement.
    fn i16(&mut self) -> i16 {
        self.u16() as i16
    }

    fn i32(&mut self) -> i32 {
        self.u32() as i32
    }

    fn mark(&mut self) -> [u8; 2] {
        [self.u8(), self.u8()]
    }

    fn law(&mut self, n: u8) -> BandLaw {
        let mut law = BandLaw::default();
        for j in 0..n as usize {
            law.coefficients[j] = self.i16();
        }
        law.constant = self.i32();
        law.divisor = self.u16() as i32;
        law
    }

    /// What follows a band's mark.
    fn band(&mut self, mark: [u8; 2], n: u8) -> Band {
        let mut band = Band {
            edge: self.i32(),
            safety_least: self.i32(),
            safety_greatest: self.i32(),
            ..Band::default()
        };
        if mark == *b"BF" {
            band.law = self.law(n);
        }
        for i in 0..n as usize {
            let row = &mut band.rows[i];
            for j in 0..n as usize {
                row.a[j] = self.i16();
            }
            row.b = self.i16();
            row.c = self.i32();
            row.d = self.i32();
            row.q = self.u16();
        }
        band
    }

    fn sides(&mut self, n: u8) -> Sides {
        let mut sides = Sides::default();
        for i in 0..n as usize {
            let lower = self.i32();
            let upper = self.i32();
            sides[i] = (lower, upper);
        }
        sides
    }
}

/// The sheet's value, or the refusal number.
pub fn read(bytes: &[u8]) -> Result<Sheet, u8> {
    // 1: under 20 bytes, or mark not SH.
    if bytes.len() < 20 {
        return Err(1);
    }
    let mut from = Bytes { bytes, at: 0 };
    if from.mark() != *b"SH" {
        return Err(1);
    }
    let mut sheet = Sheet {
        n: from.u8(),
        bands: from.u8(),
        no_go: from.u8(),
        band_variable: from.u8(),
        delta: from.u16(),
        alpha: from.u16(),
        rho: from.u16(),
        least: from.i32(),
        greatest: from.i32(),
        ..Sheet::default()
    };
    test_counts(&sheet)?;
    test_ticks(&sheet)?;
    test_commands(&sheet)?;
    // 5: length, which the first band's mark fixes.
    let mark = mark_of_file(bytes, sheet.n);
    if bytes.len() != sheet_length(mark, sheet.n, sheet.bands, sheet.no_go) {
        return Err(5);
    }
    // 6: a cap.
    for i in 0..sheet.n as usize {
        sheet.caps[i] = from.u16();
    }
    test_caps(&sheet)?;
    // Then the file's order, a record's mark before its fields.
    for k in 0..sheet.bands as usize {
        if from.mark() != mark {
            return Err(7);
        }
        sheet.band[k] = from.band(mark, sheet.n);
        test_band(&sheet, mark, k)?;
    }
    for k in 0..sheet.no_go as usize {
        if from.mark() != *b"NG" {
            return Err(7);
        }
        sheet.no_go_box[k] = from.sides(sheet.n);
        test_sides(&sheet.no_go_box[k], sheet.n, 2_000_000, 11)?;
        // 20: not greater than the one before, "after that record's own sides".
        test_order(&sheet, k)?;
    }
    if from.mark() != *b"RC" {
        return Err(7);
    }
    sheet.recovery = from.sides(sheet.n);
    test_sides(&sheet.recovery, sheet.n, 1_000_000, 11)?;
    // 22: on a no-go box, "after the last recovery side".
    test_recovery_clear(&sheet)?;
    Ok(sheet)
}

// ---- Writing ----

/// The sheet's bytes, or the first refusal of its values in file order.
pub fn write(sheet: &Sheet) -> Result<Vec<u8>, u8> {
    test_values(sheet)?;
    let n = sheet.n as usize;
    let mut out = Vec::new();
    out.extend(b"SH");
    out.push(sheet.n);
    out.push(sheet.bands);
    out.push(sheet.no_go);
    out.push(sheet.band_variable);
    out.extend(sheet.delta.to_be_bytes());
    out.extend(sheet.alpha.to_be_bytes());
    out.extend(sheet.rho.to_be_bytes());
    out.extend(sheet.least.to_be_bytes());
    out.extend(sheet.greatest.to_be_bytes());
    for i in 0..n {
        out.extend(sheet.caps[i].to_be_bytes());
    }
    for k in 0..sheet.bands as usize {
        write_band(&mut out, &sheet.band[k], band_mark(sheet), n);
    }
    for k in 0..sheet.no_go as usize {
        out.extend(b"NG");
        write_sides(&mut out, &sheet.no_go_box[k], n);
    }
    out.extend(b"RC");
    write_sides(&mut out, &sheet.recovery, n);
    Ok(out)
}

fn write_band(out: &mut Vec<u8>, band: &Band, mark: [u8; 2], n: usize) {
    out.extend(mark);
    out.extend(band.edge.to_be_bytes());
    out.extend(band.safety_least.to_be_bytes());
    out.extend(band.safety_greatest.to_be_bytes());
    if mark == *b"BF" {
        for j in 0..n {
            out.extend(band.law.coefficients[j].to_be_bytes());
        }
        out.extend(band.law.constant.to_be_bytes());
        // Tested: 1 to 4,096.
        out.extend((band.law.divisor as u16).to_be_bytes());
    }
    for i in 0..n {
        let row = &band.rows[i];
        for j in 0..n {
            out.extend(row.a[j].to_be_bytes());
        }
        out.extend(row.b.to_be_bytes());
        out.extend(row.c.to_be_bytes());
        out.extend(row.d.to_be_bytes());
        out.extend(row.q.to_be_bytes());
    }
}

fn write_sides(out: &mut Vec<u8>, sides: &Sides, n: usize) {
    for i in 0..n {
        out.extend(sides[i].0.to_be_bytes());
        out.extend(sides[i].1.to_be_bytes());
    }
}

/// Fills the caller's buffer from the named place; returns the sheet's length.
/// Bytes outside the sheet remain. 17 is tested last.
pub fn write_at(sheet: &Sheet, buffer: &mut [u8], place: usize) -> Result<usize, u8> {
    let bytes = write(sheet)?;
    if place > buffer.len() || buffer.len() - place < bytes.len() {
        return Err(17);
    }
    for at in 0..bytes.len() {
        buffer[place + at] = bytes[at];
    }
    Ok(bytes.len())
}

// ---- Questions ----

#[derive(Clone, Copy, Debug)]
pub struct Question {
    pub allowance: u32,
    /// `QS` has one command, which is both.
    pub least: i32,
    pub greatest: i32,
    pub measured: Sides,
}

/// What stands before a question's pairs.
#[derive(Clone, Copy, Debug)]
pub struct QuestionHead {
    pub allowance: u32,
    pub least: i32,
    pub greatest: i32,
}

/// The bytes before a question's pairs, alone, or their refusal, 12 to 14 (document 02, paper 1).
pub fn read_head(sheet: &Sheet, bytes: &[u8]) -> Result<QuestionHead, u8> {
    // 12: the question's length or mark.
    if bytes.len() < 2 {
        return Err(12);
    }
    let mut from = Bytes { bytes, at: 0 };
    let mark = from.mark();
    if head_length(mark) != Some(bytes.len()) {
        return Err(12);
    }
    // 13: allowance.
    let allowance = from.u32();
    if allowance > 1_000_000 {
        return Err(13);
    }
    // 14: command, or a reversed span or one outside the head's range.
    let least = from.i32();
    let mut greatest = least;
    if mark == *b"QR" {
        greatest = from.i32();
    }
    if least > greatest {
        return Err(14);
    }
    test_command(sheet, least)?;
    test_command(sheet, greatest)?;
    Ok(QuestionHead {
        allowance,
        least,
        greatest,
    })
}

/// A question to a sheet that was read, or its refusal, 12 to 15.
pub fn read_question(sheet: &Sheet, bytes: &[u8]) -> Result<Question, u8> {
    // 12: the question's length or mark.
    if bytes.len() < 2 {
        return Err(12);
    }
    if question_length([bytes[0], bytes[1]], sheet.n) != Some(bytes.len()) {
        return Err(12);
    }
    // 13 and 14: what stands before the n pairs of eight bytes.
    let at = bytes.len() - 8 * sheet.n as usize;
    let head = read_head(sheet, &bytes[..at])?;
    // 15: measured side.
    let measured = Bytes { bytes, at }.sides(sheet.n);
    test_sides(&measured, sheet.n, 1_000_000, 15)?;
    Ok(Question {
        allowance: head.allowance,
        least: head.least,
        greatest: head.greatest,
        measured,
    })
}

/// A question's or a reach's command lies within the head's commands.
pub fn test_command(sheet: &Sheet, command: i32) -> Result<(), u8> {
    if command < sheet.least || command > sheet.greatest {
        return Err(14);
    }
    Ok(())
}
