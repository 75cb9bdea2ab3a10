//! Sheets: the values of one machine, the bytes that carry them, and the refusals.
//! Reader and writer share the tests of the values; the reader adds marks and lengths.

use crate::boxes::{StateBox, VARIABLES};

/// The most bands and unsafe boxes that a sheet has.
pub const BANDS: usize = 8;
pub const UNSAFE_BOXES: usize = 8;

/// The bounds that document 01 sets for the values.
pub const SIDE_LIMIT: i64 = 2_000_000;
pub const START_LIMIT: i64 = 1_000_000;
pub const FIRST_EDGE: i32 = -2_000_000;
pub const LAST_EDGE: i32 = 2_000_000;
pub const TICKS_LIMIT: i32 = 1_000;
const COMMAND_LIMIT: i32 = 10_000;
const CAP_LIMIT: i32 = 1_000;
const COEFFICIENT_LIMIT: i32 = 1_000;
const OFFSET_LIMIT: i32 = 100_000_000;
const DIVISOR_LIMIT: i32 = 4_096;

/// The head's bytes before the caps.
const HEAD: usize = 20;

/// How many numbers `Sheet::numbers` lists, and where its parts begin.
pub const NUMBERS: usize = 691;
const CAPS_AT: usize = 9;
pub const BANDS_AT: usize = CAPS_AT + VARIABLES;
/// In a band: its law and its rows.
pub const LAW_AT: usize = 3;
const ROWS_AT: usize = LAW_AT + VARIABLES + 2;
const ROW_NUMBERS: usize = VARIABLES + 4;
pub const BAND_NUMBERS: usize = ROWS_AT + VARIABLES * ROW_NUMBERS;
const RECOVERY_AT: usize = BANDS_AT + BANDS * BAND_NUMBERS;
pub const UNSAFE_AT: usize = RECOVERY_AT + 2 * VARIABLES;

/// Why a call is refused; the value is the number of document 01 or 02.
#[derive(Clone, Copy, Debug, PartialEq, Eq)]
#[repr(u8)]
pub enum Refusal {
    Head = 1,
    Counts = 2,
    Times = 3,
    Commands = 4,
    Length = 5,
    Cap = 6,
    Mark = 7,
    Edge = 8,
    SafetyRange = 9,
    Row = 10,
    Side = 11,
    Question = 12,
    Allowance = 13,
    Command = 14,
    Start = 15,
    Reach = 16,
    Room = 17,
    Missing = 18,
    Reading = 19,
    Order = 20,
    Overlap = 22,
}

impl Refusal {
    pub fn number(self) -> u8 {
        self as u8
    }
}

/// Commands from the least to the greatest, both counted.
#[derive(Clone, Copy, Debug, Default, PartialEq, Eq)]
pub struct CommandRange {
    pub least: i32,
    pub greatest: i32,
}

impl CommandRange {
    /// One command.
    pub fn one(command: i32) -> CommandRange {
        CommandRange {
            least: command,
            greatest: command,
        }
    }

    pub fn holds(&self, command: i32) -> bool {
        self.least <= command && command <= self.greatest
    }

    /// The other one is in order and within this one.
    pub fn holds_range(&self, other: &CommandRange) -> bool {
        other.least <= other.greatest && self.holds(other.least) && self.holds(other.greatest)
    }
}

/// How one variable changes in one band: coefficients, spread and divisor.
#[derive(Clone, Copy, Debug, Default, PartialEq, Eq)]
pub struct Row {
    pub a: [i32; VARIABLES],
    pub b: i32,
    pub c: i32,
    pub d: i32,
    pub q: i32,
}

/// How a band's plain commands follow the state: (Σ coefficient·x + constant)/divisor.
#[derive(Clone, Copy, Debug, Default, PartialEq, Eq)]
pub struct BandLaw {
    pub coefficients: [i32; VARIABLES],
    pub constant: i32,
    pub divisor: i32,
}

/// Where a sheet's plain commands come from; the bands' mark tells it.
#[derive(Clone, Copy, Debug, PartialEq, Eq)]
pub enum Kind {
    /// `BD`: the band's safety range. No law number is looked at.
    Fixed,
    /// `BF`: the band's law, clamped to its safety range.
    Following,
}

impl Kind {
    /// The kind of a file with n variables, by the first band's mark where the file reaches it.
    fn of_file(bytes: &[u8], n: usize) -> Kind {
        let mark = bytes.get(HEAD + 2 * n..).and_then(<[u8]>::first_chunk);
        if mark == Some(Kind::Following.mark()) {
            Kind::Following
        } else {
            Kind::Fixed
        }
    }

    /// The mark of every band.
    pub fn mark(self) -> &'static [u8; 2] {
        match self {
            Kind::Fixed => b"BD",
            Kind::Following => b"BF",
        }
    }

    /// The bytes of a band's law.
    pub fn law_length(self, n: usize) -> usize {
        match self {
            Kind::Fixed => 0,
            Kind::Following => 2 * n + 6,
        }
    }
}

/// One mode of the machine: it runs from its edge to just below the next one's.
#[derive(Clone, Copy, Debug, Default)]
pub struct Band {
    pub edge: i32,
    pub safety: CommandRange,
    pub law: BandLaw,
    pub rows: [Row; VARIABLES],
}

/// A sheet's values. What lies beyond the counts has no meaning; the reader leaves it 0.
#[derive(Clone, Copy, Debug, Default)]
pub struct Sheet {
    pub variables: i32,
    pub band_count: i32,
    pub unsafe_count: i32,
    pub band_variable: i32,
    pub delta: i32,
    pub alpha: i32,
    pub rho: i32,
    pub commands: CommandRange,
    pub caps: [i32; VARIABLES],
    pub bands: [Band; BANDS],
    pub recovery: StateBox,
    pub unsafe_boxes: [StateBox; UNSAFE_BOXES],
}

fn within(value: i32, least: i32, greatest: i32) -> bool {
    least <= value && value <= greatest
}

fn require(holds: bool, refusal: Refusal) -> Result<(), Refusal> {
    if holds {
        Ok(())
    } else {
        Err(refusal)
    }
}

/// All coefficients are in range.
fn coefficients_within(coefficients: &[i32]) -> bool {
    coefficients
        .iter()
        .all(|&a| within(a, -COEFFICIENT_LIMIT, COEFFICIENT_LIMIT))
}

impl BandLaw {
    /// All numbers for n variables are in range.
    fn in_range(&self, n: usize) -> bool {
        coefficients_within(&self.coefficients[..n])
            && within(self.constant, -OFFSET_LIMIT, OFFSET_LIMIT)
            && within(self.divisor, 1, DIVISOR_LIMIT)
    }
}

impl Row {
    /// All numbers for n variables are in range.
    fn in_range(&self, n: usize) -> bool {
        coefficients_within(&self.a[..n])
            && within(self.b, -COEFFICIENT_LIMIT, COEFFICIENT_LIMIT)
            && within(self.c, -OFFSET_LIMIT, OFFSET_LIMIT)
            && within(self.d, 0, OFFSET_LIMIT)
            && within(self.q, 1, DIVISOR_LIMIT)
    }
}

/// The length in bytes of a sheet of this kind with these counts.
pub fn length(kind: Kind, variables: usize, bands: usize, unsafe_boxes: usize) -> usize {
    let n = variables;
    let band = 14 + kind.law_length(n) + n * (2 * n + 12);
    HEAD + 2 * n + bands * band + (2 + 8 * n) * (unsafe_boxes + 1)
}

impl Sheet {
    /// n, as an index bound.
    pub fn n(&self) -> usize {
        self.variables as usize
    }

    /// The bands up to their count.
    pub fn bands(&self) -> &[Band] {
        &self.bands[..self.band_count as usize]
    }

    /// The unsafe boxes up to their count.
    pub fn unsafe_boxes(&self) -> &[StateBox] {
        &self.unsafe_boxes[..self.unsafe_count as usize]
    }

    /// The kind, by the first band's divisor.
    pub fn kind(&self) -> Kind {
        match self.bands[0].law.divisor {
            0 => Kind::Fixed,
            _ => Kind::Following,
        }
    }

    /// The sheet's length in bytes; the counts are in range.
    pub fn length(&self) -> usize {
        self.length_as(self.kind())
    }

    /// The same for a kind.
    fn length_as(&self, kind: Kind) -> usize {
        length(
            kind,
            self.n(),
            self.band_count as usize,
            self.unsafe_count as usize,
        )
    }

    fn test_head(&self) -> Result<(), Refusal> {
        let counts = within(self.variables, 1, VARIABLES as i32)
            && within(self.band_count, 1, BANDS as i32)
            && within(self.unsafe_count, 1, UNSAFE_BOXES as i32)
            && within(self.band_variable, 0, self.variables - 1);
        require(counts, Refusal::Counts)?;
        let times = within(self.delta, 1, TICKS_LIMIT)
            && within(self.alpha, 1, TICKS_LIMIT)
            && self.delta + self.alpha <= TICKS_LIMIT
            && within(self.rho, 1, TICKS_LIMIT);
        require(times, Refusal::Times)?;
        let CommandRange { least, greatest } = self.commands;
        let commands = -COMMAND_LIMIT <= least && least <= greatest && greatest <= COMMAND_LIMIT;
        require(commands, Refusal::Commands)
    }

    fn test_caps(&self) -> Result<(), Refusal> {
        let caps = &self.caps[..self.n()];
        require(
            caps.iter().all(|&cap| within(cap, 1, CAP_LIMIT)),
            Refusal::Cap,
        )
    }

    fn test_band(&self, kind: Kind, k: usize) -> Result<(), Refusal> {
        let band = &self.bands[k];
        let edge = match k {
            0 => band.edge == FIRST_EDGE,
            _ => self.bands[k - 1].edge < band.edge && band.edge <= LAST_EDGE,
        };
        require(edge, Refusal::Edge)?;
        let CommandRange { least, greatest } = band.safety;
        let safety =
            self.commands.least <= least && least <= greatest && greatest <= self.commands.greatest;
        require(safety, Refusal::SafetyRange)?;
        let n = self.n();
        let law = kind == Kind::Fixed || band.law.in_range(n);
        let rows = law && band.rows[..n].iter().all(|row| row.in_range(n));
        require(rows, Refusal::Row)
    }

    fn test_sides(&self, sides: &StateBox, limit: i64) -> Result<(), Refusal> {
        require(sides.ordered_within(self.n(), limit), Refusal::Side)
    }

    /// The sides of unsafe box j, and that it is greater than the one before.
    fn test_unsafe_box(&self, j: usize) -> Result<(), Refusal> {
        self.test_sides(&self.unsafe_boxes[j], SIDE_LIMIT)?;
        let greater = match j {
            0 => true,
            _ => {
                let (before, this) = (&self.unsafe_boxes[j - 1], &self.unsafe_boxes[j]);
                before.compare(this, self.n()).is_lt()
            }
        };
        require(greater, Refusal::Order)
    }

    /// The sides of the recovery box, and that it shares no state with an unsafe box.
    fn test_recovery(&self) -> Result<(), Refusal> {
        self.test_sides(&self.recovery, START_LIMIT)?;
        let n = self.n();
        let clear = self
            .unsafe_boxes()
            .iter()
            .all(|unsafe_box| !unsafe_box.meets_in(&self.recovery, n));
        require(clear, Refusal::Overlap)
    }

    /// All tests of the values, in the order of the file.
    fn test(&self) -> Result<(), Refusal> {
        self.test_head()?;
        self.test_caps()?;
        for k in 0..self.bands().len() {
            self.test_band(self.kind(), k)?;
        }
        for j in 0..self.unsafe_boxes().len() {
            self.test_unsafe_box(j)?;
        }
        self.test_recovery()
    }

    /// The values as numbers in fixed slots: head, caps, bands, recovery box, unsafe boxes.
    pub fn numbers(&self) -> [i32; NUMBERS] {
        let mut out = [0; NUMBERS];
        let head = [
            self.variables,
            self.band_count,
            self.unsafe_count,
            self.band_variable,
            self.delta,
            self.alpha,
            self.rho,
            self.commands.least,
            self.commands.greatest,
        ];
        out[..CAPS_AT].copy_from_slice(&head);
        out[CAPS_AT..BANDS_AT].copy_from_slice(&self.caps);
        for (k, band) in self.bands.iter().enumerate() {
            let slots = &mut out[BANDS_AT + k * BAND_NUMBERS..][..BAND_NUMBERS];
            slots[..LAW_AT].copy_from_slice(&[band.edge, band.safety.least, band.safety.greatest]);
            let (law, rows) = slots[LAW_AT..].split_at_mut(VARIABLES + 2);
            law[..VARIABLES].copy_from_slice(&band.law.coefficients);
            law[VARIABLES..].copy_from_slice(&[band.law.constant, band.law.divisor]);
            for (row, slots) in band.rows.iter().zip(rows.chunks_exact_mut(ROW_NUMBERS)) {
                slots[..VARIABLES].copy_from_slice(&row.a);
                slots[VARIABLES..].copy_from_slice(&[row.b, row.c, row.d, row.q]);
            }
        }
        let boxes = std::iter::once(&self.recovery).chain(&self.unsafe_boxes);
        for (sides, slots) in boxes.zip(out[RECOVERY_AT..].chunks_exact_mut(2 * VARIABLES)) {
            for i in 0..VARIABLES {
                slots[i] = sides.lower[i] as i32;
                slots[VARIABLES + i] = sides.upper[i] as i32;
            }
        }
        out
    }

    /// The inverse of `numbers`; nothing is tested.
    pub fn from_numbers(numbers: &[i32; NUMBERS]) -> Sheet {
        let slots = Slots(numbers);
        Sheet {
            variables: numbers[0],
            band_count: numbers[1],
            unsafe_count: numbers[2],
            band_variable: numbers[3],
            delta: numbers[4],
            alpha: numbers[5],
            rho: numbers[6],
            commands: slots.commands(7),
            caps: slots.one_each(CAPS_AT),
            bands: std::array::from_fn(|k| slots.band(BANDS_AT + k * BAND_NUMBERS)),
            recovery: slots.sides(RECOVERY_AT),
            unsafe_boxes: std::array::from_fn(|j| slots.sides(UNSAFE_AT + j * 2 * VARIABLES)),
        }
    }
}

/// The numbers of a sheet's parts, each from a slot on.
struct Slots<'a>(&'a [i32; NUMBERS]);

impl Slots<'_> {
    /// A number for each variable.
    fn one_each(&self, at: usize) -> [i32; VARIABLES] {
        std::array::from_fn(|i| self.0[at + i])
    }

    fn commands(&self, at: usize) -> CommandRange {
        CommandRange {
            least: self.0[at],
            greatest: self.0[at + 1],
        }
    }

    fn sides(&self, at: usize) -> StateBox {
        StateBox {
            lower: self.one_each(at).map(i64::from),
            upper: self.one_each(at + VARIABLES).map(i64::from),
        }
    }

    fn law(&self, at: usize) -> BandLaw {
        BandLaw {
            coefficients: self.one_each(at),
            constant: self.0[at + VARIABLES],
            divisor: self.0[at + VARIABLES + 1],
        }
    }

    fn row(&self, at: usize) -> Row {
        Row {
            a: self.one_each(at),
            b: self.0[at + VARIABLES],
            c: self.0[at + VARIABLES + 1],
            d: self.0[at + VARIABLES + 2],
            q: self.0[at + VARIABLES + 3],
        }
    }

    fn band(&self, at: usize) -> Band {
        Band {
            edge: self.0[at],
            safety: self.commands(at + 1),
            law: self.law(at + LAW_AT),
            rows: std::array::from_fn(|i| self.row(at + ROWS_AT + i * ROW_NUMBERS)),
        }
    }
}

impl BandLaw {
    /// The numbers for n variables are the same.
    fn same(&self, other: &BandLaw, n: usize) -> bool {
        self.coefficients[..n] == other.coefficients[..n]
            && (self.constant, self.divisor) == (other.constant, other.divisor)
    }
}

impl Row {
    /// The numbers for n variables are the same.
    fn same(&self, other: &Row, n: usize) -> bool {
        let rest = |row: &Row| (row.b, row.c, row.d, row.q);
        self.a[..n] == other.a[..n] && rest(self) == rest(other)
    }
}

/// Two sheets are the same when their values up to their counts are.
impl PartialEq for Sheet {
    fn eq(&self, other: &Sheet) -> bool {
        let head = |sheet: &Sheet| {
            (
                (sheet.variables, sheet.band_count, sheet.unsafe_count),
                (sheet.band_variable, sheet.delta, sheet.alpha, sheet.rho),
                sheet.commands,
                sheet.kind(),
            )
        };
        if head(self) != head(other) {
            return false;
        }
        let n = self.variables.clamp(0, VARIABLES as i32) as usize;
        let bands = self.band_count.clamp(0, BANDS as i32) as usize;
        let boxes = self.unsafe_count.clamp(0, UNSAFE_BOXES as i32) as usize;
        let kind = self.kind();
        let same_band = |(x, y): (&Band, &Band)| {
            (x.edge, x.safety) == (y.edge, y.safety)
                && (kind == Kind::Fixed || x.law.same(&y.law, n))
                && (0..n).all(|i| x.rows[i].same(&y.rows[i], n))
        };
        let same_box = |(x, y): (&StateBox, &StateBox)| {
            x.lower[..n] == y.lower[..n] && x.upper[..n] == y.upper[..n]
        };
        self.caps[..n] == other.caps[..n]
            && self.bands[..bands]
                .iter()
                .zip(&other.bands[..bands])
                .all(same_band)
            && self.unsafe_boxes[..boxes]
                .iter()
                .zip(&other.unsafe_boxes[..boxes])
                .all(same_box)
            && same_box((&self.recovery, &other.recovery))
    }
}

/// Takes big-endian fields off the front; the length was tested before.
pub(crate) struct Fields<'a>(pub(crate) &'a [u8]);

impl Fields<'_> {
    #[inline(always)]
    fn take<const L: usize>(&mut self) -> [u8; L] {
        let (field, rest) = self
            .0
            .split_first_chunk::<L>()
            .expect("the length was tested");
        self.0 = rest;
        *field
    }

    pub(crate) fn mark(&mut self, letters: &[u8; 2]) -> bool {
        self.take::<2>() == *letters
    }

    fn u8(&mut self) -> i32 {
        i32::from(self.take::<1>()[0])
    }

    fn u16(&mut self) -> i32 {
        i32::from(u16::from_be_bytes(self.take()))
    }

    fn i16(&mut self) -> i32 {
        i32::from(i16::from_be_bytes(self.take()))
    }

    #[inline(always)]
    fn coefficients(&mut self, coefficients: &mut [i32]) {
        for coefficient in coefficients {
            *coefficient = self.i16();
        }
    }

    #[inline(always)]
    fn law(&mut self, law: &mut BandLaw, n: usize) {
        self.coefficients(&mut law.coefficients[..n]);
        law.constant = self.i32();
        law.divisor = self.u16();
    }

    #[inline(always)]
    fn row(&mut self, row: &mut Row, n: usize) {
        self.coefficients(&mut row.a[..n]);
        row.b = self.i16();
        row.c = self.i32();
        row.d = self.i32();
        row.q = self.u16();
    }

    pub(crate) fn u32(&mut self) -> u32 {
        u32::from_be_bytes(self.take())
    }

    pub(crate) fn i32(&mut self) -> i32 {
        i32::from_be_bytes(self.take())
    }

    /// n pairs of lower and upper side; those beyond n are 0.
    pub(crate) fn sides(&mut self, n: usize) -> StateBox {
        let mut sides = StateBox::default();
        self.put_sides(&mut sides, n);
        sides
    }

    /// The same in the place of zeros.
    fn put_sides(&mut self, sides: &mut StateBox, n: usize) {
        for i in 0..n {
            sides.lower[i] = i64::from(self.i32());
            sides.upper[i] = i64::from(self.i32());
        }
    }
}

impl StateBox {
    /// n pairs of lower and upper side, as in a sheet; another length gives nothing.
    pub fn from_pairs(bytes: &[u8], n: usize) -> Option<StateBox> {
        (bytes.len() == 8 * n).then(|| Fields(bytes).sides(n))
    }
}

/// Reads a sheet from all of these bytes.
pub fn read(bytes: &[u8]) -> Result<Sheet, Refusal> {
    let mut sheet = Sheet::default();
    sheet.read(bytes)?;
    Ok(sheet)
}

impl Sheet {
    /// Puts the values of these bytes in the place of zeros.
    #[inline(always)]
    fn read(&mut self, bytes: &[u8]) -> Result<(), Refusal> {
        let mut fields = Fields(bytes);
        require(bytes.len() >= HEAD && fields.mark(b"SH"), Refusal::Head)?;
        self.read_head(&mut fields);
        self.test_head()?;
        let n = self.n();
        let kind = Kind::of_file(bytes, n);
        require(bytes.len() == self.length_as(kind), Refusal::Length)?;
        for cap in &mut self.caps[..n] {
            *cap = fields.u16();
        }
        self.test_caps()?;
        for k in 0..self.band_count as usize {
            require(fields.mark(kind.mark()), Refusal::Mark)?;
            self.bands[k].read(&mut fields, kind, n);
            self.test_band(kind, k)?;
        }
        for j in 0..self.unsafe_count as usize {
            require(fields.mark(b"NG"), Refusal::Mark)?;
            fields.put_sides(&mut self.unsafe_boxes[j], n);
            self.test_unsafe_box(j)?;
        }
        require(fields.mark(b"RC"), Refusal::Mark)?;
        fields.put_sides(&mut self.recovery, n);
        self.test_recovery()
    }

    #[inline(always)]
    fn read_head(&mut self, fields: &mut Fields) {
        self.variables = fields.u8();
        self.band_count = fields.u8();
        self.unsafe_count = fields.u8();
        self.band_variable = fields.u8();
        self.delta = fields.u16();
        self.alpha = fields.u16();
        self.rho = fields.u16();
        self.commands.least = fields.i32();
        self.commands.greatest = fields.i32();
    }
}

impl Band {
    #[inline(always)]
    fn read(&mut self, fields: &mut Fields, kind: Kind, n: usize) {
        self.edge = fields.i32();
        self.safety.least = fields.i32();
        self.safety.greatest = fields.i32();
        if kind == Kind::Following {
            fields.law(&mut self.law, n);
        }
        for row in &mut self.rows[..n] {
            fields.row(row, n);
        }
    }
}

/// Puts big-endian fields at the front; the room was tested before.
struct Pen<'a>(&'a mut [u8]);

impl Pen<'_> {
    fn put<const L: usize>(&mut self, bytes: [u8; L]) {
        let (field, rest) = std::mem::take(&mut self.0)
            .split_first_chunk_mut::<L>()
            .expect("the room was tested");
        *field = bytes;
        self.0 = rest;
    }

    fn u8(&mut self, value: i32) {
        self.put([value as u8]);
    }

    /// Two bytes, signed or not: the value is in range for its field.
    fn two(&mut self, value: i32) {
        self.put((value as u16).to_be_bytes());
    }

    fn i32(&mut self, value: i32) {
        self.put(value.to_be_bytes());
    }

    fn head(&mut self, sheet: &Sheet) {
        self.put(*b"SH");
        self.u8(sheet.variables);
        self.u8(sheet.band_count);
        self.u8(sheet.unsafe_count);
        self.u8(sheet.band_variable);
        self.two(sheet.delta);
        self.two(sheet.alpha);
        self.two(sheet.rho);
        self.i32(sheet.commands.least);
        self.i32(sheet.commands.greatest);
    }

    fn coefficients(&mut self, coefficients: &[i32]) {
        for &coefficient in coefficients {
            self.two(coefficient);
        }
    }

    fn law(&mut self, law: &BandLaw, n: usize) {
        self.coefficients(&law.coefficients[..n]);
        self.i32(law.constant);
        self.two(law.divisor);
    }

    fn row(&mut self, row: &Row, n: usize) {
        self.coefficients(&row.a[..n]);
        self.two(row.b);
        self.i32(row.c);
        self.i32(row.d);
        self.two(row.q);
    }

    fn sides(&mut self, sides: &StateBox, n: usize) {
        for i in 0..n {
            self.i32(sides.lower[i] as i32);
            self.i32(sides.upper[i] as i32);
        }
    }
}

/// Writes a sheet into the buffer from `place` on and returns its length.
/// A refused call leaves the buffer as it was.
pub fn write(sheet: &Sheet, buffer: &mut [u8], place: u64) -> Result<usize, Refusal> {
    sheet.test()?;
    let length = sheet.length();
    let room = usize::try_from(place)
        .ok()
        .and_then(|place| buffer.get_mut(place..)?.get_mut(..length));
    let mut pen = Pen(room.ok_or(Refusal::Room)?);
    let (n, kind) = (sheet.n(), sheet.kind());
    pen.head(sheet);
    for &cap in &sheet.caps[..n] {
        pen.two(cap);
    }
    for band in sheet.bands() {
        pen.put(*kind.mark());
        pen.i32(band.edge);
        pen.i32(band.safety.least);
        pen.i32(band.safety.greatest);
        if kind == Kind::Following {
            pen.law(&band.law, n);
        }
        for row in &band.rows[..n] {
            pen.row(row, n);
        }
    }
    for unsafe_box in sheet.unsafe_boxes() {
        pen.put(*b"NG");
        pen.sides(unsafe_box, n);
    }
    pen.put(*b"RC");
    pen.sides(&sheet.recovery, n);
    Ok(length)
}
