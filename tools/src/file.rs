//! A sheet's file as it stands: its values and the marks of its records, whatever they are. The archive says
//! whether it is a sheet; this is for saying what is wrong where it is not one.

use crate::names::Item;
use second_guard::boxes::{StateBox, VARIABLES};
use second_guard::sheet::{Band, BandLaw, CommandRange, Kind, Row, Sheet};

/// The mark of a no-go record.
pub const UNSAFE_MARK: &[u8; 2] = b"NG";

/// The mark of a band or a box, and the one that it has to have.
pub struct Mark {
    pub record: Item,
    pub found: [u8; 2],
    pub expected: [u8; 2],
}

/// A file's values, with the kind that its first band's mark gives them, and its records' marks.
pub struct File {
    pub kind: Kind,
    pub sheet: Sheet,
    pub marks: Vec<Mark>,
}

/// Takes big-endian fields off the front; nothing where the file is too short.
struct Fields<'a>(&'a [u8]);

impl Fields<'_> {
    fn take<const L: usize>(&mut self) -> Option<[u8; L]> {
        let (field, rest) = self.0.split_first_chunk()?;
        self.0 = rest;
        Some(*field)
    }

    fn u8(&mut self) -> Option<i32> {
        self.take().map(u8::from_be_bytes).map(i32::from)
    }

    fn u16(&mut self) -> Option<i32> {
        self.take().map(u16::from_be_bytes).map(i32::from)
    }

    fn i16(&mut self) -> Option<i32> {
        self.take().map(i16::from_be_bytes).map(i32::from)
    }

    fn i32(&mut self) -> Option<i32> {
        self.take().map(i32::from_be_bytes)
    }

    fn commands(&mut self) -> Option<CommandRange> {
        Some(CommandRange {
            least: self.i32()?,
            greatest: self.i32()?,
        })
    }

    fn coefficients(&mut self, n: usize) -> Option<[i32; VARIABLES]> {
        let mut coefficients = [0; VARIABLES];
        for coefficient in &mut coefficients[..n] {
            *coefficient = self.i16()?;
        }
        Some(coefficients)
    }

    fn law(&mut self, n: usize) -> Option<BandLaw> {
        Some(BandLaw {
            coefficients: self.coefficients(n)?,
            constant: self.i32()?,
            divisor: self.u16()?,
        })
    }

    fn row(&mut self, n: usize) -> Option<Row> {
        Some(Row {
            a: self.coefficients(n)?,
            b: self.i16()?,
            c: self.i32()?,
            d: self.i32()?,
            q: self.u16()?,
        })
    }

    /// A band behind its mark.
    fn band(&mut self, kind: Kind, n: usize) -> Option<Band> {
        let mut band = Band {
            edge: self.i32()?,
            safety: self.commands()?,
            ..Band::default()
        };
        if kind == Kind::Following {
            band.law = self.law(n)?;
        }
        for row in &mut band.rows[..n] {
            *row = self.row(n)?;
        }
        Some(band)
    }

    fn sides(&mut self, n: usize) -> Option<StateBox> {
        let mut sides = StateBox::default();
        for i in 0..n {
            sides.lower[i] = i64::from(self.i32()?);
            sides.upper[i] = i64::from(self.i32()?);
        }
        Some(sides)
    }
}

/// The head's values before the caps, behind its mark.
fn head_of(fields: &mut Fields) -> Option<Sheet> {
    fields.take::<2>()?;
    Some(Sheet {
        variables: fields.u8()?,
        band_count: fields.u8()?,
        unsafe_count: fields.u8()?,
        band_variable: fields.u8()?,
        delta: fields.u16()?,
        alpha: fields.u16()?,
        rho: fields.u16()?,
        commands: fields.commands()?,
        ..Sheet::default()
    })
}

/// The head's values of a file that has them.
pub fn head(file: &[u8]) -> Option<Sheet> {
    head_of(&mut Fields(file))
}

/// The first band's mark in a file whose n is in range, if the file reaches it.
pub fn first_band_mark(file: &[u8]) -> Option<[u8; 2]> {
    let mut fields = Fields(file);
    let n = head_of(&mut fields)?.n();
    for _ in 0..n {
        fields.u16()?;
    }
    fields.take()
}

/// What that mark says of all bands.
pub fn kind_of(first_mark: Option<[u8; 2]>) -> Kind {
    match first_mark == Some(*Kind::Following.mark()) {
        true => Kind::Following,
        false => Kind::Fixed,
    }
}

/// All of a file whose counts and length are a sheet's.
pub fn read(file: &[u8]) -> Option<File> {
    let kind = kind_of(first_band_mark(file));
    let mut fields = Fields(file);
    let mut sheet = head_of(&mut fields)?;
    let n = sheet.n();
    for cap in sheet.caps.get_mut(..n)? {
        *cap = fields.u16()?;
    }
    let mut marks = Vec::new();
    let mut mark = |fields: &mut Fields, record: Item, expected: &[u8; 2]| {
        marks.push(Mark {
            record,
            found: fields.take()?,
            expected: *expected,
        });
        Some(())
    };
    for k in 0..sheet.bands().len() {
        mark(&mut fields, Item::Band(k), kind.mark())?;
        sheet.bands[k] = fields.band(kind, n)?;
    }
    for j in 0..sheet.unsafe_boxes().len() {
        mark(&mut fields, Item::Unsafe(j), UNSAFE_MARK)?;
        sheet.unsafe_boxes[j] = fields.sides(n)?;
    }
    mark(&mut fields, Item::Recovery, b"RC")?;
    sheet.recovery = fields.sides(n)?;
    Some(File { kind, sheet, marks })
}
