//! The few SVG elements that a picture needs.

use std::fmt::Write;

/// How far apart the strokes of a hatched rectangle are, along an axis.
const HATCH: f64 = 8.0;

/// Draws values from..to along a length of the picture.
#[derive(Clone, Copy, Debug)]
pub struct Scale {
    pub from: f64,
    pub to: f64,
    pub at: f64,
    pub length: f64,
}

impl Scale {
    /// Where a value is drawn; what lies outside is drawn at the end.
    pub fn place(&self, value: f64) -> f64 {
        let part = (value - self.from) / (self.to - self.from);
        self.at + part.clamp(0.0, 1.0) * self.length
    }

    pub fn holds(&self, value: f64) -> bool {
        self.from <= value && value <= self.to
    }
}

/// A step of 1, 2 or 5 times a power of ten that cuts the span into at most `most` parts.
pub fn nice_step(span: f64, most: f64) -> f64 {
    let rough = (span / most).max(f64::MIN_POSITIVE);
    let power = 10f64.powf(rough.log10().floor());
    let times = [1.0, 2.0, 5.0].into_iter().find(|t| t * power >= rough);
    times.unwrap_or(10.0) * power
}

/// The multiples of a step within from..to.
pub fn multiples(from: f64, to: f64, step: f64) -> impl Iterator<Item = f64> {
    let (first, last) = ((from / step).ceil() as i64, (to / step).floor() as i64);
    (first..=last).map(move |times| times as f64 * step)
}

/// A number with as many decimals as the step needs.
pub fn decimal(value: f64, step: f64) -> String {
    let decimals = (-step.log10().floor()).max(0.0) as usize;
    // No minus sign before a zero.
    format!("{:.decimals$}", value + 0.0)
}

/// How a shape is filled and outlined.
#[derive(Clone, Copy, Debug)]
pub struct Paint {
    pub fill: &'static str,
    pub opacity: f64,
    pub stroke: &'static str,
    pub width: f64,
    pub dashes: &'static str,
    /// A rectangle has slanted strokes inside.
    pub hatched: bool,
    /// What the element stands for, where others read the picture.
    pub class: &'static str,
}

pub fn filled(fill: &'static str, opacity: f64) -> Paint {
    Paint {
        fill,
        opacity,
        stroke: "none",
        width: 0.0,
        dashes: "",
        hatched: false,
        class: "",
    }
}

/// Filled, with a thin edge of the same colour, so that what has no width is seen too.
pub fn edged(fill: &'static str, opacity: f64, width: f64) -> Paint {
    Paint {
        stroke: fill,
        width,
        ..filled(fill, opacity)
    }
}

pub fn outlined(stroke: &'static str, width: f64, dashes: &'static str) -> Paint {
    Paint {
        stroke,
        width,
        dashes,
        ..filled("none", 1.0)
    }
}

/// Outlined, with slanted strokes inside: seen without colours too.
pub fn hatched(stroke: &'static str, width: f64) -> Paint {
    Paint {
        hatched: true,
        ..outlined(stroke, width, "")
    }
}

/// A rectangle by its corners, in any order.
#[derive(Clone, Copy, Debug)]
pub struct Area {
    pub x: (f64, f64),
    pub y: (f64, f64),
}

#[derive(Clone, Copy, Debug, PartialEq, Eq)]
pub enum Anchor {
    Start,
    Middle,
    End,
}

#[derive(Default)]
pub struct Svg {
    body: String,
}

impl Svg {
    /// Adds one element; writing to a string does not fail.
    fn add(&mut self, element: std::fmt::Arguments) {
        let _ = writeln!(self.body, "{element}");
    }

    pub fn rect(&mut self, area: Area, paint: Paint) {
        let (x, y) = (ordered(area.x), ordered(area.y));
        let (width, height) = (x.1 - x.0, y.1 - y.0);
        self.strokes(Area { x, y }, paint);
        self.add(format_args!(
            r#"<rect x="{:.1}" y="{:.1}" width="{width:.1}" height="{height:.1}"{}/>"#,
            x.0,
            y.0,
            attributes(paint)
        ));
    }

    /// A rectangle as a shape, whose edge is drawn even where it has no height or no width.
    pub fn area(&mut self, area: Area, paint: Paint) {
        let (x, y) = (ordered(area.x), ordered(area.y));
        self.strokes(Area { x, y }, paint);
        let corners = vec![(x.0, y.1), (x.1, y.1), (x.1, y.0), (x.0, y.0)];
        self.shapes(&[corners], paint);
    }

    /// The slanted strokes of a hatched rectangle, in one element.
    fn strokes(&mut self, area: Area, paint: Paint) {
        let sums = multiples(area.x.0 + area.y.0, area.x.1 + area.y.1, HATCH);
        let path: String = sums.filter_map(|sum| stroke(area, sum)).collect();
        if paint.hatched && !path.is_empty() {
            let paint = attributes(outlined(paint.stroke, 1.2, ""));
            self.add(format_args!(r#"<path d="{path}"{paint}/>"#));
        }
    }

    pub fn line(&mut self, from: (f64, f64), to: (f64, f64), paint: Paint) {
        self.add(format_args!(
            r#"<line x1="{:.1}" y1="{:.1}" x2="{:.1}" y2="{:.1}"{}/>"#,
            from.0,
            from.1,
            to.0,
            to.1,
            attributes(paint)
        ));
    }

    /// Closed shapes in one element.
    pub fn shapes(&mut self, shapes: &[Vec<(f64, f64)>], paint: Paint) {
        if shapes.is_empty() {
            return;
        }
        let path: String = shapes.iter().map(|shape| closed_path(shape)).collect();
        self.add(format_args!(r#"<path d="{path}"{}/>"#, attributes(paint)));
    }

    pub fn text(&mut self, at: (f64, f64), anchor: Anchor, style: &str, text: &str) {
        let anchor = match anchor {
            Anchor::Start => "start",
            Anchor::Middle => "middle",
            Anchor::End => "end",
        };
        self.add(format_args!(
            r#"<text x="{:.1}" y="{:.1}" text-anchor="{anchor}" {style}>{}</text>"#,
            at.0,
            at.1,
            escaped(text)
        ));
    }

    /// The whole file.
    pub fn finish(self, width: f64, height: f64) -> String {
        format!(
            "<svg xmlns=\"http://www.w3.org/2000/svg\" width=\"{width:.0}\" height=\"{height:.0}\" \
             viewBox=\"0 0 {width:.0} {height:.0}\" font-family=\"sans-serif\" font-size=\"12\">\n\
             <rect width=\"100%\" height=\"100%\" fill=\"white\"/>\n{}</svg>\n",
            self.body
        )
    }
}

fn ordered(ends: (f64, f64)) -> (f64, f64) {
    (ends.0.min(ends.1), ends.0.max(ends.1))
}

/// The stroke inside an area whose places have this sum; nothing where that is one place.
fn stroke(area: Area, sum: f64) -> Option<String> {
    let from = area.x.0.max(sum - area.y.1);
    let to = area.x.1.min(sum - area.y.0);
    (to - from > 0.05).then(|| {
        let (low, high) = (sum - from, sum - to);
        format!("M{from:.1} {low:.1}L{to:.1} {high:.1}")
    })
}

fn closed_path(shape: &[(f64, f64)]) -> String {
    let mut path = String::new();
    for (index, (x, y)) in shape.iter().enumerate() {
        let letter = if index == 0 { 'M' } else { 'L' };
        // Writing to a string does not fail.
        let _ = write!(path, "{letter}{x:.1} {y:.1}");
    }
    path.push('Z');
    path
}

fn attributes(paint: Paint) -> String {
    let mut text = String::new();
    if !paint.class.is_empty() {
        text.push_str(&format!(r#" class="{}""#, paint.class));
    }
    text.push_str(&format!(r#" fill="{}""#, paint.fill));
    if paint.fill != "none" {
        text.push_str(&format!(r#" fill-opacity="{}""#, paint.opacity));
    }
    if paint.stroke != "none" {
        text.push_str(&format!(
            r#" stroke="{}" stroke-width="{}""#,
            paint.stroke, paint.width
        ));
    }
    if !paint.dashes.is_empty() {
        text.push_str(&format!(r#" stroke-dasharray="{}""#, paint.dashes));
    }
    text
}

fn escaped(text: &str) -> String {
    text.replace('&', "&amp;")
        .replace('<', "&lt;")
        .replace('>', "&gt;")
}
