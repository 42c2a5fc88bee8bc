//! Colours, with enough contrast to read text on them.

use std::fmt::{self, Display, Formatter};

use crate::map::ZoneKind;

/// Red, green and blue.
#[derive(Clone, Copy, Debug, PartialEq, Eq)]
pub struct Rgb(pub u8, pub u8, pub u8);

impl Display for Rgb {
    fn fmt(&self, out: &mut Formatter) -> fmt::Result {
        write!(out, "#{:02x}{:02x}{:02x}", self.0, self.1, self.2)
    }
}

/// Background, and text on it.
pub const PAPER: Rgb = Rgb(255, 255, 255);
pub const INK: Rgb = Rgb(0x22, 0x26, 0x2b);

/// Per kind of zone the colour of its group and of its name.
pub const KINDS: [(ZoneKind, Rgb, Rgb); 4] = [
    (
        ZoneKind::Stack,
        Rgb(0xfd, 0xec, 0xd2),
        Rgb(0x7a, 0x46, 0x00),
    ),
    (ZoneKind::Hall, Rgb(0xdc, 0xea, 0xfb), Rgb(0x1c, 0x4e, 0x86)),
    (
        ZoneKind::Clique,
        Rgb(0xdd, 0xf3, 0xe0),
        Rgb(0x1d, 0x5e, 0x3c),
    ),
    (ZoneKind::Ring, Rgb(0xec, 0xe2, 0xfb), Rgb(0x54, 0x33, 0x9c)),
];

/// The colours of a kind of zone.
pub fn of_kind(kind: ZoneKind) -> (Rgb, Rgb) {
    let (_, fill, name) = KINDS[kind as usize - 1];
    (fill, name)
}

/// The colour of a robot: white text can be read on it.
pub fn robot_colour(robot: usize) -> Rgb {
    let hue = (210.0 + robot as f64 * 137.508) % 360.0;
    let mut lightness = 0.42;
    loop {
        let colour = from_hue(hue, 0.68, lightness);
        if contrast(colour, PAPER) >= 5.0 {
            return colour;
        }
        lightness -= 0.02;
    }
}

fn from_hue(hue: f64, saturation: f64, lightness: f64) -> Rgb {
    let spread = saturation * lightness.min(1.0 - lightness);
    let part = |shift: f64| {
        let turn = (shift + hue / 30.0) % 12.0;
        let level = lightness - spread * (turn - 3.0).min(9.0 - turn).clamp(-1.0, 1.0);
        (level * 255.0).round() as u8
    };
    Rgb(part(0.0), part(8.0), part(4.0))
}

/// The contrast of two colours, from 1 to 21 (WCAG 2).
pub fn contrast(one: Rgb, other: Rgb) -> f64 {
    let luminance = |Rgb(red, green, blue): Rgb| {
        let part = |level: u8| {
            let level = f64::from(level) / 255.0;
            if level <= 0.04045 {
                level / 12.92
            } else {
                ((level + 0.055) / 1.055).powf(2.4)
            }
        };
        0.2126 * part(red) + 0.7152 * part(green) + 0.0722 * part(blue)
    };
    let (one, other) = (luminance(one), luminance(other));
    (one.max(other) + 0.05) / (one.min(other) + 0.05)
}
