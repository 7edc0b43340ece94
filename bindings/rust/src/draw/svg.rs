//! Pictures as SVG.

use super::{Anchor, Canvas, Color, Rect};
use std::fmt::Write as _;

pub(super) struct Svg {
    text: String,
}

/// Text as XML takes it; control characters, which it does not take, become spaces.
fn escaped(text: &str) -> String {
    text.replace(char::is_control, " ")
        .replace('&', "&amp;")
        .replace('<', "&lt;")
        .replace('>', "&gt;")
}

/// A coordinate, hundredths at most.
fn short(x: f64) -> f64 {
    let x = (x * 100.0).round() / 100.0;
    // Without a sign of 0.
    x + 0.0
}

impl Svg {
    pub(super) fn new(width: f64, height: f64) -> Svg {
        let mut text = String::new();
        let (w, h) = (short(width), short(height));
        let _ = writeln!(
            text,
            "<svg xmlns=\"http://www.w3.org/2000/svg\" width=\"{w}\" height=\"{h}\" viewBox=\"0 0 {w} {h}\" \
             font-family=\"Helvetica, Arial, sans-serif\" font-size=\"16\">\n\
             <rect width=\"100%\" height=\"100%\" fill=\"#ffffff\"/>"
        );
        Svg { text }
    }

    pub(super) fn finish(mut self) -> String {
        self.text.push_str("</svg>\n");
        self.text
    }
}

impl Canvas for Svg {
    fn rects(&mut self, rects: &[Rect], color: Color) {
        if rects.is_empty() {
            return;
        }
        let _ = write!(
            self.text,
            "<path fill=\"{color}\" shape-rendering=\"crispEdges\" d=\""
        );
        for Rect { x, y, w, h } in rects {
            let _ = write!(
                self.text,
                "M{} {}h{}v{}h{}z",
                short(*x),
                short(*y),
                short(*w),
                short(*h),
                short(-w)
            );
        }
        self.text.push_str("\"/>\n");
    }

    fn line(&mut self, from: [f64; 2], to: [f64; 2], width: f64, color: Color) {
        let _ = writeln!(
            self.text,
            "<path stroke=\"{color}\" stroke-width=\"{width}\" stroke-linecap=\"round\" d=\"M{} {}L{} {}\"/>",
            short(from[0]),
            short(from[1]),
            short(to[0]),
            short(to[1])
        );
    }

    fn text(&mut self, at: [f64; 2], anchor: Anchor, bold: bool, text: &str, color: Color) {
        let anchor = match anchor {
            Anchor::Start => "start",
            Anchor::Middle => "middle",
            Anchor::End => "end",
        };
        let weight = if bold { " font-weight=\"bold\"" } else { "" };
        let _ = writeln!(
            self.text,
            "<text x=\"{}\" y=\"{}\" text-anchor=\"{anchor}\"{weight} fill=\"{color}\">{}</text>",
            short(at[0]),
            short(at[1]),
            escaped(text)
        );
    }
}
