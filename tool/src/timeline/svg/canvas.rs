//! The shapes that a picture is made of.

use std::fmt::Write;

/// The elements drawn so far. Classes are those of the picture's style.
#[derive(Default)]
pub struct Canvas(String);

#[derive(Clone, Copy)]
pub enum Anchor {
    Start,
    Middle,
    End,
}

/// A text as XML writes it.
pub fn escaped(text: &str) -> String {
    text.replace('&', "&amp;").replace('<', "&lt;").replace('>', "&gt;").replace('"', "&quot;")
}

impl Canvas {
    pub fn elements(&self) -> &str {
        &self.0
    }

    pub fn line(&mut self, class: &str, (x1, y1): (f64, f64), (x2, y2): (f64, f64)) {
        let _ =
            writeln!(self.0, "<line class=\"{class}\" x1=\"{x1:.1}\" y1=\"{y1:.1}\" x2=\"{x2:.1}\" y2=\"{y2:.1}\"/>");
    }

    pub fn text(&mut self, class: &str, x: f64, y: f64, anchor: Anchor, said: &str) {
        let anchor = match anchor {
            Anchor::Start => "start",
            Anchor::Middle => "middle",
            Anchor::End => "end",
        };
        let said = escaped(said);
        let _ = writeln!(
            self.0,
            "<text class=\"{class}\" x=\"{x:.1}\" y=\"{y:.1}\" text-anchor=\"{anchor}\">{said}</text>"
        );
    }

    /// A text that rises to the right, so that neighbours don't meet.
    pub fn rising_text(&mut self, class: &str, x: f64, y: f64, said: &str) {
        let said = escaped(said);
        let _ = writeln!(
            self.0,
            "<text class=\"{class}\" transform=\"translate({x:.1} {y:.1}) rotate(-55)\">{said}</text>"
        );
    }

    pub fn bar(&mut self, class: &str, x: f64, width: f64, middle: f64, height: f64) {
        let y = middle - height / 2.0;
        let _ = writeln!(
            self.0,
            "<rect class=\"{class}\" x=\"{x:.1}\" y=\"{y:.1}\" width=\"{width:.1}\" height=\"{height:.1}\" rx=\"2\"/>"
        );
    }

    /// A field that says something to a pointer over it.
    pub fn tooltip(&mut self, class: &str, x: f64, y: f64, width: f64, height: f64, said: &str) {
        let said = escaped(said);
        let _ = writeln!(
            self.0,
            "<rect class=\"{class}\" x=\"{x:.1}\" y=\"{y:.1}\" width=\"{width:.1}\" \
             height=\"{height:.1}\"><title>{said}</title></rect>"
        );
    }

    pub fn path(&mut self, class: &str, data: &str) {
        let _ = writeln!(self.0, "<path class=\"{class}\" d=\"{data}\"/>");
    }

    /// A triangle that points to the right, just after `x`.
    pub fn triangle(&mut self, class: &str, x: f64, middle: f64) {
        let (left, right, top, bottom) = (x + 3.0, x + 11.0, middle - 5.0, middle + 5.0);
        self.path(class, &format!("M{left:.1} {top:.1} L{right:.1} {middle:.1} L{left:.1} {bottom:.1} Z"));
    }

    pub fn cross(&mut self, class: &str, x: f64, y: f64) {
        let (left, right, top, bottom) = (x - 5.0, x + 5.0, y - 5.0, y + 5.0);
        self.path(
            class,
            &format!("M{left:.1} {top:.1} L{right:.1} {bottom:.1} M{left:.1} {bottom:.1} L{right:.1} {top:.1}"),
        );
    }

    pub fn diamond(&mut self, class: &str, x: f64, y: f64) {
        let (left, right, top, bottom) = (x - 6.0, x + 6.0, y - 6.0, y + 6.0);
        self.path(class, &format!("M{x:.1} {top:.1} L{right:.1} {y:.1} L{x:.1} {bottom:.1} L{left:.1} {y:.1} Z"));
    }

    pub fn dot(&mut self, class: &str, x: f64, y: f64) {
        let _ = writeln!(self.0, "<circle class=\"{class}\" cx=\"{x:.1}\" cy=\"{y:.1}\" r=\"3.2\"/>");
    }
}
