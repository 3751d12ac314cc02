//! The few shapes that the picture is made of, as SVG.

use std::fmt::Write;

/// How the classes look.
const STYLE: &str =
    "text{font:11px ui-monospace,Menlo,Consolas,'DejaVu Sans Mono',monospace;fill:#222}\
.title{font-size:14px}.years{text-anchor:middle;fill:#555}.left,.last{text-anchor:end}\
.first,.last,.legend{fill:#555}\
.worn{font-size:10px;fill:#fff}\
.bare{font-size:10px;fill:#222;stroke:#fff;stroke-width:3px;paint-order:stroke}.year{stroke:#ddd}.gap{stroke:#999;stroke-dasharray:2 3}\
.mark{stroke:#111;stroke-width:2}.lead{stroke:#111;stroke-width:.6}";

/// A text at a place.
pub struct Text<'a> {
    pub x: f64,
    pub y: f64,
    pub class: &'a str,
    pub text: &'a str,
}

/// A picture, drawn shape by shape.
pub struct Svg {
    text: String,
    pub height: f64,
}

impl Svg {
    /// An empty picture.
    pub fn new(width: f64, height: f64) -> Svg {
        let mut svg = Svg { text: String::new(), height };
        svg.put(format_args!(
            "<svg xmlns=\"http://www.w3.org/2000/svg\" width=\"{width}\" height=\"{height}\" \
             viewBox=\"0 0 {width} {height}\" role=\"img\">"
        ));
        svg.put(format_args!("<style>{STYLE}</style>"));
        svg.put(format_args!("<rect width=\"{width}\" height=\"{height}\" fill=\"#fff\"/>"));
        svg
    }

    fn put(&mut self, line: std::fmt::Arguments<'_>) {
        // Writing to a string does not fail.
        let _ = writeln!(self.text, "{line}");
    }

    /// What the picture is called.
    pub fn title(&mut self, title: &str) {
        self.put(format_args!("<title>{}</title>", escaped(title)));
    }

    /// Words at a point, in a class of the style.
    pub fn text(&mut self, Text { x, y, class, text }: Text<'_>) {
        let text = escaped(text);
        self.put(format_args!("<text x=\"{x:.1}\" y=\"{y:.1}\" class=\"{class}\">{text}</text>"));
    }

    /// From the first point to the second.
    pub fn line(&mut self, [x, y, to_x, to_y]: [f64; 4], class: &str) {
        self.put(format_args!(
            "<line x1=\"{x:.1}\" y1=\"{y:.1}\" x2=\"{to_x:.1}\" y2=\"{to_y:.1}\" class=\"{class}\"/>"
        ));
    }

    /// Left, top, width and height.
    pub fn bar(&mut self, [x, y, width, height]: [f64; 4], colour: &str) {
        self.put(format_args!(
            "<rect x=\"{x:.1}\" y=\"{y:.1}\" width=\"{width:.1}\" height=\"{height:.1}\" rx=\"2\" \
             fill=\"{colour}\"/>"
        ));
    }

    /// A stroke from a height to another.
    pub fn mark(&mut self, [x, from, to]: [f64; 3]) {
        self.line([x, from, x, to], "mark");
    }

    /// Shapes that belong together, and what is said where somebody points at them.
    pub fn group(&mut self, told: &str) {
        self.put(format_args!("<g><title>{}</title>", escaped(told)));
    }

    /// What follows belongs to no group.
    pub fn end_group(&mut self) {
        self.put(format_args!("</g>"));
    }

    /// The whole picture.
    pub fn closed(mut self) -> String {
        self.put(format_args!("</svg>"));
        self.text
    }
}

fn escaped(text: &str) -> String {
    text.replace('&', "&amp;").replace('<', "&lt;").replace('>', "&gt;")
}
