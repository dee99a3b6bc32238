//! Charts as SVG, written by hand: bars of ratios, and times that grow.

use std::fmt::Write;

/// By engine: ours, the Rust with our functions, the Rust with its own.
const COLOURS: [&str; 3] = ["#1b6ca8", "#c8741a", "#8a8f98"];

pub struct Svg {
    text: String,
    width: f64,
    height: f64,
}

impl Svg {
    pub fn new(width: f64, height: f64) -> Svg {
        Svg { text: String::new(), width, height }
    }
    fn text(&mut self, x: f64, y: f64, anchor: &str, what: &str) {
        writeln!(self.text, "<text x=\"{x:.1}\" y=\"{y:.1}\" text-anchor=\"{anchor}\">{what}</text>").unwrap();
    }
    fn bold(&mut self, x: f64, y: f64, what: &str) {
        writeln!(self.text, "<text x=\"{x:.1}\" y=\"{y:.1}\" font-weight=\"bold\">{what}</text>").unwrap();
    }
    fn bar(&mut self, x: f64, y: f64, w: f64, h: f64, colour: &str) {
        writeln!(self.text, "<rect x=\"{x:.1}\" y=\"{y:.1}\" width=\"{w:.1}\" height=\"{h:.1}\" fill=\"{colour}\"/>").unwrap();
    }
    fn line(&mut self, points: &[(f64, f64)], colour: &str, width: f64) {
        let p: Vec<String> = points.iter().map(|(x, y)| format!("{x:.1},{y:.1}")).collect();
        writeln!(self.text, "<polyline points=\"{}\" fill=\"none\" stroke=\"{colour}\" stroke-width=\"{width}\"/>", p.join(" ")).unwrap();
    }
    /// What the colours mean, from engine `first` on.
    pub fn key(&mut self, x: f64, y: f64, first: usize, names: &[&str]) {
        for (i, name) in names.iter().enumerate() {
            let x = x + 210.0 * i as f64;
            self.bar(x, y - 9.0, 10.0, 10.0, COLOURS[first + i]);
            self.text(x + 15.0, y, "start", name);
        }
    }
    pub fn finish(self) -> String {
        let (w, h) = (self.width, self.height);
        let head = "xmlns=\"http://www.w3.org/2000/svg\" font-family=\"sans-serif\" font-size=\"11\" fill=\"#234\"";
        format!("<svg {head} width=\"{w}\" height=\"{h}\">\n<rect width=\"{w}\" height=\"{h}\" fill=\"#fff\"/>\n{}</svg>\n", self.text)
    }

    /// Groups of two bars each, with a line at 1: above it ours is faster. Bars are cut at 8, or the others would not be seen.
    pub fn ratios(&mut self, x: f64, y: f64, title: &str, groups: &[(String, [f64; 2])]) {
        let (w, h) = (330.0, 130.0);
        let top = groups.iter().flat_map(|g| g.1).fold(2.0, f64::max).ceil().min(8.0);
        let step = w / groups.len() as f64;
        self.bold(x, y, title);
        for (i, (name, values)) in groups.iter().enumerate() {
            let left = x + step * i as f64;
            for (k, v) in values.iter().enumerate() {
                let tall = h * v.min(top) / top;
                self.bar(left + 4.0 + 22.0 * k as f64, y + 22.0 + h - tall, 20.0, tall, COLOURS[1 + k]);
                let digits = if *v < 10.0 { 1 } else { 0 }; // beside each other there is no room for more
                self.text(left + 14.0 + 22.0 * k as f64, y + 18.0 + h - tall, "middle", &format!("{v:.digits$}"));
            }
            self.text(left + 25.0, y + 36.0 + h, "middle", name);
        }
        let one = y + 22.0 + h - h / top;
        self.line(&[(x, one), (x + w, one)], "#234", 0.8);
    }

    /// Times over a growing number, both axes in doublings.
    pub fn growth(&mut self, x: f64, y: f64, title: &str, at: &[u32], lines: &[Vec<f64>]) {
        let (w, h) = (200.0, 150.0);
        let all = || lines.iter().flatten().copied();
        let (low, high) = (all().fold(f64::MAX, f64::min).log2().floor(), all().fold(1.0, f64::max).log2().ceil());
        let place = |i: usize| x + w * i as f64 / (at.len() - 1) as f64;
        let level = |t: f64| y + 16.0 + h - h * (t.log2() - low) / (high - low);
        self.bold(x, y, title);
        for e in low as i32..=high as i32 {
            let t = 2f64.powi(e);
            self.line(&[(x, level(t)), (x + w, level(t))], "#dde", 0.8);
            self.text(x - 4.0, level(t) + 4.0, "end", &format!("{t}"));
        }
        for (k, line) in lines.iter().enumerate() {
            let points: Vec<(f64, f64)> = line.iter().enumerate().map(|(i, t)| (place(i), level(*t))).collect();
            self.line(&points, COLOURS[k], 2.0);
        }
        for (i, n) in at.iter().enumerate() {
            self.text(place(i), y + 32.0 + h, "middle", &n.to_string());
        }
    }
}
