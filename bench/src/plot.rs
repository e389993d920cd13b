//! A plot of time against herd size, both by powers: an SVG written by hand.

use std::fmt::Write;

/// A line of the plot: for each herd size the nanoseconds.
pub struct Series {
    pub name: String,
    pub points: Vec<(f64, f64)>,
}

const WIDTH: f64 = 460.0;
const HEIGHT: f64 = 420.0;
const LEFT: f64 = 60.0;
const TOP: f64 = 40.0;
const COLOURS: [&str; 6] = ["#1b6ca8", "#d1495b", "#6b8e23", "#8e5ea2", "#e08e0b", "#444444"];

// One panel: sizes 16 to 4,096, times 10 ns to 100 ms.
struct Panel {
    x: f64,
}

impl Panel {
    fn place(&self, size: f64, time: f64) -> (f64, f64) {
        let across = (size.log2() - 4.0) / 8.0;
        let up = (time.log10() - 1.0) / 7.0;
        (self.x + LEFT + across * (WIDTH - LEFT - 20.0), TOP + (1.0 - up) * (HEIGHT - TOP - 40.0))
    }

    fn grid(&self, svg: &mut String, title: &str) {
        let names = ["10 ns", "100 ns", "1 µs", "10 µs", "100 µs", "1 ms", "10 ms", "100 ms"];
        for (power, name) in (1..).zip(names) {
            let ((x, y), (end, _)) = (self.place(16.0, 10f64.powi(power)), self.place(4096.0, 10.0));
            _ = writeln!(svg, r##"<line x1="{x:.1}" y1="{y:.1}" x2="{end:.1}" y2="{y:.1}" stroke="#ddd"/>"##);
            _ = writeln!(svg, r#"<text x="{:.1}" y="{:.1}" text-anchor="end">{name}</text>"#, x - 6.0, y + 4.0);
        }
        for size in [16, 64, 256, 1024, 4096] {
            let (x, y) = self.place(size as f64, 10.0);
            _ = writeln!(svg, r#"<text x="{x:.1}" y="{:.1}" text-anchor="middle">{size}</text>"#, y + 18.0);
        }
        _ = writeln!(svg, r#"<text x="{:.1}" y="24" font-weight="bold">{title}</text>"#, self.x + LEFT);
    }

    fn line(&self, svg: &mut String, series: &Series, colour: &str) {
        let mut path = String::new();
        for &(size, time) in &series.points {
            let (x, y) = self.place(size, time);
            _ = write!(path, "{x:.1},{y:.1} ");
            _ = writeln!(svg, r#"<circle cx="{x:.1}" cy="{y:.1}" r="3" fill="{colour}"/>"#);
        }
        _ = writeln!(svg, r#"<polyline points="{path}" fill="none" stroke="{colour}" stroke-width="1.5"/>"#);
    }
}

/// The panels side by side, and below them the names of the lines, which are the same in each.
pub fn svg(panels: &[(String, Vec<Series>)]) -> String {
    let (width, height) = (WIDTH * panels.len() as f64, HEIGHT + 60.0);
    let mut svg = format!(r#"<svg xmlns="http://www.w3.org/2000/svg" viewBox="0 0 {width} {height}""#);
    svg += " font-family=\"sans-serif\" font-size=\"11\">\n";
    svg += "<rect width=\"100%\" height=\"100%\" fill=\"white\"/>\n";
    for (i, (title, lines)) in panels.iter().enumerate() {
        let panel = Panel { x: i as f64 * WIDTH };
        panel.grid(&mut svg, title);
        for (series, colour) in lines.iter().zip(COLOURS) {
            panel.line(&mut svg, series, colour);
        }
    }
    for (i, (series, colour)) in panels[0].1.iter().zip(COLOURS).enumerate() {
        let (x, y) = (LEFT + (i % 3) as f64 * 280.0, HEIGHT + 16.0 + (i / 3) as f64 * 20.0);
        _ = writeln!(svg, r#"<rect x="{x}" y="{}" width="12" height="4" fill="{colour}"/>"#, y - 5.0);
        _ = writeln!(svg, r#"<text x="{}" y="{y}">{}</text>"#, x + 18.0, series.name);
    }
    svg + "</svg>\n"
}
