//! Draws the bench's figures: `picture < FIGURES > PICTURE`. It reads what `bench` printed and writes an SVG: for each
//! mix of commands a bar for the verdict and one for the record, both against the second reader's record in a new
//! vector, as long as the median, each with a line for its range. Upright lines stand where both readers need the same
//! time and where the proved reader needs half as much again. A range that leaves the picture ends in a tip, with its
//! greatest ratio as a number.

use bench::rows::{RECORD_TO_RECORD, VERDICT_TO_RECORD};
use bench::summary::{rows, Figures};
use std::fmt::Write;
use std::io::Read;
use std::process::ExitCode;

const TITLE: &str = "Time of the proved reader over that of the second reader with a record";
const KEY: [&str; 2] = [
    "bar and number: median of the processes; black line: least to greatest; a tip: it goes on, to the ratio beside it",
    "red line: the same time; dashed line: half as much again",
];

/// The bars of a mix: the row, what it is called, and its colour.
const BARS: [(&str, &str, &str); 2] =
    [(VERDICT_TO_RECORD, "verdict", "#4a78a8"), (RECORD_TO_RECORD, "record", "#d08a3c")];

const BAR: f64 = 20.0;
const MIX: f64 = 2.0 * BAR + 12.0;
const LEFT: f64 = 310.0;
/// The room for bars; behind them there is some for numbers.
const ACROSS: f64 = 660.0;
const WIDTH: f64 = LEFT + ACROSS + 150.0;
/// Where the mixes begin, below title, colours and scale.
const TOP: f64 = 92.0;

/// A mix, and the figures of its bars.
type Mix<'a> = (&'a str, [Figures; 2]);

fn main() -> ExitCode {
    let mut figures = String::new();
    if let Err(error) = std::io::stdin().read_to_string(&mut figures) {
        eprintln!("picture: standard input: {error}");
        return ExitCode::FAILURE;
    }
    let mixes = mixes(&figures);
    if mixes.is_empty() {
        eprintln!("usage: picture < FIGURES > PICTURE (what bench printed on standard input)");
        return ExitCode::from(2);
    }
    print!("{}", picture(&mixes));
    ExitCode::SUCCESS
}

/// The mixes that were printed.
fn mixes(figures: &str) -> Vec<Mix<'_>> {
    let rows = rows(figures);
    let of = |group: &str, name: &str| rows.iter().find(|row| (row.0, row.1) == (group, name)).map(|row| row.2);
    let verdicts = rows.iter().filter(|row| row.1 == VERDICT_TO_RECORD);
    verdicts.filter_map(|&(group, _, verdict)| Some((group, [verdict, of(group, RECORD_TO_RECORD)?]))).collect()
}

fn picture(mixes: &[Mix]) -> String {
    let scale = Scale::of(mixes);
    let bottom = TOP + MIX * mixes.len() as f64;
    let height = bottom + 48.0;
    let mut svg = format!(
        "<svg xmlns=\"http://www.w3.org/2000/svg\" viewBox=\"0 0 {WIDTH} {height}\" width=\"{WIDTH}\" \
         height=\"{height}\" font-family=\"sans-serif\" font-size=\"13\">\n\
         <title>{TITLE}</title>\n\
         <rect width=\"{WIDTH}\" height=\"{height}\" fill=\"white\"/>\n"
    );
    text(&mut svg, 8.0, 22.0, "font-size=\"17\" font-weight=\"bold\"", TITLE);
    for (i, (_, name, colour)) in BARS.into_iter().enumerate() {
        let x = LEFT + 110.0 * i as f64;
        rectangle(&mut svg, x, 36.0, 14.0, colour);
        text(&mut svg, x + 20.0, 48.0, "", name);
    }
    // The scale is drawn over the bars, so that it is seen where they end behind it, and numbers over the scale.
    for (top, figures, colour) in bars(mixes) {
        rectangle(&mut svg, LEFT, top + 3.0, scale.across(figures.median) - LEFT, colour);
    }
    scale.draw(&mut svg, bottom);
    for (top, figures, _) in bars(mixes) {
        scale.range(&mut svg, top, figures);
    }
    for (i, (name, _)) in mixes.iter().enumerate() {
        text(&mut svg, 8.0, TOP + MIX * i as f64 + BAR + 5.0, "", name);
    }
    for (i, words) in KEY.into_iter().enumerate() {
        text(&mut svg, 8.0, bottom + 20.0 + 18.0 * i as f64, "", words);
    }
    svg + "</svg>\n"
}

/// The bars of the mixes: where each is, its figures and its colour.
fn bars<'a>(mixes: &'a [Mix]) -> impl Iterator<Item = (f64, Figures, &'static str)> + 'a {
    mixes.iter().enumerate().flat_map(|(i, (_, figures))| {
        let top = TOP + MIX * i as f64;
        let bars = figures.iter().zip(BARS).enumerate();
        bars.map(move |(j, (figures, (_, _, colour)))| (top + BAR * j as f64, *figures, colour))
    })
}

/// Where ratios stand: from 0 to the greatest that the picture has room for.
struct Scale {
    most: f64,
}

/// With room for more 1 and 1.5 would be too close to each other.
const LIMIT: f64 = 12.0;

impl Scale {
    /// With room for each median, and for some of its range.
    fn of(mixes: &[Mix]) -> Scale {
        let medians = mixes.iter().flat_map(|(_, figures)| figures).map(|figures| figures.median);
        Scale { most: (medians.fold(1.0, f64::max).floor() + 1.0).min(LIMIT) }
    }

    /// At most at the right end.
    fn across(&self, ratio: f64) -> f64 {
        LEFT + ACROSS * ratio.min(self.most) / self.most
    }

    fn draw(&self, svg: &mut String, bottom: f64) {
        let step = (self.most / 8.0).ceil() as usize;
        for ratio in (0..=self.most as usize).step_by(step).filter(|&ratio| ratio != 1) {
            self.mark(svg, ratio as f64, bottom, "#d8d8d8");
        }
        self.mark(svg, 1.0, bottom, "#a02020\" stroke-width=\"2");
        self.mark(svg, 1.5, bottom, "#a02020\" stroke-dasharray=\"5 4");
    }

    /// An upright line with its ratio above it.
    fn mark(&self, svg: &mut String, ratio: f64, bottom: f64, stroke: &str) {
        let x = self.across(ratio);
        line(svg, &format!("M{x:.1} {:.1}V{bottom:.1}", TOP - 6.0), stroke);
        text(svg, x, TOP - 12.0, "text-anchor=\"middle\"", &ratio.to_string());
    }

    /// The line of a bar's range, and behind it the median as a number.
    fn range(&self, svg: &mut String, top: f64, figures: Figures) {
        let (from, to, middle) = (self.across(figures.least), self.across(figures.greatest), top + BAR / 2.0);
        line(svg, &format!("M{from:.1} {middle:.1}H{to:.1}M{from:.1} {:.1}v6", middle - 3.0), "black");
        let number = if figures.greatest > self.most {
            let _ = writeln!(svg, "<path d=\"M{:.1} {middle:.1}l-9 -5v10z\"/>", to + 9.0);
            format!("{:.2}, up to {:.2}", figures.median, figures.greatest)
        } else {
            line(svg, &format!("M{to:.1} {:.1}v6", middle - 3.0), "black");
            format!("{:.2}", figures.median)
        };
        // No upright line goes through the number.
        rectangle(svg, to + 10.0, top + 3.0, 8.0 * number.len() as f64, "white");
        text(svg, to + 12.0, top + 15.0, "", &number);
    }
}

fn rectangle(svg: &mut String, x: f64, y: f64, wide: f64, colour: &str) {
    let _ = writeln!(svg, "<rect x=\"{x:.1}\" y=\"{y:.1}\" width=\"{wide:.1}\" height=\"14\" fill=\"{colour}\"/>");
}

fn line(svg: &mut String, path: &str, stroke: &str) {
    let _ = writeln!(svg, "<path d=\"{path}\" stroke=\"{stroke}\" fill=\"none\"/>");
}

fn text(svg: &mut String, x: f64, y: f64, look: &str, words: &str) {
    let space = if look.is_empty() { "" } else { " " };
    let _ = writeln!(svg, "<text x=\"{x:.1}\" y=\"{y:.1}\"{space}{look}>{words}</text>");
}

#[cfg(test)]
mod tests {
    use super::*;

    const PRINTED: &str = "seed 1, 7 processes\n\
                           a mix, refused:\n  \
                           verdict against verdict alone         9.00 (8.00 to 9.50)\n  \
                           verdict against a record, new vector  1.25 (0.50 to 1.75)\n  \
                           record against a record, new vector   2.10 (2.00 to 7.10)\n\
                           octets, of S:\n  \
                           verdict against a record, new vector, 160 octets  8.00 (7.00 to 9.00)\n\
                           listings were not measured: there is no program\n";

    #[test]
    fn the_bars_are_those_of_the_mixes() {
        let figures = |median, least, greatest| Figures { median, least, greatest };
        assert_eq!(mixes(PRINTED), [("a mix, refused", [figures(1.25, 0.5, 1.75), figures(2.1, 2.0, 7.1)])]);
        assert_eq!(mixes("seed 1\na mix:\n  verdict against a record, new vector  1.00 (1.00 to 1.00)\n"), []);
    }

    #[test]
    fn bars_and_lines_stand_at_their_ratios() {
        // Room for ratios up to 3, so 220 units for 1, from 310 on.
        let svg = picture(&mixes(PRINTED));
        assert!(svg.contains("<rect x=\"310.0\" y=\"95.0\" width=\"275.0\" height=\"14\" fill=\"#4a78a8\"/>"), "{svg}");
        assert!(svg.contains("<path d=\"M420.0 102.0H695.0M420.0 99.0v6\""), "{svg}");
        assert!(svg.contains("<path d=\"M530.0 86.0V144.0\" stroke=\"#a02020\" stroke-width=\"2\""), "{svg}");
        assert!(svg.contains("<path d=\"M640.0 86.0V144.0\" stroke=\"#a02020\" stroke-dasharray"), "{svg}");
        assert!(svg.contains(">1.25</text>") && svg.contains(">1.5</text>") && !svg.contains("9.00"), "{svg}");
    }

    #[test]
    fn only_a_range_that_leaves_the_picture_has_a_tip() {
        let tip = "l-9 -5v10z";
        let beyond = picture(&mixes(PRINTED));
        assert!(beyond.matches(tip).count() == 1 && beyond.contains(">2.10, up to 7.10</text>"));
        let within = picture(&mixes(&PRINTED.replace("7.10", "3.00")));
        assert!(!within.contains(tip) && within.contains(">2.10</text>"));
    }

    #[test]
    fn the_picture_has_a_title_and_a_view_box() {
        let svg = picture(&mixes(PRINTED));
        assert!(svg.contains("<title>Time of the proved reader") && svg.contains("viewBox=\"0 0 1120 192\""));
    }
}
