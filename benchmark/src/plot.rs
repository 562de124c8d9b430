// The figures as a plot, an SVG: the chain beside the peers, and each call beside lean Rust.
use crate::figure::Figure;
use crate::report::{figure_of, grouped, ratio, PEERS};
use crate::rows::{Kind, HANDLE_UPDATE, READ_UPDATE};

const WIDTH: f64 = 960.0;
const MARGIN: f64 = 20.0;
/// Where the bars and the axis begin, and how long the longest bar and the axis are.
const START: f64 = 400.0;
const LENGTH: f64 = 460.0;
const ROW: f64 = 26.0;
/// A title that is longer stands on two lines.
const LABEL_MOST: usize = 60;

const INK: &str = "#222222";
const FAINT: &str = "#666666";
const OURS: &str = "#b5420b";
const LEAN: &str = "#2b6cb0";
const SECOND: &str = "#9a9a9a";
const PEER: &str = "#55606e";

pub fn plot(figures: &[Figure]) -> String {
    let (chain, middle) = chain(figures);
    let (calls, bottom) = calls(figures, middle + 30.0);
    let size = format!("width=\"{WIDTH}\" height=\"{bottom}\"");
    format!(
        "<svg xmlns=\"http://www.w3.org/2000/svg\" {size} viewBox=\"0 0 {WIDTH} {bottom}\">\n\
         <!-- Drawn by ./bench from its figures. -->\n\
         <rect {size} fill=\"#ffffff\"/>\n{chain}{calls}</svg>\n"
    )
}

/// Bars of instructions: the 112-octet chain by each that reads it, and as a whole request.
fn chain(figures: &[Figure]) -> (String, f64) {
    let [read, request] = [READ_UPDATE, HANDLE_UPDATE].map(|key| figure_of(figures, key));
    let mut bars = vec![
        ("lean Rust, read".to_string(), read.lean, LEAN),
        ("ours, read".to_string(), read.ours, OURS),
        ("lean Rust, a whole request".to_string(), request.lean, LEAN),
        ("ours, a whole request".to_string(), request.ours, OURS),
        ("second program, read".to_string(), read.second, SECOND),
        ("second program, a whole request".to_string(), request.second, SECOND),
    ];
    for (name, [all, stubbed]) in PEERS {
        bars.push((format!("{name}, parsed, debug formatting stubbed"), stubbed, PEER));
        bars.push((format!("{name}, parsed"), all, PEER));
    }
    bars.sort_by_key(|&(_, count, _)| count);
    let most = bars.iter().map(|&(_, count, _)| count).max().unwrap_or(1);
    let mut text = heading(
        34.0,
        "The 112-octet chain",
        "instructions; the peers only parse it: no decision, no tables, no response",
    );
    let mut y = 68.0;
    for (name, count, colour) in bars {
        let length = LENGTH * count as f64 / most as f64;
        text += &label(&name, y);
        let size = format!("width=\"{length:.1}\" height=\"16\"");
        text += &format!("<rect x=\"{START}\" y=\"{y}\" {size} fill=\"{colour}\"/>\n");
        text += &words(START + length + 6.0, y + 12.5, &grouped(count), 12, INK, "start");
        y += ROW - 4.0;
    }
    (text, y)
}

/// Ratios to lean Rust, on a logarithmic axis: a row for each call.
fn calls(figures: &[Figure], top: f64) -> (String, f64) {
    let rows: Vec<&Figure> =
        figures.iter().filter(|of| matches!(of.row.kind, Kind::Call | Kind::Policy)).collect();
    let first = top + 74.0;
    let last = first + ROW * rows.len() as f64;
    let mut text = heading(
        top,
        "Each call beside lean Rust",
        "instructions, as a multiple of those of the same call in lean safe Rust (1)",
    );
    text += &legend(top + 44.0);
    text += &axis(first - 8.0, last);
    for (at, of) in rows.into_iter().enumerate() {
        text += &call(of, first + ROW * at as f64);
    }
    (text, last + 40.0)
}

fn call(of: &Figure, y: f64) -> String {
    let middle = y + 8.0;
    let [one, ours, second, bits] =
        [of.lean, of.ours, of.second, of.bits].map(|count| position(count, of.lean));
    let mut text = label(of.row.title, y);
    text += &format!(
        "<path d=\"M{one:.1} {middle}H{ours:.1}\" stroke=\"{OURS}\" stroke-width=\"3\"/>\n"
    );
    text += &ring(second, middle);
    if of.bits > 0 {
        text += &square(bits, middle);
    }
    text += &dot(ours, middle);
    let shown = ratio(of.ours, of.lean);
    text + &words(START + LENGTH + 14.0, y + 12.5, &shown, 12, OURS, "start")
}

/// The marks of ours, of the second program, and of a match bit by bit.
fn dot(x: f64, y: f64) -> String {
    format!("<circle cx=\"{x:.1}\" cy=\"{y}\" r=\"5\" fill=\"{OURS}\"/>\n")
}

fn ring(x: f64, y: f64) -> String {
    let look = format!("fill=\"#ffffff\" stroke=\"{SECOND}\" stroke-width=\"2\"");
    format!("<circle cx=\"{x:.1}\" cy=\"{y}\" r=\"4\" {look}/>\n")
}

fn square(x: f64, y: f64) -> String {
    format!("<path d=\"M{:.1} {}h8v8h-8z\" fill=\"{SECOND}\"/>\n", x - 4.0, y - 4.0)
}

const TICKS: [u64; 7] = [1, 2, 5, 10, 20, 50, 100];

/// Where a ratio stands on the axis, which goes from 1 to 100: a lower one just left of it, a higher one at its end.
fn position(one: u64, other: u64) -> f64 {
    let ratio = one as f64 / other.max(1) as f64;
    (START + LENGTH * ratio.log10() / 2.0).clamp(START - 8.0, START + LENGTH)
}

fn axis(top: f64, bottom: f64) -> String {
    let mut text = String::new();
    for tick in TICKS {
        let (x, colour) = (position(tick, 1), if tick == 1 { LEAN } else { "#dddddd" });
        text += &format!(
            "<path d=\"M{x:.1} {top}V{bottom}\" stroke=\"{colour}\" stroke-width=\"1.5\"/>\n"
        );
        text += &words(
            x,
            bottom + 16.0,
            &tick.to_string(),
            12,
            if tick == 1 { LEAN } else { FAINT },
            "middle",
        );
    }
    text
}

fn legend(y: f64) -> String {
    let middle = y - 4.0;
    let mut text = dot(START, middle) + &words(START + 10.0, y, "ours", 12, OURS, "start");
    text += &ring(START + 70.0, middle);
    text += &words(START + 80.0, y, "second program", 12, FAINT, "start");
    text += &square(START + 210.0, middle);
    text += &words(START + 220.0, y, "bit by bit", 12, FAINT, "start");
    text + &words(START + LENGTH + 14.0, y, "ours / lean", 12, OURS, "middle")
}

fn heading(y: f64, title: &str, below: &str) -> String {
    let font = "font-family=\"sans-serif\" font-size=\"18\" font-weight=\"bold\"";
    let title = format!("<text x=\"{MARGIN}\" y=\"{y}\" {font} fill=\"{INK}\">{title}</text>\n");
    title + &words(MARGIN, y + 20.0, below, 12, FAINT, "start")
}

/// A row's title, which ends where the bars begin.
fn label(title: &str, y: f64) -> String {
    let x = START - 14.0;
    match halves(title) {
        None => words(x, y + 12.5, title, 12, INK, "end"),
        Some((one, other)) => {
            words(x, y + 6.5, one, 11, INK, "end") + &words(x, y + 18.5, other, 11, INK, "end")
        }
    }
}

/// A long title in two, at the comma or colon that is nearest to its middle.
fn halves(title: &str) -> Option<(&str, &str)> {
    if title.len() <= LABEL_MOST {
        return None;
    }
    let ends = title.char_indices().filter(|&(_, c)| c == ',' || c == ':').map(|(at, _)| at + 1);
    let at = ends
        .filter(|&at| title[at..].starts_with(' '))
        .min_by_key(|&at| at.abs_diff(title.len() / 2))?;
    Some((&title[..at], title[at..].trim_start()))
}

fn words(x: f64, y: f64, text: &str, size: u32, colour: &str, anchor: &str) -> String {
    let font = format!("font-family=\"sans-serif\" font-size=\"{size}\" fill=\"{colour}\"");
    let text = text.replace('&', "&amp;").replace('<', "&lt;");
    format!("<text x=\"{x:.1}\" y=\"{y:.1}\" {font} text-anchor=\"{anchor}\">{text}</text>\n")
}

#[cfg(test)]
mod tests {
    use super::*;

    #[test]
    fn the_axis_goes_from_1_to_100() {
        let at = [(1, 1), (10, 1), (100, 1), (1000, 10)].map(|(one, other)| position(one, other));
        assert_eq!(at, [START, START + LENGTH / 2.0, START + LENGTH, START + LENGTH]);
    }

    #[test]
    fn a_long_title_is_broken_near_its_middle() {
        let long = "the same: each source matches, each destination misses by bit 126";
        assert_eq!(
            halves(long),
            Some(("the same: each source matches,", "each destination misses by bit 126"))
        );
        assert_eq!(halves("the 112-octet chain, read"), None);
    }
}
