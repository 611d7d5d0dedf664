//! The fill of a matrix as an SVG picture. Everything here is a pure function of what is drawn.
use crate::facts::Fact;
use std::cmp::Ordering;
use std::collections::HashMap;
use std::fmt::Write;

/// What is drawn. All numbers are elimination places.
pub struct Subject<'a> {
    pub title: &'a str,
    /// Row k: the places of its stored entries; one that stands there several times is one cell.
    pub stored: &'a [Vec<usize>],
    /// Row k: its filled places below k.
    pub lower: &'a [Vec<usize>],
    /// Row k: its filled places above k, T(k).
    pub upper: &'a [Vec<usize>],
    /// Where T(k) begins in the shared form's upper index store.
    pub runs: &'a [usize],
    /// Column k: its filled places below k, and where they begin in the shared form's lower index store.
    pub lower_columns: &'a [Vec<usize>],
    pub lower_runs: &'a [usize],
    pub facts: &'a [Fact],
}

/// Up to this many places each position is a cell of its own; beyond, a cell is a square of positions.
const SINGLE_CELLS: usize = 200;
const LEFT: usize = 76;
const TOP: usize = 92;
const GREATEST_SIDE: usize = 720;
const GREATEST_CELL: usize = 48;
const PANEL: usize = 410;
/// Room for the slots of each run, where rows are high enough for a line of text: up to 64 rows.
const RUN_COLUMN: usize = 64;
const LEAST_LINE: usize = 11;
/// Steps of a density's shade, and the shade of the thinnest.
const LEVELS: f64 = 20.0;
const FAINTEST: f64 = 0.55;

type Rgb = [f64; 3];

const WHITE: Rgb = [255.0, 255.0, 255.0];

/// The whole picture.
pub fn draw(subject: &Subject) -> String {
    let n = subject.upper.len();
    let side = GREATEST_SIDE.min(n * GREATEST_CELL).max(1);
    let hues = Hues::of(subject);
    let named_runs = side >= LEAST_LINE * n;
    let panel_at = LEFT + side + if named_runs { RUN_COLUMN } else { 0 };
    let mut out = String::new();
    open(&mut out, subject.title, panel_at + PANEL, TOP + side.max(620) + 40);
    axes(&mut out, n, side);
    let _ = writeln!(
        out,
        "<g id=\"cells\" transform=\"translate({LEFT} {TOP}) scale({})\">",
        side as f64 / n.max(1) as f64
    );
    let block = n.div_ceil(SINGLE_CELLS).max(1);
    if block == 1 {
        single_cells(&mut out, subject, &hues);
    } else {
        dense_cells(&mut out, subject, &hues, block);
    }
    out.push_str("</g>\n");
    let _ = writeln!(
        out,
        "<rect x=\"{LEFT}\" y=\"{TOP}\" width=\"{side}\" height=\"{side}\" fill=\"none\" stroke=\"#888\"/>"
    );
    if named_runs {
        run_column(&mut out, subject, &hues, side);
    }
    panel(&mut out, subject, &hues, panel_at + 32, block);
    out.push_str("</svg>\n");
    out
}

/// The hue of each upper list and of each lower column; the two stores have no hue in common.
struct Hues {
    upper: Vec<Option<usize>>,
    lower: Vec<Option<usize>>,
    upper_groups: usize,
    lower_groups: usize,
}

impl Hues {
    fn of(subject: &Subject) -> Hues {
        let upper = shared_hues(subject.upper, subject.runs);
        let lower = shared_hues(subject.lower_columns, subject.lower_runs);
        let count = |hues: &[Option<usize>]| hues.iter().flatten().max().map_or(0, |last| last + 1);
        let (upper_groups, lower_groups) = (count(&upper), count(&lower));
        let lower = lower.into_iter().map(|hue| hue.map(|number| number + upper_groups)).collect();
        Hues { upper, lower, upper_groups, lower_groups }
    }

    /// The hue of the list that row k, column j belongs to; the diagonal belongs to none.
    fn at(&self, k: usize, j: usize) -> Option<usize> {
        match j.cmp(&k) {
            Ordering::Greater => self.upper.get(k).copied().flatten(),
            Ordering::Less => self.lower.get(j).copied().flatten(),
            Ordering::Equal => None,
        }
    }
}

/// A group number for each list whose run overlaps the run of another list, the same for both; none for the others.
fn shared_hues(lists: &[Vec<usize>], runs: &[usize]) -> Vec<Option<usize>> {
    let mut places: Vec<usize> = (0..lists.len().min(runs.len())).filter(|&k| !lists[k].is_empty()).collect();
    places.sort_by_key(|&k| runs[k]);
    let mut groups: Vec<Vec<usize>> = Vec::new();
    let mut end = 0;
    for k in places {
        let after = runs[k].saturating_add(lists[k].len());
        match groups.last_mut() {
            Some(group) if runs[k] < end => group.push(k),
            _ => groups.push(vec![k]),
        }
        end = end.max(after);
    }
    groups.retain(|group| group.len() > 1);
    // Numbered by first place, so that neighbours in the picture get hues far apart.
    groups.sort_by_key(|group| group.iter().min().copied());
    let mut hues = vec![None; lists.len()];
    for (number, group) in groups.iter().enumerate() {
        for &k in group {
            hues[k] = Some(number);
        }
    }
    hues
}

fn open(out: &mut String, title: &str, width: usize, height: usize) {
    let heading = escaped(&fitted(&format!("Fill of {title}"), width - LEFT - 16));
    let title = escaped(title);
    let _ = writeln!(
        out,
        "<svg xmlns=\"http://www.w3.org/2000/svg\" width=\"{width}\" height=\"{height}\" viewBox=\"0 0 {width} {height}\" \
         font-family=\"sans-serif\" font-size=\"13\" fill=\"#222\">\n<title>Fill of {title}</title>\n\
         <rect width=\"{width}\" height=\"{height}\" fill=\"#fff\"/>\n\
         <text x=\"{LEFT}\" y=\"30\" font-size=\"18\" font-weight=\"bold\">{heading}</text>"
    );
}

/// As much of a heading as has room; letters outside ASCII may be wide.
fn fitted(text: &str, room: usize) -> String {
    let mut used = 0;
    let wide = |letter: char| if letter.is_ascii() { 13 } else { 19 };
    let end = text.char_indices().find(|&(_, letter)| {
        used += wide(letter);
        used > room
    });
    match end {
        None => text.to_string(),
        Some((at, _)) => {
            let kept: Vec<char> = text[..at].chars().collect();
            kept[..kept.len().saturating_sub(3)].iter().collect::<String>() + "..."
        }
    }
}

/// Ticks with places along the top and the left edge, each at the middle of its row or column.
fn axes(out: &mut String, n: usize, side: usize) {
    let scale = side as f64 / n.max(1) as f64;
    let middle = side / 2;
    let _ = writeln!(
        out,
        "<text x=\"{}\" y=\"{}\" text-anchor=\"middle\">column, by place</text>\n\
         <text transform=\"translate(20 {}) rotate(-90)\" text-anchor=\"middle\">row, by place</text>\n\
         <g font-size=\"11\" stroke-width=\"1\">",
        LEFT + middle,
        TOP - 36,
        TOP + middle
    );
    for place in (0..n).step_by(tick_step(n)) {
        let at = (place as f64 + 0.5) * scale;
        let (x, y) = (LEFT as f64 + at, TOP as f64 + at);
        let _ = writeln!(
            out,
            "<path d=\"M{x:.2} {}v-5M{} {y:.2}h-5\" stroke=\"#888\"/>\
             <text x=\"{x:.2}\" y=\"{}\" text-anchor=\"middle\">{place}</text>\
             <text x=\"{}\" y=\"{:.2}\" text-anchor=\"end\">{place}</text>",
            TOP,
            LEFT,
            TOP - 10,
            LEFT - 9,
            y + 4.0
        );
    }
    out.push_str("</g>\n");
}

/// The least of 1, 2, 5, 10, 20, 50, .. that gives at most 16 ticks.
fn tick_step(n: usize) -> usize {
    let mut decade = 1;
    loop {
        for step in [decade, 2 * decade, 5 * decade] {
            if n <= 16 * step {
                return step;
            }
        }
        decade *= 10;
    }
}

/// The filled places of row k in ascending order, the diagonal among them.
fn filled_row<'a>(subject: &'a Subject, k: usize) -> impl Iterator<Item = usize> + 'a {
    let lower = subject.lower.get(k).map_or(&[][..], |row| row);
    lower.iter().copied().chain([k]).chain(subject.upper[k].iter().copied())
}

fn is_stored(subject: &Subject, k: usize) -> Vec<bool> {
    let mut marks = vec![false; subject.upper.len()];
    for &j in subject.stored.get(k).map_or(&[][..], |row| row) {
        if let Some(mark) = marks.get_mut(j) {
            *mark = true;
        }
    }
    marks
}

fn single_cells(out: &mut String, subject: &Subject, hues: &Hues) {
    let n = subject.upper.len();
    for k in 0..n {
        let stored = is_stored(subject, k);
        for j in filled_row(subject, k) {
            let own = stored.get(j).copied().unwrap_or(false);
            let hue = hues.at(k, j);
            let colour = hex(if own { dark(hue) } else { light(hue) });
            let class = if own { "stored" } else { "fill" };
            let _ = write!(
                out,
                "<rect class=\"{class}\" x=\"{:.2}\" y=\"{:.2}\" width=\".92\" height=\".92\" fill=\"{colour}\"",
                j as f64 + 0.04,
                k as f64 + 0.04
            );
            // A hint under the pointer, where there are few enough cells to point at one.
            if n <= 64 {
                let slot = slot(subject, k, j);
                let _ = writeln!(out, "><title>row {k}, column {j}: {class}{slot}</title></rect>");
            } else {
                out.push_str("/>\n");
            }
        }
    }
}

/// The index slot that holds row k, column j in the shared form, in words; none on the diagonal.
fn slot(subject: &Subject, k: usize, j: usize) -> String {
    let (name, lists, runs, own, other) = match j > k {
        true => ("upper", subject.upper, subject.runs, k, j),
        false => ("lower", subject.lower_columns, subject.lower_runs, j, k),
    };
    let at = lists.get(own).and_then(|list| list.binary_search(&other).ok());
    at.zip(runs.get(own)).map_or(String::new(), |(at, run)| format!(", {name} slot {}", run + at))
}

/// What a square of positions holds.
#[derive(Default)]
struct Square {
    stored: usize,
    filled: usize,
    votes: HashMap<usize, usize>,
}

/// Squares of block by block positions, shaded by density; one path for each colour keeps the file small.
fn dense_cells(out: &mut String, subject: &Subject, hues: &Hues, block: usize) {
    let n = subject.upper.len();
    let mut paths: Vec<(String, String)> = Vec::new();
    let mut known: HashMap<String, usize> = HashMap::new();
    for top in (0..n).step_by(block) {
        let height = block.min(n - top);
        for (place, square) in squares(subject, hues, top, height, block).iter().enumerate() {
            if square.stored + square.filled == 0 {
                continue;
            }
            let left = place * block;
            let width = block.min(n - left);
            let colour = hex(shade(square, width * height));
            let at = *known.entry(colour.clone()).or_insert_with(|| {
                paths.push((colour, String::new()));
                paths.len() - 1
            });
            let _ = write!(paths[at].1, "M{left} {top}h{width}v{height}h-{width}z");
        }
    }
    for (colour, path) in paths {
        let _ = writeln!(out, "<path fill=\"{colour}\" d=\"{path}\" shape-rendering=\"crispEdges\"/>");
    }
}

/// The squares of the rows from top on, from left to right.
fn squares(subject: &Subject, hues: &Hues, top: usize, height: usize, block: usize) -> Vec<Square> {
    let mut found: Vec<Square> = Vec::new();
    found.resize_with(subject.upper.len().div_ceil(block), Square::default);
    for k in top..top + height {
        let stored = is_stored(subject, k);
        for j in filled_row(subject, k) {
            let Some(square) = found.get_mut(j / block) else { continue };
            if stored.get(j).copied().unwrap_or(false) {
                square.stored += 1;
            } else {
                square.filled += 1;
            }
            if let Some(hue) = hues.at(k, j) {
                *square.votes.entry(hue).or_default() += 1;
            }
        }
    }
    found
}

/// White towards the light shade by the density of all, then towards the dark one by that of the stored entries.
fn shade(square: &Square, area: usize) -> Rgb {
    let hue = square.votes.iter().max_by_key(|&(&hue, &votes)| (votes, std::cmp::Reverse(hue))).map(|(&hue, _)| hue);
    let base = mixed(WHITE, light(hue), level(square.stored + square.filled, area));
    mixed(base, dark(hue), level(square.stored, area))
}

/// A density as a share of 0 to 1 in few steps. Floor and root lift thin squares, so that a single entry can be seen.
fn level(count: usize, area: usize) -> f64 {
    if count == 0 {
        return 0.0;
    }
    let share = FAINTEST + (1.0 - FAINTEST) * (count as f64 / area.max(1) as f64).sqrt();
    (share * LEVELS).round().min(LEVELS) / LEVELS
}

fn dark(hue: Option<usize>) -> Rgb {
    hue.map_or([60.0, 60.0, 64.0], |number| from_hue(number, 0.75, 0.32))
}

fn light(hue: Option<usize>) -> Rgb {
    hue.map_or([184.0, 184.0, 188.0], |number| from_hue(number, 0.72, 0.72))
}

/// The golden angle from hue to hue: any few in a row are well apart.
fn from_hue(number: usize, saturation: f64, lightness: f64) -> Rgb {
    let turn = (number as f64 * 137.507_764 + 265.0) % 360.0;
    let reach = saturation * lightness.min(1.0 - lightness);
    let part = |shift: f64| {
        let k = (shift + turn / 30.0) % 12.0;
        255.0 * (lightness - reach * (k - 3.0).min(9.0 - k).clamp(-1.0, 1.0))
    };
    [part(0.0), part(8.0), part(4.0)]
}

fn mixed(from: Rgb, to: Rgb, share: f64) -> Rgb {
    [0, 1, 2].map(|i| from[i] + (to[i] - from[i]) * share)
}

fn hex(colour: Rgb) -> String {
    let [r, g, b] = colour.map(|part| part.round().clamp(0.0, 255.0) as u8);
    format!("#{r:02x}{g:02x}{b:02x}")
}

/// Counts and slots, and what the colours mean.
fn panel(out: &mut String, subject: &Subject, hues: &Hues, x: usize, block: usize) {
    let mut y = TOP + 12;
    for fact in subject.facts {
        if fact.value.is_empty() {
            y += 12;
        }
        let weight = if fact.value.is_empty() { "bold" } else { "normal" };
        let _ = writeln!(
            out,
            "<text x=\"{x}\" y=\"{y}\" font-weight=\"{weight}\">{}</text>\
             <text x=\"{}\" y=\"{y}\" text-anchor=\"end\">{}</text>",
            escaped(&fact.label),
            x + 300,
            escaped(&fact.value)
        );
        y += 20;
    }
    legend(out, hues, x, y + 16, block);
}

fn legend(out: &mut String, hues: &Hues, x: usize, mut y: usize, block: usize) {
    let mut lines = vec![(Some(None), "stored entry, fill".to_string())];
    for (groups, first, what) in
        [(hues.upper_groups, 0, "upper lists"), (hues.lower_groups, hues.upper_groups, "lower columns")]
    {
        let plural = if groups == 1 { "" } else { "s" };
        let text = format!("{what} sharing slots: {groups} group{plural}");
        lines.push((if groups > 0 { Some(Some(first)) } else { None }, text));
    }
    if hues.upper_groups + hues.lower_groups > 0 {
        lines.push((None, "one hue a group; grey: slots of its own".to_string()));
    }
    if block > 1 {
        lines.push((None, format!("{block} by {block} places a cell; darker is denser")));
    }
    for (hue, text) in lines {
        if let Some(hue) = hue {
            swatch(out, x, y, dark(hue));
            swatch(out, x + 18, y, light(hue));
        }
        let _ = writeln!(out, "<text x=\"{}\" y=\"{y}\">{text}</text>", x + 40);
        y += 22;
    }
}

/// Beside each row the upper index slots that its run reads.
fn run_column(out: &mut String, subject: &Subject, hues: &Hues, side: usize) {
    let x = LEFT + side + 10;
    let scale = side as f64 / subject.upper.len().max(1) as f64;
    let size = (scale * 0.85).min(11.0);
    let _ = writeln!(out, "<text x=\"{x}\" y=\"{}\" font-size=\"11\">upper slots</text>", TOP - 10);
    let _ = writeln!(out, "<g font-size=\"{size:.2}\">");
    for (k, (list, run)) in subject.upper.iter().zip(subject.runs).enumerate() {
        let y = TOP as f64 + (k as f64 + 0.5) * scale + 0.36 * size;
        let colour = hex(dark(hues.upper[k]));
        let slots = match list.len() {
            0 => "none".to_string(),
            1 => format!("{run}"),
            length => format!("{run} to {}", run + length - 1),
        };
        let _ = writeln!(out, "<text x=\"{x}\" y=\"{y:.2}\" fill=\"{colour}\">{slots}</text>");
    }
    out.push_str("</g>\n");
}

fn swatch(out: &mut String, x: usize, y: usize, colour: Rgb) {
    let _ = writeln!(out, "<path d=\"M{x} {}h14v14h-14z\" fill=\"{}\"/>", y - 12, hex(colour));
}

/// Text for XML; characters that XML cannot hold become a replacement mark.
fn escaped(text: &str) -> String {
    let mut out = String::with_capacity(text.len());
    for letter in text.chars() {
        match letter {
            '&' => out.push_str("&amp;"),
            '<' => out.push_str("&lt;"),
            '>' => out.push_str("&gt;"),
            '"' => out.push_str("&quot;"),
            '\u{fffe}' | '\u{ffff}' => out.push('\u{fffd}'),
            letter if letter.is_control() => out.push('\u{fffd}'),
            letter => out.push(letter),
        }
    }
    out
}

#[cfg(test)]
mod tests {
    use super::*;

    #[test]
    fn overlapping_runs_have_one_hue() {
        let upper = [vec![1, 2, 3], vec![2, 3], vec![3], vec![]];
        // Lists 0 and 1 overlap at slot 1; list 2 stands alone.
        assert_eq!(shared_hues(&upper, &[0, 1, 3, 4]), [Some(0), Some(0), None, None]);
        // Runs that only touch share nothing.
        assert_eq!(shared_hues(&upper, &[0, 3, 5, 6]), [None; 4]);
        // Overlap passes on from list to list.
        assert_eq!(shared_hues(&upper, &[0, 2, 3, 4]), [Some(0), Some(0), Some(0), None]);
    }

    #[test]
    fn ticks_are_few() {
        assert_eq!([1, 9, 17, 200, 1024, 4096].map(tick_step), [1, 1, 2, 20, 100, 500]);
    }

    #[test]
    fn colours_are_those_of_their_hue() {
        assert_eq!(hex(WHITE), "#ffffff");
        assert_ne!(dark(Some(0)), dark(Some(1)));
        assert!(light(Some(3)).iter().sum::<f64>() > dark(Some(3)).iter().sum::<f64>());
    }

    #[test]
    fn denser_is_darker() {
        let levels = [0, 1, 110, 250, 441].map(|count| level(count, 441));
        assert!(levels.windows(2).all(|pair| pair[0] < pair[1]), "{levels:?}");
        assert_eq!((levels[0], levels[4]), (0.0, 1.0));
    }

    #[test]
    fn headings_fit() {
        assert_eq!(fitted("Fill of a.mtx", 400), "Fill of a.mtx");
        assert_eq!(fitted(&"a".repeat(100), 130), "aaaaaaa...");
        assert_eq!(fitted("\u{4e00}\u{4e00}", 19), "...");
    }

    #[test]
    fn text_is_escaped() {
        assert_eq!(escaped("a<b>&\"\u{1}"), "a&lt;b&gt;&amp;&quot;\u{fffd}");
    }
}
