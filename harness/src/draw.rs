//! The character graph of a presentation text, as SVG.
//!
//! A row for each level, from level 0 at the top; a circle for each representation with its degree; lines to the representations
//! of the level above it in the picture that it restricts to; arrows from a representation to the one that a generator carries it
//! to, in the colour of the generator. Where a generator leaves a representation as it is, there is no arrow.

use chieftables::{Level, Representation, Table};

const RADIUS: f64 = 13.0;
const STEP: f64 = 40.0;
const ROW: f64 = 112.0;
const LEFT: f64 = 128.0;
const TOP: f64 = 62.0;

/// A colour for each generator, told apart also by those who see few colours.
const COLOURS: [&str; 12] =
    ["#0072b2", "#d55e00", "#009e73", "#cc79a7", "#b8860b", "#56b4e9", "#7f3c8d", "#e73f74", "#3969ac", "#80ba5a", "#a5aa99", "#5f4690"];

/// A point of the picture.
#[derive(Clone, Copy)]
struct Point {
    x: f64,
    y: f64,
}

/// Where the circles stand: each row is centred.
struct Layout {
    widest: usize,
}

impl Layout {
    fn point(&self, level: usize, count: usize, number: usize) -> Point {
        let shift = (self.widest - count) as f64 * STEP / 2.0;
        Point { x: LEFT + shift + (number as f64 + 0.5) * STEP, y: TOP + level as f64 * ROW }
    }
}

/// The picture, or nothing if the text is refused.
pub fn picture(text: &[u8]) -> Result<String, chieftables::Refusal> {
    let table = chieftables::build(text)?;
    let layout = Layout { widest: table.levels().map(|level| level.count()).max().unwrap_or(1) };
    let (width, height) = (LEFT + layout.widest as f64 * STEP + 30.0, TOP + table.generators() as f64 * ROW + 30.0);
    let mut svg = format!(
        "<svg xmlns=\"http://www.w3.org/2000/svg\" viewBox=\"0 0 {width} {height}\" width=\"{width}\" height=\"{height}\" \
         font-family=\"sans-serif\">\n"
    );
    svg += &format!("<title>Character graph of a group of order {}</title>\n", table.order());
    svg += "<rect width=\"100%\" height=\"100%\" fill=\"white\"/>\n";
    let carriers = carriers(&table);
    svg += &markers(&carriers);
    svg += &legend(&carriers);
    for level in table.levels() {
        svg += &lines(&table, &layout, level);
    }
    for level in table.levels() {
        svg += &arrows(&table, &layout, level);
    }
    svg += &row(&layout, 0, 1, &[1], 1);
    for level in table.levels() {
        let degrees: Vec<usize> = level.representations().map(|r| r.degree()).collect();
        let order: usize = degrees.iter().map(|d| d * d).sum();
        svg += &row(&layout, level.number(), degrees.len(), &degrees, order);
    }
    Ok(svg + "</svg>\n")
}

/// Where a generator above the level carries a representation.
fn carried(rep: Representation, k: usize) -> usize {
    rep.generator(k).and_then(|matrix| matrix.column(0)).map_or(rep.number(), |column| column.reference)
}

/// The generators that carry some representation of a level below them to another.
fn carriers(table: &Table) -> Vec<usize> {
    let moves =
        |k: &usize| (1..*k).filter_map(|i| table.level(i)).any(|level| level.representations().any(|rep| carried(rep, *k) != rep.number()));
    (1..=table.generators()).filter(moves).collect()
}

/// The head of an arrow for each of them.
fn markers(carriers: &[usize]) -> String {
    let mut out = String::from("<defs>\n");
    for k in carriers {
        out += &format!(
            "<marker id=\"a{k}\" viewBox=\"0 0 8 8\" refX=\"7\" refY=\"4\" markerWidth=\"6\" markerHeight=\"6\" orient=\"auto\">\
             <path d=\"M0 0L8 4L0 8z\" fill=\"{}\"/></marker>\n",
            COLOURS[k - 1]
        );
    }
    out + "</defs>\n"
}

fn legend(carriers: &[usize]) -> String {
    let mut out = String::from("<text x=\"14\" y=\"22\" font-size=\"13\" fill=\"#333\">carried by generator</text>\n");
    for (place, k) in carriers.iter().enumerate() {
        let x = 158.0 + place as f64 * 52.0;
        out += &format!("<path d=\"M{x} 18h22\" stroke=\"{}\" stroke-width=\"2\" marker-end=\"url(#a{k})\"/>", COLOURS[k - 1]);
        out += &format!("<text x=\"{}\" y=\"22\" font-size=\"13\" fill=\"#333\">{k}</text>\n", x + 28.0);
    }
    out
}

/// The circles of a row with their degrees, and what the row is.
fn row(layout: &Layout, level: usize, count: usize, degrees: &[usize], order: usize) -> String {
    let y = TOP + level as f64 * ROW;
    let mut out = format!(
        "<text x=\"14\" y=\"{}\" font-size=\"13\" fill=\"#333\">level {level}</text>\
         <text x=\"14\" y=\"{}\" font-size=\"11\" fill=\"#777\">order {order}</text>\n",
        y - 1.0,
        y + 14.0
    );
    for (number, degree) in degrees.iter().enumerate() {
        let at = layout.point(level, count, number);
        let fill = if *degree == 1 { "#ffffff" } else { "#ffe9b8" };
        out += &format!(
            "<circle cx=\"{}\" cy=\"{}\" r=\"{RADIUS}\" fill=\"{fill}\" stroke=\"#333\"/>\
             <text x=\"{}\" y=\"{}\" font-size=\"13\" text-anchor=\"middle\">{degree}</text>\n",
            at.x,
            at.y,
            at.x,
            at.y + 4.5
        );
    }
    out
}

/// How many representations the level below has.
fn below(table: &Table, level: Level) -> usize {
    table.level(level.number() - 1).map_or(1, |low| low.count())
}

/// Lines from each representation to those that it restricts to, as thick as they occur often.
fn lines(table: &Table, layout: &Layout, level: Level) -> String {
    let mut out = String::new();
    for rep in level.representations() {
        let from = layout.point(level.number(), level.count(), rep.number());
        let mut blocks = rep.blocks();
        blocks.sort_unstable();
        while let Some(block) = blocks.pop() {
            let more = blocks.iter().filter(|&&b| b == block).count();
            blocks.retain(|&b| b != block);
            let to = layout.point(level.number() - 1, below(table, level), block);
            let thick = 1.2 + more as f64;
            out += &format!("<path d=\"M{} {}L{} {}\" stroke=\"#b0b0b0\" stroke-width=\"{thick}\"/>\n", from.x, from.y, to.x, to.y);
        }
    }
    out
}

/// Arrows to where the generators above the level carry each representation: over the row to the right, under it to the left.
fn arrows(table: &Table, layout: &Layout, level: Level) -> String {
    let mut out = String::new();
    for k in level.number() + 1..=table.generators() {
        for rep in level.representations() {
            let leads = carried(rep, k);
            if leads != rep.number() {
                let from = layout.point(level.number(), level.count(), rep.number());
                let to = layout.point(level.number(), level.count(), leads);
                out += &arrow(from, to, k, k - level.number());
            }
        }
    }
    out
}

/// An arrow that bends more for a generator further up.
fn arrow(from: Point, to: Point, k: usize, above: usize) -> String {
    let side = if from.x < to.x { -1.0 } else { 1.0 };
    let bend = side * (16.0 + 5.0 * above as f64 + 0.06 * (to.x - from.x).abs()).min(52.0);
    let turn = 0.55 * (RADIUS + 1.0);
    let toward = if from.x < to.x { turn } else { -turn };
    let rise = side * 0.83 * (RADIUS + 1.0);
    format!(
        "<path d=\"M{:.1} {:.1}Q{:.1} {:.1} {:.1} {:.1}\" fill=\"none\" stroke=\"{}\" stroke-width=\"1.5\" marker-end=\"url(#a{k})\"/>\n",
        from.x + toward,
        from.y + rise,
        (from.x + to.x) / 2.0,
        from.y + rise + 2.0 * bend - side * 8.0,
        to.x - toward,
        to.y + rise,
        COLOURS[k - 1]
    )
}
