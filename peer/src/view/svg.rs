//! The charts as a picture: a row for each analyte and a column for each letter, stretch by
//! stretch. Nothing in it depends on colour.

use std::fmt::{self, Write};

use crate::category::Category;
use crate::charts::{Run, KINDS};
use crate::view::history::{History, Stretch};
use crate::view::plot::{drawn, group, Plot};
use crate::view::words;

const PAGE: f64 = 1420.0;
const MARGIN: f64 = 20.0;
const LINE: f64 = 20.0;
/// One panel, with the room around its plot.
const PANEL: (f64, f64) = ((PAGE - 2.0 * MARGIN) / KINDS as f64, 208.0);
const BEFORE: (f64, f64) = (66.0, 40.0);
const AFTER: (f64, f64) = (48.0, 42.0);
/// Between markers that can still be told apart.
const MARKER_ROOM: f64 = 7.0;

const STYLE: &str = "\
text{font-family:'DejaVu Sans',Arial,Helvetica,sans-serif;font-size:12px;fill:#000}\
.h1{font-size:22px;font-weight:bold}.h2{font-size:18px;font-weight:bold}\
.h3{font-size:15px;font-weight:bold}.plain{font-size:13px}.bold{font-weight:bold}\
.mid{text-anchor:middle}.end{text-anchor:end}\
.frame{fill:none;stroke:#000;stroke-width:1}.over{stroke-width:3}\
.band{fill:#d0d0d0}.zero{stroke:#000;stroke-width:.7;stroke-dasharray:1 3}\
.limit{stroke:#000;stroke-width:1.6;stroke-dasharray:9 5}\
.tick{stroke:#000;stroke-width:1}\
.curve{fill:none;stroke:#000;stroke-width:1.1}\
.run{fill:none;stroke:#000;stroke-width:3.2;stroke-linejoin:round}\
.open{fill:#fff;stroke:#000;stroke-width:1.2}.full{fill:#000}";

/// The whole picture.
pub fn picture(name: &str, program: &str, history: &History) -> Result<String, fmt::Error> {
    let mut body = String::new();
    let mut y = heading(&mut body, name, program, history)?;
    for (number, admission) in (1..).zip(&history.admissions) {
        let said = words::admission(number, admission);
        y += 2.0 * LINE;
        rule(&mut body, y - 1.2 * LINE)?;
        y = paragraphs(&mut body, y, &said, "h2")?;
        for stretch in &admission.stretches {
            write_text(&mut body, (MARGIN, y + 8.0), "h3", &stretch_title(stretch))?;
            y += LINE;
            panels(&mut body, y, history.category, stretch)?;
            y += PANEL.1 * history.category.analytes() as f64 + LINE;
        }
    }
    let height = y + MARGIN;
    let mut page = String::new();
    writeln!(
        page,
        r#"<svg xmlns="http://www.w3.org/2000/svg" width="{PAGE}" height="{height}" viewBox="0 0 {PAGE} {height}">"#
    )?;
    writeln!(page, "<style>{STYLE}</style>")?;
    writeln!(page, r##"<rect width="{PAGE}" height="{height}" fill="#fff"/>"##)?;
    page.push_str(&body);
    page.push_str("</svg>\n");
    Ok(page)
}

/// Title, status, what the marks mean and where the figures come from. Gives the y below it.
fn heading(
    out: &mut String,
    name: &str,
    program: &str,
    history: &History,
) -> Result<f64, fmt::Error> {
    let mut said = vec![words::title(name, history), words::status(&history.status)];
    said.push(words::lines_taken(history));
    said.extend(words::sources(program));
    let y = paragraphs(out, MARGIN + 16.0, &said, "h1")? + 8.0;
    legend(out, y)?;
    Ok(y + LINE)
}

/// A title of this class and plain lines below it. Gives the y of the next line.
fn paragraphs(out: &mut String, y: f64, said: &[String], title: &str) -> Result<f64, fmt::Error> {
    let mut y = y;
    for (number, line) in said.iter().enumerate() {
        let (class, step) = if number == 0 { (title, 1.3 * LINE) } else { ("plain", LINE) };
        write_text(out, (MARGIN, y), class, line)?;
        y += step;
    }
    Ok(y)
}

/// One of each mark with its meaning.
fn legend(out: &mut String, y: f64) -> fmt::Result {
    let middle = y - 4.0;
    let mut x = MARGIN;
    write_line(out, "curve", (x, middle), (x + 40.0, middle))?;
    open_marker(out, (x + 20.0, middle))?;
    write_text(out, (x + 48.0, y), "plain", "value after a sample")?;
    x += 220.0;
    write_line(out, "limit", (x, middle), (x + 46.0, middle))?;
    write_text(out, (x + 54.0, y), "plain", "limit (at it is not over)")?;
    x += 250.0;
    write_line(out, "zero", (x, middle), (x + 40.0, middle))?;
    write_text(out, (x + 48.0, y), "plain", "0")?;
    x += 90.0;
    write_rect(out, "band", (x, middle - 9.0), (46.0, 18.0))?;
    write_line(out, "run", (x + 4.0, middle), (x + 42.0, middle))?;
    full_marker(out, (x + 23.0, middle))?;
    write_text(out, (x + 54.0, y), "plain", "run shown for a chart that is over (thick frame)")
}

/// A long stretch says how it is drawn.
fn stretch_title(stretch: &Stretch) -> String {
    let title = words::stretch(stretch);
    match group(stretch.samples.len()) {
        None => title,
        Some(group) => format!("{title} (of each {group} the lowest and the highest are drawn)"),
    }
}

fn panels(out: &mut String, top: f64, category: Category, stretch: &Stretch) -> fmt::Result {
    for chart in 0..category.charts() {
        let column = (chart % KINDS) as f64;
        let row = (chart / KINDS) as f64;
        let corner = (MARGIN + column * PANEL.0, top + row * PANEL.1);
        panel(out, corner, category, stretch, chart)?;
    }
    Ok(())
}

fn panel(
    out: &mut String,
    corner: (f64, f64),
    category: Category,
    stretch: &Stretch,
    chart: usize,
) -> fmt::Result {
    let values = stretch.values(chart);
    let limit = category.turns().limit(chart);
    let size = (PANEL.0 - BEFORE.0 - AFTER.0, PANEL.1 - BEFORE.1 - AFTER.1);
    let inner = (corner.0 + BEFORE.0, corner.1 + BEFORE.1);
    let plot = Plot::new(inner, size, &values, limit);
    let run = stretch.run(chart);
    write_text(out, (plot.left, plot.top - 22.0), "bold", &words::chart(category, chart))?;
    let class = if run.is_some() { "bold" } else { "" };
    write_text(out, (plot.left, plot.top - 7.0), class, &words::outcome(stretch, chart))?;
    if let Some(run) = run {
        band(out, &plot, run)?;
    }
    axes(out, &plot, chart)?;
    let limit_y = plot.y(limit);
    write_line(out, "zero", (plot.left, plot.y(0)), (plot.right(), plot.y(0)))?;
    write_line(out, "limit", (plot.left, limit_y), (plot.right(), limit_y))?;
    write_text(out, (plot.right() + 5.0, limit_y - 2.0), "", "limit")?;
    write_text(out, (plot.right() + 5.0, limit_y + 11.0), "", &limit.to_string())?;
    curve(out, &plot, &values, run)?;
    let frame = if run.is_some() { "frame over" } else { "frame" };
    write_rect(out, frame, (plot.left, plot.top), (plot.width, plot.height))
}

/// The slots of a run.
fn band(out: &mut String, plot: &Plot, run: Run) -> fmt::Result {
    let from = plot.x(run.first) - plot.slot() / 2.0;
    let to = plot.x(run.last) + plot.slot() / 2.0;
    write_rect(out, "band", (from, plot.top), (to - from, plot.height))
}

fn axes(out: &mut String, plot: &Plot, chart: usize) -> fmt::Result {
    let bottom = plot.bottom();
    for sample in plot.sample_ticks() {
        let x = plot.x(sample);
        write_line(out, "tick", (x, bottom), (x, bottom + 4.0))?;
        write_text(out, (x, bottom + 17.0), "mid", &sample.to_string())?;
    }
    for value in plot.value_ticks() {
        let y = plot.y(value);
        write_line(out, "tick", (plot.left - 4.0, y), (plot.left, y))?;
        write_text(out, (plot.left - 7.0, y + 4.0), "end", &value.to_string())?;
    }
    let (middle, beside) = (plot.left + plot.width / 2.0, plot.left - BEFORE.0 + 12.0);
    write_text(out, (middle, bottom + 32.0), "mid", "sample number")?;
    let half = plot.top + plot.height / 2.0;
    write!(out, r#"<g transform="translate({beside:.1} {half:.1}) rotate(-90)">"#)?;
    write_text(out, (0.0, 0.0), "mid", &format!("value ({})", words::unit(chart)))?;
    writeln!(out, "</g>")
}

/// All values, and the run over them.
fn curve(out: &mut String, plot: &Plot, values: &[i32], run: Option<Run>) -> fmt::Result {
    let point = |sample: usize| (plot.x(sample), plot.y(values[sample - 1]));
    let all: Vec<(f64, f64)> = drawn(values, 1, values.len()).into_iter().map(point).collect();
    polyline(out, "curve", &all)?;
    let roomy = plot.slot() >= MARKER_ROOM;
    let in_run = |sample: usize| run.is_some_and(|run| (run.first..=run.last).contains(&sample));
    for sample in (1..=values.len()).filter(|&sample| roomy && !in_run(sample)) {
        open_marker(out, point(sample))?;
    }
    let Some(run) = run else { return Ok(()) };
    let own: Vec<(f64, f64)> = drawn(values, run.first, run.last).into_iter().map(point).collect();
    polyline(out, "run", &own)?;
    // Its ends are marked however close the samples are.
    let marked = |&sample: &usize| roomy || sample == run.first || sample == run.last;
    (run.first..=run.last).filter(marked).try_for_each(|sample| full_marker(out, point(sample)))
}

fn rule(out: &mut String, y: f64) -> fmt::Result {
    write_line(out, "tick", (MARGIN, y), (PAGE - MARGIN, y))
}

fn open_marker(out: &mut String, (x, y): (f64, f64)) -> fmt::Result {
    writeln!(out, r#"<circle class="open" cx="{x:.1}" cy="{y:.1}" r="2.8"/>"#)
}

fn full_marker(out: &mut String, (x, y): (f64, f64)) -> fmt::Result {
    write_rect(out, "full", (x - 4.0, y - 4.0), (8.0, 8.0))
}

fn polyline(out: &mut String, class: &str, points: &[(f64, f64)]) -> fmt::Result {
    write!(out, r#"<polyline class="{class}" points=""#)?;
    points.iter().try_for_each(|(x, y)| write!(out, "{x:.1},{y:.1} "))?;
    writeln!(out, r#""/>"#)
}

fn write_line(out: &mut String, class: &str, from: (f64, f64), to: (f64, f64)) -> fmt::Result {
    let ((x1, y1), (x2, y2)) = (from, to);
    writeln!(out, r#"<line class="{class}" x1="{x1:.1}" y1="{y1:.1}" x2="{x2:.1}" y2="{y2:.1}"/>"#)
}

fn write_rect(out: &mut String, class: &str, at: (f64, f64), size: (f64, f64)) -> fmt::Result {
    let ((x, y), (width, height)) = (at, size);
    writeln!(
        out,
        r#"<rect class="{class}" x="{x:.1}" y="{y:.1}" width="{width:.1}" height="{height:.1}"/>"#
    )
}

fn write_text(out: &mut String, (x, y): (f64, f64), class: &str, text: &str) -> fmt::Result {
    let safe = text.replace('&', "&amp;").replace('<', "&lt;").replace('>', "&gt;");
    writeln!(out, r#"<text class="{class}" x="{x:.1}" y="{y:.1}">{safe}</text>"#)
}

#[cfg(test)]
mod tests {
    use super::*;
    use crate::view::history::tests::{of_case, of_case_in};

    fn of(name: &str, input: &[u8]) -> String {
        picture(name, "the peer", &of_case(input)).unwrap()
    }

    /// The legend has one filled marker of its own.
    #[test]
    fn the_samples_of_the_run_are_marked() {
        let picture = of("run-and-tie", include_bytes!("../../../crates/case_run_and_tie/stdin"));
        assert_eq!(picture.matches(r#"class="full""#).count(), 1 + 3);
        let (_, run) = picture.split_once(r#"<polyline class="run" points=""#).unwrap();
        let (points, _) = run.split_once('"').unwrap();
        assert_eq!(points.split_whitespace().count(), 3);
        assert!(picture.contains("OVER: run 5 to 7, sum 53"));
    }

    #[test]
    fn a_residue_picture_has_four_charts_a_year() {
        let input = include_bytes!("../../../crates/check_residue/stdin");
        let history = of_case_in(Category::tested_residue(), input);
        let picture = picture("low", "the peer", &history).unwrap();
        assert!(picture.contains("Charts of low, residue compound 4 (DDT)"));
        assert!(picture.contains("Accredited from the start"));
        assert_eq!(picture.matches(">sample number<").count(), 4);
        assert!(picture.contains("OVER: run 1 to 4, sum 52"));
        assert!(picture.contains(">DDT D (03)<"));
    }

    #[test]
    fn nothing_lies_off_the_page() {
        let picture = of("stretch-full", include_bytes!("../../../crates/case_stretch_full/stdin"));
        for attribute in ["x", "x1", "x2", "cx"] {
            for after in picture.split(&format!(r#" {attribute}=""#)).skip(1) {
                let x: f64 = after.split('"').next().unwrap().parse().unwrap();
                assert!((0.0..=PAGE).contains(&x), "{attribute} {x}");
            }
        }
    }

    #[test]
    fn a_name_is_no_markup() {
        assert!(of("a<b>&c", b"").contains("Charts of a&lt;b&gt;&amp;c"));
    }
}
