//! Growth: the median time of a call against the size of what it works on, ours and the Rust's, as plots in SVG.

use crate::timing::Row;
use crate::{clusters, networks, scripts};
use std::fmt::Write as _;
use std::fs;
use std::io;
use std::path::Path;

/// A plot: its file's name, what it shows, the label of its sizes, and the times at each.
struct Plot {
    file: &'static str,
    title: &'static str,
    sizes: &'static str,
    points: Vec<Point>,
}

/// A size, and the medians in nanoseconds.
struct Point {
    size: usize,
    rust: f64,
    ours: f64,
}

fn point(size: usize, row: &Row) -> Point {
    Point {
        size,
        rust: row.rust.map_or(0.0, |rust| rust.median),
        ours: row.ours.median,
    }
}

/// How often a point is measured: other work on the machine can only lengthen a time, so that the least is taken.
const TURNS: usize = 5;

fn points(sizes: impl IntoIterator<Item = usize>, row: impl Fn(usize) -> Row) -> Vec<Point> {
    let least = |size: usize| {
        let turns = (0..TURNS).map(|_| point(size, &row(size)));
        turns.fold(None, |least: Option<Point>, turn| match least {
            None => Some(turn),
            Some(least) => Some(Point {
                size,
                rust: least.rust.min(turn.rust),
                ours: least.ours.min(turn.ours),
            }),
        })
    };
    sizes.into_iter().filter_map(least).collect()
}

/// Measures and writes every plot into a folder; tells their files.
pub fn write(folder: &Path) -> io::Result<Vec<String>> {
    fs::create_dir_all(folder)?;
    let plots = [
        Plot {
            file: "send.svg",
            title: "a lent send",
            sizes: "messages in flight",
            points: points((8..=120).step_by(8), networks::send),
        },
        Plot {
            file: "batch.svg",
            title: "ten sends and a take in one call",
            sizes: "messages in flight",
            points: points((8..=112).step_by(8), networks::tick),
        },
        Plot {
            file: "tick.svg",
            title: "the properties of 5 plants after a tick, the words lent before",
            sizes: "entries newly committed",
            points: points((0..=128).step_by(8), clusters::new_entries),
        },
        Plot {
            file: "parse.svg",
            title: "parse_script to lent words, in file order",
            sizes: "bytes",
            points: points((1..=16).map(|part| part * 4_096), scripts::of_length),
        },
        Plot {
            file: "rewind.svg",
            title: "a rewind of k sends, 32 in flight before; the Rust puts its copy back",
            sizes: "k",
            points: points((2..=32).step_by(2), networks::rewind_sends),
        },
    ];
    let mut written = Vec::new();
    for plot in plots {
        fs::write(folder.join(plot.file), svg(&plot))?;
        written.push(plot.file.to_string());
    }
    Ok(written)
}

const WIDTH: f64 = 640.0;
const HEIGHT: f64 = 360.0;
const LEFT: f64 = 80.0;
const RIGHT: f64 = 20.0;
const TOP: f64 = 40.0;
const BOTTOM: f64 = 50.0;

/// The first round number of 1, 2 or 5 times a power of ten such that five of them reach a number.
fn step(most: f64) -> f64 {
    let mut unit = 1.0;
    loop {
        for times in [1.0, 2.0, 5.0] {
            if unit * times * 5.0 >= most {
                return unit * times;
            }
        }
        unit *= 10.0;
    }
}

/// The marks of an axis from 0 on.
fn marks(most: f64) -> Vec<f64> {
    let step = step(most);
    (0..=5)
        .map(|place| f64::from(place) * step)
        .take_while(|&mark| mark - step < most)
        .collect()
}

fn svg(plot: &Plot) -> String {
    let largest = plot.points.iter().map(|p| p.size).max().unwrap_or(1) as f64;
    let slowest = plot
        .points
        .iter()
        .fold(1.0, |most: f64, p| most.max(p.rust).max(p.ours));
    let (across, up) = (marks(largest), marks(slowest));
    let (end_across, end_up) = (across[across.len() - 1], up[up.len() - 1]);
    let x = |size: f64| LEFT + (WIDTH - LEFT - RIGHT) * size / end_across;
    let y = |time: f64| HEIGHT - BOTTOM - (HEIGHT - TOP - BOTTOM) * time / end_up;
    let mut text = format!(
        "<svg xmlns=\"http://www.w3.org/2000/svg\" viewBox=\"0 0 {WIDTH} {HEIGHT}\" font-family=\"sans-serif\" font-size=\"12\">\n\
         <rect width=\"{WIDTH}\" height=\"{HEIGHT}\" fill=\"white\"/>\n\
         <text x=\"{LEFT}\" y=\"20\" font-size=\"14\">{}, ns</text>\n",
        plot.title
    );
    for mark in up {
        let at = y(mark);
        let _ = writeln!(
            text,
            "<path d=\"M{LEFT} {at:.1}H{:.1}\" stroke=\"#ddd\"/><text x=\"{:.1}\" y=\"{:.1}\" text-anchor=\"end\">{mark}</text>",
            WIDTH - RIGHT,
            LEFT - 6.0,
            at + 4.0
        );
    }
    for mark in across {
        let at = x(mark);
        let _ = writeln!(
            text,
            "<text x=\"{at:.1}\" y=\"{:.1}\" text-anchor=\"middle\">{mark}</text>",
            HEIGHT - BOTTOM + 18.0
        );
    }
    let _ = writeln!(
        text,
        "<text x=\"{:.1}\" y=\"{:.1}\" text-anchor=\"middle\">{}</text>",
        (LEFT + WIDTH - RIGHT) / 2.0,
        HEIGHT - 10.0,
        plot.sizes
    );
    let sides: [(&str, &str, fn(&Point) -> f64); 2] = [
        ("ours", "#b5541c", |p| p.ours),
        ("the Rust", "#1c5fb5", |p| p.rust),
    ];
    for (place, (name, colour, time)) in sides.into_iter().enumerate() {
        let line: Vec<String> = plot
            .points
            .iter()
            .map(|p| format!("{:.1},{:.1}", x(p.size as f64), y(time(p))))
            .collect();
        let at = TOP + 6.0 + 18.0 * place as f64;
        let _ = writeln!(
            text,
            "<polyline points=\"{}\" fill=\"none\" stroke=\"{colour}\" stroke-width=\"2\"/>\n\
             <text x=\"{:.1}\" y=\"{at:.1}\" fill=\"{colour}\">{name}</text>",
            line.join(" "),
            LEFT + 12.0
        );
    }
    text + "</svg>\n"
}
