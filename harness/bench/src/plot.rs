//! The plot: time against N for both series, both axes logarithmic, as SVG. It
//! shows the shortest times, which other work on the machine disturbs least.

use std::fmt::Write;

use crate::measure::Measured;
use crate::peers::Kind;
use crate::table::seconds;
use crate::workloads::Series;

const WIDTH: f64 = 1_080.0;
const HEIGHT: f64 = 575.0;
const PANEL_WIDTH: f64 = 450.0;
const PANEL_HEIGHT: f64 = 400.0;
const PANEL_TOP: f64 = 55.0;
const PANEL_LEFTS: [f64; 2] = [95.0, 612.0];
const LEGEND_TOP: f64 = 535.0;

/// A logarithmic axis: the values at its two ends, and where those are drawn.
struct Axis {
    least: f64,
    most: f64,
    from: f64,
    to: f64,
}

impl Axis {
    fn at(&self, value: f64) -> f64 {
        let share = (value / self.least).ln() / (self.most / self.least).ln();
        self.from + share * (self.to - self.from)
    }
}

/// A peer's line: colours that differ for colour-blind readers too, and a shape
/// for each.
struct Look {
    colour: &'static str,
    dash: &'static str,
    shape: Shape,
}

enum Shape {
    Circle,
    Ring,
    Square,
    Diamond,
    Triangle,
    Cross,
}

fn look(kind: Kind) -> Look {
    let (colour, dash, shape) = match kind {
        Kind::Korrigwen => ("#0072b2", "none", Shape::Circle),
        Kind::Scan => ("#333333", "5 4", Shape::Ring),
        Kind::TreeTracker => ("#009e73", "none", Shape::Square),
        Kind::Binary => ("#d55e00", "none", Shape::Triangle),
        Kind::Yannakakis => ("#cc79a7", "none", Shape::Diamond),
        Kind::Sqlite => ("#b8860b", "none", Shape::Cross),
    };
    Look {
        colour,
        dash,
        shape,
    }
}

pub fn write(kinds: &[Kind], measured: &[Measured]) -> String {
    let mut svg = format!(
        "<svg xmlns=\"http://www.w3.org/2000/svg\" viewBox=\"0 0 {WIDTH} {HEIGHT}\" \
         width=\"{WIDTH}\" height=\"{HEIGHT}\" font-family=\"Helvetica, Arial, sans-serif\" \
         font-size=\"13\" fill=\"#222222\">\n\
         <rect width=\"{WIDTH}\" height=\"{HEIGHT}\" fill=\"#ffffff\"/>\n"
    );
    let of_series = |series| measured.iter().filter(move |m| m.series == Some(series));
    let times = Series::ALL.into_iter().flat_map(of_series);
    let times = times.flat_map(|m| m.results.iter().map(|result| result.shortest));
    let (least, most) = decades(times);
    for (series, left) in Series::ALL.into_iter().zip(PANEL_LEFTS) {
        let points: Vec<&Measured> = of_series(series).collect();
        if let (Some(first), Some(last)) = (points.first(), points.last()) {
            let panel = Panel {
                x: Axis {
                    least: first.n as f64 / 1.15,
                    most: last.n as f64 * 1.15,
                    from: left,
                    to: left + PANEL_WIDTH,
                },
                y: Axis {
                    least,
                    most,
                    from: PANEL_TOP + PANEL_HEIGHT,
                    to: PANEL_TOP,
                },
            };
            svg += &panel.draw(series, kinds, &points);
        }
    }
    svg + &time_label() + &legend(kinds) + "</svg>\n"
}

/// Both panels have the same scale of times, so it is named once.
fn time_label() -> String {
    format!(
        "<text transform=\"translate(24 {}) rotate(-90)\" text-anchor=\"middle\">shortest time of one join \
         (logarithmic)</text>\n",
        PANEL_TOP + PANEL_HEIGHT / 2.0
    )
}

/// The powers of ten around the given times.
fn decades(times: impl Iterator<Item = f64> + Clone) -> (f64, f64) {
    let least = times.clone().fold(f64::INFINITY, f64::min);
    let most = times.fold(0.0, f64::max);
    (
        10_f64.powf(least.log10().floor()),
        10_f64.powf(most.log10().ceil()),
    )
}

struct Panel {
    x: Axis,
    y: Axis,
}

impl Panel {
    fn draw(&self, series: Series, kinds: &[Kind], points: &[&Measured]) -> String {
        let mut svg = self.frame(series);
        svg += &self.time_scale();
        svg += &self.n_scale(points);
        for &kind in kinds.iter().rev() {
            let ran = points
                .iter()
                .filter_map(|m| Some((m.n, m.of(kind)?.shortest)));
            let places = ran.map(|(n, time)| (self.x.at(n as f64), self.y.at(time)));
            svg += &line(&look(kind), &places.collect::<Vec<_>>());
        }
        svg
    }

    fn frame(&self, series: Series) -> String {
        let title = match series {
            Series::Example => "Paper 001, Example 1.1",
            Series::Diamond => "Document 002, acyclic diamond query",
        };
        let middle = (self.x.from + self.x.to) / 2.0;
        format!(
            "<text x=\"{middle}\" y=\"{}\" text-anchor=\"middle\" font-size=\"16\" \
             font-weight=\"bold\">{title}</text>\n\
             <rect x=\"{}\" y=\"{PANEL_TOP}\" width=\"{PANEL_WIDTH}\" height=\"{PANEL_HEIGHT}\" \
             fill=\"none\" stroke=\"#888888\"/>\n\
             <text x=\"{middle}\" y=\"{}\" text-anchor=\"middle\">N (logarithmic)</text>\n",
            PANEL_TOP - 18.0,
            self.x.from,
            self.y.from + 42.0,
        )
    }

    /// A line and a label at each power of ten.
    fn time_scale(&self) -> String {
        let mut svg = String::new();
        let mut time = self.y.least;
        while time < self.y.most * 1.01 {
            let y = self.y.at(time);
            let _ = write!(
                svg,
                "<line x1=\"{:.1}\" x2=\"{:.1}\" y1=\"{y:.1}\" y2=\"{y:.1}\" stroke=\"#dddddd\"/>\n\
                 <text x=\"{:.1}\" y=\"{:.1}\" text-anchor=\"end\">{}</text>\n",
                self.x.from,
                self.x.to,
                self.x.from - 8.0,
                y + 4.0,
                round_time(time),
            );
            time *= 10.0;
        }
        svg
    }

    /// A line and a label at each N that was measured.
    fn n_scale(&self, points: &[&Measured]) -> String {
        let mut svg = String::new();
        for n in points.iter().map(|measured| measured.n) {
            let x = self.x.at(n as f64);
            let _ = write!(
                svg,
                "<line x1=\"{x:.1}\" x2=\"{x:.1}\" y1=\"{:.1}\" y2=\"{:.1}\" stroke=\"#eeeeee\"/>\n\
                 <text x=\"{x:.1}\" y=\"{:.1}\" text-anchor=\"middle\">{n}</text>\n",
                self.y.from,
                self.y.to,
                self.y.from + 20.0,
            );
        }
        svg
    }
}

/// A power of ten of a second, without its decimals.
fn round_time(time: f64) -> String {
    let exact = 10_f64.powi(time.log10().round() as i32) * 1.000_001;
    seconds(exact).replace(".00", "").replace(".0", "")
}

fn line(look: &Look, places: &[(f64, f64)]) -> String {
    let path: Vec<String> = places
        .iter()
        .map(|(x, y)| format!("{x:.1},{y:.1}"))
        .collect();
    let mut svg = format!(
        "<polyline points=\"{}\" fill=\"none\" stroke=\"{}\" stroke-width=\"2.2\" \
         stroke-dasharray=\"{}\"/>\n",
        path.join(" "),
        look.colour,
        look.dash,
    );
    for &(x, y) in places {
        svg += &mark(look, x, y);
    }
    svg
}

fn mark(look: &Look, x: f64, y: f64) -> String {
    let colour = look.colour;
    let polygon = |corners: &[(f64, f64)]| {
        let points: Vec<String> = corners
            .iter()
            .map(|(dx, dy)| format!("{:.1},{:.1}", x + dx, y + dy))
            .collect();
        format!(
            "<polygon points=\"{}\" fill=\"{colour}\"/>\n",
            points.join(" ")
        )
    };
    match look.shape {
        Shape::Circle => {
            format!("<circle cx=\"{x:.1}\" cy=\"{y:.1}\" r=\"4.5\" fill=\"{colour}\"/>\n")
        }
        Shape::Ring => format!(
            "<circle cx=\"{x:.1}\" cy=\"{y:.1}\" r=\"5\" fill=\"#ffffff\" stroke=\"{colour}\" \
             stroke-width=\"1.8\"/>\n"
        ),
        Shape::Square => polygon(&[(-4.0, -4.0), (4.0, -4.0), (4.0, 4.0), (-4.0, 4.0)]),
        Shape::Diamond => polygon(&[(0.0, -5.5), (5.5, 0.0), (0.0, 5.5), (-5.5, 0.0)]),
        Shape::Triangle => polygon(&[(0.0, -5.5), (5.2, 4.0), (-5.2, 4.0)]),
        Shape::Cross => format!(
            "<path d=\"M{:.1} {:.1}l9 9m0 -9l-9 9\" stroke=\"{colour}\" stroke-width=\"2.4\"/>\n",
            x - 4.5,
            y - 4.5
        ),
    }
}

/// All peers in one row below the panels.
fn legend(kinds: &[Kind]) -> String {
    let width = |kind: &Kind| 62.0 + 7.0 * kind.name().len() as f64;
    let total: f64 = kinds.iter().map(width).sum();
    let mut left = (WIDTH - total) / 2.0;
    let mut svg = String::new();
    for kind in kinds {
        let ends = [(left, LEGEND_TOP), (left + 34.0, LEGEND_TOP)];
        let look = look(*kind);
        svg += &line(&look, &ends).lines().take(1).collect::<String>();
        svg += &mark(&look, left + 17.0, LEGEND_TOP);
        let _ = writeln!(
            svg,
            "<text x=\"{:.1}\" y=\"{:.1}\">{}</text>",
            left + 41.0,
            LEGEND_TOP + 4.5,
            kind.name()
        );
        left += width(kind);
    }
    svg
}
