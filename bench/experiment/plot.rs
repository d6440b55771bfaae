//! The curves as a picture: for each experiment the number of task sets by total utilisation, all of them and those accepted.

use crate::sets::{Experiment, Tally, RANGES};
use crate::table::grouped;

/// The width and height of one experiment's frame, and the margins around it.
const WIDTH: f64 = 300.0;
const HEIGHT: f64 = 200.0;
const LEFT: f64 = 70.0;
const TOP: f64 = 88.0;
const ACROSS: f64 = WIDTH + 84.0;
const DOWN: f64 = HEIGHT + 84.0;

/// How a curve is drawn: what it counts, its colour, its dashes.
const CURVES: [(&str, &str, &str); 3] = [
    ("TOT: all that may be feasible", "#777777", "none"),
    (
        "RTA: accepted by response-time analysis (Bertogna and Cirinei)",
        "#0b5fa5",
        "none",
    ),
    (
        "BCL: accepted by the test of Bertogna, Cirinei and Lipari",
        "#c4461a",
        "5 3",
    ),
];

/// Where the key's entries begin, left of the picture's middle and right of it.
const KEY_STARTS: [f64; 3] = [-560.0, -318.0, 152.0];

/// The number at or above another that ends a good axis: 1, 2, 4 or 8 and zeros.
fn round_up(number: u64) -> u64 {
    let power = 10u64.pow(number.max(1).ilog10());
    let steps = [1, 2, 4, 8, 10].map(|step| step * power);
    steps
        .into_iter()
        .find(|&step| step >= number)
        .unwrap_or(number)
}

/// A curve's points within a frame.
fn points(counts: &[u64; RANGES], most: u64) -> String {
    let point = |(range, &count): (usize, &u64)| {
        let x = (range as f64 + 0.5) / RANGES as f64 * WIDTH;
        let y = HEIGHT - count as f64 / most as f64 * HEIGHT;
        format!("{x:.1},{y:.1}")
    };
    let all: Vec<String> = counts.iter().enumerate().map(point).collect();
    all.join(" ")
}

/// The lines and numbers along both axes.
fn axes(processors: u64, most: u64) -> String {
    let mut drawn = String::new();
    for step in 0..=4 {
        let y = HEIGHT - HEIGHT * step as f64 / 4.0;
        let count = grouped(most * step / 4);
        drawn +=
            &format!("<line x1=\"0\" y1=\"{y}\" x2=\"{WIDTH}\" y2=\"{y}\" stroke=\"#dddddd\"/>\n");
        drawn += &format!(
            "<text x=\"-6\" y=\"{}\" text-anchor=\"end\">{count}</text>\n",
            y + 4.0
        );
        let x = WIDTH * step as f64 / 4.0;
        let utilisation = processors as f64 * step as f64 / 4.0;
        drawn += &format!(
            "<text x=\"{x}\" y=\"{}\" text-anchor=\"middle\">{utilisation}</text>\n",
            HEIGHT + 16.0
        );
    }
    drawn += &format!(
        "<rect width=\"{WIDTH}\" height=\"{HEIGHT}\" fill=\"none\" stroke=\"#333333\"/>\n"
    );
    drawn += &format!(
        "<text x=\"{}\" y=\"{}\" text-anchor=\"middle\">total utilisation; m = {processors} processors</text>\n",
        WIDTH / 2.0,
        HEIGHT + 34.0
    );
    drawn + &format!("<text transform=\"translate(-54,{}) rotate(-90)\" text-anchor=\"middle\">task sets per 4 % of m</text>\n", HEIGHT / 2.0)
}

/// What the curves count, each beside a stroke of it, in one line around a middle.
fn key(middle: f64) -> String {
    let mut drawn = String::new();
    for (place, (name, colour, dashes)) in CURVES.iter().enumerate() {
        let start = middle + KEY_STARTS[place];
        let end = start + 28.0;
        drawn += &format!(
            "<line x1=\"{start}\" y1=\"42\" x2=\"{end}\" y2=\"42\" stroke=\"{colour}\" stroke-width=\"2\" stroke-dasharray=\"{dashes}\"/>\n"
        );
        drawn += &format!(
            "<text x=\"{}\" y=\"46\" font-size=\"13\">{name}</text>\n",
            end + 6.0
        );
    }
    drawn
}

/// One experiment's frame with its title, axes and curves.
fn frame(place: usize, experiment: &Experiment, tally: &Tally) -> String {
    let x = LEFT + ACROSS * (place % 3) as f64;
    let y = TOP + DOWN * (place / 3) as f64;
    let most = round_up(tally.total.iter().copied().max().unwrap_or(1));
    let mut drawn = format!("<g transform=\"translate({x},{y})\">\n");
    let title = experiment.name();
    drawn += &format!(
        "<text x=\"{}\" y=\"-10\" text-anchor=\"middle\" font-size=\"14\">{title}</text>\n",
        WIDTH / 2.0
    );
    drawn += &axes(experiment.processors, most);
    for (counts, (_, colour, dashes)) in [&tally.total, &tally.rta, &tally.bcl]
        .into_iter()
        .zip(CURVES)
    {
        let points = points(counts, most);
        drawn += &format!("<polyline points=\"{points}\" fill=\"none\" stroke=\"{colour}\" stroke-width=\"2\" stroke-dasharray=\"{dashes}\"/>\n");
    }
    drawn + "</g>\n"
}

/// The whole picture.
pub fn plot(results: &[(Experiment, Tally)]) -> String {
    let (width, height) = (
        LEFT + 2.0 * ACROSS + WIDTH + 24.0,
        TOP + DOWN + HEIGHT + 50.0,
    );
    let frames = results
        .iter()
        .enumerate()
        .map(|(place, (experiment, tally))| frame(place, experiment, tally));
    let frames: String = frames.collect();
    let title = "Task sets by total utilisation: all that may be feasible, and those that each test accepts";
    format!(
        "<svg xmlns=\"http://www.w3.org/2000/svg\" viewBox=\"0 0 {width} {height}\" font-family=\"sans-serif\" font-size=\"11\">\n\
         <rect width=\"{width}\" height=\"{height}\" fill=\"white\"/>\n\
         <text x=\"{}\" y=\"24\" text-anchor=\"middle\" font-size=\"16\">{title}</text>\n{}{frames}</svg>\n",
        width / 2.0,
        key(width / 2.0)
    )
}
