//! A picture of times by numbers, as SVG.

/// Points (number, nanoseconds), joined by a solid and by a dashed line.
pub struct Line {
    pub name: &'static str,
    pub solid: Vec<(f64, f64)>,
    pub dashed: Vec<(f64, f64)>,
}

const WIDTH: f64 = 800.0;
const HEIGHT: f64 = 560.0;
/// The frame's sides.
const LEFT: f64 = 84.0;
const RIGHT: f64 = 780.0;
const TOP: f64 = 20.0;
const BOTTOM: f64 = 500.0;

const COLOURS: [&str; 5] = ["#0072b2", "#d55e00", "#00875a", "#a0479c", "#8a6d00"];

/// Charts one below the other, each of times by the number that it names.
pub fn page(up: &str, charts: &[(&str, Vec<Line>)]) -> String {
    let height = HEIGHT * charts.len() as f64;
    let mut svg = format!(
        r##"<svg xmlns="http://www.w3.org/2000/svg" viewBox="0 0 {WIDTH} {height}" width="{WIDTH}" height="{height}" font-family="sans-serif" font-size="13" fill="#222">
<rect width="{WIDTH}" height="{height}" fill="#fdfdfb"/>
"##
    );
    for (place, (across, lines)) in (0..).zip(charts) {
        let top = HEIGHT * f64::from(place);
        let chart = log_log(across, up, lines);
        svg.push_str(&format!(
            "<g transform=\"translate(0 {top})\">\n{chart}</g>\n"
        ));
    }
    svg.push_str("</svg>\n");
    svg
}

/// Both axes by powers of ten, which the points lie between.
fn log_log(across: &str, up: &str, lines: &[Line]) -> String {
    let points = || {
        lines
            .iter()
            .flat_map(|line| line.solid.iter().chain(&line.dashed))
    };
    let numbers = powers(points().map(|point| point.0));
    let times = powers(points().map(|point| point.1));
    let x = |number: f64| LEFT + (RIGHT - LEFT) * share(number, &numbers);
    let y = |time: f64| BOTTOM - (BOTTOM - TOP) * share(time, &times);

    assert!(lines.len() <= COLOURS.len());
    let mut svg = String::new();
    let mut add = |element: String| {
        svg.push_str(&element);
        svg.push('\n');
    };
    for power in numbers.clone() {
        let at = x(10f64.powi(power));
        add(rule(at, TOP, at, BOTTOM));
        add(text(at, BOTTOM + 18.0, "middle", &number(power)));
    }
    for power in times.clone() {
        let at = y(10f64.powi(power));
        add(rule(LEFT, at, RIGHT, at));
        add(text(LEFT - 8.0, at + 4.0, "end", &duration(power)));
    }
    add(text((LEFT + RIGHT) / 2.0, BOTTOM + 42.0, "middle", across));
    let middle = (TOP + BOTTOM) / 2.0;
    add(format!(
        r#"<text transform="translate(20 {middle}) rotate(-90)" text-anchor="middle">{up}</text>"#
    ));

    for (line, colour) in lines.iter().zip(COLOURS) {
        for (points, dashes) in [(&line.solid, "none"), (&line.dashed, "6 4")] {
            let places = points.iter().map(|&(number, time)| (x(number), y(time)));
            let list: Vec<String> = places
                .clone()
                .map(|(x, y)| format!("{x:.1},{y:.1}"))
                .collect();
            add(stroke(&list.join(" "), colour, dashes));
            for (x, y) in places {
                add(format!(
                    r#"<circle cx="{x:.1}" cy="{y:.1}" r="2.5" fill="{colour}"/>"#
                ));
            }
        }
    }

    // The legend, where a small number takes long: nothing does.
    let mut kinds = vec![("#222", "none", "with the memory")];
    if lines.iter().any(|line| !line.dashed.is_empty()) {
        kinds.push(("#222", "6 4", "without"));
    }
    let names = lines.iter().zip(COLOURS);
    let entries = names.map(|(line, colour)| (colour, "none", line.name));
    add(format!(
        r##"<rect x="{}" y="{}" width="290" height="{}" fill="#fdfdfb" stroke="#bbb"/>"##,
        LEFT + 12.0,
        TOP + 12.0,
        20 * (lines.len() + kinds.len()) + 12
    ));
    for (place, (colour, dashes, name)) in (0..).zip(entries.chain(kinds)) {
        let at = TOP + 28.0 + 20.0 * f64::from(place);
        let ends = format!("{},{at} {},{at}", LEFT + 22.0, LEFT + 58.0);
        add(stroke(&ends, colour, dashes));
        add(text(LEFT + 68.0, at + 4.0, "start", name));
    }
    svg
}

/// The powers of ten from the last one not above all numbers to the first not below any.
fn powers(numbers: impl Iterator<Item = f64> + Clone) -> std::ops::RangeInclusive<i32> {
    let least = numbers.clone().fold(f64::INFINITY, f64::min);
    let greatest = numbers.fold(0.0, f64::max);
    least.log10().floor() as i32..=greatest.log10().ceil() as i32
}

/// How far along the powers a number is, from 0 to 1.
fn share(number: f64, powers: &std::ops::RangeInclusive<i32>) -> f64 {
    let (first, last) = (f64::from(*powers.start()), f64::from(*powers.end()));
    (number.log10() - first) / (last - first)
}

/// A power of ten that is not below 1.
fn number(power: i32) -> String {
    let digits = power.to_string().into_bytes().into_iter();
    let raised = digits
        .map(|digit| ['⁰', '¹', '²', '³', '⁴', '⁵', '⁶', '⁷', '⁸', '⁹'][usize::from(digit - b'0')]);
    format!("10{}", raised.collect::<String>())
}

/// So many nanoseconds, a power of ten.
fn duration(power: i32) -> String {
    let units = ["ns", "µs", "ms", "s"];
    let unit = (power / 3).clamp(0, 3);
    format!("{} {}", 10f64.powi(power - 3 * unit), units[unit as usize])
}

fn rule(x1: f64, y1: f64, x2: f64, y2: f64) -> String {
    format!(r##"<path d="M{x1:.1} {y1:.1}L{x2:.1} {y2:.1}" stroke="#ddd"/>"##)
}

fn stroke(points: &str, colour: &str, dashes: &str) -> String {
    format!(
        r#"<polyline points="{points}" fill="none" stroke="{colour}" stroke-width="1.8" stroke-dasharray="{dashes}"/>"#
    )
}

fn text(x: f64, y: f64, anchor: &str, words: &str) -> String {
    format!(r#"<text x="{x:.1}" y="{y:.1}" text-anchor="{anchor}">{words}</text>"#)
}
