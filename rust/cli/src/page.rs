//! The site sheet as a page of its own, to be printed or hung up: HTML that needs nothing else, neither scripts nor the network. Bars and
//! scales are drawn, not backgrounds, since browsers leave backgrounds away when they print.

use super::{
    picture::{Picture, RAMP},
    png,
    sheet::{share, Axis, Outcome, Site, OTHER_GRIDS},
    show::{counted, grouped, plain},
};

/// The room of the picture, in millimetres.
const WIDE: f64 = 140.0;
const HIGH: f64 = 80.0;

const STYLE: &str = "\
@page { size: A4; margin: 12mm }
* { box-sizing: border-box }
body { max-width: 186mm; margin: 8mm auto; padding: 0 2mm; font: 10.5pt/1.35 'DejaVu Sans', 'Liberation Sans', Arial, sans-serif; color: #1c1c1c; background: #fff }
h1 { font-size: 20pt; margin: 0 } h2 { font-size: 11.5pt; margin: 3.5mm 0 1mm; border-bottom: 0.3mm solid #888; padding-bottom: 0.6mm }
.totals { display: flex; gap: 10mm; margin: 2mm 0 0 } .totals div { font-size: 9pt; color: #444 } .totals b { display: block; font-size: 17pt; color: #1c1c1c }
.bad b { color: #9c1c00 }
figure { margin: 4mm 0 0; display: flex; gap: 5mm; align-items: flex-start } figure img { border: 0.3mm solid #888; image-rendering: pixelated; display: block }
.legend { font-size: 8.5pt; color: #333 } .legend svg, .scale { display: block } .note { font-size: 8.5pt; color: #444; margin: 1mm 0 0 }
.two { display: grid; grid-template-columns: 105mm 1fr; gap: 0 7mm }
table { border-collapse: collapse; width: 100%; font-size: 9pt } th { text-align: left; font-weight: normal; color: #555; font-size: 8.5pt }
td, th { padding: 0.25mm 2mm 0.25mm 0; vertical-align: baseline } .n { text-align: right; white-space: nowrap; font-variant-numeric: tabular-nums }
td.bar { width: 99%; min-width: 18mm; padding-right: 3mm } td.bar svg { display: block; width: 100%; height: 2.6mm }
tr.sum td { border-top: 0.2mm solid #888; font-weight: bold } td.class { white-space: nowrap } td.name { overflow-wrap: anywhere; min-width: 50mm } tr { break-inside: avoid }
h2 { break-after: avoid } section, figure { break-inside: avoid } section.long { break-inside: auto }
@media print { body { margin: 0; padding: 0; max-width: none } }
";

/// The page.
pub(crate) fn of(site: &Site, picture: Option<&Picture>) -> String {
    let mut page = String::from(
        "<!DOCTYPE html>\n<html lang=\"en\">\n<head>\n<meta charset=\"utf-8\">\n<meta name=\"viewport\" content=\"width=820\">\n<title>Site sheet</title>\n<style>\n",
    );
    page.push_str(STYLE);
    page.push_str("</style>\n</head>\n<body>\n<h1>Site sheet</h1>\n");
    page.push_str(&totals(site));
    match picture {
        Some(picture) => page.push_str(&figure(site, picture)),
        None => page.push_str(
            "<p class=\"note\">There are no points with a place, so there is no picture.</p>\n",
        ),
    }
    page.push_str("<div class=\"two\">\n");
    page.push_str(&classes(site));
    page.push_str(&returns(site));
    page.push_str("</div>\n");
    page.push_str(&bounds(site));
    page.push_str(&refused(site));
    page.push_str(&files(site));
    page.push_str("</body>\n</html>\n");
    page
}

/// Somebody else's text, which stays text.
fn escaped(text: &str) -> String {
    let mut to = String::new();
    for c in plain(text).chars() {
        match c {
            '&' => to.push_str("&amp;"),
            '<' => to.push_str("&lt;"),
            '>' => to.push_str("&gt;"),
            '"' => to.push_str("&quot;"),
            c => to.push(c),
        }
    }
    to
}

fn totals(site: &Site) -> String {
    let mut totals = String::from("<div class=\"totals\">");
    let mut total = |class: &str, number: u64, what: &str| {
        let (number, what) = (
            grouped(number),
            if number == 1 {
                what.to_string()
            } else {
                format!("{what}s")
            },
        );
        totals.push_str(&format!("<div{class}><b>{number}</b>{what}</div>"));
    };
    total("", site.sheet.points(), "point");
    total("", site.sheet.files(), "file");
    if site.refused() > 0 {
        total(" class=\"bad\"", site.refused(), "refused file");
    }
    if site.unread() > 0 {
        total(" class=\"bad\"", site.unread(), "unread file");
    }
    totals.push_str("</div>\n");
    totals
}

/// The picture with its heights and its scale.
fn figure(site: &Site, picture: &Picture) -> String {
    let (width, height) = (f64::from(picture.width), f64::from(picture.height));
    let pixel = (WIDE / width).min(HIGH / height);
    let (wide, high) = (width * pixel, height * pixel);
    let image = png::base64(&picture.png);
    let mut figure = format!(
        "<figure><div><img alt=\"the site from above, by height\" style=\"width:{wide:.2}mm;height:{high:.2}mm\" \
         src=\"data:image/png;base64,{image}\">\n"
    );
    // In one grid a length means the same everywhere.
    if site.grid().is_some() && picture.cell > 0.0 {
        figure.push_str(&scale_bar(wide, pixel / picture.cell));
    }
    figure.push_str(&format!("</div>{}</figure>\n", legend(picture)));
    let mut note = format!(
        "From above, Y upwards; heights and lengths in the files' own units. Each of {} by {} cells",
        grouped(picture.width.into()),
        grouped(picture.height.into())
    );
    if picture.cell > 0.0 {
        note.push_str(&format!(", {} wide,", length(picture.cell)));
    }
    note.push_str(
        " has the colour of its highest point; a single one without points has that of the cells around it, and white ones have none.",
    );
    if picture.left_out > 0 {
        note.push_str(&format!(
            " {} could not be drawn.",
            counted(picture.left_out, "file")
        ));
    }
    figure.push_str(&format!("<p class=\"note\">{note}</p>\n"));
    figure
}

/// A bar of a round length, at most a third of the picture, where one unit is so many millimetres.
fn scale_bar(wide: f64, unit: f64) -> String {
    let most = wide / 3.0 / unit;
    let power = 10_f64.powf(most.log10().floor());
    let round = [5.0, 2.0]
        .into_iter()
        .find(|n| n * power <= most)
        .unwrap_or(1.0)
        * power;
    let drawn = round * unit;
    if !drawn.is_normal() {
        return String::new();
    }
    let (end, all) = (drawn + 0.5, drawn + 30.0);
    format!(
        "<svg class=\"scale\" width=\"{all:.2}mm\" height=\"6mm\" viewBox=\"0 0 {all:.2} 6\" role=\"img\" aria-label=\"scale\">\
         <path d=\"M0.5 1.5V4.5M0.5 3H{end:.2}M{end:.2} 1.5V4.5\" stroke=\"#1c1c1c\" stroke-width=\"0.4\" fill=\"none\"/>\
         <text x=\"{:.2}\" y=\"4\" font-size=\"3.2\">{}</text></svg>\n",
        end + 1.5,
        length(round)
    )
}

/// Which colour is which height.
fn legend(picture: &Picture) -> String {
    let stops: Vec<String> = RAMP
        .iter()
        .enumerate()
        .map(|(place, [r, g, b])| {
            let at = place as f64 / (RAMP.len() - 1) as f64;
            format!("<stop offset=\"{at:.4}\" stop-color=\"#{r:02x}{g:02x}{b:02x}\"/>")
        })
        .collect();
    let range = picture.high - picture.low;
    let (above, below) = match picture.outliers {
        true => (" and above", " and below"),
        false => ("", ""),
    };
    let mut labels = String::new();
    let mut heights: Vec<(f64, &str)> = vec![
        (1.0, above),
        (0.75, ""),
        (0.5, ""),
        (0.25, ""),
        (0.0, below),
    ];
    if range <= 0.0 {
        heights = vec![(0.5, "")];
    }
    for (part, words) in heights {
        let y = 3.0 + 42.0 * (1.0 - part);
        let z = rounded(picture.low + range * part, range);
        labels.push_str(&format!(
            "<path d=\"M6 {y:.2}H8\" stroke=\"#1c1c1c\" stroke-width=\"0.25\"/><text x=\"9\" y=\"{:.2}\" font-size=\"3\">{z}{words}</text>",
            y + 1.0
        ));
    }
    format!(
        "<div class=\"legend\">height (z)<svg width=\"41mm\" height=\"48mm\" viewBox=\"0 0 41 48\" role=\"img\" aria-label=\"heights\">\
         <defs><linearGradient id=\"z\" x1=\"0\" y1=\"1\" x2=\"0\" y2=\"0\">{}</linearGradient></defs>\
         <rect x=\"0.2\" y=\"3\" width=\"6\" height=\"42\" fill=\"url(#z)\" stroke=\"#888\" stroke-width=\"0.2\"/>{labels}</svg></div>",
        stops.concat()
    )
}

/// A number with as many places as a hundredth of the range has.
fn rounded(number: f64, range: f64) -> String {
    let places = match range.abs().log10().floor() {
        size if size.is_finite() => (2.0 - size).clamp(0.0, 9.0) as usize,
        _ => 2,
    };
    format!("{number:.places$}")
}

/// The same of a length, without zeros at its end.
fn length(number: f64) -> String {
    let text = rounded(number, number);
    match text.contains('.') {
        true => text.trim_end_matches('0').trim_end_matches('.').to_string(),
        false => text,
    }
}

/// A row with a bar: `most` is the longest.
fn row(name: &str, points: u64, most: u64, all: u64) -> String {
    let width = points as f64 / most.max(1) as f64 * 100.0;
    let width = if points > 0 { width.max(0.6) } else { 0.0 };
    format!(
        "<tr>{name}<td class=\"bar\"><svg preserveAspectRatio=\"none\" viewBox=\"0 0 100 10\" aria-hidden=\"true\">\
         <rect width=\"{width:.2}\" height=\"10\" fill=\"#4a6f8a\"/></svg></td><td class=\"n\">{}</td><td class=\"n\">{}</td></tr>\n",
        grouped(points),
        share(points, all)
    )
}

/// The row of the sum.
fn sum(columns: usize, all: u64) -> String {
    format!(
        "<tr class=\"sum\"><td colspan=\"{columns}\">total</td><td class=\"n\">{}</td><td class=\"n\">{}</td></tr>\n</table></section>\n",
        grouped(all),
        share(all, all)
    )
}

fn classes(site: &Site) -> String {
    let all = site.sheet.points();
    let most = site.sheet.classes().iter().copied().max().unwrap_or(0);
    let mut text = String::from("<section><h2>Points by class</h2><table>\n");
    for (class, name, points) in site.classes() {
        let name = format!(
            "<td class=\"n\">{class}</td><td class=\"class\">{}</td>",
            escaped(name)
        );
        text.push_str(&row(&name, points, most, all));
    }
    text + &sum(3, all)
}

fn returns(site: &Site) -> String {
    let all = site.sheet.points();
    let most = site.sheet.returns().iter().copied().max().unwrap_or(0);
    let mut text = String::from("<section><h2>Points by return</h2><table>\n");
    for (number, points) in site.returns() {
        text.push_str(&row(
            &format!("<td class=\"n\">{number}</td>"),
            points,
            most,
            all,
        ));
    }
    text + &sum(2, all)
}

fn bounds(site: &Site) -> String {
    let mut text = String::from("<section><h2>Smallest and largest</h2>");
    let axes = match site.axes() {
        Some(axes) => axes,
        None => {
            return text
                + "<p class=\"note\">There are no points, so there are none.</p></section>\n"
        }
    };
    let one_grid = axes.iter().all(|axis| axis.scaled.is_some());
    let scaled = match one_grid {
        true => "<th class=\"n\">smallest, scaled</th><th class=\"n\">largest, scaled</th>",
        false => "",
    };
    text.push_str(&format!(
        "<table><tr><th></th><th class=\"n\">smallest, as stored</th><th class=\"n\">largest, as stored</th>{scaled}</tr>\n"
    ));
    for Axis {
        name,
        stored,
        scaled,
    } in &axes
    {
        text.push_str(&format!("<tr><td>{name}</td>"));
        let numbers = stored.iter().map(i32::to_string);
        let scaled = scaled.iter().flatten().filter(|_| one_grid).cloned();
        for number in numbers.chain(scaled) {
            text.push_str(&format!("<td class=\"n\">{number}</td>"));
        }
        text.push_str("</tr>\n");
    }
    text.push_str("</table>");
    if site.grid().is_none() {
        text.push_str(&format!("<p class=\"note\">{OTHER_GRIDS}</p>"));
    }
    text + "</section>\n"
}

fn files(site: &Site) -> String {
    let mut text = String::from(
        "<section class=\"long\"><h2>Files</h2><table><tr><th>file</th><th>LAS</th><th>format</th><th>created</th><th class=\"n\">points</th></tr>\n",
    );
    for (name, taken) in site.taken() {
        text.push_str(&format!(
            "<tr><td class=\"name\">{}</td><td>{}</td><td>{}</td><td>{}</td><td class=\"n\">{}</td></tr>\n",
            escaped(name.exact()),
            taken.version,
            taken.format,
            taken.created.as_deref().unwrap_or(""),
            grouped(taken.points)
        ));
    }
    text + "</table></section>\n"
}

/// What adds nothing to the sheet, and why.
fn refused(site: &Site) -> String {
    let mut text = String::new();
    for (name, outcome) in &site.files {
        let why = match outcome {
            Outcome::Counted(_) => continue,
            Outcome::Refused(refusal) => {
                format!(
                    "{} (refusal {}): {refusal}",
                    refusal.name(),
                    refusal.number()
                )
            }
            Outcome::Unread(words) => format!("could not be read: {words}"),
        };
        text.push_str(&format!(
            "<tr><td class=\"name\">{}</td><td>{}</td></tr>\n",
            escaped(name.exact()),
            escaped(&why)
        ));
    }
    match text.is_empty() {
        true => text,
        false => format!(
            "<section class=\"long\"><h2>Refused files, which add nothing</h2><table>\n{text}</table></section>\n"
        ),
    }
}

#[cfg(test)]
mod tests {
    use super::*;

    #[test]
    fn what_others_wrote_stays_text() {
        assert_eq!(
            escaped("<a href=\"x\">&\x1b"),
            "&lt;a href=&quot;x&quot;&gt;&amp;\u{fffd}"
        );
    }

    #[test]
    fn numbers_of_a_legend() {
        let shown = [
            (112.34567, 7.4),
            (112.3, 7.4),
            (112.34567, 742.0),
            (-3.0, 0.0),
        ];
        let heights = shown.map(|(number, range)| rounded(number, range));
        assert_eq!(heights, ["112.35", "112.30", "112", "-3.00"]);
        let lengths = [0.5, 20.0, 0.767, 1_234.56, 0.1].map(length);
        assert_eq!(lengths, ["0.5", "20", "0.767", "1235", "0.1"]);
    }

    #[test]
    fn a_scale_of_a_round_length() {
        // A unit is 4 mm, so that a third of the picture's 150 mm are 12.5 units.
        let bar = scale_bar(150.0, 4.0);
        assert!(
            bar.contains(">10</text>") && bar.contains("H40.50"),
            "{bar}"
        );
        assert!(scale_bar(150.0, 0.5).contains(">100</text>"));
        assert!(scale_bar(150.0, 0.15).contains(">200</text>"));
        assert!(scale_bar(150.0, 400.0).contains(">0.1</text>"));
        assert_eq!(scale_bar(150.0, f64::INFINITY), "");
    }
}
