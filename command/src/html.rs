//! Reports as one page without outside parts.
use crate::report::Report;
use crate::words::number;
use std::fmt::Write;

const STYLE: &str = "body{font:15px/1.5 system-ui,sans-serif;color:#1c2733;background:#fff;max-width:62rem;margin:2rem auto;padding:0 1rem}
h1{font-size:1.5rem}h2{font-size:1.1rem;margin:2rem 0 .5rem}p{max-width:46rem;color:#46525e}
table{border-collapse:collapse;font-variant-numeric:tabular-nums;font-size:.85rem}
th,td{padding:.25rem .7rem;border-bottom:1px solid #d8dee4;text-align:right;white-space:nowrap}
th:first-child,td:first-child{text-align:left}.wide{overflow-x:auto}
svg{width:100%;height:auto;font:12px system-ui,sans-serif}svg text{fill:#1c2733}
.a{fill:#2f6f9f}.b{fill:#c8d3dc}.c{fill:#d98e32}.axis{stroke:#9aa7b3;stroke-width:1}
.key span{display:inline-block;width:.8rem;height:.8rem;margin:0 .3rem 0 1rem;vertical-align:-1px}";

/// A bar of a chart: its kind's class, its length from 0 to 1, and what stands behind it.
struct Bar {
    class: &'static str,
    length: f64,
    label: String,
}

/// Text as it stands in a page.
fn escaped(text: &str) -> String {
    text.chars().fold(String::new(), |mut page, letter| {
        match letter {
            '&' => page.push_str("&amp;"),
            '<' => page.push_str("&lt;"),
            '>' => page.push_str("&gt;"),
            '"' => page.push_str("&quot;"),
            other => page.push(other),
        }
        page
    })
}

/// The end of a long name, which tells more than its beginning.
fn short(name: &str) -> String {
    let letters: Vec<char> = name.chars().collect();
    match letters.len() {
        0..=30 => name.to_string(),
        all => format!("…{}", letters[all - 29..].iter().collect::<String>()),
    }
}

/// Groups of bars, a group for each report.
fn chart(groups: &[(String, Vec<Bar>)]) -> String {
    const HEIGHT: usize = 16;
    let (left, width, all) = (220.0, 520.0, 980.0);
    let rows: usize = groups.iter().map(|(_, bars)| bars.len()).sum();
    let height = rows * (HEIGHT + 3) + groups.len() * 10 + 8;
    let mut page = format!("<svg viewBox=\"0 0 {all} {height}\" role=\"img\">\n");
    let mut y = 4;
    for (name, bars) in groups {
        let middle = y + bars.len() * (HEIGHT + 3) / 2 + 4;
        let _ = writeln!(
            page,
            "<text x=\"{}\" y=\"{middle}\" text-anchor=\"end\"><title>{}</title>{}</text>",
            left - 10.0,
            escaped(name),
            escaped(&short(name))
        );
        for bar in bars {
            let long = (bar.length.clamp(0.0, 1.0) * width).max(1.0);
            let _ = writeln!(page, "<rect class=\"{}\" x=\"{left}\" y=\"{y}\" width=\"{long:.1}\" height=\"{HEIGHT}\"/>", bar.class);
            let _ = writeln!(page, "<text x=\"{:.1}\" y=\"{}\">{}</text>", left + long + 6.0, y + 12, escaped(&bar.label));
            y += HEIGHT + 3;
        }
        y += 10;
    }
    let _ = writeln!(page, "<line class=\"axis\" x1=\"{left}\" y1=\"0\" x2=\"{left}\" y2=\"{height}\"/>\n</svg>");
    page
}

fn ratio(value: f64, most: f64) -> f64 {
    if most > 0.0 {
        value / most
    } else {
        0.0
    }
}

/// The place of a number between 1 and the most, by its digits.
fn by_digits(value: u128, most: u128) -> f64 {
    ratio((value as f64 + 1.0).log10(), (most as f64 + 1.0).log10())
}

/// A report's name in a chart: its input, and its job where there are several.
fn name(report: &Report, reports: &[Report]) -> String {
    match reports.iter().all(|other| other.job == report.job) {
        true => report.title(),
        false => format!("{}, {}", report.title(), report.job),
    }
}

fn yields(reports: &[Report]) -> String {
    let bar = |report: &Report| {
        let t = &report.totals;
        let label = format!("{} of 1000: {} of {} attempts", t.yield_(), number(t.accepted), number(t.attempts));
        (name(report, reports), vec![Bar { class: "a", length: t.yield_() as f64 / 1000.0, label }])
    };
    chart(&reports.iter().map(bar).collect::<Vec<_>>())
}

fn lookups_a_base(reports: &[Report]) -> String {
    let exact = |report: &Report| ratio(report.totals.lookups as f64, report.totals.sum_of_w as f64);
    let most = reports.iter().map(exact).fold(0.0, f64::max);
    let bar = |report: &Report| {
        let (each, left) = report.totals.lookups_a_base();
        let label = format!("{:.3} ({each}, and {} left of {})", exact(report), number(left), number(report.totals.sum_of_w));
        (name(report, reports), vec![Bar { class: "a", length: ratio(exact(report), most), label }])
    };
    chart(&reports.iter().map(bar).collect::<Vec<_>>())
}

/// A number of a report, its ceiling, and its need if it was asked for.
type Three = (u64, u128, Option<u64>);

fn beside_ceilings(reports: &[Report], of: impl Fn(&Report) -> Three) -> String {
    let most = reports.iter().map(|report| of(report).1).max().unwrap_or(0);
    let bars = |report: &Report| {
        let (value, ceiling, need) = of(report);
        let bar = |class, value: u128, what: &str| Bar { class, length: by_digits(value, most), label: format!("{what} {}", number(value)) };
        let mut bars = vec![bar("b", ceiling, "ceiling"), bar("a", value.into(), "report")];
        bars.extend(need.map(|need| bar("c", need.into(), "need")));
        (name(report, reports), bars)
    };
    chart(&reports.iter().map(bars).collect::<Vec<_>>())
}

fn table(reports: &[Report]) -> String {
    let mut page = String::from("<div class=\"wide\"><table><tr><th>input</th><th>reads</th><th>kept</th><th>bases</th><th>turns</th><th>lookups</th><th>attempts</th><th>accepted</th><th>yield</th><th>support</th><th>sum of W</th><th>lookups a base</th><th>left</th><th>seconds</th><th>threads</th></tr>\n");
    for report in reports {
        let t = &report.totals;
        let (each, left) = t.lookups_a_base();
        let _ = write!(page, "<tr><td>{}</td>", escaped(&name(report, reports)));
        for value in [t.reads, t.kept, t.bases, t.turns, t.lookups, t.attempts, t.accepted, t.yield_()] {
            let _ = write!(page, "<td>{}</td>", number(value));
        }
        let support = t.support.map_or("–".into(), number);
        let _ = write!(page, "<td>{support}</td><td>{}</td><td>{each}</td><td>{}</td>", number(t.sum_of_w), number(left));
        let _ = writeln!(page, "<td>{:.2}</td><td>{}</td></tr>", report.seconds, report.threads);
    }
    page.push_str("</table></div>\n");
    page
}

fn origins(reports: &[Report]) -> String {
    let mut page = String::from("<div class=\"wide\"><table><tr><th>input</th><th>records</th><th>bytes</th><th>check</th><th>set</th><th>k</th><th>keys</th><th>set's check</th><th>job</th><th>version</th></tr>\n");
    for report in reports {
        let set = &report.set;
        for input in &report.inputs {
            let _ = write!(
                page,
                "<tr><td>{}</td><td>{}</td><td>{}</td><td>{:08x}</td>",
                escaped(&input.file),
                number(input.records),
                number(input.bytes),
                input.check
            );
            let _ = write!(
                page,
                "<td>{}</td><td>{}</td><td>{}</td><td>{:08x}</td>",
                escaped(&set.file),
                set.header.k,
                number(set.header.n as u64),
                set.check
            );
            let _ = writeln!(page, "<td>{}</td><td>{}</td></tr>", report.job, escaped(&report.version));
        }
    }
    page.push_str("</table></div>\n");
    page
}

pub fn page(reports: &[Report]) -> String {
    let key = "<p class=\"key\"><span style=\"background:#c8d3dc\"></span>ceiling<span style=\"background:#2f6f9f\"></span>report<span style=\"background:#d98e32\"></span>need, told beforehand (jobs of one entry)</p>\n";
    let mut page = format!("<!doctype html>\n<html lang=\"en\"><head><meta charset=\"utf-8\"><meta name=\"viewport\" content=\"width=device-width\"><title>Corrected reads</title><style>{STYLE}</style></head><body>\n<h1>Corrected reads</h1>\n");
    page.push_str(&table(reports));
    page.push_str("<h2>Yield</h2>\n<p>Accepted corrections of 1000 attempts.</p>\n");
    page.push_str(&yields(reports));
    page.push_str("<h2>Lookups a base</h2>\n<p>How often the set was asked, for each base beyond the first k, over all passes.</p>\n");
    page.push_str(&lookups_a_base(reports));
    page.push_str("<h2>Lookups beside their ceiling</h2>\n<p>The ceiling is what the worst set with so many keys and the worst reads of these lengths may cost; for a job of several entries that of the costliest one stands for all. Bars go by powers of ten.</p>\n");
    page.push_str(key);
    page.push_str(&beside_ceilings(reports, |report| (report.totals.lookups, report.ceiling().1, report.totals.need.map(|need| need.1))));
    page.push_str("<h2>Turns beside their ceiling</h2>\n<p>A turn looks at one base. Bars go by powers of ten.</p>\n");
    page.push_str(key);
    page.push_str(&beside_ceilings(reports, |report| (report.totals.turns, report.ceiling().0, report.totals.need.map(|need| need.0))));
    page.push_str("<h2>Where it comes from</h2>\n<p>A check is the CRC-32 of a set's bytes, or of an input's text.</p>\n");
    page.push_str(&origins(reports));
    page.push_str("</body></html>\n");
    page
}
