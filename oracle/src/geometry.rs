//! The geometry that the three edits reach, by the supplied Rust, as one call
//! over tokens. Doubles are bit patterns, so that no digit is lost.

use vectormap_core as vm;

use crate::quiet;

/// Name, and what it takes: `d` a double, `n` a whole number, `p` a polyline.
pub const FUNCTIONS: [(&str, &str); 35] = [
    ("add2", "dddd"),
    ("sub2", "dddd"),
    ("scale2", "ddd"),
    ("dot2", "dddd"),
    ("cross2", "dddd"),
    ("norm2", "dd"),
    ("distance2", "dddd"),
    ("normalized2", "dd"),
    ("perp2", "dd"),
    ("lerp2", "ddddd"),
    ("is_finite2", "dd"),
    ("add3", "dddddd"),
    ("sub3", "dddddd"),
    ("scale3", "dddd"),
    ("dot3", "dddddd"),
    ("norm3", "ddd"),
    ("distance3", "dddddd"),
    ("lerp3", "ddddddd"),
    ("is_finite3", "ddd"),
    ("clamp", "ddd"),
    ("abs", "d"),
    ("root", "d"),
    ("hypot", "dd"),
    ("project_on_segment", "dddddd"),
    ("length", "p"),
    ("is_valid", "p"),
    ("stations", "p"),
    ("locate", "dp"),
    ("point_at", "dp"),
    ("point_at_fraction", "dp"),
    ("direction_at", "dp"),
    ("nearest_point", "ddp"),
    ("reversed", "p"),
    ("resample_count", "np"),
    ("centerline", "pp"),
];

#[derive(Debug, Clone, PartialEq)]
pub enum Arg {
    Double(f64),
    Number(u64),
    Polyline(vm::Polyline3),
}

/// A double as 16 hexadecimal digits. NaN payloads are not compared.
pub fn show(v: f64) -> String {
    if v.is_nan() {
        "nan".into()
    } else {
        format!("{:016x}", v.to_bits())
    }
}

fn shows(vs: &[f64]) -> String {
    let vs: Vec<String> = vs.iter().map(|v| show(*v)).collect();
    vs.join(" ")
}

fn shows_points(line: &vm::Polyline3) -> String {
    let mut out = line.points.len().to_string();
    for p in &line.points {
        out.push(' ');
        out.push_str(&shows(&[p.x, p.y, p.z]));
    }
    out
}

fn shows_list(vs: &[f64]) -> String {
    let mut out = vs.len().to_string();
    for v in vs {
        out.push(' ');
        out.push_str(&show(*v));
    }
    out
}

/// An option: 0, or 1 and the value.
fn option(v: Option<String>) -> String {
    v.map_or("0".into(), |s| format!("1 {s}"))
}

fn flag(b: bool) -> String {
    u8::from(b).to_string()
}

/// The answer of one function, `panic` where the Rust panics.
pub fn answer(name: &str, args: &[Arg]) -> String {
    quiet::caught(|| compute(name, args)).unwrap_or_else(|| "panic".into())
}

fn compute(name: &str, args: &[Arg]) -> String {
    let d: Vec<f64> = args
        .iter()
        .filter_map(|a| match a {
            Arg::Double(v) => Some(*v),
            _ => None,
        })
        .collect();
    let lines: Vec<&vm::Polyline3> = args
        .iter()
        .filter_map(|a| match a {
            Arg::Polyline(p) => Some(p),
            _ => None,
        })
        .collect();
    let p2 = |i: usize| vm::Point2::new(d[i], d[i + 1]);
    let p3 = |i: usize| vm::Point3::new(d[i], d[i + 1], d[i + 2]);
    let s2 = |p: vm::Point2| shows(&[p.x, p.y]);
    let s3 = |p: vm::Point3| shows(&[p.x, p.y, p.z]);
    match name {
        "add2" => s2(p2(0) + p2(2)),
        "sub2" => s2(p2(0) - p2(2)),
        "scale2" => s2(p2(0) * d[2]),
        "dot2" => show(p2(0).dot(p2(2))),
        "cross2" => show(p2(0).cross(p2(2))),
        "norm2" => show(p2(0).norm()),
        "distance2" => show(p2(0).distance(p2(2))),
        "normalized2" => option(p2(0).normalized().map(s2)),
        "perp2" => s2(p2(0).perp()),
        "lerp2" => s2(p2(0).lerp(p2(2), d[4])),
        "is_finite2" => flag(p2(0).is_finite()),
        "add3" => s3(p3(0) + p3(3)),
        "sub3" => s3(p3(0) - p3(3)),
        "scale3" => s3(p3(0) * d[3]),
        "dot3" => show(p3(0).dot(p3(3))),
        "norm3" => show(p3(0).norm()),
        "distance3" => show(p3(0).distance(p3(3))),
        "lerp3" => s3(p3(0).lerp(p3(3), d[6])),
        "is_finite3" => flag(p3(0).is_finite()),
        "clamp" => show(d[0].clamp(d[1], d[2])),
        "abs" => show(d[0].abs()),
        "root" => show(d[0].sqrt()),
        "hypot" => show(vm::root_of_squares(d[0], d[1])),
        "project_on_segment" => show(vm::project_on_segment(p2(0), p2(2), p2(4))),
        // The sign of an empty sum is not compared; it is shown as +0.
        "length" if lines[0].points.len() < 2 => show(lines[0].length().abs()),
        "length" => show(lines[0].length()),
        "is_valid" => flag(lines[0].is_valid()),
        "stations" => shows_list(&lines[0].stations()),
        "locate" => option(
            lines[0]
                .oracle_locate(d[0])
                .map(|(i, t)| format!("{i} {}", show(t))),
        ),
        "point_at" => option(lines[0].point_at(d[0]).map(s3)),
        "point_at_fraction" => option(lines[0].point_at_fraction(d[0]).map(s3)),
        "direction_at" => option(lines[0].direction_at(d[0]).map(s2)),
        "nearest_point" => option(lines[0].nearest_point(p2(0)).map(|n| {
            format!(
                "{} {} {} {} {}",
                s3(n.point),
                show(n.distance),
                show(n.station),
                n.segment,
                show(n.lateral)
            )
        })),
        "reversed" => shows_points(&lines[0].reversed()),
        "resample_count" => {
            let Some(Arg::Number(count)) = args.first() else {
                unreachable!("a count comes first")
            };
            shows_points(&lines[0].resample_count(*count as usize))
        }
        "centerline" => {
            option(vm::Polyline3::centerline(lines[0], lines[1]).map(|c| shows_points(&c)))
        }
        _ => panic!("no function {name}"),
    }
}
