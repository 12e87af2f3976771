//! The exported geometry calls (include/lane_map_geometry.h) by their names, and what 01 and the Rust say they answer.

use oracle::geometry::{Arg, answer, show};
use vectormap_core::geometry::{Point3, Polyline3};

mod c {
    unsafe extern "C" {
        pub fn geometry_distance2(ax: f64, ay: f64, bx: f64, by: f64, out: *mut f64) -> u64;
        pub fn geometry_distance3(
            ax: f64,
            ay: f64,
            az: f64,
            bx: f64,
            by: f64,
            bz: f64,
            out: *mut f64,
        ) -> u64;
        pub fn geometry_lerp(
            ax: f64,
            ay: f64,
            az: f64,
            bx: f64,
            by: f64,
            bz: f64,
            t: f64,
            out: *mut f64,
        ) -> u64;
        pub fn geometry_project_on_segment(
            px: f64,
            py: f64,
            ax: f64,
            ay: f64,
            bx: f64,
            by: f64,
            out: *mut f64,
        ) -> u64;
        pub fn geometry_flat(px: f64, py: f64, pz: f64, out: *mut f64) -> u64;
        pub fn geometry_sub2(ax: f64, ay: f64, bx: f64, by: f64, out: *mut f64) -> u64;
        pub fn geometry_scale2(ax: f64, ay: f64, t: f64, out: *mut f64) -> u64;
        pub fn geometry_dot(ax: f64, ay: f64, bx: f64, by: f64, out: *mut f64) -> u64;
        pub fn geometry_cross(ax: f64, ay: f64, bx: f64, by: f64, out: *mut f64) -> u64;
        pub fn geometry_norm2(ax: f64, ay: f64, out: *mut f64) -> u64;
        pub fn geometry_normalized(ax: f64, ay: f64, out: *mut f64) -> u64;
        pub fn geometry_perp(ax: f64, ay: f64, out: *mut f64) -> u64;
        pub fn geometry_add3(
            ax: f64,
            ay: f64,
            az: f64,
            bx: f64,
            by: f64,
            bz: f64,
            out: *mut f64,
        ) -> u64;
        pub fn geometry_sub3(
            ax: f64,
            ay: f64,
            az: f64,
            bx: f64,
            by: f64,
            bz: f64,
            out: *mut f64,
        ) -> u64;
        pub fn geometry_scale3(ax: f64, ay: f64, az: f64, t: f64, out: *mut f64) -> u64;
        pub fn geometry_norm3(ax: f64, ay: f64, az: f64, out: *mut f64) -> u64;
        pub fn geometry_length(cs: *const f64, len: usize, out: *mut f64) -> u64;
        pub fn geometry_is_valid(cs: *const f64, len: usize, valid: *mut u64) -> u64;
        pub fn geometry_locate(
            cs: *const f64,
            len: usize,
            s: f64,
            fraction: *mut f64,
            segment: *mut u64,
        ) -> u64;
        pub fn geometry_point_at(cs: *const f64, len: usize, s: f64, out: *mut f64) -> u64;
        pub fn geometry_point_at_fraction(cs: *const f64, len: usize, t: f64, out: *mut f64)
        -> u64;
        pub fn geometry_direction_at(cs: *const f64, len: usize, s: f64, out: *mut f64) -> u64;
        pub fn geometry_nearest_point(
            cs: *const f64,
            len: usize,
            px: f64,
            py: f64,
            out: *mut f64,
            segment: *mut u64,
        ) -> u64;
        pub fn geometry_stations(cs: *const f64, len: usize, out: *mut f64, count: *mut u64)
        -> u64;
        pub fn geometry_reversed(cs: *const f64, len: usize, out: *mut f64, count: *mut u64)
        -> u64;
        pub fn geometry_resample_count(
            cs: *const f64,
            len: usize,
            n: usize,
            out: *mut f64,
            count: *mut u64,
        ) -> u64;
        pub fn geometry_centerline(
            left: *const f64,
            left_len: usize,
            right: *const f64,
            right_len: usize,
            out: *mut f64,
            count: *mut u64,
        ) -> u64;
    }
}

/// The result where there is no answer.
pub const NO_ANSWER: u64 = 254;

/// How an answer stands in the lent arrays: numbers; a flag; fraction and segment; six numbers and segment; points; stations.
#[derive(Clone, Copy, PartialEq)]
pub enum Shape {
    Numbers(usize),
    Flag,
    Location,
    Nearest,
    Points,
    Stations,
}

/// A call: its name here and the oracle's; what it takes (`c` a coordinate, `m` a station, fraction or factor, `n` a count,
/// `p` a polyline); how it answers, and whether it may have no answer.
pub struct Call {
    pub name: &'static str,
    oracle: &'static str,
    pub takes: &'static str,
    shape: Shape,
    perhaps: bool,
}

const fn call(
    name: &'static str,
    oracle: &'static str,
    takes: &'static str,
    shape: Shape,
    perhaps: bool,
) -> Call {
    Call {
        name,
        oracle,
        takes,
        shape,
        perhaps,
    }
}

use Shape::{Flag, Location, Nearest, Numbers, Points, Stations};

pub const CALLS: [Call; 27] = [
    call("distance2", "distance2", "cccc", Numbers(1), false),
    call("distance3", "distance3", "cccccc", Numbers(1), false),
    call("lerp", "lerp3", "ccccccm", Numbers(3), false),
    call(
        "project_on_segment",
        "project_on_segment",
        "cccccc",
        Numbers(1),
        false,
    ),
    call("flat", "flat", "ccc", Numbers(2), false),
    call("sub2", "sub2", "cccc", Numbers(2), false),
    call("scale2", "scale2", "ccm", Numbers(2), false),
    call("dot", "dot2", "cccc", Numbers(1), false),
    call("cross", "cross2", "cccc", Numbers(1), false),
    call("norm2", "norm2", "cc", Numbers(1), false),
    call("normalized", "normalized2", "cc", Numbers(2), true),
    call("perp", "perp2", "cc", Numbers(2), false),
    call("add3", "add3", "cccccc", Numbers(3), false),
    call("sub3", "sub3", "cccccc", Numbers(3), false),
    call("scale3", "scale3", "cccm", Numbers(3), false),
    call("norm3", "norm3", "ccc", Numbers(1), false),
    call("length", "length", "p", Numbers(1), false),
    call("is_valid", "is_valid", "p", Flag, false),
    call("locate", "locate", "pm", Location, true),
    call("point_at", "point_at", "pm", Numbers(3), true),
    call(
        "point_at_fraction",
        "point_at_fraction",
        "pm",
        Numbers(3),
        true,
    ),
    call("direction_at", "direction_at", "pm", Numbers(2), true),
    call("nearest_point", "nearest_point", "pcc", Nearest, true),
    call("stations", "stations", "p", Stations, false),
    call("reversed", "reversed", "p", Points, false),
    call("resample_count", "resample_count", "pn", Points, false),
    call("centerline", "centerline", "pp", Points, true),
];

/// What a call is handed: doubles in order, a count, and coordinates of up to two polylines.
#[derive(Default)]
pub struct Given {
    pub doubles: Vec<f64>,
    pub count: usize,
    pub lines: Vec<Vec<f64>>,
}

/// The lent arrays; as many numbers as the largest answer has.
#[derive(Clone)]
pub struct Lent {
    pub reals: [f64; 192],
    pub word: u64,
}

/// The code of a call on lent arrays.
pub fn carry_out(name: &str, g: &Given, lent: &mut Lent) -> u64 {
    let d = &g.doubles;
    let (o, w) = (lent.reals.as_mut_ptr(), &mut lent.word as *mut u64);
    let line = |i: usize| (g.lines[i].as_ptr(), g.lines[i].len());
    unsafe {
        match name {
            "distance2" => c::geometry_distance2(d[0], d[1], d[2], d[3], o),
            "distance3" => c::geometry_distance3(d[0], d[1], d[2], d[3], d[4], d[5], o),
            "lerp" => c::geometry_lerp(d[0], d[1], d[2], d[3], d[4], d[5], d[6], o),
            "project_on_segment" => {
                c::geometry_project_on_segment(d[0], d[1], d[2], d[3], d[4], d[5], o)
            }
            "flat" => c::geometry_flat(d[0], d[1], d[2], o),
            "sub2" => c::geometry_sub2(d[0], d[1], d[2], d[3], o),
            "scale2" => c::geometry_scale2(d[0], d[1], d[2], o),
            "dot" => c::geometry_dot(d[0], d[1], d[2], d[3], o),
            "cross" => c::geometry_cross(d[0], d[1], d[2], d[3], o),
            "norm2" => c::geometry_norm2(d[0], d[1], o),
            "normalized" => c::geometry_normalized(d[0], d[1], o),
            "perp" => c::geometry_perp(d[0], d[1], o),
            "add3" => c::geometry_add3(d[0], d[1], d[2], d[3], d[4], d[5], o),
            "sub3" => c::geometry_sub3(d[0], d[1], d[2], d[3], d[4], d[5], o),
            "scale3" => c::geometry_scale3(d[0], d[1], d[2], d[3], o),
            "norm3" => c::geometry_norm3(d[0], d[1], d[2], o),
            _ => {
                let (p, n) = line(0);
                match name {
                    "length" => c::geometry_length(p, n, o),
                    "is_valid" => c::geometry_is_valid(p, n, w),
                    "locate" => c::geometry_locate(p, n, d[0], o, w),
                    "point_at" => c::geometry_point_at(p, n, d[0], o),
                    "point_at_fraction" => c::geometry_point_at_fraction(p, n, d[0], o),
                    "direction_at" => c::geometry_direction_at(p, n, d[0], o),
                    "nearest_point" => c::geometry_nearest_point(p, n, d[0], d[1], o, w),
                    "stations" => c::geometry_stations(p, n, o, w),
                    "reversed" => c::geometry_reversed(p, n, o, w),
                    "resample_count" => c::geometry_resample_count(p, n, g.count, o, w),
                    "centerline" => {
                        let (q, m) = line(1);
                        c::geometry_centerline(p, n, q, m, o, w)
                    }
                    _ => panic!("no call {name}"),
                }
            }
        }
    }
}

/// The polyline of coordinates; a last point that lacks one is none.
pub fn polyline(cs: &[f64]) -> Polyline3 {
    Polyline3::new(
        cs.chunks_exact(3)
            .map(|p| Point3::new(p[0], p[1], p[2]))
            .collect(),
    )
}

fn shows(vs: &[f64]) -> String {
    let vs: Vec<String> = vs.iter().map(|v| show(*v)).collect();
    vs.join(" ")
}

impl Call {
    /// What 01 refuses, in its order: a coordinate (9), too many points (10), a measure (4).
    pub fn faults(&self, g: &Given) -> [bool; 3] {
        let on_map = |x: &f64| x.is_finite() && x.abs() <= 67108864.0;
        let doubles = || self.takes.chars().filter(|t| "cm".contains(*t));
        [
            doubles()
                .zip(&g.doubles)
                .any(|(t, x)| t == 'c' && !on_map(x))
                || g.lines
                    .iter()
                    .any(|l| l.len() % 3 != 0 || !l.iter().all(on_map)),
            g.count > 64 || g.lines.iter().any(|l| l.len() / 3 > 64),
            doubles()
                .zip(&g.doubles)
                .any(|(t, x)| t == 'm' && !x.is_finite()),
        ]
    }

    /// The Rust's answer in words; `None` where it has none.
    pub fn rust(&self, g: &Given) -> Option<String> {
        if self.name == "flat" {
            return Some(shows(&g.doubles[..2]));
        }
        let mut args = vec![];
        if self.takes.contains('n') {
            args.push(Arg::Number(g.count as u64));
        }
        args.extend(g.doubles.iter().map(|d| Arg::Double(*d)));
        args.extend(g.lines.iter().map(|l| Arg::Polyline(polyline(l))));
        let said = answer(self.oracle, &args);
        if !self.perhaps {
            return Some(said);
        }
        said.strip_prefix("1 ").map(String::from)
    }

    /// The answer in the lent arrays, in the oracle's words.
    pub fn written(&self, lent: &Lent) -> String {
        let (r, w) = (&lent.reals, lent.word);
        match self.shape {
            Numbers(n) => shows(&r[..n]),
            Flag => w.to_string(),
            Location => format!("{w} {}", show(r[0])),
            Nearest => format!("{} {w} {}", shows(&r[..5]), show(r[5])),
            Points if w == 0 => "0".into(),
            Stations if w == 0 => "0".into(),
            Points => format!("{w} {}", shows(&r[..w.min(64) as usize * 3])),
            Stations => format!("{w} {}", shows(&r[..w.min(64) as usize])),
        }
    }

    /// How many of the lent numbers the call may write, and whether the word.
    pub fn room(&self) -> (usize, bool) {
        match self.shape {
            Numbers(n) => (n, false),
            Flag => (0, true),
            Location => (1, true),
            Nearest => (6, true),
            Points => (192, true),
            Stations => (64, true),
        }
    }
}
