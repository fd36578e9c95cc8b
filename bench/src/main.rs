//! Times the proved filters against plain C, a direct implementation, OpenCV and scipy, and how their cost grows.

mod cell;
mod direct;
mod mask;
mod measure;
mod report;

use std::fs;
use std::path::{Path, PathBuf};
use std::process::ExitCode;

use cell::Call;
use mask::Mask;
use measure::{times, Others, Times, NONE};
use report::{bars, plots, Bar, Table};

const SIDE: usize = 2048;
const RUNS: usize = 7;

fn main() -> ExitCode {
    let out = PathBuf::from(std::env::args().nth(1).unwrap_or_else(|| "target/bench".into()));
    match run(&out) {
        Ok(()) => ExitCode::SUCCESS,
        Err(told) => {
            eprintln!("bench: {told}");
            ExitCode::FAILURE
        }
    }
}

fn run(out: &Path) -> Result<(), String> {
    let mut text = machine(out);
    let mut told = |part: String| {
        println!("{part}");
        text += &part;
        text.push('\n');
    };

    let mut table = Table::new(&["call", "mask", "chords", "proved ms", "C ms", "proved / C", "direct ms", "OpenCV ms", "OpenCV / proved", "scipy ms", "scipy / proved"]);
    let mut ratios = Vec::new();
    let mut add = |call: &str, mask: &Mask, t: Times| {
        eprintln!("{call}, {}: {:.2} ms, C {:.2} ms", mask.name, t.proved, t.plain);
        ratios.push(Bar { name: format!("{call}, {}", mask.name), length: t.proved / t.plain, told: format!("{:.2}", t.proved / t.plain) });
        table.lines.push(line(call, mask, &t));
    };
    for mask in mask::compared() {
        let all = Others { direct: true, opencv: true, scipy: true };
        let by_opencv = Others { scipy: false, ..all };
        let by_direct = Others { opencv: false, ..by_opencv };
        add("gray erosion", &mask, times::<u8>(Call::Erode, &mask, SIDE, SIDE, RUNS, all, out)?);
        add("gray opening", &mask, times::<u8>(Call::Open, &mask, SIDE, SIDE, RUNS, by_opencv, out)?);
        add("height erosion", &mask, times::<i32>(Call::Erode, &mask, SIDE, SIDE, RUNS, by_direct, out)?);
        add("return erosion", &mask, times::<u32>(Call::Erode, &mask, SIDE, SIDE, RUNS, by_opencv, out)?);
    }
    told(format!("Sheets of {SIDE} x {SIDE}, best of {RUNS} runs (scipy and the direct way: one run).\n\n{}", table.markdown()));
    save(out, "ratios.svg", &bars("Time of the proved filter, where plain C takes 1", &ratios))?;

    let (tables, growth) = growth(out)?;
    told(tables);
    save(out, "growth.svg", &plots("A gray erosion: milliseconds by cells (in thousands), by chords, and by lengths", &growth))?;
    save(out, "tables.md", &text)
}

/// A line of the comparison.
fn line(call: &str, mask: &Mask, t: &Times) -> Vec<String> {
    let ms = |time: Option<f64>| time.map_or("-".into(), |time| format!("{time:.2}"));
    let over = |time: Option<f64>| time.map_or("-".into(), |time| format!("{:.1}", time / t.proved));
    vec![
        call.into(),
        mask.name.clone(),
        mask.chords().to_string(),
        format!("{:.2}", t.proved),
        format!("{:.2}", t.plain),
        format!("{:.2}", t.proved / t.plain),
        ms(t.direct),
        ms(t.opencv),
        over(t.opencv),
        ms(t.scipy),
        over(t.scipy),
    ]
}

/// Points by which a cost is plotted, with the name of what it grows with.
type Plots = Vec<(&'static str, Vec<(f64, f64)>)>;

/// How the cost of a gray erosion grows with the sheet's area, with the chords of the mask, and with its lengths.
fn growth(out: &Path) -> Result<(String, Plots), String> {
    let timed = |mask: &Mask, side: usize| -> Result<f64, String> { Ok(times::<u8>(Call::Erode, mask, side, side, RUNS, NONE, out)?.proved) };
    let mut text = String::new();
    let mut all: Plots = Vec::new();

    let disk = Mask::new("disk 31", |u, v| u * u + v * v <= 240);
    let mut table = Table::new(&["sheet", "cells", "ms", "ns per cell"]);
    let mut points = Vec::new();
    for side in [128, 256, 512, 1024, 1448, 2048] {
        let ms = timed(&disk, side)?;
        let cells = (side * side) as f64;
        table.lines.push(vec![format!("{side} x {side}"), cells.to_string(), format!("{ms:.3}"), format!("{:.2}", ms * 1e6 / cells)]);
        points.push((cells / 1000.0, ms));
    }
    text += &format!("Gray erosion under the disk of diameter 31, by the sheet's area.\n\n{}\n", table.markdown());
    all.push(("thousand cells", points));

    let mut table = Table::new(&["chords", "ms", "ms per chord"]);
    let mut points = Vec::new();
    for most in [1, 4, 16, 31, 62, 124, 248, 496] {
        let mask = spread(most);
        let ms = timed(&mask, SIDE)?;
        let chords = mask.chords();
        table.lines.push(vec![chords.to_string(), format!("{ms:.2}"), format!("{:.3}", ms / chords as f64)]);
        points.push((chords as f64, ms));
    }
    text += &format!("Gray erosion of {SIDE} x {SIDE} under masks of single points, by the number of chords.\n\n{}\n", table.markdown());
    all.push(("chords", points));

    let mut table = Table::new(&["lengths", "ms"]);
    let mut points = Vec::new();
    for longest in [1, 2, 4, 8, 16, 24, 31] {
        let mask = stairs(longest);
        let ms = timed(&mask, SIDE)?;
        table.lines.push(vec![longest.to_string(), format!("{ms:.2}")]);
        points.push((longest as f64, ms));
    }
    text += &format!("Gray erosion of {SIDE} x {SIDE} under masks of 31 chords, by the number of lengths, 1 to n.\n\n{}", table.markdown());
    all.push(("lengths", points));
    Ok((text, all))
}

/// Single points, no two side by side, so many or as many as there is room for: row by row from the origin's outward.
fn spread(most: usize) -> Mask {
    let mut places: Vec<(i32, i32)> = (-15..=15).flat_map(|v| (-15..=15).step_by(2).map(move |u| (u, v))).collect();
    places.sort_by_key(|(u, v)| (v.abs(), u.abs(), *v, *u));
    places.truncate(most);
    Mask::new(format!("{most} points"), |u, v| places.contains(&(u, v)))
}

/// A chord in each row, with lengths that go from 1 to the longest and begin again.
fn stairs(longest: i32) -> Mask {
    Mask::new(format!("stairs {longest}"), |u, v| u + 15 <= (v + 15) % longest)
}

/// The machine, the kit and the day.
fn machine(out: &Path) -> String {
    let cpu = fs::read_to_string("/proc/cpuinfo").unwrap_or_default();
    let model = cpu.lines().find_map(|l| l.strip_prefix("model name")).map_or("unknown", |l| l.trim_start_matches(['\t', ' ', ':']));
    let kit = fs::read_to_string(out.join("kit")).unwrap_or_default();
    let day = std::process::Command::new("date").arg("-u").arg("+%Y-%m-%d").output().map(|o| String::from_utf8_lossy(&o.stdout).trim().to_string());
    format!("{model}, one thread; {}; {}\n\n", kit.trim(), day.unwrap_or_default())
}

fn save(out: &Path, name: &str, text: &str) -> Result<(), String> {
    let file = out.join(name);
    fs::write(&file, text).map_err(|e| format!("{}: {e}", file.display()))
}
