//! One case: a call on a sheet of a kind under a mask, by each way there is. The proved filter and plain C have to agree before
//! either is timed, and each other way with them before its time is told.

use std::fs;
use std::path::Path;
use std::process::Command;
use std::time::Instant;

use crate::cell::{filter_plain, filter_proved, Call, Cell, ProvedMask};
use crate::direct;
use crate::mask::Mask;

/// The best times, in milliseconds. None where a way has no such call or is not installed.
pub struct Times {
    pub proved: f64,
    pub plain: f64,
    pub direct: Option<f64>,
    pub opencv: Option<f64>,
    pub scipy: Option<f64>,
}

/// Which ways are timed beside the proved one and plain C.
#[derive(Clone, Copy)]
pub struct Others {
    pub direct: bool,
    pub opencv: bool,
    pub scipy: bool,
}

pub const NONE: Others = Others { direct: false, opencv: false, scipy: false };

/// A sheet of cells from a linear congruential generator.
pub fn made_up<C: Cell>(width: usize, height: usize) -> Vec<C> {
    let mut seed: u32 = 1;
    (0..width * height)
        .map(|_| {
            seed = seed.wrapping_mul(1_664_525).wrapping_add(1_013_904_223);
            C::made(seed)
        })
        .collect()
}

/// The best of some runs of the filter, each on the sheet as it was, and what it leaves.
fn best_of<C: Cell>(runs: usize, sheet: &[C], mut filter: impl FnMut(&mut [C])) -> (f64, Vec<C>) {
    let mut best = f64::INFINITY;
    let mut cells = sheet.to_vec();
    for _ in 0..runs {
        cells.copy_from_slice(sheet);
        let start = Instant::now();
        filter(&mut cells);
        best = best.min(start.elapsed().as_secs_f64() * 1e3);
    }
    (best, cells)
}

/// Times the case in turns, so that what else the machine does meets all ways alike.
pub fn times<C: Cell>(call: Call, mask: &Mask, width: usize, height: usize, runs: usize, others: Others, out: &Path) -> Result<Times, String> {
    let sheet: Vec<C> = made_up(width, height);
    let points = mask.points();
    let proved_mask = ProvedMask::of(&points).map_err(|number| format!("{}: the mask is refused ({number})", mask.name))?;
    let needed = proved_mask.table_cells(width);
    let proved = C::proved(call).ok_or("the proved library has no such call")?;
    let plain = C::plain(call).ok_or("plain C has no such call")?;
    let mut table = vec![C::LEAST; needed];

    let mut refusal = 0;
    let mut by_proved = |cells: &mut [C]| refusal = filter_proved(proved, width, cells, &proved_mask, &mut table).refusal;
    let (_, left) = best_of(1, &sheet, &mut by_proved);
    let mut c_table = vec![C::LEAST; needed];
    let mut by_plain = |cells: &mut [C]| filter_plain(plain, width, cells, &mask.rows, &mut c_table, needed);
    let (_, c_left) = best_of(1, &sheet, &mut by_plain);
    same("plain C", mask, &left, &c_left)?;

    let mut times = Times { proved: f64::INFINITY, plain: f64::INFINITY, direct: None, opencv: None, scipy: None };
    if others.direct {
        let start = Instant::now();
        let wanted = direct::filtered(call, &sheet, width, &points);
        times.direct = Some(start.elapsed().as_secs_f64() * 1e3);
        same("the direct way", mask, &left, &wanted)?;
    }
    for _ in 0..runs {
        times.proved = times.proved.min(best_of(1, &sheet, &mut by_proved).0);
        times.plain = times.plain.min(best_of(1, &sheet, &mut by_plain).0);
    }
    if refusal != 0 {
        return Err(format!("{}: the filter is refused ({refusal})", mask.name));
    }
    if others.opencv {
        times.opencv = by_peer("opencv", call, mask, width, runs, &sheet, &left, out)?;
    }
    if others.scipy {
        times.scipy = by_peer("scipy", call, mask, width, 1, &sheet, &left, out)?;
    }
    Ok(times)
}

fn same<C: Cell>(way: &str, mask: &Mask, left: &[C], other: &[C]) -> Result<(), String> {
    match left.iter().zip(other).position(|(a, b)| a != b) {
        None if left.len() == other.len() => Ok(()),
        at => Err(format!("{} {}: {way} gives another sheet, first at {at:?}", C::KIND, mask.name)),
    }
}

fn written<C: Cell>(cells: impl Iterator<Item = C>) -> Vec<u8> {
    cells.flat_map(|c| c.bytes().into_iter().take(C::SIZE)).collect()
}

/// The best time of OpenCV or scipy, which are given what the cells count as; none where it is not installed.
#[allow(clippy::too_many_arguments)]
fn by_peer<C: Cell>(peer: &str, call: Call, mask: &Mask, width: usize, runs: usize, sheet: &[C], left: &[C], out: &Path) -> Result<Option<f64>, String> {
    let (mask_file, sheet_file, result_file) = (out.join("mask"), out.join("sheet"), out.join("result"));
    let rows: String = mask
        .rows
        .iter()
        .map(|row| (0..31).map(|c| if row >> c & 1 == 1 { '1' } else { '0' }).chain(['\n']).collect::<String>())
        .collect();
    let told = |e: std::io::Error| format!("{peer}: {e}");
    fs::write(&mask_file, rows).map_err(told)?;
    fs::write(&sheet_file, written(sheet.iter().map(|c| c.counted()))).map_err(told)?;
    let script = Path::new(env!("CARGO_MANIFEST_DIR")).join("peers.py");
    let ran = Command::new("/usr/bin/python3")
        .arg(script)
        .args([peer, C::KIND, if call == Call::Erode { "erode" } else { "open" }, &width.to_string()])
        .args([&mask_file, &sheet_file, &result_file])
        .arg(runs.to_string())
        .output()
        .map_err(told)?;
    if ran.status.code() == Some(3) {
        return Ok(None);
    }
    if !ran.status.success() {
        return Err(format!("{peer}: {}", String::from_utf8_lossy(&ran.stderr)));
    }
    if fs::read(&result_file).map_err(told)? != written(left.iter().copied()) {
        return Err(format!("{} {}: {peer} gives another sheet", C::KIND, mask.name));
    }
    let said = String::from_utf8_lossy(&ran.stdout);
    said.trim().parse().map(Some).map_err(|e| format!("{peer}: {e}: {said}"))
}
