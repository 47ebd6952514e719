//! How the calls' cost grows with frames and processes.
use crate::calls::{self, EXAMPLE_END, brk, brk_none, fork, fork_list, from, push, range, region, replace, start, string, to};
use crate::clock::{Time, repeated, times};
use crate::region::PAGE;
use crate::{image, ours, rust};

/// How many processes live before the call, the last of them the example with 7 pages, whose calls are timed. The others share what
/// makes the book three quarters full: each grows by so many pages.
fn growing(frames: usize, nproc: usize) -> usize {
    ((frames * 3 / 4 - 7) / (nproc - 1).max(1)).saturating_sub(7) * PAGE
}

/// The same calls with 64, 256 and 1,024 frames, and with 1, 4 and 15 processes, since start and fork make one more; sixteen of 7 pages
/// don't go into 64 frames. All of ours take turns; the Rust's machine is one, so its places come one after the other.
pub fn growth() {
    let places = [(64, 1), (64, 4), (256, 1), (256, 4), (256, 15), (1_024, 1), (1_024, 4), (1_024, 15)];
    let small = image::example();
    let data = image::UTZERO + PAGE;
    let calls = |n: usize| {
        vec![
            start("start of 7 pages", n + 1, &small),
            fork("fork of 7 pages", n, n + 1),
            fork_list("fork of 7 pages, list lent", n, n + 1),
            replace("replace by 7 pages", n, &small, EXAMPLE_END - PAGE),
            brk(n, 2, EXAMPLE_END, EXAMPLE_END + 2 * PAGE),
            brk(n, 2, EXAMPLE_END + 2 * PAGE, EXAMPLE_END),
            brk_none(n, EXAMPLE_END),
            from(n, data, 16),
            from(n, data, PAGE),
            to(n, data, 16),
            to(n, data, PAGE),
            string(n, data, 16),
            range(n, data, PAGE),
            push(n, 2),
        ]
    };
    let mut worlds = places.map(|(frames, n)| {
        let mut w = ours::world(region(frames), frames);
        for k in 1..=n as u64 {
            calls::start_ours(&mut w, k, &small);
            if k < n as u64 {
                w.brk(k, (EXAMPLE_END + growing(frames, n)) as u64).unwrap();
            }
        }
        w
    });
    let founds = worlds.each_ref().map(ours::found);
    let mut ours = places.map(|(_, n)| calls(n));
    let names: Vec<String> = ours[0].iter().map(|c| c.name.clone()).collect();
    // For each call, its times at each place, then the check's.
    let mut rows: Vec<Vec<Time>> = Vec::new();
    for i in 0..names.len() {
        let mut sides: Vec<Box<dyn FnMut() -> f64>> = Vec::new();
        for (w, calls) in worlds.iter_mut().zip(&mut ours) {
            sides.push(Box::new(move || (calls[i].ours)(w)));
        }
        for found in &founds {
            sides.push(Box::new(move || repeated(|| found.check().unwrap())));
        }
        let mut sides: Vec<&mut dyn FnMut() -> f64> = sides.iter_mut().map(|s| &mut **s as _).collect();
        rows.push(times(&mut sides));
    }
    let region = region(2 * 1_024);
    // For each place, the Rust's times of each call.
    let mut rust: Vec<Vec<Time>> = Vec::new();
    for ((frames, n), ours) in places.into_iter().zip(&worlds) {
        let mut w = rust::World::new(region, frames);
        for k in 1..=n {
            calls::start_rust(&mut w, k, &small);
            if k < n {
                w.brk(k, EXAMPLE_END + growing(frames, n));
            }
        }
        rust.push(Vec::new());
        for mut c in calls(n) {
            c.enters.inspect(|&n| w.enter(n));
            rust.last_mut().unwrap().extend(times(&mut [&mut || (c.rust)(&mut w)]));
        }
        calls::same("growth", ours, &w);
    }

    let line = |name: &str, figure: &dyn Fn(usize) -> f64| {
        print!("{name:<28}");
        (0..places.len()).for_each(|k| print!(" {:>8.0}", figure(k)));
        println!();
    };
    let head = |title: &str| {
        print!("\n{title:<28}");
        places.iter().for_each(|(f, n)| print!(" {:>8}", format!("{f}/{n}")));
        println!();
    };
    let check = |i: usize, k: usize| &rows[i][places.len() + k];
    head("ours ns, frames/processes");
    line("check", &|k| check(0, k).ns());
    names.iter().enumerate().for_each(|(i, name)| line(name, &|k| rows[i][k].ns()));
    head("ours less the check, ns");
    names.iter().enumerate().for_each(|(i, name)| line(name, &|k| rows[i][k].less(check(i, k)).ns()));
    head("Rust ns");
    names.iter().enumerate().for_each(|(i, name)| line(name, &|k| rust[k][i].ns()));
}
