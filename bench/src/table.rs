//! The table of calls beside the Rust.
use crate::calls::{
    self, Call, EXAMPLE_END, brk, brk_none, end, fork, fork_list, from, push, range, region, replace, start, string, to,
};
use crate::clock::{repeated, times};
use crate::limit::Moves;
use crate::region::{PAGE, Region};
use crate::{image, ours, rust};

/// Both sides in the same state, and memory for the limit.
struct Pair {
    ours: ours::World,
    rust: rust::World,
    limit: &'static mut [u8],
    buffer: Vec<u8>,
}

impl Pair {
    fn new(memory: &[&'static Region; 3]) -> Self {
        let (ours, rust) = (ours::world(memory[0], 1_024), rust::World::new(memory[1], 1_024));
        Pair { ours, rust, limit: memory[2].bytes(), buffer: vec![7; 65_536] }
    }
    fn start(&mut self, n: usize, image: &[u8]) {
        calls::start_ours(&mut self.ours, n as u64, image);
        calls::start_rust(&mut self.rust, n, image);
    }

    /// The fork of process 1, of whose pages ours copies so many. Before it is timed, the sides' states are held to each other while
    /// the child shares the others.
    fn show_fork(&mut self, name: &str, copied: usize) {
        self.ours.fork(1, 2).unwrap();
        self.rust.fork(1, 2);
        calls::same(name, &self.ours, &self.rust);
        self.ours.end(2).unwrap();
        self.rust.end(2);
        self.show(fork(name, 1, 2), Moves::Fork(copied));
    }

    /// Times both sides, the limit and the check of what the call finds; shows them; and holds the sides' states to each other.
    fn show(&mut self, mut call: Call, moves: Moves) {
        if let Some(n) = call.enters {
            self.rust.enter(n);
        }
        let found = ours::found(&self.ours);
        let (w, r, l, b) = (&mut self.ours, &mut self.rust, &mut *self.limit, &mut self.buffer);
        let t = times(&mut [&mut || (call.ours)(w), &mut || (call.rust)(r), &mut || moves.time(l, b), &mut || {
            repeated(|| found.check().unwrap())
        }]);
        let [ours, rust, limit, check] = &t[..] else { unreachable!() };
        let less = ours.less(check);
        print!("{:<28} {:>9.0} {:>9.0} {:>9.0}", call.name, ours.ns(), check.ns(), less.ns());
        print!(" {:>9.0} {:>9.2} {:>9.2}", rust.ns(), ours.ratio(rust), less.ratio(rust));
        if limit.ns().is_nan() {
            println!(" {:>9} {:>9} {:>9}   {:.0} {:.0}", "-", "-", "-", ours.noise(), rust.noise());
        } else {
            print!(" {:>9.0} {:>9.2} {:>9.2}", limit.ns(), ours.ratio(limit), less.ratio(limit));
            println!("   {:.0} {:.0} {:.0}", ours.noise(), rust.noise(), limit.noise());
        }
        calls::same(&call.name, &self.ours, &self.rust);
    }
}

/// Each call beside the Rust's: whole, and less the check of the book, which the Rust has not.
pub fn table() {
    print!("\n{:<28}", "calls, 1,024 frames");
    for h in ["ours ns", "check", "less", "Rust ns", "ratio", "less", "limit ns", "ratio", "less"] {
        print!(" {h:>9}");
    }
    println!("   noise % of ours, Rust, limit");
    let memory = [region(1_024), region(2 * 1_024), region(1_024)];
    let small = image::example();
    // 596 pages of the file, 300 of the bss and the stack's four; 896 of the file and the stack's; and 396 of the file and the stack's.
    let (large, full, middle) = (image::pages(400, 100, 96, 300), image::pages(700, 100, 96, 0), image::pages(200, 100, 96, 0));
    // The same with 380 pages of text and rodata, and of data and stack.
    let (most_text, most_data) = (image::pages(300, 80, 16, 0), image::pages(10, 10, 376, 0));
    // Both with a bss, for both forms of fork.
    let (nine, more_data) = (image::pages(1, 1, 2, 1), image::pages(10, 10, 376, 7));
    let (data, bss) = (image::UTZERO + 300 * PAGE, image::UTZERO + 396 * PAGE);

    Pair::new(&memory).show(start("start of 7 pages", 1, &small), Moves::Image(&[], 7));
    Pair::new(&memory).show(start("start of 900 pages", 1, &large), Moves::Image(&large, 304));
    Pair::new(&memory).show(start("start of 900 pages, file", 1, &full), Moves::Image(&full, 4));
    let mut p = Pair::new(&memory);
    p.start(1, &small);
    p.show(replace("replace by 7 pages", 1, &small, EXAMPLE_END - PAGE), Moves::Image(&[], 7));
    let mut p = Pair::new(&memory);
    p.start(1, &large);
    p.show(end("end of 900 pages", 1, &large), Moves::No);
    p.show(replace("replace by 900 pages", 1, &large, image::UTZERO + 895 * PAGE), Moves::Image(&large, 304));
    let mut p = Pair::new(&memory);
    p.start(1, &full);
    p.show(replace("replace by 900 pages, file", 1, &full, image::UTZERO + 895 * PAGE), Moves::Image(&full, 4));
    let mut p = Pair::new(&memory);
    p.start(1, &most_text);
    p.show_fork("fork of 400 pages, 380 text", 20);
    let mut p = Pair::new(&memory);
    p.start(1, &most_data);
    p.show_fork("fork of 400 pages, 380 data", 380);
    for (pages, image, copied) in [(9, &nine, 7), (407, &more_data, 387)] {
        let mut p = Pair::new(&memory);
        p.start(1, image);
        p.show_fork(&format!("fork of {pages} pages"), copied);
        p.show(fork_list(&format!("fork of {pages} pages, list lent"), 1, 2), Moves::Fork(copied));
    }
    let mut p = Pair::new(&memory);
    p.start(1, &middle);
    p.show_fork("fork of 400 pages", 100);
    p.show(brk(1, 100, bss, bss + 100 * PAGE), Moves::Image(&[], 100));
    p.show(brk(1, 100, bss + 100 * PAGE, bss), Moves::No);
    p.show(brk_none(1, bss), Moves::No);
    for size in [65_536, 16] {
        p.show(from(1, data, size), Moves::Bytes(size));
        p.show(to(1, data, size), Moves::Bytes(size));
    }
    // The limit copies without looking for a NUL.
    p.show(string(1, data, 4_096), Moves::Bytes(4_096));
    p.show(range(1, data, 65_536), Moves::No);
    // A NUL and a pointer for each argument, and a null.
    p.show(push(1, 453), Moves::Bytes(9 * 453 + 8));
}
