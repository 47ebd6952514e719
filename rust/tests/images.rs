// The images of tests/images through `parse` and `plan`: ELFs with the listings that crate listing_cases must write, and Plan 9's a.outs
// with the numbers of their reader, which tests/compare/model.py gives; and the linkers' programs through a start.

mod memory;

use holthrimi::{number, parse, plan, Form, Refusal, Setup, RODATA, TEXT};
use memory::Memory;
use std::fmt::Write;

/// The listing of a plan.
fn listing(p: holthrimi::Plan) -> String {
    let mut s = format!("entry={}\n", p.entry);
    for g in &p.segments[..p.count] {
        let kind = match g.perm {
            TEXT => "text",
            RODATA => "rodata",
            _ => "data",
        };
        writeln!(s, "segment={kind} {} {}", g.range.start, g.range.end).unwrap();
    }
    s + &format!("bss={} {}\npages={}\n", p.bss.start, p.bss.end, p.pages)
}

// An image is its name's length in a byte, its own in three, little-endian, its name and its bytes.
#[test]
fn elfs() {
    let cases: &[u8] = include_bytes!("../../crates/listing_cases/data/cases");
    let mut listings = include_str!("../../crates/listing_cases/stdout");
    let (mut at, mut seen) = (0, [0; 32]);
    while at < cases.len() {
        let size = u32::from_le_bytes([cases[at + 1], cases[at + 2], cases[at + 3], 0]) as usize;
        let (name, image) = cases[at + 4..][..cases[at] as usize + size].split_at(cases[at] as usize);
        at += 4 + name.len() + size;
        let name = std::str::from_utf8(name).unwrap();
        listings = listings.strip_prefix(name).and_then(|s| s.strip_prefix('\n')).expect(name);
        let read = parse(Setup::DEPOSIT, Form::Elf, image).map_err(Refusal::number);
        // Read as an a.out of another magic than its first word, it is 42.
        let own = image.first_chunk().map_or(0, |w| u32::from_be_bytes(*w));
        assert!(parse(Setup::DEPOSIT, Form::Aout(!own), image) == Err(Refusal::Refused(number::NOT_AOUT)), "{name}");
        let planned = plan(Setup::DEPOSIT, Form::Elf, image).map_err(Refusal::number);
        let text = match (read, planned) {
            (Err(n), p) => {
                assert_eq!(p, Err(number::EBADEXEC), "{name}");
                seen[n as usize] += 1;
                format!("refused={n}\n")
            }
            (Ok(()), Err(n)) => {
                seen[n as usize] += 1;
                format!("refused={n}\n")
            }
            (Ok(()), Ok(p)) => {
                seen[0] += 1;
                listing(p)
            }
        };
        // The listing alone refuses an image for its length.
        let text = if image.len() > 32_768 { "refused=1\n".into() } else { text };
        listings = listings.strip_prefix(&text).unwrap_or_else(|| panic!("{name}: {text}"));
    }
    assert_eq!(listings, "");
    assert!([0].into_iter().chain(11..=28).chain([30, 31]).all(|n| seen[n] > 0), "{seen:?}");
    println!("{} images", seen.iter().sum::<i32>());
}

/// The loadable headers of a program: offset, address, file size, memory size and alignment.
fn headers(image: &[u8]) -> Vec<[u64; 5]> {
    let field = |at: usize, n: usize| image[at..at + n].iter().rev().fold(0, |v, b| v * 256 + u64::from(*b));
    let table = field(32, 8) as usize;
    let places = (0..field(56, 2) as usize).map(|i| table + 56 * i).filter(|at| field(*at, 4) == 1);
    places.map(|at| [8, 16, 32, 40, 48].map(|k| field(at + k, 8))).collect()
}

// Programs of the GNU linker, with pages of 4,096 and of 65,536: what start accepts reads back as the file has it, and zeros behind.
#[test]
fn programs() {
    let mut seen = std::collections::BTreeMap::new();
    for file in std::fs::read_dir("../tests/images/programs").unwrap() {
        let image = std::fs::read(file.unwrap().path()).unwrap();
        let Ok(p) = plan(Setup::DEPOSIT, Form::Elf, &image) else { continue };
        if p.pages > 1024 {
            continue;
        }
        let mut m = Memory::new(p.pages as usize);
        m.lent().start(1, Form::Elf, &image, b"lex", b"", &[]).unwrap();
        for [offset, vaddr, filesz, memsz, align] in headers(&image) {
            let mut expected = image[offset as usize..][..filesz as usize].to_vec();
            expected.resize(memsz as usize, 0);
            let mut got = vec![1; memsz as usize];
            m.lent().copy_from_user(1, &mut got, vaddr).unwrap();
            assert_eq!(got, expected);
            *seen.entry(align).or_insert(0) += 1;
        }
    }
    println!("segments by alignment: {seen:?}");
    assert!(seen[&4096] > 0 && seen[&65536] > 0, "{seen:?}");
}

/// Bytes in hexadecimal, or `-` for none.
fn bytes(word: &str) -> Vec<u8> {
    let digits = if word == "-" { "" } else { word };
    (0..digits.len()).step_by(2).map(|i| u8::from_str_radix(&digits[i..i + 2], 16).unwrap()).collect()
}

// A line is the magic that is expected, UTZERO and the image.
#[test]
fn aouts() {
    let lines = include_str!("../../tests/images/aouts.txt").lines().filter(|l| !l.starts_with('#'));
    let mut answers = include_str!("../../tests/images/aouts.out").lines();
    for line in lines {
        let words: Vec<&str> = line.split(' ').collect();
        let [magic, utzero, image] = words[..] else { panic!("{line}") };
        let (form, image) = (Form::Aout(magic.parse().unwrap()), bytes(image));
        // The smallest stack, so that UTZERO may be as high as any.
        let setup = Setup { utzero: utzero.parse().unwrap(), ustksize: 4096, ..Setup::DEPOSIT };
        let answer = answers.next().unwrap();
        match parse(setup, form, &image) {
            Err(refusal) => assert_eq!(answer, refusal.to_string(), "{line}"),
            Ok(()) => {
                let p = plan(setup, form, &image).unwrap();
                let start = format!("ok {} text {utzero} ", p.entry);
                assert!(answer.starts_with(&start), "{line}: {start}");
                let data_at = answer.split(' ').skip_while(|w| *w != "data").nth(1).map(|a| a.parse().unwrap());
                assert_eq!((p.segments[0].range.start, p.segments[0].perm), (setup.utzero, TEXT), "{line}");
                // The bss begins where data's file bytes end, or at the text's page end.
                let file = answer.rsplit(' ').next().unwrap().parse::<u64>().unwrap();
                assert_eq!(p.bss.start, data_at.map_or(p.segments[0].range.end, |a: u64| a + file), "{line}");
            }
        }
    }
    assert_eq!(answers.next(), None);
}
