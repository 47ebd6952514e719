//! Images, made the same for both sides.

pub const UTZERO: usize = holthrimi::Setup::DEPOSIT.utzero as usize;

/// The 184-byte example.
pub fn example() -> Vec<u8> {
    std::fs::read("tests/images/example.img").expect("tests/images/example.img")
}

struct Header {
    flags: u32,
    offset: usize,
    vaddr: usize,
    filesz: usize,
    memsz: usize,
}

fn image(len: usize, headers: &[Header]) -> Vec<u8> {
    let mut image = vec![0u8; len];
    for (i, b) in image.iter_mut().enumerate() {
        *b = (i % 251 + 1) as u8;
    }
    image[..64 + 56 * headers.len()].fill(0);
    let mut put = |at: usize, bytes: &[u8]| image[at..at + bytes.len()].copy_from_slice(bytes);
    put(0, b"\x7fELF\x02\x01\x01");
    put(16, &2u16.to_le_bytes());
    put(18, &183u16.to_le_bytes());
    put(20, &1u32.to_le_bytes());
    put(24, &(UTZERO as u64).to_le_bytes());
    put(32, &64u64.to_le_bytes());
    put(54, &56u16.to_le_bytes());
    put(56, &(headers.len() as u16).to_le_bytes());
    for (i, h) in headers.iter().enumerate() {
        let at = 64 + 56 * i;
        put(at, &1u32.to_le_bytes());
        put(at + 4, &h.flags.to_le_bytes());
        for (k, v) in [(8, h.offset), (16, h.vaddr), (32, h.filesz), (40, h.memsz), (48, 4_096)] {
            put(at + k, &(v as u64).to_le_bytes());
        }
    }
    image
}

/// Pages of text, rodata, data and bss; with the stack's four a start takes `text + rodata + data + bss + 4`. All but the bss and the
/// stack are the file's.
pub fn pages(text: usize, rodata: usize, data: usize, bss: usize) -> Vec<u8> {
    let p = 4_096;
    let part = |flags, before: usize, n: usize, more: usize| Header {
        flags,
        offset: before * p,
        vaddr: UTZERO + before * p,
        filesz: n * p,
        memsz: (n + more) * p,
    };
    image((text + rodata + data) * p, &[part(5, 0, text, 0), part(4, text, rodata, 0), part(6, text + rodata, data, bss)])
}

/// n headers of a page of text each.
pub fn headers(n: usize) -> Vec<u8> {
    let text = |i| Header { flags: 5, offset: 0, vaddr: UTZERO + 4_096 * i, filesz: 64, memsz: 64 };
    image(64 + 56 * n, &(0..n).map(text).collect::<Vec<_>>())
}
