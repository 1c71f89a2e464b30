//! Fails the build if a published file is not, byte for byte, the one whose SHA-256 stands in SHA256SUMS.
use std::path::Path;

fn main() {
    println!("cargo:rerun-if-changed=build.rs");
    println!("cargo:rerun-if-changed=SHA256SUMS");
    let here = std::env::var("CARGO_MANIFEST_DIR").expect("cargo names the folder");
    let published = Path::new(&here).join("../../../docs/src");
    let sums = std::fs::read_to_string("SHA256SUMS").expect("SHA256SUMS is there");
    for line in sums.lines() {
        let (sum, name) = line.split_once("  ").expect("a sum, two spaces, a name");
        let path = published.join(name);
        println!("cargo:rerun-if-changed={}", path.display());
        let bytes = std::fs::read(&path).unwrap_or_else(|e| panic!("docs/src/{name}: {e}"));
        if hex(&sha256(&bytes)) != sum {
            println!("cargo:warning=docs/src/{name} is not the published file");
            std::process::exit(1);
        }
    }
}

fn hex(words: &[u32; 8]) -> String {
    words.iter().map(|w| format!("{w:08x}")).collect()
}

/// FIPS 180-4, section 6.2.
fn sha256(message: &[u8]) -> [u32; 8] {
    let mut padded = message.to_vec();
    padded.push(0x80);
    while padded.len() % 64 != 56 {
        padded.push(0);
    }
    padded.extend((message.len() as u64 * 8).to_be_bytes());
    let k: Vec<u32> = primes(64).iter().map(|&p| fraction_of_root(p, 3)).collect();
    let mut h: [u32; 8] = std::array::from_fn(|i| fraction_of_root(primes(8)[i], 2));
    for block in padded.chunks(64) {
        let mut w: Vec<u32> = block.chunks(4).map(|c| u32::from_be_bytes([c[0], c[1], c[2], c[3]])).collect();
        for t in 16..64 {
            let s0 = w[t - 15].rotate_right(7) ^ w[t - 15].rotate_right(18) ^ (w[t - 15] >> 3);
            let s1 = w[t - 2].rotate_right(17) ^ w[t - 2].rotate_right(19) ^ (w[t - 2] >> 10);
            w.push(w[t - 16].wrapping_add(s0).wrapping_add(w[t - 7]).wrapping_add(s1));
        }
        let mut v = h;
        for t in 0..64 {
            let s1 = v[4].rotate_right(6) ^ v[4].rotate_right(11) ^ v[4].rotate_right(25);
            let choice = (v[4] & v[5]) ^ (!v[4] & v[6]);
            let t1 = v[7].wrapping_add(s1).wrapping_add(choice).wrapping_add(k[t]).wrapping_add(w[t]);
            let s0 = v[0].rotate_right(2) ^ v[0].rotate_right(13) ^ v[0].rotate_right(22);
            let majority = (v[0] & v[1]) ^ (v[0] & v[2]) ^ (v[1] & v[2]);
            v = [t1.wrapping_add(s0.wrapping_add(majority)), v[0], v[1], v[2], v[3].wrapping_add(t1), v[4], v[5], v[6]];
        }
        for i in 0..8 {
            h[i] = h[i].wrapping_add(v[i]);
        }
    }
    h
}

fn primes(count: usize) -> Vec<u128> {
    (2u128..).filter(|n| (2..*n).all(|d| n % d != 0)).take(count).collect()
}

/// The first 32 bits behind the point of the square or cube root of p, by whole numbers.
fn fraction_of_root(p: u128, power: u32) -> u32 {
    let scaled = p << (32 * power);
    let mut root = 0u128;
    for bit in (0..36).rev() {
        let next = root | 1 << bit;
        if next.pow(power) <= scaled {
            root = next;
        }
    }
    root as u32
}
