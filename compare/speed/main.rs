// Our check of text beside the Rust's `from_utf8`, on the same bytes, in turn, in one process: medians.
use std::hint::black_box;
use std::time::Instant;

unsafe extern "C" {
    fn bench_is_utf8(bytes: *const u8, len: usize) -> bool;
}

fn ours(bytes: &[u8]) -> bool {
    unsafe { bench_is_utf8(bytes.as_ptr(), bytes.len()) }
}

fn theirs(bytes: &[u8]) -> bool {
    std::str::from_utf8(bytes).is_ok()
}

/// Nanoseconds for each byte.
fn once(f: fn(&[u8]) -> bool, bytes: &[u8]) -> f64 {
    let start = Instant::now();
    for _ in 0..40 {
        assert!(black_box(f)(black_box(bytes)));
    }
    start.elapsed().as_secs_f64() * 1e9 / 40.0 / bytes.len() as f64
}

fn median(mut times: Vec<f64>) -> f64 {
    times.sort_by(f64::total_cmp);
    times[times.len() / 2]
}

fn main() {
    let texts = [
        ("ASCII", "The cylinder for the door on the ground floor belongs to the main group. "),
        ("prose", "Der Schließzylinder für die Tür im Erdgeschoß gehört zur übergeordneten Gruppe, und die Büroräume öffnen mit dem Hauptschlüssel des Gebäudes; alle weiteren Räume bleiben dem Hausmeister vorbehalten. "),
        ("mixed", "Key 🔑 für Tür 🚪 — «ключ» 钥匙 and plain words in between, "),
        ("Cyrillic", "Цилиндр замка для двери на первом этаже принадлежит главной группе. "),
        ("Chinese", "底层门的锁芯属于上级组，办公室用主钥匙打开。"),
    ];
    println!("{:10} {:>9} {:>9} {:>7}", "text", "Rust", "ours", "ratio");
    for (name, text) in texts {
        let bytes = text.repeat(100_000 / text.len()).into_bytes();
        let (mut a, mut b) = (Vec::new(), Vec::new());
        for _ in 0..31 {
            a.push(once(theirs, &bytes));
            b.push(once(ours, &bytes));
        }
        let (a, b) = (median(a), median(b));
        println!("{name:10} {a:6.3} ns {b:6.3} ns {:7.2}", b / a);
    }
}
