// The same in plain Rust: a list under a lock, put there and taken again.
use std::hint::black_box;
use std::sync::Mutex;
use std::time::Instant;

const USES: u32 = 4_000_000;

fn post(slot: &Mutex<Option<Vec<i64>>>, list: Vec<i64>) {
    *slot.lock().unwrap() = Some(list);
}

fn take(slot: &Mutex<Option<Vec<i64>>>) -> Vec<i64> {
    slot.lock().unwrap().take().unwrap()
}

fn main() {
    let slot = Mutex::new(None);
    let mut list = vec![0i64; 1000];
    let start = Instant::now();
    for _ in 0..USES {
        post(black_box(&slot), list);
        list = take(black_box(&slot));
    }
    println!("{}", start.elapsed().as_nanos() / u128::from(USES));
}
