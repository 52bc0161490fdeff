// What store_bench does, in plain Rust over a Vec<Vec<u8>>.
use std::time::Instant;

fn main() {
    let args: Vec<String> = std::env::args().collect();
    let turns: usize = args[2].parse().unwrap();
    let mut store: Vec<Vec<u8>> = Vec::new();
    for at in 0..4000 {
        store.insert(at, b"draw 00017 reel 3 stop 21 credit 140 bet 5 win 0".to_vec());
    }
    let start = Instant::now();
    let mut sum = 0;
    for i in 0..turns {
        let at = match args[1].as_str() {
            "front" => 0,
            "end" => store.len() - 1,
            _ => store.len() / 2 + i % 40,
        };
        store.insert(at, b"draw 00018 reel 3 stop 4".to_vec());
        let mut line = [0u8; 120];
        let length = store[at].len();
        line[..length].copy_from_slice(&store[at]);
        std::hint::black_box(&line);
        store[at] = b"draw 00018 reel 3 stop 5 credit 135 bet 5 win 10".to_vec();
        store.remove(at);
        sum += length;
    }
    eprintln!("{}", start.elapsed().as_micros());
    println!("{} lines, {sum} bytes read", store.len());
}
