// The copies beside those of crates/bench_copy: three threads that pass 64 MiB on in pieces of 4,096 bytes, through two
// bounded channels of std, and through two pipes of the kernel. Five of each, as NAME BYTES NANOSECONDS.
use std::io::{Read, Write};
use std::sync::mpsc::sync_channel;
use std::thread;
use std::time::Instant;

const PIECE: usize = 4096;
const PIECES: usize = 16_384;
const REPEATS: usize = 5;
// as many bytes as a pipe of the Domain holds, in pieces
const WAITING: usize = 2;

fn block() -> Vec<u8> {
    (0..PIECE).map(|i| (i % 251) as u8).collect()
}

struct Count {
    bytes: u64,
    sum: u64,
}

impl Count {
    fn take(&mut self, piece: &[u8]) {
        self.bytes += piece.len() as u64;
        self.sum = self.sum.wrapping_mul(31).wrapping_add(u64::from(piece[0]));
    }
}

fn channels() -> u64 {
    let (first, relayed) = sync_channel::<Box<[u8]>>(WAITING);
    let (second, written) = sync_channel::<Box<[u8]>>(WAITING);
    let reader = thread::spawn(move || {
        let block = block();
        for _ in 0..PIECES {
            first.send(block.clone().into_boxed_slice()).unwrap();
        }
    });
    let relay = thread::spawn(move || {
        for piece in relayed {
            second.send(piece).unwrap();
        }
    });
    let mut count = Count { bytes: 0, sum: 0 };
    for piece in written {
        count.take(&piece);
    }
    reader.join().unwrap();
    relay.join().unwrap();
    std::hint::black_box(count.sum);
    count.bytes
}

fn kernel_pipes() -> u64 {
    let (mut relayed, mut first) = std::io::pipe().unwrap();
    let (mut written, mut second) = std::io::pipe().unwrap();
    let reader = thread::spawn(move || {
        let block = block();
        for _ in 0..PIECES {
            first.write_all(&block).unwrap();
        }
    });
    let relay = thread::spawn(move || {
        let mut piece = [0; PIECE];
        loop {
            let taken = relayed.read(&mut piece).unwrap();
            if taken == 0 {
                return;
            }
            second.write_all(&piece[..taken]).unwrap();
        }
    });
    let mut count = Count { bytes: 0, sum: 0 };
    let mut piece = [0; PIECE];
    loop {
        let taken = written.read(&mut piece).unwrap();
        if taken == 0 {
            break;
        }
        count.take(&piece[..taken]);
    }
    reader.join().unwrap();
    relay.join().unwrap();
    std::hint::black_box(count.sum);
    count.bytes
}

fn time(name: &str, copy: fn() -> u64) {
    let start = Instant::now();
    let bytes = copy();
    println!("{name} {bytes} {}", start.elapsed().as_nanos());
}

fn main() {
    for _ in 0..REPEATS {
        time("sync_channel", channels);
        time("kernel_pipes", kernel_pipes);
    }
}
