//! The same turns as `main.txt` over a plain `Mutex`: `plain 4`.
use std::process::ExitCode;
use std::sync::Mutex;
use std::thread;

const TURNS: u64 = 1_600_000;

struct Counter {
    count: u64,
}

impl Counter {
    fn add(&mut self, amount: u64) -> u64 {
        let before = self.count;
        self.count = before.wrapping_add(amount);
        before
    }
}

fn main() -> ExitCode {
    let Some(threads) = std::env::args().nth(1).and_then(|word| word.parse::<u64>().ok()) else {
        return ExitCode::from(2);
    };
    let counter = Mutex::new(Counter { count: 0 });
    thread::scope(|scope| {
        for _ in 0..threads {
            scope.spawn(|| {
                for _ in 0..TURNS / threads {
                    std::hint::black_box(counter.lock().unwrap().add(1));
                }
            });
        }
    });
    if counter.into_inner().unwrap().count == TURNS { ExitCode::from(0) } else { ExitCode::from(1) }
}
