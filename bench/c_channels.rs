//! Items through a channel of the library for C and through one of crossbeam, by the same threads: nanoseconds for an item, the least and
//! the middle of so many runs.
use std::ffi::c_void;
use std::sync::{Arc, OnceLock};
use std::thread::{self, Thread};
use std::time::Instant;

#[repr(C)]
struct End {
    tag_plus_1: u32,
    end: *mut c_void,
}

#[repr(C)]
#[derive(Default)]
struct Wakes {
    receivers: u64,
    senders: u64,
}

const DONE: u32 = 0;
const WAITS: u32 = 1;

unsafe extern "C" {
    fn jisthrom_channel_new(slots: u32, first: &mut End) -> u32;
    fn jisthrom_channel_split(first: &mut End, other: &mut End) -> u32;
    fn jisthrom_channel_send(end: &mut End, item: u64, wakes: &mut Wakes) -> u32;
    fn jisthrom_channel_receive(end: &mut End, item: &mut u64, wakes: &mut Wakes) -> u32;
    fn jisthrom_channel_close(end: &mut End, wakes: &mut Wakes) -> u32;
    fn jisthrom_channel_free(end: &mut End, wakes: &mut Wakes) -> u32;
}

/// The threads that may sleep, by the tags of their ends. Who is named before it sleeps does not sleep.
type Bells = Arc<Vec<OnceLock<Thread>>>;

/// An end with the bells of its channel. Given back when it goes out of scope.
struct Own {
    end: End,
    bells: Bells,
}

// SAFETY: an end may go to another thread, and is used by one call at a time.
unsafe impl Send for Own {}

fn none() -> End {
    End { tag_plus_1: 0, end: std::ptr::null_mut() }
}

impl Own {
    fn channel(slots: u32) -> Own {
        let mut end = none();
        assert_eq!(unsafe { jisthrom_channel_new(slots, &mut end) }, DONE);
        Own { end, bells: Arc::new((0..64).map(|_| OnceLock::new()).collect()) }
    }

    fn split(&mut self) -> Own {
        let mut end = none();
        assert_eq!(unsafe { jisthrom_channel_split(&mut self.end, &mut end) }, DONE);
        Own { end, bells: self.bells.clone() }
    }

    fn wake(&self, wakes: Wakes) {
        let mut all = wakes.receivers | wakes.senders;
        while all != 0 {
            if let Some(thread) = self.bells[all.trailing_zeros() as usize].get() {
                thread.unpark();
            }
            all &= all - 1;
        }
    }

    fn starts(&self) {
        let _ = self.bells[self.end.tag_plus_1 as usize - 1].set(thread::current());
    }

    fn send(&mut self, item: u64) {
        loop {
            let mut wakes = Wakes::default();
            let answer = unsafe { jisthrom_channel_send(&mut self.end, item, &mut wakes) };
            self.wake(wakes);
            match answer {
                DONE => return,
                WAITS => thread::park(),
                _ => panic!("a send answers {answer}"),
            }
        }
    }

    fn receive(&mut self) -> Option<u64> {
        loop {
            let (mut item, mut wakes) = (0, Wakes::default());
            let answer = unsafe { jisthrom_channel_receive(&mut self.end, &mut item, &mut wakes) };
            self.wake(wakes);
            match answer {
                DONE => return Some(item),
                WAITS => thread::park(),
                _ => return None,
            }
        }
    }

    fn close(&mut self) {
        let mut wakes = Wakes::default();
        unsafe { jisthrom_channel_close(&mut self.end, &mut wakes) };
        self.wake(wakes);
    }
}

impl Drop for Own {
    fn drop(&mut self) {
        let mut wakes = Wakes::default();
        unsafe { jisthrom_channel_free(&mut self.end, &mut wakes) };
        self.wake(wakes);
    }
}

/// So many senders and as many receivers; the sum of what was received.
fn by_library(pairs: u64, slots: u32, items: u64) -> u64 {
    let mut first = Own::channel(slots);
    let receivers: Vec<_> = (0..pairs).map(|_| first.split()).collect();
    let senders: Vec<_> = (0..pairs).map(|_| first.split()).collect();
    thread::scope(|scope| {
        let received: Vec<_> = receivers
            .into_iter()
            .map(|mut end| {
                scope.spawn(move || {
                    end.starts();
                    let mut sum = 0;
                    while let Some(item) = end.receive() {
                        sum += item;
                    }
                    sum
                })
            })
            .collect();
        let sent: Vec<_> = senders
            .into_iter()
            .map(|mut end| {
                scope.spawn(move || {
                    end.starts();
                    for item in 0..items / pairs {
                        end.send(item);
                    }
                })
            })
            .collect();
        for thread in sent {
            thread.join().unwrap();
        }
        first.close();
        received.into_iter().map(|thread| thread.join().unwrap()).sum()
    })
}

fn by_crossbeam(pairs: u64, slots: u32, items: u64) -> u64 {
    let (sender, receiver) = crossbeam_channel::bounded::<u64>(slots as usize);
    thread::scope(|scope| {
        let received: Vec<_> = (0..pairs)
            .map(|_| {
                let receiver = receiver.clone();
                scope.spawn(move || receiver.iter().sum::<u64>())
            })
            .collect();
        for _ in 0..pairs {
            let sender = sender.clone();
            scope.spawn(move || {
                for item in 0..items / pairs {
                    sender.send(item).unwrap();
                }
            });
        }
        drop(sender);
        received.into_iter().map(|thread| thread.join().unwrap()).sum()
    })
}

/// One thread sends an item and receives it.
fn alone_by_library(slots: u32, items: u64) -> u64 {
    let mut end = Own::channel(slots);
    (0..items)
        .map(|item| {
            end.send(item);
            end.receive().unwrap()
        })
        .sum()
}

fn alone_by_crossbeam(slots: u32, items: u64) -> u64 {
    let (sender, receiver) = crossbeam_channel::bounded::<u64>(slots as usize);
    (0..items)
        .map(|item| {
            sender.send(item).unwrap();
            receiver.recv().unwrap()
        })
        .sum()
}

fn figures(name: &str, turns: usize, items: u64, pairs: u64, run: impl Fn() -> u64) {
    let share = items / pairs;
    let wanted = pairs * (share * (share - 1) / 2);
    let mut times: Vec<f64> = (0..turns)
        .map(|_| {
            let start = Instant::now();
            assert_eq!(run(), wanted, "what was received is not what was sent");
            start.elapsed().as_nanos() as f64 / items as f64
        })
        .collect();
    times.sort_by(f64::total_cmp);
    println!("{name:<34} {:>8.0} {:>8.0}", times[0], times[turns / 2]);
}

fn main() {
    let words: Vec<u64> = std::env::args().skip(1).map(|word| word.parse().unwrap()).collect();
    let (items, turns) = (words[0], words[1] as usize);
    println!("{:<34} {:>8} {:>8}", "nanoseconds an item", "least", "middle");
    figures("one thread, library for C", turns, items, 1, || alone_by_library(64, items));
    figures("one thread, crossbeam", turns, items, 1, || alone_by_crossbeam(64, items));
    for pairs in [1, 2, 4] {
        for slots in [64, 1024] {
            let work = format!("{pairs} and {pairs} threads, {slots} slots");
            figures(&format!("{work}, library"), turns, items, pairs, || by_library(pairs, slots, items));
            figures(&format!("{work}, crossbeam"), turns, items, pairs, || by_crossbeam(pairs, slots, items));
        }
    }
}
