//! June in Rust: the story of `examples/june.txt`, as `face/yard.c` tells it in C. Car 7's limit is heard and released;
//! car 9 comes into the same slot, and until its own data is heard nothing is released, least of all car 7's limit.

use std::fmt::Display;
use zemrukste::{build, Refusal, Yard};

const LIMIT_LEN: usize = 16;
const WHOLE_LEN: usize = 132;

/// What a call gave back: ok and what `told` makes of it, or the number of the refusal and what comes with it.
fn answer<T, D: Display>(outcome: Result<T, Refusal>, told: impl Fn(T) -> D) -> String {
    match outcome {
        Ok(given) => format!("ok{}", told(given)),
        Err(Refusal::Lacking(count)) => format!("refused 11{}", lacking(count)),
        Err(refusal) => format!("refused {}", refusal.number()),
    }
}

fn lacking(count: usize) -> String {
    format!(", data places that lack a bit: {count}")
}

fn open(yard: &mut Yard, car: u16) {
    println!("open for car {car}: {}", answer(yard.open(0, car, LIMIT_LEN), |()| ""));
}

fn close(yard: &mut Yard, car: u16) {
    println!("close for car {car}: {}", answer(yard.close(0, car), |()| ""));
}

/// A transmission of a limit: its codeword of `g` bits goes over the air and is received.
fn send(yard: &mut Yard, car: u16, limit: u16, version: usize, g: usize) {
    let block: Vec<u8> = (0..LIMIT_LEN).rev().map(|place| (limit >> place & 1) as u8).collect();
    let mut out = [0; WHOLE_LEN];
    let sent = build(&block, 2, 1, version, g, &mut out);
    let outcome = sent.and_then(|codeword| yard.receive(0, car, 2, 1, version, codeword));
    println!("car {car} sends {limit} kW, version {version}, {g} bits: {}", answer(outcome, lacking));
}

fn read(yard: &Yard, car: u16) {
    let mut out = [0; LIMIT_LEN];
    let limit = |block: &[u8]| block.iter().fold(0, |limit, bit| 2 * limit + u16::from(*bit));
    println!("read for car {car}: {}", answer(yard.read(0, car, &mut out), |block| format!(", {} kW", limit(block))));
}

fn main() -> Result<(), Refusal> {
    let made = Yard::new(1, 1);
    println!("one slot for one code block: {}", answer(made.as_ref().map_err(|refusal| *refusal), |_| ""));
    let mut yard = made?;

    open(&mut yard, 7);
    send(&mut yard, 7, 80, 0, WHOLE_LEN);
    read(&yard, 7);
    close(&mut yard, 7);

    println!("-- the room still holds car 7's bits; car 9 comes, and its first transmission is lost");
    open(&mut yard, 9);
    send(&mut yard, 9, 40, 2, 64);
    read(&yard, 9);
    read(&yard, 7);

    println!("-- a repeat brings the data but for two places, the next repeat the rest");
    send(&mut yard, 9, 40, 0, 130);
    read(&yard, 9);
    send(&mut yard, 9, 40, 3, 64);
    read(&yard, 9);
    close(&mut yard, 9);
    read(&yard, 9);
    Ok(())
}
