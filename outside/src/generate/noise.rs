//! Random bytes, some of them skewed so that reading gets far.

use crate::writer::Writer;

use super::random::Random;
use super::values::nearly_sound;
use super::Sample;

pub fn samples(random: &mut Random) -> Vec<Sample> {
    [
        repeated(150, "random: few bytes", || few_bytes(random)),
        repeated(20, "random: many bytes", || many_bytes(random)),
        repeated(200, "random: good count", || good_count(random)),
        repeated(250, "random: small bytes", || small_bytes(random)),
        repeated(200, "random: mostly small", || mostly_small(random)),
        repeated(250, "random: nearly sound", || nearly_sound_sheet(random)),
    ]
    .concat()
}

fn repeated(times: usize, family: &'static str, mut make: impl FnMut() -> Vec<u8>) -> Vec<Sample> {
    (0..times).map(|_| Sample::new(family, make())).collect()
}

fn few_bytes(random: &mut Random) -> Vec<u8> {
    let count = random.within(2..=12);
    random.bytes(count.into())
}

fn many_bytes(random: &mut Random) -> Vec<u8> {
    let count = random.within(100..=3_000);
    random.bytes(count.into())
}

fn good_count(random: &mut Random) -> Vec<u8> {
    after_count(40, random, Random::byte)
}

fn small_bytes(random: &mut Random) -> Vec<u8> {
    after_count(120, random, small_byte)
}

fn mostly_small(random: &mut Random) -> Vec<u8> {
    after_count(
        120,
        random,
        |random| {
            if random.once_in(12) {
                random.byte()
            } else {
                small_byte(random)
            }
        },
    )
}

/// Mostly 0 or 1, which nearly every field allows; sometimes any kind's number.
fn small_byte(random: &mut Random) -> u8 {
    let bound = random.pick(&[2, 2, 2, 2, 2, 3, 9, 15]);
    random.byte() % bound
}

/// A good count, and after it at most so many bytes.
fn after_count(most: u16, random: &mut Random, byte: impl Fn(&mut Random) -> u8) -> Vec<u8> {
    let sections = random.within(1..=8);
    let bytes: Vec<u8> = (0..random.within(1..=most)).map(|_| byte(random)).collect();
    Writer::new(sections).raw(&bytes).into_bytes()
}

fn nearly_sound_sheet(random: &mut Random) -> Vec<u8> {
    let mut writer = Writer::new(random.within(1..=8));
    for _ in 0..random.within(1..=60) {
        writer = writer.numbers(&nearly_sound(60, random));
    }
    writer.into_bytes()
}
