//! A quick look that all is in order; the programs do the work.

use compare::judge::Judge;
use compare::makers::{any, largest, sound, Aim, Wish};
use compare::random::Random;
use compare::run;
use face::constants::MOST_RECORD;
use records::bytes::{get, get_half};
use records::dib::{part_length, BI_BITFIELDS};
use records::places::{header, TYPE};
use second::dib::{header_passes, view_length};
use second::record::{Fixed, Kind};
use std::ops::Range;

#[test]
fn two_thousand_calls_and_five_hundred_runs() {
    match run::many(&mut Judge::default(), 2, 2_000, 500) {
        Ok(tally) => println!("{tally}"),
        Err(difference) => panic!("{difference}"),
    }
}

/// The maker's sound records are sound, or the tests would test little, and short, or they would take long.
#[test]
fn sound_records() {
    let mut r = Random::of(3, 0);
    for _ in 0..3_000 {
        let (one, other) = (if r.once_in(4) { 4_096 } else { 1 + r.below(24) as u32 }, 1 + r.below(24) as u32);
        let (width, height) = if r.percent(50) { (one, other) } else { (other, one) };
        let aim = Aim { width, height };
        let record = sound(&mut r, aim, Wish::default());
        assert_eq!(second::status(&record.bytes), 0, "{record:x?}");
        assert!(record.bytes.len() < 4_000_000, "{aim:?}");
    }
    assert_eq!(second::status(&largest::shared(largest::mask_blit(1))), 21);
    for record in [largest::stretch(1), largest::blend(1), largest::mask_blit(1)] {
        assert_eq!((record.len(), second::status(&record)), (MOST_RECORD, 0));
        assert_eq!(second::status(&largest::too_long(record)), 3);
    }
}

/// The four parts of source and mask; those of an absent one are empty.
fn parts(record: &[u8]) -> Vec<Range<i64>> {
    let fixed = Fixed::read(record, Kind::of(get(record, TYPE) as i64).expect("passes 4"));
    let two = [fixed.source, fixed.mask].map(|picture| picture.map_or([0..0, 0..0], |named| named.parts()));
    two.into_iter().flatten().collect()
}

/// Two of four parts, whose numbers come before them: do they meet, as this rule has it?
type Rule = fn(usize, &Range<i64>, usize, &Range<i64>) -> bool;

fn meet(parts: &[Range<i64>], rule: Rule) -> bool {
    (1..parts.len()).any(|k| (0..k).any(|j| rule(j, &parts[j], k, &parts[k])))
}

/// How many bytes two parts have in common; negative where there is a gap.
fn common(a: &Range<i64>, b: &Range<i64>) -> i64 {
    a.end.min(b.end) - a.start.max(b.start)
}

/// The parts without the bytes past what they need, as far as the headers say what that is.
fn needed(record: &[u8], parts: &[Range<i64>]) -> Vec<Range<i64>> {
    let mut short = parts.to_vec();
    for k in [0, 2] {
        let at = parts[k].start as usize;
        let part = &record[at..parts[k].end as usize];
        if header_passes(part) {
            let number = |place: usize| get(part, place);
            let bitfields = number(header::COMPRESSION) == BI_BITFIELDS;
            let bits = get_half(part, header::BITS);
            let length = part_length(number(header::SIZE), bitfields, bits, number(header::USED));
            short[k].end = parts[k].start + length as i64;
            short[k + 1].end = short[k + 1].end.min(short[k + 1].start + view_length(part));
        }
    }
    short
}

/// Rules that are nearly that of 21 are told from it by the makers' records.
#[test]
fn rules_near_21() {
    let shared: Rule = |_, a, _, b| common(a, b) > 0;
    let near: [(&str, Rule); 7] = [
        ("touching parts too", |_, a, _, b| !a.is_empty() && !b.is_empty() && common(a, b) >= 0),
        ("an empty part inside another too", |_, a, _, b| a.start < b.end && b.start < a.end),
        ("from two bytes on", |_, a, _, b| common(a, b) > 1),
        ("where the later part of the fields begins in the other", |_, a, _, b| common(a, b) > 0 && a.start <= b.start),
        ("parts of one picture", |j, a, k, b| j / 2 == k / 2 && common(a, b) > 0),
        ("parts of two pictures", |j, a, k, b| j / 2 != k / 2 && common(a, b) > 0),
        ("not one part for two", |_, a, _, b| a != b && common(a, b) > 0),
    ];
    let (mut given, mut past_need, mut told) = (0, 0, [0; 7]);
    let mut r = Random::of(21, 0);
    for _ in 0..20_000 {
        let record = any(&mut r, Aim { width: 9, height: 9 }, 0);
        let status = second::status(&record);
        if (3..=6).contains(&status) {
            continue;
        }
        let (is_21, parts) = (status == 21, parts(&record));
        assert_eq!(is_21, meet(&parts, shared), "{record:x?}");
        given += u64::from(is_21);
        past_need += u64::from(is_21 && !meet(&needed(&record, &parts), shared));
        for (n, (_, rule)) in told.iter_mut().zip(near) {
            *n += u64::from(is_21 != meet(&parts, rule));
        }
    }
    println!("{given} of 21, {past_need} by what no part needs, near rules told from it {told:?}");
    assert!(past_need >= 50);
    for (n, (name, _)) in told.iter().zip(near) {
        assert!(*n >= 50, "{name}: only {n}");
    }
}
