//! Files: at random, and the figures of the specification.

use super::{FAR_SITES, Outcome, Tally, accepted_table, random_site, read, same, write};
use crate::blocks::{self, BLOCK, Form};
use crate::calls::{Calls, Written};
use crate::damage::{self, DAMAGES, Damage};
use crate::expected::{self, Expected};
use crate::generate::{Kind, Random};
use crate::named;
use crate::table::{Dialogue, HEAD_SETS, STORE_WORDS};

// tries: Calls.file_grounds, ReadAnswers.CalledRead
/// A random file, whole, damaged in one way or in several, of the old form, or of random bytes.
pub fn random_file(libraries: &[&dyn Calls], random: &mut Random, tally: &mut Tally) -> Outcome {
    let kind = Kind::random(random);
    let dialogue = kind.dialogue(random);
    let form = match random.below(12) {
        0 => Form::Old,
        _ => Form::New,
    };
    let applicable: Vec<Damage> = DAMAGES
        .into_iter()
        .filter(|damage| damage.applies_to(form, &dialogue))
        .collect();
    let damages: Vec<Damage> = (0..random.pick(&[0, 1, 1, 1, 2, 3]))
        .map(|_| random.pick(&applicable))
        .collect();
    let made = random_site(random);
    let mut file = damage::damaged(form, &dialogue, made, &damages, random);
    let site = match random.below(12) {
        0 => random.pick(&FAR_SITES),
        1 => random_site(random),
        _ => made,
    };
    let random_bytes = random.once_in(40);
    if random_bytes {
        let length = random.pick(&[512, 1024, blocks::LARGEST]);
        file = random.bytes(length);
    }
    let room = match random.below(8) {
        0 => random.pick(&[0, STORE_WORDS - 1]),
        1 => STORE_WORDS + 5,
        _ => STORE_WORDS,
    };
    let expected = expected::read(&file, site, room);
    let fault = |fault: String| format!("{kind:?}, {form:?} form with {damages:?}: {fault}");

    // Of a whole file and of most single damages the answer is known beforehand.
    let known = match (form, &damages[..]) {
        (Form::New, []) => Some(0),
        (Form::New, [damage]) => damage.refusal(),
        (Form::Old, []) => Some(15),
        _ => None,
    };
    if let Some(known) = known.filter(|_| room >= STORE_WORDS && site == made && !random_bytes) {
        same("the plain decoder", expected.answer.refusal, known).map_err(fault)?;
    }
    tally.count("refusal by read", expected.answer.refusal);
    let store = random.words(room);
    for library in libraries {
        read(*library, (&file, site), &store, &expected).map_err(fault)?;
    }
    Ok(())
}

// tries: Blocks.block_of, Figures.CheckIs, Contents.contents, Blocks.blocks_for, Contents.added
// tries: PromisesKept.sizes
/// The specification's figures about files: E's bytes and check, H's lengths, in both forms.
pub(super) fn named_files(
    libraries: &[&dyn Calls],
    random: &mut Random,
    tally: &mut Tally,
) -> Outcome {
    let block = |front: &[u8], check: [u8; 2]| {
        let mut file = front.to_vec();
        file.resize(BLOCK - 2, 0);
        file.extend(check);
        file
    };
    let e_old = block(&named::E_OLD_FRONT, named::E_OLD_CHECK);
    same("the old file of E", Form::Old.encode(&named::e(), 0), e_old)?;
    let typed = Expected {
        answer: Written {
            refusal: 0,
            length: 512,
        },
        front: block(&named::E_FRONT, named::E_CHECK),
    };
    for library in libraries {
        let output = random.bytes(600);
        write(*library, &named::e().to_store(), (3, 0, 0), &output, &typed)?;
    }
    for (form, groups, contents, length) in [
        (Form::Old, &[][..], 508, 512),
        (Form::Old, &[&[0, 60][..]][..], 516, 1024),
        (Form::New, &[][..], 516, 1024),
        (Form::New, &[&[0, 60][..]][..], 524, 1024),
    ] {
        let dialogue = named::h(groups);
        same("L of H", form.contents(&dialogue).len(), contents)?;
        same("the length of H", form.encode(&dialogue, 0).len(), length)?;
        accepted_table(libraries, &dialogue, random, tally)?;
    }
    // An old file is turned away, whole or not, before its blocks are counted.
    for dialogue in [named::e(), named::h(&[]), named::h(&[&[0, 60]])] {
        let mut old = Form::Old.encode(&dialogue, 0);
        answered_file(libraries, (&old, 0), 15, random)?;
        let blocks = old.len() / BLOCK;
        old.extend(blocks::block(blocks, &[], 0));
        answered_file(libraries, (&old, 0), 15, random)?;
    }
    // The second number at its limits, 0 where the file is read; a state past n in each set of a file.
    for (second, number) in [
        (0, 15),
        (64, 15),
        (65, 15),
        (32_767, 15),
        (32_768, 0),
        (32_832, 0),
        (32_833, 15),
        (65_535, 15),
    ] {
        let [low, high] = blocks::two_bytes(second);
        let file = blocks::file_of(&[1, 0, low, high], 0);
        answered_file(libraries, (&file, 0), number, random)?;
    }
    let one_of_each = Dialogue::of(1, &[], &[], &[&[]], &[]);
    for set in 0..HEAD_SETS + 2 {
        let mut contents = Form::New.contents(&one_of_each);
        contents[4 + set] |= 1 << 1;
        let file = blocks::file_of(&contents, 0);
        answered_file(libraries, (&file, 0), 17, random)?;
    }
    // G's check at this site is 3. Stored as 3 + 65,521 it is the same modulo the prime, and still another number.
    let site = 65_521 - 6 * 128;
    let mut unreduced = Form::New.encode(&named::g(), site);
    same("the check of G", blocks::check(&unreduced, site), 3)?;
    unreduced[510..].copy_from_slice(&blocks::two_bytes(3 + 65_521));
    answered_file(libraries, (&unreduced, site), 13, random)
}

/// That a file is refused with a number, or read for 0.
pub(crate) fn answered_file(
    libraries: &[&dyn Calls],
    (file, site): (&[u8], usize),
    number: u32,
    random: &mut Random,
) -> Outcome {
    let expected = expected::read(file, site, STORE_WORDS);
    same("the plain decoder", expected.answer.refusal, number)?;
    let store = random.words(STORE_WORDS);
    libraries
        .iter()
        .try_for_each(|library| read(*library, (file, site), &store, &expected))
}
