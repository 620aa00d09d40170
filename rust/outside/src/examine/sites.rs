//! Sites: files of one, read at another.

use super::{FAR_SITES, Outcome, answered_file, read, same, write};
use crate::blocks::{BLOCK, Form, MAX_SITE};
use crate::calls::Calls;
use crate::expected;
use crate::generate::{Kind, Random};
use crate::named;
use crate::table::{MAX_GROUPS, MAX_STATES, STORE_WORDS};

// tries: Sites.own_block, Sites.foreign_block, Sites.read_over, Blocks.max_site, Grounds.Listed.blocks
// tries: Figures.Figures
/// Files of two sites, whole and with a block of one put into the other; sites at the ends of their range
/// and past it; the order of 24 among the other grounds; drafts.
pub(super) fn sites(libraries: &[&dyn Calls], random: &mut Random) -> Outcome {
    let dialogue = loop {
        let dialogue = Kind::random(random).dialogue(random);
        if Form::New.file_length(dialogue.n, dialogue.g()) >= 3 * BLOCK {
            break dialogue;
        }
    };
    let any = random.within(2, MAX_SITE - 1);
    for (a, b) in [
        (0, 1),
        (1, 0),
        (0, MAX_SITE),
        (MAX_SITE, 0),
        (any, 0),
        (0, any),
        (any, any - 1),
    ] {
        let [of_a, of_b] = [a, b].map(|site| Form::New.encode(&dialogue, site));
        answered_file(libraries, (&of_a, b), 13, random)?;
        for far in FAR_SITES {
            answered_file(libraries, (&of_a, far), 24, random)?;
            answered_file(libraries, (&of_a[1..], far), 24, random)?;
        }
        for k in 0..of_b.len() / BLOCK {
            // At its own number, and at another.
            let own = BLOCK * k..BLOCK * (k + 1);
            let mut spliced = of_b.clone();
            spliced[own.clone()].copy_from_slice(&of_a[own.clone()]);
            answered_file(libraries, (&spliced, b), 13, random)?;
            let other = (k + 1) % (of_b.len() / BLOCK);
            let mut moved = of_b.clone();
            moved[BLOCK * other..BLOCK * (other + 1)].copy_from_slice(&of_a[own]);
            answered_file(libraries, (&moved, b), 12, random)?;
        }
    }
    // A draft passes at every site, in and out; a short store comes before the site, the site before all else.
    let (draft, words) = (named::draft().to_store(), random.words(STORE_WORDS));
    for site in [0, 1, any, MAX_SITE] {
        let (read_back, written) = (
            expected::read(&[], site, STORE_WORDS),
            expected::write(&draft, 0, 0, site, 0),
        );
        same("the plain read of a draft", read_back.answer.refusal, 0)?;
        same("the plain write of a draft", written.answer.refusal, 0)?;
        for library in libraries {
            read(*library, (&[], site), &words, &read_back)?;
            write(*library, &draft, (0, 0, site), &[], &written)?;
        }
    }
    for far in FAR_SITES {
        for (store, n, g, number) in [
            (&draft[..], 0, 0, 24),
            (&draft, 0, 1, 24),
            (&draft, MAX_STATES + 1, MAX_GROUPS + 1, 24),
            (&draft[1..], 0, 1, 10),
        ] {
            let written = expected::write(store, n, g, far, 0);
            same(
                "the plain write at a far site",
                written.answer.refusal,
                number,
            )?;
            let read_back = expected::read(&[], far, store.len());
            same(
                "the plain read at a far site",
                read_back.answer.refusal,
                number,
            )?;
            for library in libraries {
                write(*library, store, (n, g, far), &[], &written)?;
                read(*library, (&[], far), store, &read_back)?;
            }
        }
    }
    Ok(())
}
