//! Wrong lists of crossings.

use compare::outside::stage_sheet;
use compare::sheets::{Lent, Sheet};
use oracle::crossings::ENTRY;
use oracle::outputs::{WANT_CROSSINGS, WANT_PAGE};

use crate::accepted;

/// The entry with its list changed where it is wanted and has entries.
fn with_list(lent: Lent<'_>, change: fn(&mut [u8], usize)) -> usize {
    let Lent {
        wants,
        job,
        plan,
        answer,
        page,
        crossings,
    } = lent;
    let count = stage_sheet(Lent {
        wants,
        job,
        plan,
        answer,
        page,
        crossings,
    });
    if accepted(count) && wants & WANT_CROSSINGS != 0 {
        let entries = usize::from(u16::from_be_bytes([crossings[0], crossings[1]]));
        if entries > 0 {
            change(crossings, entries);
        }
    }
    count
}

fn lists_another_edge(lent: Lent<'_>) -> usize {
    with_list(lent, |list, entries| list[1 + ENTRY * entries] ^= 1)
}

fn lists_one_less(lent: Lent<'_>) -> usize {
    with_list(lent, |list, entries| {
        let less = entries as u16 - 1;
        list[..2].copy_from_slice(&less.to_be_bytes());
    })
}

fn lists_one_twice(lent: Lent<'_>) -> usize {
    with_list(lent, |list, entries| {
        if entries > 1 {
            list.copy_within(2..2 + ENTRY, 2 + ENTRY);
        }
    })
}

/// By x, then y.
fn lists_by_x(lent: Lent<'_>) -> usize {
    with_list(lent, |list, entries| {
        let number = |bytes: &[u8]| f64::from_be_bytes(bytes.try_into().expect("eight bytes"));
        let rows = list[2..2 + ENTRY * entries].chunks(ENTRY);
        let mut rows = rows.map(<[u8]>::to_vec).collect::<Vec<_>>();
        rows.sort_by(|left, right| number(&left[..8]).total_cmp(&number(&right[..8])));
        list[2..2 + ENTRY * entries].copy_from_slice(&rows.concat());
    })
}

/// Of equal places the later edge first.
fn lists_ties_in_another_order(lent: Lent<'_>) -> usize {
    with_list(lent, |list, entries| {
        let rows = list[2..2 + ENTRY * entries].chunks(ENTRY);
        let mut rows = rows.map(<[u8]>::to_vec).collect::<Vec<_>>();
        for place in 1..rows.len() {
            if rows[place][..20] == rows[place - 1][..20] && rows[place] != rows[place - 1] {
                rows.swap(place - 1, place);
                break;
            }
        }
        list[2..2 + ENTRY * entries].copy_from_slice(&rows.concat());
    })
}

/// After the shift: less the first node's way.
fn lists_shifted_places(lent: Lent<'_>) -> usize {
    with_list(lent, |list, _| {
        let y = f64::from_be_bytes(list[10..18].try_into().expect("eight bytes"));
        list[10..18].copy_from_slice(&(y + 1.0).to_be_bytes());
    })
}

/// As if 16 came before 19.
fn says_16_before_19(lent: Lent<'_>) -> usize {
    let off_grid = lent.wants & WANT_PAGE != 0 && lent.job.get(5).is_some_and(|bits| bits & 4 == 0);
    let answer = lent.answer.as_mut_ptr();
    let count = stage_sheet(lent);
    // SAFETY: the sixth byte of a notice that was just written.
    unsafe {
        if count == 6 && off_grid && answer.add(5).read() == 19 {
            answer.add(5).write(16);
        }
    }
    count
}

fn lists_unasked(lent: Lent<'_>) -> usize {
    let wants = match lent.crossings.len() {
        24_578.. => lent.wants | WANT_CROSSINGS,
        _ => lent.wants,
    };
    stage_sheet(Lent { wants, ..lent })
}

fn takes_a_short_list(lent: Lent<'_>) -> usize {
    match lent.crossings.len() {
        24_577 => stage_sheet(Lent {
            wants: lent.wants & !WANT_CROSSINGS,
            ..lent
        }),
        _ => stage_sheet(lent),
    }
}

pub const WRONG_LISTS: [(&str, Sheet); 9] = [
    ("another edge", lists_another_edge),
    ("one crossing less", lists_one_less),
    ("one crossing twice", lists_one_twice),
    ("by x first", lists_by_x),
    ("ties in another order", lists_ties_in_another_order),
    ("places after a shift", lists_shifted_places),
    ("16 before 19", says_16_before_19),
    ("a list unasked", lists_unasked),
    ("a short list", takes_a_short_list),
];
