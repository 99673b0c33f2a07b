//! Faults of a call, alone and together: the first refusal in their order decides.

use crate::ends::LINE;
use crate::sites::Numbers;

/// A change that puts a fault into a call, and the fault's refusal.
pub type Fault<Call> = (fn(&mut Call), u8);

/// In M2's slices, in the order of the refusals; 5 stands before 4, for it is at an earlier link.
pub fn of_table<Call: AsMut<Numbers>>() -> Vec<Fault<Call>> {
    vec![
        (|call| call.as_mut().lent[3] = 2, 8),
        (|call| call.as_mut().probes = 0, 3),
        (|call| call.as_mut().set_link(1, 0, 1), 5),
        (|call| call.as_mut().set_link(2, 2, 2), 4),
    ]
}

/// In the line of a frame of table 0001, in the order of the refusals.
pub fn of_line<Call: AsMut<Vec<u8>>>() -> Vec<Fault<Call>> {
    vec![
        (|call| call.as_mut().truncate(LINE - 1), 1),
        (|call| call.as_mut()[9] = b'A', 2),
        (|call| call.as_mut()[0] = b'f', 9),
        (|call| call.as_mut()[2] = b'1', 23),
    ]
}

/// Makes a call with each choice of the faults, none and all among them; the refusals are those of
/// the chosen ones, in their order. Of two that change the same the earlier stays.
pub fn each_choice<Call>(
    faults: &[Fault<Call>],
    fresh: impl Fn() -> Call,
    mut act: impl FnMut(Call, &[u8]),
) {
    for chosen in 0_u32..1 << faults.len() {
        let mut call = fresh();
        let mut refusals = Vec::new();
        for (place, (put_in, refusal)) in faults.iter().enumerate().rev() {
            if chosen >> place & 1 == 1 {
                put_in(&mut call);
                refusals.insert(0, *refusal);
            }
        }
        act(call, &refusals);
    }
}

/// The first refusal that is none of these.
pub fn first_but(refusals: &[u8], without: &[u8]) -> Option<u8> {
    let mut refusals = refusals.iter().copied();
    refusals.find(|refusal| !without.contains(refusal))
}
