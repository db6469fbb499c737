//! The shares of a time slice. They meet no device.
use crate::raw;

/// The most tunnels of a time slice; the least is 1.
///
/// ```
/// let mut shares = [0; c51::MAX_TUNNELS + 1];
/// let wishes = [5; c51::MAX_TUNNELS + 1];
/// assert_eq!(c51::shares(100, &wishes, &mut shares), Err(c51::SharesRefusal::BadTunnels));
/// assert_eq!(c51::shares(100, &wishes[1..], &mut shares[1..]), Ok(()));
/// assert_eq!(c51::shares(100, &[], &mut []), Err(c51::SharesRefusal::BadTunnels));
/// ```
pub const MAX_TUNNELS: usize = 64;

/// Why shares were refused; the number is the library's code. No other call answers these two, and [`Refusal`](crate::Refusal) has the
/// codes of the others.
#[derive(Clone, Copy, PartialEq, Eq, Hash, Debug)]
#[repr(u8)]
pub enum SharesRefusal {
    BadTunnels = 18,
    BadWish = 19,
}

impl SharesRefusal {
    /// Both, in the order of the codes.
    pub const ALL: [SharesRefusal; 2] = [SharesRefusal::BadTunnels, SharesRefusal::BadWish];

    /// The library's code.
    pub fn code(self) -> u8 {
        self as u8
    }

    /// The refusal of a code, None for 0 and for a code that the call does not have.
    pub fn of_code(code: u8) -> Option<SharesRefusal> {
        SharesRefusal::ALL.into_iter().find(|refusal| refusal.code() == code)
    }
}

impl std::fmt::Display for SharesRefusal {
    fn fmt(&self, f: &mut std::fmt::Formatter) -> std::fmt::Result {
        f.write_str(match self {
            SharesRefusal::BadTunnels => "shares for zero or more than 64 tunnels, or an output of another length",
            SharesRefusal::BadWish => "a time slice or a wish of more than 2^40 cycles",
        })
    }
}

impl std::error::Error for SharesRefusal {}

/// What each tunnel gets that asks for cycles out of one slice: no more than its wish, and at least the smaller of its wish and the slice
/// divided by the number of tunnels, rounded down; what is over then goes round from the first tunnel, each filled to its wish. The
/// shares add up to the smaller of the slice and all wishes. Refused, it leaves them as they were.
///
/// ```
/// use c51::{shares, SharesRefusal, MAX_CYCLES};
///
/// let mut out = [0; 4];
/// shares(10, &[1, 9, 2, 9], &mut out)?; // 2 each, 1 to the first; the 3 that are over go to the second
/// assert_eq!(out, [1, 5, 2, 2]);
/// shares(100, &[1, 9, 2, 9], &mut out)?; // more than all wishes
/// assert_eq!(out, [1, 9, 2, 9]);
/// assert_eq!(shares(10, &[1, 9], &mut out), Err(SharesRefusal::BadTunnels)); // a place for each wish is asked for
/// assert_eq!(shares(10, &[1, 9, 2, MAX_CYCLES + 1], &mut out), Err(SharesRefusal::BadWish));
/// assert_eq!(out, [1, 9, 2, 9]);
/// # Ok::<(), SharesRefusal>(())
/// ```
#[inline]
pub fn shares(slice: u64, wishes: &[u64], shares: &mut [u64]) -> Result<(), SharesRefusal> {
    match raw::shares(slice, wishes, shares) {
        0 => Ok(()),
        code => Err(SharesRefusal::of_code(code).expect("a code of the call")),
    }
}
