//! How often each refusal and each thing that can befall a probe came.

use crate::ends::What;
use crate::reference::WITHDRAWN;

/// 01's and 02's codes of what can befall a probe, as they are printed.
pub const CODES: [&str; 9] = ["00", "01", "02", "03", "04", "05", "06", "07", "08"];

/// One more than the largest refusal's number.
const NUMBERS: usize = 33;

#[derive(Debug)]
pub struct Tally {
    /// By the refusal's number.
    pub refused: [usize; NUMBERS],
    /// By the code.
    pub befell: [usize; CODES.len()],
}

impl Default for Tally {
    fn default() -> Tally {
        Tally {
            refused: [0; NUMBERS],
            befell: [0; CODES.len()],
        }
    }
}

impl Tally {
    pub fn count(&mut self, answer: Result<What, u8>) {
        match answer {
            Ok(what) => self.befell[what.numbers()[0] as usize] += 1,
            Err(refusal) => self.refused[usize::from(refusal)] += 1,
        }
    }

    /// What befell with each frame of a bag, or its refusal.
    pub fn count_bag(&mut self, answer: &Result<Vec<What>, u8>) {
        match answer {
            Ok(befell) => befell.iter().for_each(|&what| self.count(Ok(what))),
            Err(refusal) => self.count(Err(*refusal)),
        }
    }

    /// Each of these refusals came often, and the withdrawn ones never.
    #[track_caller]
    pub fn assert_often(&self, refusals: &[usize]) {
        assert_eq!(
            WITHDRAWN.map(|number| self.refused[usize::from(number)]),
            [0; 2]
        );
        let often = |&refusal: &usize| self.refused[refusal] > 300;
        assert!(refusals.iter().all(often), "{self:?}");
    }

    /// Each code came so often.
    #[track_caller]
    pub fn assert_each_befell(&self, times: usize) {
        assert!(self.befell.iter().all(|&befell| befell > times), "{self:?}");
    }

    /// Each code but a restart's came so often, and that one never.
    #[track_caller]
    pub fn assert_each_befell_an_end(&self, times: usize) {
        let [others @ .., restarted] = &self.befell;
        assert!(others.iter().all(|&befell| befell > times), "{self:?}");
        assert_eq!(*restarted, 0);
    }

    pub fn answers(&self) -> usize {
        self.refused.iter().chain(&self.befell).sum()
    }
}
